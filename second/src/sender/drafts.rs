//! Drafts: messages that are not submitted yet.

use super::message::{Destination, Message, Standing};
use super::row::{Row, State, Submission};
use super::Sender;
use crate::clock;
use crate::numbers::{Numbers, NUMBERS};
use crate::refusal::Refusal;

const LAST_IDENTITY: u32 = u32::MAX;

/// A draft, by the source of the sender that began it and its identity.
#[derive(Clone, Copy, Debug, PartialEq, Eq)]
pub struct DraftId {
    pub source: u32,
    pub identity: u32,
}

/// How a message is to be sent, and to whom.
#[derive(Debug)]
pub struct Terms {
    pub priority: u8,
    pub expiry: u32,
    pub destinations: Vec<u32>,
}

impl Sender {
    pub fn begin(&mut self) -> Result<u32, Refusal> {
        let mut rows = self.rows.iter_mut();
        let vacant = rows
            .find(|row| matches!(row, Row::Vacant))
            .ok_or(Refusal::NoVacantRow)?;
        let identity = self.next.ok_or(Refusal::Identity {
            value: LAST_IDENTITY,
        })?;
        *vacant = Row::Draft {
            identity,
            fragments: 0,
        };
        self.next = identity.checked_add(1);
        Ok(identity)
    }

    pub fn append(&mut self, draft: DraftId, octets: &[u8]) -> Result<(), Refusal> {
        self.store.judge(octets)?;
        let (row, fragments) = self.draft(draft)?;
        if fragments == NUMBERS {
            return Err(Refusal::Fragments { count: fragments });
        }
        let fragments = fragments + 1;
        self.store.put(row, fragments, octets);
        self.rows[row] = Row::Draft {
            identity: draft.identity,
            fragments,
        };
        Ok(())
    }

    pub fn withdraw(&mut self, draft: DraftId) -> Result<(), Refusal> {
        let (row, _) = self.draft(draft)?;
        self.rows[row] = Row::Vacant;
        self.store.free(row);
        Ok(())
    }

    pub fn submit(&mut self, draft: DraftId, terms: &Terms) -> Result<(), Refusal> {
        let expiry = terms.expiry;
        if clock::reached(expiry, self.now) {
            return Err(Refusal::Expired { expiry });
        }
        let (row, total) = self.draft(draft)?;
        self.roster.judge(&terms.destinations)?;
        if total == 0 {
            return Err(Refusal::Fragments { count: total });
        }
        let message = self.message(draft.identity, total, terms);
        self.rows[row] = Row::Submitted(Submission {
            message,
            state: State::first_round(total),
        });
        Ok(())
    }

    /// Whether a draft of this identity was begun here and is not spent.
    pub fn holds_draft(&self, identity: u32) -> bool {
        let source = self.source;
        self.draft(DraftId { source, identity }).is_ok()
    }

    /// The row of a draft and the count of its fragments.
    fn draft(&self, draft: DraftId) -> Result<(usize, u16), Refusal> {
        let unknown = Refusal::Unknown {
            named: draft.identity,
        };
        let row = self.place(draft.identity).ok_or(unknown)?;
        match self.rows[row] {
            Row::Draft { fragments, .. } if draft.source == self.source => Ok((row, fragments)),
            _ => Err(unknown),
        }
    }

    fn message(&mut self, identity: u32, total: u16, terms: &Terms) -> Message {
        let destinations = terms.destinations.iter().map(|&id| Destination {
            id,
            sequence_number: self.roster.count(id),
            standing: Standing::Waiting,
            missing: Numbers::up_to(total),
        });
        Message {
            identity,
            total,
            priority: terms.priority,
            expiry: terms.expiry,
            destinations: destinations.collect(),
        }
    }
}
