//! The sender, by docs/SENDER.md.

mod drafts;
mod message;
mod poll;
mod roster;
mod row;
mod survey;
mod take;

pub use drafts::{DraftId, Terms};
pub use message::Standing;
pub use take::Taken;

use crate::clock;
use crate::numbers::Numbers;
use crate::refusal::Refusal;
use crate::store::{Store, ROWS};
use message::Destination;
use roster::Roster;
use row::{Row, State, Submission};

#[derive(Debug)]
pub struct Sender {
    source: u32,
    /// The identity of the next draft, none if the last one was used.
    next: Option<u32>,
    now: u64,
    roster: Roster,
    rows: [Row; ROWS],
    store: Store,
}

impl Sender {
    pub fn new(source: u32, first: u32, store: Store) -> Result<Sender, Refusal> {
        if first == 0 {
            return Err(Refusal::Identity { value: first });
        }
        Ok(Sender {
            source,
            next: Some(first),
            now: 0,
            roster: Roster::default(),
            rows: std::array::from_fn(|_| Row::Vacant),
            store,
        })
    }

    pub fn source(&self) -> u32 {
        self.source
    }

    pub fn enrol(&mut self, destination: u32) -> Result<(), Refusal> {
        self.roster.enrol(destination)
    }

    pub fn silence(&mut self, destination: u32, silent: bool) -> Result<(), Refusal> {
        self.roster.silence(destination, silent)
    }

    pub fn tick(&mut self, clock: u64) -> Result<(), Refusal> {
        clock::judge(clock, self.now)?;
        self.now = clock;
        for (place, row) in self.rows.iter_mut().enumerate() {
            if let Row::Submitted(submission) = row {
                submission.step(clock, &self.roster);
                if matches!(submission.state, State::Ended) {
                    self.store.free(place);
                }
            }
        }
        Ok(())
    }

    pub fn standing(&self, identity: u32, destination: u32) -> Result<Standing, Refusal> {
        Ok(self.asked(identity, destination)?.standing)
    }

    pub fn lacking(&self, identity: u32, destination: u32) -> Result<&Numbers, Refusal> {
        Ok(&self.asked(identity, destination)?.missing)
    }

    fn asked(&self, identity: u32, destination: u32) -> Result<&Destination, Refusal> {
        let unknown = |named| Refusal::Unknown { named };
        let row = self.place(identity).ok_or(unknown(identity))?;
        let message = &self.submitted(row).ok_or(unknown(identity))?.message;
        message.destination(destination).ok_or(unknown(destination))
    }

    pub fn forget(&mut self, identity: u32) -> Result<(), Refusal> {
        let unknown = Refusal::Unknown { named: identity };
        let row = self.place(identity).ok_or(unknown)?;
        match self.submitted(row).ok_or(unknown)?.state.unended() {
            Some(state) => Err(Refusal::NotEnded { state }),
            None => {
                self.rows[row] = Row::Vacant;
                Ok(())
            }
        }
    }

    /// The row of the message with this identity, submitted or draft: a
    /// sender gives each identity once.
    fn place(&self, identity: u32) -> Option<usize> {
        self.rows
            .iter()
            .position(|row| row.identity() == Some(identity))
    }

    fn submitted(&self, row: usize) -> Option<&Submission> {
        match &self.rows[row] {
            Row::Submitted(submission) => Some(submission),
            Row::Vacant | Row::Draft { .. } => None,
        }
    }

    fn submitted_mut(&mut self, row: usize) -> Option<&mut Submission> {
        match &mut self.rows[row] {
            Row::Submitted(submission) => Some(submission),
            Row::Vacant | Row::Draft { .. } => None,
        }
    }
}

#[cfg(test)]
mod tests;
