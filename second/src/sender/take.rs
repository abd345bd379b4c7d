//! What a sender makes of an ACK.

use super::Sender;
use crate::refusal::Refusal;
use crate::wire::{self, Body, End, Entry};

#[derive(Clone, Copy, Debug, PartialEq, Eq)]
pub enum Taken {
    Noted,
    PassedOver,
}

impl Sender {
    pub fn take(&mut self, datagram: &[u8]) -> Result<Taken, Refusal> {
        let Body::Ack(ack) = wire::read(End::Sender, datagram)?.body else {
            unreachable!("a sender reads only ACKs");
        };
        let counting = |entry| Some((self.row_of(ack.sender, entry)?, entry));
        let counted: Vec<(usize, &Entry)> = ack.entries.iter().filter_map(counting).collect();
        for &(row, entry) in &counted {
            self.judge(row, entry)?;
        }
        self.roster.heard_from(ack.sender);
        for (row, entry) in &counted {
            if let Some(submission) = self.submitted_mut(*row) {
                submission.note(ack.sender, &entry.missing);
            }
        }
        Ok(if counted.is_empty() {
            Taken::PassedOver
        } else {
            Taken::Noted
        })
    }

    /// The row for which an entry counts, if there is one.
    fn row_of(&self, from: u32, entry: &Entry) -> Option<usize> {
        let row = self.place(entry.message)?;
        let submission = self.submitted(row)?;
        let counts = entry.source == self.source
            && submission.is_underway()
            && submission.message.destination(from).is_some();
        counts.then_some(row)
    }

    fn judge(&self, row: usize, entry: &Entry) -> Result<(), Refusal> {
        let total = self.submitted(row).map_or(0, |it| it.message.total);
        if entry.missing.iter().any(|&number| number > total) {
            return Err(Refusal::AgainstRow { row });
        }
        Ok(())
    }
}
