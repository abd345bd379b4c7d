//! How a sender stands, for whoever wants to drive it to its edges.

use super::message::Message;
use super::row::{Row, State};
use super::Sender;
use crate::clock;

impl Sender {
    pub fn now(&self) -> u64 {
        self.now
    }

    pub fn width(&self) -> u16 {
        self.store.width()
    }

    pub fn limit(&self) -> u16 {
        self.store.limit()
    }

    pub fn is_enrolled(&self, id: u32) -> bool {
        self.roster.has(id)
    }

    pub fn vacancies(&self) -> usize {
        let rows = self.rows.iter();
        rows.filter(|row| matches!(row, Row::Vacant)).count()
    }

    /// The identities of the drafts.
    pub fn drafts(&self) -> Vec<u32> {
        let rows = self.rows.iter();
        rows.filter(|row| matches!(row, Row::Draft { .. }))
            .filter_map(Row::identity)
            .collect()
    }

    /// The submitted messages.
    pub fn messages(&self) -> Vec<&Message> {
        (0..self.rows.len())
            .filter_map(|row| Some(&self.submitted(row)?.message))
            .collect()
    }

    /// The clocks at which a tick finds something to do.
    pub fn moments(&self) -> Vec<u64> {
        let mut moments = Vec::new();
        for row in 0..self.rows.len() {
            let Some(submission) = self.submitted(row) else {
                continue;
            };
            match submission.state {
                State::Waiting { deadline, .. } => moments.push(deadline),
                State::Ending { deadline, .. } => moments.extend(deadline),
                State::Sending { .. } => {}
                State::Closing | State::Ended => continue,
            }
            moments.push(clock::moment(submission.message.expiry));
        }
        moments
    }
}
