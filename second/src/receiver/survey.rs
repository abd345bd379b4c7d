//! How a receiver stands, for whoever wants to drive it to its edges.

use super::row::{Label, State};
use super::Receiver;
use crate::clock;

impl Receiver {
    pub fn now(&self) -> u64 {
        self.now
    }

    pub fn width(&self) -> u16 {
        self.store.width()
    }

    pub fn limit(&self) -> u16 {
        self.store.limit()
    }

    pub fn vacancies(&self) -> usize {
        self.rows.iter().filter(|row| row.is_none()).count()
    }

    /// The labels of the rows.
    pub fn labels(&self) -> Vec<Label> {
        self.rows.iter().flatten().map(|row| row.label).collect()
    }

    /// The expiries of the records.
    pub fn record_expiries(&self) -> Vec<u32> {
        self.records.iter().map(|record| record.expiry).collect()
    }

    /// The clocks at which something is done, or an ACK goes out.
    pub fn moments(&self) -> Vec<u64> {
        let mut moments = Vec::new();
        for row in self.rows.iter().flatten() {
            moments.extend(row.ack());
            moments.extend(row.goes_at());
            if let State::Open { quiet, .. } = row.state {
                moments.extend(quiet);
            }
        }
        for record in &self.records {
            moments.extend(record.ack);
            moments.push(clock::moment(record.expiry));
        }
        moments
    }
}
