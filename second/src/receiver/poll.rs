//! Which ACK a receiver writes next, and which message it hands over.

use super::row::{Label, Record, Row, State};
use super::{Receiver, MOST_RECORDS};
use crate::refusal::{judge_buffer, Refusal};
use crate::wire::write::{self, Heading};

/// The most missing numbers that an ACK lists.
const MOST_LISTED: usize = 32;

/// A message that is handed over.
#[derive(Debug, PartialEq, Eq)]
pub struct Collected {
    pub source: u32,
    pub identity: u32,
    pub octets: Vec<u8>,
}

/// Where an ACK comes from.
#[derive(Clone, Copy)]
enum Origin {
    Row(usize),
    Record(usize),
}

impl Receiver {
    /// Writes an ACK into a buffer of this length, if it fits.
    pub fn poll(&mut self, buffer: usize) -> Result<Vec<u8>, Refusal> {
        let (label, origin) = self.foremost_ack().ok_or(Refusal::NothingDue)?;
        let heading = Heading {
            priority: label.priority,
            source: label.source,
            message: label.identity,
        };
        let missing = match origin {
            Origin::Row(place) => self.row(place).missing(),
            Origin::Record(_) => vec![],
        };
        let octets = write::ack(self.identity, heading, &missing);
        judge_buffer(buffer, octets.len())?;
        match origin {
            Origin::Row(place) => {
                if let Some(ack) = self.row_mut(place).ack_mut() {
                    *ack = None;
                }
            }
            Origin::Record(place) => self.records[place].ack = None,
        }
        Ok(octets)
    }

    /// The foremost ACK whose time has come.
    fn foremost_ack(&self) -> Option<(Label, Origin)> {
        let rows = self.rows.iter().enumerate().filter_map(|(place, row)| {
            let row = row.as_ref()?;
            Some((row.label, row.ack()?, Origin::Row(place)))
        });
        let records = self.records.iter().enumerate();
        let records = records
            .filter_map(|(place, record)| Some((record.label, record.ack?, Origin::Record(place))));
        rows.chain(records)
            .filter(|(_, time, _)| self.now >= *time)
            .min_by_key(|(label, _, _)| label.rank())
            .map(|(label, _, origin)| (label, origin))
    }

    /// Hands a message over into a buffer of this length, if it fits.
    pub fn collect(&mut self, buffer: usize) -> Result<Collected, Refusal> {
        let (place, record) = self.foremost_complete().ok_or(Refusal::NothingDue)?;
        let octets = self.store.joined(place);
        judge_buffer(buffer, octets.len())?;
        if self.records.len() == MOST_RECORDS {
            return Err(Refusal::RecordsFull);
        }
        let (source, identity) = (record.label.source, record.label.identity);
        self.records.push(record);
        self.vacate(place);
        Ok(Collected {
            source,
            identity,
            octets,
        })
    }

    /// The foremost complete row, and the record that it leaves.
    fn foremost_complete(&self) -> Option<(usize, Record)> {
        let complete = self.rows.iter().enumerate().filter_map(|(place, row)| {
            let Row { label, state } = row.as_ref()?;
            let State::Complete { terms, ack } = state else {
                return None;
            };
            let record = Record {
                label: *label,
                expiry: terms.expiry,
                ack: *ack,
            };
            Some((place, record))
        });
        complete.min_by_key(|(_, record)| record.label.rank())
    }
}

impl Row {
    /// The numbers that the entry of its ACK lists.
    fn missing(&self) -> Vec<u16> {
        let State::Open { terms, held, .. } = &self.state else {
            return Vec::new();
        };
        let mut listed: Vec<u16> = held.lacking(terms.total).collect();
        if listed.len() > MOST_LISTED {
            listed.truncate(MOST_LISTED);
        } else {
            listed.extend(listed.first().copied());
        }
        listed
    }
}
