//! A submitted message, and what its destinations have of it.

use crate::numbers::Numbers;
use std::fmt;

#[derive(Debug)]
pub struct Message {
    pub identity: u32,
    pub total: u16,
    pub priority: u8,
    pub expiry: u32,
    pub destinations: Vec<Destination>,
}

#[derive(Debug)]
pub struct Destination {
    pub id: u32,
    pub sequence_number: u32,
    pub standing: Standing,
    pub missing: Numbers,
}

#[derive(Clone, Copy, Debug, PartialEq, Eq)]
pub enum Standing {
    Waiting,
    Complete,
    Expired,
}

impl fmt::Display for Standing {
    fn fmt(&self, f: &mut fmt::Formatter) -> fmt::Result {
        f.write_str(match self {
            Standing::Waiting => "waiting",
            Standing::Complete => "complete",
            Standing::Expired => "expired",
        })
    }
}

impl Message {
    pub fn destination(&self, id: u32) -> Option<&Destination> {
        self.destinations
            .iter()
            .find(|destination| destination.id == id)
    }

    pub fn open(&self) -> impl Iterator<Item = &Destination> {
        self.destinations
            .iter()
            .filter(|destination| destination.standing == Standing::Waiting)
    }

    pub fn all_complete(&self) -> bool {
        self.destinations
            .iter()
            .all(|destination| destination.standing == Standing::Complete)
    }

    /// Lets the open destinations expire; what they lacked stays.
    pub fn expire(&mut self) {
        for destination in &mut self.destinations {
            if destination.standing == Standing::Waiting {
                destination.standing = Standing::Expired;
            }
        }
    }

    /// Notes the list of an ACK's entry, of numbers up to the total.
    pub fn note(&mut self, from: u32, list: &[u16]) {
        let total = self.total;
        let found = self
            .destinations
            .iter_mut()
            .find(|destination| destination.id == from);
        if let Some(destination) = found {
            destination.note(total, list);
        }
    }
}

impl Destination {
    fn note(&mut self, total: u16, list: &[u16]) {
        if list.is_empty() {
            self.standing = Standing::Complete;
            self.missing = Numbers::none();
        } else if self.standing != Standing::Complete {
            for number in (1..=total).filter(|&number| covers(list, number)) {
                self.missing.set(number, false);
            }
            for number in list {
                self.missing.set(*number, true);
            }
        }
    }
}

/// Whether some adjacent pair of a list covers a number.
fn covers(list: &[u16], number: u16) -> bool {
    list.windows(2).any(|pair| {
        let (a, b) = (pair[0], pair[1]);
        if a < b {
            a < number && number < b
        } else {
            number > a || number < b
        }
    })
}
