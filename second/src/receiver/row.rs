//! The rows and the records of a receiver.

use crate::clock;
use crate::numbers::Numbers;

#[derive(Clone, Copy, Debug)]
pub struct Label {
    pub source: u32,
    pub identity: u32,
    pub priority: u8,
    pub arrival: u32,
}

#[derive(Debug)]
pub struct Row {
    pub label: Label,
    pub state: State,
}

#[derive(Debug)]
pub enum State {
    /// Data came, and no Address.
    Loose {
        goes: u64,
        held: Numbers,
    },
    Open {
        terms: Terms,
        ack: Option<u64>,
        /// When it raises an ACK if no new Data comes.
        quiet: Option<u64>,
        held: Numbers,
    },
    Complete {
        terms: Terms,
        ack: Option<u64>,
    },
}

/// What the Address of a message said.
#[derive(Clone, Copy, Debug, PartialEq, Eq)]
pub struct Terms {
    pub total: u16,
    pub expiry: u32,
}

/// What is kept of a message that was handed over.
#[derive(Debug)]
pub struct Record {
    pub label: Label,
    pub expiry: u32,
    pub ack: Option<u64>,
}

impl Label {
    pub fn is_of(&self, source: u32, identity: u32) -> bool {
        self.source == source && self.identity == identity
    }

    /// What is served first: the lowest priority number, then what came first.
    pub fn rank(&self) -> (u8, u32) {
        (self.priority, self.arrival)
    }
}

impl Row {
    /// When the row is vacated; a complete one stays.
    pub fn goes_at(&self) -> Option<u64> {
        match self.state {
            State::Loose { goes, .. } => Some(goes),
            State::Open { terms, .. } => Some(clock::moment(terms.expiry)),
            State::Complete { .. } => None,
        }
    }

    /// The time of its ACK, if one is raised.
    pub fn ack(&self) -> Option<u64> {
        match self.state {
            State::Loose { .. } => None,
            State::Open { ack, .. } | State::Complete { ack, .. } => ack,
        }
    }

    /// The same, to be changed: a loose row has no ACK.
    pub fn ack_mut(&mut self) -> Option<&mut Option<u64>> {
        match &mut self.state {
            State::Loose { .. } => None,
            State::Open { ack, .. } | State::Complete { ack, .. } => Some(ack),
        }
    }
}
