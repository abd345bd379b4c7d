//! Why a call at an end is refused, by docs/REFUSALS.md.
//!
//! Cause 20 is not among these: no end makes it.

use crate::wire;
use std::fmt;

#[derive(Clone, Copy, Debug, PartialEq, Eq)]
pub enum Refusal {
    Wire(wire::Refusal),
    Clock { now: u64 },
    Expired { expiry: u32 },
    NoVacantRow,
    AgainstRow { row: usize },
    StoreFull { limit: u16 },
    Fragment { width: u16 },
    Buffer { needed: usize },
    NothingDue,
    RecordsFull,
    Unknown { named: u32 },
    Identity { value: u32 },
    Destinations { place: usize },
    Fragments { count: u16 },
    NotEnded { state: Unended },
    StoreSize { value: u16 },
}

/// The state of a submitted row that is not ended.
#[derive(Clone, Copy, Debug, PartialEq, Eq)]
pub enum Unended {
    Sending,
    Waiting,
    Ending,
    Closing,
}

impl From<wire::Refusal> for Refusal {
    fn from(refusal: wire::Refusal) -> Refusal {
        Refusal::Wire(refusal)
    }
}

/// The number, then the values.
impl fmt::Display for Refusal {
    fn fmt(&self, f: &mut fmt::Formatter) -> fmt::Result {
        match self {
            Refusal::Wire(refusal) => write!(f, "{refusal}"),
            Refusal::Clock { now } => write!(f, "6 {now}"),
            Refusal::Expired { expiry } => write!(f, "7 {expiry}"),
            Refusal::NoVacantRow => write!(f, "8 8"),
            Refusal::AgainstRow { row } => write!(f, "9 {row}"),
            Refusal::StoreFull { limit } => write!(f, "10 {limit}"),
            Refusal::Fragment { width } => write!(f, "11 {width}"),
            Refusal::Buffer { needed } => write!(f, "12 {needed}"),
            Refusal::NothingDue => write!(f, "13"),
            Refusal::RecordsFull => write!(f, "14 32"),
            Refusal::Unknown { named } => write!(f, "15 {named}"),
            Refusal::Identity { value } => write!(f, "16 {value}"),
            Refusal::Destinations { place } => write!(f, "17 {place}"),
            Refusal::Fragments { count } => write!(f, "18 {count}"),
            Refusal::NotEnded { state } => write!(f, "19 {state}"),
            Refusal::StoreSize { value } => write!(f, "21 {value}"),
        }
    }
}

impl fmt::Display for wire::Refusal {
    fn fmt(&self, f: &mut fmt::Formatter) -> fmt::Result {
        match self {
            wire::Refusal::Size { length } => write!(f, "1 {length}"),
            wire::Refusal::Length { field, length } => write!(f, "2 {field} {length}"),
            wire::Refusal::Checksum { field, right } => write!(f, "3 {field} {right}"),
            wire::Refusal::Type { pdu_type } => write!(f, "4 {pdu_type}"),
            wire::Refusal::Field { place } => write!(f, "5 {place}"),
        }
    }
}

impl fmt::Display for Unended {
    fn fmt(&self, f: &mut fmt::Formatter) -> fmt::Result {
        f.write_str(match self {
            Unended::Sending => "sending",
            Unended::Waiting => "waiting",
            Unended::Ending => "ending",
            Unended::Closing => "closing",
        })
    }
}

/// Judges the length of the buffer that a caller lends.
pub fn judge_buffer(length: usize, needed: usize) -> Result<(), Refusal> {
    if length < needed {
        return Err(Refusal::Buffer { needed });
    }
    Ok(())
}
