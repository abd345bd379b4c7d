//! The answers to calls, and how they are printed.

use super::words::{digits, listed};
use crate::numbers::Numbers;
use crate::receiver::{self, Collected};
use crate::refusal::Refusal;
use crate::sender::{self, Standing};
use std::fmt;

#[derive(Debug)]
pub enum Answer {
    Made,
    Done,
    Draft(u32),
    Noted(sender::Taken),
    Taken(receiver::Taken),
    Wrote(Vec<u8>),
    Standing(Standing),
    Missing(Numbers),
    Message(Collected),
    Refused(Refusal),
    Malformed,
}

/// The answer to a call that may be refused.
pub fn answer<T>(result: Result<T, Refusal>, accepted: impl FnOnce(T) -> Answer) -> Answer {
    result.map_or_else(Answer::Refused, accepted)
}

impl fmt::Display for Answer {
    fn fmt(&self, f: &mut fmt::Formatter) -> fmt::Result {
        match self {
            Answer::Made => f.write_str("made"),
            Answer::Done => f.write_str("ok"),
            Answer::Draft(identity) => write!(f, "draft {identity}"),
            Answer::Noted(taken) => write!(f, "{taken}"),
            Answer::Taken(taken) => write!(f, "{taken}"),
            Answer::Wrote(octets) => write!(f, "wrote {}", digits(octets)),
            Answer::Standing(standing) => write!(f, "{standing}"),
            Answer::Missing(set) => {
                let (count, top) = (set.count(), set.top());
                write!(f, "missing {count} {top} {}", listed(set.rising()))
            }
            Answer::Message(message) => {
                let (source, identity) = (message.source, message.identity);
                let (length, octets) = (message.octets.len(), digits(&message.octets));
                write!(f, "message {source} {identity} {length} {octets}")
            }
            Answer::Refused(refusal) => write!(f, "refused {refusal}"),
            Answer::Malformed => f.write_str("malformed"),
        }
    }
}

impl fmt::Display for sender::Taken {
    fn fmt(&self, f: &mut fmt::Formatter) -> fmt::Result {
        f.write_str(match self {
            sender::Taken::Noted => "noted",
            sender::Taken::PassedOver => "passed over",
        })
    }
}

impl fmt::Display for receiver::Taken {
    fn fmt(&self, f: &mut fmt::Formatter) -> fmt::Result {
        f.write_str(match self {
            receiver::Taken::Kept => "kept",
            receiver::Taken::Complete => "complete",
            receiver::Taken::Again => "again",
            receiver::Taken::Noted => "noted",
            receiver::Taken::Dropped => "dropped",
            receiver::Taken::PassedOver => "passed over",
        })
    }
}
