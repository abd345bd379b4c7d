//! Which PDU a sender writes next, and what it leaves.

use super::message::Message;
use super::roster::Roster;
use super::row::{Row, State, Submission};
use super::Sender;
use crate::refusal::{judge_buffer, Refusal};
use crate::wire::write::{self, Addressed, Heading};

/// How long a row waits if none of its open destinations answers.
const SILENT_WAIT: u64 = 3_600_000;
/// How long an ending row waits for a destination that missed its Address.
const ENDING_WAIT: u64 = 30_000;

/// The PDU of a row that is due next.
#[derive(Clone, Copy)]
enum Due {
    Discard,
    Address,
    Data(u16),
}

impl Sender {
    /// Writes a PDU into a buffer of this length, if it fits.
    pub fn poll(&mut self, buffer: usize) -> Result<Vec<u8>, Refusal> {
        let (place, due) = self.foremost().ok_or(Refusal::NothingDue)?;
        let Row::Submitted(submission) = &mut self.rows[place] else {
            unreachable!("only submitted rows have something due");
        };
        let message = &submission.message;
        let heading = Heading {
            priority: message.priority,
            source: self.source,
            message: message.identity,
        };
        let octets = match due {
            Due::Discard => write::discard(heading),
            Due::Address => address(heading, message),
            Due::Data(number) => write::data(heading, number, self.store.get(place, number)),
        };
        judge_buffer(buffer, octets.len())?;
        submission.wrote(due, self.now, &self.roster);
        if matches!(submission.state, State::Ended) {
            self.store.free(place);
        }
        Ok(octets)
    }

    /// The foremost row that has something due, by priority and identity.
    fn foremost(&self) -> Option<(usize, Due)> {
        let waiting = self.rows.iter().enumerate().filter_map(|(place, row)| {
            let Row::Submitted(submission) = row else {
                return None;
            };
            let message = &submission.message;
            let rank = (message.priority, message.identity);
            Some((rank, place, submission.due()?))
        });
        let (_, place, due) = waiting.min_by_key(|(rank, _, _)| *rank)?;
        Some((place, due))
    }
}

/// An Address to the open destinations.
fn address(heading: Heading, message: &Message) -> Vec<u8> {
    let listed: Vec<Addressed> = message
        .open()
        .map(|destination| Addressed {
            id: destination.id,
            sequence_number: destination.sequence_number,
        })
        .collect();
    write::address(heading, message.total, message.expiry, &listed)
}

impl Submission {
    fn due(&self) -> Option<Due> {
        match &self.state {
            State::Sending {
                address_due: true, ..
            } => Some(Due::Address),
            State::Sending { numbers_due, .. } => numbers_due.lowest().map(Due::Data),
            State::Ending { deadline: None, .. } => Some(Due::Address),
            State::Closing => Some(Due::Discard),
            State::Waiting { .. } | State::Ending { .. } | State::Ended => None,
        }
    }

    /// Notes that a PDU which was due is written.
    fn wrote(&mut self, due: Due, now: u64, roster: &Roster) {
        match &mut self.state {
            State::Sending {
                address_due,
                numbers_due,
                ..
            } => {
                match due {
                    Due::Data(number) => numbers_due.set(number, false),
                    Due::Address | Due::Discard => *address_due = false,
                }
                if numbers_due.is_empty() {
                    self.wait(now, roster);
                }
            }
            State::Ending { .. } => {
                self.state = State::Ending {
                    deadline: Some(now + ENDING_WAIT),
                    counted: false,
                };
            }
            State::Closing => self.state = State::Ended,
            State::Waiting { .. } | State::Ended => {}
        }
    }

    /// Lets a row that has sent all wait.
    fn wait(&mut self, now: u64, roster: &Roster) {
        let State::Sending { pace, .. } = self.state else {
            return;
        };
        let mut open = self.message.open();
        let answered = open.any(|destination| roster.is_answering(destination.id));
        let wait = if answered { pace.wait } else { SILENT_WAIT };
        self.state = State::Waiting {
            deadline: now + wait,
            pace,
        };
    }
}
