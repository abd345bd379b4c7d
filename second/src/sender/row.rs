//! The rows of a sender, and the steps that a tick makes them take.

use super::message::{Destination, Message};
use super::roster::Roster;
use crate::clock;
use crate::numbers::Numbers;
use crate::refusal::Unended;

const FIRST_WAIT: u64 = 8_000;
const LONGEST_WAIT: u64 = 600_000;
const MOST_SILENT_ROUNDS: u8 = 4;

#[derive(Debug)]
pub enum Row {
    Vacant,
    Draft { identity: u32, fragments: u16 },
    Submitted(Submission),
}

#[derive(Debug)]
pub struct Submission {
    pub message: Message,
    pub state: State,
}

#[derive(Debug)]
pub enum State {
    Sending {
        address_due: bool,
        numbers_due: Numbers,
        pace: Pace,
    },
    Waiting {
        deadline: u64,
        pace: Pace,
    },
    Ending {
        /// None while the Address is due.
        deadline: Option<u64>,
        /// Whether an entry counted since the last Address.
        counted: bool,
    },
    Closing,
    Ended,
}

/// How long a row waits, and how often it sent to silent destinations alone.
#[derive(Clone, Copy, Debug)]
pub struct Pace {
    pub wait: u64,
    silent_rounds: u8,
}

impl Row {
    pub fn identity(&self) -> Option<u32> {
        match self {
            Row::Vacant => None,
            Row::Draft { identity, .. } => Some(*identity),
            Row::Submitted(submission) => Some(submission.message.identity),
        }
    }
}

impl State {
    /// A round that sends the Address and these numbers.
    fn round(numbers_due: Numbers, pace: Pace) -> State {
        State::Sending {
            address_due: true,
            numbers_due,
            pace,
        }
    }

    pub fn first_round(total: u16) -> State {
        let pace = Pace {
            wait: FIRST_WAIT,
            silent_rounds: 0,
        };
        State::round(Numbers::up_to(total), pace)
    }

    /// The state as refusal 19 tells it; none of an ended row.
    pub fn unended(&self) -> Option<Unended> {
        match self {
            State::Sending { .. } => Some(Unended::Sending),
            State::Waiting { .. } => Some(Unended::Waiting),
            State::Ending { .. } => Some(Unended::Ending),
            State::Closing => Some(Unended::Closing),
            State::Ended => None,
        }
    }
}

impl Submission {
    pub fn is_underway(&self) -> bool {
        match self.state {
            State::Sending { .. } | State::Waiting { .. } | State::Ending { .. } => true,
            State::Closing | State::Ended => false,
        }
    }

    /// Notes an entry that counts, of the destination `from`.
    pub fn note(&mut self, from: u32, list: &[u16]) {
        self.message.note(from, list);
        match &mut self.state {
            State::Sending { .. } | State::Waiting { .. } => {
                if self.message.all_complete() {
                    self.state = State::Ending {
                        deadline: None,
                        counted: true,
                    };
                }
            }
            State::Ending { counted, .. } => *counted = true,
            State::Closing | State::Ended => {}
        }
    }

    /// Makes the step of a tick, if there is one to make.
    pub fn step(&mut self, now: u64, roster: &Roster) {
        let expired = clock::reached(self.message.expiry, now);
        match self.state {
            State::Sending { .. } | State::Waiting { .. } if expired => {
                self.message.expire();
                self.state = State::Closing;
            }
            State::Ending { .. } if expired => self.state = State::Ended,
            State::Waiting { deadline, pace } if now >= deadline => {
                if let Some(next) = self.next_round(pace, roster) {
                    self.state = next;
                }
            }
            State::Ending {
                deadline: Some(deadline),
                counted,
            } if now >= deadline => {
                self.state = if counted {
                    State::Ending {
                        deadline: None,
                        counted,
                    }
                } else {
                    State::Ended
                };
            }
            _ => {}
        }
    }

    /// The round after a wait: for those that answer, else for silent ones,
    /// else none.
    fn next_round(&self, pace: Pace, roster: &Roster) -> Option<State> {
        let mut answering = self
            .message
            .open()
            .filter(|destination| roster.is_answering(destination.id))
            .peekable();
        if answering.peek().is_some() {
            let wait = (pace.wait * 3 / 2).min(LONGEST_WAIT);
            return Some(State::round(lacked(answering), Pace { wait, ..pace }));
        }
        (pace.silent_rounds < MOST_SILENT_ROUNDS).then(|| {
            let silent_rounds = pace.silent_rounds + 1;
            let pace = Pace {
                silent_rounds,
                ..pace
            };
            State::round(lacked(self.message.open()), pace)
        })
    }
}

/// The numbers that are missing at some of these destinations.
fn lacked<'a>(destinations: impl Iterator<Item = &'a Destination>) -> Numbers {
    let mut numbers = Numbers::none();
    for destination in destinations {
        numbers.add(&destination.missing);
    }
    numbers
}
