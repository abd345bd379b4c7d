//! What a receiver makes of Data, an Address or a Discard.

use super::row::{Row, State, Terms};
use super::Receiver;
use crate::clock;
use crate::numbers::Numbers;
use crate::refusal::Refusal;
use crate::wire::{self, Address, Body, Data, End};

/// How long a loose row waits for an Address.
const LOOSE_TIME: u64 = 60_000;
/// How long an open row without new Data is quiet before it raises an ACK.
const QUIET_TIME: u64 = 5_000;
/// So many numbers missing below the highest held raise an ACK.
const MANY_MISSING: usize = 32;

#[derive(Clone, Copy, Debug, PartialEq, Eq)]
pub enum Taken {
    Kept,
    Complete,
    Again,
    Noted,
    Dropped,
    PassedOver,
}

/// Whom an Address names, as far as it matters here.
#[derive(Clone, Copy)]
enum Naming {
    Us,
    /// The only part of the Address does not list us.
    Others,
    /// A part does not list us, but another may.
    Unsaid,
}

impl Receiver {
    pub fn take(&mut self, datagram: &[u8]) -> Result<Taken, Refusal> {
        let pdu = wire::read(End::Receiver, datagram)?;
        match &pdu.body {
            Body::Data(data) => self.take_data(pdu.priority, data),
            Body::Address(address) | Body::ExtraAddress(address) => {
                self.take_address(pdu.priority, address)
            }
            Body::Discard { source, message } => Ok(self.take_discard(*source, *message)),
            Body::Ack(_) => unreachable!("a receiver reads no ACKs"),
        }
    }

    fn take_data(&mut self, priority: u8, data: &Data) -> Result<Taken, Refusal> {
        if let Some(place) = self.record_of(data.source, data.message) {
            self.raise_record(place);
            return Ok(Taken::Again);
        }
        let Some(place) = self.row_of(data.source, data.message) else {
            return self.take_first_data(priority, data);
        };
        let row = self.row(place);
        row.judge_data(priority, data.number)
            .ok_or(Refusal::AgainstRow { row: place })?;
        if row.holds(data.number) {
            if row.lacks_nothing_above(data.number) {
                self.raise(place);
            }
            return Ok(Taken::Again);
        }
        self.store.judge(data.fragment)?;
        self.store.put(place, data.number, data.fragment);
        Ok(self.add_number(place, data.number))
    }

    /// Data of a message that has neither row nor record.
    fn take_first_data(&mut self, priority: u8, data: &Data) -> Result<Taken, Refusal> {
        let place = self.vacant()?;
        self.store.judge(data.fragment)?;
        let label = self.new_label(data.source, data.message, priority)?;
        self.store.put(place, data.number, data.fragment);
        let mut held = Numbers::none();
        held.set(data.number, true);
        let goes = self.now + LOOSE_TIME;
        self.open(place, label, State::Loose { goes, held });
        Ok(Taken::Kept)
    }

    /// Adds a number that a row lacked.
    fn add_number(&mut self, place: usize, number: u16) -> Taken {
        let now = self.now;
        let row = self.row_mut(place);
        match &mut row.state {
            State::Loose { held, .. } => held.set(number, true),
            State::Open {
                terms,
                ack,
                quiet,
                held,
            } => {
                let gaps = held.gaps();
                held.set(number, true);
                if held.lacking(terms.total).next().is_none() {
                    let (terms, ack) = (*terms, *ack);
                    row.state = State::Complete { terms, ack };
                    self.raise(place);
                    return Taken::Complete;
                }
                *quiet = Some(now + QUIET_TIME);
                let too_many = gaps < MANY_MISSING && held.gaps() >= MANY_MISSING;
                if too_many || row.lacks_nothing_above(number) {
                    self.raise(place);
                }
            }
            State::Complete { .. } => {}
        }
        Taken::Kept
    }

    fn take_address(&mut self, priority: u8, address: &Address) -> Result<Taken, Refusal> {
        let expiry = address.expiry;
        if clock::reached(expiry, self.now) {
            return Err(Refusal::Expired { expiry });
        }
        let terms = Terms {
            total: address.total,
            expiry,
        };
        let naming = self.naming(address);
        if let Some(place) = self.row_of(address.source, address.message) {
            self.row(place)
                .judge_address(priority, terms)
                .ok_or(Refusal::AgainstRow { row: place })?;
            return Ok(self.address_row(place, terms, naming));
        }
        if let Some(place) = self.record_of(address.source, address.message) {
            return Ok(self.address_record(place, naming));
        }
        let Naming::Us = naming else {
            return Ok(Taken::PassedOver);
        };
        let place = self.vacant()?;
        let label = self.new_label(address.source, address.message, priority)?;
        let state = self.opened(terms, Numbers::none());
        self.open(place, label, state);
        Ok(Taken::Noted)
    }

    fn naming(&self, address: &Address) -> Naming {
        let mut listed = address.destinations.iter();
        if listed.any(|destination| destination.id == self.identity) {
            Naming::Us
        } else if address.map == 0 {
            Naming::Others
        } else {
            Naming::Unsaid
        }
    }

    /// A row that opens now.
    fn opened(&self, terms: Terms, held: Numbers) -> State {
        State::Open {
            terms,
            ack: None,
            quiet: Some(self.now + QUIET_TIME),
            held,
        }
    }

    /// An Address that does not go against its message's row.
    fn address_row(&mut self, place: usize, terms: Terms, naming: Naming) -> Taken {
        match (&mut self.row_mut(place).state, naming) {
            (State::Loose { held, .. }, Naming::Us) => {
                let held = held.clone();
                self.open_loose(place, terms, held)
            }
            (State::Loose { .. }, Naming::Others) => {
                self.vacate(place);
                Taken::Dropped
            }
            (State::Complete { .. }, Naming::Us) => {
                self.raise(place);
                Taken::Noted
            }
            (State::Complete { ack, .. }, Naming::Others) => {
                *ack = None;
                Taken::Noted
            }
            (State::Open { .. }, _) | (_, Naming::Unsaid) => Taken::PassedOver,
        }
    }

    fn open_loose(&mut self, place: usize, terms: Terms, held: Numbers) -> Taken {
        if held.lacking(terms.total).next().is_some() {
            self.row_mut(place).state = self.opened(terms, held);
            return Taken::Noted;
        }
        self.row_mut(place).state = State::Complete { terms, ack: None };
        self.raise(place);
        Taken::Complete
    }

    fn address_record(&mut self, place: usize, naming: Naming) -> Taken {
        match naming {
            Naming::Us => self.raise_record(place),
            Naming::Others => self.records[place].ack = None,
            Naming::Unsaid => return Taken::PassedOver,
        }
        Taken::Noted
    }

    fn take_discard(&mut self, source: u32, message: u32) -> Taken {
        let Some(place) = self.row_of(source, message) else {
            return Taken::PassedOver;
        };
        match self.row(place).state {
            State::Loose { .. } | State::Open { .. } => {
                self.vacate(place);
                Taken::Dropped
            }
            State::Complete { .. } => Taken::PassedOver,
        }
    }
}

impl Row {
    /// Judges Data of the row's message: nothing if it goes against the row.
    fn judge_data(&self, priority: u8, number: u16) -> Option<()> {
        let above = match self.state {
            State::Loose { .. } => false,
            State::Open { terms, .. } | State::Complete { terms, .. } => number > terms.total,
        };
        (priority == self.label.priority && !above).then_some(())
    }

    /// Judges an Address of the row's message in the same way.
    fn judge_address(&self, priority: u8, new: Terms) -> Option<()> {
        let fits = match &self.state {
            State::Loose { held, .. } => held.top() <= new.total,
            State::Open { terms, .. } | State::Complete { terms, .. } => *terms == new,
        };
        (priority == self.label.priority && fits).then_some(())
    }

    fn holds(&self, number: u16) -> bool {
        match &self.state {
            State::Loose { held, .. } | State::Open { held, .. } => held.contains(number),
            State::Complete { .. } => true,
        }
    }

    /// Whether nothing above a number is missing: of a loose row nobody knows.
    fn lacks_nothing_above(&self, number: u16) -> bool {
        match &self.state {
            State::Loose { .. } => false,
            State::Open { terms, held, .. } => {
                let highest = held.lacking(terms.total).next_back();
                highest.is_none_or(|missing| missing < number)
            }
            State::Complete { .. } => true,
        }
    }
}
