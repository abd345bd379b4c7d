//! The receiver, by docs/RECEIVER.md.

mod delay;
mod poll;
mod row;
mod survey;
mod take;

pub use poll::Collected;
pub use row::Label;
pub use take::Taken;

use crate::clock;
use crate::refusal::Refusal;
use crate::store::{Store, ROWS};
use row::{Record, Row, State};

const MOST_RECORDS: usize = 32;

#[derive(Debug)]
pub struct Receiver {
    identity: u32,
    silent: bool,
    now: u64,
    last_arrival: u32,
    rows: [Option<Row>; ROWS],
    /// The records, at most 32: nothing that a caller sees depends on their
    /// places.
    records: Vec<Record>,
    store: Store,
}

impl Receiver {
    pub fn new(identity: u32, store: Store) -> Receiver {
        Receiver {
            identity,
            silent: false,
            now: 0,
            last_arrival: 0,
            rows: Default::default(),
            records: Vec::new(),
            store,
        }
    }

    pub fn identity(&self) -> u32 {
        self.identity
    }

    pub fn silence(&mut self, silent: bool) {
        if silent == self.silent {
            return;
        }
        self.silent = silent;
        let clear_or_raise = self.raiser();
        for row in self.rows.iter_mut().flatten() {
            let time = clear_or_raise(&row.label);
            if let Some(ack) = row.ack_mut() {
                *ack = time;
            }
        }
        for record in &mut self.records {
            record.ack = clear_or_raise(&record.label);
        }
    }

    pub fn tick(&mut self, clock: u64) -> Result<(), Refusal> {
        clock::judge(clock, self.now)?;
        self.now = clock;
        for place in 0..ROWS {
            self.step(place);
        }
        self.records
            .retain(|record| !clock::reached(record.expiry, clock));
        Ok(())
    }

    fn step(&mut self, place: usize) {
        let now = self.now;
        let Some(row) = &mut self.rows[place] else {
            return;
        };
        if row.goes_at().is_some_and(|time| now >= time) {
            self.vacate(place);
            return;
        }
        if let State::Open { quiet, .. } = &mut row.state {
            if quiet.is_some_and(|time| now >= time) {
                *quiet = None;
                self.raise(place);
            }
        }
    }

    fn vacate(&mut self, place: usize) {
        self.rows[place] = None;
        self.store.free(place);
    }

    /// Tells of a message when its ACK goes out if it is raised now; a silent
    /// receiver raises none.
    fn raiser(&self) -> impl Fn(&Label) -> Option<u64> {
        let (silent, now, us) = (self.silent, self.now, self.identity);
        move |label| (!silent).then(|| now + 10 * delay::delay(us, label.identity))
    }

    /// Raises the ACK of an open or complete row, unless one is set.
    fn raise(&mut self, place: usize) {
        let raised = self.raiser();
        let row = self.row_mut(place);
        let time = raised(&row.label);
        if let Some(ack) = row.ack_mut() {
            *ack = ack.or(time);
        }
    }

    fn raise_record(&mut self, place: usize) {
        let raised = self.raiser();
        let record = &mut self.records[place];
        record.ack = record.ack.or(raised(&record.label));
    }

    /// A row that is known not to be vacant.
    fn row(&self, place: usize) -> &Row {
        self.rows[place].as_ref().expect("a row in use")
    }

    fn row_mut(&mut self, place: usize) -> &mut Row {
        self.rows[place].as_mut().expect("a row in use")
    }

    fn row_of(&self, source: u32, identity: u32) -> Option<usize> {
        let is_it = |row: &Row| row.label.is_of(source, identity);
        self.rows
            .iter()
            .position(|row| row.as_ref().is_some_and(is_it))
    }

    fn record_of(&self, source: u32, identity: u32) -> Option<usize> {
        self.records
            .iter()
            .position(|record| record.label.is_of(source, identity))
    }

    fn vacant(&self) -> Result<usize, Refusal> {
        let mut rows = self.rows.iter();
        rows.position(Option::is_none).ok_or(Refusal::NoVacantRow)
    }

    /// The label of a new row.
    fn new_label(&self, source: u32, identity: u32, priority: u8) -> Result<Label, Refusal> {
        let value = self.last_arrival;
        let arrival = value.checked_add(1).ok_or(Refusal::Identity { value })?;
        Ok(Label {
            source,
            identity,
            priority,
            arrival,
        })
    }

    /// Fills a vacant row.
    fn open(&mut self, place: usize, label: Label, state: State) {
        self.last_arrival = label.arrival;
        self.rows[place] = Some(Row { label, state });
    }
}

#[cfg(test)]
mod tests;
