//! The fragment store, by docs/STORE.md.
//!
//! A grid and a pool lie differently in memory and mean the same, so one
//! store serves here for both: a grid is a store with the greatest limit.

use crate::numbers::NUMBERS;
use crate::refusal::Refusal;
use std::collections::BTreeMap;

/// The rows of a store, and of an end.
pub const ROWS: usize = 8;

const LEAST_WIDTH: u16 = 16;
const MOST_WIDTH: u16 = 1024;
const MOST_STRINGS: u16 = ROWS as u16 * NUMBERS;

/// Octet strings by row and number.
#[derive(Debug)]
pub struct Store {
    width: u16,
    limit: u16,
    rows: [BTreeMap<u16, Vec<u8>>; ROWS],
}

impl Store {
    pub fn grid(width: u16) -> Result<Store, Refusal> {
        Store::pool(width, MOST_STRINGS)
    }

    pub fn pool(width: u16, limit: u16) -> Result<Store, Refusal> {
        if !(LEAST_WIDTH..=MOST_WIDTH).contains(&width) {
            return Err(Refusal::StoreSize { value: width });
        }
        if !(1..=MOST_STRINGS).contains(&limit) {
            return Err(Refusal::StoreSize { value: limit });
        }
        Ok(Store {
            width,
            limit,
            rows: Default::default(),
        })
    }

    pub fn width(&self) -> u16 {
        self.width
    }

    pub fn limit(&self) -> u16 {
        self.limit
    }

    /// Judges whether a string would be taken at a place that holds none.
    pub fn judge(&self, octets: &[u8]) -> Result<(), Refusal> {
        if octets.is_empty() || octets.len() > usize::from(self.width) {
            return Err(Refusal::Fragment { width: self.width });
        }
        if self.held() >= usize::from(self.limit) {
            return Err(Refusal::StoreFull { limit: self.limit });
        }
        Ok(())
    }

    /// Puts a string that was judged.
    pub fn put(&mut self, row: usize, number: u16, octets: &[u8]) {
        self.rows[row].insert(number, octets.to_vec());
    }

    /// The string at a place, empty if none is held there.
    pub fn get(&self, row: usize, number: u16) -> &[u8] {
        self.rows[row].get(&number).map_or(&[], Vec::as_slice)
    }

    pub fn free(&mut self, row: usize) {
        self.rows[row].clear();
    }

    /// The strings of a row, one behind the other.
    pub fn joined(&self, row: usize) -> Vec<u8> {
        self.rows[row].values().flatten().copied().collect()
    }

    fn held(&self) -> usize {
        self.rows.iter().map(BTreeMap::len).sum()
    }
}
