//! The destinations that a sender may send to.

use crate::refusal::Refusal;

const PLACES: usize = 16;

/// The enrolled destinations by their places: none ever leaves.
#[derive(Debug, Default)]
pub struct Roster(Vec<Enrolled>);

#[derive(Debug)]
struct Enrolled {
    id: u32,
    silent: bool,
    submitted: u32,
}

impl Roster {
    pub fn enrol(&mut self, id: u32) -> Result<(), Refusal> {
        if self.0.len() == PLACES {
            return Err(Refusal::Destinations { place: PLACES });
        }
        if let Some(place) = self.0.iter().position(|enrolled| enrolled.id == id) {
            return Err(Refusal::Destinations { place });
        }
        self.0.push(Enrolled {
            id,
            silent: false,
            submitted: 0,
        });
        Ok(())
    }

    pub fn silence(&mut self, id: u32, silent: bool) -> Result<(), Refusal> {
        let enrolled = self.find(id).ok_or(Refusal::Unknown { named: id })?;
        enrolled.silent = silent;
        Ok(())
    }

    /// Notes that an ACK came from somebody, who need not be enrolled.
    pub fn heard_from(&mut self, id: u32) {
        if let Some(enrolled) = self.find(id) {
            enrolled.silent = false;
        }
    }

    pub fn has(&self, id: u32) -> bool {
        self.0.iter().any(|enrolled| enrolled.id == id)
    }

    pub fn is_answering(&self, id: u32) -> bool {
        self.0
            .iter()
            .any(|enrolled| enrolled.id == id && !enrolled.silent)
    }

    /// Judges a list of destinations for a message.
    pub fn judge(&self, list: &[u32]) -> Result<(), Refusal> {
        if list.is_empty() {
            return Err(Refusal::Destinations { place: 0 });
        }
        if list.len() > PLACES {
            return Err(Refusal::Destinations { place: PLACES });
        }
        let is_wrong =
            |place: usize| !self.has(list[place]) || place > 0 && list[place] <= list[place - 1];
        match (0..list.len()).find(|&place| is_wrong(place)) {
            Some(place) => Err(Refusal::Destinations { place }),
            None => Ok(()),
        }
    }

    /// Counts a message to a destination, and tells its sequence number.
    pub fn count(&mut self, id: u32) -> u32 {
        self.find(id).map_or(0, |enrolled| {
            enrolled.submitted += 1;
            enrolled.submitted
        })
    }

    fn find(&mut self, id: u32) -> Option<&mut Enrolled> {
        self.0.iter_mut().find(|enrolled| enrolled.id == id)
    }
}
