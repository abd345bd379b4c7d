//! Sets of fragment numbers.

/// The greatest fragment number, and so the greatest total.
pub const NUMBERS: u16 = 256;

/// A set of numbers from 1 to 256, each a bit of one of two halves.
#[derive(Clone, Debug, PartialEq, Eq)]
pub struct Numbers([u128; 2]);

impl Numbers {
    pub fn none() -> Numbers {
        Numbers([0; 2])
    }

    /// The numbers 1 to `total`.
    pub fn up_to(total: u16) -> Numbers {
        let mut all = Numbers::none();
        for number in 1..=total {
            all.set(number, true);
        }
        all
    }

    pub fn contains(&self, number: u16) -> bool {
        let (half, bit) = place(number);
        self.0[half] & bit != 0
    }

    pub fn set(&mut self, number: u16, contained: bool) {
        let (half, bit) = place(number);
        if contained {
            self.0[half] |= bit;
        } else {
            self.0[half] &= !bit;
        }
    }

    pub fn add(&mut self, others: &Numbers) {
        for (half, other) in self.0.iter_mut().zip(others.0) {
            *half |= other;
        }
    }

    /// The numbers of the set, rising.
    pub fn rising(&self) -> impl DoubleEndedIterator<Item = u16> + '_ {
        (1..=NUMBERS).filter(|&number| self.contains(number))
    }

    /// The numbers 1 to `total` that the set lacks, rising.
    pub fn lacking(&self, total: u16) -> impl DoubleEndedIterator<Item = u16> + '_ {
        (1..=total).filter(|&number| !self.contains(number))
    }

    pub fn is_empty(&self) -> bool {
        *self == Numbers::none()
    }

    pub fn lowest(&self) -> Option<u16> {
        self.rising().next()
    }

    /// The greatest number, 0 if there is none.
    pub fn top(&self) -> u16 {
        self.rising().next_back().unwrap_or(0)
    }

    pub fn count(&self) -> usize {
        self.rising().count()
    }

    /// How many numbers below the greatest the set lacks.
    pub fn gaps(&self) -> usize {
        self.lacking(self.top()).count()
    }
}

fn place(number: u16) -> (usize, u128) {
    let index = usize::from(number) - 1;
    (index / 128, 1 << (index % 128))
}
