//! The ends of a script: which there are, and which an episode takes.

use super::Script;
use crate::random::Random;
use crate::replay::Answer;

pub type Name = &'static str;

const SENDERS: [Name; 8] = ["a", "b", "c", "north", "0", "flagship", "x9", "r0"];
const RECEIVERS: [Name; 8] = ["p", "q", "r", "ship", "7", "cruiser2", "s", "z9"];

/// So many ends of each kind serve all themes.
const MOST_FIT: usize = 6;
/// So many of each kind may be worn out: what comes after finds only
/// refusals there.
const MOST_WORN: usize = 2;

/// Who takes part in a script.
pub struct Cast {
    /// Sixteen identities: those of the receivers, then some of nobody.
    pub ships: Vec<u32>,
    sources: Vec<u32>,
    /// The clock at which most ends begin.
    start: u64,
    senders: Vec<Name>,
    receivers: Vec<Name>,
    worn_senders: Vec<Name>,
    worn_receivers: Vec<Name>,
}

impl Cast {
    pub fn new(random: &mut Random) -> Cast {
        let base = random.one_of(&[0u32, 1, 250, 0x0A00_0002, 0xFFFF_FFF0]);
        let step = random.one_of(&[1u32, 1, 3, 17, 256]);
        let mut ships: Vec<u32> = (0..16)
            .map(|place| base.wrapping_add(place * step))
            .collect();
        random.shuffle(&mut ships);
        let mut sources = vec![0, 1, 2, 3, u32::MAX, 0x0A00_0001, 500, 0x8000_0000];
        random.shuffle(&mut sources);
        let any = random.next() % 3_000_000_000_000;
        Cast {
            ships,
            sources,
            start: random.one_of(&[0, 1, 999, 60_000, 1_700_000_000_000, any]),
            senders: Vec::new(),
            receivers: Vec::new(),
            worn_senders: Vec::new(),
            worn_receivers: Vec::new(),
        }
    }

    /// All ends that were made.
    fn all(&self) -> Vec<Name> {
        let fit = self.senders.iter().chain(&self.receivers);
        let worn = self.worn_senders.iter().chain(&self.worn_receivers);
        fit.chain(worn).copied().collect()
    }
}

impl Script {
    pub fn make_first_ends(&mut self) {
        self.remark("the first ends");
        for place in 0..2 + self.random.below(2) {
            let store = self.store(place == 0);
            self.make_sender(&store);
        }
        for place in 0..2 + self.random.below(3) {
            let store = self.store(place < 2);
            self.make_receiver(&store);
        }
    }

    /// The words of a store that can be made.
    pub fn store(&mut self, roomy: bool) -> String {
        let random = &mut self.random;
        let any_width = 16 + random.below(1009);
        let width = random.one_of(&[16, 17, 20, 64, 1024, any_width]);
        if random.one_in(2) {
            return format!("grid {width}");
        }
        let limit = if roomy {
            random.one_of(&[300, 600, 2048])
        } else {
            random.one_of(&[2, 5, 12, 40, 300, 2048])
        };
        format!("pool {width} {limit}")
    }

    /// Makes a sender with some first identity, if one more may be made.
    pub fn make_sender(&mut self, store: &str) -> Option<Name> {
        if self.cast.senders.len() == MOST_FIT {
            return None;
        }
        let any = 1 + self.random.below(0xF000_0000) as u32;
        let first = self.random.one_of(&[1, 2, 200, 255, 9876, any]);
        let name = self.new_sender(first, store)?;
        self.cast.senders.push(name);
        Some(name)
    }

    fn new_sender(&mut self, first: u32, store: &str) -> Option<Name> {
        let place = self.cast.senders.len() + self.cast.worn_senders.len();
        let name = SENDERS.get(place)?;
        let source = self.cast.sources[place];
        let made = self.call(&format!("{name} sender {source} {first} {store}"));
        matches!(made, Answer::Made).then_some(())?;
        self.begin_clock(name);
        Some(name)
    }

    pub fn make_receiver(&mut self, store: &str) -> Option<Name> {
        if self.cast.receivers.len() == MOST_FIT {
            return None;
        }
        let name = self.new_receiver(store)?;
        self.cast.receivers.push(name);
        Some(name)
    }

    fn new_receiver(&mut self, store: &str) -> Option<Name> {
        let place = self.cast.receivers.len() + self.cast.worn_receivers.len();
        let name = RECEIVERS.get(place)?;
        let identity = self.cast.ships[place];
        let made = self.call(&format!("{name} receiver {identity} {store}"));
        matches!(made, Answer::Made).then_some(())?;
        self.begin_clock(name);
        Some(name)
    }

    fn begin_clock(&mut self, name: Name) {
        if !self.random.one_in(4) {
            self.call(&format!("{name} tick {}", self.cast.start));
        }
    }

    pub fn some_sender(&mut self) -> Option<Name> {
        pick(&mut self.random, &self.cast.senders)
    }

    pub fn some_receiver(&mut self) -> Option<Name> {
        pick(&mut self.random, &self.cast.receivers)
    }

    /// Some receivers in any order, at least one if there is one.
    pub fn some_receivers(&mut self) -> Vec<Name> {
        let mut names = self.cast.receivers.clone();
        self.random.shuffle(&mut names);
        names.truncate(1 + self.random.below(4));
        names
    }

    /// Any end that was made, worn or not.
    pub fn any_end(&mut self) -> Option<Name> {
        pick(&mut self.random, &self.cast.all())
    }

    /// A sender that may be worn out, new if there may be one more.
    pub fn sender_to_wear(&mut self, first: u32) -> Option<Name> {
        if self.cast.worn_senders.len() < MOST_WORN {
            let store = self.store(true);
            if let Some(name) = self.new_sender(first, &store) {
                self.cast.worn_senders.push(name);
                return Some(name);
            }
        }
        pick(&mut self.random, &self.cast.worn_senders)
    }

    pub fn receiver_to_wear(&mut self) -> Option<Name> {
        if self.cast.worn_receivers.len() < MOST_WORN {
            let store = self.store(true);
            if let Some(name) = self.new_receiver(&store) {
                self.cast.worn_receivers.push(name);
                return Some(name);
            }
        }
        pick(&mut self.random, &self.cast.worn_receivers)
    }

    /// A sender whose store has at most this limit, made if there is none.
    pub fn sender_with_at_most(&mut self, limit: u16) -> Option<Name> {
        let is_small = |name: &&Name| self.sender(name).is_some_and(|end| end.limit() <= limit);
        let small: Vec<Name> = self.cast.senders.iter().filter(is_small).copied().collect();
        if let Some(name) = pick(&mut self.random, &small) {
            return Some(name);
        }
        let limit = 1 + self.random.below(limit.into());
        self.make_sender(&format!("pool 16 {limit}"))
    }

    /// The same of a receiver.
    pub fn receiver_with_at_most(&mut self, limit: u16) -> Option<Name> {
        let is_small = |name: &&Name| self.receiver(name).is_some_and(|end| end.limit() <= limit);
        let small: Vec<Name> = self
            .cast
            .receivers
            .iter()
            .filter(is_small)
            .copied()
            .collect();
        if let Some(name) = pick(&mut self.random, &small) {
            return Some(name);
        }
        let limit = 1 + self.random.below(limit.into());
        self.make_receiver(&format!("pool 16 {limit}"))
    }
}

fn pick(random: &mut Random, names: &[Name]) -> Option<Name> {
    (!names.is_empty()).then(|| random.one_of(names))
}
