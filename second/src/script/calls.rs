//! Calls as themes need them, and the housekeeping between episodes.

use super::cast::Name;
use super::pdus::{self, Entry};
use super::Script;
use crate::receiver::Receiver;
use crate::refusal::Refusal;
use crate::replay::words::{digits, listed};
use crate::replay::Answer;
use crate::sender::Sender;
use crate::wire::write::{self, Heading};

/// A buffer that every PDU fits.
const ROOMY: usize = 1472;
/// A buffer that every message fits.
const SPACIOUS: usize = 262_144;

/// Days are long enough to wait for a record to go, and years are not.
const TEN_DAYS: u64 = 864_000_000;

impl Script {
    pub fn sender(&self, name: Name) -> Option<&Sender> {
        self.session.sender(name)
    }

    pub fn receiver(&self, name: Name) -> Option<&Receiver> {
        self.session.receiver(name)
    }

    pub fn now(&self, name: Name) -> u64 {
        let at_sender = self.sender(name).map(Sender::now);
        at_sender
            .or(self.receiver(name).map(Receiver::now))
            .unwrap_or(0)
    }

    fn moments(&self, name: Name) -> Vec<u64> {
        let at_sender = self.sender(name).map(Sender::moments);
        at_sender
            .or(self.receiver(name).map(Receiver::moments))
            .unwrap_or_default()
    }

    /// The next clock at which something happens at an end.
    pub fn next_moment(&self, name: Name) -> Option<u64> {
        let now = self.now(name);
        let moments = self.moments(name).into_iter();
        moments.filter(|&moment| moment > now).min()
    }

    pub fn tick(&mut self, name: Name, clock: u64) {
        self.call(&format!("{name} tick {clock}"));
    }

    pub fn take(&mut self, name: Name, octets: &[u8]) -> Answer {
        self.call(&format!("{name} take {}", digits(octets)))
    }

    /// Ticks to a moment that matters, the millisecond before or the one
    /// after, or to any other clock soon after now.
    pub fn tick_near(&mut self, name: Name) {
        let now = self.now(name);
        let span = self.random.one_of(&[300, 9_000]);
        let soon = now + self.random.below(span) as u64;
        let clock = match self.next_moment(name) {
            Some(moment) if !self.random.one_in(5) => {
                let near = self
                    .random
                    .one_of(&[moment - 1, moment, moment, moment + 1]);
                near.max(now)
            }
            _ => soon,
        };
        self.tick(name, clock);
        if self.random.one_in(30) && now > 0 {
            self.tick(name, now - 1);
        }
    }

    /// Brings ends to one clock, and tells it.
    pub fn meet(&mut self, names: &[Name]) -> u64 {
        let clock = names.iter().map(|name| self.now(name)).max().unwrap_or(0);
        for name in names {
            if self.now(name) < clock {
                self.tick(name, clock);
            }
        }
        clock
    }

    /// Polls, now and then with buffers around the length that is needed.
    pub fn poll(&mut self, name: Name) -> Option<Vec<u8>> {
        let mut buffer = self.random.one_of(&[ROOMY, ROOMY, 2_000, 65_535]);
        if self.random.one_in(8) {
            let short = self.call(&format!("{name} poll 0"));
            if let Answer::Refused(Refusal::Buffer { needed }) = short {
                self.call(&format!("{name} poll {}", needed - 1));
                buffer = needed;
            }
        }
        match self.call(&format!("{name} poll {buffer}")) {
            Answer::Wrote(octets) => Some(octets),
            _ => None,
        }
    }

    /// Collects, now and then with buffers around the length that is needed.
    pub fn collect(&mut self, name: Name) -> Answer {
        let mut buffer = self.random.one_of(&[SPACIOUS, SPACIOUS + 1, 1_048_576]);
        if self.random.one_in(3) {
            let short = self.call(&format!("{name} collect 0"));
            if let Answer::Refused(Refusal::Buffer { needed }) = short {
                self.call(&format!("{name} collect {}", needed - 1));
                buffer = needed;
            }
        }
        self.call(&format!("{name} collect {buffer}"))
    }

    /// Polls until nothing is due, or so many times.
    pub fn poll_all(&mut self, name: Name, most: usize) -> Vec<Vec<u8>> {
        (0..most).map_while(|_| self.poll(name)).collect()
    }

    /// An expiry so many seconds after the second of an end's now.
    pub fn expiry_in(&self, name: Name, seconds: u32) -> u32 {
        let second = (self.now(name) / 1000) as u32;
        // Themes add to what they get here.
        second.saturating_add(seconds).min(u32::MAX - 1_000)
    }

    /// An expiry after some while.
    pub fn some_expiry(&mut self, name: Name) -> u32 {
        let most = self.random.one_of(&[1, 2, 30, 600, 20_000]);
        let seconds = 1 + self.random.below(most) as u32;
        self.expiry_in(name, seconds)
    }

    /// Some ships, rising, that are enrolled at a sender by then.
    pub fn enrolled(&mut self, name: Name, count: usize) -> Vec<u32> {
        let first = self.random.below(self.cast.ships.len());
        let mut ships = self.cast.ships.clone();
        ships.rotate_left(first);
        ships.truncate(count);
        self.enrol(name, &ships);
        ships.sort_unstable();
        ships
    }

    pub fn enrol(&mut self, name: Name, ships: &[u32]) {
        for ship in ships {
            let is_enrolled = |sender: &Sender| sender.is_enrolled(*ship);
            if !self.sender(name).is_some_and(is_enrolled) || self.random.one_in(40) {
                self.call(&format!("{name} enrol {ship}"));
            }
        }
    }

    pub fn begin(&mut self, name: Name) -> Option<u32> {
        match self.call(&format!("{name} begin")) {
            Answer::Draft(identity) => Some(identity),
            _ => None,
        }
    }

    /// Appends fragments of lengths that a store takes, most of them short.
    pub fn append(&mut self, name: Name, identity: u32, count: usize) {
        let width = self.sender(name).map_or(16, |sender| sender.width().into());
        for _ in 0..count {
            let short = 1 + self.random.below(6);
            let length = self.random.one_of(&[short, short, short, width.min(40)]);
            let octets = digits(&self.random.octets(length));
            self.call(&format!("{name} append {name}:{identity} {octets}"));
        }
    }

    pub fn submit(&mut self, name: Name, identity: u32, expiry: u32, ships: &[u32]) -> Answer {
        let priority = self.random.one_of(&[0, 0, 1, 7, 255]);
        let ships = listed(ships.iter());
        self.call(&format!(
            "{name} submit {name}:{identity} {priority} {expiry} {ships}"
        ))
    }

    /// Submits a message of so many fragments, and tells its identity.
    pub fn send(&mut self, name: Name, total: usize, expiry: u32, ships: &[u32]) -> Option<u32> {
        let identity = self.begin(name)?;
        self.append(name, identity, total);
        match self.submit(name, identity, expiry, ships) {
            Answer::Done => Some(identity),
            _ => {
                self.call(&format!("{name} withdraw {name}:{identity}"));
                None
            }
        }
    }

    /// Sees that a sender has vacant rows.
    pub fn make_room(&mut self, name: Name) {
        let vacancies = self.sender(name).map_or(0, Sender::vacancies);
        if vacancies < 4 {
            self.sweep_sender(name);
        }
    }

    /// Ends all that a sender has: drafts go, and everybody answers that all
    /// is complete.
    fn sweep_sender(&mut self, name: Name) {
        let drafts = self.sender(name).map_or(vec![], Sender::drafts);
        for identity in drafts {
            self.call(&format!("{name} withdraw {name}:{identity}"));
        }
        for ship in self.addressed(name) {
            let entries = self.empty_entries(name);
            self.take(name, &pdus::ack(ship, 0, &entries, false));
        }
        self.poll_all(name, 8);
        let later = self.now(name) + 30_000;
        self.tick(name, later);
        self.poll_all(name, 8);
        for identity in self.identities(name) {
            self.call(&format!("{name} forget {identity}"));
        }
    }

    /// Everybody to whom a sender has a message.
    fn addressed(&self, name: Name) -> Vec<u32> {
        let messages = self.sender(name).map_or(vec![], Sender::messages);
        let destinations = messages.iter().flat_map(|message| &message.destinations);
        let mut ships: Vec<u32> = destinations.map(|destination| destination.id).collect();
        ships.sort_unstable();
        ships.dedup();
        ships
    }

    /// The identities of the submitted messages.
    pub fn identities(&self, name: Name) -> Vec<u32> {
        let messages = self.sender(name).map_or(vec![], Sender::messages);
        messages.iter().map(|message| message.identity).collect()
    }

    fn empty_entries(&self, name: Name) -> Vec<Entry> {
        let source = self.sender(name).map_or(0, Sender::source);
        let identities = self.identities(name).into_iter();
        identities
            .map(|message| Entry {
                source,
                message,
                missing: Vec::new(),
            })
            .collect()
    }

    /// Sees that a receiver has vacant rows and room for records.
    pub fn make_room_at_receiver(&mut self, name: Name) {
        let vacancies = self.receiver(name).map_or(0, Receiver::vacancies);
        if vacancies < 4 {
            self.sweep_receiver(name);
        }
        self.drop_records(name, 20);
    }

    fn sweep_receiver(&mut self, name: Name) {
        self.drop_records(name, 24);
        for _ in 0..8 {
            if !matches!(self.collect(name), Answer::Message(_)) {
                break;
            }
        }
        let labels = self.receiver(name).map_or(vec![], Receiver::labels);
        for label in labels {
            let discard = write::discard(Heading {
                priority: label.priority,
                source: label.source,
                message: label.identity,
            });
            self.take(name, &discard);
        }
    }

    /// Lets the records go, if there are more than so many.
    fn drop_records(&mut self, name: Name, most: usize) {
        let expiries = self
            .receiver(name)
            .map_or(vec![], Receiver::record_expiries);
        let now = self.now(name);
        let moments = expiries.iter().map(|&expiry| u64::from(expiry) * 1000);
        let soon = moments.filter(|&moment| moment < now + TEN_DAYS).max();
        if let (true, Some(last)) = (expiries.len() > most, soon) {
            self.tick(name, last.max(now));
        }
    }
}
