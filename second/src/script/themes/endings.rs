//! How messages end at a sender: complete everywhere, or expired.

use super::storms::any_list;
use crate::script::cast::Name;
use crate::script::pdus::{self, Entry};
use crate::script::Script;

/// A message that is being sent.
struct Sent {
    name: Name,
    identity: u32,
    ships: Vec<u32>,
    total: u16,
    expiry: u32,
}

/// Sends a message some way.
fn sent(s: &mut Script, seconds: u32) -> Option<Sent> {
    let name = s.some_sender()?;
    s.make_room(name);
    let count = 1 + s.random.below(4);
    let ships = s.enrolled(name, count);
    let expiry = s.expiry_in(name, seconds);
    let total = 1 + s.random.below(3);
    let identity = s.send(name, total, expiry, &ships)?;
    let polls = s.random.below(6);
    s.poll_all(name, polls);
    Some(Sent {
        name,
        identity,
        ships,
        total: total as u16,
        expiry,
    })
}

impl Sent {
    fn answer(&self, s: &mut Script, ship: u32, missing: Vec<u16>) {
        let entry = Entry {
            source: s.sender(self.name).map_or(0, |sender| sender.source()),
            message: self.identity,
            missing,
        };
        s.take(self.name, &pdus::ack(ship, 0, &[entry], false));
    }

    /// Asks for all there is to ask, and tries to forget.
    fn ask(&self, s: &mut Script) {
        let (name, identity) = (self.name, self.identity);
        let ship = s.random.one_of(&self.ships);
        s.call(&format!("{name} standing {identity} {ship}"));
        s.call(&format!("{name} lacking {identity} {ship}"));
        s.call(&format!("{name} forget {identity}"));
    }
}

pub fn completion(s: &mut Script) {
    let Some(sent) = sent(s, 500) else { return };
    let name = sent.name;
    s.call(&format!("{name} forget {}", sent.identity));
    for ship in sent.ships.clone() {
        sent.answer(s, ship, vec![]);
        if s.random.one_in(3) {
            sent.ask(s);
        }
    }
    s.poll(name);
    for _ in 0..s.random.below(3) {
        late_entry(s, &sent);
    }
    match s.random.below(4) {
        0 => s.tick(name, u64::from(sent.expiry) * 1000),
        _ => wait_in_vain(s, name),
    }
    sent.ask(s);
    sent.ask(s);
    sent.answer(s, sent.ships[0], vec![]);
}

/// An entry that counts after the Address, so that it comes once more.
fn late_entry(s: &mut Script, sent: &Sent) {
    let ship = s.random.one_of(&sent.ships);
    let list = any_list(s, sent.total);
    let before = s.now(sent.name) + s.random.one_of(&[0, 100, 29_999]);
    s.tick(sent.name, before);
    sent.answer(s, ship, list);
    s.tick_near(sent.name);
    s.poll_all(sent.name, 3);
    sent.ask(s);
}

/// Waits for the millisecond before the deadline, then for the deadline.
fn wait_in_vain(s: &mut Script, name: Name) {
    if let Some(deadline) = s.next_moment(name) {
        s.tick(name, deadline - 1);
        s.poll(name);
        s.tick(name, deadline);
        s.poll(name);
    }
}

pub fn expiry(s: &mut Script) {
    let seconds = s.random.one_of(&[1, 2, 8, 20]);
    let Some(sent) = sent(s, seconds) else { return };
    let (name, moment) = (sent.name, u64::from(sent.expiry) * 1000);
    if s.random.one_in(2) {
        let ship = s.random.one_of(&sent.ships);
        let list = any_list(s, sent.total);
        sent.answer(s, ship, list);
    }
    s.tick(name, moment - 1);
    sent.ask(s);
    s.poll(name);
    let late = s.random.one_of(&[0, 1, 5_000]);
    s.tick(name, moment + late);
    sent.ask(s);
    sent.answer(s, sent.ships[0], vec![]);
    s.poll(name);
    sent.ask(s);
    sent.ask(s);
}
