//! Rounds of a sender: what it waits for, and how long.

use super::storms::any_list;
use crate::replay::words::listed;
use crate::script::cast::Name;
use crate::script::pdus::{self, Entry};
use crate::script::Script;

/// Sends one message that lasts for hours, and tells whereto.
fn long_lasting(s: &mut Script, name: Name, total: usize) -> Option<(u32, Vec<u32>)> {
    s.make_room(name);
    let count = 1 + s.random.below(3);
    let ships = s.enrolled(name, count);
    let expiry = s.expiry_in(name, 40_000);
    let identity = s.send(name, total, expiry, &ships)?;
    Some((identity, ships))
}

/// Polls all, waits for the millisecond before the deadline, and for it.
fn round(s: &mut Script, name: Name) {
    s.poll_all(name, 30);
    if let Some(deadline) = s.next_moment(name) {
        s.tick(name, deadline - 1);
        s.poll(name);
        let clock = deadline + s.random.one_of(&[0, 0, 0, 1, 700]);
        s.tick(name, clock);
    }
}

pub fn growth(s: &mut Script) {
    let Some(name) = s.some_sender() else { return };
    let total = 1 + s.random.below(4);
    let Some((identity, ships)) = long_lasting(s, name, total) else {
        return;
    };
    let rounds = s.random.one_of(&[3, 8, 14]);
    for _ in 0..rounds {
        round(s, name);
        if s.random.one_in(3) {
            answer(s, name, identity, &ships, total as u16);
        }
    }
    s.poll_all(name, 30);
}

/// A list of some ship, that as a rule does not complete it.
fn answer(s: &mut Script, name: Name, identity: u32, ships: &[u32], total: u16) {
    let mut missing = any_list(s, total);
    if missing.is_empty() && !s.random.one_in(4) {
        missing = vec![1, total];
    }
    let ship = s.random.one_of(ships);
    acknowledge(s, name, identity, ship, missing);
}

fn acknowledge(s: &mut Script, name: Name, identity: u32, ship: u32, missing: Vec<u16>) {
    let entry = Entry {
        source: s.sender(name).map_or(0, |sender| sender.source()),
        message: identity,
        missing,
    };
    s.take(name, &pdus::ack(ship, 0, &[entry], false));
}

pub fn silent_rounds(s: &mut Script) {
    let Some(name) = s.some_sender() else { return };
    let total = 1 + s.random.below(3);
    let Some((identity, ships)) = long_lasting(s, name, total) else {
        return;
    };
    for ship in &ships {
        s.call(&format!("{name} silence {ship} on"));
    }
    let rounds = s.random.one_of(&[2, 5, 7]);
    for _ in 0..rounds {
        round(s, name);
        if s.random.one_in(4) {
            // The wait grows with an answering ship, silent rounds do not.
            s.call(&format!("{name} silence {} off", ships[0]));
            round(s, name);
            s.call(&format!("{name} silence {} on", ships[0]));
        }
    }
    let now = s.now(name);
    // An ACK that is refused makes nobody answering; of another it does not
    // matter whether it counts.
    let foreign = identity.wrapping_add(1);
    let known = s.random.one_of(&[identity, foreign]);
    for (message, missing) in [(identity, vec![total as u16 + 1]), (known, vec![1])] {
        acknowledge(s, name, message, ships[0], missing);
        s.tick(name, now);
        s.poll_all(name, 30);
    }
    for ship in &ships {
        s.call(&format!("{name} silence {ship} off"));
    }
}

/// Ships that lack different numbers, some of them silent.
pub fn mixed_silence(s: &mut Script) {
    let Some(name) = s.some_sender() else { return };
    let Some((identity, ships)) = long_lasting(s, name, 6) else {
        return;
    };
    for _ in 0..3 {
        for ship in &ships {
            let first = 1 + s.random.below(6) as u16;
            acknowledge(s, name, identity, *ship, vec![first, first]);
        }
        for ship in &ships {
            let word = s.random.one_of(&["on", "off"]);
            s.call(&format!("{name} silence {ship} {word}"));
        }
        round(s, name);
    }
    s.poll_all(name, 30);
    for ship in &ships {
        s.call(&format!("{name} silence {ship} off"));
    }
}

/// Several messages at once: whose PDU is next?
pub fn priorities(s: &mut Script) {
    let Some(name) = s.some_sender() else { return };
    s.make_room(name);
    let ships = s.enrolled(name, 2);
    let expiry = s.expiry_in(name, 60);
    let list = listed(ships.iter());
    for _ in 0..3 + s.random.below(3) {
        let Some(identity) = s.begin(name) else { break };
        let total = 1 + s.random.below(3);
        s.append(name, identity, total);
        let priority = s.random.one_of(&[0, 1, 2, 2, 254, 255]);
        let later = expiry + s.random.below(3) as u32;
        s.call(&format!(
            "{name} submit {name}:{identity} {priority} {later} {list}"
        ));
        let polls = s.random.below(4);
        s.poll_all(name, polls);
    }
    s.poll_all(name, 12);
    s.tick(name, u64::from(expiry) * 1000);
    s.poll_all(name, 12);
    s.tick(name, u64::from(expiry + 3) * 1000);
    s.poll_all(name, 12);
}
