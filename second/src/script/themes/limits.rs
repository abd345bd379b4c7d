//! The last clock and the last identity. The ends are worn out by this.

use crate::script::cast::Name;
use crate::script::pdus::{self, Entry};
use crate::script::Script;
use crate::wire::write::{self, Heading};

const LAST_CLOCK: u64 = 4_294_967_295_999;
/// The first clock at which the last expiry is reached.
const LAST_EXPIRY: u64 = 4_294_967_295_000;

pub fn clocks(s: &mut Script) {
    // As a rule clocks go on, and no farther than this.
    if let Some(name) = s.any_end() {
        let now = s.now(name);
        for clock in [now, now.saturating_sub(1), 0, LAST_CLOCK + 1, u64::MAX] {
            s.tick(name, clock);
        }
    }
    if s.random.one_in(2) {
        if let Some(name) = s.sender_to_wear(0xFFFF_FFF0) {
            last_clock_of_sender(s, name);
        }
    } else if let Some(name) = s.receiver_to_wear() {
        last_clock_of_receiver(s, name);
    }
}

fn last_clock_of_sender(s: &mut Script, name: Name) {
    let ships = s.enrolled(name, 2);
    s.tick(name, LAST_EXPIRY - 20_000);
    let mut identities = Vec::new();
    for expiry in [u32::MAX - 1, u32::MAX] {
        identities.extend(s.send(name, 1, expiry, &ships));
    }
    s.poll_all(name, 9);
    for clock in [LAST_EXPIRY - 1_000, LAST_EXPIRY - 1, LAST_EXPIRY] {
        s.tick(name, clock);
        s.poll_all(name, 5);
        for identity in &identities {
            s.call(&format!("{name} standing {identity} {}", ships[0]));
        }
    }
    s.send(name, 1, u32::MAX, &ships);
    for clock in [
        LAST_CLOCK,
        LAST_CLOCK + 1,
        u64::MAX,
        LAST_CLOCK - 1,
        LAST_CLOCK,
    ] {
        s.tick(name, clock);
    }
    for identity in identities {
        s.call(&format!("{name} forget {identity}"));
    }
}

fn last_clock_of_receiver(s: &mut Script, name: Name) {
    let us = s.receiver(name).map_or(0, |receiver| receiver.identity());
    let heading = |message| Heading {
        priority: 0,
        source: u32::MAX,
        message,
    };
    s.tick(name, LAST_EXPIRY - 1);
    for message in 0..3 {
        let address = pdus::address_to(us, heading(message), 2, u32::MAX);
        s.take(name, &address);
        s.take(name, &write::data(heading(message), 1, b"1"));
    }
    s.take(name, &write::data(heading(0), 2, b"2"));
    s.take(name, &write::data(heading(1), 2, b"2"));
    s.collect(name);
    s.take(name, &write::data(heading(0), 2, b"2"));
    for clock in [
        LAST_EXPIRY,
        LAST_CLOCK,
        LAST_CLOCK + 1,
        u64::MAX,
        LAST_CLOCK,
    ] {
        s.tick(name, clock);
        s.poll_all(name, 4);
        for message in 0..3 {
            s.take(name, &write::data(heading(message), 2, b"2"));
        }
    }
    s.take(name, &pdus::address_to(us, heading(9), 2, u32::MAX));
    s.collect(name);
    s.collect(name);
}

/// The rows are full before the identities are used up, or after.
pub fn last_identity(s: &mut Script) {
    let last = s.random.below(10) as u32;
    let Some(name) = s.sender_to_wear(u32::MAX - last) else {
        return;
    };
    s.make_room(name);
    let begun: Vec<u32> = (0..=last.min(8)).filter_map(|_| s.begin(name)).collect();
    s.begin(name);
    let ships = s.enrolled(name, 2);
    for identity in begun {
        if s.random.one_in(2) {
            s.call(&format!("{name} withdraw {name}:{identity}"));
        } else {
            let expiry = s.some_expiry(name);
            s.append(name, identity, 1);
            s.submit(name, identity, expiry, &ships);
            s.poll_all(name, 3);
            acknowledge(s, name, identity, &ships);
        }
        s.begin(name);
    }
}

fn acknowledge(s: &mut Script, name: Name, identity: u32, ships: &[u32]) {
    let entry = Entry {
        source: s.sender(name).map_or(0, |sender| sender.source()),
        message: identity,
        missing: Vec::new(),
    };
    for ship in ships {
        s.take(
            name,
            &pdus::ack(*ship, 0, std::slice::from_ref(&entry), false),
        );
    }
}
