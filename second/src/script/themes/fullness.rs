//! Rows and stores that are full, and the longest message.

use super::storms::any_list;
use crate::script::cast::Name;
use crate::script::pdus::{self, Entry};
use crate::script::Script;
use crate::wire::write::{self, Heading};

const ROWS: u32 = 8;
/// A store of so many strings can be filled in an episode.
const SMALL: u16 = 40;

fn heading(source: u32, message: u32) -> Heading {
    Heading {
        priority: 1,
        source,
        message,
    }
}

/// A ninth message at a receiver, a ninth draft at a sender.
pub fn rows(s: &mut Script) {
    if s.random.one_in(3) {
        return rows_at_sender(s);
    }
    let Some(name) = s.some_receiver() else {
        return;
    };
    s.make_room_at_receiver(name);
    let us = s.receiver(name).map_or(0, |receiver| receiver.identity());
    let width = usize::from(s.receiver(name).map_or(16, |receiver| receiver.width()));
    let expiry = s.expiry_in(name, 50);
    let source = s.random.next() as u32;
    for message in 0..ROWS + 2 {
        let heading = heading(source, message);
        if s.random.one_in(2) {
            s.take(name, &write::data(heading, 2, b"full"));
        } else {
            s.take(name, &pdus::address_to(us, heading, 2, expiry));
        }
    }
    let ninth = heading(source, ROWS + 5);
    for fragment in [vec![], vec![7; width + 1], vec![7]] {
        s.take(name, &write::data(ninth, 1, &fragment));
    }
    s.take(name, &pdus::address_to(us ^ 1, ninth, 2, expiry));
    s.take(name, &write::discard(heading(source, 3)));
    s.take(name, &write::data(ninth, 1, &[]));
    s.take(name, &write::data(ninth, 1, b"now"));
    let later = s.now(name) + s.random.one_of(&[0, 49_000, 60_000]);
    s.tick(name, later);
    s.take(name, &write::data(heading(source, 0), 1, b"first"));
}

fn rows_at_sender(s: &mut Script) {
    let Some(name) = s.some_sender() else { return };
    let begun: Vec<u32> = (0..=ROWS).filter_map(|_| s.begin(name)).collect();
    s.begin(name);
    for identity in begun {
        s.call(&format!("{name} withdraw {name}:{identity}"));
        if s.random.one_in(3) {
            s.begin(name);
        }
    }
}

pub fn stores(s: &mut Script) {
    if s.random.one_in(2) {
        let Some(name) = s.sender_with_at_most(SMALL) else {
            return;
        };
        store_of_sender(s, name);
    } else {
        let Some(name) = s.receiver_with_at_most(SMALL) else {
            return;
        };
        store_of_receiver(s, name);
    }
}

fn store_of_sender(s: &mut Script, name: Name) {
    s.make_room(name);
    let drafts = [s.begin(name), s.begin(name)];
    let [Some(first), Some(second)] = drafts else {
        return;
    };
    for _ in 0..=SMALL / 2 {
        s.append(name, first, 1);
        s.append(name, second, 1);
    }
    s.call(&format!("{name} append {name}:{first} -"));
    if let Some(other) = s.some_sender() {
        if let Some(identity) = s.begin(other) {
            s.call(&format!("{name} append {other}:{identity} 00"));
            s.call(&format!("{other} withdraw {other}:{identity}"));
        }
    }
    s.call(&format!("{name} withdraw {name}:{first}"));
    s.append(name, second, 2);
    let (expiry, ships) = (s.some_expiry(name), s.enrolled(name, 1));
    s.submit(name, second, expiry, &ships);
    s.poll_all(name, 4);
}

fn store_of_receiver(s: &mut Script, name: Name) {
    s.make_room_at_receiver(name);
    let us = s.receiver(name).map_or(0, |receiver| receiver.identity());
    let width = usize::from(s.receiver(name).map_or(16, |receiver| receiver.width()));
    let expiry = s.expiry_in(name, 500);
    let (one, two) = (heading(815, 1), heading(815, s.random.next() as u32));
    s.take(name, &pdus::address_to(us, one, 256, expiry));
    for number in 1..=SMALL + 1 {
        s.take(name, &write::data(one, number, b"drop"));
    }
    // Full: what is held comes again, lengths are looked at first.
    for heading in [one, two] {
        for fragment in [vec![], vec![1; width], vec![1; width + 1]] {
            for number in [1, 200] {
                s.take(name, &write::data(heading, number, &fragment));
            }
        }
    }
    s.take(name, &pdus::address_to(us, two, 1, expiry));
    s.take(name, &write::data(two, 1, b"!"));
    s.take(name, &write::discard(one));
    s.take(name, &write::data(two, 1, b"!"));
    s.collect(name);
}

/// 256 fragments and one more, then what a sender and a receiver do with
/// them.
pub fn long_message(s: &mut Script) {
    let Some(name) = s.some_sender() else { return };
    s.make_room(name);
    let Some(identity) = s.begin(name) else {
        return;
    };
    for _ in 0..257 {
        let octet = s.random.next() as u8;
        s.call(&format!("{name} append {name}:{identity} {octet:02x}"));
    }
    let ships = s.enrolled(name, 2);
    let expiry = s.expiry_in(name, 3_000);
    s.submit(name, identity, expiry, &ships);
    let source = s.sender(name).map_or(0, |sender| sender.source());
    s.poll_all(name, 3);
    for _ in 0..6 {
        let entry = Entry {
            source,
            message: identity,
            missing: any_list(s, 256),
        };
        let ship = s.random.one_of(&ships);
        s.take(name, &pdus::ack(ship, 0, &[entry], false));
        s.call(&format!("{name} lacking {identity} {ship}"));
    }
    if let Some(receiver) = s.some_receiver() {
        long_arrival(s, receiver);
    }
}

/// All 256 numbers in any order, but for some that come last.
fn long_arrival(s: &mut Script, name: Name) {
    s.make_room_at_receiver(name);
    let us = s.receiver(name).map_or(0, |receiver| receiver.identity());
    let expiry = s.expiry_in(name, 3_000);
    let heading = heading(256, s.random.next() as u32);
    let mut numbers: Vec<u16> = (1..=256).collect();
    if s.random.one_in(2) {
        s.random.shuffle(&mut numbers);
    }
    let loose = s.random.below(100);
    for (place, number) in numbers.into_iter().enumerate() {
        if place == loose {
            s.take(name, &pdus::address_to(us, heading, 256, expiry));
        }
        s.take(name, &write::data(heading, number, &[number as u8]));
        if s.random.one_in(20) {
            s.tick_near(name);
            s.poll(name);
        }
    }
    s.take(name, &write::data(heading, 256, b"again"));
    s.collect(name);
}

/// A grid holds 2,048 strings, eight times 256. Only a long script has room
/// for it.
pub fn brimful_grid(s: &mut Script) {
    const NEEDED: usize = 8_000;
    if s.left < NEEDED {
        return;
    }
    let Some(name) = s.some_sender() else { return };
    s.make_room(name);
    let begun: Vec<u32> = (0..ROWS).filter_map(|_| s.begin(name)).collect();
    for identity in &begun {
        for _ in 0..256 {
            s.call(&format!("{name} append {name}:{identity} 5a"));
        }
    }
    for identity in begun {
        s.call(&format!("{name} append {name}:{identity} 5b"));
        s.call(&format!("{name} withdraw {name}:{identity}"));
    }
}
