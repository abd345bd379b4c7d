//! Random calls at one end, out of a small world, so that they meet.

use crate::script::cast::Name;
use crate::script::pdus::{self, Entry, Notice};
use crate::script::Script;
use crate::wire::write::{self, Heading};

pub fn at_a_sender(s: &mut Script) {
    let Some(name) = s.some_sender() else { return };
    s.make_room(name);
    let count = 1 + s.random.below(4);
    let ships = s.enrolled(name, count);
    for _ in 0..40 + s.random.below(100) {
        sender_step(s, name, &ships);
    }
}

fn sender_step(s: &mut Script, name: Name, ships: &[u32]) {
    match s.random.below(16) {
        0 | 1 => submit(s, name, ships),
        2..=5 => drop(s.poll(name)),
        6..=8 => {
            let ack = any_ack(s, name, ships);
            s.take(name, &ack);
        }
        9..=11 => s.tick_near(name),
        12 => silence(s, name, ships),
        13 | 14 => ask(s, name, ships),
        _ => forget(s, name),
    }
}

/// Submits a message to some of these ships.
fn submit(s: &mut Script, name: Name, ships: &[u32]) {
    let (total, expiry) = (1 + s.random.below(5), s.some_expiry(name));
    let first = s.random.below(ships.len());
    let count = 1 + s.random.below(ships.len() - first);
    s.send(name, total, expiry, &ships[first..first + count]);
}

pub fn silence(s: &mut Script, name: Name, ships: &[u32]) {
    let (ship, word) = (
        s.random.one_of(ships),
        s.random.one_of(&["on", "on", "off"]),
    );
    s.call(&format!("{name} silence {ship} {word}"));
}

/// Asks for a message of the sender, or for none.
pub fn ask(s: &mut Script, name: Name, ships: &[u32]) {
    let identity = some_identity(s, name);
    let ship = s.random.one_of(ships);
    let word = s.random.one_of(&["standing", "lacking"]);
    s.call(&format!("{name} {word} {identity} {ship}"));
}

pub fn forget(s: &mut Script, name: Name) {
    let identity = some_identity(s, name);
    s.call(&format!("{name} forget {identity}"));
}

fn some_identity(s: &mut Script, name: Name) -> u32 {
    let identities = s.identities(name);
    if identities.is_empty() || s.random.one_in(20) {
        return s.random.below(12) as u32;
    }
    s.random.one_of(&identities)
}

/// An ACK of one to three entries, most of which count.
pub fn any_ack(s: &mut Script, name: Name, ships: &[u32]) -> Vec<u8> {
    let from = if s.random.one_in(10) {
        s.random.one_of(&s.cast.ships)
    } else {
        s.random.one_of(ships)
    };
    let count = s.random.one_of(&[1, 1, 1, 2, 3]);
    let entries: Vec<Entry> = (0..count).map(|_| any_entry(s, name)).collect();
    let (priority, time_option) = (s.random.next() as u8, s.random.one_in(6));
    pdus::ack(from, priority, &entries, time_option)
}

fn any_entry(s: &mut Script, name: Name) -> Entry {
    let own = s.sender(name).map_or(0, |sender| sender.source());
    let other = s.random.below(4) as u32;
    let message = some_identity(s, name);
    let total = total_of(s, name, message);
    Entry {
        source: if s.random.one_in(12) { other } else { own },
        message,
        missing: any_list(s, total),
    }
}

fn total_of(s: &Script, name: Name, identity: u32) -> u16 {
    let messages = s.sender(name).map_or(vec![], |sender| sender.messages());
    let mut named = messages
        .iter()
        .filter(|message| message.identity == identity);
    named.next().map_or(3, |message| message.total)
}

/// A list of any shape: empty, of one number, rising, falling, repeated.
pub fn any_list(s: &mut Script, total: u16) -> Vec<u16> {
    let above = u16::from(s.random.one_in(30));
    let mut number = || 1 + s.random.below(usize::from(total + above)) as u16;
    let (a, b) = (number(), number());
    match s.random.below(9) {
        0..=2 => vec![],
        3 => vec![a],
        4 => vec![a, a],
        5 => vec![a.min(b), a.max(b)],
        6 => vec![a.max(b), a.min(b)],
        7 => {
            let length = 2 + s.random.below(7);
            let any = |_| 1 + s.random.below(total.into()) as u16;
            (0..length).map(any).collect()
        }
        _ => {
            let mut list: Vec<u16> = (a.min(b)..=a.max(b)).step_by(2).collect();
            list.push(a.min(b));
            list
        }
    }
}

/// What is told of a message in a storm.
#[derive(Clone, Copy)]
struct Tale {
    heading: Heading,
    total: u16,
    expiry: u32,
}

pub fn at_a_receiver(s: &mut Script) {
    let Some(name) = s.some_receiver() else {
        return;
    };
    s.make_room_at_receiver(name);
    for _ in 0..1 + s.random.below(4) {
        let count = 1 + s.random.below(9);
        let tales: Vec<Tale> = (0..count).map(|_| any_tale(s, name)).collect();
        for _ in 0..25 + s.random.below(30) {
            receiver_step(s, name, &tales);
        }
    }
}

fn any_tale(s: &mut Script, name: Name) -> Tale {
    let us = s.receiver(name).map_or(0, |receiver| receiver.identity());
    // With this low octet an ACK is due at once.
    let prompt = 0u8.wrapping_sub(us as u8);
    let low = prompt.wrapping_add(s.random.one_of(&[0, 0, 1, 2, 3, 4, 77]));
    let heading = Heading {
        priority: s.random.one_of(&[0, 1, 1, 255]),
        source: s.random.one_of(&[1, 2, 9]),
        message: s.random.below(3) as u32 * 256 + u32::from(low),
    };
    Tale {
        heading,
        total: s.random.one_of(&[1, 1, 2, 2, 3, 5]),
        expiry: s.some_expiry(name),
    }
}

fn receiver_step(s: &mut Script, name: Name, tales: &[Tale]) {
    match s.random.below(20) {
        0..=10 => {
            let pdu = any_pdu(s, name, tales);
            s.take(name, &pdu);
        }
        11..=13 => s.tick_near(name),
        14..=16 => drop(s.poll(name)),
        17 | 18 => drop(s.collect(name)),
        _ => {
            let word = s.random.one_of(&["on", "off", "off"]);
            s.call(&format!("{name} silence {word}"));
        }
    }
}

fn any_pdu(s: &mut Script, name: Name, tales: &[Tale]) -> Vec<u8> {
    let mut tale = s.random.one_of(tales);
    match s.random.below(45) {
        0 => tale.heading.priority ^= 1,
        1 => tale.total += 1,
        2 => tale.expiry += 1,
        3 => tale.heading.source = 1234,
        _ => {}
    }
    match s.random.below(12) {
        0..=6 => any_data(s, name, tale),
        7..=10 => any_address(s, name, tale),
        _ => write::discard(tale.heading),
    }
}

fn any_data(s: &mut Script, name: Name, tale: Tale) -> Vec<u8> {
    let width = usize::from(s.receiver(name).map_or(16, |receiver| receiver.width()));
    let above = usize::from(s.random.one_in(25));
    let number = 1 + s.random.below(usize::from(tale.total) + above) as u16;
    let short = 1 + s.random.below(4);
    let length = if s.random.one_in(15) {
        s.random.one_of(&[0, width, width + 1])
    } else {
        short
    };
    let fragment = s.random.octets(length);
    write::data(tale.heading, number, &fragment)
}

fn any_address(s: &mut Script, name: Name, tale: Tale) -> Vec<u8> {
    let us = s.receiver(name).map_or(0, |receiver| receiver.identity());
    let mut ids = match s.random.below(8) {
        0 => vec![],
        1 => vec![us ^ 1],
        2 => vec![us ^ 1, us ^ 2],
        3 => vec![us, us ^ 1],
        4 => vec![us, us ^ 4, us ^ 2],
        _ => vec![us],
    };
    ids.sort_unstable();
    pdus::address(&Notice {
        heading: tale.heading,
        total: tale.total,
        expiry: tale.expiry,
        ids,
        map: s.random.one_of(&[0, 0, 0, 0, 1, 2, 3]),
        is_extra: s.random.one_in(5),
        reserved: s.random.one_of(&[0, 0, 0, 1, 6]),
    })
}
