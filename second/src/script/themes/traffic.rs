//! Senders and receivers over a net that loses, doubles, delays, reorders
//! and damages what they write.

use super::storms;
use crate::script::cast::Name;
use crate::script::{pdus, Script};

/// So many datagrams are underway at most.
const MOST_FLIGHTS: usize = 60;
/// So many old datagrams may come again.
const MOST_OLD: usize = 20;

/// A datagram underway.
#[derive(Clone)]
struct Flight {
    to: Name,
    octets: Vec<u8>,
}

struct Net {
    senders: Vec<Name>,
    receivers: Vec<Name>,
    ships: Vec<u32>,
    /// One in so many datagrams is lost.
    loss: usize,
    flights: Vec<Flight>,
    old: Vec<Flight>,
}

pub fn over_a_bad_net(s: &mut Script) {
    let Some(net) = &mut net(s) else { return };
    for _ in 0..80 + s.random.below(200) {
        step(s, net);
    }
}

/// Brings some ends together on one clock.
fn net(s: &mut Script) -> Option<Net> {
    let mut senders = vec![s.some_sender()?];
    senders.extend(s.some_sender().filter(|name| *name != senders[0]));
    let receivers = s.some_receivers();
    let mut ships: Vec<u32> = Vec::new();
    for name in &receivers {
        s.make_room_at_receiver(name);
        ships.extend(s.receiver(name).map(|receiver| receiver.identity()));
    }
    if s.random.one_in(3) {
        ships.push(s.cast.ships[15]);
    }
    ships.sort_unstable();
    for name in &senders {
        s.make_room(name);
        s.enrol(name, &ships);
    }
    let all: Vec<Name> = senders.iter().chain(&receivers).copied().collect();
    s.meet(&all);
    Some(Net {
        senders,
        receivers,
        ships,
        loss: s.random.one_of(&[2, 4, 10, 1000]),
        flights: Vec::new(),
        old: Vec::new(),
    })
}

fn step(s: &mut Script, net: &mut Net) {
    let (sender, receiver) = (
        s.random.one_of(&net.senders),
        s.random.one_of(&net.receivers),
    );
    match s.random.below(32) {
        0 | 1 => submit(s, net, sender),
        2..=9 => send(s, net, sender),
        10..=20 => deliver(s, net),
        21..=23 => acknowledge(s, net, receiver),
        24 | 25 => pass_time(s, net),
        26 => drop(s.collect(receiver)),
        27 => storms::ask(s, sender, &net.ships),
        28 => storms::forget(s, sender),
        29 => repeat_old(s, net),
        30 => storms::silence(s, sender, &net.ships),
        _ => {
            let word = s.random.one_of(&["on", "off", "off"]);
            s.call(&format!("{receiver} silence {word}"));
        }
    }
}

fn submit(s: &mut Script, net: &Net, sender: Name) {
    if s.sender(sender).is_none_or(|end| end.vacancies() < 2) {
        return;
    }
    let (total, expiry) = (1 + s.random.below(6), s.some_expiry(sender) + 20);
    let first = s.random.below(net.ships.len());
    s.send(sender, total, expiry, &net.ships[first..]);
}

fn send(s: &mut Script, net: &mut Net, sender: Name) {
    let Some(octets) = s.poll(sender) else { return };
    for to in net.receivers.clone() {
        fly(s, net, to, &octets);
    }
}

fn acknowledge(s: &mut Script, net: &mut Net, receiver: Name) {
    let Some(octets) = s.poll(receiver) else {
        return;
    };
    for to in net.senders.clone() {
        fly(s, net, to, &octets);
    }
}

/// Sends a datagram on its way, once, twice or not at all.
fn fly(s: &mut Script, net: &mut Net, to: Name, octets: &[u8]) {
    let flight = Flight {
        to,
        octets: octets.to_vec(),
    };
    if s.random.one_in(net.loss) || net.flights.len() >= MOST_FLIGHTS {
        return;
    }
    if s.random.one_in(8) {
        net.flights.push(flight.clone());
    }
    net.flights.push(flight);
}

/// Delivers a datagram, as a rule the one that has waited longest.
fn deliver(s: &mut Script, net: &mut Net) {
    if net.flights.is_empty() {
        return;
    }
    let place = if s.random.one_in(3) {
        s.random.below(net.flights.len())
    } else {
        0
    };
    let flight = net.flights.remove(place);
    if s.random.one_in(20) {
        let bit = s.random.below(8 * flight.octets.len());
        s.take(flight.to, &pdus::damaged(&flight.octets, bit));
    } else {
        s.take(flight.to, &flight.octets);
    }
    if net.old.len() == MOST_OLD {
        net.old.remove(0);
    }
    net.old.push(flight);
}

/// Delivers once more what came long ago.
fn repeat_old(s: &mut Script, net: &Net) {
    if !net.old.is_empty() {
        let place = s.random.below(net.old.len());
        let flight = &net.old[place];
        s.take(flight.to, &flight.octets);
    }
}

/// Ticks all ends to one clock, near a moment that matters to one of them.
fn pass_time(s: &mut Script, net: &Net) {
    let all: Vec<Name> = net.senders.iter().chain(&net.receivers).copied().collect();
    let clock = s.meet(&all);
    let moments = all.iter().filter_map(|name| s.next_moment(name));
    let first = moments.min().unwrap_or(clock + 1000);
    let soon = clock + s.random.below(6_000) as u64;
    let next = s.random.one_of(&[first - 1, first, first + 1, soon, soon]);
    for name in all {
        if !s.random.one_in(6) {
            s.tick(name, next.max(clock));
        }
    }
}
