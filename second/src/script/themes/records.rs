//! Messages handed over, until all records are in use.

use crate::replay::Answer;
use crate::script::cast::Name;
use crate::script::pdus::{self, notice};
use crate::script::Script;
use crate::wire::write::{self, Heading};

/// One more than there are records.
const MANY: u32 = 33;

/// Messages of one fragment, each with its expiry.
struct Delivery {
    name: Name,
    us: u32,
    first: u32,
    expiry: u32,
}

impl Delivery {
    fn heading(&self, place: u32) -> Heading {
        Heading {
            priority: (place % 3) as u8,
            source: 4711,
            message: self.first.wrapping_add(place),
        }
    }

    /// Three messages expire at a time.
    fn expiry(&self, place: u32) -> u32 {
        self.expiry + place / 3
    }

    fn address(&self, s: &mut Script, place: u32) {
        let pdu = pdus::address_to(self.us, self.heading(place), 1, self.expiry(place));
        s.take(self.name, &pdu);
    }

    fn data(&self, s: &mut Script, place: u32) {
        let fragment = s.random.octets(2);
        s.take(self.name, &write::data(self.heading(place), 1, &fragment));
    }
}

pub fn records(s: &mut Script) {
    let Some(name) = s.some_receiver() else {
        return;
    };
    s.make_room_at_receiver(name);
    let Some(us) = s.receiver(name).map(|receiver| receiver.identity()) else {
        return;
    };
    let expiry = s.expiry_in(name, 100);
    let first = s.random.next() as u32;
    let it = Delivery {
        name,
        us,
        first,
        expiry,
    };
    let count = s.random.one_of(&[3, 8, MANY, MANY + 2]);
    for place in 0..count {
        it.address(s, place);
        it.data(s, place);
        if s.random.one_in(6) {
            s.poll(name);
        }
        if matches!(s.collect(name), Answer::Refused(_)) {
            break;
        }
    }
    for buffer in [0, 1, 2] {
        s.call(&format!("{name} collect {buffer}"));
    }
    for _ in 0..6 {
        repeat(s, &it, count);
    }
    leave(s, &it);
}

/// Repeats a message that was handed over.
fn repeat(s: &mut Script, it: &Delivery, count: u32) {
    let place = s.random.below(count as usize) as u32;
    match s.random.below(6) {
        0 | 1 => it.data(s, place),
        2 => it.address(s, place),
        3 | 4 => {
            // Of a record neither total nor priority nor expiry matter.
            let mut heading = it.heading(place);
            heading.priority = 200;
            let mut others = notice(heading, 9, it.expiry(place) + 50, &[]);
            others.map = s.random.one_of(&[0, 1]);
            s.take(it.name, &pdus::address(&others));
        }
        _ => {
            s.take(it.name, &write::discard(it.heading(place)));
        }
    }
    s.tick_near(it.name);
    s.poll(it.name);
}

/// Records go at their expiries, and make room for others.
fn leave(s: &mut Script, it: &Delivery) {
    let moment = u64::from(it.expiry) * 1000;
    for clock in [moment - 1, moment] {
        if clock > s.now(it.name) {
            s.tick(it.name, clock);
        }
        it.data(s, 0);
        s.collect(it.name);
    }
    s.poll_all(it.name, 40);
    let late = u64::from(it.expiry(MANY + 2)) * 1000;
    let now = s.now(it.name);
    s.tick(it.name, late.max(now));
    s.poll(it.name);
    s.collect(it.name);
}
