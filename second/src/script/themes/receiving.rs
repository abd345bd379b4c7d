//! What a receiver makes of one message, step by step.

use crate::script::cast::Name;
use crate::script::pdus::{self, notice};
use crate::script::Script;
use crate::wire::write::{self, Heading};

/// A message that comes to one receiver.
struct Incoming {
    name: Name,
    us: u32,
    heading: Heading,
    total: u16,
    expiry: u32,
}

/// A message that no receiver has met.
fn incoming(s: &mut Script, total: u16) -> Option<Incoming> {
    let name = s.some_receiver()?;
    s.make_room_at_receiver(name);
    let us = s.receiver(name)?.identity();
    // With this low octet an ACK is due at once.
    let prompt = u32::from(0u8.wrapping_sub(us as u8));
    let low = if s.random.one_in(3) {
        s.random.below(256) as u32
    } else {
        prompt
    };
    let heading = Heading {
        priority: s.random.one_of(&[0, 5, 255]),
        source: s.random.next() as u32,
        message: (s.random.next() as u32) << 8 | low,
    };
    let seconds = s.random.one_of(&[30, 100, 200]);
    let expiry = s.expiry_in(name, seconds);
    Some(Incoming {
        name,
        us,
        heading,
        total,
        expiry,
    })
}

impl Incoming {
    fn address(&self, s: &mut Script) {
        let pdu = pdus::address_to(self.us, self.heading, self.total, self.expiry);
        s.take(self.name, &pdu);
    }

    /// An Address that does not list this receiver.
    fn address_others(&self, s: &mut Script, map: u8) {
        let mut others = notice(self.heading, self.total, self.expiry, &[self.us ^ 1]);
        others.map = map;
        others.is_extra = map > 1;
        s.take(self.name, &pdus::address(&others));
    }

    fn data(&self, s: &mut Script, number: u16) {
        let fragment = s.random.octets(1 + usize::from(number % 3));
        s.take(self.name, &write::data(self.heading, number, &fragment));
    }

    /// Ticks to the time of the ACK, if one is raised, and polls.
    fn poll_ack(&self, s: &mut Script) {
        s.poll(self.name);
        if s.random.one_in(2) {
            s.tick_near(self.name);
            s.poll(self.name);
        }
    }
}

/// Numbers missing below the highest held, and in all, around 32.
pub fn gaps(s: &mut Script) {
    let total = s.random.one_of(&[33, 34, 35, 64, 65, 256]);
    let Some(it) = incoming(s, total) else { return };
    it.address(s);
    let first = s.random.one_of(&[1, 31, 32, 32, 33]);
    it.data(s, first);
    it.poll_ack(s);
    for _ in 0..2 + s.random.below(5) {
        let next = first + 1 + s.random.below(usize::from(total - first).clamp(1, 5)) as u16;
        it.data(s, next.min(total));
        it.poll_ack(s);
    }
    for _ in 0..s.random.below(6) {
        let low = 1 + s.random.below(usize::from(total)) as u16;
        it.data(s, low);
        it.poll_ack(s);
    }
    let now = s.now(it.name);
    for clock in [now + 4_999, now + 5_000, now + 7_550] {
        s.tick(it.name, clock);
        s.poll(it.name);
    }
    it.data(s, total);
    it.poll_ack(s);
    finish(s, &it);
}

/// Sends what may be missing of a short message, or discards a long one.
fn finish(s: &mut Script, it: &Incoming) {
    if it.total <= 40 && s.random.one_in(2) {
        for number in 1..=it.total {
            it.data(s, number);
        }
        it.poll_ack(s);
        s.collect(it.name);
    } else {
        s.take(it.name, &write::discard(it.heading));
    }
}

pub fn loose(s: &mut Script) {
    let total = 1 + s.random.below(4) as u16;
    let Some(it) = incoming(s, total) else { return };
    let held = s.random.below(usize::from(total)) as u16 + 1;
    for number in (1..=held).rev() {
        it.data(s, number);
    }
    let now = s.now(it.name);
    match s.random.below(6) {
        0 => {
            let wait = s.random.one_of(&[59_999, 60_000, 60_001]);
            s.tick(it.name, now + wait);
            it.data(s, 1);
        }
        1 => it.address_others(s, 0),
        2 => it.address_others(s, 3),
        3 => it.data(s, total + 1),
        4 => {
            s.take(it.name, &write::discard(it.heading));
        }
        _ => {}
    }
    it.address(s);
    it.poll_ack(s);
    for number in held + 1..=total {
        it.data(s, number);
    }
    it.address(s);
    it.poll_ack(s);
    at_the_expiry(s, &it);
}

/// What is open goes at its expiry, and what is complete stays.
fn at_the_expiry(s: &mut Script, it: &Incoming) {
    let moment = u64::from(it.expiry) * 1000;
    if s.now(it.name) < moment {
        s.tick(it.name, moment - 1);
        it.address(s);
        let clock = moment + s.random.one_of(&[0, 1]);
        s.tick(it.name, clock);
    }
    it.address(s);
    it.data(s, 1);
    it.poll_ack(s);
    s.collect(it.name);
    it.data(s, 1);
    s.poll(it.name);
}

/// PDUs that go against a loose, an open or a complete row.
pub fn conflicts(s: &mut Script) {
    let total = 2 + s.random.below(2) as u16;
    let Some(it) = incoming(s, total) else { return };
    it.data(s, total);
    against(s, &it);
    it.address(s);
    against(s, &it);
    for number in 1..=total {
        it.data(s, number);
    }
    against(s, &it);
    s.collect(it.name);
    against(s, &it);
}

/// One field other than before, listing this receiver or not.
fn against(s: &mut Script, it: &Incoming) {
    let mut other = it.heading;
    other.priority = other.priority.wrapping_add(1);
    let number = s.random.one_of(&[1, it.total]);
    s.take(it.name, &write::data(other, number, b"x"));
    s.take(it.name, &write::data(it.heading, it.total + 1, b"y"));
    let ids = if s.random.one_in(2) {
        vec![it.us]
    } else {
        vec![]
    };
    for heading in [other, it.heading] {
        for (total, expiry) in [(it.total, it.expiry + 1), (it.total - 1, it.expiry)] {
            let told = notice(heading, total, expiry, &ids);
            s.take(it.name, &pdus::address(&told));
        }
    }
    it.address_others(s, 1);
    if s.random.one_in(3) {
        it.address_others(s, 0);
    }
    it.poll_ack(s);
}

pub fn silence(s: &mut Script) {
    let total = 1 + s.random.below(3) as u16;
    let Some(it) = incoming(s, total) else { return };
    it.address(s);
    for step in 0..8 {
        let word = s.random.one_of(&["on", "off"]);
        s.call(&format!("{} silence {word}", it.name));
        match s.random.below(4) {
            0 => it.data(s, 1 + (step % total)),
            1 => it.address(s),
            2 => drop(s.collect(it.name)),
            _ => s.tick_near(it.name),
        }
        it.poll_ack(s);
    }
    s.call(&format!("{} silence off", it.name));
    it.poll_ack(s);
}

/// An open row in silence, through its quiet time or not: its ACK is raised
/// once, after the silence.
pub fn quiet_silence(s: &mut Script) {
    let Some(it) = incoming(s, 3) else { return };
    it.address(s);
    it.data(s, 3);
    if s.random.one_in(2) {
        s.poll(it.name);
    }
    s.call(&format!("{} silence on", it.name));
    let quiet = s.now(it.name) + s.random.one_of(&[4_999, 5_000, 5_001]);
    s.tick(it.name, quiet);
    s.call(&format!("{} silence off", it.name));
    for wait in [0, 2_550, 3_000] {
        s.tick(it.name, quiet + wait);
        s.poll(it.name);
    }
    finish(s, &it);
}

/// What Addresses do to the ACK of a complete row, and then of a record.
pub fn addresses(s: &mut Script) {
    let Some(it) = incoming(s, 2) else { return };
    it.address(s);
    for number in [2, 1] {
        it.data(s, number);
        let step = s.random.below(700) as u64;
        let clock = s.now(it.name) + step;
        s.tick(it.name, clock);
    }
    for _ in 0..2 {
        for _ in 0..5 {
            match s.random.below(4) {
                0 => it.address_others(s, 0),
                1 => it.address_others(s, 2),
                2 => it.address(s),
                _ => it.data(s, 1),
            }
            let wait = s.random.one_of(&[0, 1, 400, 2_550]);
            let clock = s.now(it.name) + wait;
            s.tick(it.name, clock);
            if s.random.one_in(2) {
                s.poll(it.name);
            }
        }
        s.collect(it.name);
    }
}
