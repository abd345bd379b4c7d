//! PDUs with broken fields, damaged PDUs, and PDUs for somebody else.

use super::storms::any_ack;
use crate::replay::words::digits;
use crate::script::cast::Name;
use crate::script::pdus::{self, notice, Entry};
use crate::script::Script;
use crate::table::draft::Draft;
use crate::wire::write::{self, Heading};

/// Values for a field of 16 bits: some are good for some fields.
const WORDS: [u16; 12] = [0, 1, 2, 8, 9, 10, 11, 12, 256, 257, 0x7FFF, 0xFFFF];

pub fn fields(s: &mut Script) {
    let Some(name) = s.any_end() else { return };
    for _ in 0..15 {
        let right = right_pdu(s, name);
        let broken = broken(s, right);
        s.call(&format!("{name} take {}", digits(broken.octets())));
    }
    sizes(s, name);
}

/// A PDU of any kind, with two or three of what it lists.
fn right_pdu(s: &mut Script, name: Name) -> Draft {
    let heading = Heading {
        priority: s.random.next() as u8,
        source: s.random.below(4) as u32,
        message: 1 + s.random.below(9) as u32,
    };
    let (total, expiry) = (1 + s.random.below(256) as u16, s.some_expiry(name));
    let is_sender = s.sender(name).is_some();
    Draft::new(match s.random.below(if is_sender { 7 } else { 4 }) {
        0 => write::data(heading, total, b"fragment"),
        1 | 2 => {
            let mut told = notice(heading, total, expiry, &[3, 5, 9]);
            told.reserved = s.random.one_of(&[0, 0, 2]);
            told.is_extra = s.random.one_in(3);
            pdus::address(&told)
        }
        3 => write::discard(heading),
        _ => any_ack(s, name, &[1, 2, 3]),
    })
}

/// Changes one field or two, and repairs length and Checksum as a rule.
fn broken(s: &mut Script, mut pdu: Draft) -> Draft {
    for _ in 0..1 + s.random.below(2) {
        let word = s.random.one_of(&WORDS);
        let in_lists = 12 + 2 * s.random.below((pdu.len() - 12) / 2);
        let place = s.random.one_of(&[4, 12, 14, 20, 22, in_lists, in_lists]);
        pdu = match s.random.below(6) {
            0 => pdu.top_bits(word as u8 & 3),
            1 => pdu.octet(3, word as u8),
            2 => {
                let length = pdu.len() + s.random.below(12);
                pdu.resized(length.saturating_sub(6).max(16))
            }
            _ => pdu.word(place, word),
        };
    }
    match s.random.below(8) {
        0 => pdu,
        1 => pdu.sealed().word(6, s.random.next() as u16),
        2 => pdu.sealed().word(0, s.random.one_of(&WORDS)).summed(),
        _ => pdu.sealed(),
    }
}

/// Lengths at the bounds of a datagram, and far beyond.
fn sizes(s: &mut Script, name: Name) {
    for length in [0, 1, 15, 16, 17, 1471, 1472, 1473, 1500, 70_000] {
        if s.random.one_in(3) && (length < 2_000 || s.random.one_in(8)) {
            let right = right_pdu(s, name);
            let pdu = right.resized(length);
            let pdu = if length < 16 { pdu } else { pdu.sealed() };
            s.call(&format!("{name} take {}", digits(pdu.octets())));
        }
    }
    if s.random.one_in(3) {
        let full = write::data(heading(1), 1, &[0xFF; 1456]);
        s.take(name, &full);
    }
}

fn heading(source: u32) -> Heading {
    Heading {
        priority: 3,
        source,
        message: 0x2694,
    }
}

/// What one end wrote, at ends that it is not for, and with a bit changed.
pub fn foreign(s: &mut Script) {
    let Some(sender) = s.some_sender() else {
        return;
    };
    s.make_room(sender);
    let (ships, expiry) = (s.enrolled(sender, 2), s.some_expiry(sender));
    s.send(sender, 2, expiry, &ships);
    let mut written = s.poll_all(sender, 3);
    written.push(any_ack(s, sender, &ships));
    written.push(stranger_ack(sender, s));
    for octets in written {
        for _ in 0..3 {
            let Some(name) = s.any_end() else { return };
            s.take(name, &octets);
            let bit = s.random.below(8 * octets.len());
            s.take(name, &pdus::damaged(&octets, bit));
        }
    }
}

/// An ACK of somebody who is not enrolled, to messages there are and are not.
fn stranger_ack(sender: Name, s: &mut Script) -> Vec<u8> {
    let source = s.sender(sender).map_or(0, |end| end.source());
    let entries: Vec<Entry> = s
        .identities(sender)
        .into_iter()
        .chain([0x2694])
        .map(|message| Entry {
            source,
            message,
            missing: vec![256, 1],
        })
        .collect();
    pdus::ack(123_456, 9, &entries, true)
}
