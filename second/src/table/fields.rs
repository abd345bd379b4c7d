//! Kinds, ends, lengths, types, and the values of the simple fields.

use super::draft::{
    ack, address, data, discard, each_kind, Draft, ADDRESS, DATA, DISCARD, EXAMPLES, EXTRA_ADDRESS,
};
use super::Table;
use crate::wire::End::{Receiver, Sender};

/// Values at and about the ends of 1 to 256, and some that look good when an
/// octet is lost.
pub const NUMBERS: [u16; 9] = [0, 1, 255, 256, 257, 512, 0x0201, 0xFF00, 65535];

pub fn groups(t: &mut Table) {
    kinds(t);
    short_datagrams(t);
    long_datagrams(t);
    wrong_lengths(t);
    numbers(t);
    unused(t);
    types(t);
    top_bits(t);
    fragments(t);
    discards(t);
}

fn kinds(t: &mut Table) {
    t.group("the examples of docs/WIRE.md, read by both ends");
    for (_, digits) in EXAMPLES {
        t.put_both(&Draft::of_digits(digits));
    }
    t.group("every kind of PDU, read by both ends, with the lowest priority");
    for (_, draft, _) in each_kind() {
        t.put_both(&draft.priority(255).sealed());
    }
    t.group("identities 00000000 and FFFFFFFF");
    for value in [0, u32::MAX] {
        for (end, draft, _) in each_kind() {
            t.put(end, &draft.long(8, value).sealed());
        }
        t.put(Receiver, &discard().long(12, value).sealed());
        t.put(
            Sender,
            &ack(&[&[]]).long(16, value).long(20, value).sealed(),
        );
    }
}

fn short_datagrams(t: &mut Table) {
    t.group("short datagrams: no octets, and every kind with 1 to 24 octets");
    t.put_both(&Draft::new(Vec::new()));
    for length in [1, 15, 16, 17, 23, 24] {
        for (end, draft, _) in each_kind() {
            t.put(end, &draft.resized(length).sealed());
        }
    }
    t.group("short datagrams of octets 00 and FF, lengths not repaired");
    for length in [1, 15, 16, 17] {
        t.put(Sender, &Draft::new(vec![0x00; length]));
        t.put(Receiver, &Draft::new(vec![0xFF; length]));
    }
}

fn long_datagrams(t: &mut Table) {
    t.group("the longest datagrams of every kind: 1,471 to 1,473 octets");
    for length in [1471, 1472, 1473] {
        for (end, draft, _) in each_kind() {
            t.put(end, &draft.resized(length).sealed());
        }
    }
    t.group("a Discard and 65,536 octets more: the length counts, not its low 16 bits");
    t.put(Receiver, &discard().resized(16 + 65536).sealed());
}

fn wrong_lengths(t: &mut Table) {
    t.group("Length_of_PDU wrong, with the Checksum that is right for it");
    for (end, draft, _) in each_kind() {
        let length = draft.len() as u16;
        for field in [0, length - 1, length + 1, length + 256] {
            t.put(end, &draft.clone().word(0, field).summed());
        }
    }
}

fn numbers(t: &mut Table) {
    t.group("fragment numbers and totals");
    for number in NUMBERS {
        t.put(Receiver, &data(number, b"ab"));
        for pdu_type in [ADDRESS, EXTRA_ADDRESS] {
            t.put(
                Receiver,
                &address(pdu_type, 0, &[5]).word(4, number).sealed(),
            );
        }
    }
    t.group("listed numbers: only one, the last of three, and in the second entry");
    for number in NUMBERS {
        t.put(Sender, &ack(&[&[number]]));
        t.put(Sender, &ack(&[&[7, 8, number]]));
        t.put(Sender, &ack(&[&[7], &[number]]));
    }
}

fn unused(t: &mut Table) {
    t.group("octets 4 and 5 of ACK and Discard");
    for value in [0, 1, 255, 256, 65535] {
        t.put(Sender, &ack(&[&[1]]).word(4, value).sealed());
        t.put(Receiver, &discard().word(4, value).sealed());
    }
}

fn types(t: &mut Table) {
    t.group("unknown types, read by both ends");
    for pdu_type in [
        0x04, 0x05, 0x06, 0x07, 0x08, 0x10, 0x11, 0x13, 0x18, 0x22, 0x3F,
    ] {
        t.put_both(&discard().octet(3, pdu_type).sealed());
    }
}

fn top_bits(t: &mut Table) {
    t.group("top bits 1 to 3 with every known type, read by both ends");
    for bits in 1..=3 {
        for (_, draft, _) in each_kind() {
            t.put_both(&draft.top_bits(bits).sealed());
        }
    }
    t.group("top bits with unknown types");
    for pdu_type in [0x04, 0x08, 0x18, 0x3F] {
        t.put_both(&discard().octet(3, pdu_type).top_bits(2).sealed());
    }
}

fn fragments(t: &mut Table) {
    t.group("Data with fragments of 0 to 4 octets");
    for length in 0..5 {
        t.put(Receiver, &data(256, &b"MAP?"[..length]));
    }
    t.group("Data with fragments of 1,455 and 1,456 octets, and one octet too many");
    for length in [1455u16, 1456, 1457] {
        let fragment: Vec<u8> = (0..length).map(|octet| octet as u8).collect();
        t.put(Receiver, &data(1, &fragment));
    }
}

fn discards(t: &mut Table) {
    t.group("Discard longer than 16 octets, alone and with other faults");
    for length in [17, 18, 24] {
        let long = discard().resized(length);
        t.put(Receiver, &long.clone().sealed());
        t.put(Receiver, &long.clone().top_bits(1).sealed());
        t.put(Receiver, &long.word(4, 1).sealed());
    }
    t.group("16 octets read as Data, Address, Extra_Address and Discard");
    for pdu_type in [DATA, ADDRESS, EXTRA_ADDRESS, DISCARD] {
        t.put(Receiver, &discard().octet(3, pdu_type).sealed());
        t.put(Receiver, &discard().octet(3, pdu_type).word(4, 1).sealed());
    }
}
