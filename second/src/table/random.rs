//! Random datagrams, the same in every run.

use super::draft::{ack, address, data, discard, Draft, ACK, ADDRESS, EXTRA_ADDRESS};
use super::fields::NUMBERS;
use super::Table;
use crate::random::Random;
use crate::wire::End::{self, Receiver, Sender};

/// Octets of 16 to 47 that are random throughout.
fn any_draft(random: &mut Random) -> Draft {
    let length = 16 + random.below(32);
    Draft::new(random.octets(length))
}

fn any_end(random: &mut Random) -> End {
    random.one_of(&[Sender, Receiver])
}

pub fn groups(t: &mut Table) {
    unrepaired(t);
    repaired(t);
    known_types(t);
    right(t);
    nearly_right(t);
}

fn unrepaired(t: &mut Table) {
    let mut random = Random(1);
    t.group("random octets");
    for _ in 0..15 {
        let length = random.below(40);
        let draft = Draft::new(random.octets(length));
        t.put(any_end(&mut random), &draft);
    }
    t.group("random octets with the length repaired");
    for _ in 0..15 {
        let draft = any_draft(&mut random);
        let length = draft.len() as u16;
        t.put(any_end(&mut random), &draft.word(0, length));
    }
}

fn repaired(t: &mut Table) {
    let mut random = Random(2);
    t.group("random octets with length and Checksum repaired");
    for _ in 0..30 {
        let draft = any_draft(&mut random).sealed();
        t.put(any_end(&mut random), &draft);
    }
}

fn known_types(t: &mut Table) {
    let mut random = Random(3);
    t.group("random octets with a known type, length and Checksum repaired");
    for _ in 0..30 {
        let (end, octet) = random.one_of(&[
            (Receiver, 0x00),
            (Sender, 0x01),
            (Receiver, 0x02),
            (Receiver, 0x92),
            (Receiver, 0x03),
        ]);
        t.put(end, &any_draft(&mut random).octet(3, octet).sealed());
    }
}

/// A right PDU of any kind, with the end that takes it.
fn right_pdu(random: &mut Random) -> (End, Draft) {
    let (end, draft) = match random.below(5) {
        0 => {
            let length = random.below(20);
            (
                Receiver,
                data(1 + random.below(256) as u16, &random.octets(length)),
            )
        }
        1 | 2 => (Sender, right_ack(random)),
        3 => (Receiver, right_address(random)),
        _ => (Receiver, discard()),
    };
    let (priority, identity) = (random.next() as u8, random.next() as u32);
    (end, draft.priority(priority).long(8, identity).sealed())
}

fn right_ack(random: &mut Random) -> Draft {
    let mut lists = Vec::new();
    for _ in 0..1 + random.below(4) {
        let numbers = random.below(4);
        lists.push(
            (0..numbers)
                .map(|_| 1 + random.below(256) as u16)
                .collect::<Vec<u16>>(),
        );
    }
    let draft = ack(&lists.iter().map(|list| &list[..]).collect::<Vec<&[u16]>>());
    let time_option = random.one_of(&[0, 8]);
    draft.and(&random.octets(time_option)).sealed()
}

fn right_address(random: &mut Random) -> Draft {
    let pdu_type = random.one_of(&[ADDRESS, EXTRA_ADDRESS]);
    let mut ids: Vec<u32> = (0..random.below(5)).map(|_| random.next() as u32).collect();
    ids.sort_unstable();
    ids.dedup();
    let (reserved, map) = (random.below(4) as u16, random.below(4) as u8);
    let total = 1 + random.below(256) as u16;
    address(pdu_type, reserved, &ids)
        .top_bits(map)
        .word(4, total)
        .sealed()
}

fn right(t: &mut Table) {
    let mut random = Random(4);
    t.group("random right PDUs");
    for _ in 0..30 {
        let (end, draft) = right_pdu(&mut random);
        t.put(end, &draft);
    }
}

/// Damage that leaves most of a PDU right reaches the deeper rules.
fn nearly_right(t: &mut Table) {
    let mut random = Random(5);
    t.group("random right PDUs with one or two words changed or the end moved, then repaired");
    for _ in 0..80 {
        let (end, mut draft) = right_pdu(&mut random);
        let first = if draft.octets()[3] == ACK { 6 } else { 2 };
        for _ in 0..1 + random.below(2) {
            let words = draft.len() / 2 - first;
            let place = 2 * (first + random.below(words));
            let value = random.one_of(&[&NUMBERS[..], &[9, 10, 11, 12, 14]].concat());
            draft = draft.word(place, value);
        }
        if random.below(4) == 0 {
            let length = draft.len() + random.below(12);
            draft = draft.resized(length.saturating_sub(2).max(16));
        }
        t.put(end, &draft.sealed());
    }
}
