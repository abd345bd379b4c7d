//! ACKs: their counts, their entries' lengths, and what follows the entries.

use super::draft::{ack, Draft};
use super::Table;
use crate::wire::End::Sender;

/// Where the first entry stands, and with it its length.
const FIRST: usize = 14;
/// Where the second stands if the first lists one number.
const SECOND: usize = 26;

pub fn groups(t: &mut Table) {
    counts(t);
    entry_lengths(t);
    past_the_end(t);
    rests(t);
    shortest(t);
    numbers_and_lengths(t);
    numbers_and_counts(t);
    three_entries(t);
    most_entries(t);
    most_numbers(t);
}

fn with_time_option(draft: Draft) -> Draft {
    let length = draft.len();
    draft.resized(length + 8)
}

fn counts(t: &mut Table) {
    t.group("ACK: counts that fit or misfit 1 to 3 entries, without and with a Time_Option");
    let one: &[u16] = &[1];
    for entries in 1..=3 {
        for count in [0, 1, 2, 3, 4, 65535] {
            let draft = ack(&vec![one; entries]).word(12, count);
            t.put(Sender, &draft.clone().sealed());
            t.put(Sender, &with_time_option(draft).sealed());
        }
    }
}

fn entry_lengths(t: &mut Table) {
    const LENGTHS: [u16; 12] = [0, 1, 8, 9, 10, 11, 12, 13, 14, 22, 65534, 65535];
    t.group("ACK: lengths of the only entry, which lists one number");
    for length in LENGTHS {
        t.put(Sender, &ack(&[&[1]]).word(FIRST, length).sealed());
    }
    t.group("ACK: lengths of the first and of the second of two entries");
    for place in [FIRST, SECOND] {
        for length in LENGTHS {
            t.put(Sender, &ack(&[&[1], &[2]]).word(place, length).sealed());
        }
    }
}

fn past_the_end(t: &mut Table) {
    t.group("ACK: the last entry runs past the end by 1 and 2 octets, and by more");
    for right in [
        ack(&[&[]]),
        ack(&[&[1, 2]]),
        ack(&[&[1], &[2]]),
        ack(&[&[], &[1, 2, 3]]),
    ] {
        for cut in [1, 2, 8] {
            let length = right.len() - cut;
            t.put(Sender, &right.clone().resized(length).sealed());
        }
    }
    t.group("ACK: the same with an odd or short length: fewer than 10 octets left come first");
    for left in [8, 9, 10, 11] {
        for length in [9, 11, 12] {
            let draft = ack(&[&[1], &[2]]).word(SECOND, length);
            t.put(Sender, &draft.resized(SECOND + left).sealed());
        }
    }
}

fn rests(t: &mut Table) {
    t.group("ACK: a rest of 0 to 10 and of 18 octets after one and after two entries");
    for rest in (0..=10).chain([18]) {
        for right in [ack(&[&[]]), ack(&[&[1], &[]])] {
            let length = right.len() + rest;
            t.put(Sender, &right.resized(length).sealed());
        }
    }
    t.group("ACK: Time_Options of octets 00 and FF, and one that looks like an entry");
    for octets in [[0x00; 8], [0xFF; 8], [0, 10, 0, 0, 0, 1, 0, 0]] {
        t.put(Sender, &ack(&[&[4]]).and(&octets).sealed());
    }
}

fn shortest(t: &mut Table) {
    t.group("ACK: 16 to 25 octets, with counts 0 to 2");
    for length in 16..=25 {
        for count in 0..=2 {
            t.put(
                Sender,
                &ack(&[&[]]).word(12, count).resized(length).sealed(),
            );
        }
    }
    t.group("ACK: 16, 22 and 23 octets with a broken header");
    for length in [16, 22, 23] {
        t.put(Sender, &ack(&[&[]]).resized(length).top_bits(1).sealed());
        t.put(Sender, &ack(&[&[]]).resized(length).word(4, 256).sealed());
    }
}

fn numbers_and_lengths(t: &mut Table) {
    t.group("ACK: a bad number in one entry and a broken length in the other");
    for bad in [0, 257] {
        for length in [0, 9, 11] {
            t.put(Sender, &ack(&[&[bad], &[2]]).word(SECOND, length).sealed());
            t.put(Sender, &ack(&[&[1], &[bad]]).word(FIRST, length).sealed());
            t.put(Sender, &ack(&[&[1], &[bad]]).word(SECOND, length).sealed());
        }
    }
    t.group("ACK: several bad numbers");
    t.put(Sender, &ack(&[&[0, 257]]));
    t.put(Sender, &ack(&[&[1, 257, 0]]));
    t.put(Sender, &ack(&[&[1], &[0, 257]]));
    t.put(Sender, &ack(&[&[1, 2, 0], &[0]]));
    t.group("ACK: numbers in any order, repeated, and entries repeated");
    t.put(Sender, &ack(&[&[256, 1, 1, 128, 128, 2]]));
    t.put(
        Sender,
        &ack(&[&[5], &[5], &[5]])
            .long(32, 0x2694)
            .long(44, 0x2694)
            .sealed(),
    );
}

fn numbers_and_counts(t: &mut Table) {
    t.group("ACK: a bad number and a misfitting count");
    for bad in [0, 257] {
        for count in [0, 1, 3] {
            t.put(Sender, &ack(&[&[bad], &[2]]).word(12, count).sealed());
            t.put(Sender, &ack(&[&[1], &[bad]]).word(12, count).sealed());
        }
    }
    t.group("ACK: a bad number and a rest");
    for rest in [1, 7, 8, 9, 10] {
        t.put(Sender, &ack(&[&[0]]).resized(26 + rest).sealed());
    }
}

/// The entries stand at 14, 26 and 38.
fn three_entries(t: &mut Table) {
    let right = ack(&[&[1], &[2], &[3]]);
    t.group("ACK: a broken length with a count that says more, less or nothing of it");
    for count in [0, 1, 2, 3, 4] {
        for place in [14, 26, 38] {
            t.put(
                Sender,
                &right.clone().word(12, count).word(place, 11).sealed(),
            );
        }
    }
    t.group("ACK: lengths that take the next entry in, and one that hides a bad number");
    t.put(Sender, &right.clone().word(12, 2).word(14, 24).sealed());
    t.put(Sender, &right.clone().word(12, 2).word(26, 24).sealed());
    t.put(Sender, &right.clone().word(12, 1).word(14, 36).sealed());
    t.put(Sender, &right.clone().word(14, 10).sealed());
    t.put(Sender, &right.word(36, 0).word(26, 10).sealed());
}

fn most_entries(t: &mut Table) {
    let right = ack(&[&[] as &[u16]; 145]);
    t.group("ACK: 145 empty entries, the most that fit; with counts 144 and 146, a Time_Option");
    t.put(Sender, &right);
    t.put(Sender, &right.clone().word(12, 144).sealed());
    t.put(Sender, &right.clone().word(12, 146).sealed());
    t.put(Sender, &with_time_option(right.clone()).sealed());
    t.put(
        Sender,
        &with_time_option(right.clone()).word(12, 146).sealed(),
    );
    t.group("ACK: the last of 145 lengths broken");
    t.put(Sender, &right.word(14 + 144 * 10, 8).sealed());
}

fn most_numbers(t: &mut Table) {
    let numbers: Vec<u16> = (1..=256).cycle().take(724).collect();
    let right = ack(&[&numbers]);
    t.group("ACK: one entry with 724 numbers, the most that fit; its last or first number bad");
    t.put(Sender, &right);
    t.put(Sender, &right.clone().word(1470, 257).sealed());
    t.put(Sender, &right.clone().word(24, 0).sealed());
    t.group("ACK: the same and an octet or a number more or less");
    t.put(Sender, &right.clone().resized(1471).sealed());
    t.put(Sender, &right.clone().resized(1470).sealed());
    t.put(Sender, &right.clone().word(14, 1456).sealed());
    t.put(Sender, &right.and_word(1).sealed());
}
