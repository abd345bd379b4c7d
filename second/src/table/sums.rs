//! The Checksum: its edges, and values that wrong sums would give.

use super::draft::{ack, address, data, discard, Draft, ADDRESS, EXTRA_ADDRESS};
use super::Table;
use crate::wire::{
    right_checksum,
    End::{self, Receiver, Sender},
};

pub fn groups(t: &mut Table) {
    edges(t);
    carries(t);
    wrong_sums(t);
}

/// PDUs of every kind with the place of a word that may have any value.
fn with_free_words() -> [(End, Draft, usize); 6] {
    [
        (Receiver, data(1, b"ab"), 16),
        (Receiver, data(1, b"odd"), 16),
        (Sender, ack(&[&[3]]), 10),
        (Receiver, address(ADDRESS, 0, &[1, 2]), 18),
        (Receiver, address(EXTRA_ADDRESS, 1, &[1]), 18),
        (Receiver, discard(), 14),
    ]
}

/// Chooses the word at `place` so that the words add up to FFFF.
fn summing_to_ffff(draft: Draft, place: usize) -> Draft {
    let draft = draft.word(place, 0);
    let lacking = right_checksum(draft.octets());
    draft.word(place, lacking)
}

/// No PDU has the right Checksum FFFF: its words would all be 0, and the
/// length is not. FFFE is the highest.
fn edges(t: &mut Table) {
    t.group("right Checksum 0000: the field 0000, then FFFF");
    for (end, draft, place) in with_free_words() {
        let draft = summing_to_ffff(draft, place);
        for field in [0x0000, 0xFFFF] {
            t.put(end, &draft.clone().word(6, field));
        }
    }
    t.group("right Checksum FFFE, the highest there is: the field FFFE, then FFFF");
    for (end, draft, place) in with_free_words() {
        // One more in a free word carries round from FFFF to 0001.
        let draft = summing_to_ffff(draft, place);
        let word = u16::from_be_bytes([draft.octets()[place], draft.octets()[place + 1]]);
        let draft = draft.word(place, word.wrapping_add(1));
        for field in [0xFFFE, 0xFFFF] {
            t.put(end, &draft.clone().word(6, field));
        }
    }
}

fn carries(t: &mut Table) {
    t.group("many carries: fragments of octets FF");
    for length in [2, 3, 4, 64, 255, 1456] {
        t.put(Receiver, &data(1, &vec![0xFF; length]));
    }
    t.group("sums like 7FFFF, whose carries, when added in, carry again");
    let many = data(1, &[[0xFF; 14].as_slice(), &[0; 2]].concat());
    let lacking = without_carries(many.octets());
    for word in lacking - 8..=lacking + 1 {
        t.put(Receiver, &many.clone().word(30, word).sealed());
    }
}

/// The sum without the complement, with swapped octets, without the carries,
/// with the last octet in the wrong half: mistakes that a program could make.
fn wrong_sums(t: &mut Table) {
    t.group("Checksums of wrong sums");
    for (end, draft, _) in with_free_words() {
        let draft = draft.sealed();
        let right = right_checksum(draft.octets());
        let fields = [
            !right,
            right.swap_bytes(),
            without_carries(draft.octets()),
            last_octet_low(draft.octets()),
            0x0000,
        ];
        for field in fields {
            t.put(end, &draft.clone().word(6, field));
        }
    }
}

/// What the words lack to FFFF if carries are dropped.
fn without_carries(pdu: &[u8]) -> u16 {
    let words = pdu.chunks(2).enumerate().filter(|(index, _)| *index != 3);
    !words.fold(0u16, |sum, (_, pair)| {
        sum.wrapping_add(u16::from_be_bytes([pair[0], *pair.get(1).unwrap_or(&0)]))
    })
}

/// Puts the octet 0 before an odd last octet, not behind it.
fn last_octet_low(pdu: &[u8]) -> u16 {
    let mut padded = pdu.to_vec();
    if padded.len() % 2 == 1 {
        padded.insert(pdu.len() - 1, 0);
    }
    right_checksum(&padded)
}
