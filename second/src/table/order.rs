//! Several things wrong at once: which cause and which place is told.

use super::draft::{ack, address, data, discard, each_kind, Draft, ADDRESS, EXTRA_ADDRESS};
use super::Table;
use crate::wire::End::{self, Receiver, Sender};

/// Breaks one thing in a draft; length and Checksum are repaired afterwards.
type Break = fn(Draft) -> Draft;

pub fn groups(t: &mut Table) {
    data_and_discard(t);
    acks(t);
    addresses(t);
    causes(t);
    causes_of_long_datagrams(t);
}

fn alone_and_in_pairs(t: &mut Table, end: End, right: &Draft, breaks: &[Break]) {
    for (index, first) in breaks.iter().enumerate() {
        let broken = first(right.clone());
        t.put(end, &broken.clone().sealed());
        for second in &breaks[index + 1..] {
            t.put(end, &second(broken.clone()).sealed());
        }
    }
}

fn data_and_discard(t: &mut Table) {
    t.group("Data: fields broken alone and in pairs");
    let breaks: [Break; 3] = [|d| d.top_bits(1), |d| d.word(4, 0), |d| d.word(4, 257)];
    alone_and_in_pairs(t, Receiver, &data(9, b"xyz"), &breaks);
    t.group("Discard: fields broken alone and in pairs");
    let breaks: [Break; 3] = [|d| d.resized(17), |d| d.top_bits(2), |d| d.word(4, 1)];
    alone_and_in_pairs(t, Receiver, &discard(), &breaks);
}

/// The entries of this ACK stand at 14 and 28, its numbers at 24, 26 and 38,
/// and its Time_Option at 40.
fn acks(t: &mut Table) {
    let right = ack(&[&[1, 2], &[3]]).resized(48);
    t.group("ACK: fields broken alone and in pairs");
    let breaks: [Break; 9] = [
        |d| d.top_bits(3),
        |d| d.word(4, 1),
        |d| d.word(12, 3),
        |d| d.word(14, 15),
        |d| d.word(24, 0),
        |d| d.word(26, 257),
        |d| d.word(28, 8),
        |d| d.word(38, 65535),
        |d| d.resized(49),
    ];
    alone_and_in_pairs(t, Sender, &right, &breaks);
    t.group("ACK: other ways to break the fields, alone and in pairs");
    let breaks: [Break; 5] = [
        |d| d.word(12, 1),
        |d| d.word(14, 0),
        |d| d.word(28, 22),
        |d| d.word(24, 300),
        |d| d.resized(39),
    ];
    alone_and_in_pairs(t, Sender, &right, &breaks);
}

/// The destinations stand at 24, 34 and 44.
fn addresses(t: &mut Table) {
    let breaks: [Break; 7] = [
        |d| d.resized(23),
        |d| d.word(4, 0),
        |d| d.word(20, 4),
        |d| d.word(22, 3),
        |d| d.long(34, 20),
        |d| d.long(44, 0),
        |d| d.resized(55),
    ];
    for (pdu_type, name) in [(ADDRESS, "Address"), (EXTRA_ADDRESS, "Extra_Address")] {
        t.group(&format!("{name}: fields broken alone and in pairs"));
        let right = address(pdu_type, 2, &[20, 30, 40]);
        alone_and_in_pairs(t, Receiver, &right, &breaks);
    }
}

/// Breaks a field whose place every datagram of 16 octets has.
fn with_broken_field(draft: Draft) -> Draft {
    draft.word(4, 0x0999)
}

/// Breaks what each cause of the set looks at, and repairs the rest.
fn with_causes(right: &Draft, causes: &[u8], length: usize) -> Draft {
    let mut draft = right.clone();
    if causes.contains(&5) {
        draft = with_broken_field(draft);
    }
    if causes.contains(&4) {
        draft = draft.octet(3, 0x18);
    }
    if causes.contains(&1) {
        draft = draft.resized(length);
    }
    draft = draft.sealed();
    if causes.contains(&2) {
        draft = draft.word(0, 1000).summed();
    }
    if causes.contains(&3) {
        // An octet that every cut leaves, in the field itself.
        draft = draft.flipped(6 * 8 + 3);
    }
    draft
}

fn causes(t: &mut Table) {
    for (end, right, name) in each_kind() {
        t.group(&format!("{name}: the causes 1 to 5, alone and in pairs"));
        for first in 1..=5 {
            for second in first..=5 {
                t.put(end, &with_causes(&right, &[first, second], 15));
            }
        }
    }
}

fn causes_of_long_datagrams(t: &mut Table) {
    t.group("1,473 octets, and each other cause with it");
    for other in 2..=5 {
        t.put(Receiver, &with_causes(&data(1, b""), &[1, other], 1473));
    }
    t.group("a PDU for the other end, with a broken field too");
    for (_, right, _) in each_kind() {
        t.put_both(&with_broken_field(right).top_bits(1).sealed());
    }
}
