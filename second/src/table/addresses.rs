//! Address and Extra_Address: counts, reserved octets and Destination_IDs.

use super::draft::{address, Draft, ADDRESS, EXTRA_ADDRESS};
use super::Table;
use crate::wire::End::Receiver;

const COUNT: usize = 20;
const RESERVED: usize = 22;
const TYPES: [u8; 2] = [ADDRESS, EXTRA_ADDRESS];

pub fn groups(t: &mut Table) {
    no_destinations(t);
    reserved(t);
    off_by_one(t);
    wrapping_products(t);
    too_short(t);
    orders(t);
    orders_and_other_faults(t);
    maps_and_expiries(t);
    most_destinations(t);
}

fn no_destinations(t: &mut Table) {
    t.group("Address: count 0 with several L, at 24 octets and at more");
    for reserved in [0, 1, 8, 65528, 65535] {
        let draft = address(ADDRESS, 0, &[]).word(RESERVED, reserved);
        for length in [24, 25, 32] {
            t.put(Receiver, &draft.clone().resized(length).sealed());
        }
    }
    t.group("Extra_Address: count 0");
    t.put(Receiver, &address(EXTRA_ADDRESS, 0, &[]));
    t.put(
        Receiver,
        &address(EXTRA_ADDRESS, 0, &[])
            .word(RESERVED, 65535)
            .sealed(),
    );
    t.put(
        Receiver,
        &address(EXTRA_ADDRESS, 0, &[]).resized(32).sealed(),
    );
}

fn reserved(t: &mut Table) {
    t.group("Address and Extra_Address: 1 and 3 destinations with L of 1, 3 and 8");
    for pdu_type in TYPES {
        for reserved in [1, 3, 8] {
            for ids in [&[7][..], &[7, 8, 900]] {
                t.put(Receiver, &address(pdu_type, reserved, ids));
            }
        }
    }
    t.group("Address: the greatest L with one destination, and one more");
    t.put(Receiver, &address(ADDRESS, 1440, &[1]));
    t.put(
        Receiver,
        &address(ADDRESS, 1440, &[1]).word(RESERVED, 1441).sealed(),
    );
    t.group("Address: the same octets as 2 destinations of 12 octets and as 3 of 8");
    let draft = address(ADDRESS, 4, &[1, 2]);
    t.put(Receiver, &draft);
    t.put(Receiver, &draft.word(COUNT, 3).word(RESERVED, 0).sealed());
}

fn off_by_one(t: &mut Table) {
    t.group("Address: count, L and length off by one");
    for (reserved, ids) in [(0, &[1][..]), (0, &[1, 2]), (1, &[1, 2, 3]), (5, &[1, 2])] {
        let right = address(ADDRESS, reserved, ids);
        let (count, length) = (ids.len() as u16, right.len());
        t.put(Receiver, &right.clone().word(COUNT, count - 1).sealed());
        t.put(Receiver, &right.clone().word(COUNT, count + 1).sealed());
        t.put(
            Receiver,
            &right.clone().word(RESERVED, reserved + 1).sealed(),
        );
        t.put(
            Receiver,
            &right
                .clone()
                .word(RESERVED, reserved.wrapping_sub(1))
                .sealed(),
        );
        t.put(Receiver, &right.clone().resized(length - 1).sealed());
        t.put(Receiver, &right.resized(length + 1).sealed());
    }
    t.group("Address: count and L with their octets swapped, and one for the other");
    let right = address(ADDRESS, 3, &[1, 2]);
    t.put(Receiver, &right.clone().word(COUNT, 0x0200).sealed());
    t.put(Receiver, &right.clone().word(RESERVED, 0x0300).sealed());
    t.put(Receiver, &right.word(COUNT, 3).word(RESERVED, 2).sealed());
}

/// Count, L, and the octets that a product cut to 16 bits would ask for.
///
/// No product cut to 32 bits asks for as few octets as a datagram has; the
/// last rows only exceed 32 bits.
const WRAPPING: [(u16, u16, usize); 16] = [
    (1, 65528, 0),
    (1, 65529, 1),
    (3, 65529, 3),
    (1, 65535, 7),
    (2, 65535, 14),
    (8, 65529, 8),
    (8192, 0, 0),
    (8193, 0, 8),
    (8194, 0, 16),
    (4096, 8, 0),
    (4097, 8, 16),
    (16384, 65532, 0),
    (32768, 65528, 0),
    (65535, 65528, 0),
    (65535, 65530, 0),
    (65535, 65535, 0),
];

fn wrapping_products(t: &mut Table) {
    t.group("Address: products beyond 16 and 32 bits, with octets that would fit them cut");
    for (count, reserved, octets) in WRAPPING {
        let draft = address(ADDRESS, 0, &[])
            .word(COUNT, count)
            .word(RESERVED, reserved);
        t.put(Receiver, &draft.resized(24 + octets).sealed());
    }
    t.group("Address: huge counts and L with one destination's octets");
    for (count, reserved) in [(1, 65535), (65535, 0), (65535, 65535), (256, 0), (1, 256)] {
        for pdu_type in TYPES {
            let draft = address(pdu_type, 0, &[1])
                .word(COUNT, count)
                .word(RESERVED, reserved);
            t.put(Receiver, &draft.sealed());
        }
    }
}

fn too_short(t: &mut Table) {
    t.group("Address and Extra_Address: 16 to 23 octets, with a good and a bad total");
    for length in 16..24 {
        for pdu_type in TYPES {
            let draft = address(pdu_type, 0, &[]).resized(length);
            t.put(Receiver, &draft.sealed());
        }
        let draft = address(ADDRESS, 0, &[]).resized(length);
        t.put(Receiver, &draft.word(4, 0).top_bits(1).sealed());
    }
}

/// Rows of IDs that are equal, fall or rise at some place, and some that rise
/// only as unsigned or only as big-endian numbers.
const ORDERS: [&[u32]; 17] = [
    &[5, 5],
    &[6, 5],
    &[5, 6],
    &[5, 5, 6],
    &[6, 5, 7],
    &[5, 6, 6],
    &[5, 7, 6],
    &[5, 6, 7],
    &[7, 6, 5],
    &[1, 2, 3, 4, 4],
    &[1, 3, 2, 3, 2],
    &[0, 1],
    &[0, 0],
    &[0x7FFF_FFFF, 0x8000_0000, 0xFFFF_FFFF],
    &[0x8000_0000, 0x7FFF_FFFF],
    &[0x0000_00FF, 0x0000_0100, 0x0001_0000],
    &[0xFFFF_FFFF, 0x0000_0000],
];

fn orders(t: &mut Table) {
    t.group("Address and Extra_Address: IDs equal, falling and rising, with L 0 and 3");
    for ids in ORDERS {
        t.put(Receiver, &address(ADDRESS, 0, ids));
        t.put(Receiver, &address(EXTRA_ADDRESS, 3, ids));
    }
}

fn orders_and_other_faults(t: &mut Table) {
    t.group("Address: falling IDs with a bad total, with a misfitting count, and with both");
    for pdu_type in TYPES {
        let falling = address(pdu_type, 0, &[3, 2, 1]);
        for (total, count) in [(0, 3), (257, 3), (1, 2), (1, 4), (1, 0), (0, 2), (65535, 4)] {
            t.put(
                Receiver,
                &falling.clone().word(4, total).word(COUNT, count).sealed(),
            );
        }
    }
    t.group("Address: IDs that fall only if L is forgotten, and only if it is not");
    let rising = address(ADDRESS, 8, &[1, 2]);
    t.put(Receiver, &rising.clone().long(32, 0).sealed());
    t.put(Receiver, &rising.long(40, 0).long(32, 9).sealed());
}

fn maps_and_expiries(t: &mut Table) {
    t.group("Address and Extra_Address: MAP 0 to 3, and with a bad total");
    for pdu_type in TYPES {
        for map in 0..4 {
            let draft = address(pdu_type, 0, &[1, 2]).top_bits(map);
            t.put(Receiver, &draft.clone().sealed());
            t.put(Receiver, &draft.word(4, 257).sealed());
        }
    }
    t.group("Address: expiries and sequence numbers from 0 to 4294967295");
    for value in [0, 1, 0x7FFF_FFFF, 0x8000_0000, 0xFFFF_FFFF] {
        t.put(
            Receiver,
            &address(ADDRESS, 0, &[1])
                .long(16, value)
                .long(28, value)
                .sealed(),
        );
    }
}

fn most_destinations(t: &mut Table) {
    let ids: Vec<u32> = (1..=181).map(|index| index << 20).collect();
    let right: Draft = address(ADDRESS, 0, &ids);
    let last = 24 + 180 * 8;
    t.group(
        "Address: 181 destinations, the most that fit; the last ID equal, falling, the second too",
    );
    t.put(Receiver, &right);
    t.put(Receiver, &right.clone().long(last, 180 << 20).sealed());
    t.put(Receiver, &right.clone().long(last, 0).sealed());
    t.put(Receiver, &right.clone().long(last, 0).long(32, 0).sealed());
    t.group("Address: the same with counts 180 and 182, and with 182 destinations");
    t.put(Receiver, &right.clone().word(COUNT, 180).sealed());
    t.put(Receiver, &right.clone().word(COUNT, 182).sealed());
    t.put(Receiver, &right.resized(1480).word(COUNT, 182).sealed());
}
