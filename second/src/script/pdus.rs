//! PDUs made by hand, right ones with anything that a PDU may say.

use crate::table::draft::Draft;
use crate::wire::write::{self, Addressed, Heading};

/// An Address with all that can vary in it.
#[derive(Clone, Debug)]
pub struct Notice {
    pub heading: Heading,
    pub total: u16,
    pub expiry: u32,
    /// The destinations, rising.
    pub ids: Vec<u32>,
    pub map: u8,
    pub is_extra: bool,
    pub reserved: u16,
}

/// An entry of an ACK.
#[derive(Clone, Debug)]
pub struct Entry {
    pub source: u32,
    pub message: u32,
    pub missing: Vec<u16>,
}

/// An Address of one part, to these ships.
pub fn notice(heading: Heading, total: u16, expiry: u32, ids: &[u32]) -> Notice {
    Notice {
        heading,
        total,
        expiry,
        ids: ids.to_vec(),
        map: 0,
        is_extra: false,
        reserved: 0,
    }
}

pub fn address(notice: &Notice) -> Vec<u8> {
    let empty = write::address(notice.heading, notice.total, notice.expiry, &[]);
    let pdu_type = if notice.is_extra { 0x12 } else { 0x02 };
    let mut draft = Draft::new(empty)
        .octet(3, pdu_type)
        .top_bits(notice.map)
        .word(20, notice.ids.len() as u16)
        .word(22, notice.reserved);
    for (sequence_number, id) in (7..).zip(&notice.ids) {
        draft = draft.and_long(*id).and_long(sequence_number);
        draft = draft.and(&vec![0xEE; usize::from(notice.reserved)]);
    }
    draft.sealed().octets().to_vec()
}

/// An Address of one part to one ship.
pub fn address_to(ship: u32, heading: Heading, total: u16, expiry: u32) -> Vec<u8> {
    let to = Addressed {
        id: ship,
        sequence_number: 1,
    };
    write::address(heading, total, expiry, &[to])
}

/// An ACK with any number of entries, and with a Time_Option or without.
pub fn ack(sender: u32, priority: u8, entries: &[Entry], time_option: bool) -> Vec<u8> {
    let mut draft = Draft::new(vec![0, 0, priority, 0x01, 0, 0, 0, 0])
        .and_long(sender)
        .and_word(entries.len() as u16);
    for entry in entries {
        draft = draft
            .and_word(10 + 2 * entry.missing.len() as u16)
            .and_long(entry.source)
            .and_long(entry.message);
        for number in &entry.missing {
            draft = draft.and_word(*number);
        }
    }
    if time_option {
        draft = draft.and(&[0xA5; 8]);
    }
    draft.sealed().octets().to_vec()
}

/// Octets with one bit changed, counted from the top bit of the first.
pub fn damaged(octets: &[u8], bit: usize) -> Vec<u8> {
    Draft::new(octets.to_vec()).flipped(bit).octets().to_vec()
}
