//! Writing a PDU by the rules of docs/WIRE.md.
//!
//! The ends give only fields that keep their rules and lists that fit into a
//! datagram, so these writers have nothing of a field to refuse.

use super::{right_checksum, EMPTY_ENTRY};

/// What all PDUs of a message say.
#[derive(Clone, Copy, Debug)]
pub struct Heading {
    pub priority: u8,
    pub source: u32,
    pub message: u32,
}

/// A destination as an Address lists it.
#[derive(Clone, Copy, Debug)]
pub struct Addressed {
    pub id: u32,
    pub sequence_number: u32,
}

pub fn data(heading: Heading, number: u16, fragment: &[u8]) -> Vec<u8> {
    let mut pdu = header(heading.priority, 0x00, number);
    put_identity(&mut pdu, heading);
    pdu.extend_from_slice(fragment);
    sealed(pdu)
}

pub fn discard(heading: Heading) -> Vec<u8> {
    let mut pdu = header(heading.priority, 0x03, 0);
    put_identity(&mut pdu, heading);
    sealed(pdu)
}

pub fn address(heading: Heading, total: u16, expiry: u32, destinations: &[Addressed]) -> Vec<u8> {
    let mut pdu = header(heading.priority, 0x02, total);
    put_identity(&mut pdu, heading);
    put_long(&mut pdu, expiry);
    put_word(&mut pdu, destinations.len() as u16);
    put_word(&mut pdu, 0);
    for destination in destinations {
        put_long(&mut pdu, destination.id);
        put_long(&mut pdu, destination.sequence_number);
    }
    sealed(pdu)
}

/// An ACK of one entry.
pub fn ack(sender: u32, heading: Heading, missing: &[u16]) -> Vec<u8> {
    let mut pdu = header(heading.priority, 0x01, 0);
    put_long(&mut pdu, sender);
    put_word(&mut pdu, 1);
    put_word(&mut pdu, (EMPTY_ENTRY + 2 * missing.len()) as u16);
    put_identity(&mut pdu, heading);
    for number in missing {
        put_word(&mut pdu, *number);
    }
    sealed(pdu)
}

/// The eight first octets, with length and Checksum still 0.
fn header(priority: u8, pdu_type: u8, word4: u16) -> Vec<u8> {
    let [high, low] = word4.to_be_bytes();
    vec![0, 0, priority, pdu_type, high, low, 0, 0]
}

fn put_identity(pdu: &mut Vec<u8>, heading: Heading) {
    put_long(pdu, heading.source);
    put_long(pdu, heading.message);
}

fn put_word(pdu: &mut Vec<u8>, value: u16) {
    pdu.extend_from_slice(&value.to_be_bytes());
}

fn put_long(pdu: &mut Vec<u8>, value: u32) {
    pdu.extend_from_slice(&value.to_be_bytes());
}

/// Puts the length in, then the Checksum.
fn sealed(mut pdu: Vec<u8>) -> Vec<u8> {
    let length = pdu.len() as u16;
    pdu[0..2].copy_from_slice(&length.to_be_bytes());
    let checksum = right_checksum(&pdu);
    pdu[6..8].copy_from_slice(&checksum.to_be_bytes());
    pdu
}
