//! The program pdudump: docs/PDUDUMP.md has its input and its output.

use crate::lines::{next_line, Ended};
use crate::wire::{self, Ack, Address, Body, Data, End, Pdu, Refusal};
use std::io::{self, BufRead, Write};

const NOT_A_DATAGRAM: &str =
    "not a datagram; expected 'sender' or 'receiver', one space, and octets in hexadecimal or '-'";

/// A field's place and what is printed of it.
type Field = (usize, String);

/// Answers every line of the input that is neither empty nor a comment.
pub fn dump(input: &mut impl BufRead, out: &mut impl Write) -> io::Result<()> {
    let mut line = Vec::new();
    let mut number = 0u64;
    while let Some(ended) = next_line(input, &mut line)? {
        number += 1;
        // Only a line feed makes the carriage return a part of the end.
        if ended == Ended::Feed && line.ends_with(b"\r") {
            line.pop();
        }
        if line.is_empty() || line.starts_with(b"#") {
            continue;
        }
        let datagram = datagram(&line)?;
        write!(out, "line {number}: ")?;
        match datagram {
            Some((end, octets)) => answer(out, end, &octets)?,
            None => writeln!(out, "{NOT_A_DATAGRAM}")?,
        }
    }
    Ok(())
}

/// The end and the octets that a line names, or nothing if it is malformed.
fn datagram(line: &[u8]) -> io::Result<Option<(End, Vec<u8>)>> {
    let (end, digits) = if let Some(digits) = line.strip_prefix(b"sender ") {
        (End::Sender, digits)
    } else if let Some(digits) = line.strip_prefix(b"receiver ") {
        (End::Receiver, digits)
    } else {
        return Ok(None);
    };
    Ok(octets(digits)?.map(|octets| (end, octets)))
}

fn octets(digits: &[u8]) -> io::Result<Option<Vec<u8>>> {
    let mut octets = Vec::new();
    if digits == b"-" {
        return Ok(Some(octets));
    }
    if digits.is_empty() || digits.len() % 2 == 1 {
        return Ok(None);
    }
    octets.try_reserve_exact(digits.len() / 2)?;
    for pair in digits.chunks(2) {
        match (digit(pair[0]), digit(pair[1])) {
            (Some(high), Some(low)) => octets.push(high << 4 | low),
            _ => return Ok(None),
        }
    }
    Ok(Some(octets))
}

fn digit(character: u8) -> Option<u8> {
    match character {
        b'0'..=b'9' => Some(character - b'0'),
        b'a'..=b'f' => Some(character - b'a' + 10),
        b'A'..=b'F' => Some(character - b'A' + 10),
        _ => None,
    }
}

fn answer(out: &mut impl Write, end: End, octets: &[u8]) -> io::Result<()> {
    let name = end_name(end);
    match wire::read(end, octets) {
        Ok(pdu) => {
            writeln!(
                out,
                "{name} reads {}, {} octets",
                kind_name(&pdu.body),
                pdu.length
            )?;
            for (place, text) in fields(&pdu) {
                writeln!(out, "  {place}: {text}")?;
            }
            Ok(())
        }
        Err(refusal) => writeln!(out, "{name} refuses with {}", cause(end, refusal)),
    }
}

fn cause(end: End, refusal: Refusal) -> String {
    match refusal {
        Refusal::Size { length } => format!("1: {length} octets, not 16 to 1472"),
        Refusal::Length { field, length } => {
            format!("2: length field {field}, datagram of {length} octets")
        }
        Refusal::Checksum { field, right } => {
            format!("3: checksum field {field:04X}, sum {right:04X}")
        }
        Refusal::Type { pdu_type } => {
            format!("4: type {pdu_type:02X} is not for a {}", end_name(end))
        }
        Refusal::Field { place } => format!("5: the field at octet {place} breaks its rule"),
    }
}

pub fn end_name(end: End) -> &'static str {
    match end {
        End::Sender => "sender",
        End::Receiver => "receiver",
    }
}

fn kind_name(body: &Body) -> &'static str {
    match body {
        Body::Data(_) => "Data",
        Body::Ack(_) => "ACK",
        Body::Address(_) => "Address",
        Body::ExtraAddress(_) => "Extra_Address",
        Body::Discard { .. } => "Discard",
    }
}

/// The fields of a PDU, in the order of their places.
fn fields(pdu: &Pdu) -> Vec<Field> {
    let mut fields = vec![
        (0, format!("length {}", pdu.length)),
        (2, format!("priority {}", pdu.priority)),
        (6, format!("checksum {:04X}", pdu.checksum)),
    ];
    fields.extend(match &pdu.body {
        Body::Data(data) => data_fields(data),
        Body::Ack(ack) => ack_fields(ack),
        Body::Address(address) => address_fields("02", address),
        Body::ExtraAddress(address) => address_fields("12", address),
        Body::Discard { source, message } => discard_fields(*source, *message),
    });
    fields.sort_by_key(|(place, _)| *place);
    fields
}

fn source_and_message(place: usize, source: u32, message: u32) -> [Field; 2] {
    [
        (place, format!("source {source:08X}")),
        (place + 4, format!("message {message:08X}")),
    ]
}

fn data_fields(data: &Data) -> Vec<Field> {
    let mut fragment = format!("fragment, {} octets", data.fragment.len());
    if !data.fragment.is_empty() {
        fragment.push_str(": ");
        fragment.extend(data.fragment.iter().map(|octet| format!("{octet:02X}")));
    }
    let mut fields = vec![
        (3, "type 00".to_string()),
        (4, format!("number {}", data.number)),
        (16, fragment),
    ];
    fields.extend(source_and_message(8, data.source, data.message));
    fields
}

fn discard_fields(source: u32, message: u32) -> Vec<Field> {
    let mut fields = vec![(3, "type 03".to_string()), (4, "unused 0".to_string())];
    fields.extend(source_and_message(8, source, message));
    fields
}

fn address_fields(pdu_type: &str, address: &Address) -> Vec<Field> {
    let mut fields = vec![
        (3, format!("type {pdu_type}, MAP {}", address.map)),
        (4, format!("total {}", address.total)),
        (16, format!("expiry {}", address.expiry)),
        (20, format!("destinations {}", address.destinations.len())),
        (22, format!("reserved {}", address.reserved)),
    ];
    fields.extend(source_and_message(8, address.source, address.message));
    for destination in &address.destinations {
        let (id, number) = (destination.id, destination.sequence_number);
        let text = format!("destination {id:08X}, sequence number {number}");
        fields.push((destination.place, text));
    }
    fields
}

fn ack_fields(ack: &Ack) -> Vec<Field> {
    let mut fields = vec![
        (3, "type 01".to_string()),
        (4, "unused 0".to_string()),
        (8, format!("ACK sender {:08X}", ack.sender)),
        (12, format!("entries {}", ack.entries.len())),
    ];
    for entry in &ack.entries {
        fields.push((entry.place, format!("entry of {} octets", entry.length)));
        fields.extend(source_and_message(
            entry.place + 2,
            entry.source,
            entry.message,
        ));
        for (index, number) in entry.missing.iter().enumerate() {
            fields.push((entry.place + 10 + 2 * index, format!("missing {number}")));
        }
    }
    if let Some(place) = ack.time_option {
        fields.push((place, "Time_Option, 8 octets".to_string()));
    }
    fields
}

#[cfg(test)]
mod tests;
