//! PDUs in the making: right ones, and the means to break and repair them.

use crate::wire::{
    right_checksum,
    End::{self, Receiver, Sender},
};

pub const DATA: u8 = 0x00;
pub const ACK: u8 = 0x01;
pub const ADDRESS: u8 = 0x02;
pub const DISCARD: u8 = 0x03;
pub const EXTRA_ADDRESS: u8 = 0x12;

const SOURCE: u32 = 0x0A00_0001;
const MESSAGE: u32 = 0x0000_2694;
const DESTINATION: u32 = 0x0A00_0002;
const EXPIRY: u32 = 1_234_567_890;

/// The examples of docs/WIRE.md with the ends that take them.
pub const EXAMPLES: [(End, &str); 5] = [
    (Receiver, "001000030000CF570A00000100002694"),
    (Receiver, "00120000000186EE0A000001000026944869"),
    (Receiver, "00110000000187580A0000010000269448"),
    (
        Receiver,
        "00200002000178DB0A00000100002694499602D2000100000A00000200000001",
    ),
    (Sender, "001800010000C5440A0000020001000A0A00000100002694"),
];

/// Octets on their way to a datagram.
#[derive(Clone, Debug, PartialEq, Eq)]
pub struct Draft(Vec<u8>);

impl Draft {
    pub fn new(octets: Vec<u8>) -> Draft {
        Draft(octets)
    }

    /// Takes hexadecimal digits; blanks between them are for the reader's eye.
    pub fn of_digits(text: &str) -> Draft {
        let digits: Vec<char> = text.chars().filter(|c| !c.is_whitespace()).collect();
        let value = |digit: char| digit.to_digit(16).expect("a hexadecimal digit") as u8;
        Draft(
            digits
                .chunks(2)
                .map(|pair| value(pair[0]) << 4 | value(pair[1]))
                .collect(),
        )
    }

    pub fn digits(&self) -> String {
        if self.0.is_empty() {
            return "-".to_string();
        }
        self.0.iter().map(|octet| format!("{octet:02X}")).collect()
    }

    pub fn octets(&self) -> &[u8] {
        &self.0
    }

    pub fn len(&self) -> usize {
        self.0.len()
    }

    pub fn and(mut self, octets: &[u8]) -> Draft {
        self.0.extend_from_slice(octets);
        self
    }

    pub fn and_word(self, value: u16) -> Draft {
        self.and(&value.to_be_bytes())
    }

    pub fn and_long(self, value: u32) -> Draft {
        self.and(&value.to_be_bytes())
    }

    /// Overwrites octets, as far as there are any: a field may be cut off.
    fn with(mut self, place: usize, octets: &[u8]) -> Draft {
        for (old, new) in self.0.iter_mut().skip(place).zip(octets) {
            *old = *new;
        }
        self
    }

    pub fn octet(self, place: usize, value: u8) -> Draft {
        self.with(place, &[value])
    }

    pub fn word(self, place: usize, value: u16) -> Draft {
        self.with(place, &value.to_be_bytes())
    }

    pub fn long(self, place: usize, value: u32) -> Draft {
        self.with(place, &value.to_be_bytes())
    }

    pub fn priority(self, value: u8) -> Draft {
        self.octet(2, value)
    }

    /// Sets the two top bits and leaves the type.
    pub fn top_bits(mut self, value: u8) -> Draft {
        self.0[3] = self.0[3] & 0x3F | value << 6;
        self
    }

    /// Changes one bit, counted from the top bit of octet 0.
    pub fn flipped(&self, bit: usize) -> Draft {
        let mut changed = self.clone();
        changed.0[bit / 8] ^= 0x80 >> (bit % 8);
        changed
    }

    /// Cuts octets off the end, or adds octets that are not 0.
    pub fn resized(mut self, length: usize) -> Draft {
        self.0.resize(length, 0xA5);
        self
    }

    /// Puts the right Checksum in.
    pub fn summed(self) -> Draft {
        let checksum = right_checksum(&self.0);
        self.word(6, checksum)
    }

    /// Puts the right length in, then the right Checksum.
    pub fn sealed(self) -> Draft {
        // Of a length beyond 65,535 the field takes the low 16 bits.
        let length = self.len() as u16;
        self.word(0, length).summed()
    }
}

fn header(pdu_type: u8, word4: u16) -> Draft {
    Draft(vec![0, 0, 0, pdu_type]).and_word(word4).and_word(0)
}

pub fn data(number: u16, fragment: &[u8]) -> Draft {
    header(DATA, number)
        .and_long(SOURCE)
        .and_long(MESSAGE)
        .and(fragment)
        .sealed()
}

pub fn discard() -> Draft {
    header(DISCARD, 0)
        .and_long(SOURCE)
        .and_long(MESSAGE)
        .sealed()
}

/// An ACK with an entry for each list of numbers.
pub fn ack(entries: &[&[u16]]) -> Draft {
    let mut draft = header(ACK, 0)
        .and_long(DESTINATION)
        .and_word(entries.len() as u16);
    for (message, numbers) in (MESSAGE..).zip(entries) {
        draft = draft
            .and_word(10 + 2 * numbers.len() as u16)
            .and_long(SOURCE)
            .and_long(message);
        for number in numbers.iter() {
            draft = draft.and_word(*number);
        }
    }
    draft.sealed()
}

/// An Address or Extra_Address with L reserved octets to a destination.
pub fn address(pdu_type: u8, reserved: u16, ids: &[u32]) -> Draft {
    let mut draft = header(pdu_type, 1)
        .and_long(SOURCE)
        .and_long(MESSAGE)
        .and_long(EXPIRY);
    draft = draft.and_word(ids.len() as u16).and_word(reserved);
    for (sequence_number, id) in (1..).zip(ids) {
        draft = draft.and_long(*id).and_long(sequence_number);
        draft = draft.and(&vec![0xEE; usize::from(reserved)]);
    }
    draft.sealed()
}

/// One PDU of each kind, with the end that takes it and its name.
pub fn each_kind() -> [(End, Draft, &'static str); 5] {
    [
        (Receiver, data(2, b"!"), "Data"),
        (Sender, ack(&[&[2], &[256]]), "ACK"),
        (
            Receiver,
            address(ADDRESS, 0, &[0x0A00_0002, 0x0A00_0003]),
            "Address",
        ),
        (
            Receiver,
            address(EXTRA_ADDRESS, 0, &[0x0A00_0002]),
            "Extra_Address",
        ),
        (Receiver, discard(), "Discard"),
    ]
}
