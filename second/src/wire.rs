//! Reading a PDU by the rules of docs/WIRE.md.

pub mod write;

const LEAST_OCTETS: usize = 16;
const MOST_OCTETS: usize = 1472;
const DISCARD_OCTETS: usize = 16;

/// The first destination of an Address, and so its least length.
const DESTINATIONS: usize = 24;
/// The octets of a destination besides the L reserved ones.
const DESTINATION_OCTETS: usize = 8;

/// The first entry of an ACK.
const ENTRIES: usize = 14;
/// The octets of an entry that lists no number.
const EMPTY_ENTRY: usize = 10;
const TIME_OPTION: usize = 8;

/// The end that reads.
#[derive(Clone, Copy, Debug, PartialEq, Eq)]
pub enum End {
    Sender,
    Receiver,
}

#[derive(Clone, Copy, Debug, PartialEq, Eq)]
pub enum Kind {
    Data,
    Ack,
    Address,
    ExtraAddress,
    Discard,
}

impl Kind {
    fn of_type(pdu_type: u8) -> Option<Kind> {
        match pdu_type {
            0x00 => Some(Kind::Data),
            0x01 => Some(Kind::Ack),
            0x02 => Some(Kind::Address),
            0x12 => Some(Kind::ExtraAddress),
            0x03 => Some(Kind::Discard),
            _ => None,
        }
    }

    fn reader(self) -> End {
        match self {
            Kind::Ack => End::Sender,
            Kind::Data | Kind::Address | Kind::ExtraAddress | Kind::Discard => End::Receiver,
        }
    }
}

/// Why a datagram is refused: the causes 1 to 5, in this order.
#[derive(Clone, Copy, Debug, PartialEq, Eq)]
pub enum Refusal {
    Size { length: usize },
    Length { field: u16, length: usize },
    Checksum { field: u16, right: u16 },
    Type { pdu_type: u8 },
    Field { place: usize },
}

/// What a PDU says: the header's common fields and what its kind adds.
#[derive(Debug, PartialEq, Eq)]
pub struct Pdu<'a> {
    pub length: usize,
    pub priority: u8,
    pub checksum: u16,
    pub body: Body<'a>,
}

#[derive(Debug, PartialEq, Eq)]
pub enum Body<'a> {
    Data(Data<'a>),
    Ack(Ack),
    Address(Address),
    ExtraAddress(Address),
    Discard { source: u32, message: u32 },
}

#[derive(Debug, PartialEq, Eq)]
pub struct Data<'a> {
    pub number: u16,
    pub source: u32,
    pub message: u32,
    pub fragment: &'a [u8],
}

#[derive(Debug, PartialEq, Eq)]
pub struct Ack {
    pub sender: u32,
    pub entries: Vec<Entry>,
    /// The place of the Time_Option, if there is one.
    pub time_option: Option<usize>,
}

#[derive(Debug, PartialEq, Eq)]
pub struct Entry {
    pub place: usize,
    pub length: usize,
    pub source: u32,
    pub message: u32,
    pub missing: Vec<u16>,
}

#[derive(Debug, PartialEq, Eq)]
pub struct Address {
    pub map: u8,
    pub total: u16,
    pub source: u32,
    pub message: u32,
    pub expiry: u32,
    pub reserved: u16,
    pub destinations: Vec<Destination>,
}

#[derive(Debug, PartialEq, Eq)]
pub struct Destination {
    pub place: usize,
    pub id: u32,
    pub sequence_number: u32,
}

/// Reads a datagram as the given end, or tells the first cause to refuse it.
pub fn read(end: End, datagram: &[u8]) -> Result<Pdu<'_>, Refusal> {
    let length = datagram.len();
    if !(LEAST_OCTETS..=MOST_OCTETS).contains(&length) {
        return Err(Refusal::Size { length });
    }
    let field = word(datagram, 0);
    if usize::from(field) != length {
        return Err(Refusal::Length { field, length });
    }
    let (checksum, right) = (word(datagram, 6), right_checksum(datagram));
    if checksum != right {
        return Err(Refusal::Checksum {
            field: checksum,
            right,
        });
    }
    let pdu_type = datagram[3] & 0x3F;
    let kind = Kind::of_type(pdu_type)
        .filter(|kind| kind.reader() == end)
        .ok_or(Refusal::Type { pdu_type })?;
    if let Some(place) = broken_places(kind, datagram).into_iter().min() {
        return Err(Refusal::Field { place });
    }
    let (priority, body) = (datagram[2], body(kind, datagram));
    Ok(Pdu {
        length,
        priority,
        checksum,
        body,
    })
}

/// The one right value of a PDU's Checksum field.
pub fn right_checksum(pdu: &[u8]) -> u16 {
    const CHECKSUM_WORD: usize = 3;
    let mut sum = 0u16;
    for (index, pair) in pdu.chunks(2).enumerate() {
        if index != CHECKSUM_WORD {
            let low = pair.get(1).copied().unwrap_or(0);
            let (added, carry) = sum.overflowing_add(u16::from_be_bytes([pair[0], low]));
            // With a carry, `added` is at most FFFE, so this does not overflow.
            sum = added + u16::from(carry);
        }
    }
    !sum
}

fn word(pdu: &[u8], place: usize) -> u16 {
    u16::from_be_bytes([pdu[place], pdu[place + 1]])
}

fn long(pdu: &[u8], place: usize) -> u32 {
    u32::from(word(pdu, place)) << 16 | u32::from(word(pdu, place + 2))
}

fn top_bits(pdu: &[u8]) -> u8 {
    pdu[3] >> 6
}

fn is_fragment_number(number: u16) -> bool {
    (1..=256).contains(&number)
}

/// The places of all fields that break their rules, in any order.
fn broken_places(kind: Kind, pdu: &[u8]) -> Vec<usize> {
    match kind {
        Kind::Data => broken_in_data(pdu),
        Kind::Ack => broken_in_ack(pdu),
        Kind::Address | Kind::ExtraAddress => broken_in_address(pdu),
        Kind::Discard => broken_in_discard(pdu),
    }
}

/// The places out of a list of places and whether each is broken.
fn those_broken(judged: &[(usize, bool)]) -> Vec<usize> {
    judged
        .iter()
        .filter(|(_, broken)| *broken)
        .map(|(place, _)| *place)
        .collect()
}

fn broken_in_data(pdu: &[u8]) -> Vec<usize> {
    those_broken(&[
        (3, top_bits(pdu) != 0),
        (4, !is_fragment_number(word(pdu, 4))),
    ])
}

fn broken_in_discard(pdu: &[u8]) -> Vec<usize> {
    those_broken(&[
        (0, pdu.len() > DISCARD_OCTETS),
        (3, top_bits(pdu) != 0),
        (4, word(pdu, 4) != 0),
    ])
}

fn broken_in_ack(pdu: &[u8]) -> Vec<usize> {
    let mut broken = those_broken(&[(3, top_bits(pdu) != 0), (4, word(pdu, 4) != 0)]);
    broken.extend(broken_in_entries(pdu));
    broken
}

/// Walks the entries of an ACK by their lengths, as many as its count says.
fn broken_in_entries(pdu: &[u8]) -> Vec<usize> {
    const COUNT: usize = 12;
    let mut broken = Vec::new();
    let count = word(pdu, COUNT);
    let mut place = ENTRIES;
    for _ in 0..count {
        let left = pdu.len() - place;
        if left < EMPTY_ENTRY {
            broken.push(COUNT);
            return broken;
        }
        let length = usize::from(word(pdu, place));
        if length % 2 == 1 || length < EMPTY_ENTRY {
            // Without a length the walk cannot go on to judge the count.
            broken.push(place);
            return broken;
        }
        if length > left {
            broken.push(COUNT);
            return broken;
        }
        let numbers = (place + EMPTY_ENTRY..place + length).step_by(2);
        broken.extend(numbers.filter(|&at| !is_fragment_number(word(pdu, at))));
        place += length;
    }
    let rest = pdu.len() - place;
    if count == 0 || (rest != 0 && rest != TIME_OPTION) {
        broken.push(COUNT);
    }
    broken
}

fn broken_in_address(pdu: &[u8]) -> Vec<usize> {
    if pdu.len() < DESTINATIONS {
        // No place is lower, and the count may not even be there.
        return vec![0];
    }
    let mut broken = those_broken(&[(4, !is_fragment_number(word(pdu, 4)))]);
    // 64 bits hold any product of a count and a destination's octets.
    let octets = u64::from(word(pdu, 20)) * (8 + u64::from(word(pdu, 22)));
    if octets == (pdu.len() - DESTINATIONS) as u64 {
        broken.extend(first_not_rising(&destinations(pdu)));
    } else {
        broken.push(20);
    }
    broken
}

fn first_not_rising(destinations: &[Destination]) -> Option<usize> {
    destinations
        .windows(2)
        .find(|two| two[1].id <= two[0].id)
        .map(|two| two[1].place)
}

/// The destinations of an Address whose count fits.
fn destinations(pdu: &[u8]) -> Vec<Destination> {
    let octets = DESTINATION_OCTETS + usize::from(word(pdu, 22));
    (DESTINATIONS..pdu.len())
        .step_by(octets)
        .map(|place| Destination {
            place,
            id: long(pdu, place),
            sequence_number: long(pdu, place + 4),
        })
        .collect()
}

/// What a PDU with no broken field says.
fn body(kind: Kind, pdu: &[u8]) -> Body<'_> {
    match kind {
        Kind::Data => Body::Data(Data {
            number: word(pdu, 4),
            source: long(pdu, 8),
            message: long(pdu, 12),
            fragment: &pdu[16..],
        }),
        Kind::Ack => Body::Ack(ack(pdu)),
        Kind::Address => Body::Address(address(pdu)),
        Kind::ExtraAddress => Body::ExtraAddress(address(pdu)),
        Kind::Discard => Body::Discard {
            source: long(pdu, 8),
            message: long(pdu, 12),
        },
    }
}

fn address(pdu: &[u8]) -> Address {
    Address {
        map: top_bits(pdu),
        total: word(pdu, 4),
        source: long(pdu, 8),
        message: long(pdu, 12),
        expiry: long(pdu, 16),
        reserved: word(pdu, 22),
        destinations: destinations(pdu),
    }
}

fn ack(pdu: &[u8]) -> Ack {
    let mut entries = Vec::new();
    let mut place = ENTRIES;
    for _ in 0..word(pdu, 12) {
        let length = usize::from(word(pdu, place));
        let numbers = (place + EMPTY_ENTRY..place + length).step_by(2);
        entries.push(Entry {
            place,
            length,
            source: long(pdu, place + 2),
            message: long(pdu, place + 6),
            missing: numbers.map(|at| word(pdu, at)).collect(),
        });
        place += length;
    }
    let time_option = (place < pdu.len()).then_some(place);
    Ack {
        sender: long(pdu, 8),
        entries,
        time_option,
    }
}

#[cfg(test)]
mod tests;
