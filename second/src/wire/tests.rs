use super::*;

const SOURCE: u32 = 0x0A00_0001;
const MESSAGE: u32 = 0x0000_2694;

const DISCARD: &[u8] = b"\x00\x10\x00\x03\x00\x00\xCF\x57\x0A\x00\x00\x01\x00\x00\x26\x94";
const DATA: &[u8] = b"\x00\x12\x00\x00\x00\x01\x86\xEE\x0A\x00\x00\x01\x00\x00\x26\x94Hi";
const ODD_DATA: &[u8] = b"\x00\x11\x00\x00\x00\x01\x87\x58\x0A\x00\x00\x01\x00\x00\x26\x94H";
const ADDRESS: &[u8] = b"\x00\x20\x00\x02\x00\x01\x78\xDB\x0A\x00\x00\x01\x00\x00\x26\x94\
    \x49\x96\x02\xD2\x00\x01\x00\x00\x0A\x00\x00\x02\x00\x00\x00\x01";
const ACK: &[u8] = b"\x00\x18\x00\x01\x00\x00\xC5\x44\x0A\x00\x00\x02\x00\x01\x00\x0A\
    \x0A\x00\x00\x01\x00\x00\x26\x94";

/// The answer to a PDU with the length and the Checksum repaired.
fn repaired(end: End, mut pdu: Vec<u8>) -> Result<(), Refusal> {
    let length = pdu.len() as u16;
    pdu[0..2].copy_from_slice(&length.to_be_bytes());
    let checksum = right_checksum(&pdu);
    pdu[6..8].copy_from_slice(&checksum.to_be_bytes());
    read(end, &pdu).map(|_| ())
}

fn with(pdu: &[u8], place: usize, octets: &[u8]) -> Vec<u8> {
    let mut changed = pdu.to_vec();
    changed[place..place + octets.len()].copy_from_slice(octets);
    changed
}

/// An ACK with the given count and the given words from octet 14 on.
fn ack_of(count: u16, words: &[u16]) -> Vec<u8> {
    let mut pdu = with(&ACK[..14], 12, &count.to_be_bytes());
    pdu.extend(words.iter().flat_map(|word| word.to_be_bytes()));
    pdu
}

fn broken(place: usize) -> Result<(), Refusal> {
    Err(Refusal::Field { place })
}

#[test]
fn reads_the_discard() {
    let pdu = read(End::Receiver, DISCARD).unwrap();
    assert_eq!((pdu.length, pdu.priority, pdu.checksum), (16, 0, 0xCF57));
    assert_eq!(
        pdu.body,
        Body::Discard {
            source: SOURCE,
            message: MESSAGE
        }
    );
}

#[test]
fn reads_the_data() {
    for (datagram, fragment, checksum) in [(DATA, &b"Hi"[..], 0x86EE), (ODD_DATA, b"H", 0x8758)] {
        let pdu = read(End::Receiver, datagram).unwrap();
        assert_eq!(pdu.checksum, checksum);
        let data = Data {
            number: 1,
            source: SOURCE,
            message: MESSAGE,
            fragment,
        };
        assert_eq!(pdu.body, Body::Data(data));
    }
}

#[test]
fn reads_the_address() {
    let pdu = read(End::Receiver, ADDRESS).unwrap();
    let address = Address {
        map: 0,
        total: 1,
        source: SOURCE,
        message: MESSAGE,
        expiry: 1_234_567_890,
        reserved: 0,
        destinations: vec![Destination {
            place: 24,
            id: 0x0A00_0002,
            sequence_number: 1,
        }],
    };
    assert_eq!(pdu.body, Body::Address(address));
}

#[test]
fn reads_the_ack() {
    let pdu = read(End::Sender, ACK).unwrap();
    let entry = Entry {
        place: 14,
        length: 10,
        source: SOURCE,
        message: MESSAGE,
        missing: Vec::new(),
    };
    let ack = Ack {
        sender: 0x0A00_0002,
        entries: vec![entry],
        time_option: None,
    };
    assert_eq!(pdu.body, Body::Ack(ack));
}

#[test]
fn refuses_what_the_other_end_takes() {
    for pdu in [DISCARD, DATA, ODD_DATA, ADDRESS] {
        assert_eq!(
            read(End::Sender, pdu),
            Err(Refusal::Type { pdu_type: pdu[3] })
        );
    }
    assert_eq!(read(End::Receiver, ACK), Err(Refusal::Type { pdu_type: 1 }));
}

#[test]
fn refuses_in_order() {
    assert_eq!(
        read(End::Sender, &DATA[..15]),
        Err(Refusal::Size { length: 15 })
    );
    let (field, length) = (18, 17);
    assert_eq!(
        read(End::Sender, &DATA[..17]),
        Err(Refusal::Length { field, length })
    );
    let (field, right) = (0xCF56, 0xCF57);
    let damaged = with(DISCARD, 6, &[0xCF, 0x56]);
    assert_eq!(
        read(End::Sender, &damaged),
        Err(Refusal::Checksum { field, right })
    );
}

#[test]
fn tells_the_lowest_broken_place() {
    let number = with(DATA, 4, &[1, 1]);
    assert_eq!(repaired(End::Receiver, number.clone()), broken(4));
    assert_eq!(
        repaired(End::Receiver, with(&number, 3, &[0x40])),
        broken(3)
    );
    let long = [DISCARD, &[0]].concat();
    assert_eq!(repaired(End::Receiver, with(&long, 3, &[0xC3])), broken(0));
    let two = [ADDRESS, &ADDRESS[24..]].concat();
    assert_eq!(repaired(End::Receiver, two.clone()), broken(20));
    let two = with(&two, 20, &[0, 2]);
    assert_eq!(repaired(End::Receiver, two.clone()), broken(32));
    assert_eq!(repaired(End::Receiver, with(&two, 4, &[0, 0])), broken(4));
    assert_eq!(repaired(End::Receiver, two[..23].to_vec()), broken(0));
}

#[test]
fn walks_the_entries() {
    let answers: [(u16, &[u16], Result<(), Refusal>); 11] = [
        (1, &[12, 0, 0, 0, 0, 256], Ok(())),
        (1, &[12, 0, 0, 0, 0, 257], broken(24)),
        (2, &[12, 0, 0, 0, 0, 257], broken(12)),
        (1, &[10, 0, 0, 0, 0, 0, 0, 0, 0], Ok(())),
        (2, &[10, 0, 0, 0, 0, 0, 0, 0, 0], broken(12)),
        (2, &[10, 0, 0, 0, 0, 9, 0, 0, 0, 0], broken(24)),
        (2, &[12, 0, 0, 0, 0, 0, 9, 0, 0, 0, 0], broken(24)),
        (0, &[10, 0, 0, 0, 0], broken(12)),
        (1, &[9], broken(12)),
        (1, &[65534, 0, 0, 0, 0], broken(12)),
        (1, &[65535, 0, 0, 0, 0], broken(14)),
    ];
    for (count, words, answer) in answers {
        assert_eq!(
            repaired(End::Sender, ack_of(count, words)),
            answer,
            "{count} {words:?}"
        );
    }
}

#[test]
fn multiplies_without_wrapping() {
    for (count, reserved) in [
        ([0x20, 0], [0, 0]),
        ([0, 1], [0xFF, 0xF8]),
        ([0xFF; 2], [0xFF; 2]),
    ] {
        let pdu = with(&with(&ADDRESS[..24], 20, &count), 22, &reserved);
        assert_eq!(repaired(End::Receiver, pdu), broken(20));
    }
    let empty = with(&with(&ADDRESS[..24], 20, &[0; 2]), 22, &[0xFF; 2]);
    assert_eq!(repaired(End::Receiver, empty), Ok(()));
}

#[test]
fn tells_0000_from_ffff() {
    // The last word brings the sum to FFFF.
    let pdu = with(&with(DISCARD, 6, &[0; 2]), 14, &[0xF5, 0xEB]);
    assert_eq!(right_checksum(&pdu), 0);
    assert!(read(End::Receiver, &pdu).is_ok());
    let (field, right) = (0xFFFF, 0);
    let refusal = Err(Refusal::Checksum { field, right });
    assert_eq!(read(End::Receiver, &with(&pdu, 6, &[0xFF; 2])), refusal);
}
