use super::*;
use crate::dump::dump;
use crate::wire::read;

fn answers(input: &[u8]) -> String {
    let mut out = Vec::new();
    dump(&mut &input[..], &mut out).unwrap();
    String::from_utf8(out).unwrap()
}

#[test]
fn keeps_to_its_size() {
    let table = datagrams();
    let lines = table.split(|&octet| octet == b'\n').count();
    assert!((1500..=2500).contains(&lines), "{lines} lines");
    assert!(table.len() < 600_000, "{} octets", table.len());
    assert_eq!(table, datagrams());
}

#[test]
fn has_every_answer() {
    let answers = answers(&datagrams());
    for kind in ["Data", "ACK", "Address", "Extra_Address", "Discard"] {
        assert!(answers.contains(&format!(" reads {kind}, ")), "{kind}");
    }
    for cause in 1..=5 {
        assert!(
            answers.contains(&format!(" refuses with {cause}: ")),
            "{cause}"
        );
    }
    assert!(answers.contains("not a datagram"));
}

#[test]
fn has_right_drafts_to_break() {
    for (end, draft, name) in draft::each_kind() {
        assert!(read(end, draft.octets()).is_ok(), "{name}");
    }
}

#[test]
fn samples_reads_and_refusals() {
    let answers = answers(&sample());
    assert_eq!(answers.matches(" reads ").count(), 5);
    assert_eq!(answers.matches(" refuses with 3: ").count(), 1);
    assert_eq!(answers.matches(" refuses with 4: ").count(), 1);
    assert_eq!(answers.matches("not a datagram").count(), 1);
}
