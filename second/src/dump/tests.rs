use super::*;

fn dumped(input: &[u8]) -> String {
    let mut out = Vec::new();
    dump(&mut &input[..], &mut out).unwrap();
    String::from_utf8(out).unwrap()
}

#[test]
fn prints_the_fields_by_their_places() {
    let data = dumped(b"receiver 00120000000186ee0A000001000026944869\n");
    let expected = "line 1: receiver reads Data, 18 octets\n  0: length 18\n  2: priority 0\n  \
        3: type 00\n  4: number 1\n  6: checksum 86EE\n  8: source 0A000001\n  \
        12: message 00002694\n  16: fragment, 2 octets: 4869\n";
    assert_eq!(data, expected);
    let ack = dumped(b"sender 001800010000C5440A0000020001000A0A00000100002694");
    let expected = "line 1: sender reads ACK, 24 octets\n  0: length 24\n  2: priority 0\n  \
        3: type 01\n  4: unused 0\n  6: checksum C544\n  8: ACK sender 0A000002\n  \
        12: entries 1\n  14: entry of 10 octets\n  16: source 0A000001\n  20: message 00002694\n";
    assert_eq!(ack, expected);
}

#[test]
fn counts_every_line() {
    let out = dumped(b"# comment\n\n\r\n#\r\nsender -\r\n");
    assert_eq!(
        out,
        "line 5: sender refuses with 1: 0 octets, not 16 to 1472\n"
    );
}

#[test]
fn takes_one_carriage_return_only_before_a_line_feed() {
    for line in [
        &b"sender -\r"[..],
        b"sender -\r\r\n",
        b"\r",
        b"sender \xFF0",
        b"sender 0",
    ] {
        assert_eq!(dumped(line), format!("line 1: {NOT_A_DATAGRAM}\n"));
    }
}
