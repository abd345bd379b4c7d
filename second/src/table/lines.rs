//! Lines that are no datagrams, and lines that only look so.

use super::Table;

/// The octets of a Discard, in digits of both cases.
const DISCARD: &str = "001000030000CF570a00000100002694";

pub fn groups(t: &mut Table) {
    wrong_ends(t);
    wrong_spaces(t);
    wrong_octets(t);
    passed_over(t);
    line_ends(t);
}

/// Puts lines in that are written here with bars between them.
fn lines(t: &mut Table, barred: &str) {
    for line in barred.split('|') {
        t.line(line.as_bytes());
    }
}

fn wrong_ends(t: &mut Table) {
    t.group("no END, or none of the two");
    lines(t, "-|00|- -|sender|receiver|SENDER -|Sender -|RECEIVER -");
    lines(
        t,
        "senders -|sende -|receive -|both -|sender:-|sender-|-sender -",
    );
    lines(t, "sender receiver -|receiver sender|_ -|not a datagram");
    lines(t, DISCARD);
}

fn wrong_spaces(t: &mut Table) {
    t.group("not exactly one space");
    lines(
        t,
        "sender |receiver |sender  -|receiver  00| sender -|sender - ",
    );
    lines(
        t,
        "sender 00 |sender\t-|sender\t 00|sender \t00|sender 00\t| |\t",
    );
    lines(
        t,
        "sender 00 00|receiver 0010 0003|sender - -| -|  |sender 0 0",
    );
    t.group("spaces beyond ASCII");
    lines(t, "sender\u{A0}-|receiver\u{2003}-|\u{FEFF}sender -");
}

fn wrong_octets(t: &mut Table) {
    t.group("octets that are none");
    lines(
        t,
        "sender 0|sender 000|receiver 0010000|sender --|sender -0",
    );
    lines(
        t,
        "sender 0-|sender 00-|sender -00|sender 0x00|sender +0|sender 0.",
    );
    lines(
        t,
        "sender #|sender zz|sender 0g|sender g0|receiver 00h|sender _",
    );
    t.group("characters next to the digits");
    lines(
        t,
        "sender 0/|sender 0:|sender 0@|sender 0G|sender 0`|sender /0",
    );
    t.group("letters and digits beyond ASCII, and octets that are no UTF-8");
    lines(t, "sender \u{E9}|sender \u{FF10}\u{FF10}|receiver 0\u{661}");
    t.line(b"sender \xFF0");
    t.line(b"\xC3\x28");
}

fn passed_over(t: &mut Table) {
    t.group("empty lines and comments are passed over; a comment has no space in front");
    lines(t, "|#|#sender -|##|#receiver 00|| # sender -|sender - # no");
    t.group("digits of both cases are good");
    lines(t, &format!("receiver {DISCARD}"));
    lines(t, &format!("receiver {}", DISCARD.to_lowercase()));
    lines(t, &format!("receiver {}", DISCARD.to_uppercase()));
    lines(
        t,
        "sender aAbBcCdDeEfF|receiver 0123456789abcdef0123456789ABCDEF",
    );
    lines(t, "sender -|receiver -");
}

fn line_ends(t: &mut Table) {
    t.group("one carriage return belongs to the line's end, and no other does");
    lines(
        t,
        "sender -\r|receiver 00\r|\r|#comment\r|sender\r|sender \r",
    );
    lines(
        t,
        "sender -\r\r|\r\r|\rsender -|sender\r-|sender 00\r00|sender 0\r",
    );
    t.group("the last line has no line feed");
    t.text
        .extend_from_slice(format!("receiver {DISCARD}").as_bytes());
}
