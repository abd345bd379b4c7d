//! Lines that are no calls, and a few that only look so.

use crate::replay::words::digits;
use crate::script::Script;
use crate::wire::write::{self, Heading};

/// A sender S, a receiver R, a draft D of S.
const LINES: [&str; 80] = [
    "S",
    "R",
    "S ",
    " S begin",
    "S begin ",
    "S  begin",
    "S\tbegin",
    "S begin\r",
    "S begin\t",
    "S Begin",
    "S begin 1",
    "begin S",
    "nobody begin",
    "R begin",
    "toolong89 begin",
    "S:begin",
    "\r",
    " ",
    "S #",
    "S -",
    "é begin",
    "S enrol",
    "S enrol -",
    "S enrol 01",
    "S enrol +1",
    "S enrol -1",
    "S enrol 1.0",
    "S enrol 0x1",
    "S enrol 4294967296",
    "R enrol 1",
    "S enrol 99999999999999999999",
    "S silence 1",
    "S silence on",
    "S silence 1 ON",
    "S silence 1 on off",
    "S silence 4294967296 on",
    "R silence",
    "R silence 1 on",
    "R silence yes",
    "S append D",
    "S append D ",
    "S append D 0",
    "S append D 0G",
    "S append D AB",
    "S append D --",
    "S append D 00 00",
    "R append D 00",
    "S append S:0 00",
    "S append S 00",
    "S append R:1 00",
    "S append :1 00",
    "S append nobody:1 00",
    "S append S:4294967296 00",
    "S submit D 0 9",
    "S submit D 256 9 1",
    "S submit D 0 4294967296 1",
    "S submit D 0 9 1,",
    "S submit D 0 9 ,1",
    "S submit D 0 9 1,,2",
    "S submit D 0 9 01",
    "S submit D 0 9 1 2",
    "S submit D 0 9 1,4294967296",
    "S submit D 00 9 1",
    "S withdraw",
    "S withdraw D D",
    "R withdraw D",
    "S take",
    "S take 0",
    "R take F0",
    "R take 0x",
    "S tick",
    "S tick 18446744073709551616",
    "R tick -",
    "S poll",
    "S poll 65536",
    "R poll -1",
    "R collect 1048577",
    "S collect 5",
    "R standing 1 1",
    "S forget D",
];

const MAKINGS: [&str; 14] = [
    "new sender 5 5 grid",
    "new sender 5 grid 16",
    "new sender 5 5 pool 16",
    "new sender 5 5 grid 16 1",
    "new sender 5 5 heap 16",
    "new sender 4294967296 5 grid 16",
    "new sender 5 4294967296 grid 16",
    "new sender 5 5 grid 65536",
    "new receiver 5 5 grid 16",
    "new receiver 5 pool 16 65536",
    "new receiver 5 grid 016",
    "New receiver 5 grid 16",
    "ninechars receiver 5 grid 16",
    "a-b receiver 5 grid 16",
];

pub fn lines(s: &mut Script) {
    let (Some(sender), Some(receiver)) = (s.some_sender(), s.some_receiver()) else {
        return;
    };
    let begun = s.begin(sender);
    let draft = format!("{sender}:{}", begun.unwrap_or(0));
    for _ in 0..30 {
        let line = s.random.one_of(&LINES);
        let named = line.replace('D', &draft).replace('S', sender);
        s.call(&named.replace('R', receiver));
    }
    for _ in 0..3 {
        let line = s.random.one_of(&MAKINGS);
        s.call(line);
    }
    digits_of_both_cases(s, receiver);
    // Neither of these is a call.
    s.text.push('\n');
    s.remark(&format!("{sender} begin"));
    if begun.is_some() {
        s.call(&format!("{sender} withdraw {draft}"));
        s.call(&format!("{sender} withdraw {draft}"));
        s.call(&format!("{sender} append {draft} 00"));
        s.call(&format!("{sender} submit {draft} 0 4294967295 1"));
    }
}

/// The same PDU with digits of one case and of the other.
fn digits_of_both_cases(s: &mut Script, receiver: &str) {
    let discard = write::discard(Heading {
        priority: 0xAB,
        source: 0xABCD_EF00,
        message: 0xFEDC_BA00,
    });
    let digits = digits(&discard);
    s.call(&format!("{receiver} take {digits}"));
    s.call(&format!("{receiver} take {}", digits.to_uppercase()));
    s.call(&format!("{receiver} take {}0", digits));
}
