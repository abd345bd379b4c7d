use super::*;

/// The answers to a script whose calls stand one to a line.
fn answers(script: &str) -> Vec<String> {
    let mut out = Vec::new();
    replay(script.as_bytes(), &mut out).unwrap();
    let text = String::from_utf8(out).unwrap();
    text.lines().map(str::to_string).collect()
}

/// Replays lines `CALL = ANSWER`.
fn check(lines: &str) {
    let pairs = lines
        .lines()
        .filter_map(|line| line.trim().split_once(" = "));
    let (calls, expected): (Vec<&str>, Vec<&str>) = pairs.unzip();
    let answered = answers(&calls.join("\n"));
    for (place, call) in calls.iter().enumerate() {
        assert_eq!(answered[place], expected[place], "{call}");
    }
}

#[test]
fn replays_the_examples_of_the_wire() {
    check(
        "s sender 167772161 9876 grid 16 = made
         r receiver 167772162 pool 16 4 = made
         s enrol 167772162 = ok
         s begin = draft 9876
         s append s:9876 4869 = ok
         s submit s:9876 0 1234567890 167772162 = ok
         s poll 31 = refused 12 32
         s poll 32 = wrote 00200002000178db0a00000100002694499602d2000100000a00000200000001
         s poll 65535 = wrote 00120000000186ee0a000001000026944869
         s poll 65535 = refused 13
         r take 00120000000186ee0a000001000026944869 = kept
         r take 00200002000178db0a00000100002694499602d2000100000a00000200000001 = complete
         r tick 2549 = ok
         r poll 24 = wrote 001800010000c5440a0000020001000a0a00000100002694
         r collect 1 = refused 12 2
         r collect 2 = message 167772161 9876 2 4869
         s take 001800010000c5440a0000020001000a0a00000100002694 = noted
         s lacking 9876 167772162 = missing 0 0 -
         s poll 24 = wrote 00180002000182e70a00000100002694499602d200000000
         s forget 9876 = refused 19 ending",
    );
}

#[test]
fn keeps_to_names_and_counts_of_ends() {
    check(
        "a sender 1 1 grid 15 = refused 21 15
         a sender 1 0 pool 16 0 = refused 21 0
         a sender 1 0 pool 16 1 = refused 16 0
         a sender 1 1 pool 16 1 = made
         a receiver 1 grid 16 = malformed
         b sender 1 2 grid 16 = malformed
         b receiver 1 grid 1024 = made
         toolong12 receiver 2 grid 16 = malformed
         c begin = malformed
         b begin = malformed
         a collect 5 = malformed",
    );
    let makings: String = (0..9)
        .map(|n| format!("r{n} receiver {n} grid 5{n}\n"))
        .collect();
    let answered = answers(&makings);
    assert_eq!(answered[7..], ["made", "malformed"]);
}

#[test]
fn takes_no_other_spelling() {
    let made = "a sender 1 1 grid 16\n";
    for line in [
        "a  begin",
        " a begin",
        "a begin ",
        "a\tbegin",
        "a begin\r",
        "a tick 01",
        "a tick +1",
        "a tick",
        "a tick 18446744073709551616",
        "a poll 65536",
        "a take A0",
        "a take 0",
        "a take --",
        "a enrol 4294967296",
        "a silence 1 yes",
        "a append a:1 00",
        "a begin 1",
        "A begin",
        "-",
        " ",
    ] {
        assert_eq!(answers(&format!("{made}{line}"))[1], "malformed", "{line}");
    }
    assert_eq!(answers(&format!("{made}\n#\na begin\n")).len(), 2);
}

#[test]
fn knows_drafts_by_their_owners() {
    check(
        "a sender 1 5 pool 16 1 = made
         b sender 2 5 pool 16 1 = made
         a begin = draft 5
         b append a:5 - = refused 11 16
         b append a:5 00 = refused 15 5
         b submit a:5 0 0 - = refused 7 0
         b submit a:5 0 1 - = refused 15 5
         b withdraw a:5 = refused 15 5
         b withdraw b:5 = malformed
         a submit a:5 0 1 - = refused 17 0
         a append a:5 00 = ok
         a append a:5 00 = refused 10 1
         a withdraw a:5 = ok
         a withdraw a:5 = malformed",
    );
}
