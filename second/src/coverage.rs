//! Which answers of replay occur, and which never do.

use crate::lines::next_line;
use std::collections::BTreeMap;
use std::io::{self, BufRead, Write};

/// The answers that are no refusals, by the words that tell them apart.
const ACCEPTED: [&str; 15] = [
    "again",
    "complete",
    "draft",
    "dropped",
    "expired",
    "kept",
    "made",
    "malformed",
    "message",
    "missing",
    "noted",
    "ok",
    "passed over",
    "waiting",
    "wrote",
];

/// The refusals that a script can lead to: all but 20.
const REFUSALS: [u8; 20] = [
    1, 2, 3, 4, 5, 6, 7, 8, 9, 10, 11, 12, 13, 14, 15, 16, 17, 18, 19, 21,
];

/// A kind of answer: the refusals stand behind all others, by their numbers.
#[derive(Clone, Debug, PartialEq, Eq, PartialOrd, Ord)]
enum Kind {
    Accepted(&'static str),
    Refused(u8),
    Unknown,
}

impl Kind {
    fn of(line: &[u8]) -> Kind {
        let line = String::from_utf8_lossy(line);
        let words: Vec<&str> = line.split(' ').collect();
        let refusal = match *words {
            ["refused", number, ..] => number.parse().ok(),
            _ => None,
        };
        let named = |word: &&&'static str| line == **word || words[0] == **word;
        match (refusal, ACCEPTED.iter().find(named)) {
            (Some(number), _) => Kind::Refused(number),
            (None, Some(word)) => Kind::Accepted(word),
            (None, None) => Kind::Unknown,
        }
    }

    fn reachable() -> impl Iterator<Item = Kind> {
        let refused = REFUSALS.into_iter().map(Kind::Refused);
        ACCEPTED.into_iter().map(Kind::Accepted).chain(refused)
    }
}

impl std::fmt::Display for Kind {
    fn fmt(&self, f: &mut std::fmt::Formatter) -> std::fmt::Result {
        match self {
            Kind::Accepted(word) => f.write_str(word),
            Kind::Refused(number) => write!(f, "refused {number}"),
            Kind::Unknown => f.write_str("no answer of replay"),
        }
    }
}

/// Reads answers, one to a line, tells how often each kind of them occurs,
/// and then which kinds never do though they could.
pub fn coverage(input: &mut impl BufRead, out: &mut impl Write) -> io::Result<()> {
    let mut counts: BTreeMap<Kind, u64> = BTreeMap::new();
    let mut line = Vec::new();
    while next_line(input, &mut line)?.is_some() {
        *counts.entry(Kind::of(&line)).or_default() += 1;
    }
    for (kind, count) in &counts {
        writeln!(out, "{kind}: {count}")?;
    }
    for kind in Kind::reachable().filter(|kind| !counts.contains_key(kind)) {
        writeln!(out, "never: {kind}")?;
    }
    out.flush()
}

#[cfg(test)]
mod tests;
