//! The table of datagrams, as input for pdudump, and a short sample of it.

mod acks;
mod addresses;
mod bits;
pub mod draft;
mod fields;
mod lines;
mod order;
mod random;
mod sums;

use crate::dump::end_name;
use crate::wire::End::{self, Receiver, Sender};
use draft::{Draft, EXAMPLES};
use std::collections::HashSet;

/// Lines of input, group by group.
#[derive(Default)]
struct Table {
    text: Vec<u8>,
    /// The lines of datagrams so far: the groups overlap, and to ask twice
    /// would tell nothing new.
    asked: HashSet<String>,
}

impl Table {
    /// Opens a group with a comment.
    fn group(&mut self, name: &str) {
        self.line(format!("# {name}").as_bytes());
    }

    fn line(&mut self, line: &[u8]) {
        self.text.extend_from_slice(line);
        self.text.push(b'\n');
    }

    fn put(&mut self, end: End, draft: &Draft) {
        let line = format!("{} {}", end_name(end), draft.digits());
        if !self.asked.contains(&line) {
            self.line(line.as_bytes());
            self.asked.insert(line);
        }
    }

    fn put_both(&mut self, draft: &Draft) {
        self.put(Sender, draft);
        self.put(Receiver, draft);
    }
}

/// The whole table.
pub fn datagrams() -> Vec<u8> {
    let mut table = Table::default();
    table.group("datagrams for pdudump; each stands only in the first group that has it");
    fields::groups(&mut table);
    sums::groups(&mut table);
    order::groups(&mut table);
    acks::groups(&mut table);
    addresses::groups(&mut table);
    bits::groups(&mut table);
    random::groups(&mut table);
    lines::groups(&mut table);
    table.text
}

/// A few lines that show what pdudump does.
pub fn sample() -> Vec<u8> {
    let mut table = Table::default();
    table.group("the examples of docs/WIRE.md, each read by the end that takes it");
    let examples = EXAMPLES.map(|(end, digits)| (end, Draft::of_digits(digits)));
    for (end, example) in &examples {
        table.put(*end, example);
    }
    table.group("one damaged, one for the other end, and a line that is no datagram");
    let [discard, data, ..] = examples.map(|(_, example)| example);
    table.put(Receiver, &discard.flipped(127));
    table.put(Sender, &data);
    table.line(b"receiver 001");
    table.text
}

#[cfg(test)]
mod tests;
