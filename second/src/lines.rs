//! Reading the input line by line.

use std::io::{self, BufRead};

/// What ended a line.
#[derive(Clone, Copy, Debug, PartialEq, Eq)]
pub enum Ended {
    Feed,
    Input,
}

/// Reads a line, without its line feed; nothing if the input is at its end.
///
/// A line may be longer than the memory, and that is an error here where
/// `BufRead::read_until` would abort.
pub fn next_line(input: &mut impl BufRead, line: &mut Vec<u8>) -> io::Result<Option<Ended>> {
    line.clear();
    loop {
        let chunk = match input.fill_buf() {
            Ok(chunk) => chunk,
            Err(error) if error.kind() == io::ErrorKind::Interrupted => continue,
            Err(error) => return Err(error),
        };
        if chunk.is_empty() {
            return Ok((!line.is_empty()).then_some(Ended::Input));
        }
        let feed = chunk.iter().position(|&octet| octet == b'\n');
        let part = &chunk[..feed.unwrap_or(chunk.len())];
        line.try_reserve(part.len())?;
        line.extend_from_slice(part);
        let used = part.len() + usize::from(feed.is_some());
        input.consume(used);
        if feed.is_some() {
            return Ok(Some(Ended::Feed));
        }
    }
}
