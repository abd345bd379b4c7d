//! The program replay: docs/REPLAY.md has its calls and their answers.

mod answer;
mod session;
pub mod words;

pub use answer::Answer;
pub use session::Session;

use crate::lines::next_line;
use std::io::{self, BufReader, Read, Write};

/// Answers every call of the input before it waits for the next.
pub fn replay(input: impl Read, out: &mut impl Write) -> io::Result<()> {
    let mut input = BufReader::new(input);
    let mut session = Session::default();
    let mut line = Vec::new();
    loop {
        if !input.buffer().contains(&b'\n') {
            // The rest of the input may depend on these answers.
            out.flush()?;
        }
        if next_line(&mut input, &mut line)?.is_none() {
            return out.flush();
        }
        if !line.is_empty() && !line.starts_with(b"#") {
            writeln!(out, "{}", session.answer(&line))?;
        }
    }
}

#[cfg(test)]
mod tests;
