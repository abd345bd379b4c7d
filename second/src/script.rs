//! Scripts for replay, made by a seed.
//!
//! A script is a row of episodes. Each takes some of the ends into hand and
//! drives them by its theme, and it does so at real ends while it writes, so
//! that it knows what they wrote and where their edges are.

mod calls;
mod cast;
mod pdus;
mod themes;

use crate::random::Random;
use crate::replay::{Answer, Session};
use cast::Cast;
use std::io::{self, Write};
use std::ops::RangeInclusive;

/// A script in the making.
struct Script {
    random: Random,
    session: Session,
    cast: Cast,
    /// The lines of the episode that is being written.
    text: String,
    /// How many calls are still to be made.
    left: usize,
}

/// Writes a script of so many calls by each of some seeds, one after the
/// other at the same ends.
pub fn write(seeds: RangeInclusive<u64>, calls: usize, out: &mut impl Write) -> io::Result<()> {
    let mut random = Random(*seeds.start());
    let cast = Cast::new(&mut random);
    let mut script = Script {
        random,
        session: Session::default(),
        cast,
        text: String::new(),
        left: calls,
    };
    script.make_first_ends();
    for seed in seeds {
        script.remark(&format!("{calls} calls by the seed {seed}"));
        script.random = Random(seed);
        while script.left > 0 {
            script.play_episode();
            out.write_all(script.text.as_bytes())?;
            script.text.clear();
        }
        script.left = calls;
    }
    out.write_all(script.text.as_bytes())?;
    out.flush()
}

impl Script {
    fn play_episode(&mut self) {
        let theme = themes::choose(&mut self.random);
        self.remark(theme.name);
        (theme.play)(self);
    }

    fn remark(&mut self, text: &str) {
        self.text.push_str("# ");
        self.text.push_str(text);
        self.text.push('\n');
    }

    /// Writes a call and makes it. When the script is full, no call is made.
    fn call(&mut self, line: &str) -> Answer {
        if self.left == 0 {
            return Answer::Malformed;
        }
        self.left -= 1;
        self.text.push_str(line);
        self.text.push('\n');
        self.session.answer(line.as_bytes())
    }
}

#[cfg(test)]
mod tests;
