//! The second reader of P_MUL PDUs and the second pair of ends, and what they
//! and the first are asked about: a table of datagrams, and scripts of calls.

#![forbid(unsafe_code)]

mod clock;
mod coverage;
mod dump;
mod lines;
mod numbers;
mod random;
mod receiver;
mod refusal;
mod replay;
mod script;
mod sender;
mod store;
mod table;
mod wire;

use std::env;
use std::io::{self, BufWriter, Write};
use std::ops::RangeInclusive;
use std::process::ExitCode;

const USAGE: &str =
    "usage: second pdudump | datagrams | sample | replay | script SEEDS CALLS | coverage";

fn main() -> ExitCode {
    let words: Vec<String> = env::args_os()
        .skip(1)
        .map(|word| word.to_string_lossy().into_owned())
        .collect();
    let words: Vec<&str> = words.iter().map(String::as_str).collect();
    match run(&words) {
        Some(Ok(())) => ExitCode::SUCCESS,
        Some(Err(_)) => ExitCode::from(1),
        None => {
            // Status 2 tells a wrong call from a failed one, even if nobody
            // can be told why.
            let _ = writeln!(io::stderr(), "{USAGE}");
            ExitCode::from(2)
        }
    }
}

/// Runs the command of these words; nothing if there is none.
fn run(words: &[&str]) -> Option<io::Result<()>> {
    Some(match *words {
        ["pdudump"] => pdudump(),
        ["datagrams"] => print(&table::datagrams()),
        ["sample"] => print(&table::sample()),
        ["replay"] => replay(),
        ["script", seeds, calls] => script(range_of(seeds)?, calls.parse().ok()?),
        ["coverage"] => coverage::coverage(&mut io::stdin().lock(), &mut io::stdout().lock()),
        _ => return None,
    })
}

fn pdudump() -> io::Result<()> {
    let mut out = BufWriter::new(io::stdout().lock());
    dump::dump(&mut io::stdin().lock(), &mut out)?;
    out.flush()
}

fn replay() -> io::Result<()> {
    let mut out = BufWriter::new(io::stdout().lock());
    replay::replay(io::stdin().lock(), &mut out)
}

/// One seed, or a first and a last one with a dash between them.
fn range_of(word: &str) -> Option<RangeInclusive<u64>> {
    let (first, last) = word.split_once('-').unwrap_or((word, word));
    Some(first.parse().ok()?..=last.parse().ok()?)
}

fn script(seeds: RangeInclusive<u64>, calls: usize) -> io::Result<()> {
    script::write(seeds, calls, &mut BufWriter::new(io::stdout().lock()))
}

fn print(text: &[u8]) -> io::Result<()> {
    let mut out = io::stdout().lock();
    out.write_all(text)?;
    out.flush()
}
