//! Measures put and get of 1,024 octets in the proved stores against plain Rust, in one run.
//!
//! The work of a round: 256 puts of the octets into a row, each got back at once, then the row freed.

use std::hint::black_box;
use std::time::Instant;

const NUMBERS: usize = 256;
const ROWS: usize = 8;
const WIDTH: usize = 1024;

extern "C" {
    // an allocator has no octets, so nothing is passed for it
    fn gauge_grid(rounds: u32, octets: *const u8, length: usize) -> u64;
    fn gauge_pool(rounds: u32, octets: *const u8, length: usize) -> u64;
}

fn proved_grid(rounds: u32, octets: &[u8]) -> u64 {
    // the pointer and the length are those of a slice that outlives the call
    unsafe { gauge_grid(rounds, octets.as_ptr(), octets.len()) }
}

fn proved_pool(rounds: u32, octets: &[u8]) -> u64 {
    // as above
    unsafe { gauge_pool(rounds, octets.as_ptr(), octets.len()) }
}

/// A grid as one would write it: a fixed place for each row and number.
struct Plain {
    octets: Vec<u8>,
    lengths: Vec<u16>,
    held: usize,
}

impl Plain {
    fn new() -> Plain {
        Plain {
            octets: vec![0; ROWS * NUMBERS * WIDTH],
            lengths: vec![0; ROWS * NUMBERS],
            held: 0,
        }
    }

    fn place(row: usize, number: usize) -> Option<usize> {
        (row < ROWS && (1..=NUMBERS).contains(&number)).then(|| row * NUMBERS + number - 1)
    }

    fn put(&mut self, row: usize, number: usize, octets: &[u8]) -> bool {
        if octets.is_empty() || octets.len() > WIDTH || self.held == ROWS * NUMBERS {
            return false;
        }
        match Plain::place(row, number) {
            Some(place) if self.lengths[place] == 0 => {
                let start = place * WIDTH;
                self.octets[start..start + octets.len()].copy_from_slice(octets);
                self.lengths[place] = octets.len() as u16;
                self.held += 1;
                true
            }
            _ => false,
        }
    }

    fn get(&self, row: usize, number: usize, out: &mut [u8]) -> Option<usize> {
        let place = Plain::place(row, number)?;
        let length = self.lengths[place] as usize;
        if length == 0 || out.len() < length {
            return None;
        }
        let start = place * WIDTH;
        out[..length].copy_from_slice(&self.octets[start..start + length]);
        Some(length)
    }

    fn free(&mut self, row: usize) {
        for length in &mut self.lengths[row * NUMBERS..(row + 1) * NUMBERS] {
            if *length != 0 {
                *length = 0;
                self.held -= 1;
            }
        }
    }
}

fn plain(rounds: u32, octets: &[u8]) -> u64 {
    let mut store = Plain::new();
    let mut out = [0u8; WIDTH];
    let mut whole = 0;
    for _ in 0..rounds {
        for number in 1..=NUMBERS {
            if store.put(0, number, octets) && store.get(0, number, black_box(&mut out)) == Some(octets.len()) {
                whole += 1;
            }
        }
        store.free(0);
    }
    whole
}

fn best(work: fn(u32, &[u8]) -> u64, rounds: u32, octets: &[u8]) -> f64 {
    let mut least = f64::MAX;
    for _ in 0..5 {
        let start = Instant::now();
        let whole = work(rounds, black_box(octets));
        let took = start.elapsed().as_secs_f64();
        assert_eq!(whole, u64::from(rounds) * NUMBERS as u64);
        least = least.min(took);
    }
    least * 1e9 / (f64::from(rounds) * NUMBERS as f64)
}

fn main() {
    let octets = [7u8; WIDTH];
    let rounds = 4_000;
    let base = best(plain, rounds, &octets);
    println!("plain Rust grid: {base:.1} ns for a put and a get of {WIDTH} octets");
    let works: [(&str, fn(u32, &[u8]) -> u64); 2] = [("grid", proved_grid), ("pool", proved_pool)];
    for (name, work) in works {
        let took = best(work, rounds, &octets);
        println!("proved {name}: {took:.1} ns, {:.2} times plain Rust", took / base);
    }
}
