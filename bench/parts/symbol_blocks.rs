//! Symbol blocks in good safe Rust, on the same numbers as the proved program of `symbol_blocks.txt`: a raw
//! block of symbols, one of many symbols, and a tagged block of groups of three. Writes `raw.bin` and `tagged.bin` for both.
#[path = "../shared/blocks.rs"]
mod blocks;

use blocks::{Taken, read_symbols, write_symbols};
use std::time::Instant;

const COUNT: usize = 3 << 18;

fn random() -> impl Iterator<Item = u64> {
    let mut x = 1u64;
    std::iter::repeat_with(move || {
        x = x.wrapping_mul(6364136223846793005).wrapping_add(1442695040888963407);
        x >> 53 & 2047
    })
}

/// Skewed symbols 0 .. 63.
fn symbols() -> Vec<u32> {
    random().take(COUNT).map(|v| ((v >> 5) * (v & 31) / 31) as u32).collect()
}

/// Symbols 0 .. 2047, as often the one as the other.
fn wide() -> Vec<u32> {
    random().take(COUNT).map(|v| v as u32).collect()
}

/// Spread values of up to 22 bits.
fn spread() -> Vec<u32> {
    random().take(COUNT).map(|v| (v * v >> (v & 15)) as u32).collect()
}

fn show(name: &str, start: Instant, sum: u64) {
    println!("{name} {} ps a value, sum {sum}", start.elapsed().as_nanos() * 1000 / COUNT as u128);
}

fn sum(values: &[u32]) -> u64 {
    u64::from(values.iter().fold(0u32, |sum, v| sum.wrapping_add(*v)))
}

/// The sum of the symbols of a block, which are taken one after another.
fn sum_taken(block: &[u8]) -> u64 {
    let mut taken = Taken::open(block, &mut 0).unwrap();
    u64::from((0..COUNT).fold(0u32, |sum, _| sum.wrapping_add(taken.next())))
}

fn main() {
    let symbols = symbols();
    let spread = spread();
    let wide = wide();
    let wide_block = write_symbols(&wide, 1);
    for _ in 0..7 {
        let start = Instant::now();
        let raw = write_symbols(&symbols, 1);
        show("raw_written", start, raw.len() as u64);
        let start = Instant::now();
        let read = read_symbols(&raw, &mut 0, COUNT, 1).unwrap();
        show("raw_read", start, sum(&read));
        assert!(read == symbols && raw[0] == 1);
        let start = Instant::now();
        let sum_of_raw = sum_taken(&raw);
        show("raw_taken", start, sum_of_raw);
        let start = Instant::now();
        let read = read_symbols(&wide_block, &mut 0, COUNT, 1).unwrap();
        show("wide_read", start, sum(&read));
        assert!(read == wide && wide_block[0] == 1);
        let start = Instant::now();
        let sum_of_wide = sum_taken(&wide_block);
        show("wide_taken", start, sum_of_wide);
        let start = Instant::now();
        let tagged = write_symbols(&spread, 3);
        show("tagged_written", start, tagged.len() as u64);
        let start = Instant::now();
        let read = read_symbols(&tagged, &mut 0, COUNT, 3).unwrap();
        show("tagged_read", start, sum(&read));
        assert!(read == spread && tagged[0] == 0);
    }
}
