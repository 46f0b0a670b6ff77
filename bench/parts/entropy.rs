//! The entropy layer's work in good safe Rust, on the same numbers as the proved program of
//! `entropy.txt`: bits of 11, a binary block, and a raw symbol block. Writes `raw.bin` for both.
use std::time::Instant;

const COUNT: usize = 1 << 20;

fn numbers() -> Vec<u32> {
    let mut x = 1u64;
    (0..COUNT)
        .map(|_| {
            x = x.wrapping_mul(6364136223846793005).wrapping_add(1442695040888963407);
            (x >> 53 & 2047) as u32
        })
        .collect()
}

struct Bits<'a> {
    bytes: &'a [u8],
    next: usize,
    buffer: u64,
    count: u32,
}

impl Bits<'_> {
    fn bits(&mut self, n: u32) -> Option<u32> {
        if self.count < n {
            if let Some(word) = self.bytes.get(self.next..self.next + 4) {
                self.buffer |= u64::from(u32::from_le_bytes(word.try_into().unwrap())) << self.count;
                self.count += 32;
                self.next += 4;
            } else {
                while self.next < self.bytes.len() {
                    self.buffer |= u64::from(self.bytes[self.next]) << self.count;
                    self.count += 8;
                    self.next += 1;
                }
            }
            if self.count < n {
                return None;
            }
        }
        let value = (self.buffer & ((1 << n) - 1)) as u32;
        self.buffer >>= n;
        self.count -= n;
        Some(value)
    }
}

#[derive(Default)]
struct Writer {
    bytes: Vec<u8>,
    buffer: u64,
    count: u32,
}

impl Writer {
    fn put(&mut self, n: u32, value: u32) -> Result<(), std::collections::TryReserveError> {
        self.bytes.try_reserve(8)?;
        self.buffer |= u64::from(value) << self.count;
        self.count += n;
        if self.count >= 32 {
            self.bytes.extend_from_slice(&(self.buffer as u32).to_le_bytes());
            self.buffer >>= 32;
            self.count -= 32;
        }
        Ok(())
    }

    fn finish(mut self) -> Vec<u8> {
        for _ in 0..self.count.div_ceil(8) {
            self.bytes.push(self.buffer as u8);
            self.buffer >>= 8;
        }
        self.bytes
    }
}

fn put_all(values: &[u32]) -> Vec<u8> {
    let mut writer = Writer::default();
    for value in values {
        if *value < 2048 {
            writer.put(11, *value).unwrap();
        }
    }
    writer.finish()
}

fn take_all(bytes: &[u8]) -> u32 {
    let mut reader = Bits { bytes, next: 0, buffer: 0, count: 0 };
    let mut sum = 0u32;
    for _ in 0..COUNT {
        sum = sum.wrapping_add(reader.bits(11).unwrap_or(0));
    }
    sum
}

fn end_bytes(out: &mut Vec<u8>, n: u32) {
    let (size, tagged) = match n {
        0..0x40 => (1, n),
        0x40..0x4000 => (2, n + 0x4000),
        0x4000..0x40_0000 => (3, n + 0x80_0000),
        _ => (4, n + 0xc000_0000),
    };
    out.extend_from_slice(&tagged.to_le_bytes()[..size]);
}

fn first_state(bytes: &[u8], base: u32) -> Option<(u32, usize)> {
    let (last, front) = bytes.split_last()?;
    let mut left = front.len().checked_sub(usize::from(last >> 6))?;
    let start = left;
    let mut number = u32::from(last & 63);
    left = front.len();
    while left > start {
        left -= 1;
        number = number * 256 + u32::from(front[left]);
    }
    Some((base + number, left))
}

fn code_bits(bits: &[bool]) -> (u32, Vec<u8>) {
    let zeros = bits.iter().filter(|b| !**b).count() as u64;
    let all = bits.len().max(1) as u64;
    let p0 = ((256 * zeros + all / 2) / all).clamp(1, 255) as u32;
    let ones = 256 - p0;
    let mut out = Vec::new();
    let mut state = 4096u32;
    for bit in bits.iter().rev() {
        let (cum, prob) = if *bit { (0, ones) } else { (ones, p0) };
        if state >= 4096 * prob {
            out.push(state as u8);
            state >>= 8;
        }
        state = state / prob * 256 + state % prob + cum;
    }
    end_bytes(&mut out, state - 4096);
    (ones, out)
}

fn pull_bits(coded: &[u8], ones: u32) -> u32 {
    let (mut state, mut left) = first_state(coded, 4096).unwrap();
    let mut count = 0u32;
    for _ in 0..COUNT {
        if state < 4096 && left > 0 {
            left -= 1;
            state = state * 256 + u32::from(coded[left]);
        }
        let part = (state >> 8) * ones;
        let slot = state & 255;
        let bit = slot < ones;
        let zero = state.wrapping_sub(part).wrapping_sub(ones);
        state = if bit { part + slot } else { zero };
        count += u32::from(bit);
    }
    count
}

/// A table of 4096 slots for the counts of the symbols.
fn table(counts: &[u32]) -> Vec<u32> {
    let used = counts.iter().filter(|n| **n > 0).count() as u64;
    let all: u64 = counts.iter().map(|n| u64::from(*n)).sum();
    let mut probs: Vec<u32> = counts
        .iter()
        .map(|n| if *n > 0 { 1 + (u64::from(*n) * (4096 - used) / all) as u32 } else { 0 })
        .collect();
    let most = counts.iter().max().unwrap();
    let at = counts.iter().position(|n| n == most).unwrap();
    probs[at] += 4096 - probs.iter().sum::<u32>();
    probs
}

fn cums(probs: &[u32]) -> Vec<u32> {
    probs.iter().scan(0, |c, p| { let cum = *c; *c += p; Some(cum) }).collect()
}

fn push_symbols(symbols: &[u32], probs: &[u32], cums: &[u32]) -> Vec<u8> {
    let mut out = Vec::new();
    let mut state = 4u32 << 12;
    for symbol in symbols.iter().rev() {
        let (cum, prob) = (cums[*symbol as usize], probs[*symbol as usize]);
        while state >= 1024 * prob {
            out.push(state as u8);
            state >>= 8;
        }
        state = state / prob * 4096 + state % prob + cum;
    }
    end_bytes(&mut out, state - (4 << 12));
    out
}

fn pull_symbols(coded: &[u8], probs: &[u32]) -> u32 {
    let cums = cums(probs);
    let mut slots = Vec::new();
    for (s, p) in probs.iter().enumerate() {
        slots.resize(slots.len() + *p as usize, s as u32);
    }
    let (mut state, mut left) = first_state(coded, 4 << 12).unwrap();
    let mut values = Vec::with_capacity(COUNT);
    for _ in 0..COUNT {
        while state < 4 << 12 && left > 0 {
            left -= 1;
            state = state * 256 + u32::from(coded[left]);
        }
        let slot = state & 4095;
        let symbol = slots[slot as usize];
        state = (state >> 12) * probs[symbol as usize] + slot - cums[symbol as usize];
        values.push(symbol);
    }
    values.iter().fold(0u32, |a, b| a.wrapping_add(*b))
}

fn var(out: &mut Vec<u8>, mut v: u64) {
    while v >= 128 {
        out.push((v % 128) as u8 + 128);
        v /= 128;
    }
    out.push(v as u8);
}

/// A raw block: scheme, bit length, table, coded bytes.
fn raw_block(probs: &[u32], coded: &[u8]) -> Vec<u8> {
    let mut out = vec![1, 7];
    var(&mut out, probs.len() as u64);
    for p in probs {
        assert!(*p > 0 && *p < 1 << 14);
        if *p < 64 { out.push((4 * p) as u8) } else { out.extend([(4 * (p % 64) + 1) as u8, (p / 64) as u8]) }
    }
    var(&mut out, coded.len() as u64);
    out.extend_from_slice(coded);
    out
}

fn show(name: &str, start: Instant, sum: u32) {
    println!("{name} {} ps an item, sum {sum}", start.elapsed().as_nanos() * 1000 / COUNT as u128);
}

fn main() {
    let values = numbers();
    let bits: Vec<bool> = values.iter().map(|v| v % 4 != 0).collect();
    // Skewed symbols 0 .. 63.
    let symbols: Vec<u32> = values.iter().map(|v| (v >> 5) * (v & 31) / 31).collect();
    let mut counts = vec![0u32; 64];
    for s in &symbols {
        counts[*s as usize] += 1;
    }
    let probs = table(&counts);
    let all_cums = cums(&probs);
    std::fs::write("raw.bin", raw_block(&probs, &push_symbols(&symbols, &probs, &all_cums))).unwrap();
    for _ in 0..5 {
        let start = Instant::now();
        let bytes = put_all(&values);
        show("bits_put", start, bytes.len() as u32);
        let start = Instant::now();
        show("bits_taken", start, take_all(&bytes));
        let start = Instant::now();
        let (ones, coded) = code_bits(&bits);
        let size = if coded.len() < 1 << 14 { 2 } else { 3 };
        show("binary_pushed", start, (coded.len() + 1 + size) as u32);
        let start = Instant::now();
        show("binary_pulled", start, pull_bits(&coded, ones));
        let start = Instant::now();
        let coded = push_symbols(&symbols, &probs, &all_cums);
        show("raw_pushed", start, coded.len() as u32);
        let start = Instant::now();
        show("raw_read", start, pull_symbols(&coded, &probs));
    }
}
