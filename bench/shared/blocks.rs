//! Symbol blocks in good safe Rust.

fn digits(v: u32) -> u32 {
    32 - v.leading_zeros()
}

fn counts_of(symbols: &[u32]) -> Vec<u32> {
    let greatest = symbols.iter().copied().max().unwrap_or(0);
    let mut counts = vec![0u32; greatest as usize + 1];
    for s in symbols {
        counts[*s as usize] += 1;
    }
    counts
}

fn normal(counts: &[u32], bits: u32) -> Vec<u32> {
    let used = counts.iter().filter(|n| **n > 0).count() as u32;
    let all: u64 = counts.iter().map(|n| u64::from(*n)).sum();
    let others = (1u32 << bits) - used;
    let mut probs: Vec<u32> = counts
        .iter()
        .map(|n| if *n > 0 { 1 + (u64::from(*n) * u64::from(others) / all) as u32 } else { 0 })
        .collect();
    let most = counts.iter().copied().max().unwrap();
    let at = counts.iter().position(|n| *n == most).unwrap();
    probs[at] += (1 << bits) - probs.iter().sum::<u32>();
    probs
}

pub fn varint(out: &mut Vec<u8>, mut v: u64) {
    while v >= 128 {
        out.push(v as u8 | 128);
        v >>= 7;
    }
    out.push(v as u8);
}

fn write_table(out: &mut Vec<u8>, probs: &[u32]) {
    varint(out, probs.len() as u64);
    let mut at = 0;
    while at < probs.len() {
        let p = probs[at];
        if p == 0 {
            let run = probs[at..].iter().take(64).take_while(|p| **p == 0).count();
            out.push(((run - 1) << 2) as u8 | 3);
            at += run;
        } else {
            let more = if p < 64 { 0 } else if p < 16384 { 1 } else { 2 };
            out.push(((p & 63) << 2) as u8 | more);
            for k in 0..u32::from(more) {
                out.push((p >> (6 + 8 * k)) as u8);
            }
            at += 1;
        }
    }
}

fn write_coded(out: &mut Vec<u8>, symbols: &[u32], bits: u32) {
    let probs = normal(&counts_of(symbols), bits);
    write_table(out, &probs);
    let mut cums = vec![0u32];
    for p in &probs {
        cums.push(cums[cums.len() - 1] + p);
    }
    let base = 4u32 << bits;
    let mut number = base;
    let mut coded: Vec<u8> = Vec::new();
    for s in symbols.iter().rev() {
        let prob = probs[*s as usize];
        while number >= 1024 * prob {
            coded.push(number as u8);
            number >>= 8;
        }
        number = (number / prob << bits) + number % prob + cums[*s as usize];
    }
    let n = number - base;
    let size = if n < 1 << 6 { 1 } else if n < 1 << 14 { 2 } else if n < 1 << 22 { 3 } else { 4 };
    let tagged = n | (size as u32 - 1) << (8 * size - 2);
    coded.extend_from_slice(&tagged.to_le_bytes()[..size]);
    varint(out, coded.len() as u64);
    out.extend_from_slice(&coded);
}

/// The block of values in groups of `comps`.
pub fn write_symbols(values: &[u32], comps: usize) -> Vec<u8> {
    let lengths: Vec<u32> = values
        .chunks(comps)
        .map(|group| digits(group.iter().copied().max().unwrap_or(0)).max(1))
        .collect();
    let mut out = Vec::new();
    if values.is_empty() {
        return out;
    }
    if values.iter().copied().max().unwrap_or(0) < 1 << 18 {
        let counts = counts_of(values);
        let n = values.len() as u32;
        let raw: u64 = counts.iter().filter(|k| **k > 0).map(|k| u64::from(*k) * u64::from(digits(n / k))).sum::<u64>() + 8 * counts.len() as u64;
        let tagged: u64 = lengths.iter().map(|l| 5 + comps as u64 * u64::from(*l)).sum();
        if raw <= tagged {
            let used = counts.iter().filter(|k| **k > 0).count() as u32;
            let length = digits(used).clamp(1, 18);
            out.extend_from_slice(&[1, length as u8]);
            write_coded(&mut out, values, (3 * length / 2).clamp(12, 20));
            return out;
        }
    }
    out.push(0);
    write_coded(&mut out, &lengths, 12);
    let mut buffer = 0u64;
    let mut count = 0u32;
    for (group, length) in values.chunks(comps).zip(&lengths) {
        for v in group {
            buffer |= u64::from(*v) << count;
            count += length;
            if count >= 32 {
                out.extend_from_slice(&(buffer as u32).to_le_bytes());
                buffer >>= 32;
                count -= 32;
            }
        }
    }
    out.extend_from_slice(&buffer.to_le_bytes()[..count.div_ceil(8) as usize]);
    out
}

pub fn get(bytes: &[u8], at: &mut usize) -> Option<u8> {
    let b = *bytes.get(*at)?;
    *at += 1;
    Some(b)
}

pub fn get_varint(bytes: &[u8], at: &mut usize) -> Option<u64> {
    let mut v = 0;
    for k in 0..10 {
        let b = get(bytes, at)?;
        v |= u64::from(b & 127) << (7 * k);
        if b < 128 {
            return Some(v);
        }
    }
    None
}

struct Coded<'a> {
    probs: Vec<u32>,
    cums: Vec<u32>,
    slots: Vec<u32>,
    bytes: &'a [u8],
    number: u32,
}

/// Coded symbols, which are taken one after another.
#[allow(dead_code)]
pub struct Taken<'a> {
    coded: Coded<'a>,
    bits: u32,
    number: u32,
    left: usize,
}

#[allow(dead_code)]
impl<'a> Taken<'a> {
    /// Opens a block of symbols at the place `at`, which goes on behind it.
    pub fn open(bytes: &'a [u8], at: &mut usize) -> Option<Taken<'a>> {
        if get(bytes, at)? != 1 {
            return None;
        }
        let bits = (3 * u32::from(get(bytes, at)?) / 2).clamp(12, 20);
        let coded = read_coded(bytes, at, bits)?;
        Some(Taken { bits, number: coded.number, left: coded.bytes.len(), coded })
    }

    /// The next symbol.
    #[inline(always)]
    pub fn next(&mut self) -> u32 {
        let base = 4u32 << self.bits;
        while self.number < base && self.left > 0 {
            self.left -= 1;
            self.number = self.number << 8 | u32::from(self.coded.bytes[self.left]);
        }
        let slot = self.number & ((1 << self.bits) - 1);
        let s = self.coded.slots[slot as usize];
        self.number = (self.number >> self.bits) * self.coded.probs[s as usize] + slot - self.coded.cums[s as usize];
        s
    }
}

fn read_coded<'a>(bytes: &'a [u8], at: &mut usize, bits: u32) -> Option<Coded<'a>> {
    let n = get_varint(bytes, at)? as usize;
    let mut probs: Vec<u32> = Vec::new();
    while probs.len() < n {
        let b = u32::from(get(bytes, at)?);
        if b & 3 == 3 {
            probs.resize(probs.len() + (b >> 2) as usize + 1, 0);
        } else {
            let mut p = b >> 2;
            for k in 0..b & 3 {
                p |= u32::from(get(bytes, at)?) << (6 + 8 * k);
            }
            probs.push(p);
        }
    }
    let mut cums = Vec::new();
    let mut slots: Vec<u32> = Vec::new();
    for (s, p) in probs.iter().enumerate() {
        cums.push(slots.len() as u32);
        slots.resize(slots.len() + *p as usize, s as u32);
    }
    if slots.len() != 1 << bits {
        return None;
    }
    let size = get_varint(bytes, at)? as usize;
    let coded = bytes.get(*at..*at + size)?;
    *at += size;
    let tail = (coded.last()? >> 6) as usize + 1;
    let (bytes, end) = coded.split_at(coded.len().checked_sub(tail)?);
    let number = end.iter().rev().fold(0u32, |n, b| n << 8 | u32::from(*b));
    let number = (number & ((1 << (8 * tail - 2)) - 1)) + (4 << bits);
    Some(Coded { probs, cums, slots, bytes, number })
}

/// The values of a block at the place `at`, which goes on behind it.
pub fn read_symbols(bytes: &[u8], at: &mut usize, n: usize, comps: usize) -> Option<Vec<u32>> {
    if n == 0 {
        return Some(Vec::new());
    }
    let scheme = get(bytes, at)?;
    let bits = if scheme == 1 { (3 * u32::from(get(bytes, at)?) / 2).clamp(12, 20) } else { 12 };
    let c = read_coded(bytes, at, bits)?;
    let (mut number, mut left, base) = (c.number, c.bytes.len(), 4u32 << bits);
    let mut next = || {
        while number < base && left > 0 {
            left -= 1;
            number = number << 8 | u32::from(c.bytes[left]);
        }
        let slot = number & ((1 << bits) - 1);
        let s = c.slots[slot as usize];
        number = (number >> bits) * c.probs[s as usize] + slot - c.cums[s as usize];
        s
    };
    let mut values = Vec::with_capacity(n);
    if scheme == 1 {
        for _ in 0..n {
            values.push(next());
        }
        return Some(values);
    }
    let (mut buffer, mut count) = (0u64, 0u32);
    for _ in 0..n / comps {
        let length = next();
        if length > 32 {
            return None;
        }
        for _ in 0..comps {
            while count < length {
                if let Some(word) = bytes.get(*at..*at + 4) {
                    buffer |= u64::from(u32::from_le_bytes(word.try_into().unwrap())) << count;
                    count += 32;
                    *at += 4;
                } else {
                    buffer |= u64::from(get(bytes, at)?) << count;
                    count += 8;
                }
            }
            values.push((buffer & ((1 << length) - 1)) as u32);
            buffer >>= length;
            count -= length;
        }
    }
    *at -= count as usize / 8;
    Some(values)
}
