//! Blocks of bits in good safe Rust.
use crate::blocks::{get, get_varint, varint};

/// A block of bits.
pub fn write_block(out: &mut Vec<u8>, bits: &[bool]) {
    let total = bits.len().max(1) as u64;
    let zeros = bits.iter().filter(|bit| !**bit).count() as u64;
    let none = ((256 * zeros + total / 2) / total).clamp(1, 255) as u32;
    let ones = 256 - none;
    let (mut coded, mut state) = (Vec::new(), 4096u32);
    for bit in bits.iter().rev() {
        let slots = if *bit { ones } else { none };
        if state >= 4096 * slots {
            coded.push(state as u8);
            state >>= 8;
        }
        state = 256 * (state / slots) + state % slots + if *bit { 0 } else { ones };
    }
    let last = state - 4096;
    if last < 1 << 6 {
        coded.push(last as u8);
    } else if last < 1 << 14 {
        coded.extend_from_slice(&((1 << 14) + last).to_le_bytes()[..2]);
    } else {
        coded.extend_from_slice(&((2 << 22) + last).to_le_bytes()[..3]);
    }
    out.push(none as u8);
    varint(out, coded.len() as u64);
    out.extend_from_slice(&coded);
}

/// A block of bits that is read bit by bit.
pub struct Block<'a> {
    coded: &'a [u8],
    state: u32,
    ones: u32,
}

impl<'a> Block<'a> {
    pub fn read(bytes: &'a [u8], at: &mut usize) -> Option<Block<'a>> {
        let none = u32::from(get(bytes, at)?);
        let size = get_varint(bytes, at)? as usize;
        let coded = bytes.get(*at..)?.get(..size)?;
        *at += size;
        let tag = usize::from(*coded.last()? >> 6);
        if none == 0 || tag == 3 || coded.len() <= tag {
            return None;
        }
        let left = coded.len() - tag - 1;
        let number = coded[left..].iter().rev().fold(0u32, |n, byte| n << 8 | u32::from(*byte));
        let state = (number & ((1 << (8 * tag + 6)) - 1)) + 4096;
        Some(Block { coded: &coded[..left], state, ones: 256 - none })
    }

    pub fn next(&mut self) -> bool {
        if self.state < 4096 {
            if let Some((last, rest)) = self.coded.split_last() {
                self.state = self.state << 8 | u32::from(*last);
                self.coded = rest;
            }
        }
        let (part, slot) = ((self.state >> 8) * self.ones, self.state & 255);
        let bit = slot < self.ones;
        self.state = if bit { part + slot } else { self.state - part - self.ones };
        bit
    }
}
