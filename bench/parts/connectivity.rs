//! The connectivity section of an Edgebreaker mesh, read and written in good safe Rust, beside the proved program of
//! `connectivity.txt`: on a grid of 524,288 faces and on one that closes round to a torus, standard and by valence.
//! Reading rebuilds the surface and labels its vertices for the last test. Times are a face.
#[allow(dead_code)]
#[path = "../shared/bit_blocks.rs"]
mod bit_blocks;
#[allow(dead_code)]
#[path = "../shared/blocks.rs"]
mod blocks;
#[path = "../shared/limits.rs"]
mod limits;
#[path = "../shared/machine.rs"]
mod machine;

use bit_blocks::{Block, write_block};
use blocks::{get, get_varint, read_symbols, varint, write_symbols};
use limits::limit;
use machine::{Event, FACES, Machine, Symbol, Traced, faces, glued, label, trace};
use std::time::Instant;

const MAX_FACES: usize = limit("MAX_FACES");
const SYMBOLS: [Symbol; 5] = [Symbol::C, Symbol::S, Symbol::L, Symbol::R, Symbol::E];

/// The bits of a symbol, and how many there are.
fn bits_of(symbol: Symbol) -> (u64, u32) {
    match symbol {
        Symbol::C => (0, 1),
        Symbol::S => (1, 3),
        Symbol::L => (3, 3),
        Symbol::R => (5, 3),
        Symbol::E => (7, 3),
    }
}

/// The bytes of the symbols' bits, the last symbol first.
fn packed(symbols: &[Symbol]) -> Vec<u8> {
    let mut out = Vec::with_capacity(symbols.len() / 2);
    let (mut buffer, mut count) = (0u64, 0);
    for symbol in symbols.iter().rev() {
        let (bits, n) = bits_of(*symbol);
        buffer |= bits << count;
        count += n;
        while count >= 8 {
            out.push(buffer as u8);
            buffer >>= 8;
            count -= 8;
        }
    }
    if count > 0 {
        out.push(buffer as u8);
    }
    out
}

/// The front and the events.
fn write_front(out: &mut Vec<u8>, t: &Traced, faces: u32, valence: bool) {
    let splits = t.symbols.iter().filter(|symbol| **symbol == Symbol::S).count();
    out.push(if valence { 2 } else { 0 });
    for number in [t.vertices, faces, 0, t.symbols.len() as u32, splits as u32, t.events.len() as u32] {
        varint(out, u64::from(number));
    }
    let mut before = 0;
    for event in &t.events {
        varint(out, u64::from(event.source - before));
        varint(out, u64::from(event.source - event.split));
        before = event.source;
    }
    for sides in t.events.chunks(8) {
        out.push(sides.iter().enumerate().fold(0, |byte, (i, e)| byte | u8::from(e.right) << i));
    }
}

/// The lists of the contexts, in the order of the walk.
fn noted(t: &Traced) -> Option<[Vec<u32>; 6]> {
    let mut machine = Machine::new(t.symbols.len(), &t.events);
    let mut lists: [Vec<u32>; 6] = Default::default();
    for (i, symbol) in t.symbols.iter().rev().enumerate() {
        if i > 0 {
            lists[machine.context()].push(*symbol as u32);
        }
        machine.take(*symbol)?;
    }
    for list in &mut lists {
        list.reverse();
    }
    Some(lists)
}

/// The bytes of the section.
fn write(t: &Traced, faces: u32, valence: bool) -> Option<Vec<u8>> {
    let mut out = Vec::new();
    write_front(&mut out, t, faces, valence);
    if !valence {
        let symbols = packed(&t.symbols);
        varint(&mut out, symbols.len() as u64);
        out.extend_from_slice(&symbols);
    }
    write_block(&mut out, &t.starts);
    if valence {
        for list in noted(t)? {
            varint(&mut out, list.len() as u64);
            out.extend_from_slice(&write_symbols(&list, 1));
        }
    }
    Some(out)
}

/// The events of so many symbols.
fn read_events(bytes: &[u8], at: &mut usize, faces: usize, symbols: u32) -> Option<Vec<Event>> {
    let count = get_varint(bytes, at)? as usize;
    if count > faces {
        return None;
    }
    let mut events = Vec::with_capacity(count.min(bytes.len() / 2));
    let mut source = 0u32;
    for _ in 0..count {
        source = source.checked_add(get_varint(bytes, at)? as u32).filter(|source| *source < symbols)?;
        let split = source.checked_sub(get_varint(bytes, at)? as u32)?;
        events.push(Event { source, split, right: false });
    }
    let sides = bytes.get(*at..*at + count.div_ceil(8))?;
    *at += sides.len();
    for (i, event) in events.iter_mut().enumerate() {
        event.right = sides[i / 8] >> (i % 8) & 1 == 1;
    }
    Some(events)
}

/// Symbols drawn from bits, the lowest first.
struct Bits<'a> {
    bytes: &'a [u8],
    buffer: u64,
    count: u32,
}

impl Bits<'_> {
    fn symbol(&mut self) -> Option<Symbol> {
        while self.count < 3 {
            let Some((first, rest)) = self.bytes.split_first() else { break };
            self.buffer |= u64::from(*first) << self.count;
            self.bytes = rest;
            self.count += 8;
        }
        let n = if self.buffer & 1 == 0 { 1 } else { 3 };
        self.count = self.count.checked_sub(n)?;
        let code = self.buffer & ((1 << n) - 1);
        self.buffer >>= n;
        Some(SYMBOLS[(code as usize).div_ceil(2)])
    }
}

/// Closes the sides that wait, by start bits.
fn close(machine: &mut Machine, mut starts: Block) -> Option<()> {
    while let Some(a) = machine.stack.pop() {
        if starts.next() {
            let b = machine.before[a as usize];
            let c = machine.before[b as usize];
            if b == a || c == a || machine.before[c as usize] != a {
                return None;
            }
            machine.fill(a, b, c);
        }
    }
    Some(())
}

/// The surface of a section: for each side the number of the side across.
fn read(bytes: &[u8]) -> Option<Vec<u32>> {
    let mut at = 0;
    let valence = get(bytes, &mut at)? == 2;
    let mut numbers = [0; 5];
    for number in &mut numbers {
        *number = get_varint(bytes, &mut at)? as usize;
    }
    let [_, faces, _, symbols, _] = numbers;
    if faces > MAX_FACES || symbols > faces {
        return None;
    }
    let events = read_events(bytes, &mut at, faces, symbols as u32)?;
    let mut machine = Machine::with_room(faces, symbols, &events);
    let starts;
    if valence {
        starts = Block::read(bytes, &mut at)?;
        let mut lists: [Vec<u32>; 6] = Default::default();
        for list in &mut lists {
            let count = get_varint(bytes, &mut at)? as usize;
            *list = read_symbols(bytes, &mut at, count, 1)?;
        }
        for i in 0..symbols {
            let symbol = if i == 0 { Symbol::E } else { *SYMBOLS.get(lists[machine.context()].pop()? as usize)? };
            machine.take(symbol)?;
        }
    } else {
        let size = get_varint(bytes, &mut at)? as usize;
        let mut bits = Bits { bytes: bytes.get(at..)?.get(..size)?, buffer: 0, count: 0 };
        at += size;
        starts = Block::read(bytes, &mut at)?;
        for _ in 0..symbols {
            machine.take(bits.symbol()?)?;
        }
    }
    close(&mut machine, starts)?;
    if machine.faces as usize != faces {
        return None;
    }
    let (labels, _) = label(&machine.across);
    let degenerate = labels.chunks_exact(3).any(|face| face[0] == face[1] || face[1] == face[2] || face[2] == face[0]);
    (!degenerate).then_some(machine.across)
}

/// A number that distinguishes lists, by every thousandth of the first numbers.
fn sum(numbers: impl Iterator<Item = u32>) -> u32 {
    let some = numbers.step_by(1000).take(500);
    some.fold(0, |sum, number| sum.wrapping_mul(31).wrapping_add(number))
}

fn show(name: String, start: Instant, sum: u32) {
    let picos = start.elapsed().as_nanos() * 1000 / u128::from(FACES);
    println!("{name} {picos} ps an item, sum {sum}");
}

fn main() {
    let surfaces = [("grid", trace(&glued(&faces(false)))), ("torus", trace(&glued(&faces(true))))];
    for _ in 0..7 {
        for (name, traced) in &surfaces {
            for (form, valence) in [("", false), ("_valence", true)] {
                let start = Instant::now();
                let bytes = write(traced, FACES, valence).expect("a walk");
                let sum_of_bytes = sum(bytes.iter().map(|b| u32::from(*b)));
                show(format!("{name}{form}_written"), start, sum_of_bytes.wrapping_add(bytes.len() as u32));
                let start = Instant::now();
                let across = read(&bytes).expect("a section");
                show(format!("{name}{form}_read"), start, sum(across.into_iter()));
            }
        }
    }
}
