//! Noting the symbols of a walk in the lists of their valence contexts, and reading them back, in good safe Rust, beside
//! the proved program of `valence.txt`: on a grid of 524,288 faces and on one that closes round to a torus. Both rebuild
//! the surface by the links of its boundary, since contexts are degrees of the machine. Times are a face.
#[allow(dead_code)]
#[path = "../shared/machine.rs"]
mod machine;

use machine::{Event, FACES, Machine, Symbol, faces, glued, trace};
use std::time::Instant;

const SYMBOLS: [Symbol; 5] = [Symbol::C, Symbol::S, Symbol::L, Symbol::R, Symbol::E];

/// The lists of the contexts, in the order of the walk.
fn noted(symbols: &[Symbol], events: &[Event]) -> Option<[Vec<u32>; 6]> {
    let mut machine = Machine::new(symbols.len(), events);
    let mut lists: [Vec<u32>; 6] = Default::default();
    for (i, symbol) in symbols.iter().rev().enumerate() {
        if i > 0 {
            lists[machine.context()].push(*symbol as u32);
        }
        machine.take(*symbol)?;
    }
    for list in &mut lists {
        list.reverse();
    }
    Some(lists)
}

/// The machine fed from the lists; how many faces it has then.
fn fed(mut lists: [Vec<u32>; 6], count: usize, events: &[Event]) -> Option<u32> {
    let mut machine = Machine::new(count, events);
    for i in 0..count {
        let symbol = if i == 0 {
            Symbol::E
        } else {
            *SYMBOLS.get(lists[machine.context()].pop()? as usize)?
        };
        machine.take(symbol)?;
    }
    Some(machine.faces)
}

/// A number that distinguishes lists, by every thousandth of the first numbers.
fn sum(numbers: impl Iterator<Item = u32>) -> u32 {
    let some = numbers.step_by(1000).take(500);
    some.fold(0, |sum, number| sum.wrapping_mul(31).wrapping_add(number))
}

fn show(name: String, items: u32, start: Instant, sum: u32) {
    let picos = start.elapsed().as_nanos() * 1000 / u128::from(items);
    println!("{name} {picos} ps an item, sum {sum}");
}

fn main() {
    let surfaces = [("grid", trace(&glued(&faces(false)))), ("torus", trace(&glued(&faces(true))))];
    for _ in 0..7 {
        for (name, traced) in &surfaces {
            let start = Instant::now();
            let lists = noted(&traced.symbols, &traced.events).expect("a walk");
            let all = lists.iter().fold(0, |n, list| 31u32.wrapping_mul(n).wrapping_add(sum(list.iter().copied())));
            show(format!("{name}_noted"), FACES, start, all);
            let start = Instant::now();
            let faces = fed(lists, traced.symbols.len(), &traced.events).expect("a walk");
            show(format!("{name}_read"), FACES, start, faces);
        }
    }
}
