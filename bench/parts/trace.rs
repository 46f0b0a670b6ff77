//! Labelling the vertices of a surface, walking over it and renumbering it in good safe Rust, beside the proved program
//! of `trace.txt`: on a grid of 524,288 faces and on one that closes round to a torus. Times of labels are a corner, all others a face.
#[allow(dead_code)]
#[path = "../shared/surfaces.rs"]
mod surfaces;

use std::time::Instant;
use surfaces::{FACES, NONE, faces, glued, label, trace};

/// The same surface, where row i says which face becomes face i, and by how much it is turned.
fn renumbered(across: &[u32], rows: &[(u32, u8)]) -> Vec<u32> {
    let mut places = vec![0; across.len()];
    let mut sources = Vec::with_capacity(across.len());
    for (i, (face, turn)) in rows.iter().enumerate() {
        for k in 0..3 {
            let side = 3 * face + (k + u32::from(*turn)) % 3;
            places[side as usize] = 3 * i as u32 + k;
            sources.push(side);
        }
    }
    let becomes = |side: u32| if side == NONE { NONE } else { places[side as usize] };
    sources.iter().map(|side| becomes(across[*side as usize])).collect()
}

/// A number that distinguishes lists, by every thousandth of the first numbers.
fn sum(numbers: impl Iterator<Item = u32>) -> u32 {
    let some = numbers.step_by(1000).take(500);
    some.fold(0, |sum, number| sum.wrapping_mul(31).wrapping_add(number))
}

fn show(name: String, items: u32, start: Instant, sum: u32) {
    let picos = start.elapsed().as_nanos() * 1000 / u128::from(items);
    println!("{name} {picos} ps an item, sum {sum}");
}

fn main() {
    let surfaces = [("grid", glued(&faces(false))), ("torus", glued(&faces(true)))];
    for _ in 0..7 {
        for (name, across) in &surfaces {
            let start = Instant::now();
            let (labels, _) = label(across);
            show(format!("{name}_labels"), 3 * FACES, start, sum(labels.into_iter()));
            let start = Instant::now();
            let traced = trace(across);
            let faces = traced.order.iter().map(|row| row.0);
            show(format!("{name}_trace"), FACES, start, sum(faces));
            let start = Instant::now();
            let again = renumbered(across, &traced.order);
            show(format!("{name}_renumbered"), FACES, start, again.len() as u32 / 3);
        }
    }
}
