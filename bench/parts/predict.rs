//! Predictions by one and by several parallelograms in good safe Rust, beside the proved program of `predict.txt`: on a
//! grid of 524,288 faces, and on one fan of 2^20 faces round a vertex. Entries are the vertices in the order of their
//! least corners, with three components. A surface is a flat list that has the number of the side across each side
//! 3f + k. Times are a value.
use std::time::Instant;

const FACES: u32 = 0x8_0000;
const FAN: u32 = 0x10_0000;
const NONE: u32 = u32::MAX;
const COMPS: usize = 3;
const LOW: i32 = -0x10_0000;
const HIGH: i32 = 0x10_0000;

/// The corner after one in its face.
fn next(corner: u32) -> u32 {
    if corner % 3 == 2 { corner - 2 } else { corner + 1 }
}

/// The corner before one in its face.
fn previous(corner: u32) -> u32 {
    if corner % 3 == 0 { corner + 2 } else { corner - 1 }
}

/// The faces of a grid of 512 by 512 cells.
fn grid() -> Vec<[u32; 3]> {
    let point = |x: u32, y: u32| y * 513 + x;
    (0..FACES)
        .map(|f| {
            let (x, y) = (f / 2 % 512, f / 2 / 512);
            if f % 2 == 0 {
                [point(x, y), point(x + 1, y), point(x + 1, y + 1)]
            } else {
                [point(x, y), point(x + 1, y + 1), point(x, y + 1)]
            }
        })
        .collect()
}

/// The faces of a closed fan round point 0.
fn fan() -> Vec<[u32; 3]> {
    (0..FAN).map(|f| [0, f + 1, (f + 1) % FAN + 1]).collect()
}

/// A surface, and an order over it, with the face across from each entry; `across` of it is `NONE` where there is no such
/// face whose entries come before.
struct Surface {
    across: Vec<u32>,
    corners: Vec<u32>,
    labels: Vec<u32>,
    entry_of_class: Vec<u32>,
    faces: Vec<Face>,
}

fn surface(faces: &[[u32; 3]]) -> Surface {
    let mut known = std::collections::HashMap::new();
    let mut across = vec![NONE; 3 * faces.len()];
    for (f, face) in faces.iter().enumerate() {
        for k in 0..3 {
            let (start, end, side) = (face[(k + 1) % 3], face[(k + 2) % 3], (3 * f + k) as u32);
            if let Some(other) = known.remove(&(end, start)) {
                across[side as usize] = other;
                across[other as usize] = side;
            } else {
                known.insert((start, end), side);
            }
        }
    }
    let mut of_point = std::collections::HashMap::new();
    let mut corners = Vec::new();
    let mut labels = Vec::new();
    for corner in 0..across.len() as u32 {
        let entry = *of_point.entry(faces[corner as usize / 3][corner as usize % 3]).or_insert(corners.len() as u32);
        if entry as usize == corners.len() {
            corners.push(corner);
        }
        labels.push(entry);
    }
    let entry_of_class = (0..corners.len() as u32).collect();
    let mut surface = Surface { across, corners, labels, entry_of_class, faces: Vec::new() };
    let none = Face { across: NONE, after: NONE, before: NONE };
    surface.faces = surface
        .corners
        .iter()
        .enumerate()
        .map(|(e, corner)| surface.at_corner(e as u32, *corner).unwrap_or(none))
        .collect();
    surface
}

#[derive(Clone, Copy, Default)]
struct Face {
    across: u32,
    after: u32,
    before: u32,
}

impl Surface {
    fn at_corner(&self, e: u32, corner: u32) -> Option<Face> {
        let side = self.across[corner as usize];
        if side == NONE {
            return None;
        }
        let entry = |corner: u32| self.entry_of_class[self.labels[corner as usize] as usize];
        let across = entry(side);
        if across >= e {
            return None;
        }
        let after = entry(next(side));
        let before = entry(previous(side));
        (after < e && before < e).then_some(Face { across, after, before })
    }

    /// The first four faces round the vertex of entry `e`, and their number.
    fn gather(&self, e: u32) -> ([Face; 4], usize) {
        let start = self.corners[e as usize];
        let mut found = [Face::default(); 4];
        let mut count = 0;
        let mut at = start;
        loop {
            if let Some(face) = self.at_corner(e, at) {
                found[count] = face;
                count += 1;
                if count == 4 {
                    return (found, 4);
                }
            }
            let side = self.across[next(at) as usize];
            if side == NONE {
                break;
            }
            at = next(side);
            if at == start {
                return (found, count);
            }
        }
        at = start;
        loop {
            let side = self.across[previous(at) as usize];
            if side == NONE {
                return (found, count);
            }
            at = previous(side);
            if let Some(face) = self.at_corner(e, at) {
                found[count] = face;
                count += 1;
                if count == 4 {
                    return (found, 4);
                }
            }
        }
    }
}

fn restored(prediction: i32, correction: i32) -> i32 {
    let base = prediction.clamp(LOW, HIGH);
    let span = HIGH as i64 - LOW as i64 + 1;
    let sum = base as i64 + correction as i64;
    let back = if sum > HIGH as i64 { -span } else if sum < LOW as i64 { span } else { 0 };
    base.wrapping_add(correction).wrapping_add(back as i32)
}

fn correction(prediction: i32, value: i32) -> i32 {
    let apart = value - prediction.clamp(LOW, HIGH);
    let span = HIGH - LOW + 1;
    if apart < -(span / 2) {
        apart + span
    } else if apart > (span - 1) / 2 {
        apart - span
    } else {
        apart
    }
}

fn fourth(v: &[i32], comps: usize, t: Face, j: usize) -> i32 {
    let at = |k: u32| v[k as usize * comps + j];
    at(t.after).wrapping_add(at(t.before)).wrapping_sub(at(t.across))
}

fn predicted(v: &[i32], comps: usize, e: usize, faces: &[Face], j: usize) -> i32 {
    match faces {
        [] => if e == 0 { 0 } else { v[(e - 1) * comps + j] },
        [t] => fourth(v, comps, *t, j),
        _ => {
            let sum = faces.iter().fold(0i32, |sum, t| sum.wrapping_add(fourth(v, comps, *t, j)));
            match faces.len() {
                2 => sum / 2,
                3 => sum / 3,
                _ => sum / 4,
            }
        }
    }
}

fn restore_entry(
    v: &mut Vec<i32>,
    comps: usize,
    e: usize,
    faces: &[Face],
    corrections: &mut impl Iterator<Item = i32>,
) {
    for j in 0..comps {
        let foretold = predicted(v, comps, e, faces, j);
        v.push(restored(foretold, corrections.next().unwrap()));
    }
}

fn correct_entry(v: &[i32], comps: usize, e: usize, faces: &[Face], out: &mut [i32]) {
    for j in 0..comps {
        out[e * comps + j] = correction(predicted(v, comps, e, faces, j), v[e * comps + j]);
    }
}

fn restore_parallelogram(s: &Surface, comps: usize, corrections: Vec<i32>) -> Vec<i32> {
    let mut v = Vec::with_capacity(corrections.len());
    let mut corrections = corrections.into_iter();
    for (e, face) in s.faces.iter().enumerate() {
        if face.across == NONE {
            restore_entry(&mut v, comps, e, &[], &mut corrections);
        } else {
            restore_entry(&mut v, comps, e, &[*face], &mut corrections);
        }
    }
    v
}

fn correct_parallelogram(s: &Surface, comps: usize, v: &[i32]) -> Vec<i32> {
    let mut out = vec![0; v.len()];
    for (e, face) in s.faces.iter().enumerate() {
        if face.across == NONE {
            correct_entry(v, comps, e, &[], &mut out);
        } else {
            correct_entry(v, comps, e, &[*face], &mut out);
        }
    }
    out
}

fn keep(found: &[Face], flags: &[bool]) -> ([Face; 4], usize) {
    let mut faces = [Face::default(); 4];
    let mut count = 0;
    for (face, flag) in found.iter().zip(flags) {
        if !flag {
            faces[count] = *face;
            count += 1;
        }
    }
    (faces, count)
}

fn restore_multi(
    s: &Surface,
    comps: usize,
    lists: &[Vec<bool>; 4],
    corrections: Vec<i32>,
) -> Option<Vec<i32>> {
    let mut v = Vec::with_capacity(corrections.len());
    let mut corrections = corrections.into_iter();
    let mut used = [0; 4];
    for e in 0..s.corners.len() {
        let (found, count) = s.gather(e as u32);
        if count == 0 {
            restore_entry(&mut v, comps, e, &[], &mut corrections);
            continue;
        }
        let first = used[count - 1];
        let flags = lists[count - 1].get(first..first + count)?;
        used[count - 1] = first + count;
        let (faces, kept) = keep(&found[..count], flags);
        restore_entry(&mut v, comps, e, &faces[..kept], &mut corrections);
    }
    Some(v)
}

fn correct_multi(s: &Surface, comps: usize, v: &[i32]) -> (Vec<i32>, [Vec<bool>; 4]) {
    let mut out = vec![0; v.len()];
    let mut lists = [const { Vec::new() }; 4];
    for e in 0..s.corners.len() {
        let (found, count) = s.gather(e as u32);
        if count == 0 {
            correct_entry(v, comps, e, &[], &mut out);
            continue;
        }
        let off = |predicted: &dyn Fn(usize) -> i32| -> u64 {
            (0..comps).map(|j| u64::from(predicted(j).abs_diff(v[e * comps + j]))).sum()
        };
        let before = off(&|j| v[(e - 1) * comps + j]);
        let mut marks = [false; 4];
        for (mark, face) in marks.iter_mut().zip(&found[..count]) {
            *mark = before < off(&|j| fourth(v, comps, *face, j));
        }
        lists[count - 1].extend_from_slice(&marks[..count]);
        let (faces, kept) = keep(&found[..count], &marks[..count]);
        correct_entry(v, comps, e, &faces[..kept], &mut out);
    }
    (out, lists)
}

/// Values that bend and jump.
fn values(entries: usize) -> Vec<i32> {
    (0..entries as u32 * 3)
        .map(|i| {
            let (p, j) = (i / 3, i % 3);
            let (x, y) = (p % 513, p / 513);
            match j {
                0 => (x * 7 + y % 5) as i32,
                1 => (y * 11 + x % 3) as i32,
                _ => (x.wrapping_mul(y) % 1021) as i32,
            }
        })
        .collect()
}

/// A number that distinguishes lists, by every thousandth of the first numbers.
fn sum(numbers: &[i32]) -> u32 {
    let some = numbers.iter().step_by(1000).take(500);
    some.fold(0, |sum, number| sum.wrapping_mul(31).wrapping_add(*number as u32))
}

fn show(name: String, items: usize, start: Instant, sum: u32) {
    let picos = start.elapsed().as_nanos() * 1000 / items as u128;
    println!("{name} {picos} ps an item, sum {sum}");
}

fn main() {
    let surfaces = [("grid", surface(&grid())), ("fan", surface(&fan()))];
    for _ in 0..7 {
        for (name, s) in &surfaces {
            let v = values(s.corners.len());
            let comps = std::hint::black_box(COMPS);
            let start = Instant::now();
            let corrections = correct_parallelogram(s, comps, &v);
            show(format!("{name}_correct_one"), v.len(), start, sum(&corrections));
            let start = Instant::now();
            let again = restore_parallelogram(s, comps, corrections);
            show(format!("{name}_restore_one"), v.len(), start, sum(&again));
            let start = Instant::now();
            let (corrections, flags) = correct_multi(s, comps, &v);
            show(format!("{name}_correct_many"), v.len(), start, sum(&corrections));
            let start = Instant::now();
            let again = restore_multi(s, comps, &flags, corrections).expect("enough flags");
            show(format!("{name}_restore_many"), v.len(), start, sum(&again));
        }
    }
}
