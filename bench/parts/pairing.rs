//! The pairing of sides in good safe Rust, on the same meshes as the proved program of `pairing.txt`. Positions are
//! numbered by a hash of their row. Edges are numbered by their two positions: sides stand in lists by the lower one,
//! and for each of these the higher ones get their edges in turn. For each way along an edge two cursors go over its
//! sides: to the first that is free, and to the first that is free and has another third position than that one.
use std::time::Instant;

const FACES: u32 = 1 << 19;
const NONE: u32 = u32::MAX;

struct Mesh {
    points: Vec<[i32; 3]>,
    faces: Vec<[u32; 3]>,
}

fn point(p: u32) -> [i32; 3] {
    let p = p as i32;
    [p % 1021, p / 1021, p]
}

/// A square grid, a fan round one point, one face many times, and one face and its mirror image in turn.
fn mesh(kind: u32) -> Mesh {
    let count = if kind == 0 { 513 * 513 } else { FACES + 2 };
    let points = (0..count).map(point).collect();
    let faces = (0..FACES)
        .map(|f| match kind {
            0 => {
                let (cell, half) = (f / 2, f % 2);
                let p = cell / 512 * 513 + cell % 512;
                if half == 0 { [p, p + 1, p + 514] } else { [p, p + 514, p + 513] }
            }
            1 => [0, f + 1, f + 2],
            2 => [0, 1, 2],
            _ => if f % 2 == 0 { [0, 1, f + 2] } else { [1, 0, f / 4 + 2] },
        })
        .collect();
    Mesh { points, faces }
}

fn hash(row: &[i32; 3], bits: u32) -> usize {
    let mixed = row.iter().fold(0u64, |h, x| {
        (h.rotate_left(5) ^ u64::from(*x as u32)).wrapping_mul(0x9e37_79b9_7f4a_7c15)
    });
    (mixed >> (64 - bits)) as usize
}

/// The position of each point, and how many there are.
fn positions(points: &[[i32; 3]]) -> (Vec<u32>, u32) {
    let bits = 65 - (points.len() as u64).leading_zeros();
    let mut heads = vec![NONE; 1 << bits];
    let mut nexts: Vec<u32> = Vec::with_capacity(points.len());
    let mut rows: Vec<u32> = Vec::with_capacity(points.len());
    let mut of_point = Vec::with_capacity(points.len());
    for (i, row) in points.iter().enumerate() {
        let head = &mut heads[hash(row, bits)];
        let mut at = *head;
        while at != NONE && points[rows[at as usize] as usize] != *row {
            at = nexts[at as usize];
        }
        if at == NONE {
            at = rows.len() as u32;
            rows.push(i as u32);
            nexts.push(*head);
            *head = at;
        }
        of_point.push(at);
    }
    (of_point, rows.len() as u32)
}

/// Lists of the items with each number, in their order.
fn listed(numbers: &[u32], count: u32) -> (Vec<u32>, Vec<u32>) {
    let mut heads = vec![NONE; count as usize];
    let mut nexts = vec![NONE; numbers.len()];
    for (x, number) in numbers.iter().enumerate().rev() {
        nexts[x] = heads[*number as usize];
        heads[*number as usize] = x as u32;
    }
    (heads, nexts)
}

/// The class of each side: 2e for those that run upwards along edge e, and 2e + 1 for those that run downwards.
fn classes(thirds: &[u32], positions: u32) -> (Vec<u32>, u32) {
    let start = |x: usize| thirds[if x % 3 == 2 { x - 2 } else { x + 1 }];
    let end = |x: usize| thirds[if x % 3 == 0 { x + 2 } else { x - 1 }];
    let lows: Vec<u32> = (0..thirds.len()).map(|x| start(x).min(end(x))).collect();
    let (heads, nexts) = listed(&lows, positions);
    let mut stamps = vec![NONE; positions as usize];
    let mut edges = vec![0; positions as usize];
    let mut classes = vec![0; thirds.len()];
    let mut count = 0;
    for low in 0..positions {
        let mut at = heads[low as usize];
        while at != NONE {
            let (start, end) = (start(at as usize), end(at as usize));
            let high = start.max(end) as usize;
            if stamps[high] != low {
                stamps[high] = low;
                edges[high] = count;
                count += 1;
            }
            classes[at as usize] = 2 * edges[high] + u32::from(start != low);
            at = nexts[at as usize];
        }
    }
    (classes, 2 * count)
}

/// None where a face has two equal positions.
fn pairing(m: &Mesh) -> Option<Vec<u32>> {
    let (of_point, count) = positions(&m.points);
    let thirds: Vec<u32> = m.faces.iter().flatten().map(|p| of_point[*p as usize]).collect();
    if thirds.chunks_exact(3).any(|p| p[0] == p[1] || p[1] == p[2] || p[2] == p[0]) {
        return None;
    }
    let (classes, count) = classes(&thirds, count);
    let (mut firsts, nexts) = listed(&classes, count);
    let mut others = firsts.clone();
    let mut across = vec![NONE; thirds.len()];
    for y in 0..thirds.len() as u32 {
        let (class, third) = (classes[y as usize] as usize ^ 1, thirds[y as usize]);
        let mut at = firsts[class];
        while at != NONE && across[at as usize] != NONE {
            at = nexts[at as usize];
        }
        firsts[class] = at;
        if at >= y {
            continue;
        }
        if thirds[at as usize] == third {
            at = others[class];
            while at != NONE && (across[at as usize] != NONE || thirds[at as usize] == third) {
                at = nexts[at as usize];
            }
            others[class] = at;
        }
        if at < y {
            across[at as usize] = y;
            across[y as usize] = at;
        }
    }
    Some(across)
}

fn main() {
    for _ in 0..7 {
        for (kind, name) in ["grid", "fan", "copies", "mirrored"].iter().enumerate() {
            let m = mesh(kind as u32);
            let start = Instant::now();
            let across = pairing(&m).unwrap();
            let picos = start.elapsed().as_nanos() * 1000 / u128::from(FACES);
            println!("{name} {picos} ps an item, sum {}", across.len() / 3);
        }
    }
}
