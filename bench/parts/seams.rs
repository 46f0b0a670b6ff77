//! Seams and classes in good safe Rust, beside the proved program of `seams.txt`: on a grid of 524,288 faces whose
//! points have one of two labels, in stripes, and on a fan of 1,048,576 faces. A surface is a flat list that has the
//! number of the side across each side 3f + k. Times are a side.
use std::time::Instant;

const FACES: u32 = 0x8_0000;
const FAN: u32 = 0x10_0000;
const NONE: u32 = u32::MAX;

/// The corner after one in its face.
fn next(corner: u32) -> u32 {
    if corner % 3 == 2 { corner - 2 } else { corner + 1 }
}

/// The corner before one in its face.
fn previous(corner: u32) -> u32 {
    if corner % 3 == 0 { corner + 2 } else { corner - 1 }
}

/// The faces of a grid of 512 by 512 cells, by points that are there for each of two labels.
fn grid() -> Vec<[u32; 3]> {
    (0..FACES)
        .map(|f| {
            let (x, y) = (f / 2 % 512, f / 2 / 512);
            let point = |x: u32, y: u32, column: u32| 2 * (y * 513 + x) + column / 8 % 2;
            if f % 2 == 0 {
                [point(x, y, x), point(x + 1, y, x), point(x + 1, y + 1, x)]
            } else {
                [point(x, y, x), point(x + 1, y + 1, x), point(x, y + 1, x)]
            }
        })
        .collect()
}

/// The faces of a fan that closes round.
fn fan() -> Vec<[u32; 3]> {
    (0..FAN).map(|f| [0, f + 1, (f + 1) % FAN + 1]).collect()
}

/// For each side the number of the side across, by the positions of points.
fn glued(faces: &[[u32; 3]], labels: u32) -> Vec<u32> {
    let mut known = std::collections::HashMap::new();
    let mut across = vec![NONE; 3 * faces.len()];
    for (f, face) in faces.iter().enumerate() {
        for k in 0..3 {
            let (start, end, side) = (face[(k + 1) % 3] / labels, face[(k + 2) % 3] / labels, (3 * f + k) as u32);
            if let Some(other) = known.remove(&(end, start)) {
                across[side as usize] = other;
                across[other as usize] = side;
            } else {
                known.insert((start, end), side);
            }
        }
    }
    across
}

struct Mesh {
    faces: Vec<[u32; 3]>,
    cells: Vec<i32>,
    width: usize,
}

impl Mesh {
    fn differ(&self, span: std::ops::Range<usize>, p: u32, q: u32) -> bool {
        if p == q {
            return false;
        }
        let row = |p: u32| &self.cells[p as usize * self.width..][..self.width];
        row(p)[span.clone()] != row(q)[span]
    }
}

/// Of each side whether it is a seam.
fn seams_of(m: &Mesh, across: &[u32], span: std::ops::Range<usize>) -> Vec<bool> {
    let mut flags = vec![true; across.len()];
    let point = |corner: u32| m.faces[corner as usize / 3][corner as usize % 3];
    for x in 0..across.len() as u32 {
        let y = across[x as usize];
        if x < y && y != NONE {
            let seam = m.differ(span.clone(), point(next(x)), point(previous(y)))
                || m.differ(span.clone(), point(previous(x)), point(next(y)));
            flags[x as usize] = seam;
            flags[y as usize] = seam;
        }
    }
    flags
}

/// The flags of the sides that have a bit.
fn seam_bits(across: &[u32], flags: &[bool]) -> Vec<bool> {
    let mut bits = Vec::new();
    for (x, y) in across.iter().enumerate() {
        if x < *y as usize && *y != NONE {
            bits.push(flags[x]);
        }
    }
    bits
}

/// The coded bits of a block, and how many of 256 slots are ones.
fn coded(bits: &[bool]) -> (Vec<u8>, u32) {
    let none = bits.iter().filter(|bit| !**bit).count();
    let zeros = ((256 * none + bits.len() / 2) / bits.len()).clamp(1, 255) as u32;
    let ones = 256 - zeros;
    let (mut out, mut number) = (Vec::new(), 4096u32);
    for bit in bits.iter().rev() {
        let (below, count) = if *bit { (0, ones) } else { (ones, zeros) };
        if number >= 4096 * count {
            out.push((number & 255) as u8);
            number >>= 8;
        }
        number = number / count * 256 + number % count + below;
    }
    let end = number - 4096;
    let (size, end) = match end {
        0..0x40 => (1, end),
        0x40..0x4000 => (2, end + 0x4000),
        _ => (3, end + 0x80_0000),
    };
    out.extend_from_slice(&end.to_le_bytes()[..size]);
    (out, ones)
}

struct Block<'a> {
    bytes: &'a [u8],
    number: u32,
    ones: u32,
}

impl<'a> Block<'a> {
    fn new(coded: &'a [u8], ones: u32) -> Block<'a> {
        let tag = (coded[coded.len() - 1] >> 6) as usize;
        let (bytes, end) = coded.split_at(coded.len() - 1 - tag);
        let number = end.iter().rev().fold(0, |sum, byte| 256 * sum + u32::from(*byte));
        Block { bytes, number: 4096 + (number & ((1 << (8 * tag + 6)) - 1)), ones }
    }

    fn next(&mut self) -> bool {
        if self.number < 4096 {
            if let Some((last, rest)) = self.bytes.split_last() {
                self.number = self.number * 256 + u32::from(*last);
                self.bytes = rest;
            }
        }
        let part = (self.number >> 8) * self.ones;
        let slot = self.number & 255;
        let bit = slot < self.ones;
        let zero = self.number.wrapping_sub(part).wrapping_sub(self.ones);
        self.number = if bit { part + slot } else { zero };
        bit
    }
}

/// The flags that a block gives.
fn read_seams(across: &[u32], block: &mut Block) -> Vec<bool> {
    let mut flags = vec![true; across.len()];
    for x in 0..across.len() {
        let y = across[x];
        if x < y as usize && y != NONE {
            let flag = block.next();
            flags[x] = flag;
            flags[y as usize] = flag;
        }
    }
    flags
}

/// The surface without the pairs that are seams.
fn unglued(across: &[u32], flags: &[bool]) -> Vec<u32> {
    across.iter().zip(flags).map(|(other, seam)| if *seam { NONE } else { *other }).collect()
}

/// The vertex of each corner, and of each vertex whether it meets a boundary.
fn label(across: &[u32]) -> (Vec<u32>, Vec<bool>) {
    let mut labels = vec![NONE; across.len()];
    let mut ends = Vec::new();
    for corner in 0..across.len() as u32 {
        if labels[corner as usize] != NONE {
            continue;
        }
        let vertex = ends.len() as u32;
        labels[corner as usize] = vertex;
        let mut open = false;
        let mut at = corner;
        loop {
            let side = across[next(at) as usize];
            if side == NONE {
                open = true;
                break;
            }
            at = next(side);
            if at == corner {
                break;
            }
            labels[at as usize] = vertex;
        }
        at = corner;
        while open {
            let side = across[previous(at) as usize];
            if side == NONE {
                break;
            }
            at = previous(side);
            labels[at as usize] = vertex;
        }
        ends.push(open);
    }
    (labels, ends)
}

fn set_in(flags: &[bool]) -> u64 {
    flags.iter().filter(|flag| **flag).count() as u64
}

fn show(name: &str, items: u32, start: Instant, sum: u64) {
    let picos = start.elapsed().as_nanos() * 1000 / u128::from(items);
    println!("{name} {picos} ps an item, sum {sum}");
}

fn main() {
    let cells = (0..2 * 263_169).flat_map(|p| [p / 2 % 513, p / 2 / 513, p / 2, p % 2]).collect();
    let m = Mesh { faces: grid(), cells, width: 4 };
    let across = glued(&m.faces, 2);
    let round = glued(&fan(), 1);
    for _ in 0..7 {
        let start = Instant::now();
        let flags = seams_of(&m, &across, 3..4);
        show("seams_of", 3 * FACES, start, set_in(&flags));
        let start = Instant::now();
        let bits = seam_bits(&across, &flags);
        show("seam_bits", 3 * FACES, start, set_in(&bits));
        let (bytes, ones) = coded(&bits);
        let mut block = Block::new(&bytes, ones);
        let start = Instant::now();
        let again = read_seams(&across, &mut block);
        show("read_seams", 3 * FACES, start, set_in(&again));
        let start = Instant::now();
        let cut = unglued(&across, &flags);
        show("unseamed", 3 * FACES, start, cut.len() as u64 / 3);
        let start = Instant::now();
        let (_, ends) = label(&unglued(&across, &flags));
        show("classes", 3 * FACES, start, ends.len() as u64);
        let start = Instant::now();
        let (_, ends) = label(&round);
        show("fan_classes", 3 * FAN, start, ends.len() as u64);
    }
}
