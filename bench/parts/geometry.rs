//! Comparing and assembling a mesh in good safe Rust, beside the proved program of `geometry.txt`: a grid of
//! 525,625 points and 1,048,352 faces, the same grid with its faces in reverse and turned, and an attribute over its
//! corners, whose rows are all different (`assembled`) or not (`merged`). The attributes and the width of a row are
//! known only as the program runs. Writes `grid.ply` and `turned.ply` for both.
#[path = "../shared/grids.rs"]
mod grids;

use std::hint::black_box;
use std::time::Instant;

const SIDE: usize = 725;
const NONE: u32 = u32::MAX;

/// Points as rows of `width` integers, and faces of three numbers of points.
struct Mesh {
    width: usize,
    points: Vec<i32>,
    faces: Vec<[u32; 3]>,
}

impl Mesh {
    fn corner(&self, face: usize, k: usize) -> &[i32] {
        let start = self.faces[face][k] as usize * self.width;
        &self.points[start..start + self.width]
    }
}

/// Attributes whose values stand at the same vertices: the vertex of each corner, the entry of each vertex, and of
/// each attribute its components and the values, entry after entry.
struct Group {
    of_corner: Vec<u32>,
    entry_of: Vec<u32>,
    values: Vec<(usize, Vec<i32>)>,
}

fn grid() -> Mesh {
    let mut points = Vec::new();
    for i in 0..SIDE * SIDE {
        points.extend([(i % SIDE) as i32, (i / SIDE) as i32, (i * i % 1021) as i32]);
    }
    Mesh { width: black_box(3), points, faces: grids::faces(SIDE) }
}

fn turned(mesh: &Mesh) -> Mesh {
    let faces = mesh.faces.iter().rev().map(|f| [f[1], f[2], f[0]]).collect();
    Mesh { width: mesh.width, points: mesh.points.clone(), faces }
}

fn text(mesh: &Mesh) -> String {
    let mut text = String::from("ply\nformat ascii 1.0\n");
    text += &format!("element vertex {}\n", mesh.points.len() / 3);
    text += "property int x\nproperty int y\nproperty int z\n";
    text += &format!("element face {}\nproperty list uchar int vertex_indices\nend_header\n", mesh.faces.len());
    for p in mesh.points.chunks(3) {
        text += &format!("{} {} {}\n", p[0], p[1], p[2]);
    }
    for f in &mesh.faces {
        text += &format!("3 {} {} {}\n", f[0], f[1], f[2]);
    }
    text
}

/// Whether each face of `a` stands in one row, and the corners have the same integers.
#[inline(never)]
fn matches(a: &Mesh, b: &Mesh, rows: &[(u32, u8)]) -> bool {
    if a.width != b.width || a.faces.len() != b.faces.len() || rows.len() != b.faces.len() {
        return false;
    }
    let mut seen = vec![false; a.faces.len()];
    for (i, (face, turn)) in rows.iter().enumerate() {
        let face = *face as usize;
        if face >= seen.len() || seen[face] || *turn > 2 {
            return false;
        }
        seen[face] = true;
        for k in 0..3 {
            if b.corner(i, k) != a.corner(face, (k + *turn as usize) % 3) {
                return false;
            }
        }
    }
    true
}

/// A hash of a row.
fn hash(row: &[i32]) -> u32 {
    let hash = row.iter().fold(0, |hash: u32, value| {
        (hash ^ (hash >> 16) ^ *value as u32).wrapping_mul(0x9e37_79b1)
    });
    hash ^ (hash >> 15)
}

/// Puts a number into a set of bits, and answers whether it was there.
fn put(words: &mut [u64], number: u32) -> bool {
    let word = &mut words[(number / 64) as usize];
    let was = *word >> (number % 64) & 1 == 1;
    *word |= 1 << (number % 64);
    was
}

/// The rows that may be equal to others: those whose hash has its bit set by an earlier one, and those like them by
/// another part of the hash.
fn chosen(width: usize, cells: &[i32]) -> Vec<u32> {
    let count = cells.len() / width;
    let mut words = vec![0u64; (count / 4 + 1).next_power_of_two()];
    let mask = (64 * words.len() - 1) as u32;
    let rows = || cells.chunks_exact(width).enumerate();
    let kept: Vec<u32> = rows()
        .filter_map(|(i, row)| put(&mut words, hash(row) & mask).then_some(i as u32))
        .collect();
    if kept.is_empty() {
        return kept;
    }
    let size = kept.len().next_power_of_two().min(words.len());
    words[..size].fill(0);
    let mask = (64 * size - 1) as u32;
    let sieve = |row: &[i32]| hash(row).rotate_left(16) & mask;
    for i in kept {
        put(&mut words, sieve(&cells[i as usize * width..][..width]));
    }
    rows()
        .filter(|(_, row)| {
            let number = sieve(row);
            words[(number / 64) as usize] >> (number % 64) & 1 == 1
        })
        .map(|(i, _)| i as u32)
        .collect()
}

/// Of each row the latest earlier one that equals it, where any has one.
fn twins(width: usize, cells: &[i32]) -> Option<Vec<u32>> {
    let chosen = chosen(width, cells);
    let row = |i: u32| &cells[i as usize * width..][..width];
    let mut tops = vec![NONE; (chosen.len() + 1).next_power_of_two()];
    let mask = tops.len() as u32 - 1;
    let mut twins: Option<Vec<u32>> = None;
    let mut links = Vec::with_capacity(chosen.len());
    for (at, i) in chosen.iter().enumerate() {
        let bucket = (hash(row(*i)) & mask) as usize;
        let mut link: u32 = tops[bucket];
        links.push(link);
        tops[bucket] = at as u32;
        while link != NONE && row(chosen[link as usize]) != row(*i) {
            link = links[link as usize];
        }
        if link != NONE {
            twins.get_or_insert_with(|| vec![NONE; cells.len() / width])[*i as usize] = chosen[link as usize];
        }
    }
    twins
}

/// The distinct rows of the corners, in order of first occurrence, and each corner's number. The vertices are numbered
/// as they come first, so that they are the points where no two rows are equal.
#[inline(never)]
fn assemble(group: &Group, face_count: usize) -> Mesh {
    let width = group.values.iter().map(|(comps, _)| comps).sum();
    let mut count = 0;
    let mut faces: Vec<[u32; 3]> = Vec::with_capacity(face_count);
    for face in group.of_corner.chunks_exact(3) {
        for vertex in face {
            assert!(*vertex <= count);
            count += u32::from(*vertex == count);
        }
        faces.push([face[0], face[1], face[2]]);
    }
    let mut cells = Vec::with_capacity(count as usize * width);
    for entry in &group.entry_of[..count as usize] {
        for (comps, values) in &group.values {
            cells.extend_from_slice(&values[*entry as usize * comps..][..*comps]);
        }
    }
    let Some(mut numbers) = twins(width, &cells) else {
        return Mesh { width, points: cells, faces };
    };
    let mut points = Vec::with_capacity(cells.len());
    for i in 0..numbers.len() {
        if numbers[i] != NONE {
            numbers[i] = numbers[numbers[i] as usize];
            continue;
        }
        numbers[i] = (points.len() / width) as u32;
        points.extend_from_slice(&cells[i * width..][..width]);
    }
    for face in &mut faces {
        *face = face.map(|vertex| numbers[vertex as usize]);
    }
    Mesh { width, points, faces }
}

/// An attribute of the grid, with the points as vertices, numbered as they come first, and the entries in reverse.
fn group(mesh: &Mesh, some_equal: bool) -> Group {
    let count = mesh.points.len() / mesh.width;
    let mut names = vec![NONE; count];
    let mut next = 0;
    let of_corner = mesh.faces.iter().flatten().map(|point| {
        let name = &mut names[*point as usize];
        if *name == NONE {
            *name = next;
            next += 1;
        }
        *name
    });
    let of_corner = of_corner.collect();
    let values = (0..count).flat_map(|entry| {
        let place = if some_equal && entry % 150_000 == 7 { 7 } else { entry };
        [place % SIDE, place / SIDE, place % 1021].map(|value| value as i32)
    });
    let values = vec![(black_box(3), values.collect())];
    Group { of_corner, entry_of: (0..count as u32).rev().collect(), values }
}

fn main() {
    let mesh = grid();
    let other = turned(&mesh);
    std::fs::write("grid.ply", text(&mesh)).unwrap();
    std::fs::write("turned.ply", text(&other)).unwrap();
    let count = mesh.faces.len();
    for _ in 0..5 {
        let rows: Vec<(u32, u8)> = (0..count as u32).map(|i| (count as u32 - 1 - i, 1)).collect();
        let start = Instant::now();
        let same = matches(&mesh, &other, &rows);
        let picos = start.elapsed().as_nanos() * 1000 / count as u128;
        println!("matched {picos} ps an item, sum {}", u32::from(same));
        for (part, some_equal) in [("assembled", false), ("merged", true)] {
            let group = group(&mesh, some_equal);
            let start = Instant::now();
            let assembled = assemble(&group, count);
            let picos = start.elapsed().as_nanos() * 1000 / count as u128;
            println!("{part} {picos} ps an item, sum {}", assembled.points.len() / assembled.width);
        }
    }
}
