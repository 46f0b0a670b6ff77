//! The work of whole commands in good safe Rust, phase by phase, beside the proved program of `whole.txt`: the text of a
//! grid of 263,169 points and 524,288 faces is read, encoded and its map made; the stream is decoded and the text
//! written. Writes `grid.ply` for both.
#![allow(dead_code)]
#[path = "../shared/blocks.rs"]
mod blocks;
#[path = "../shared/grids.rs"]
mod grids;
#[path = "../shared/limits.rs"]
mod limits;
#[path = "../shared/streams.rs"]
mod streams;
#[path = "../shared/texts.rs"]
mod texts;

use std::time::Instant;
use streams::{Geometry, decode, encode};

const SIDE: usize = 513;

fn grid() -> Geometry {
    let mut x = 1u64;
    let mut points = Vec::new();
    for i in 0..SIDE * SIDE {
        x = x.wrapping_mul(6364136223846793005).wrapping_add(1442695040888963407);
        points.extend([(i % SIDE) as i32 * 4, (i / SIDE) as i32 * 4, (x >> 57) as i32 - 64]);
    }
    Geometry { heads: texts::position(), points, faces: Some(grids::faces(SIDE)) }
}

fn show(name: &str, phase: &str, start: Instant, count: usize, sum: usize) {
    println!("{name}_{phase} {} ps a face, sum {sum}", start.elapsed().as_nanos() * 1000 / count as u128);
}

fn phases(name: &str, text: &[u8], count: usize, packed: bool, plain: bool) {
    let whole = Instant::now();
    let start = Instant::now();
    let g = texts::read(text).unwrap();
    show(name, "1_text_read", start, count, g.point_count());
    let start = Instant::now();
    let bytes = encode(&g, packed, plain).unwrap();
    show(name, "2_encoded", start, count, bytes.len());
    let start = Instant::now();
    let map = texts::map(&g);
    show(name, "3_map_made", start, count, map.len());
    show(name, "4_enc", whole, count, bytes.len());
    let whole = Instant::now();
    let start = Instant::now();
    let again = decode(&bytes).unwrap();
    show(name, "5_decoded", start, count, again.point_count());
    let start = Instant::now();
    let written = texts::write(&again);
    show(name, "6_text_written", start, count, written.len());
    show(name, "7_dec", whole, count, written.len());
    assert!(written == text);
}

fn main() {
    let grid = grid();
    let count = grid.faces.as_ref().map_or(0, Vec::len);
    let text = texts::write(&grid);
    std::fs::write("grid.ply", &text).unwrap();
    drop(grid);
    for _ in 0..5 {
        phases("plain", &text, count, false, true);
        phases("blocks", &text, count, false, false);
        phases("packed", &text, count, true, false);
    }
}
