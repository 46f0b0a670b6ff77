//! Reading and writing PLY text in good safe Rust, beside the proved program of `ply.txt`: a grid of
//! 263,169 points and 524,288 faces. Writes `grid.ply` for both.
#![allow(dead_code)]
#[path = "../shared/blocks.rs"]
mod blocks;
#[path = "../shared/grids.rs"]
mod grids;
#[path = "../shared/limits.rs"]
mod limits;
#[path = "../shared/streams.rs"]
mod streams;
#[path = "../shared/texts.rs"]
mod texts;

use std::time::Instant;
use streams::Geometry;

const SIDE: usize = 513;

fn grid() -> Geometry {
    let mut x = 1u64;
    let mut points = Vec::new();
    for i in 0..SIDE * SIDE {
        x = x.wrapping_mul(6364136223846793005).wrapping_add(1442695040888963407);
        let height = (x >> 52) as i32 - 2048;
        points.extend([(i % SIDE) as i32 * 4, (i / SIDE) as i32 * 4, height]);
    }
    Geometry { heads: texts::position(), points, faces: Some(grids::faces(SIDE)) }
}

fn main() {
    let mesh = grid();
    let faces = mesh.faces.as_ref().map_or(0, Vec::len);
    let numbers = (mesh.points.len() + 4 * faces) as u128;
    let show = |name: &str, start: Instant, sum: usize| {
        println!("{name} {} ps a number, sum {sum}", start.elapsed().as_nanos() * 1000 / numbers);
    };
    let text = texts::write(&mesh);
    std::fs::write("grid.ply", &text).unwrap();
    for _ in 0..5 {
        let start = Instant::now();
        let back = texts::read(&text).unwrap();
        show("ply_read", start, faces);
        assert!(back == mesh);
        let start = Instant::now();
        let again = texts::write(&back);
        show("ply_written", start, again.len());
    }
}
