//! Coding sequential streams in good safe Rust, beside the proved program of `sequential.txt`: a grid of 263,169
//! points and 524,288 faces, and a cloud of 1,048,576 points, each a position of three integers. Writes `grid.ply`
//! and `cloud.ply` for both.
#[path = "../shared/blocks.rs"]
mod blocks;
#[path = "../shared/grids.rs"]
mod grids;
#[path = "../shared/limits.rs"]
mod limits;
#[path = "../shared/streams.rs"]
mod streams;

use std::time::Instant;
use streams::{Geometry, Head, decode, encode};

const SIDE: usize = 513;
const POINTS: usize = 1 << 20;

fn position() -> Vec<Head> {
    vec![Head { usage: 0, dtype: 5, comps: 3, normalized: 0, id: 0 }]
}

fn grid() -> Geometry {
    let mut x = 1u64;
    let mut points = Vec::new();
    for i in 0..SIDE * SIDE {
        x = x.wrapping_mul(6364136223846793005).wrapping_add(1442695040888963407);
        points.extend([(i % SIDE) as i32 * 4, (i / SIDE) as i32 * 4, (x >> 57) as i32 - 64]);
    }
    let faces = grids::faces(SIDE);
    Geometry { heads: position(), points, faces: Some(faces) }
}

fn cloud() -> Geometry {
    let mut x = 1u64;
    let mut points = Vec::new();
    for i in 0..POINTS {
        x = x.wrapping_mul(6364136223846793005).wrapping_add(1442695040888963407);
        points.extend([(i / 1024) as i32, (i % 1024) as i32, (x >> 57) as i32 - 64]);
    }
    Geometry { heads: position(), points, faces: None }
}

fn text(g: &Geometry) -> String {
    let mut text = String::from("ply\nformat ascii 1.0\n");
    text += &format!("element vertex {}\n", g.points.len() / 3);
    text += "property int x\nproperty int y\nproperty int z\n";
    if let Some(faces) = &g.faces {
        text += &format!("element face {}\nproperty list uchar int vertex_indices\n", faces.len());
    }
    text += "end_header\n";
    for p in g.points.chunks(3) {
        text += &format!("{} {} {}\n", p[0], p[1], p[2]);
    }
    for f in g.faces.iter().flatten() {
        text += &format!("3 {} {} {}\n", f[0], f[1], f[2]);
    }
    text
}

fn both_ways(name: &str, g: &Geometry, count: usize, packed: bool, plain: bool) {
    let start = Instant::now();
    let bytes = encode(g, packed, plain).unwrap();
    show(&format!("{name}_written"), start, count, bytes.len());
    let start = Instant::now();
    let again = decode(&bytes).unwrap();
    show(&format!("{name}_read"), start, count, again.point_count());
    assert!(again == *g);
}

fn show(name: &str, start: Instant, count: usize, sum: usize) {
    println!("{name} {} ps an item, sum {sum}", start.elapsed().as_nanos() * 1000 / count as u128);
}

fn main() {
    let (grid, cloud) = (grid(), cloud());
    std::fs::write("grid.ply", text(&grid)).unwrap();
    std::fs::write("cloud.ply", text(&cloud)).unwrap();
    let faces = grid.faces.as_ref().map_or(0, |f| f.len());
    for _ in 0..5 {
        both_ways("mesh_plain", &grid, faces, false, true);
        both_ways("mesh_packed", &grid, faces, true, false);
        both_ways("cloud_plain", &cloud, POINTS, false, true);
        both_ways("cloud_blocks", &cloud, POINTS, false, false);
    }
}
