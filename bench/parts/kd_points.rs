//! Clouds of points as a kd-tree in good safe Rust, beside the proved program of `kd_points.txt`.
#[path = "../shared/bit_blocks.rs"]
mod bit_blocks;
#[allow(dead_code)]
#[path = "../shared/blocks.rs"]
mod blocks;
#[path = "../shared/kd.rs"]
mod kd;
#[path = "../shared/limits.rs"]
mod limits;

use std::time::Instant;

fn next(x: u64) -> u64 {
    x.wrapping_mul(6364136223846793005).wrapping_add(1442695040888963407)
}

fn cloud(count: usize, bits: u32, is_surface: bool) -> Vec<[i32; 3]> {
    let mut x = 1u64;
    let mut part = || {
        x = next(x);
        (x >> 32) as u32 >> (32 - bits)
    };
    (0..count)
        .map(|_| {
            let (a, b, c) = (part(), part(), part());
            let square = u64::from(a) * u64::from(a) + u64::from(b) * u64::from(b);
            let z = if is_surface { (square >> (bits + 1)) as u32 } else { c };
            [a as i32, b as i32, z as i32]
        })
        .collect()
}

fn show(name: &str, way: &str, start: Instant, count: usize, sum: usize) {
    println!("{name}_{way} {} ps an item, sum {sum}", start.elapsed().as_nanos() * 1000 / count as u128);
}

fn main() {
    for (shape, is_surface) in [("uniform", false), ("surface", true)] {
        for bits in [11, 16, 20] {
            for size in [18, 20] {
                let (name, count) = (format!("{shape}_{size}_{bits}"), 1 << size);
                let points = cloud(count, bits, is_surface);
                for _ in 0..5 {
                    let start = Instant::now();
                    let (bytes, _order) = kd::encode(&points);
                    show(&name, "written", start, count, bytes.len());
                    let start = Instant::now();
                    let again = kd::decode(&bytes).expect("a cloud");
                    show(&name, "read", start, count, again.len());
                }
            }
        }
    }
}
