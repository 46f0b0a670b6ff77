//! The commands `kd enc` and `kd dec` in good safe Rust, for positions of three integers: standard input to standard output,
//! and the map to standard error. `bench/commands/kd` times it beside the proved program; the bytes are the same.
#[path = "../shared/bit_blocks.rs"]
mod bit_blocks;
#[allow(dead_code)]
#[path = "../shared/blocks.rs"]
mod blocks;
#[path = "../shared/kd.rs"]
mod kd;
#[path = "../shared/limits.rs"]
mod limits;
#[allow(dead_code)]
#[path = "../shared/streams.rs"]
mod streams;
#[allow(dead_code)]
#[path = "../shared/texts.rs"]
mod texts;

use std::io::{Error, Read, Write, stderr, stdin, stdout};
use streams::Geometry;

/// The map of points that the file has in another order.
fn map(order: &[u32]) -> Vec<u8> {
    let mut out = Vec::new();
    out.extend_from_slice(b"map cloud ");
    texts::put(&mut out, order.len() as i64);
    for number in order {
        out.push(b'\n');
        texts::put(&mut out, (*number).into());
        out.extend_from_slice(b" 0");
    }
    out.push(b'\n');
    out
}

fn main() -> Result<(), Error> {
    let words: Vec<String> = std::env::args().skip(1).collect();
    let mut input = Vec::new();
    stdin().read_to_end(&mut input)?;
    let refused = || Error::other("refused");
    match words.join(" ").as_str() {
        "kd enc" => {
            let g = texts::read(&input).filter(|g| g.faces.is_none()).ok_or_else(refused)?;
            drop(input);
            let (file, order) = kd::encode(g.points.as_chunks::<3>().0);
            stdout().lock().write_all(&file)?;
            stderr().lock().write_all(&map(&order))
        }
        "kd dec" => {
            let points = kd::decode(&input).ok_or_else(refused)?.into_flattened();
            drop(input);
            let g = Geometry { heads: texts::position(), points, faces: None };
            stdout().lock().write_all(&texts::write(&g))
        }
        _ => Err(refused()),
    }
}
