//! The commands `enc --method seq` and `dec` in good safe Rust, for positions of three integers: standard input to standard
//! output, and the map to standard error. `bench/commands/coding` times it beside the proved program; the bytes are the same.
#![allow(dead_code)]
#[path = "../shared/blocks.rs"]
mod blocks;
#[path = "../shared/limits.rs"]
mod limits;
#[path = "../shared/streams.rs"]
mod streams;
#[path = "../shared/texts.rs"]
mod texts;

use std::io::{Error, Read, Write, stderr, stdin, stdout};

/// The options of `enc`: packed indices, plain values.
fn options(words: &[String]) -> Option<(bool, bool)> {
    let (mut packed, mut plain) = (false, false);
    let mut words = words.iter().map(String::as_str);
    while let Some(word) = words.next() {
        match word {
            "--method" => (words.next()? == "seq").then_some(())?,
            "--index" => packed = words.next()? == "packed",
            "--plain-values" => plain = true,
            _ => return None,
        }
    }
    Some((packed, plain))
}

fn main() -> Result<(), Error> {
    let words: Vec<String> = std::env::args().skip(1).collect();
    let mut input = Vec::new();
    stdin().read_to_end(&mut input)?;
    let refused = || Error::other("refused");
    match words.first().map(String::as_str) {
        Some("enc") => {
            let (packed, plain) = options(&words[1..]).ok_or_else(refused)?;
            let g = texts::read(&input).ok_or_else(refused)?;
            drop(input);
            let stream = streams::encode(&g, packed, plain).map_err(|_| refused())?;
            let map = texts::map(&g);
            stdout().lock().write_all(&stream)?;
            stderr().lock().write_all(&map)
        }
        Some("dec") => {
            let g = streams::decode(&input).map_err(|_| refused())?;
            drop(input);
            stdout().lock().write_all(&texts::write(&g))
        }
        _ => Err(refused()),
    }
}
