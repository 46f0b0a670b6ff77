//! The limits of the accepted profile by their names, read when a program is compiled, from the file that the codec has them from.
const FILE: &[u8] = include_bytes!("../../crates/drc_base/src/limits.rt");
const BEFORE: &[u8] = b"pub const ";

/// Whether a text stands in the file at a place.
const fn stands_at(text: &[u8], at: usize) -> bool {
    let mut k = 0;
    while k < text.len() && at + k < FILE.len() && FILE[at + k] == text[k] {
        k += 1;
    }
    k == text.len()
}

/// The limit of a name, a number that is written in base 16 behind `0x` or in base 10, with `_` between digits; an error of the
/// compiler where there is none.
pub const fn limit(name: &str) -> usize {
    let name = name.as_bytes();
    let mut at = 0;
    while !(stands_at(BEFORE, at) && stands_at(name, at + BEFORE.len()) && FILE[at + BEFORE.len() + name.len()] == b':') {
        at += 1;
        assert!(at < FILE.len(), "no limit has this name");
    }
    while !stands_at(b"= ", at) {
        at += 1;
    }
    at += 2;
    let is_hex = stands_at(b"0x", at);
    if is_hex {
        at += 2;
    }
    let mut number = 0;
    while FILE[at] != b';' {
        if FILE[at] != b'_' {
            let digit = (FILE[at] as char).to_digit(if is_hex { 16 } else { 10 });
            number = number * (if is_hex { 16 } else { 10 }) + digit.expect("a digit") as usize;
        }
        at += 1;
    }
    number
}
