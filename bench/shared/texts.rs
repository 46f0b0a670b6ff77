//! PLY text in good safe Rust: meshes and clouds of positions of three integers, and the map of an encoding that keeps
//! faces and points in their order.
use crate::streams::{Geometry, Head};

/// The one head of a position.
pub fn position() -> Vec<Head> {
    vec![Head { usage: 0, dtype: 5, comps: 3, normalized: 0, id: 0 }]
}

pub fn put(out: &mut Vec<u8>, v: i64) {
    let mut digits = [0u8; 20];
    let mut at = 20;
    let mut rest = v.unsigned_abs();
    loop {
        at -= 1;
        digits[at] = b'0' + (rest % 10) as u8;
        rest /= 10;
        if rest == 0 {
            break;
        }
    }
    if v < 0 {
        at -= 1;
        digits[at] = b'-';
    }
    out.extend_from_slice(&digits[at..]);
}

/// The text of a geometry.
pub fn write(g: &Geometry) -> Vec<u8> {
    let mut out = Vec::new();
    out.extend_from_slice(b"ply\nformat ascii 1.0\ncomment drc attr 0 0 5 3 0 0\nelement vertex ");
    put(&mut out, g.points.len() as i64 / 3);
    out.extend_from_slice(b"\nproperty int x\nproperty int y\nproperty int z\n");
    if let Some(faces) = &g.faces {
        out.extend_from_slice(b"element face ");
        put(&mut out, faces.len() as i64);
        out.extend_from_slice(b"\nproperty list uchar int vertex_indices\n");
    }
    out.extend_from_slice(b"end_header\n");
    for row in g.points.chunks_exact(3) {
        put(&mut out, row[0].into());
        for v in &row[1..] {
            out.push(b' ');
            put(&mut out, (*v).into());
        }
        out.push(b'\n');
    }
    for face in g.faces.iter().flatten() {
        out.push(b'3');
        for p in face {
            out.push(b' ');
            put(&mut out, (*p).into());
        }
        out.push(b'\n');
    }
    out
}

/// The map of a geometry whose faces and points keep their order.
pub fn map(g: &Geometry) -> Vec<u8> {
    let (kind, rows) = match &g.faces {
        Some(faces) => (&b"map mesh "[..], faces.len()),
        None => (&b"map cloud "[..], g.points.len() / 3),
    };
    let mut out = kind.to_vec();
    put(&mut out, rows as i64);
    out.push(b'\n');
    for row in 0..rows {
        put(&mut out, row as i64);
        out.extend_from_slice(b" 0\n");
    }
    out
}

/// The number of the token at a place of a line, and the place after it.
fn int_at(line: &[u8], mut at: usize, least: i64, most: i64) -> Option<(i64, usize)> {
    while at < line.len() && (line[at] == b' ' || line[at] == b'\t') {
        at += 1;
    }
    let minus = line.get(at) == Some(&b'-');
    if minus {
        at += 1;
    }
    let first = at;
    let mut v = 0i64;
    while at < line.len() && line[at].is_ascii_digit() {
        v = v.checked_mul(10)?.checked_add(i64::from(line[at] - b'0'))?;
        at += 1;
    }
    if minus {
        v = -v;
    }
    let ends = at == line.len() || line[at] == b' ' || line[at] == b'\t';
    (at > first && ends && v >= least && v <= most).then_some((v, at))
}

fn is_blank(rest: &[u8]) -> bool {
    rest.iter().all(|b| *b == b' ' || *b == b'\t')
}

/// The geometry of a text.
pub fn read(text: &[u8]) -> Option<Geometry> {
    let mut lines = text.split(|b| *b == b'\n').map(|l| l.strip_suffix(b"\r").unwrap_or(l));
    let mut counts = [None, None];
    loop {
        let line = std::str::from_utf8(lines.next()?).ok()?;
        if line == "end_header" {
            break;
        }
        if let Some(n) = line.strip_prefix("element vertex ") {
            counts[0] = Some(n.parse::<usize>().ok()?);
        }
        if let Some(n) = line.strip_prefix("element face ") {
            counts[1] = Some(n.parse::<usize>().ok()?);
        }
    }
    let count = counts[0]?;
    let mut points = Vec::with_capacity(count * 3);
    for _ in 0..count {
        let line = lines.next()?;
        let mut at = 0;
        for _ in 0..3 {
            let (v, next) = int_at(line, at, i32::MIN.into(), i32::MAX.into())?;
            points.push(v as i32);
            at = next;
        }
        if !is_blank(&line[at..]) {
            return None;
        }
    }
    let mut faces = Vec::with_capacity(counts[1].unwrap_or(0));
    for _ in 0..counts[1].unwrap_or(0) {
        let line = lines.next()?;
        let (three, mut at) = int_at(line, 0, 0, 255)?;
        if three != 3 {
            return None;
        }
        let mut face = [0u32; 3];
        for p in &mut face {
            let (v, next) = int_at(line, at, i32::MIN.into(), i32::MAX.into())?;
            if v < 0 || v >= count as i64 {
                return None;
            }
            *p = v as u32;
            at = next;
        }
        if !is_blank(&line[at..]) {
            return None;
        }
        faces.push(face);
    }
    let faces = counts[1].map(|_| faces);
    lines.all(is_blank).then_some(Geometry { heads: position(), points, faces })
}
