//! Sequential streams in good safe Rust: meshes and clouds of any attributes of integers, with the limits and the
//! tests of the format, and refusals that name the place.
use crate::blocks;
use crate::limits::limit;

const MAX_FACES: usize = limit("MAX_FACES");
const MAX_POINTS: usize = limit("MAX_POINTS");
const MAX_VALUES: usize = limit("MAX_VALUES");
const MAX_ATTRIBUTES: usize = limit("MAX_ATTRIBUTES");
const MAX_COMPONENTS: u8 = limit("MAX_COMPONENTS") as u8;

/// What is wrong with bytes and where, or with a geometry.
#[derive(Debug)]
#[allow(dead_code)]
pub struct Refusal {
    pub why: &'static str,
    pub at: usize,
}

type Answer<T> = Result<T, Refusal>;

/// What an attribute is.
#[derive(PartialEq, Clone)]
pub struct Head {
    pub usage: u8,
    pub dtype: u8,
    pub comps: u8,
    pub normalized: u8,
    pub id: u32,
}

/// Points, each the integers of all attributes in order, and the faces of a mesh.
#[derive(PartialEq)]
pub struct Geometry {
    pub heads: Vec<Head>,
    pub points: Vec<i32>,
    pub faces: Option<Vec<[u32; 3]>>,
}

impl Geometry {
    pub fn width(&self) -> usize {
        self.heads.iter().map(|h| usize::from(h.comps)).sum()
    }

    pub fn point_count(&self) -> usize {
        self.points.len() / self.width()
    }
}

/// The values that a data type has.
fn range_of_type(dtype: u8) -> (i32, i32) {
    match dtype {
        1 => (-0x80, 0x7f),
        2 => (0, 0xff),
        3 => (-0x8000, 0x7fff),
        4 => (0, 0xffff),
        5 => (i32::MIN, i32::MAX),
        _ => (0, i32::MAX),
    }
}

fn zigzag(v: i32) -> u32 {
    (v << 1 ^ v >> 31) as u32
}

fn signed(s: u32) -> i32 {
    (s >> 1) as i32 ^ -((s & 1) as i32)
}

/// The range of values, in which a prediction is clipped and corrections are wrapped.
struct Wrap {
    low: i32,
    high: i32,
    span: i64,
}

impl Wrap {
    fn new(low: i32, high: i32) -> Option<Wrap> {
        let reach = i64::from(high) - i64::from(low);
        (0..0x7fff_ffff).contains(&reach).then_some(Wrap { low, high, span: reach + 1 })
    }

    fn moved(&self, sum: i64, low: i64, high: i64) -> i32 {
        let moved = if sum > high {
            sum - self.span
        } else if sum < low {
            sum + self.span
        } else {
            sum
        };
        moved as i32
    }

    fn correction(&self, prediction: i32, value: i32) -> i32 {
        let apart = i64::from(value) - i64::from(prediction.clamp(self.low, self.high));
        self.moved(apart, -(self.span / 2), (self.span - 1) / 2)
    }

    fn restored(&self, prediction: i32, correction: i32) -> i32 {
        let sum = i64::from(prediction.clamp(self.low, self.high)) + i64::from(correction);
        self.moved(sum, i64::from(self.low), i64::from(self.high))
    }
}

// ---- writing

/// How many bytes an index has, or `None` for a varint.
fn index_size(points: usize) -> Option<usize> {
    match points {
        0..0x100 => Some(1),
        0x100..0x1_0000 => Some(2),
        0x1_0000..0x20_0000 => None,
        _ => Some(4),
    }
}

fn write_faces(out: &mut Vec<u8>, faces: &[[u32; 3]], points: usize, packed: bool) {
    blocks::varint(out, faces.len() as u64);
    blocks::varint(out, points as u64);
    out.push(u8::from(!packed));
    let indices = faces.iter().flatten();
    if packed {
        let mut last = 0;
        let symbols: Vec<u32> = indices
            .map(|index| {
                let symbol = index.abs_diff(last) << 1 | u32::from(*index < last);
                last = *index;
                symbol
            })
            .collect();
        out.extend_from_slice(&blocks::write_symbols(&symbols, 1));
        return;
    }
    match index_size(points) {
        None => indices.for_each(|index| blocks::varint(out, u64::from(*index))),
        Some(1) => out.extend(indices.map(|index| *index as u8)),
        Some(2) => indices.for_each(|index| out.extend_from_slice(&(*index as u16).to_le_bytes())),
        _ => indices.for_each(|index| out.extend_from_slice(&index.to_le_bytes())),
    }
}

/// The integers of an attribute, point after point.
fn column(points: &[i32], width: usize, start: usize, comps: usize) -> Vec<i32> {
    let mut column = Vec::with_capacity(points.len() / width * comps);
    for point in points.chunks_exact(width) {
        column.extend_from_slice(&point[start..start + comps]);
    }
    column
}

/// The symbols of corrections of entries of so many components, each by the entry before.
fn symbols_of(values: &[i32], comps: usize, wrap: &Wrap) -> Vec<u32> {
    let first = values[..comps].iter().map(|v| zigzag(wrap.correction(0, *v)));
    let others = values.iter().zip(&values[comps..]);
    first.chain(others.map(|(before, v)| zigzag(wrap.correction(*before, *v)))).collect()
}

fn write_low_bytes<const N: usize>(out: &mut Vec<u8>, symbols: &[u32]) {
    out.reserve(N * symbols.len());
    for s in symbols {
        out.extend_from_slice(&s.to_le_bytes()[..N]);
    }
}

fn write_plain(out: &mut Vec<u8>, symbols: &[u32]) {
    let greatest = symbols.iter().copied().max().unwrap_or(0);
    let size = (32 - greatest.leading_zeros()).div_ceil(8).max(1) as u8;
    out.push(size);
    match size {
        1 => write_low_bytes::<1>(out, symbols),
        2 => write_low_bytes::<2>(out, symbols),
        3 => write_low_bytes::<3>(out, symbols),
        _ => write_low_bytes::<4>(out, symbols),
    }
}

fn write_values(out: &mut Vec<u8>, values: &[i32], comps: usize, plain: bool, number: usize) -> Answer<()> {
    let low = values.iter().copied().min().unwrap_or(0);
    let high = values.iter().copied().max().unwrap_or(0);
    let wrap = Wrap::new(low, high).ok_or(Refusal { why: "Range", at: number })?;
    let symbols = symbols_of(values, comps, &wrap);
    out.extend_from_slice(&[0, 1, u8::from(!plain)]);
    if plain {
        write_plain(out, &symbols);
    } else {
        out.extend_from_slice(&blocks::write_symbols(&symbols, comps));
    }
    out.extend_from_slice(&low.to_le_bytes());
    out.extend_from_slice(&high.to_le_bytes());
    Ok(())
}

/// The stream of a geometry.
pub fn encode(g: &Geometry, packed: bool, plain: bool) -> Answer<Vec<u8>> {
    let (width, points) = (g.width(), g.point_count());
    if points == 0 {
        return Err(Refusal { why: "Empty", at: 0 });
    }
    if g.points.len() > MAX_VALUES {
        return Err(Refusal { why: "ValueLimit", at: g.points.len() });
    }
    let mut out = b"DRACO\x02".to_vec();
    match &g.faces {
        Some(faces) => {
            out.extend_from_slice(&[2, 1, 0, 0, 0]);
            write_faces(&mut out, faces, points, packed);
        }
        None => {
            out.extend_from_slice(&[3, 0, 0, 0, 0]);
            out.extend_from_slice(&(points as u32).to_le_bytes());
        }
    }
    out.push(1);
    blocks::varint(&mut out, g.heads.len() as u64);
    for h in &g.heads {
        out.extend_from_slice(&[h.usage, h.dtype, h.comps, h.normalized]);
        blocks::varint(&mut out, u64::from(h.id));
    }
    out.extend(g.heads.iter().map(|_| 1));
    let mut start = 0;
    for (number, h) in g.heads.iter().enumerate() {
        let comps = usize::from(h.comps);
        let values = column(&g.points, width, start, comps);
        write_values(&mut out, &values, comps, plain, number)?;
        start += comps;
    }
    Ok(out)
}

// ---- reading

/// A place in the bytes of a stream.
struct Cursor<'a> {
    bytes: &'a [u8],
    at: usize,
}

impl<'a> Cursor<'a> {
    fn refuse<T>(&self, why: &'static str) -> Answer<T> {
        Err(Refusal { why, at: self.at })
    }

    fn slice(&mut self, n: usize) -> Answer<&'a [u8]> {
        match self.bytes[self.at..].get(..n) {
            Some(piece) => {
                self.at += n;
                Ok(piece)
            }
            None => self.refuse("Short"),
        }
    }

    fn array<const N: usize>(&mut self) -> Answer<[u8; N]> {
        match self.bytes[self.at..].first_chunk() {
            Some(piece) => {
                self.at += N;
                Ok(*piece)
            }
            None => self.refuse("Short"),
        }
    }

    fn byte(&mut self) -> Answer<u8> {
        Ok(self.array::<1>()?[0])
    }

    fn varint(&mut self) -> Answer<u32> {
        let mut value = 0u64;
        for (k, byte) in self.bytes[self.at..].iter().take(5).enumerate() {
            value |= u64::from(byte & 127) << (7 * k);
            if *byte < 128 {
                let Ok(value) = u32::try_from(value) else { return self.refuse("Long") };
                self.at += k + 1;
                return Ok(value);
            }
        }
        self.refuse(if self.bytes.len() - self.at < 5 { "Short" } else { "Long" })
    }

    /// An item that passes a test, else it is refused at its place.
    fn tested<T>(&mut self, why: &'static str, item: impl Fn(&mut Self) -> Answer<T>, passes: impl Fn(&T) -> bool) -> Answer<T> {
        let at = self.at;
        let value = item(self)?;
        if passes(&value) { Ok(value) } else { Err(Refusal { why, at }) }
    }

    fn symbols(&mut self, n: usize, comps: usize) -> Answer<Vec<u32>> {
        let at = self.at;
        blocks::read_symbols(self.bytes, &mut self.at, n, comps).ok_or(Refusal { why: "Block", at })
    }
}

/// Faces of packed indices.
fn read_packed(c: &mut Cursor, count: usize, points: usize) -> Answer<Vec<[u32; 3]>> {
    let outside = Refusal { why: "IndexRange", at: c.at };
    let symbols = c.symbols(3 * count, 1)?;
    let mut faces = Vec::with_capacity(count);
    let mut last = 0i64;
    for face in symbols.as_chunks::<3>().0 {
        let mut indices = [0; 3];
        for (index, s) in indices.iter_mut().zip(face) {
            let size = i64::from(s >> 1);
            last += if s & 1 == 1 { -size } else { size };
            if last < 0 || last >= points as i64 {
                return Err(outside);
            }
            *index = last as u32;
        }
        faces.push(indices);
    }
    Ok(faces)
}

/// Faces of indices that are each read by itself.
fn read_each(c: &mut Cursor, count: usize, points: usize, index: impl Fn(&mut Cursor) -> Answer<u32>) -> Answer<Vec<[u32; 3]>> {
    let mut faces = Vec::new();
    for _ in 0..count {
        let mut indices = [0; 3];
        for i in &mut indices {
            *i = c.tested("IndexRange", &index, |i| (*i as usize) < points)?;
        }
        faces.push(indices);
    }
    Ok(faces)
}

/// Faces, and the number of points.
fn read_faces(c: &mut Cursor) -> Answer<(Vec<[u32; 3]>, usize)> {
    let count = c.tested("FaceLimit", Cursor::varint, |n| *n as usize <= MAX_FACES)? as usize;
    let points = c.tested("PointLimit", Cursor::varint, |n| *n as usize <= MAX_POINTS)? as usize;
    let method = c.tested("IndexMethod", Cursor::byte, |m| *m < 2)?;
    let faces = match (method, index_size(points)) {
        (0, _) => read_packed(c, count, points)?,
        (_, None) => read_each(c, count, points, |c| c.varint())?,
        (_, Some(1)) => read_each(c, count, points, |c| Ok(c.byte()?.into()))?,
        (_, Some(2)) => read_each(c, count, points, |c| Ok(u16::from_le_bytes(c.array()?).into()))?,
        (_, _) => read_each(c, count, points, |c| Ok(u32::from_le_bytes(c.array()?)))?,
    };
    Ok((faces, points))
}

fn read_head(c: &mut Cursor) -> Answer<Head> {
    Ok(Head {
        usage: c.tested("AttrType", Cursor::byte, |u| *u < 5)?,
        dtype: c.tested("DataType", Cursor::byte, |t| (1..7).contains(t))?,
        comps: c.tested("Components", Cursor::byte, |n| (1..=MAX_COMPONENTS).contains(n))?,
        normalized: c.byte()?,
        id: c.varint()?,
    })
}

/// The heads of each decoder.
fn read_heads(c: &mut Cursor) -> Answer<Vec<Head>> {
    let decoders = c.tested("NoAttribute", Cursor::byte, |n| (1..17).contains(n))?;
    let mut heads: Vec<Head> = Vec::new();
    for _ in 0..decoders {
        let before = heads.len();
        let room = MAX_ATTRIBUTES - before;
        let count = c.tested("AttrLimit", Cursor::varint, |n| (1..=room).contains(&(*n as usize)))?;
        for _ in 0..count {
            heads.push(read_head(c)?);
        }
        for _ in &heads[before..] {
            c.tested("Coding", Cursor::byte, |k| *k == 1)?;
        }
    }
    Ok(heads)
}

/// Integers of zigzag symbols of so many bytes.
fn integers<const N: usize>(bytes: &[u8]) -> Vec<i32> {
    let word = |piece: &[u8; N]| {
        let mut word = [0; 4];
        word[..N].copy_from_slice(piece);
        signed(u32::from_le_bytes(word))
    };
    bytes.as_chunks().0.iter().map(word).collect()
}

fn read_plain(c: &mut Cursor, n: usize) -> Answer<Vec<i32>> {
    let size = c.tested("ByteWidth", Cursor::byte, |w| (1..5).contains(w))? as usize;
    let left = c.bytes.len() - c.at;
    if left < n * size {
        c.at += left / size * size;
        return c.refuse("Short");
    }
    let bytes = c.slice(n * size)?;
    Ok(match size {
        1 => integers::<1>(bytes),
        2 => integers::<2>(bytes),
        3 => integers::<3>(bytes),
        _ => integers::<4>(bytes),
    })
}

fn read_integers(c: &mut Cursor, n: usize, comps: usize) -> Answer<Vec<i32>> {
    if c.byte()? == 0 {
        return read_plain(c, n);
    }
    Ok(c.symbols(n, comps)?.into_iter().map(signed).collect())
}

/// Turns corrections into values, in place.
fn restore(values: &mut [i32], comps: usize, wrap: &Wrap) {
    for v in values.iter_mut().take(comps) {
        *v = wrap.restored(0, *v);
    }
    for i in comps..values.len() {
        values[i] = wrap.restored(values[i - comps], values[i]);
    }
}

fn read_values(c: &mut Cursor, h: &Head, points: usize, spent: usize) -> Answer<Vec<i32>> {
    let place = c.at;
    let comps = usize::from(h.comps);
    let n = points * comps;
    if spent + n > MAX_VALUES {
        return c.refuse("ValueLimit");
    }
    let prediction = c.tested("Prediction", Cursor::byte, |p| *p == 0 || *p == 254)?;
    let values = if prediction == 254 {
        read_integers(c, n, comps)?
    } else {
        c.tested("Transform", Cursor::byte, |t| *t == 1)?;
        let mut values = read_integers(c, n, comps)?;
        let at = c.at;
        let low = i32::from_le_bytes(c.array()?);
        let high = i32::from_le_bytes(c.array()?);
        let wrap = Wrap::new(low, high).ok_or(Refusal { why: "WrapRange", at })?;
        restore(&mut values, comps, &wrap);
        values
    };
    let (least, greatest) = range_of_type(h.dtype);
    if values.iter().any(|v| *v < least || *v > greatest) {
        return Err(Refusal { why: "ValueRange", at: place });
    }
    Ok(values)
}

/// The integers of all columns, point after point.
fn interleaved(heads: &[Head], columns: &[Vec<i32>], count: usize) -> Vec<i32> {
    let mut points = Vec::with_capacity(columns.iter().map(Vec::len).sum());
    for i in 0..count {
        for (h, column) in heads.iter().zip(columns) {
            let comps = usize::from(h.comps);
            points.extend_from_slice(&column[i * comps..(i + 1) * comps]);
        }
    }
    points
}

fn read_header(c: &mut Cursor) -> Answer<bool> {
    if c.slice(5)? != b"DRACO" {
        return Err(Refusal { why: "Magic", at: 0 });
    }
    match c.array::<6>()? {
        [2, 2, 1, 0, 0, 0] => Ok(true),
        [2, 3, 0, 0, 0, 0] => Ok(false),
        _ => Err(Refusal { why: "Version", at: 5 }),
    }
}

/// The geometry of a stream.
pub fn decode(bytes: &[u8]) -> Answer<Geometry> {
    let mut c = Cursor { bytes, at: 0 };
    let (faces, count) = if read_header(&mut c)? {
        let (faces, count) = read_faces(&mut c)?;
        (Some(faces), count)
    } else {
        let word = |c: &mut Cursor| Ok(u32::from_le_bytes(c.array()?));
        (None, c.tested("PointLimit", word, |n| *n as usize <= MAX_POINTS)? as usize)
    };
    let heads = read_heads(&mut c)?;
    let mut columns = Vec::new();
    let mut spent = 0;
    for h in &heads {
        let values = read_values(&mut c, h, count, spent)?;
        spent += values.len();
        columns.push(values);
    }
    let points = interleaved(&heads, &columns, count);
    Ok(Geometry { heads, points, faces })
}
