//! Point clouds as a kd-tree in good safe Rust, for positions of three integers: the file of a cloud, and the cloud of a file.
//! Keys are numbers of 128 bits, and std sorts them.
use crate::bit_blocks::{Block, write_block};
use crate::blocks::{get, get_varint, varint};
use crate::limits::limit;

/// The most points of a file.
const MAX_POINTS: u64 = limit("MAX_KD_POINTS") as u64;

/// The least value of a component, and how many bits its offsets have.
#[derive(Clone, Copy)]
struct Extent {
    least: i32,
    bits: u8,
}

/// One bit of one component.
#[derive(Clone, Copy)]
struct Axis {
    component: usize,
    bit: u32,
}

fn digits(v: u32) -> u32 {
    32 - v.leading_zeros()
}

fn extents_of(points: &[[i32; 3]]) -> [Extent; 3] {
    [0, 1, 2].map(|k| {
        let (least, most) = points.iter().fold((i32::MAX, i32::MIN), |(least, most), p| (least.min(p[k]), most.max(p[k])));
        Extent { least, bits: digits(most.wrapping_sub(least) as u32) as u8 }
    })
}

/// The axes: again and again the component with the most bits left gives its highest one. They are at most 96.
fn axes_of(extents: &[Extent; 3]) -> Vec<Axis> {
    let mut left = extents.map(|e| u32::from(e.bits));
    let mut axes = Vec::new();
    while left.iter().any(|n| *n > 0) {
        let most = left.iter().copied().max().unwrap();
        let component = left.iter().position(|n| *n == most).unwrap();
        left[component] -= 1;
        axes.push(Axis { component, bit: left[component] });
    }
    axes
}

fn key_of(point: &[i32; 3], extents: &[Extent; 3], axes: &[Axis]) -> u128 {
    let mut offsets = [0; 3];
    for k in 0..3 {
        offsets[k] = point[k].wrapping_sub(extents[k].least) as u32;
    }
    axes.iter().fold(0, |key, axis| key << 1 | u128::from(offsets[axis.component] >> axis.bit & 1))
}

fn point_of(key: u128, extents: &[Extent; 3], axes: &[Axis]) -> [i32; 3] {
    let mut offsets = [0u32; 3];
    for (k, axis) in axes.iter().rev().enumerate() {
        offsets[axis.component] |= ((key >> k & 1) as u32) << axis.bit;
    }
    [0, 1, 2].map(|k| (i64::from(extents[k].least) + i64::from(offsets[k])) as i32)
}

/// The keys of points by key, then by number.
fn sorted(points: &[[i32; 3]], extents: &[Extent; 3], axes: &[Axis]) -> Vec<(u128, u32)> {
    let mut keys: Vec<(u128, u32)> = points.iter().zip(0..).map(|(p, number)| (key_of(p, extents, axes), number)).collect();
    keys.sort_unstable();
    keys
}

fn put_bits(out: &mut Vec<bool>, number: u128, count: u32) {
    out.extend((0..count).rev().map(|k| number >> k & 1 == 1));
}

/// The split bits and the rest bits of a tree.
fn write_tree(keys: &[(u128, u32)], depth: u32) -> (Vec<bool>, Vec<bool>) {
    let (mut split, mut rest) = (Vec::new(), Vec::new());
    let mut boxes = vec![(keys, depth)];
    while let Some((keys, left)) = boxes.pop() {
        if left == 0 || keys.is_empty() {
            continue;
        }
        if let [key] = keys {
            put_bits(&mut rest, key.0, left);
            continue;
        }
        let (low, high) = keys.split_at(keys.partition_point(|key| key.0 >> (left - 1) & 1 == 0));
        put_bits(&mut split, low.len() as u128, digits(keys.len() as u32));
        boxes.push((high, left - 1));
        boxes.push((low, left - 1));
    }
    (split, rest)
}

/// The file of points, and the number of each point of the file.
pub fn encode(points: &[[i32; 3]]) -> (Vec<u8>, Vec<u32>) {
    let extents = extents_of(points);
    let axes = axes_of(&extents);
    let keys = sorted(points, &extents, &axes);
    let (split, rest) = write_tree(&keys, axes.len() as u32);
    let order = keys.iter().map(|key| key.1).collect();
    drop(keys);
    let mut out = b"KDPTS\x01\x01\x00\x05\x03\x00\x00".to_vec();
    varint(&mut out, points.len() as u64);
    for extent in extents {
        out.extend_from_slice(&extent.least.to_le_bytes());
        out.push(extent.bits);
    }
    write_block(&mut out, &split);
    write_block(&mut out, &rest);
    (out, order)
}

fn number(block: &mut Block, count: u32) -> u128 {
    (0..count).fold(0, |n, _| n << 1 | u128::from(block.next()))
}

/// The keys of a tree, or none where more keys lie in a lower box than in the box itself.
fn read_tree(split: &mut Block, rest: &mut Block, count: u32, depth: u32) -> Option<Vec<u128>> {
    let mut keys = Vec::new();
    let mut boxes = vec![(count, 0u128, depth)];
    while let Some((count, path, left)) = boxes.pop() {
        if count == 1 {
            keys.push(path.unbounded_shl(left) | number(rest, left));
        } else if left == 0 {
            keys.extend((0..count).map(|_| path));
        } else if count > 1 {
            let low = number(split, digits(count)) as u32;
            boxes.push((count.checked_sub(low)?, path << 1 | 1, left - 1));
            boxes.push((low, path << 1, left - 1));
        }
    }
    Some(keys)
}

/// The points of a file.
pub fn decode(bytes: &[u8]) -> Option<Vec<[i32; 3]>> {
    let mut at = 12;
    if bytes.get(..at)? != b"KDPTS\x01\x01\x00\x05\x03\x00\x00" {
        return None;
    }
    let count = get_varint(bytes, &mut at)?;
    if count == 0 || count > MAX_POINTS {
        return None;
    }
    let mut extents = [Extent { least: 0, bits: 0 }; 3];
    for extent in &mut extents {
        extent.least = i32::from_le_bytes(bytes.get(at..at + 4)?.try_into().unwrap());
        at += 4;
        extent.bits = get(bytes, &mut at)?;
        if extent.bits > 32 {
            return None;
        }
    }
    let axes = axes_of(&extents);
    let mut split = Block::read(bytes, &mut at)?;
    let mut rest = Block::read(bytes, &mut at)?;
    let keys = read_tree(&mut split, &mut rest, count as u32, axes.len() as u32)?;
    Some(keys.iter().map(|key| point_of(*key, &extents, &axes)).collect())
}
