//! The orders of entries of a surface in good safe Rust, beside the proved program of `walk_order.txt`: depth first and by
//! prediction degree, on a grid of 524,288 faces, on one that closes round to a torus, and on one fan of as many faces. A
//! surface is a flat list that has the number of the side across each side 3f + k. The vertices are labelled before. Times are
//! a face.
use std::time::Instant;

const FACES: u32 = 0x8_0000;
const NONE: u32 = u32::MAX;

/// The corner after one in its face.
fn next(corner: u32) -> u32 {
    if corner % 3 == 2 { corner - 2 } else { corner + 1 }
}

/// The corner before one in its face.
fn previous(corner: u32) -> u32 {
    if corner % 3 == 0 { corner + 2 } else { corner - 1 }
}

/// A surface of which no side is glued.
fn unglued() -> Vec<u32> {
    vec![NONE; 3 * FACES as usize]
}

fn glue(across: &mut [u32], a: u32, b: u32) {
    across[a as usize] = b;
    across[b as usize] = a;
}

/// A grid of 512 by 512 cells, or one whose rows and columns close round. Of the two faces of a cell one lies below its
/// diagonal, and one above it.
fn grid(closed: bool) -> Vec<u32> {
    let mut across = unglued();
    let cell = |x: u32, y: u32| (y % 512 * 512 + x % 512) * 2;
    for y in 0..512 {
        for x in 0..512 {
            let (lower, upper) = (cell(x, y), cell(x, y) + 1);
            glue(&mut across, 3 * lower + 1, 3 * upper + 2);
            if closed || x < 511 {
                glue(&mut across, 3 * lower, 3 * (cell(x + 1, y) + 1) + 1);
            }
            if closed || y < 511 {
                glue(&mut across, 3 * upper, 3 * cell(x, y + 1) + 2);
            }
        }
    }
    across
}

/// The faces round one vertex.
fn fan() -> Vec<u32> {
    let mut across = unglued();
    for f in 1..FACES {
        glue(&mut across, 3 * (f - 1) + 1, 3 * f + 2);
    }
    across
}

/// The vertex of each corner, and of each vertex whether it meets a boundary.
fn label(across: &[u32]) -> (Vec<u32>, Vec<bool>) {
    let mut labels = vec![NONE; across.len()];
    let mut ends = Vec::new();
    for corner in 0..across.len() as u32 {
        if labels[corner as usize] != NONE {
            continue;
        }
        let vertex = ends.len() as u32;
        labels[corner as usize] = vertex;
        let mut open = false;
        let mut at = corner;
        loop {
            let side = across[next(at) as usize];
            if side == NONE {
                open = true;
                break;
            }
            at = next(side);
            if at == corner {
                break;
            }
            labels[at as usize] = vertex;
        }
        at = corner;
        while open {
            let side = across[previous(at) as usize];
            if side == NONE {
                break;
            }
            at = previous(side);
            labels[at as usize] = vertex;
        }
        ends.push(open);
    }
    (labels, ends)
}

/// Kept for a class without an entry.
const NEW: u32 = u32::MAX;

/// Kept for a class without an entry that meets a boundary.
const NEW_AT_END: u32 = u32::MAX - 1;

/// The entries of the face across from an entry; of none where there is no such face.
#[derive(Clone, Copy)]
struct Face {
    across: u32,
    after: u32,
    before: u32,
}

const NO_FACE: Face = Face { across: NONE, after: NONE, before: NONE };

struct Marks<'a> {
    across: &'a [u32],
    labels: &'a [u32],
    visited: Vec<bool>,
    entries: Vec<u32>,
    entry_of_class: Vec<u32>,
    faces: Vec<Face>,
}

impl Marks<'_> {
    fn new<'a>(across: &'a [u32], labels: &'a [u32], ends: &[bool]) -> Marks<'a> {
        Marks {
            across,
            labels,
            visited: vec![false; across.len() / 3],
            entries: Vec::with_capacity(ends.len()),
            entry_of_class: ends.iter().map(|end| if *end { NEW_AT_END } else { NEW }).collect(),
            faces: Vec::with_capacity(ends.len()),
        }
    }

    /// The face across the side of a corner, where there is one whose classes all have entries.
    fn face_across(&self, corner: u32) -> Face {
        let found = self.across[corner as usize];
        if found == NONE {
            return NO_FACE;
        }
        let entry = |corner: u32| self.entry_of_class[self.labels[corner as usize] as usize];
        let (across, after, before) = (entry(found), entry(next(found)), entry(previous(found)));
        if across.max(after).max(before) < NEW_AT_END { Face { across, after, before } } else { NO_FACE }
    }

    /// A corner becomes the next entry, if its class is new; what was kept for the class.
    fn add_entry(&mut self, corner: u32) -> u32 {
        let class = self.labels[corner as usize] as usize;
        let kept = self.entry_of_class[class];
        if kept >= NEW_AT_END {
            let face = self.face_across(corner);
            self.entry_of_class[class] = self.entries.len() as u32;
            self.entries.push(corner);
            self.faces.push(face);
        }
        kept
    }

    fn enter(&mut self, corner: u32) -> bool {
        let kept = self.add_entry(corner);
        self.visited[corner as usize / 3] = true;
        kept == NEW
    }

    fn is_visited(&self, corner: u32) -> bool {
        self.visited[corner as usize / 3]
    }

    fn order(self) -> Order {
        Order { corner_of_entry: self.entries, entry_of_class: self.entry_of_class, faces_across: self.faces }
    }
}

struct Order {
    corner_of_entry: Vec<u32>,
    entry_of_class: Vec<u32>,
    faces_across: Vec<Face>,
}

fn depth_first(across: &[u32], labels: &[u32], ends: &[bool]) -> Order {
    let mut marks = Marks::new(across, labels, ends);
    let mut stack = Vec::new();
    for face in 0..across.len() as u32 / 3 {
        if marks.is_visited(3 * face) {
            continue;
        }
        marks.add_entry(3 * face + 1);
        marks.add_entry(3 * face + 2);
        let mut at = 3 * face;
        loop {
            if !marks.is_visited(at) {
                let alone = marks.enter(at);
                if !alone {
                    let left = across[previous(at) as usize];
                    if left != NONE {
                        stack.push(left);
                    }
                }
                let right = across[next(at) as usize];
                if right != NONE {
                    at = right;
                    continue;
                }
            }
            match stack.pop() {
                Some(last) => at = last,
                None => break,
            }
        }
    }
    marks.order()
}

struct Ranks<'a> {
    marks: Marks<'a>,
    rated: Vec<bool>,
    stacks: [Vec<u32>; 3],
    best: u8,
}

impl Ranks<'_> {
    fn rate(&mut self, corner: u32) -> u8 {
        let class = self.marks.labels[corner as usize] as usize;
        if self.marks.entry_of_class[class] < NEW_AT_END {
            return 0;
        }
        let before = self.rated[class];
        self.rated[class] = true;
        if before { 1 } else { 2 }
    }

    fn push(&mut self, rate: u8, corner: u32) {
        self.stacks[rate as usize].push(corner);
        self.best = self.best.min(rate);
    }

    fn take(&mut self) -> Option<u32> {
        for rate in self.best..3 {
            self.best = rate;
            while let Some(corner) = self.stacks[rate as usize].pop() {
                if !self.marks.is_visited(corner) {
                    return Some(corner);
                }
            }
        }
        None
    }

    fn unvisited_across(&self, side: u32) -> Option<u32> {
        let found = self.marks.across[side as usize];
        if found == NONE || self.marks.is_visited(found) { None } else { Some(found) }
    }

    fn turn_to(&mut self, corner: Option<u32>) -> Option<u32> {
        if let Some(n) = corner {
            let rate = self.rate(n);
            if rate <= self.best {
                return Some(n);
            }
            self.push(rate, n);
        }
        self.take()
    }

    fn visit(&mut self, at: u32) -> Option<u32> {
        self.marks.enter(at);
        let left = self.unvisited_across(previous(at));
        let right = self.unvisited_across(next(at));
        match (left, right) {
            (Some(n), Some(_)) => {
                let rate = self.rate(n);
                self.push(rate, n);
                self.turn_to(right)
            }
            (Some(_), None) => self.turn_to(left),
            (None, _) => self.turn_to(right),
        }
    }
}

fn prediction_degree(across: &[u32], labels: &[u32], ends: &[bool]) -> Order {
    let marks = Marks::new(across, labels, ends);
    let stacks = [Vec::new(), Vec::new(), Vec::new()];
    let mut ranks = Ranks { marks, rated: vec![false; ends.len()], stacks, best: 0 };
    for face in 0..across.len() as u32 / 3 {
        if ranks.marks.is_visited(3 * face) {
            continue;
        }
        ranks.marks.add_entry(3 * face + 1);
        ranks.marks.add_entry(3 * face + 2);
        ranks.best = 0;
        let mut at = 3 * face;
        while let Some(corner) = ranks.visit(at) {
            at = corner;
        }
    }
    ranks.marks.order()
}

/// A number that distinguishes orders, by some of their corners, entries and faces.
fn sum(order: &Order) -> u32 {
    let mut sum = 0u32;
    for i in 0..500 {
        if let Some(corner) = order.corner_of_entry.get(500 * i) {
            sum = sum.wrapping_mul(31).wrapping_add(*corner);
        }
        if let Some(entry) = order.entry_of_class.get(500 * i) {
            sum = sum.wrapping_mul(31).wrapping_add(*entry);
        }
        if let Some(face) = order.faces_across.get(500 * i) {
            sum = sum.wrapping_mul(31).wrapping_add(face.across ^ face.after ^ face.before);
        }
    }
    sum
}

fn show(name: String, start: Instant, order: &Order) {
    let picos = start.elapsed().as_nanos() * 1000 / u128::from(FACES);
    println!("{name} {picos} ps an item, sum {}", sum(order));
}

fn main() {
    let surfaces = [("grid", grid(false)), ("torus", grid(true)), ("fan", fan())];
    for _ in 0..9 {
        for (name, across) in &surfaces {
            let (labels, ends) = label(across);
            let start = Instant::now();
            let order = depth_first(across, &labels, &ends);
            show(format!("{name}_depth_first"), start, &order);
            let start = Instant::now();
            let order = prediction_degree(across, &labels, &ends);
            show(format!("{name}_prediction_degree"), start, &order);
        }
    }
}
