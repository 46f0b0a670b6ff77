//! Surfaces of large grids, with the labels of their vertices, and the walk over them, in good safe Rust. A surface is a flat list that has
//! the number of the side across each side 3f + k.

pub const FACES: u32 = 0x8_0000;
pub const NONE: u32 = u32::MAX;

/// The corner after one in its face.
pub fn next(corner: u32) -> u32 {
    if corner % 3 == 2 { corner - 2 } else { corner + 1 }
}

/// The corner before one in its face.
pub fn previous(corner: u32) -> u32 {
    if corner % 3 == 0 { corner + 2 } else { corner - 1 }
}

/// The faces of a grid of 512 by 512 cells, or of one whose rows and columns close round.
pub fn faces(closed: bool) -> Vec<[u32; 3]> {
    let points = if closed { 512 } else { 513 };
    let point = |x: u32, y: u32| y % points * points + x % points;
    (0..FACES)
        .map(|f| {
            let (x, y) = (f / 2 % 512, f / 2 / 512);
            if f % 2 == 0 {
                [point(x, y), point(x + 1, y), point(x + 1, y + 1)]
            } else {
                [point(x, y), point(x + 1, y + 1), point(x, y + 1)]
            }
        })
        .collect()
}

/// For each side the number of the side across.
pub fn glued(faces: &[[u32; 3]]) -> Vec<u32> {
    let mut known = std::collections::HashMap::new();
    let mut across = vec![NONE; 3 * faces.len()];
    for (f, face) in faces.iter().enumerate() {
        for k in 0..3 {
            let (start, end, side) = (face[(k + 1) % 3], face[(k + 2) % 3], (3 * f + k) as u32);
            if let Some(other) = known.remove(&(end, start)) {
                across[side as usize] = other;
                across[other as usize] = side;
            } else {
                known.insert((start, end), side);
            }
        }
    }
    across
}

/// The vertex of each corner, and of each vertex whether it meets a boundary.
pub fn label(across: &[u32]) -> (Vec<u32>, Vec<bool>) {
    let mut labels = vec![NONE; across.len()];
    let mut ends = Vec::new();
    for corner in 0..across.len() as u32 {
        if labels[corner as usize] != NONE {
            continue;
        }
        let vertex = ends.len() as u32;
        labels[corner as usize] = vertex;
        let mut open = false;
        let mut at = corner;
        loop {
            let side = across[next(at) as usize];
            if side == NONE {
                open = true;
                break;
            }
            at = next(side);
            if at == corner {
                break;
            }
            labels[at as usize] = vertex;
        }
        at = corner;
        while open {
            let side = across[previous(at) as usize];
            if side == NONE {
                break;
            }
            at = previous(side);
            labels[at as usize] = vertex;
        }
        ends.push(open);
    }
    (labels, ends)
}

#[derive(Clone, Copy, PartialEq)]
pub enum Symbol {
    C,
    S,
    L,
    R,
    E,
}

#[derive(Clone, Copy)]
pub struct Event {
    pub source: u32,
    pub split: u32,
    pub right: bool,
}

#[allow(dead_code)]
pub struct Traced {
    pub symbols: Vec<Symbol>,
    pub events: Vec<Event>,
    pub starts: Vec<bool>,
    pub order: Vec<(u32, u8)>,
    pub vertices: u32,
}

struct Walk<'a> {
    across: &'a [u32],
    labels: Vec<u32>,
    ends: Vec<bool>,
    visited: Vec<bool>,
    met: Vec<bool>,
    splits: Vec<u32>,
    symbols: Vec<Symbol>,
    corners: Vec<u32>,
    kept: Vec<u32>,
    interior: Vec<u32>,
    events: Vec<Event>,
    starts: Vec<bool>,
}

impl Walk<'_> {
    fn start_corner(&self, face: u32) -> Option<u32> {
        for corner in 3 * face..3 * face + 3 {
            if self.across[corner as usize] == NONE {
                return Some(corner);
            }
            if self.ends[self.labels[corner as usize] as usize] {
                let mut at = corner;
                loop {
                    let side = self.across[previous(at) as usize];
                    if side == NONE {
                        return Some(previous(at));
                    }
                    at = previous(side);
                }
            }
        }
        None
    }

    fn mark(&mut self, face: u32) {
        for corner in 3 * face..3 * face + 3 {
            self.met[self.labels[corner as usize] as usize] = true;
        }
        self.visited[face as usize] = true;
    }

    fn is_closed(&self, side: u32) -> bool {
        side == NONE || self.visited[side as usize / 3]
    }

    fn note(&mut self, side: u32, right: bool) {
        if side != NONE {
            let split = self.splits[side as usize / 3];
            if split != NONE {
                let source = self.corners.len() as u32;
                self.events.push(Event { source, split, right });
            }
        }
    }

    /// The symbol of the face of a corner, between the sides to the right and to the left.
    fn symbol(&self, corner: u32, right: u32, left: u32) -> Symbol {
        if !self.met[self.labels[corner as usize] as usize] {
            return Symbol::C;
        }
        match (self.is_closed(right), self.is_closed(left)) {
            (false, false) => Symbol::S,
            (false, true) => Symbol::L,
            (true, false) => Symbol::R,
            (true, true) => Symbol::E,
        }
    }

    /// The last kept corner of an unvisited face.
    fn take_kept(&mut self) -> Option<u32> {
        while let Some(corner) = self.kept.pop() {
            if !self.visited[corner as usize / 3] {
                return Some(corner);
            }
        }
        None
    }

    fn run(&mut self, start: u32) {
        let mut at = start;
        loop {
            let right = self.across[next(at) as usize];
            let left = self.across[previous(at) as usize];
            let symbol = self.symbol(at, right, left);
            match symbol {
                Symbol::C => {}
                Symbol::S => {
                    self.splits[at as usize / 3] = self.corners.len() as u32;
                    self.kept.push(left);
                }
                _ => {
                    self.note(right, true);
                    self.note(left, false);
                }
            }
            self.mark(at / 3);
            self.corners.push(at);
            self.symbols.push(symbol);
            at = match symbol {
                Symbol::R => left,
                Symbol::E => match self.take_kept() {
                    Some(corner) => corner,
                    None => return,
                },
                _ => right,
            };
        }
    }

    fn begin(&mut self, face: u32) {
        if let Some(corner) = self.start_corner(face) {
            self.starts.push(false);
            self.run(corner);
        } else {
            self.starts.push(true);
            self.interior.push(face);
            self.mark(face);
            self.run(self.across[3 * face as usize + 1]);
        }
    }
}

pub fn trace(across: &[u32]) -> Traced {
    let faces = across.len() / 3;
    let (labels, ends) = label(across);
    let vertices = ends.len() as u32;
    let mut walk = Walk {
        across,
        met: ends.clone(),
        labels,
        ends,
        visited: vec![false; faces],
        splits: vec![NONE; faces],
        symbols: Vec::with_capacity(faces),
        corners: Vec::with_capacity(faces),
        kept: Vec::new(),
        interior: Vec::new(),
        events: Vec::new(),
        starts: Vec::new(),
    };
    for face in 0..faces {
        if !walk.visited[face] {
            walk.begin(face as u32);
        }
    }
    let corners = walk.corners.iter().rev().map(|c| (c / 3, (c % 3) as u8));
    let order = corners.chain(walk.interior.iter().map(|f| (*f, 1))).collect();
    Traced { symbols: walk.symbols, events: walk.events, starts: walk.starts, order, vertices }
}
