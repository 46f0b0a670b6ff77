//! The machine of reverse decoding in good safe Rust, which rebuilds a surface by the links of its boundary, with the degree kept at each
//! free side.
#[path = "surfaces.rs"]
mod surfaces;

pub use surfaces::*;

/// The machine of reverse decoding, by links of the boundary, with the degree kept at each free side.
pub struct Machine {
    pub across: Vec<u32>,
    pub after: Vec<u32>,
    pub before: Vec<u32>,
    pub degrees: Vec<u32>,
    pub stack: Vec<u32>,
    pub kept: Vec<u32>,
    pub events: Vec<Event>,
    pub faces: u32,
}

impl Machine {
    pub fn new(symbols: usize, events: &[Event]) -> Machine {
        Machine::with_room(symbols, symbols, events)
    }

    /// A machine with room for so many faces.
    pub fn with_room(faces: usize, symbols: usize, events: &[Event]) -> Machine {
        let sides = 3 * faces;
        Machine {
            across: vec![NONE; sides],
            after: vec![0; sides],
            before: vec![0; sides],
            degrees: vec![0; sides],
            stack: Vec::new(),
            kept: vec![NONE; symbols],
            events: events.to_vec(),
            faces: 0,
        }
    }

    fn join(&mut self, x: u32, y: u32) {
        self.after[x as usize] = y;
        self.before[y as usize] = x;
    }

    fn add_face(&mut self) -> u32 {
        let face = 3 * self.faces;
        self.faces += 1;
        self.join(face, face + 1);
        self.join(face + 1, face + 2);
        self.join(face + 2, face);
        face
    }

    fn glue(&mut self, a: u32, b: u32) {
        let (next_a, next_b) = (self.after[a as usize], self.after[b as usize]);
        let (previous_a, previous_b) = (self.before[a as usize], self.before[b as usize]);
        if next_a == a {
            if next_b != b {
                self.join(previous_b, next_b);
            }
        } else if next_b == b {
            self.join(previous_a, next_a);
        } else {
            self.join(previous_a, next_b);
            self.join(previous_b, next_a);
        }
        self.across[a as usize] = b;
        self.across[b as usize] = a;
    }

    /// A face more, which fills the loop of three sides.
    pub fn fill(&mut self, a: u32, b: u32, c: u32) {
        let face = self.add_face();
        self.glue(face, a);
        self.glue(face + 1, b);
        self.glue(face + 2, c);
    }

    pub fn top(&mut self) -> Option<u32> {
        let side = self.stack.pop()?;
        (self.across[side as usize] == NONE).then_some(side)
    }

    fn note_events(&mut self, face: u32) -> Option<()> {
        let symbols = self.kept.len() as u32;
        let due = symbols - 1 - face / 3;
        while let Some(event) = self.events.last() {
            if event.source < due {
                break;
            }
            let split = (symbols - 1 - event.split) as usize;
            if event.source > due || self.kept[split] != NONE {
                return None;
            }
            self.kept[split] = face + if event.right { 1 } else { 2 };
            self.events.pop();
        }
        Some(())
    }

    /// Takes a symbol; None where it has a fault.
    pub fn take(&mut self, symbol: Symbol) -> Option<()> {
        match symbol {
            Symbol::E => {
                let face = self.add_face();
                self.degrees[face as usize..face as usize + 3].fill(2);
                self.stack.push(face);
                self.note_events(face)
            }
            Symbol::R | Symbol::L => {
                let top = self.top()?;
                let next = self.after[top as usize];
                let face = self.add_face();
                let (k, free) = if symbol == Symbol::R { (2, 0) } else { (1, 2) };
                self.glue(face + k, top);
                self.degrees[next as usize] += 1;
                self.degrees[(face + free) as usize] = self.degrees[top as usize] + 1;
                self.degrees[(face + 3 - k - free) as usize] = 2;
                self.stack.push(face);
                self.note_events(face)
            }
            Symbol::C => {
                let top = self.top()?;
                let before = self.before[top as usize];
                if before == top {
                    return None;
                }
                let next = self.after[top as usize];
                let face = self.add_face();
                self.glue(face + 1, top);
                self.glue(face + 2, before);
                self.degrees[next as usize] += 1;
                self.degrees[face as usize] = self.degrees[before as usize] + 1;
                self.stack.push(face);
                Some(())
            }
            Symbol::S => {
                let top = self.top()?;
                let kept = std::mem::replace(&mut self.kept[self.faces as usize], NONE);
                if kept != NONE {
                    self.stack.push(kept);
                }
                let second = self.top()?;
                if second == top || self.before[top as usize] == second {
                    return None;
                }
                let (next_top, next_second) = (self.after[top as usize], self.after[second as usize]);
                let face = self.add_face();
                self.glue(face + 2, second);
                self.glue(face + 1, top);
                self.degrees[next_top as usize] += 1;
                self.degrees[next_second as usize] += self.degrees[top as usize];
                self.degrees[face as usize] = self.degrees[second as usize] + 1;
                self.stack.push(face);
                Some(())
            }
        }
    }

    /// The context of the next symbol.
    pub fn context(&self) -> usize {
        let degree = self.stack.last().map_or(0, |side| self.degrees[*side as usize]);
        degree.clamp(2, 7) as usize - 2
    }
}
