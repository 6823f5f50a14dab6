//! Joining of elements and of rows (docs/RULES.md, "Joining").

use crate::refusal::Refusal;

pub trait Element: Copy + PartialEq {
    /// The result, or nothing if the two clash.
    fn join(self, other: Self) -> Option<Self>;
}

/// 64 slot bits.
#[derive(Clone, Copy, PartialEq, Eq, Debug)]
pub struct Word(pub u64);

impl Element for Word {
    fn join(self, other: Word) -> Option<Word> {
        for bit in 0..64 {
            if (self.0 >> bit) % 2 == 1 && (other.0 >> bit) % 2 == 1 {
                return None;
            }
        }
        Some(Word(self.0 | other.0))
    }
}

/// Empty, or full with one byte.
#[derive(Clone, Copy, PartialEq, Eq, Debug)]
pub enum Cell {
    Empty,
    Full(u8),
}

impl Element for Cell {
    fn join(self, other: Cell) -> Option<Cell> {
        match (self, other) {
            (Cell::Empty, b) => Some(b),
            (a, Cell::Empty) => Some(a),
            (Cell::Full(_), Cell::Full(_)) => None,
        }
    }
}

pub fn join_rows<E: Element>(first: &mut [E], second: &[E]) -> Result<(), Refusal> {
    if first.len() != second.len() {
        return Err(Refusal::Row);
    }
    let mut result = Vec::new();
    for place in 0..first.len() {
        match first[place].join(second[place]) {
            Some(element) => result.push(element),
            None => return Err(Refusal::Clash),
        }
    }
    first.copy_from_slice(&result);
    Ok(())
}

pub fn masks_join(a: u64, b: u64) -> bool {
    join_rows(&mut [Word(a)], &[Word(b)]).is_ok()
}
