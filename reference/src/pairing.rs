//! Draws and pairings (docs/RULES.md, "Draws" and "Pairings").

use crate::join::masks_join;
use crate::refusal::Refusal;

#[derive(Clone, PartialEq, Eq, Debug)]
pub struct Draws {
    state: u32,
}

impl Draws {
    pub fn new(seed: u32) -> Draws {
        Draws { state: if seed == 0 { 1 } else { seed } }
    }

    pub fn draw(&mut self) -> u32 {
        // 64 bits, so that dropping the bits above 32 is written out
        let mut s = self.state as u64;
        s = (s ^ (s << 13)) % (1 << 32);
        s = (s ^ (s >> 17)) % (1 << 32);
        s = (s ^ (s << 5)) % (1 << 32);
        self.state = s as u32;
        self.state
    }

    pub fn shuffle<T>(&mut self, row: &mut [T]) {
        let mut i = row.len();
        while i > 1 {
            i -= 1;
            let r = self.draw() as usize;
            row.swap(i, r % (i + 1));
        }
    }
}

pub trait Pairing {
    fn propose(&mut self, masks: &[u64], pairs: &mut [(u32, u32)]) -> Result<usize, Refusal>;
}

fn fits(masks: &[u64], pairs: &[(u32, u32)]) -> Result<(), Refusal> {
    if masks.len() > 64 || pairs.len() < masks.len() / 2 {
        return Err(Refusal::Row);
    }
    Ok(())
}

pub struct Greedy;

impl Pairing for Greedy {
    fn propose(&mut self, masks: &[u64], pairs: &mut [(u32, u32)]) -> Result<usize, Refusal> {
        fits(masks, pairs)?;
        let mut paired = vec![false; masks.len()];
        let mut count = 0;
        for i in 0..masks.len() {
            if paired[i] {
                continue;
            }
            for j in i + 1..masks.len() {
                if !paired[j] && masks_join(masks[i], masks[j]) {
                    paired[i] = true;
                    paired[j] = true;
                    pairs[count] = (i as u32, j as u32);
                    count += 1;
                    break;
                }
            }
        }
        Ok(count)
    }
}

pub struct SplitMesher {
    draws: Draws,
    shifts: u8,
}

impl SplitMesher {
    pub fn new(seed: u32, shifts: u8) -> SplitMesher {
        SplitMesher { draws: Draws::new(seed), shifts }
    }
}

impl Pairing for SplitMesher {
    fn propose(&mut self, masks: &[u64], pairs: &mut [(u32, u32)]) -> Result<usize, Refusal> {
        fits(masks, pairs)?;
        let mut places: Vec<usize> = (0..masks.len()).collect();
        self.draws.shuffle(&mut places);
        let h = masks.len() / 2;
        let left = &places[..h];
        let right = &places[h..2 * h];
        let mut paired = vec![false; masks.len()];
        let mut count = 0;
        for i in 0..self.shifts as usize {
            for j in 0..h {
                let a = left[j];
                let b = right[(j + i) % h];
                if !paired[a] && !paired[b] && masks_join(masks[a], masks[b]) {
                    paired[a] = true;
                    paired[b] = true;
                    pairs[count] = (a as u32, b as u32);
                    count += 1;
                }
            }
        }
        Ok(count)
    }
}
