//! The pool and its eight calls (docs/RULES.md, "The pool" and "The eight calls").

use crate::bank::{Bank, FRAME};
use crate::join::{join_rows, Cell, Word};
use crate::pairing::{Draws, Pairing};
use crate::refusal::Refusal;

pub const SPANS: usize = 128;
pub const LABELS: usize = 256;
pub const CLASSES: usize = 6;
pub const SLOT: [usize; CLASSES] = [16, 32, 64, 128, 256, 512];

#[derive(Clone, Copy, PartialEq, Eq, Debug)]
pub enum Span {
    Idle,
    Home(u32),
    Alias(u32),
}

#[derive(Clone, PartialEq, Eq, Debug)]
pub struct Row {
    pub class: usize,
    pub mask: u64,
    pub home: usize,
}

#[derive(Clone, PartialEq, Eq, Debug)]
pub struct Patch {
    pub span: usize,
    pub slot: usize,
    pub length: usize,
}

pub struct Pool<B: Bank, P: Pairing> {
    pub bank: B,
    pub pairing: P,
    pub draws: Draws,
    pub labels: Vec<Option<Patch>>,
    pub spans: Vec<Span>,
    pub rows: Vec<Option<Row>>,
}

/// The least class whose slot holds so many bytes.
pub fn class_of(length: usize) -> usize {
    for class in 0..CLASSES {
        if length <= SLOT[class] {
            return class;
        }
    }
    panic!("no class holds {} bytes", length)
}

pub fn slots_of(class: usize) -> usize {
    FRAME / SLOT[class]
}

pub fn occupied(mask: u64, slot: usize) -> bool {
    (mask >> slot) & 1 == 1
}

pub fn ones(mask: u64) -> usize {
    (0..64).filter(|s| occupied(mask, *s)).count()
}

impl<B: Bank, P: Pairing> Pool<B, P> {
    pub fn open(mut bank: B, pairing: P, seed: u32) -> Pool<B, P> {
        bank.reset();
        Pool {
            bank,
            pairing,
            draws: Draws::new(seed),
            labels: vec![None; LABELS],
            spans: vec![Span::Idle; SPANS],
            rows: vec![None; 64],
        }
    }

    pub fn frame_of_span(&self, span: usize) -> Option<u32> {
        match self.spans[span] {
            Span::Idle => None,
            Span::Home(frame) | Span::Alias(frame) => Some(frame),
        }
    }

    fn live(&self, label: u8) -> Result<Patch, Refusal> {
        self.labels[label as usize].clone().ok_or(Refusal::Absent)
    }

    /// Where a patch lies: its frame and the first byte of its slot there.
    fn lies(&self, patch: &Patch) -> (u32, u32) {
        let frame = self.frame_of_span(patch.span).expect("a live patch has a frame");
        (frame, (SLOT[class_of(patch.length)] * patch.slot) as u32)
    }

    fn address(patch: &Patch) -> u32 {
        (FRAME * patch.span + SLOT[class_of(patch.length)] * patch.slot) as u32
    }

    fn serving_frame(&self, class: usize) -> Option<usize> {
        let mut best: Option<(usize, usize)> = None;
        for frame in 0..self.rows.len() {
            if let Some(row) = &self.rows[frame] {
                let held = ones(row.mask);
                if row.class == class && held < slots_of(class) {
                    let better = match best {
                        None => true,
                        Some((_, most)) => held > most,
                    };
                    if better {
                        best = Some((frame, held));
                    }
                }
            }
        }
        best.map(|(frame, _)| frame)
    }

    pub fn new(&mut self, label: u8, length: u32) -> Result<(u32, u32), Refusal> {
        if length == 0 || length > 512 {
            return Err(Refusal::Size);
        }
        if self.labels[label as usize].is_some() {
            return Err(Refusal::Taken);
        }
        let length = length as usize;
        let class = class_of(length);
        let mut opened = 0;
        let frame = match self.serving_frame(class) {
            Some(frame) => frame,
            None => {
                let idle = (0..SPANS).find(|s| self.spans[*s] == Span::Idle);
                let span = idle.ok_or(Refusal::Spans)?;
                let frame = self.bank.grant()?;
                self.spans[span] = Span::Home(frame);
                self.rows[frame as usize] = Some(Row { class, mask: 0, home: span });
                opened = 1;
                frame as usize
            }
        };
        let r = self.draws.draw() as usize;
        let row = self.rows[frame].as_mut().expect("the serving frame has a row");
        let free: Vec<usize> = (0..slots_of(class)).filter(|s| !occupied(row.mask, *s)).collect();
        let slot = free[r % free.len()];
        row.mask |= 1 << slot;
        let patch = Patch { span: row.home, slot, length };
        let address = Self::address(&patch);
        self.labels[label as usize] = Some(patch);
        Ok((address, opened))
    }

    pub fn write(&mut self, label: u8, offset: u32, bytes: &[u8]) -> Result<u32, Refusal> {
        let patch = self.live(label)?;
        if offset as u64 + bytes.len() as u64 > patch.length as u64 {
            return Err(Refusal::Past);
        }
        let (frame, start) = self.lies(&patch);
        self.bank.write(frame, start + offset, bytes)?;
        Ok(bytes.len() as u32)
    }

    pub fn read(&self, label: u8, offset: u32, buffer: &mut [u8]) -> Result<(), Refusal> {
        let patch = self.live(label)?;
        if offset as u64 + buffer.len() as u64 > patch.length as u64 {
            return Err(Refusal::Past);
        }
        let (frame, start) = self.lies(&patch);
        self.bank.read(frame, start + offset, buffer)
    }

    pub fn fetch(&self, address: u32, buffer: &mut [u8]) -> Result<(), Refusal> {
        if address >= 131_072 {
            return Err(Refusal::Address);
        }
        let from = address as u64;
        for patch in self.labels.iter().flatten() {
            let first = Self::address(patch) as u64;
            let end = first + patch.length as u64;
            if first <= from && from < end && from + buffer.len() as u64 <= end {
                let (frame, start) = self.lies(patch);
                return self.bank.read(frame, start + (from - first) as u32, buffer);
            }
        }
        Err(Refusal::Stray)
    }

    pub fn place(&self, label: u8) -> Result<u32, Refusal> {
        Ok(Self::address(&self.live(label)?))
    }

    pub fn delete(&mut self, label: u8) -> Result<u32, Refusal> {
        let patch = self.live(label)?;
        let (frame, start) = self.lies(&patch);
        self.bank.write(frame, start, &vec![0; SLOT[class_of(patch.length)]])?;
        self.labels[label as usize] = None;
        let row = self.rows[frame as usize].as_mut().expect("the frame of a live patch has a row");
        row.mask &= !(1 << patch.slot);
        if row.mask != 0 {
            return Ok(0);
        }
        self.bank.give_back(frame)?;
        self.rows[frame as usize] = None;
        for span in 0..SPANS {
            if self.frame_of_span(span) == Some(frame) {
                self.spans[span] = Span::Idle;
            }
        }
        Ok(1)
    }

    pub fn mesh(&mut self, class: u8) -> Result<(u32, u32), Refusal> {
        if class > 5 {
            return Err(Refusal::Class);
        }
        let mut frames = Vec::new();
        let mut masks = Vec::new();
        for frame in 0..self.rows.len() {
            if let Some(row) = &self.rows[frame] {
                if row.class == class as usize {
                    frames.push(frame);
                    masks.push(row.mask);
                }
            }
        }
        let mut pairs = vec![(0, 0); frames.len() / 2];
        let count = self.pairing.propose(&masks, &mut pairs)?;
        let mut copied = 0;
        for (i, j) in &pairs[..count] {
            copied += self.merge(frames[*i as usize], frames[*j as usize]);
        }
        Ok((count as u32, copied))
    }

    /// Merges two frames and answers the bytes copied.
    fn merge(&mut self, a: usize, b: usize) -> u32 {
        let row_a = self.rows[a].clone().expect("a frame to be merged has a row");
        let row_b = self.rows[b].clone().expect("a frame to be merged has a row");
        let a_wins = if ones(row_a.mask) == ones(row_b.mask) {
            a < b
        } else {
            ones(row_a.mask) > ones(row_b.mask)
        };
        let (to, to_row, from, from_row) =
            if a_wins { (a, row_a, b, row_b) } else { (b, row_b, a, row_a) };
        let slot_size = SLOT[to_row.class];
        let mut copied = 0;
        for slot in 0..slots_of(to_row.class) {
            if !occupied(from_row.mask, slot) {
                continue;
            }
            let start = (slot_size * slot) as u32;
            let mut bytes = vec![0; slot_size];
            self.bank.read(from as u32, start, &mut bytes).expect("the source is out");
            let full: Vec<Cell> = bytes.iter().map(|b| Cell::Full(*b)).collect();
            let mut cells = vec![Cell::Empty; slot_size];
            join_rows(&mut cells, &full).expect("the slot is free in the destination");
            for (place, cell) in cells.iter().enumerate() {
                if let Cell::Full(byte) = cell {
                    bytes[place] = *byte;
                }
            }
            self.bank.write(to as u32, start, &bytes).expect("the destination is out");
            copied += slot_size as u32;
        }
        self.bank.give_back(from as u32).expect("the source is out");
        let mut mask = [Word(to_row.mask)];
        join_rows(&mut mask, &[Word(from_row.mask)]).expect("masks of a pair join");
        self.rows[to] = Some(Row { class: to_row.class, mask: mask[0].0, home: to_row.home });
        self.rows[from] = None;
        for span in 0..SPANS {
            if self.frame_of_span(span) == Some(from as u32) {
                self.spans[span] = Span::Alias(to as u32);
            }
        }
        copied
    }

    pub fn count(&self) -> (u32, u32, u32) {
        (
            self.rows.iter().flatten().count() as u32,
            self.spans.iter().filter(|s| **s != Span::Idle).count() as u32,
            self.labels.iter().flatten().count() as u32,
        )
    }
}
