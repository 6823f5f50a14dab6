//! Frames and banks (docs/RULES.md, "Frames and banks").

use crate::refusal::Refusal;

pub const FRAME: usize = 1024;

pub trait Bank {
    fn reset(&mut self);
    fn grant(&mut self) -> Result<u32, Refusal>;
    fn give_back(&mut self, frame: u32) -> Result<(), Refusal>;
    fn read(&self, frame: u32, offset: u32, buffer: &mut [u8]) -> Result<(), Refusal>;
    fn write(&mut self, frame: u32, offset: u32, buffer: &[u8]) -> Result<(), Refusal>;
    fn size(&self) -> u32;

    // What a bank means. The calls above are all that a pool uses; these are for tests.
    fn opening(&self) -> Vec<u32>;
    fn spare(&self) -> Vec<u32>;
    fn is_out(&self, frame: u32) -> bool;
    fn byte(&self, frame: u32, place: u32) -> u8;
}

/// The lists and marks that flat and lane banks have in common.
struct Lists {
    frames: u32,
    spare: Vec<u32>,
    out: Vec<bool>,
}

impl Lists {
    fn new(frames: u32) -> Lists {
        Lists { frames, spare: (0..frames).collect(), out: vec![false; frames as usize] }
    }

    fn reset(&mut self) {
        *self = Lists::new(self.frames);
    }

    fn is_out(&self, frame: u32) -> bool {
        frame < self.frames && self.out[frame as usize]
    }

    fn grant(&mut self) -> Result<u32, Refusal> {
        if self.spare.is_empty() {
            return Err(Refusal::Frames);
        }
        let frame = self.spare.remove(0);
        self.out[frame as usize] = true;
        Ok(frame)
    }

    fn give_back(&mut self, frame: u32) {
        self.out[frame as usize] = false;
        self.spare.insert(0, frame);
    }

    /// EDGE is tested before NOT OUT.
    fn admit(&self, frame: u32, offset: u32, length: usize) -> Result<(), Refusal> {
        if offset as u64 + length as u64 > FRAME as u64 {
            return Err(Refusal::Edge);
        }
        if !self.is_out(frame) {
            return Err(Refusal::NotOut);
        }
        Ok(())
    }
}

pub struct Flat<'a> {
    memory: &'a mut [u8],
    lists: Lists,
}

impl<'a> Flat<'a> {
    pub fn check(memory: &[u8]) -> Result<u32, Refusal> {
        for frames in 1..=64 {
            if memory.len() == FRAME * frames {
                return Ok(frames as u32);
            }
        }
        Err(Refusal::Row)
    }

    pub fn new(memory: &'a mut [u8]) -> Flat<'a> {
        let frames = Flat::check(memory).unwrap_or(0);
        let mut bank = Flat { memory, lists: Lists::new(frames) };
        bank.reset();
        bank
    }

    fn at(frame: u32, place: u32) -> usize {
        FRAME * frame as usize + place as usize
    }
}

impl Bank for Flat<'_> {
    fn reset(&mut self) {
        for frame in 0..self.lists.frames {
            for place in 0..FRAME as u32 {
                self.memory[Flat::at(frame, place)] = 0;
            }
        }
        self.lists.reset();
    }

    fn grant(&mut self) -> Result<u32, Refusal> {
        self.lists.grant()
    }

    fn give_back(&mut self, frame: u32) -> Result<(), Refusal> {
        if !self.lists.is_out(frame) {
            return Err(Refusal::NotOut);
        }
        for place in 0..FRAME as u32 {
            self.memory[Flat::at(frame, place)] = 0;
        }
        self.lists.give_back(frame);
        Ok(())
    }

    fn read(&self, frame: u32, offset: u32, buffer: &mut [u8]) -> Result<(), Refusal> {
        self.lists.admit(frame, offset, buffer.len())?;
        for (i, byte) in buffer.iter_mut().enumerate() {
            *byte = self.memory[Flat::at(frame, offset + i as u32)];
        }
        Ok(())
    }

    fn write(&mut self, frame: u32, offset: u32, buffer: &[u8]) -> Result<(), Refusal> {
        self.lists.admit(frame, offset, buffer.len())?;
        for (i, byte) in buffer.iter().enumerate() {
            self.memory[Flat::at(frame, offset + i as u32)] = *byte;
        }
        Ok(())
    }

    fn size(&self) -> u32 {
        self.lists.frames
    }

    fn opening(&self) -> Vec<u32> {
        (0..self.lists.frames).collect()
    }

    fn spare(&self) -> Vec<u32> {
        self.lists.spare.clone()
    }

    fn is_out(&self, frame: u32) -> bool {
        self.lists.is_out(frame)
    }

    fn byte(&self, frame: u32, place: u32) -> u8 {
        self.memory[Flat::at(frame, place)]
    }
}

pub struct Lane<'a> {
    even: &'a mut [u8],
    odd: &'a mut [u8],
    lists: Lists,
}

impl<'a> Lane<'a> {
    pub fn check(even: &[u8], odd: &[u8]) -> Result<u32, Refusal> {
        for frames in 1..=64 {
            if even.len() == 512 * frames && odd.len() == 512 * frames {
                return Ok(frames as u32);
            }
        }
        Err(Refusal::Row)
    }

    pub fn new(even: &'a mut [u8], odd: &'a mut [u8]) -> Lane<'a> {
        let frames = Lane::check(even, odd).unwrap_or(0);
        let mut bank = Lane { even, odd, lists: Lists::new(frames) };
        bank.reset();
        bank
    }

    fn put(&mut self, frame: u32, place: u32, byte: u8) {
        let at = 512 * frame as usize + place as usize / 2;
        if place % 2 == 0 {
            self.even[at] = byte;
        } else {
            self.odd[at] = byte;
        }
    }
}

impl Bank for Lane<'_> {
    fn reset(&mut self) {
        for frame in 0..self.lists.frames {
            for place in 0..FRAME as u32 {
                self.put(frame, place, 0);
            }
        }
        self.lists.reset();
    }

    fn grant(&mut self) -> Result<u32, Refusal> {
        self.lists.grant()
    }

    fn give_back(&mut self, frame: u32) -> Result<(), Refusal> {
        if !self.lists.is_out(frame) {
            return Err(Refusal::NotOut);
        }
        for place in 0..FRAME as u32 {
            self.put(frame, place, 0);
        }
        self.lists.give_back(frame);
        Ok(())
    }

    fn read(&self, frame: u32, offset: u32, buffer: &mut [u8]) -> Result<(), Refusal> {
        self.lists.admit(frame, offset, buffer.len())?;
        for (i, byte) in buffer.iter_mut().enumerate() {
            *byte = self.byte(frame, offset + i as u32);
        }
        Ok(())
    }

    fn write(&mut self, frame: u32, offset: u32, buffer: &[u8]) -> Result<(), Refusal> {
        self.lists.admit(frame, offset, buffer.len())?;
        for (i, byte) in buffer.iter().enumerate() {
            self.put(frame, offset + i as u32, *byte);
        }
        Ok(())
    }

    fn size(&self) -> u32 {
        self.lists.frames
    }

    fn opening(&self) -> Vec<u32> {
        (0..self.lists.frames).collect()
    }

    fn spare(&self) -> Vec<u32> {
        self.lists.spare.clone()
    }

    fn is_out(&self, frame: u32) -> bool {
        self.lists.is_out(frame)
    }

    fn byte(&self, frame: u32, place: u32) -> u8 {
        let at = 512 * frame as usize + place as usize / 2;
        if place % 2 == 0 {
            self.even[at]
        } else {
            self.odd[at]
        }
    }
}

pub struct Quota<B: Bank> {
    below: B,
    limit: u8,
}

impl<B: Bank> Quota<B> {
    pub fn new(below: B, limit: u8) -> Quota<B> {
        let mut bank = Quota { below, limit };
        bank.reset();
        bank
    }

    fn frames_out(&self) -> usize {
        (0..self.below.size()).filter(|f| self.below.is_out(*f)).count()
    }
}

impl<B: Bank> Bank for Quota<B> {
    fn reset(&mut self) {
        self.below.reset();
    }

    fn grant(&mut self) -> Result<u32, Refusal> {
        if self.spare().is_empty() {
            return Err(Refusal::Frames);
        }
        self.below.grant()
    }

    fn give_back(&mut self, frame: u32) -> Result<(), Refusal> {
        self.below.give_back(frame)
    }

    fn read(&self, frame: u32, offset: u32, buffer: &mut [u8]) -> Result<(), Refusal> {
        self.below.read(frame, offset, buffer)
    }

    fn write(&mut self, frame: u32, offset: u32, buffer: &[u8]) -> Result<(), Refusal> {
        self.below.write(frame, offset, buffer)
    }

    fn size(&self) -> u32 {
        self.below.size()
    }

    fn opening(&self) -> Vec<u32> {
        let mut list = self.below.opening();
        list.truncate(self.limit as usize);
        list
    }

    fn spare(&self) -> Vec<u32> {
        let mut list = self.below.spare();
        list.truncate((self.limit as usize).saturating_sub(self.frames_out()));
        list
    }

    fn is_out(&self, frame: u32) -> bool {
        self.below.is_out(frame)
    }

    fn byte(&self, frame: u32, place: u32) -> u8 {
        self.below.byte(frame, place)
    }
}
