//! The fifteen refusals (docs/REFUSALS.md).

#[derive(Clone, Copy, PartialEq, Eq, Debug)]
pub enum Refusal {
    Size = 1,
    Class = 2,
    Address = 3,
    Command = 4,
    Cut = 5,
    Edge = 6,
    Row = 7,
    Clash = 8,
    Taken = 9,
    Absent = 10,
    Past = 11,
    Spans = 12,
    Frames = 13,
    Stray = 14,
    NotOut = 15,
}

impl Refusal {
    pub fn number(self) -> u32 {
        self as u32
    }

    /// The layer that a listing shows: 0 playback, 1 pool, 2 bank.
    pub fn layer(self) -> u32 {
        match self {
            Refusal::Command | Refusal::Cut => 0,
            Refusal::Frames => 2,
            _ => 1,
        }
    }
}
