//! A small seeded generator of random numbers, and of tables and damage.

mod bytes;
mod flat;
mod journals;
mod runs;
mod sharp;
mod states;
mod tables;

pub use bytes::*;
pub use flat::*;
pub use journals::*;
pub use runs::*;
pub use sharp::*;
pub use states::*;
pub use tables::*;

/// splitmix64: the same seed gives the same row of numbers everywhere.
#[derive(Clone, Debug)]
pub struct Random {
    at: u64,
}

/// Numbers at which a rule or a width ends.
pub const BOUNDARY: [u32; 21] = [
    0,
    1,
    2,
    3,
    7,
    8,
    9,
    16,
    17,
    120,
    121,
    255,
    256,
    65_535,
    65_536,
    999_999,
    1_000_000,
    1_000_001,
    0x7FFF_FFFF,
    0x8000_0000,
    0xFFFF_FFFF,
];

impl Random {
    pub fn new(seed: u64) -> Random {
        Random { at: seed }
    }

    pub fn word(&mut self) -> u64 {
        self.at = self.at.wrapping_add(0x9E37_79B9_7F4A_7C15);
        let mut z = self.at;
        z = (z ^ z >> 30).wrapping_mul(0xBF58_476D_1CE4_E5B9);
        z = (z ^ z >> 27).wrapping_mul(0x94D0_49BB_1331_11EB);
        z ^ z >> 31
    }

    /// From 0 to below `count`, which is above 0.
    pub fn below(&mut self, count: usize) -> usize {
        (self.word() % count as u64) as usize
    }

    /// Below `few` half of the time, else below `all`.
    pub fn below_either(&mut self, few: usize, all: usize) -> usize {
        let count = if self.coin() { few } else { all };
        self.below(count)
    }

    /// From `low` to `high`, both included.
    pub fn range(&mut self, low: u32, high: u32) -> u32 {
        low + (self.word() % (u64::from(high - low) + 1)) as u32
    }

    pub fn coin(&mut self) -> bool {
        self.word() & 1 == 1
    }

    /// True one time in `count`.
    pub fn one_in(&mut self, count: usize) -> bool {
        self.below(count) == 0
    }

    pub fn pick<T: Copy>(&mut self, from: &[T]) -> T {
        from[self.below(from.len())]
    }

    pub fn byte(&mut self) -> u8 {
        self.word() as u8
    }

    /// Any 32-bit number; those at the boundaries often.
    pub fn number(&mut self) -> u32 {
        match self.below(4) {
            0 => self.word() as u32,
            1 => self.range(0, 20),
            _ => self.pick(&BOUNDARY),
        }
    }
}
