//! A small seeded generator (splitmix64), so that a run can be made again.

use std::ops::RangeInclusive;

/// The generator's state.
#[derive(Clone, Debug)]
pub struct Random(u64);

impl Random {
    /// The generator of run `run` under `seed`.
    pub fn new(seed: u64, run: u64) -> Self {
        let mut random = Random(seed);
        random.0 = random.next().wrapping_add(run);
        random
    }

    fn next(&mut self) -> u64 {
        self.0 = self.0.wrapping_add(0x9E37_79B9_7F4A_7C15);
        let mut mixed = self.0;
        mixed = (mixed ^ (mixed >> 30)).wrapping_mul(0xBF58_476D_1CE4_E5B9);
        mixed = (mixed ^ (mixed >> 27)).wrapping_mul(0x94D0_49BB_1331_11EB);
        mixed ^ (mixed >> 31)
    }

    /// A number below `bound`, which isn't 0.
    pub fn below(&mut self, bound: usize) -> usize {
        (self.next() % bound as u64) as usize
    }

    /// A number within `range`.
    pub fn within(&mut self, range: RangeInclusive<usize>) -> usize {
        range.start() + self.below(range.end() - range.start() + 1)
    }

    /// A byte within `range`.
    pub fn byte(&mut self, range: RangeInclusive<u8>) -> u8 {
        self.within(usize::from(*range.start())..=usize::from(*range.end())) as u8
    }

    /// True in `percent` of a hundred cases.
    pub fn chance(&mut self, percent: usize) -> bool {
        self.below(100) < percent
    }

    /// One of `items`, which aren't empty.
    pub fn among<T: Copy>(&mut self, items: &[T]) -> T {
        items[self.below(items.len())]
    }

    /// A value, more often a small or an extreme one.
    pub fn value(&mut self) -> u32 {
        match self.below(4) {
            0 => self.below(4) as u32,
            1 => u32::MAX - self.below(3) as u32,
            _ => self.next() as u32,
        }
    }
}
