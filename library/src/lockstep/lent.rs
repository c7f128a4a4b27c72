//! What both sides are lent: the same memory, and out areas with the same bytes in and around them.

use reference::driver::random::Random;

use crate::ffi::OUT;
use crate::memory::{Memory, Raw, Record};

/// The longest out area that is lent.
pub const LONGEST: usize = 100;
/// Bytes in front of an area and behind the longest one: nobody may write them.
const AROUND: usize = 16;
const SIZE: usize = AROUND + LONGEST + AROUND;

/// An out area for each side.
pub struct Areas {
    library: [u8; SIZE],
    second: [u8; SIZE],
    start: usize,
    length: usize,
}

impl Areas {
    /// Areas of length 0.
    pub fn new() -> Self {
        Areas {
            library: [0; SIZE],
            second: [0; SIZE],
            start: 0,
            length: 0,
        }
    }

    /// Makes both areas anew, `length` bytes from any address, with any bytes.
    pub fn renew(&mut self, random: &mut Random, length: usize) {
        fill(random, &mut self.library);
        self.second = self.library;
        self.start = random.below(AROUND);
        self.length = length;
    }

    /// The library's area and the second program's.
    pub fn both(&mut self) -> (&mut [u8], &mut [u8]) {
        let area = self.start..self.start + self.length;
        (&mut self.library[area.clone()], &mut self.second[area])
    }

    /// How long the areas are.
    pub fn length(&self) -> usize {
        self.length
    }

    /// The first `bytes` that the second program wrote.
    pub fn written(&self, bytes: usize) -> &[u8] {
        &self.second[self.start..self.start + bytes]
    }

    /// Holds every byte to that of the second program's area, those around the area too.
    pub fn compare(&self) -> Result<(), String> {
        if self.library == self.second {
            return Ok(());
        }
        let mut pairs = self.library.iter().zip(&self.second);
        let at = pairs.position(|(library, second)| library != second);
        let at = at.expect("two areas differ somewhere");
        Err(format!(
            "byte {} of the out area of {} bytes is {:02x}, not {:02x}",
            at as isize - self.start as isize,
            self.length,
            self.library[at],
            self.second[at]
        ))
    }
}

impl Default for Areas {
    fn default() -> Self {
        Self::new()
    }
}

/// The length of an out area that is large enough.
pub fn enough(random: &mut Random) -> usize {
    if random.chance(50) {
        OUT
    } else {
        random.within(OUT..=LONGEST)
    }
}

/// The length of an out area that is too small.
pub fn too_small(random: &mut Random) -> usize {
    if random.chance(50) {
        OUT - 1
    } else {
        random.below(OUT)
    }
}

/// Any bytes; a bool is 0 or 1.
pub fn any_memory<R: Record>(random: &mut Random) -> Memory<R> {
    Memory::holding(&any_bytes::<R>(random))
}

/// Any bytes, those of bools too.
pub fn any_raw<R: Record>(random: &mut Random) -> Raw<R> {
    Raw::holding(&any_bytes::<R>(random))
}

fn any_bytes<R>(random: &mut Random) -> Vec<u8> {
    let mut bytes = vec![0; std::mem::size_of::<R>()];
    fill(random, &mut bytes);
    bytes
}

/// Fills `bytes` from one number of the generator.
fn fill(random: &mut Random, bytes: &mut [u8]) {
    let mut state = random.below(usize::MAX) as u64 | 1;
    for piece in bytes.chunks_mut(8) {
        state ^= state << 13;
        state ^= state >> 7;
        state ^= state << 17;
        piece.copy_from_slice(&state.to_le_bytes()[..piece.len()]);
    }
}
