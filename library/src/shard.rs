//! A shard group of the library.

#![allow(unsafe_code)]

use crate::ffi::{self, Stepped};
use crate::memory::{Memory, Raw};

/// A shard group: what stands under each key.
#[derive(Debug)]
pub struct Shard {
    memory: Memory<ffi::Shard>,
}

/// What stands under a key.
#[derive(Clone, Copy, Debug, PartialEq, Eq)]
pub struct Stored {
    /// The value.
    pub value: u32,
    /// The log number that put it.
    pub log_number: u16,
}

impl Shard {
    /// Starts shard group `own` of `m`, and gives the answer: 0, or 11 with an empty shard group
    /// marked as not started.
    pub fn start(m: u8, own: u8) -> (Self, u8) {
        Self::start_in(Memory::zeroed(), m, own)
    }

    /// The same in memory that has been used before. Nothing of what it holds is looked at.
    pub fn start_in(memory: Memory<ffi::Shard>, m: u8, own: u8) -> (Self, u8) {
        Self::start_over(memory.into(), m, own)
    }

    /// The same over any bytes.
    pub fn start_over(raw: Raw<ffi::Shard>, m: u8, own: u8) -> (Self, u8) {
        // SAFETY: memory of a whole record is lent for the call, which looks at nothing that lies
        // there and stores every field.
        let (memory, answer) = unsafe { raw.started(|record| ffi::shard_start(record, m, own)) };
        (Shard { memory }, answer)
    }

    /// Lets the shard group take a frame; the frame it sends stands in `out`.
    pub fn step(&mut self, frame: &[u8], out: &mut [u8]) -> Stepped {
        let record = self.memory.record_mut();
        // SAFETY: record, frame and out area are lent for the call, and being borrowed don't
        // overlap; no pointer of a slice is null.
        unsafe {
            ffi::shard_step(
                record,
                frame.as_ptr(),
                frame.len(),
                out.as_mut_ptr(),
                out.len(),
            )
        }
    }

    /// The memory, to be looked at.
    pub fn memory(&self) -> &Memory<ffi::Shard> {
        &self.memory
    }

    /// The memory, with all that the shard group held, to be used again.
    pub fn into_memory(self) -> Memory<ffi::Shard> {
        self.memory
    }

    /// Shard groups.
    pub fn m(&self) -> u8 {
        self.record().m
    }

    /// The own number.
    pub fn own(&self) -> u8 {
        self.record().own
    }

    /// Whether the start was taken.
    pub fn started(&self) -> bool {
        self.record().started
    }

    /// How many ShardAppends have run.
    pub fn ssn(&self) -> u16 {
        self.record().ssn
    }

    /// The log number of the last entry run.
    pub fn last_run(&self) -> Option<u16> {
        let last_run = self.record().last_run.checked_sub(1)?;
        Some(last_run as u16)
    }

    /// What stands under `key`.
    pub fn get(&self, key: u8) -> Option<Stored> {
        let cell = self.record().cells[usize::from(key)];
        cell.present.then_some(Stored {
            value: cell.value,
            log_number: cell.log_number,
        })
    }

    fn record(&self) -> &ffi::Shard {
        self.memory.record()
    }
}
