//! A client session of the library.

#![allow(unsafe_code)]

use crate::ffi::{self, Operations, Reply, Sent};
use crate::lists::{first, Operation, Read};
use crate::memory::{Memory, Raw};

/// A session: the next number, and each outstanding number with its operations.
#[derive(Debug)]
pub struct Session {
    memory: Memory<ffi::Session>,
}

impl Session {
    /// Starts the session of `client`, and gives the answer: 0, or 11 with an empty session marked
    /// as not started.
    pub fn start(client: u8) -> (Self, u8) {
        Self::start_in(Memory::zeroed(), client)
    }

    /// The same in memory that has been used before. Nothing of what it holds is looked at.
    pub fn start_in(memory: Memory<ffi::Session>, client: u8) -> (Self, u8) {
        Self::start_over(memory.into(), client)
    }

    /// The same over any bytes.
    pub fn start_over(raw: Raw<ffi::Session>, client: u8) -> (Self, u8) {
        // SAFETY: memory of a whole record is lent for the call, which looks at nothing that lies
        // there and stores every field.
        let (memory, answer) = unsafe { raw.started(|record| ffi::session_start(record, client)) };
        (Session { memory }, answer)
    }

    /// Takes the next number for `operations`, makes it outstanding and sends Submit.
    pub fn invoke(&mut self, operations: Operations, out: &mut [u8]) -> Sent {
        let record = self.memory.record_mut();
        // SAFETY: record and out area are lent for the call, and being borrowed don't overlap; no
        // pointer of a slice is null.
        unsafe { ffi::session_invoke(record, operations, out.as_mut_ptr(), out.len()) }
    }

    /// Sends Submit again, with the kept operations and the present ack.
    pub fn retry(&mut self, number: u16, out: &mut [u8]) -> Sent {
        let record = self.memory.record_mut();
        // SAFETY: as above.
        unsafe { ffi::session_retry(record, number, out.as_mut_ptr(), out.len()) }
    }

    /// Takes a Response: its number is outstanding no more.
    pub fn response(&mut self, frame: &[u8]) -> Reply {
        let record = self.memory.record_mut();
        // SAFETY: as above, of record and frame.
        unsafe { ffi::session_response(record, frame.as_ptr(), frame.len()) }
    }

    /// The memory, to be looked at.
    pub fn memory(&self) -> &Memory<ffi::Session> {
        &self.memory
    }

    /// The memory, with all that the session held, to be used again.
    pub fn into_memory(self) -> Memory<ffi::Session> {
        self.memory
    }

    /// The client.
    pub fn client(&self) -> u8 {
        self.record().client
    }

    /// Whether the start was taken.
    pub fn started(&self) -> bool {
        self.record().started
    }

    /// The number that the next invocation takes.
    pub fn next(&self) -> u16 {
        self.record().window.next
    }

    /// The outstanding numbers with their operations, rising.
    pub fn outstanding(&self) -> impl Iterator<Item = (u16, Vec<Operation>)> + '_ {
        let slots = &self.record().window.slots;
        let mut held: Vec<&ffi::Slot> = slots.iter().filter(|slot| slot.count > 0).collect();
        held.sort_unstable_by_key(|slot| slot.number);
        held.into_iter().map(|slot| {
            let operations = first(slot.count, &slot.items).iter();
            (slot.number, operations.map(|&item| item.into()).collect())
        })
    }

    fn record(&self) -> &ffi::Session {
        self.memory.record()
    }
}

impl Reply {
    /// What the transaction's gets found, by rising place.
    pub fn found(&self) -> impl Iterator<Item = Read> + '_ {
        first(self.count, &self.reads)
            .iter()
            .map(|&item| item.into())
    }
}
