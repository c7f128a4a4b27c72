//! A board of the library.

#![allow(unsafe_code)]

use crate::ffi::{self, Stepped, LOG};
use crate::lists::{first, shards, Operation, Read};
use crate::memory::{Memory, Raw};

/// A board: its log, what it knows of each client, a queue for each shard.
#[derive(Debug)]
pub struct Board {
    memory: Memory<ffi::Board>,
}

impl Board {
    /// Starts board `own` of a chain of `n` over `m` shard groups, and gives the answer: 0, or 11
    /// with an empty board marked as not started.
    pub fn start(n: u8, m: u8, own: u8) -> (Self, u8) {
        Self::start_in(Memory::zeroed(), n, m, own)
    }

    /// The same in memory that has been used before. Nothing of what it holds is looked at.
    pub fn start_in(memory: Memory<ffi::Board>, n: u8, m: u8, own: u8) -> (Self, u8) {
        Self::start_over(memory.into(), n, m, own)
    }

    /// The same over any bytes.
    pub fn start_over(raw: Raw<ffi::Board>, n: u8, m: u8, own: u8) -> (Self, u8) {
        // SAFETY: memory of a whole record is lent for the call, which looks at nothing that lies
        // there and stores every field.
        let (memory, answer) = unsafe { raw.started(|record| ffi::board_start(record, n, m, own)) };
        (Board { memory }, answer)
    }

    /// Lets the board take a frame; the frames it sends stand in `out`.
    pub fn step(&mut self, frame: &[u8], out: &mut [u8]) -> Stepped {
        let record = self.memory.record_mut();
        // SAFETY: record, frame and out area are lent for the call, and being borrowed don't
        // overlap; no pointer of a slice is null.
        unsafe {
            ffi::board_step(
                record,
                frame.as_ptr(),
                frame.len(),
                out.as_mut_ptr(),
                out.len(),
            )
        }
    }

    /// The memory, to be looked at.
    pub fn memory(&self) -> &Memory<ffi::Board> {
        &self.memory
    }

    /// The memory, with all that the board held, to be used again.
    pub fn into_memory(self) -> Memory<ffi::Board> {
        self.memory
    }

    /// Boards in the chain.
    pub fn n(&self) -> u8 {
        self.record().n
    }

    /// Shard groups.
    pub fn m(&self) -> u8 {
        self.record().m
    }

    /// The own number: 1 is the head, n the tail.
    pub fn own(&self) -> u8 {
        self.record().own
    }

    /// Whether the start was taken.
    pub fn started(&self) -> bool {
        self.record().started
    }

    /// The entries of the log, by log number.
    pub fn log(&self) -> impl ExactSizeIterator<Item = Entry<'_>> {
        let board = self.record();
        let len = usize::from(board.len).min(LOG);
        (0..len).map(move |at| Entry { board, at })
    }

    /// The largest number of `client` in the log.
    pub fn high(&self, client: u8) -> Option<u16> {
        let next = self.record().next.get(usize::from(client))?;
        next.checked_sub(1).map(|high| high as u16)
    }

    /// The largest ack taken from `client`, 0 at first.
    pub fn floor(&self, client: u8) -> u16 {
        let floor = self.record().floor.get(usize::from(client));
        floor.copied().unwrap_or(0)
    }

    /// The log numbers that wait in the queue of `shard`, from the front.
    pub fn queued(&self, shard: u8) -> &[u16] {
        match self.queue(shard) {
            Some(queue) => &queue.numbers[..queue.len.min(LOG)],
            None => &[],
        }
    }

    /// The last log number taken from the queue of `shard`.
    pub fn last_taken(&self, shard: u8) -> Option<u16> {
        let taken = self.queue(shard)?.taken;
        taken.checked_sub(1).map(|last| last as u16)
    }

    fn queue(&self, shard: u8) -> Option<&ffi::Queue> {
        let at = usize::from(shard).checked_sub(1)?;
        self.record().queues.get(at)
    }

    fn record(&self) -> &ffi::Board {
        self.memory.record()
    }
}

/// An entry of a board's log.
#[derive(Clone, Copy)]
pub struct Entry<'a> {
    board: &'a ffi::Board,
    at: usize,
}

impl<'a> Entry<'a> {
    /// The client.
    pub fn client(self) -> u8 {
        self.record().client
    }

    /// The client's number.
    pub fn number(self) -> u16 {
        self.record().number
    }

    /// The transaction.
    pub fn operations(self) -> impl Iterator<Item = Operation> + 'a {
        let entry = self.record();
        first(entry.count, &entry.items)
            .iter()
            .map(|&item| item.into())
    }

    /// Whether it is EXE.
    pub fn is_exe(self) -> bool {
        self.record().exe
    }

    /// The reads known so far, by rising place: those of the gets whose shard was heard from.
    pub fn reads(self) -> impl Iterator<Item = Read> + 'a {
        let entry = self.record();
        let m = self.board.m.max(1);
        let items = first(entry.count, &entry.items).iter();
        let heard = items.zip(&entry.reads).filter(move |(item, _)| {
            let shard = item.key % m;
            item.code == 0 && entry.remaining >> shard & 1 == 0
        });
        heard.map(|(_, &read)| read.into())
    }

    /// The shards still to be heard from.
    pub fn remaining(self) -> impl Iterator<Item = u8> {
        shards(self.record().remaining)
    }

    /// The shards that its keys touch.
    pub fn touched(self) -> impl Iterator<Item = u8> {
        shards(self.board.touched[self.at])
    }

    fn record(self) -> &'a ffi::Entry {
        &self.board.log[self.at]
    }
}
