//! The records and functions of include/register.h, as they stand there.

#![allow(unsafe_code)]

use crate::memory::record;

/// Boards n: 2..8.
pub const BOARDS_MOST: usize = 8;
/// Shard groups m: 1..8.
pub const SHARDS_MOST: usize = 8;
/// Keys 0..255.
pub const KEYS: usize = 256;
/// Clients 0..15.
pub const CLIENTS: usize = 16;
/// A transaction has 1..4 operations.
pub const OPERATIONS: usize = 4;
/// A log holds at most 256 entries.
pub const LOG: usize = 256;
/// A client's window: 8 numbers.
pub const WINDOW: usize = 8;
/// An out area must have at least 68 bytes.
pub const OUT: usize = 68;

record! {
    /// One item of a list. An operation: code 0 get or 1 put, and its place in the list. A read: code is
    /// 1 where the key is present and 0 where it is absent, its place is that of the get, its key is 0.
    #[derive(Default)]
    pub struct Item {
        /// The place, 0..3.
        pub place: u8,
        /// Get or put; present or absent.
        pub code: u8,
        /// The key.
        pub key: u8,
        /// The value; 0 for a get and for what is absent.
        pub value: u32,
    }
}

record! {
    /// An entry of the log.
    pub struct Entry {
        /// The client.
        pub client: u8,
        /// The client's number.
        pub number: u16,
        /// How many operations it has.
        pub count: u8,
        /// The operations; zero behind the count.
        pub items: [Item; OPERATIONS],
        /// PRE until exe, then EXE.
        pub exe: bool,
        /// The reads, at the places of their gets.
        pub reads: [Item; OPERATIONS],
        /// Shard j remains where bit j - 1 is set.
        pub remaining: u8,
    }
}

record! {
    /// A shard's queue at a board.
    pub struct Queue {
        /// The log numbers that wait, from the front; zero behind the length.
        pub numbers: [u16; LOG],
        /// How many wait.
        pub len: usize,
        /// One more than the last number taken, 0 for none.
        pub taken: u32,
    }
}

record! {
    /// A board.
    pub struct Board {
        /// The log; an entry's log number is its place. Zero behind the length.
        pub log: [Entry; LOG],
        /// The log's length.
        pub len: u16,
        /// Per entry its client and number in one word.
        pub names: [u32; LOG],
        /// Per entry its shards as a mask.
        pub touched: [u8; LOG],
        /// Per client high + 1.
        pub next: [u32; CLIENTS],
        /// Per client the largest ack taken.
        pub floor: [u16; CLIENTS],
        /// Per shard its queue.
        pub queues: [Queue; SHARDS_MOST],
        /// Boards in the chain.
        pub n: u8,
        /// Shard groups.
        pub m: u8,
        /// The own number.
        pub own: u8,
        /// Whether the start was taken.
        pub started: bool,
    }
}

record! {
    /// What a shard group has for a key.
    pub struct Cell {
        /// The value last put.
        pub value: u32,
        /// The log number that put it.
        pub log_number: u16,
        /// Whether the key was ever put.
        pub present: bool,
    }
}

record! {
    /// A shard group.
    pub struct Shard {
        /// What stands under each key.
        pub cells: [Cell; KEYS],
        /// How many ShardAppends have run.
        pub ssn: u16,
        /// One more than the last log number run, 0 for none.
        pub last_run: u32,
        /// Shard groups.
        pub m: u8,
        /// The own number.
        pub own: u8,
        /// Whether the start was taken.
        pub started: bool,
    }
}

record! {
    /// An outstanding number with its operations; a slot with count 0 is free, and is zero.
    pub struct Slot {
        /// The number.
        pub number: u16,
        /// How many operations it has.
        pub count: u8,
        /// The operations.
        pub items: [Item; OPERATIONS],
    }
}

record! {
    /// A session's window.
    pub struct Window {
        /// The next number.
        pub next: u16,
        /// Each outstanding number, in the slot number mod 8.
        pub slots: [Slot; WINDOW],
    }
}

record! {
    /// A session.
    pub struct Session {
        /// The next number and the outstanding ones.
        pub window: Window,
        /// The client.
        pub client: u8,
        /// Whether the start was taken.
        pub started: bool,
    }
}

record! {
    /// An operation as it is asked for.
    #[derive(Default)]
    pub struct Asked {
        /// 0 get or 1 put.
        pub code: u8,
        /// The key.
        pub key: u8,
        /// The value; 0 for a get.
        pub value: u32,
    }
}

record! {
    /// The list handed to session_invoke: the first count operations.
    #[derive(Default)]
    pub struct Operations {
        /// How many there are, 1 to 4.
        pub count: u8,
        /// The operations.
        pub items: [Asked; OPERATIONS],
    }
}

record! {
    /// The answer of session_invoke and session_retry.
    #[derive(Default)]
    pub struct Sent {
        /// 0, or the refusal's number.
        pub answer: u8,
        /// The number that Submit carries.
        pub number: u16,
        /// Frames sent.
        pub frames: u8,
        /// Bytes written.
        pub bytes: usize,
    }
}

record! {
    /// The answer of session_response.
    #[derive(Default)]
    pub struct Reply {
        /// 0, or the refusal's number.
        pub answer: u8,
        /// The number that is answered.
        pub number: u16,
        /// How many reads there are.
        pub count: u8,
        /// The reads, by rising place; zero behind the count.
        pub reads: [Item; OPERATIONS],
    }
}

record! {
    /// The answer of board_step and shard_step.
    #[derive(Default)]
    pub struct Stepped {
        /// 0, or the refusal's number.
        pub answer: u8,
        /// Frames sent.
        pub frames: u8,
        /// Bytes written.
        pub bytes: usize,
    }
}

extern "C" {
    pub(crate) fn session_start(s: *mut Session, client: u8) -> u8;
    pub(crate) fn session_invoke(
        s: *mut Session,
        operations: Operations,
        out: *mut u8,
        out_length: usize,
    ) -> Sent;
    pub(crate) fn session_retry(
        s: *mut Session,
        number: u16,
        out: *mut u8,
        out_length: usize,
    ) -> Sent;
    pub(crate) fn session_response(s: *mut Session, frame: *const u8, frame_length: usize)
        -> Reply;
    pub(crate) fn board_start(b: *mut Board, n: u8, m: u8, own: u8) -> u8;
    pub(crate) fn board_step(
        b: *mut Board,
        frame: *const u8,
        frame_length: usize,
        out: *mut u8,
        out_length: usize,
    ) -> Stepped;
    pub(crate) fn shard_start(s: *mut Shard, m: u8, own: u8) -> u8;
    pub(crate) fn shard_step(
        s: *mut Shard,
        frame: *const u8,
        frame_length: usize,
        out: *mut u8,
        out_length: usize,
    ) -> Stepped;
}
