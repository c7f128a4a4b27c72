//! The six frames of 01, section "Frames".

mod read;
mod write;

pub use write::Out;

use crate::lists::{Operations, PlacedOperations, Reads};

/// Kind 1, client to head.
#[derive(Clone, Copy, Debug, PartialEq, Eq)]
pub struct Submit {
    /// The client, 0..15.
    pub client: u8,
    /// The client's write number, 0..65,534.
    pub number: u16,
    /// The smallest number the client still waits for; number - 7 ≤ ack ≤ number.
    pub ack: u16,
    /// The transaction.
    pub operations: Operations,
}

/// Kind 2, board i to i+1: a log number, then a Submit's fields.
#[derive(Clone, Copy, Debug, PartialEq, Eq)]
pub struct Forward {
    /// Where the entry stands in the log.
    pub log_number: u8,
    /// The entry, with the sender's ack.
    pub submit: Submit,
}

/// Kind 3, tail to shard.
#[derive(Clone, Copy, Debug, PartialEq, Eq)]
pub struct ShardAppend {
    /// The shard, 1..8.
    pub shard: u8,
    /// The entry's log number.
    pub log_number: u8,
    /// The how manieth entry on this shard it is, 1..256.
    pub sn: u16,
    /// The shard's part of the transaction.
    pub operations: PlacedOperations,
}

/// Kind 4, shard to tail.
#[derive(Clone, Copy, Debug, PartialEq, Eq)]
pub struct ExecNotif {
    /// The shard, 1..8.
    pub shard: u8,
    /// The entry's log number.
    pub log_number: u8,
    /// What the gets on this shard found.
    pub reads: Reads,
}

/// Kind 5, board i to i-1.
#[derive(Clone, Copy, Debug, PartialEq, Eq)]
pub struct Executed {
    /// The entry's log number.
    pub log_number: u8,
    /// What all gets found.
    pub reads: Reads,
}

/// Kind 6, head to client.
#[derive(Clone, Copy, Debug, PartialEq, Eq)]
pub struct Response {
    /// The client, 0..15.
    pub client: u8,
    /// The number that is answered.
    pub number: u16,
    /// What all gets found.
    pub reads: Reads,
}

/// A well-formed frame.
#[derive(Clone, Copy, Debug, PartialEq, Eq)]
#[allow(missing_docs)]
pub enum Frame {
    Submit(Submit),
    Forward(Forward),
    ShardAppend(ShardAppend),
    ExecNotif(ExecNotif),
    Executed(Executed),
    Response(Response),
}

impl Frame {
    /// The two-byte kind.
    pub fn kind(&self) -> u16 {
        match self {
            Frame::Submit(_) => 1,
            Frame::Forward(_) => 2,
            Frame::ShardAppend(_) => 3,
            Frame::ExecNotif(_) => 4,
            Frame::Executed(_) => 5,
            Frame::Response(_) => 6,
        }
    }
}
