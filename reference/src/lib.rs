//! The second program: the register of 01, written from the papers alone.
//!
//! Boards, shard groups and client sessions are values with one call per
//! delivered frame; they know nothing of the transport. Every call accepts
//! every input, and a refusal changes no state and writes no byte.

pub mod answers;
pub mod arguments;
pub mod bench;
pub mod board;
pub mod driver;
pub mod frames;
pub mod lists;
pub mod queue;
pub mod records;
pub mod register;
pub mod session;
pub mod shard;
pub mod sizes;
pub mod text;
pub mod trace;
