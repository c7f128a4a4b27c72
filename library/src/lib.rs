//! Rust over the proved library.
//!
//! [`Board`], [`Shard`] and [`Session`] own the records that the library is lent for one call. A
//! record comes from a start alone and is changed by the library alone; here it can only be looked
//! at. `lockstep` holds the library to the second program, call by call; `trace` prints and draws
//! a run.

pub mod board;
pub mod chart;
pub mod ffi;
pub mod lists;
pub mod lockstep;
pub mod memory;
pub mod register;
pub mod session;
pub mod shard;
pub mod text;
pub mod trace;
pub mod whole;

pub use board::Board;
pub use memory::{Memory, Raw};
pub use session::Session;
pub use shard::Shard;
