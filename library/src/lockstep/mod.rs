//! The library and the second program in lockstep: every call is made on both.
//!
//! After a call the answers are compared, every byte of both out areas and around them, and every
//! field of the record with what the second program's state makes of it.

pub mod compared;
pub mod expected;
pub mod lent;
pub mod runs;
pub mod session_runs;
pub mod starts;
pub mod table;
pub mod world;
