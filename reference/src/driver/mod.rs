//! Shuffled runs of whole registers: made from a seed, held to demand 3, and compared with the
//! program under test.

pub mod compare;
pub mod demand3;
pub mod mischief;
pub mod random;
pub mod runs;
pub mod simulation;
pub mod table;
pub mod traffic;

#[cfg(test)]
mod mutants;
