//! A whole register: the boards and shard groups that addresses name.

use crate::answers::{Answer, Refusal};
use crate::board::Board;
use crate::shard::Shard;
use crate::sizes::{BOARDS, SHARDS};

/// The boards 1..n and the shard groups 1..m.
#[derive(Clone, Debug, PartialEq, Eq)]
pub struct Register {
    /// The boards, head first.
    pub boards: Vec<Board>,
    /// The shard groups.
    pub shards: Vec<Shard>,
}

/// Whom an address byte names in a register.
#[derive(Clone, Copy, Debug, PartialEq, Eq)]
pub enum Receiver {
    /// The board at this place in `boards`.
    Board(usize),
    /// The shard group at this place in `shards`.
    Shard(usize),
    /// Nobody.
    Nobody,
}

/// The address of board 1 is 1, that of shard 1 is 17.
const FIRST_BOARD: u8 = 1;
const FIRST_SHARD: u8 = 17;

/// The address of board `own`.
pub fn board_address(own: u8) -> u8 {
    FIRST_BOARD + own - 1
}

/// The address of shard `own`.
pub fn shard_address(own: u8) -> u8 {
    FIRST_SHARD + own - 1
}

impl Register {
    /// A fresh register, or none with n or m out of range.
    pub fn start(n: u8, m: u8) -> Option<Self> {
        let fits = BOARDS.contains(&n) && SHARDS.contains(&m);
        fits.then(|| Register {
            boards: (1..=n).map(|own| Board::start(n, m, own)).collect(),
            shards: (1..=m).map(|own| Shard::start(m, own)).collect(),
        })
    }

    /// Whom `address` names.
    pub fn receiver(&self, address: u8) -> Receiver {
        let place = |first: u8, count: usize| {
            let place = usize::from(address.checked_sub(first)?);
            (place < count).then_some(place)
        };
        if let Some(board) = place(FIRST_BOARD, self.boards.len()) {
            Receiver::Board(board)
        } else if let Some(shard) = place(FIRST_SHARD, self.shards.len()) {
            Receiver::Shard(shard)
        } else {
            Receiver::Nobody
        }
    }

    /// Delivers a frame. An address that names nobody is answered 2 without looking at it.
    pub fn deliver(&mut self, address: u8, frame: &[u8], out: &mut [u8]) -> Answer {
        match self.receiver(address) {
            Receiver::Board(board) => self.boards[board].step(frame, out),
            Receiver::Shard(shard) => self.shards[shard].step(frame, out),
            Receiver::Nobody => Refusal::NotForReceiver.into(),
        }
    }
}
