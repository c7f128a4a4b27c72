//! A whole register over the library: the boards, shard groups and sessions that addresses name.

use std::fmt;

use crate::ffi::CLIENTS;
use crate::{Board, Session, Shard};

/// The boards 1..n, the shard groups 1..m and the sessions of all clients.
#[derive(Debug)]
pub struct Register {
    /// The boards, head first.
    pub boards: Vec<Board>,
    /// The shard groups.
    pub shards: Vec<Shard>,
    /// The sessions, by client.
    pub sessions: Vec<Session>,
}

/// Whom an address byte names, by the place in the register's lists.
#[derive(Clone, Copy, Debug, PartialEq, Eq, Hash)]
pub enum Receiver {
    /// A board takes a frame.
    Board(usize),
    /// A shard group takes a frame.
    Shard(usize),
    /// A client's session takes a frame.
    Session(usize),
    /// A client's session invokes.
    Invokes(usize),
    /// A client's session retries.
    Retries(usize),
    /// Nobody.
    Nobody,
}

/// The first address of each sort.
const BOARD: u8 = 1;
const SHARD: u8 = 17;
const SESSION: u8 = 33;
const INVOKES: u8 = 49;
const RETRIES: u8 = 65;

impl Receiver {
    /// Whom `address` names in a chain of `n` boards over `m` shard groups.
    pub fn of(address: u8, n: u8, m: u8) -> Self {
        let place = |first: u8, count: usize| {
            let place = usize::from(address.checked_sub(first)?);
            (place < count).then_some(place)
        };
        let named = [
            place(BOARD, n.into()).map(Receiver::Board),
            place(SHARD, m.into()).map(Receiver::Shard),
            place(SESSION, CLIENTS).map(Receiver::Session),
            place(INVOKES, CLIENTS).map(Receiver::Invokes),
            place(RETRIES, CLIENTS).map(Receiver::Retries),
        ];
        let found = named.into_iter().flatten().next();
        found.unwrap_or(Receiver::Nobody)
    }

    /// The address that names it; 0 for nobody.
    pub fn address(self) -> u8 {
        match self {
            Receiver::Board(at) => BOARD + at as u8,
            Receiver::Shard(at) => SHARD + at as u8,
            Receiver::Session(at) => SESSION + at as u8,
            Receiver::Invokes(at) => INVOKES + at as u8,
            Receiver::Retries(at) => RETRIES + at as u8,
            Receiver::Nobody => 0,
        }
    }

    /// Whom a well-formed `frame` is for that this one sent in a chain of `n`: the table of
    /// "Frames".
    pub fn of_sent(self, frame: &[u8], n: u8) -> Self {
        let first = frame.get(4).map_or(0, |&byte| usize::from(byte));
        match (frame.get(2), self) {
            (Some(1), _) => Receiver::Board(0),
            (Some(2), Receiver::Board(at)) => Receiver::Board(at + 1),
            (Some(3), _) => Receiver::Shard(first.wrapping_sub(1)),
            (Some(4), _) => Receiver::Board(usize::from(n) - 1),
            (Some(5), Receiver::Board(at)) => Receiver::Board(at.wrapping_sub(1)),
            (Some(6), _) => Receiver::Session(first),
            _ => Receiver::Nobody,
        }
    }
}

impl fmt::Display for Receiver {
    fn fmt(&self, f: &mut fmt::Formatter<'_>) -> fmt::Result {
        match self {
            Receiver::Board(at) => write!(f, "board {}", at + 1),
            Receiver::Shard(at) => write!(f, "shard {}", at + 1),
            Receiver::Session(at) | Receiver::Invokes(at) | Receiver::Retries(at) => {
                write!(f, "client {at}")
            }
            Receiver::Nobody => write!(f, "nobody"),
        }
    }
}

impl Register {
    /// A fresh register, or none with n or m out of range.
    pub fn start(n: u8, m: u8) -> Option<Self> {
        fn started<T>((agent, answer): (T, u8)) -> Option<T> {
            (answer == 0).then_some(agent)
        }
        // Board 1 and shard group 1 are in range exactly where n and m are.
        started(Board::start(n, m, 1))?;
        Some(Register {
            boards: (1..=n)
                .map(|own| started(Board::start(n, m, own)))
                .collect::<Option<_>>()?,
            shards: (1..=m)
                .map(|own| started(Shard::start(m, own)))
                .collect::<Option<_>>()?,
            sessions: (0..CLIENTS as u8)
                .map(|client| started(Session::start(client)))
                .collect::<Option<_>>()?,
        })
    }

    /// Boards in the chain.
    pub fn n(&self) -> u8 {
        self.boards.len() as u8
    }

    /// Shard groups.
    pub fn m(&self) -> u8 {
        self.shards.len() as u8
    }
}
