//! Demand 3, held after every delivery of an honest run.
//!
//! A step changes the one that took the frame and nobody else, so what is checked after each
//! delivery is that one's whole state against its neighbours and against the first log, run
//! one transaction at a time.

use crate::board::{Board, Entry};
use crate::frames::Frame;
use crate::lists::{Operations, Read, Reads};
use crate::register::Register;
use crate::session::Session;
use crate::shard::{Shard, Stored};
use crate::sizes::{shard_of, KEYS};

/// Answers that frames really sent never meet.
const NEVER: [u8; 4] = [1, 2, 6, 8];

/// An entry of the first log and what its gets find when the log is run.
struct Ran {
    client: u8,
    number: u16,
    operations: Operations,
    reads: Reads,
}

/// A shard's keys after running the first log through the last entry the shard ran.
struct Expected {
    last_run: Option<u8>,
    keys: [Option<Stored>; KEYS],
}

/// The history an honest run is held to.
pub struct Demand3 {
    m: u8,
    /// Per client what it invoked, in order.
    invoked: Vec<Vec<Operations>>,
    /// The first log, run one transaction at a time.
    first_log: Vec<Ran>,
    /// Per client where its entries stand in the first log.
    entries: Vec<Vec<usize>>,
    /// The keys behind the last transaction of the first log.
    keys: [Option<u32>; KEYS],
    shards: Vec<Expected>,
}

fn same(a: &Entry, b: &Entry) -> bool {
    a.client == b.client && a.number == b.number && a.operations == b.operations
}

fn hold(condition: bool, fault: impl FnOnce() -> String) -> Result<(), String> {
    if condition {
        Ok(())
    } else {
        Err(fault())
    }
}

impl Demand3 {
    /// The history of a register with `m` shard groups before anything happened.
    pub fn new(m: u8, clients: usize) -> Self {
        Demand3 {
            m,
            invoked: vec![Vec::new(); clients],
            first_log: Vec::new(),
            entries: vec![Vec::new(); clients],
            keys: [None; KEYS],
            shards: (0..m)
                .map(|_| Expected {
                    last_run: None,
                    keys: [None; KEYS],
                })
                .collect(),
        }
    }

    /// A client has invoked its next number.
    pub fn invoked(&mut self, client: usize, operations: Operations) {
        self.invoked[client].push(operations);
    }

    /// A frame that was really sent has been answered.
    pub fn answered(&self, frame: &[u8], answer: u8) -> Result<(), String> {
        hold(!NEVER.contains(&answer), || {
            format!("answer {answer} to {frame:02x?}, which was really sent")
        })
    }

    /// Board `board` (from 0) has taken a frame.
    pub fn board_stepped(
        &mut self,
        register: &Register,
        sessions: &[Session],
        board: usize,
    ) -> Result<(), String> {
        let boards = &register.boards;
        if board == 0 {
            self.extend_first_log(&boards[0])?;
        } else {
            prefix(boards, board)?;
        }
        if board + 1 < boards.len() {
            prefix(boards, board + 1)?;
        }
        for (client, session) in (0..).zip(sessions) {
            let smallest = session.smallest_outstanding().unwrap_or(session.next());
            hold(boards[board].floor(client) <= smallest, || {
                format!(
                    "board {}: floor of client {client} above {smallest}",
                    board + 1
                )
            })?;
        }
        for shard in 1..=self.m {
            self.queue_rule(&boards[board], shard)
                .map_err(|fault| format!("board {}: {fault}", board + 1))?;
        }
        Ok(())
    }

    /// Each client's entries in the first log are its first invocations, numbered 0, 1, 2 and
    /// so on, in order, each once; and what stands in it stays.
    fn extend_first_log(&mut self, head: &Board) -> Result<(), String> {
        hold(head.log().len() >= self.first_log.len(), || {
            "the first log lost an entry".into()
        })?;
        for (at, entry) in head.log().iter().enumerate() {
            match self.first_log.get(at) {
                Some(ran) => hold(
                    ran.client == entry.client
                        && ran.number == entry.number
                        && ran.operations == entry.operations,
                    || format!("entry {at} of the first log changed"),
                )?,
                None => self.run(at, entry)?,
            }
        }
        Ok(())
    }

    /// Runs a new entry of the first log.
    fn run(&mut self, at: usize, entry: &Entry) -> Result<(), String> {
        let client = usize::from(entry.client);
        let number = self.entries[client].len();
        hold(
            usize::from(entry.number) == number
                && self.invoked[client].get(number) == Some(&entry.operations),
            || format!("entry {at} of the first log isn't invocation {number} of client {client}"),
        )?;
        self.entries[client].push(at);
        let mut reads = Reads::default();
        for placed in entry.operations.placed() {
            let key = &mut self.keys[usize::from(placed.operation.key)];
            if placed.operation.is_get() {
                reads.push(Read {
                    place: placed.place,
                    value: *key,
                });
            } else {
                *key = Some(placed.operation.value);
            }
        }
        self.first_log.push(Ran {
            client: entry.client,
            number: entry.number,
            operations: entry.operations,
            reads,
        });
        Ok(())
    }

    /// The queue is exactly the log numbers touching the shard above the last taken, rising.
    fn queue_rule(&self, board: &Board, shard: u8) -> Result<(), String> {
        let queue = board.queue(shard);
        let above = queue.last_taken().map_or(0, |last| usize::from(last) + 1);
        let touching = board
            .log()
            .iter()
            .enumerate()
            .skip(above)
            .filter(|(_, entry)| {
                entry
                    .operations
                    .iter()
                    .any(|operation| shard_of(operation.key, self.m) == shard)
            });
        let numbers = touching.map(|(log_number, _)| log_number);
        hold(queue.numbers().map(usize::from).eq(numbers), || {
            format!("queue {shard} isn't the touching numbers above the last taken")
        })
    }

    /// Shard `at` (from 0) has taken a frame: its keys, values and log numbers, are those of
    /// running the first log through the last entry it ran.
    pub fn shard_stepped(&mut self, shard: &Shard, at: usize) -> Result<(), String> {
        let own = at as u8 + 1;
        let expected = &mut self.shards[at];
        hold(shard.last_run() >= expected.last_run, || {
            format!("shard {own} went back")
        })?;
        let from = expected.last_run.map_or(0, |last| usize::from(last) + 1);
        let to = shard.last_run().map_or(0, |last| usize::from(last) + 1);
        hold(to <= self.first_log.len(), || {
            format!("shard {own} ran what isn't in the first log")
        })?;
        for log_number in from..to {
            for operation in self.first_log[log_number].operations.iter() {
                if !operation.is_get() && shard_of(operation.key, self.m) == own {
                    expected.keys[usize::from(operation.key)] = Some(Stored {
                        value: operation.value,
                        log_number: log_number as u8,
                    });
                }
            }
        }
        if let Some(last) = shard.last_run() {
            let operations = &self.first_log[usize::from(last)].operations;
            hold(operations.touched(self.m).contains(own), || {
                format!("shard {own} ran entry {last}, which doesn't touch it")
            })?;
        }
        expected.last_run = shard.last_run();
        hold(*shard.keys() == expected.keys, || {
            format!("the keys of shard {own} aren't those of the first log")
        })
    }

    /// A client has taken a Response: its reads are those the first log gives for its number.
    pub fn replied(&self, client: usize, frame: &[u8], reads: &Reads) -> Result<(), String> {
        let ran = match Frame::read(frame) {
            Some(Frame::Response(response)) => {
                self.entries[client].get(usize::from(response.number))
            }
            _ => None,
        };
        hold(
            ran.is_some_and(|&at| self.first_log[at].reads == *reads),
            || format!("client {client} took {frame:02x?}, other reads than the first log gives"),
        )
    }
}

/// A board's log is a prefix of its predecessor's.
fn prefix(boards: &[Board], board: usize) -> Result<(), String> {
    let (before, log) = (boards[board - 1].log(), boards[board].log());
    let fits = log.len() <= before.len() && log.iter().zip(before).all(|(a, b)| same(a, b));
    hold(fits, || {
        format!(
            "the log of board {} isn't a prefix of its predecessor's",
            board + 1
        )
    })
}
