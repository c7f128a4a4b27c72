//! A whole register on both sides.

use reference::answers::{Answer, Refusal};
use reference::driver::random::Random;
use reference::driver::simulation::{split, Packet};
use reference::register::Register;
use reference::session::Session;
use reference::sizes::{CLIENTS, LONGEST};
use reference::trace::retry_record;

use super::compared::{ComparedBoard, ComparedSession, ComparedShard};
use super::lent::{any_memory, enough, too_small, Areas};
use super::table::{Row, Table};
use crate::ffi::{Operations, OUT};
use crate::register::Receiver;
use crate::text;

/// A call that is made on both sides.
#[derive(Clone, Debug)]
pub enum Call {
    /// Somebody takes a frame.
    Takes(Receiver, Vec<u8>),
    /// A client's session invokes.
    Invokes(usize, Operations),
    /// A client's session retries a number.
    Retries(usize, u16),
}

/// The boards, shard groups and sessions of a run, each started in any memory.
pub struct World<'a> {
    /// The second program's boards and shard groups.
    pub second: Register,
    /// The second program's sessions.
    pub sessions: Vec<Session>,
    /// What the run draws from.
    pub random: Random,
    /// The calls so far that change a state, as an input of the trace.
    pub input: Vec<u8>,
    /// How many calls were made.
    pub calls: u64,
    boards: Vec<ComparedBoard>,
    shards: Vec<ComparedShard>,
    clients: Vec<ComparedSession>,
    areas: Areas,
    table: &'a mut Table,
}

impl<'a> World<'a> {
    /// Starts everybody.
    pub fn start(n: u8, m: u8, mut random: Random, table: &'a mut Table) -> Result<Self, String> {
        let (mut boards, mut second_boards) = (Vec::new(), Vec::new());
        for own in 1..=n {
            let (board, second) = ComparedBoard::start(any_memory(&mut random), (n, m, own))?;
            boards.push(board);
            second_boards.push(second);
        }
        let (mut shards, mut second_shards) = (Vec::new(), Vec::new());
        for own in 1..=m {
            let (shard, second) = ComparedShard::start(any_memory(&mut random), (m, own))?;
            shards.push(shard);
            second_shards.push(second);
        }
        let (mut clients, mut sessions) = (Vec::new(), Vec::new());
        for client in 0..CLIENTS {
            let (session, second) = ComparedSession::start(any_memory(&mut random), client)?;
            clients.push(session);
            sessions.push(second);
        }
        for _ in 0..boards.len() + shards.len() + clients.len() {
            table.add(Row::Start, 0);
        }
        Ok(World {
            second: Register {
                boards: second_boards,
                shards: second_shards,
            },
            sessions,
            random,
            input: vec![n, m],
            calls: 0,
            boards,
            shards,
            clients,
            areas: Areas::new(),
            table,
        })
    }

    /// Boards in the chain.
    pub fn n(&self) -> u8 {
        self.boards.len() as u8
    }

    /// Shard groups.
    pub fn m(&self) -> u8 {
        self.shards.len() as u8
    }

    /// Makes a call with an out area that is large enough.
    pub fn call(&mut self, call: &Call) -> Result<Answer, String> {
        let length = enough(&mut self.random);
        self.record(call);
        self.make(call, length)
    }

    /// Makes a call with an out area that is too small. A Response step has none, and isn't made.
    pub fn call_with_too_little(&mut self, call: &Call) -> Result<(), String> {
        if matches!(call, Call::Takes(Receiver::Session(_), _)) {
            return Ok(());
        }
        let length = too_small(&mut self.random);
        self.make(call, length).map(drop)
    }

    /// The frames that the last call sent, which was answered `answer`, and whom they are for.
    pub fn sent(&self, from: Receiver, answer: &Answer) -> Vec<Packet> {
        let frames = split(self.areas.written(answer.bytes));
        let packets = frames.map(|frame| Packet {
            address: from.of_sent(frame, self.n()).address(),
            frame: frame.to_vec(),
        });
        packets.collect()
    }

    fn make(&mut self, call: &Call, length: usize) -> Result<Answer, String> {
        self.areas.renew(&mut self.random, length);
        self.calls += 1;
        let (row, made) = match call {
            Call::Takes(receiver, frame) => (Row::of(frame), self.take(*receiver, frame)),
            Call::Invokes(client, operations) => {
                let second = &mut self.sessions[*client];
                let made = self.clients[*client].invoke(second, *operations, &mut self.areas);
                (Row::Invoke, made)
            }
            Call::Retries(client, number) => {
                let second = &mut self.sessions[*client];
                let made = self.clients[*client].retry(second, *number, &mut self.areas);
                (Row::Retry, made)
            }
        };
        match made {
            Ok(answer) => {
                self.table.add(row, answer.answer);
                Ok(answer)
            }
            Err(fault) => Err(format!(
                "step {}: {}, out area of {length} bytes: {fault}",
                self.calls,
                described(call)
            )),
        }
    }

    fn take(&mut self, receiver: Receiver, frame: &[u8]) -> Result<Answer, String> {
        match receiver {
            Receiver::Board(at) => {
                let second = &mut self.second.boards[at];
                self.boards[at].step(second, frame, &mut self.areas)
            }
            Receiver::Shard(at) => {
                let second = &mut self.second.shards[at];
                self.shards[at].step(second, frame, &mut self.areas)
            }
            Receiver::Session(at) => self.clients[at].response(&mut self.sessions[at], frame),
            _ => Ok(Refusal::NotForReceiver.into()),
        }
    }

    /// Holds every field of every record to the second program's states, and the lines that the
    /// trace makes of them.
    pub fn compare_all(&mut self) -> Result<(), String> {
        let (n, m) = (self.n(), self.m());
        let mut library = String::new();
        for (board, second) in self.boards.iter_mut().zip(&self.second.boards) {
            board.compare(second)?;
            text::board_lines(&mut library, board.library());
        }
        for (shard, second) in self.shards.iter_mut().zip(&self.second.shards) {
            shard.compare(second)?;
            text::shard_line(&mut library, shard.library());
        }
        for (client, second) in self.clients.iter_mut().zip(&self.sessions) {
            client.compare(second)?;
            text::session_line(&mut library, client.library());
        }
        let second = reference::text::state(&self.second, &self.sessions);
        if library != second {
            return Err(format!(
                "chain {n} shards {m}: {}",
                first_line(&library, &second)
            ));
        }
        Ok(())
    }

    /// Keeps a call for the trace. One that the trace can't make is refused, and changes nothing.
    fn record(&mut self, call: &Call) {
        match call {
            Call::Takes(receiver, frame) => {
                let length = frame
                    .first_chunk()
                    .map(|&length| u16::from_le_bytes(length));
                let whole = length.is_some_and(|length| usize::from(length) + 2 == frame.len());
                if whole && frame.len() <= 2 + LONGEST {
                    self.input.push(receiver.address());
                    self.input.extend(frame);
                }
            }
            Call::Invokes(client, operations) => {
                let slots = operations.items.map(|asked| reference::lists::Operation {
                    action: asked.code,
                    key: asked.key,
                    value: asked.value,
                });
                let mut record = reference::trace::invoke_record(*client as u8, &slots);
                record[3] = operations.count;
                self.input.extend(record);
            }
            Call::Retries(client, number) => {
                self.input.extend(retry_record(*client as u8, *number));
            }
        }
    }
}

fn described(call: &Call) -> String {
    match call {
        Call::Takes(receiver, frame) => {
            format!("{receiver} takes {}", text::hexadecimal(frame))
        }
        Call::Invokes(client, operations) => format!("client {client} invokes {operations:?}"),
        Call::Retries(client, number) => format!("client {client} retries {number}"),
    }
}

fn first_line(library: &str, second: &str) -> String {
    let mut lines = library.lines().zip(second.lines());
    match lines.find(|(library, second)| library != second) {
        Some((library, second)) => format!("the state is `{library}`, not `{second}`"),
        None => "one state has more lines than the other".into(),
    }
}

/// The least out area is the second program's, too.
const _: () = assert!(OUT == reference::sizes::OUT_AREA);
