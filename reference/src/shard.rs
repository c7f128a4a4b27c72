//! 01, section "A shard group".

use crate::answers::{Answer, Refusal, Sent};
use crate::frames::{ExecNotif, Frame, Out, ShardAppend};
use crate::lists::{Read, Reads};
use crate::sizes::{shard_of, KEYS, OUT_AREA, SHARDS};

/// What a shard holds under a present key.
#[derive(Clone, Copy, Debug, PartialEq, Eq)]
pub struct Stored {
    /// The value.
    pub value: u32,
    /// The log number of the entry that put it.
    pub log_number: u8,
}

/// A shard group's state.
#[derive(Clone, Debug, PartialEq, Eq)]
pub struct Shard {
    started: bool,
    m: u8,
    own: u8,
    pub(crate) ssn: u16,
    pub(crate) last_run: Option<u8>,
    pub(crate) keys: [Option<Stored>; KEYS],
}

impl Shard {
    /// Shard group `own` of `m`. With a number out of range the empty state marked as not
    /// started (answer 11).
    pub fn start(m: u8, own: u8) -> Self {
        let started = SHARDS.contains(&m) && (1..=m).contains(&own);
        Shard {
            started,
            m: if started { m } else { 0 },
            own: if started { own } else { 0 },
            ssn: 0,
            last_run: None,
            keys: [None; KEYS],
        }
    }

    /// Whether the start was taken.
    pub fn started(&self) -> bool {
        self.started
    }

    /// How many ShardAppends have run.
    pub fn ssn(&self) -> u16 {
        self.ssn
    }

    /// The log number of the last entry run.
    pub fn last_run(&self) -> Option<u8> {
        self.last_run
    }

    /// What stands under each key.
    pub fn keys(&self) -> &[Option<Stored>; KEYS] {
        &self.keys
    }

    /// Takes one frame and writes the frame it sends to `out`.
    pub fn step(&mut self, frame: &[u8], out: &mut [u8]) -> Answer {
        self.take(frame, out).into()
    }

    fn take(&mut self, frame: &[u8], out: &mut [u8]) -> Result<Sent, Refusal> {
        if !self.started || out.len() < OUT_AREA {
            return Err(Refusal::NotStarted);
        }
        match Frame::read(frame).ok_or(Refusal::Malformed)? {
            Frame::ShardAppend(append) if append.shard == self.own => self.append(&append, out),
            _ => Err(Refusal::NotForReceiver),
        }
    }

    fn append(&mut self, append: &ShardAppend, out: &mut [u8]) -> Result<Sent, Refusal> {
        if append.sn <= self.ssn {
            return Err(Refusal::NotAwaited);
        }
        if append.sn > self.ssn + 1 {
            return Err(Refusal::TooEarly);
        }
        let own_keys = append
            .operations
            .iter()
            .all(|placed| shard_of(placed.operation.key, self.m) == self.own);
        // None is below every log number.
        if !own_keys || Some(append.log_number) <= self.last_run {
            return Err(Refusal::DoesNotFit);
        }

        let reads = self.run(append);
        self.ssn = append.sn;
        self.last_run = Some(append.log_number);

        let mut out = Out::new(out);
        out.send(Frame::ExecNotif(ExecNotif {
            shard: self.own,
            log_number: append.log_number,
            reads,
        }));
        Ok(out.sent())
    }

    /// Runs the operations in order: a get sees earlier puts of the same list.
    fn run(&mut self, append: &ShardAppend) -> Reads {
        let mut reads = Reads::default();
        for placed in append.operations.iter() {
            let key = &mut self.keys[usize::from(placed.operation.key)];
            if placed.operation.is_get() {
                reads.push(Read {
                    place: placed.place,
                    value: key.map(|stored| stored.value),
                });
            } else {
                *key = Some(Stored {
                    value: placed.operation.value,
                    log_number: append.log_number,
                });
            }
        }
        reads
    }
}
