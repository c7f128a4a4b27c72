//! 01, section "A board".

use crate::answers::{Answer, Refusal, Sent};
use crate::frames::{ExecNotif, Executed, Forward, Frame, Out, Response, ShardAppend, Submit};
use crate::lists::{Operations, Reads};
use crate::queue::Queue;
use crate::sizes::{Shards, BOARDS, CLIENTS, LOG, OUT_AREA, SHARDS};

/// How far an entry has come on this board.
#[derive(Clone, Copy, Debug, PartialEq, Eq)]
pub enum Status {
    /// PRE: not known to have run on all its shards.
    Pre,
    /// EXE: run on all its shards, reads complete.
    Exe,
}

/// An entry of a board's log.
#[derive(Clone, Debug, PartialEq, Eq)]
pub struct Entry {
    /// The client.
    pub client: u8,
    /// The client's number.
    pub number: u16,
    /// The transaction.
    pub operations: Operations,
    /// PRE or EXE.
    pub status: Status,
    /// The reads known so far, by rising place.
    pub reads: Reads,
    /// The shards still to be heard from.
    pub remaining: Shards,
    touched: Shards,
    /// Per shard: how many entries of the log up to this one touch it.
    sn: [u16; 8],
}

/// What a board knows of a client.
#[derive(Clone, Debug, Default, PartialEq, Eq)]
pub(crate) struct Client {
    /// The largest ack taken.
    pub(crate) floor: u16,
    /// Where the client's numbers 0, 1, .. high stand in the log: a new number is high + 1 and
    /// the log frees none, so all up to high are held.
    pub(crate) log_numbers: Vec<u8>,
}

/// A board's state.
#[derive(Clone, Debug, Default, PartialEq, Eq)]
pub struct Board {
    started: bool,
    n: u8,
    m: u8,
    own: u8,
    pub(crate) log: Vec<Entry>,
    pub(crate) clients: [Client; CLIENTS as usize],
    pub(crate) queues: [Queue; 8],
    /// Per shard: how many entries of the log touch it.
    touching: [u16; 8],
}

impl Board {
    /// Board `own` of a chain of `n` with `m` shard groups. With a number out of range the
    /// empty state marked as not started (answer 11).
    pub fn start(n: u8, m: u8, own: u8) -> Self {
        if !BOARDS.contains(&n) || !SHARDS.contains(&m) || !(1..=n).contains(&own) {
            return Board::default();
        }
        Board {
            started: true,
            n,
            m,
            own,
            ..Board::default()
        }
    }

    /// Whether the start was taken.
    pub fn started(&self) -> bool {
        self.started
    }

    /// The log.
    pub fn log(&self) -> &[Entry] {
        &self.log
    }

    /// The largest number of `client` in the log.
    pub fn high(&self, client: u8) -> Option<u16> {
        (self.next_number(client) as u16).checked_sub(1)
    }

    /// The largest ack taken from `client`.
    pub fn floor(&self, client: u8) -> u16 {
        self.clients[usize::from(client)].floor
    }

    /// The queue of `shard`.
    pub fn queue(&self, shard: u8) -> &Queue {
        &self.queues[index(shard)]
    }

    /// Takes one frame and writes the frames it sends to `out`.
    pub fn step(&mut self, frame: &[u8], out: &mut [u8]) -> Answer {
        self.take(frame, out).into()
    }

    fn take(&mut self, frame: &[u8], out: &mut [u8]) -> Result<Sent, Refusal> {
        if !self.started || out.len() < OUT_AREA {
            return Err(Refusal::NotStarted);
        }
        let frame = Frame::read(frame).ok_or(Refusal::Malformed)?;
        let mut out = Out::new(out);
        match frame {
            Frame::Submit(submit) if self.is_head() => self.submit(&submit, &mut out),
            Frame::Forward(forward) if !self.is_head() => self.forward(&forward, &mut out),
            Frame::ExecNotif(notif) if self.is_tail() && notif.shard <= self.m => {
                self.exec_notif(&notif, &mut out)
            }
            Frame::Executed(executed) if !self.is_tail() => self.executed(&executed, &mut out),
            _ => Err(Refusal::NotForReceiver),
        }?;
        Ok(out.sent())
    }

    fn submit(&mut self, submit: &Submit, out: &mut Out) -> Result<(), Refusal> {
        let number = usize::from(submit.number);
        let next_number = self.next_number(submit.client);
        if submit.number < self.floor(submit.client) {
            return Err(Refusal::BelowFloor);
        }
        if number > next_number {
            return Err(Refusal::TooEarly);
        }
        let log_number = if number < next_number {
            let held = self.clients[usize::from(submit.client)].log_numbers[number];
            if self.log[usize::from(held)].operations != submit.operations {
                return Err(Refusal::DoesNotFit);
            }
            held
        } else {
            if self.log.len() == LOG {
                return Err(Refusal::LogFull);
            }
            self.append(submit)
        };
        self.raise_floor(submit);

        let entry = &self.log[usize::from(log_number)];
        match entry.status {
            Status::Pre => self.send_forward(log_number, out),
            Status::Exe => out.send(Frame::Response(Response {
                client: entry.client,
                number: entry.number,
                reads: entry.reads,
            })),
        }
        Ok(())
    }

    fn forward(&mut self, forward: &Forward, out: &mut Out) -> Result<(), Refusal> {
        let submit = &forward.submit;
        let log_number = usize::from(forward.log_number);
        if log_number > self.log.len() {
            return Err(Refusal::TooEarly);
        }
        match self.log.get(log_number) {
            Some(held) => {
                if held.client != submit.client
                    || held.number != submit.number
                    || held.operations != submit.operations
                {
                    return Err(Refusal::DoesNotFit);
                }
            }
            None => {
                if usize::from(submit.number) != self.next_number(submit.client) {
                    return Err(Refusal::DoesNotFit);
                }
                self.append(submit);
            }
        }
        self.raise_floor(submit);

        if self.log[log_number].status == Status::Exe {
            self.send_executed(forward.log_number, out);
        } else if !self.is_tail() {
            self.send_forward(forward.log_number, out);
        } else {
            self.send_shard_appends(forward.log_number, out);
        }
        Ok(())
    }

    fn exec_notif(&mut self, notif: &ExecNotif, out: &mut Out) -> Result<(), Refusal> {
        let entry = self
            .log
            .get_mut(usize::from(notif.log_number))
            .ok_or(Refusal::NotInLog)?;
        if !entry.remaining.contains(notif.shard) {
            return Err(Refusal::NotAwaited);
        }
        if !notif
            .reads
            .answer(entry.operations.on_shard(notif.shard, self.m))
        {
            return Err(Refusal::DoesNotFit);
        }
        self.queues[index(notif.shard)].take_up_to(notif.log_number);
        entry.remaining.strike(notif.shard);
        entry.reads.merge(&notif.reads);
        if entry.remaining.is_empty() {
            entry.status = Status::Exe;
            self.send_executed(notif.log_number, out);
        }
        Ok(())
    }

    fn executed(&mut self, executed: &Executed, out: &mut Out) -> Result<(), Refusal> {
        let entry = self
            .log
            .get_mut(usize::from(executed.log_number))
            .ok_or(Refusal::NotInLog)?;
        if entry.status == Status::Exe {
            return Err(Refusal::NotAwaited);
        }
        if !executed.reads.answer(entry.operations.placed()) {
            return Err(Refusal::DoesNotFit);
        }
        for shard in entry.touched.iter() {
            self.queues[index(shard)].take_up_to(executed.log_number);
        }
        entry.status = Status::Exe;
        entry.reads = executed.reads;
        entry.remaining = Shards::default();
        if self.own == 1 {
            out.send(Frame::Response(Response {
                client: entry.client,
                number: entry.number,
                reads: entry.reads,
            }));
        } else {
            self.send_executed(executed.log_number, out);
        }
        Ok(())
    }

    fn is_head(&self) -> bool {
        self.own == 1
    }

    fn is_tail(&self) -> bool {
        self.own == self.n
    }

    /// The client's high + 1.
    fn next_number(&self, client: u8) -> usize {
        self.clients[usize::from(client)].log_numbers.len()
    }

    /// Appends a new number as PRE, queues it for each touched shard, and gives its log number.
    fn append(&mut self, submit: &Submit) -> u8 {
        let log_number = self.log.len() as u8;
        let touched = submit.operations.touched(self.m);
        for shard in touched.iter() {
            self.queues[index(shard)].append(log_number);
            self.touching[index(shard)] += 1;
        }
        self.log.push(Entry {
            client: submit.client,
            number: submit.number,
            operations: submit.operations,
            status: Status::Pre,
            reads: Reads::default(),
            remaining: touched,
            touched,
            sn: self.touching,
        });
        self.clients[usize::from(submit.client)]
            .log_numbers
            .push(log_number);
        log_number
    }

    fn raise_floor(&mut self, submit: &Submit) {
        let floor = &mut self.clients[usize::from(submit.client)].floor;
        *floor = submit.ack.max(*floor);
    }

    fn send_forward(&self, log_number: u8, out: &mut Out) {
        let entry = &self.log[usize::from(log_number)];
        out.send(Frame::Forward(Forward {
            log_number,
            submit: Submit {
                client: entry.client,
                number: entry.number,
                ack: self.floor(entry.client).min(entry.number),
                operations: entry.operations,
            },
        }));
    }

    fn send_shard_appends(&self, log_number: u8, out: &mut Out) {
        let entry = &self.log[usize::from(log_number)];
        for shard in entry.remaining.iter() {
            out.send(Frame::ShardAppend(ShardAppend {
                shard,
                log_number,
                sn: entry.sn[index(shard)],
                operations: entry.operations.on_shard(shard, self.m).collect(),
            }));
        }
    }

    fn send_executed(&self, log_number: u8, out: &mut Out) {
        let reads = self.log[usize::from(log_number)].reads;
        out.send(Frame::Executed(Executed { log_number, reads }));
    }
}

/// Shards are numbered from 1.
fn index(shard: u8) -> usize {
    usize::from(shard) - 1
}
