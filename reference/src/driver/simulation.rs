//! One register in a network that shuffles, doubles, delays and loses frames.

use super::demand3::Demand3;
use super::mischief;
use super::random::Random;
use crate::answers::{Answer, Refusal};
use crate::bench::Deliver;
use crate::board::Status;
use crate::lists::{Operation, Operations};
use crate::register::{board_address, shard_address, Receiver, Register};
use crate::session::Session;
use crate::sizes::{LOG, OUT_AREA};
use crate::trace::{client_address, invoke_record, retry_record};

/// A frame and whom it is for.
#[derive(Clone, Debug, PartialEq, Eq)]
pub struct Packet {
    /// An address as the trace has it: boards, shard groups, clients.
    pub address: u8,
    /// The frame.
    pub frame: Vec<u8>,
}

/// What a run is like. Rates are percents.
#[derive(Clone, Debug)]
pub struct Setup {
    /// Boards.
    pub n: u8,
    /// Shard groups.
    pub m: u8,
    /// How many of the clients take part.
    pub clients: u8,
    /// How many keys are in use: few keys meet often.
    pub keys: usize,
    /// How many transactions are invoked in all.
    pub invocations: usize,
    /// The run ends at so many records.
    pub records: usize,
    /// Among how many of the oldest frames under way the next one is drawn.
    pub disorder: usize,
    /// How often a client acts while frames are under way.
    pub talk: usize,
    /// How often a client that acts sends again rather than anew.
    pub retry: usize,
    /// How often a frame is lost.
    pub loss: usize,
    /// How often an ExecNotif is lost. A shard never sends one again, so its entry stays PRE.
    pub notif_loss: usize,
    /// How often a frame stays under way after it was delivered.
    pub doubling: usize,
    /// How often a frame that was delivered or lost before arrives once more.
    pub late: usize,
    /// How often a frame refused as too early comes once more.
    pub again: usize,
    /// How often something arrives that nobody sent.
    pub mischief: usize,
}

/// A run in progress.
pub struct Simulation {
    /// What the run is like.
    pub setup: Setup,
    /// With so many frames under way, clients wait and nothing comes twice. No bound at first.
    pub crowd: usize,
    /// How often mischief arrives even if it is taken, which may set logs at odds for good. A
    /// percent, 100 at first.
    pub harm: usize,
    /// The boards and shard groups.
    pub register: Register,
    /// The sessions of all clients.
    pub sessions: Vec<Session>,
    /// The bench input so far: what boards and shard groups were given.
    pub bench_input: Vec<u8>,
    /// The trace input so far: what sessions were given, too.
    pub trace_input: Vec<u8>,
    /// How many records the bench input has.
    pub records: usize,
    /// Every frame that was delivered or lost.
    pub past: Vec<Packet>,
    random: Random,
    under_way: Vec<Packet>,
    invoked: usize,
    deliver: Deliver,
    /// Holds an honest run to demand 3.
    watch: Option<Demand3>,
}

impl Simulation {
    /// A fresh register whose frames are delivered by `deliver`.
    pub fn new(deliver: Deliver, setup: Setup, random: Random) -> Self {
        let register = Register::start(setup.n, setup.m).expect("a setup within the sizes");
        Simulation {
            crowd: usize::MAX,
            harm: 100,
            register,
            sessions: (0..setup.clients).map(Session::start).collect(),
            bench_input: vec![setup.n, setup.m],
            trace_input: vec![setup.n, setup.m],
            records: 0,
            past: Vec::new(),
            random,
            under_way: Vec::new(),
            invoked: 0,
            deliver,
            watch: None,
            setup,
        }
    }

    /// The same, held to demand 3 from here on.
    pub fn watched(mut self) -> Self {
        self.watch = Some(Demand3::new(self.setup.m, self.sessions.len()));
        self
    }

    /// Runs to the end, or to the first fault found.
    pub fn run(&mut self) -> Result<(), String> {
        while self.records < self.setup.records && !self.is_quiet() {
            self.turn()?;
        }
        Ok(())
    }

    /// Runs until the first log has 256 entries, which is a fault if it takes too many records.
    pub fn fill(&mut self) -> Result<(), String> {
        while self.register.boards[0].log().len() < LOG {
            if self.records >= self.setup.records {
                return Err("the log was to be filled, and wasn't".into());
            }
            self.turn()?;
        }
        Ok(())
    }

    /// All is invoked, answered and delivered.
    pub fn is_quiet(&self) -> bool {
        self.invoked == self.setup.invocations
            && self.under_way.is_empty()
            && self
                .sessions
                .iter()
                .all(|session| session.outstanding().is_empty())
    }

    /// One event of the run.
    pub fn turn(&mut self) -> Result<(), String> {
        let crowded = self.is_crowded();
        if self.random.chance(self.setup.mischief) {
            self.mischief_acts()
        } else if !crowded && !self.past.is_empty() && self.random.chance(self.setup.late) {
            let late = self.random.below(self.past.len());
            let packet = self.past[late].clone();
            self.deliver(&packet)
        } else if self.under_way.is_empty() || (!crowded && self.random.chance(self.setup.talk)) {
            self.client_acts();
            Ok(())
        } else {
            self.network_acts()
        }
    }

    fn client_acts(&mut self) {
        let client = self.random.below(self.sessions.len());
        let anew = self.invoked < self.setup.invocations && !self.random.chance(self.setup.retry);
        if anew && self.invoke(client) {
            return;
        }
        match self.needed() {
            Some((client, number)) if self.random.chance(70) => self.retry(client, number),
            _ => {
                let outstanding = self.sessions[client].outstanding();
                if !outstanding.is_empty() {
                    let number = outstanding[self.random.below(outstanding.len())].number;
                    self.retry(client, number);
                }
            }
        }
    }

    /// The outstanding number that holds up the chain: the first entry that a board lacks, else
    /// the first that is PRE on the first board. Numbers drawn at random mostly meet refusal 4.
    fn needed(&self) -> Option<(usize, u16)> {
        let boards = &self.register.boards;
        let first = boards[0].log();
        let shortest = boards.iter().map(|board| board.log().len()).min()?;
        let entry = first
            .get(shortest)
            .or_else(|| first.iter().find(|entry| entry.status == Status::Pre))?;
        let session = self.sessions.get(usize::from(entry.client))?;
        let mut outstanding = session.outstanding().iter();
        outstanding
            .any(|kept| kept.number == entry.number)
            .then_some((usize::from(entry.client), entry.number))
    }

    fn invoke(&mut self, client: usize) -> bool {
        let operations: Operations = operations(&mut self.random, self.setup.keys);
        let mut out = [0; OUT_AREA];
        let answer = self.sessions[client].invoke(&operations, &mut out);
        self.trace_input
            .extend(invoke_record(client as u8, &operations));
        if answer.answer != 0 {
            return false;
        }
        self.invoked += 1;
        if let Some(watch) = &mut self.watch {
            watch.invoked(client, operations);
        }
        self.send(client_address(client as u8), &out, &answer);
        true
    }

    fn retry(&mut self, client: usize, number: u16) {
        let mut out = [0; OUT_AREA];
        let answer = self.sessions[client].retry(number, &mut out);
        self.trace_input.extend(retry_record(client as u8, number));
        self.send(client_address(client as u8), &out, &answer);
    }

    fn is_crowded(&self) -> bool {
        self.under_way.len() >= self.crowd
    }

    fn network_acts(&mut self) -> Result<(), String> {
        let reach = self.setup.disorder.clamp(1, self.under_way.len());
        let at = self.random.below(reach);
        let notif = self.under_way[at].frame[2] == 4;
        let loss = if notif {
            self.setup.notif_loss
        } else {
            self.setup.loss
        };
        if self.random.chance(loss) {
            self.past.push(self.under_way.remove(at));
            return Ok(());
        }
        let packet = self.under_way[at].clone();
        if self.is_crowded() || !self.random.chance(self.setup.doubling) {
            self.past.push(self.under_way.remove(at));
        }
        self.deliver(&packet)
    }

    fn mischief_acts(&mut self) -> Result<(), String> {
        let packet = mischief::packet(&mut self.random, &self.register, &self.past);
        if !self.random.chance(self.harm) && mischief::is_taken(&self.register, &packet) {
            return Ok(());
        }
        let mut out = [0; OUT_AREA];
        let answer = self.deliver_to_register(&packet, &mut out)?;
        self.send(packet.address, &out, &answer);
        Ok(())
    }

    /// Delivers a frame that was really sent, and puts what is sent in turn under way.
    fn deliver(&mut self, packet: &Packet) -> Result<(), String> {
        let client = usize::from(packet.address.wrapping_sub(client_address(0)));
        if client < self.sessions.len() {
            return self.deliver_to_session(packet, client);
        }
        let mut out = [0; OUT_AREA];
        let answer = self.deliver_to_register(packet, &mut out)?;
        if let Some(watch) = &self.watch {
            watch.answered(&packet.frame, answer.answer)?;
        }
        self.send(packet.address, &out, &answer);
        let early = answer.answer == Refusal::TooEarly as u8;
        if early && !self.is_crowded() && self.random.chance(self.setup.again) {
            self.under_way.push(packet.clone());
        }
        Ok(())
    }

    /// Delivers any frame to a board, a shard group or nobody; what is sent stands in `out`.
    pub fn deliver_to_register(
        &mut self,
        Packet { address, frame }: &Packet,
        out: &mut [u8; OUT_AREA],
    ) -> Result<Answer, String> {
        for input in [&mut self.bench_input, &mut self.trace_input] {
            input.push(*address);
            input.extend(frame);
        }
        self.records += 1;

        let untouched = *out;
        let answer = (self.deliver)(&mut self.register, *address, frame, out);
        if out[answer.bytes..] != untouched[answer.bytes..] {
            return Err("a byte past the frames was written".into());
        }
        if let Some(watch) = &mut self.watch {
            match self.register.receiver(*address) {
                Receiver::Board(board) => {
                    watch.board_stepped(&self.register, &self.sessions, board)?
                }
                Receiver::Shard(shard) => {
                    watch.shard_stepped(&self.register.shards[shard], shard)?
                }
                Receiver::Nobody => {}
            }
        }
        Ok(answer)
    }

    fn deliver_to_session(&mut self, packet: &Packet, client: usize) -> Result<(), String> {
        let Packet { address, frame } = packet;
        self.trace_input.push(*address);
        self.trace_input.extend(frame);
        let reply = self.sessions[client].response(frame);
        if let Some(watch) = &self.watch {
            watch.answered(frame, reply.answer)?;
            if reply.answer == 0 {
                watch.replied(client, frame, &reply.reads)?;
            }
        }
        Ok(())
    }

    /// Puts the frames in an out area under way.
    fn send(&mut self, from: u8, out: &[u8], answer: &Answer) {
        for frame in split(&out[..answer.bytes]) {
            self.under_way.push(Packet {
                address: destination(from, self.setup.n, frame),
                frame: frame.to_vec(),
            });
        }
    }
}

/// A transaction over the first `keys` keys.
pub fn operations(random: &mut Random, keys: usize) -> Operations {
    (0..random.within(1..=4))
        .map(|_| {
            let key = random.below(keys) as u8;
            if random.chance(50) {
                Operation::get(key)
            } else {
                Operation::put(key, random.value())
            }
        })
        .collect()
}

/// The frames that stand back to back in `bytes`.
pub fn split(bytes: &[u8]) -> impl Iterator<Item = &[u8]> {
    let mut rest = bytes;
    std::iter::from_fn(move || {
        let length = rest
            .first_chunk()
            .map(|&length| u16::from_le_bytes(length))?;
        let (frame, behind) = rest.split_at(2 + usize::from(length));
        rest = behind;
        Some(frame)
    })
}

/// Whom a frame is for, sent from `from` in a chain of `n`: the table of "Frames".
fn destination(from: u8, n: u8, frame: &[u8]) -> u8 {
    match frame[2] {
        1 => board_address(1),
        2 => from + 1,
        3 => shard_address(frame[4]),
        4 => board_address(n),
        5 => from - 1,
        _ => client_address(frame[4]),
    }
}
