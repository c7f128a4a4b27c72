//! The runs: each made from a seed and its number.

use reference::driver::mischief;
use reference::driver::random::Random;
use reference::driver::simulation::{operations, Packet, Setup, Simulation};
use reference::records::{Record, Records};
use reference::register::Register;
use reference::sizes::LOG;

use super::session_runs;
use super::starts;
use super::table::Table;
use super::world::{Call, World};
use crate::ffi::{Asked, Operations, CLIENTS};
use crate::register::Receiver;
use crate::trace::invoked;

/// Records of a run behind the one that filled the log.
const BEHIND_FULL: usize = 3_000;
/// Calls between two comparisons of all states.
const INTERVAL: u64 = 512;
/// Frames that a mischievous run keeps at most, to deliver them again.
const KEPT: usize = 400;

/// Every so many runs, each sort of run has occurred.
pub const CYCLE: u64 = 32;

/// A sort of run.
#[derive(Clone, Copy, Debug, PartialEq, Eq)]
pub enum Sort {
    /// Only frames really sent are delivered: shuffled, doubled, late, lost.
    Honest,
    /// An honest run that drives the log to 256 entries.
    HonestFull,
    /// Mixed with damaged frames, wrong addresses and invented frames.
    Mixed,
    /// A mixed run that drives the log to 256 entries.
    MixedFull,
    /// Mostly frames that nobody sent, to sessions as well, taken or not.
    Mischief,
    /// Starts in any memory, most of them refused, and calls on what was not started.
    Starts,
    /// A session that uses up its numbers.
    Numbers,
}

/// The sort of run number `run`.
pub fn sort(run: u64) -> Sort {
    match run % CYCLE {
        0 | 16 => Sort::MixedFull,
        1 | 17 => Sort::HonestFull,
        2 => Sort::Numbers,
        3 | 18 => Sort::Starts,
        4..=6 | 19..=21 => Sort::Mischief,
        7..=11 | 22..=26 => Sort::Honest,
        _ => Sort::Mixed,
    }
}

/// What came of a run.
pub struct Played {
    /// Its sort.
    pub sort: Sort,
    /// How many calls it made on each side.
    pub calls: u64,
    /// The calls that change a state, as an input of the trace; empty for starts.
    pub input: Vec<u8>,
    /// The first difference.
    pub difference: Option<String>,
}

/// Plays run number `run` under `seed`.
pub fn play(seed: u64, run: u64, table: &mut Table) -> Played {
    let sort = sort(run);
    let mut random = Random::new(seed, run);
    if sort == Sort::Starts {
        let (calls, difference) = starts::play(&mut random, table);
        return Played {
            sort,
            calls,
            input: Vec::new(),
            difference: difference.err(),
        };
    }
    let plan = Plan::new(sort, &mut random);
    let mut world = match World::start(plan.n, plan.m, random, table) {
        Ok(world) => world,
        Err(fault) => {
            return Played {
                sort,
                calls: 0,
                input: vec![plan.n, plan.m],
                difference: Some(format!("at the start: {fault}")),
            }
        }
    };
    let played = plan.play(&mut world).and_then(|()| {
        let after = world.calls;
        let compared = world.compare_all();
        compared.map_err(|fault| format!("behind step {after}: {fault}"))
    });
    Played {
        sort,
        calls: world.calls,
        input: world.input,
        difference: played.err(),
    }
}

/// A run that is still to be played.
struct Plan {
    sort: Sort,
    n: u8,
    m: u8,
    /// The records of a simulated run.
    simulated: Vec<u8>,
    /// How often a call of our own comes between two records. A percent.
    extras: usize,
}

impl Plan {
    fn new(sort: Sort, random: &mut Random) -> Self {
        let mut plan = Plan {
            sort,
            n: random.byte(2..=8),
            m: random.byte(1..=8),
            simulated: Vec::new(),
            extras: random.among(&[0, 5, 20, 50]),
        };
        if let Sort::Honest | Sort::HonestFull | Sort::Mixed | Sort::MixedFull = sort {
            plan.simulated = plan.simulate(random);
        }
        plan
    }

    /// A run of the second program, as an input of the trace.
    fn simulate(&self, random: &mut Random) -> Vec<u8> {
        let full = matches!(self.sort, Sort::HonestFull | Sort::MixedFull);
        let mixed = matches!(self.sort, Sort::Mixed | Sort::MixedFull);
        let setup = self.setup(random, full, mixed);
        let mut simulation = Simulation::new(Register::deliver, setup, random.clone());
        // A crowd of frames that come too early, or mischief that is taken, keeps a log from
        // filling.
        (simulation.crowd, simulation.harm) = if full {
            (random.among(&[2, 4, 8, 16]), 0)
        } else {
            (random.among(&[4, 20, 100]), random.among(&[0, 2, 100]))
        };
        // Nothing is watched here, so nothing is found; a log that doesn't fill is run as it is.
        if full && simulation.fill().is_ok() {
            simulation.setup.records = simulation.records + BEHIND_FULL;
        }
        let _ = simulation.run();
        simulation.trace_input
    }

    fn setup(&self, random: &mut Random, full: bool, mixed: bool) -> Setup {
        let setup = Setup {
            n: self.n,
            m: self.m,
            clients: random.byte(1..=16),
            keys: random.among(&[1, 2, 8, 40, 256]),
            invocations: random.within(20..=250),
            records: random.within(1_000..=16_000),
            disorder: random.among(&[1, 2, 4, 16, 64, 1_000]),
            talk: random.within(2..=15),
            retry: random.within(5..=50),
            loss: random.among(&[0, 0, 2, 10]),
            // One lost ExecNotif can stop a client for good, so most runs lose none.
            notif_loss: random.among(&[0, 0, 1]),
            doubling: random.among(&[0, 5, 20]),
            late: random.among(&[0, 2, 10]),
            again: random.among(&[0, 50, 90]),
            mischief: if mixed { random.within(5..=60) } else { 0 },
        };
        if !full {
            return setup;
        }
        // A network in which a log fills: every way of going wrong occurs, but not too often.
        Setup {
            clients: random.byte(8..=16),
            invocations: LOG + 100,
            records: 200_000,
            disorder: random.among(&[1, 1, 2, 4]),
            retry: random.within(5..=20),
            loss: random.among(&[0, 1, 2]),
            notif_loss: 0,
            doubling: random.among(&[0, 5]),
            late: random.among(&[0, 2]),
            again: 90,
            mischief: if mixed { random.within(5..=20) } else { 0 },
            ..setup
        }
    }

    fn play(&self, world: &mut World) -> Result<(), String> {
        match self.sort {
            Sort::Mischief => mischief(world),
            Sort::Numbers => session_runs::use_up_numbers(world),
            _ => self.replay(world),
        }
    }

    /// Makes the calls of the simulated run, with others in between that the trace can't make or
    /// that a simulation doesn't.
    fn replay(&self, world: &mut World) -> Result<(), String> {
        let mut records = Records::new(&self.simulated[..]);
        records.setup().expect("memory can be read");
        let mut compared = 0;
        while let Record::Frame { address, frame } =
            records.next_record().expect("memory can be read")
        {
            let receiver = Receiver::of(address, world.n(), world.m());
            let Some(call) = call_of(receiver, frame) else {
                continue;
            };
            if world.random.chance(self.extras) {
                extra(world, &call)?;
            }
            world.call(&call)?;
            if world.calls >= compared + INTERVAL {
                compared = world.calls;
                world.compare_all()?;
            }
        }
        Ok(())
    }
}

/// The call that a record of the trace asks for, if it asks for one.
fn call_of(receiver: Receiver, record: &[u8]) -> Option<Call> {
    match receiver {
        Receiver::Nobody => None,
        Receiver::Invokes(client) => Some(Call::Invokes(client, invoked(&record[2..])?)),
        Receiver::Retries(client) => match record[2..] {
            [low, high] => Some(Call::Retries(client, u16::from_le_bytes([low, high]))),
            _ => None,
        },
        receiver => Some(Call::Takes(receiver, record.to_vec())),
    }
}

/// A call beside the run: with too small an out area, with a slice that isn't a frame, or on a
/// session.
fn extra(world: &mut World, next: &Call) -> Result<(), String> {
    match world.random.below(6) {
        0 | 1 => world.call_with_too_little(next),
        2 | 3 => match next {
            Call::Takes(receiver, frame) => {
                let frame = misshapen(&mut world.random, frame);
                world.call(&Call::Takes(*receiver, frame)).map(drop)
            }
            _ => session_runs::bad_call(world),
        },
        4 => {
            let (n, m) = (world.n(), world.m());
            let receiver = anybody(&mut world.random, n, m);
            let frame = noise(&mut world.random);
            world.call(&Call::Takes(receiver, frame)).map(drop)
        }
        _ => session_runs::bad_call(world),
    }
}

/// A frame cut, or with more behind it, its length as before.
fn misshapen(random: &mut Random, frame: &[u8]) -> Vec<u8> {
    let mut frame = frame.to_vec();
    if random.chance(50) {
        frame.truncate(random.below(frame.len()));
    } else {
        for _ in 0..random.within(1..=60) {
            frame.push(random.byte(0..=255));
        }
    }
    frame
}

/// Any bytes of any length, most often under a kind there is.
fn noise(random: &mut Random) -> Vec<u8> {
    let length = random.below(100);
    let mut frame: Vec<u8> = (0..length).map(|_| random.byte(0..=255)).collect();
    if length >= 4 && random.chance(90) {
        frame[..4].copy_from_slice(&[length as u8 - 2, 0, random.byte(0..=8), 0]);
    }
    frame
}

fn anybody(random: &mut Random, n: u8, m: u8) -> Receiver {
    match random.below(3) {
        0 => Receiver::Board(random.below(n.into())),
        1 => Receiver::Shard(random.below(m.into())),
        _ => Receiver::Session(random.below(CLIENTS)),
    }
}

/// Frames crafted, damaged and repeated, whatever they do to the states.
fn mischief(world: &mut World) -> Result<(), String> {
    let (n, m) = (world.n(), world.m());
    let keys = world.random.among(&[2, 16, 256]);
    let mut kept: Vec<Packet> = Vec::new();
    for step in 1..=world.random.within(2_000..=20_000) as u64 {
        let (from, call) = match world.random.below(10) {
            0..=3 if !kept.is_empty() => {
                let packet = kept[world.random.below(kept.len())].clone();
                takes(Receiver::of(packet.address, n, m), packet.frame)
            }
            4..=6 => {
                let packet = mischief::packet(&mut world.random, &world.second, &kept);
                takes(Receiver::of(packet.address, n, m), packet.frame)
            }
            7 => {
                session_runs::bad_call(world)?;
                continue;
            }
            8 => {
                let client = world.random.below(CLIENTS);
                let outstanding = world.sessions[client].outstanding();
                let number = outstanding.first().map_or(0, |kept| kept.number);
                let from = Receiver::Retries(client);
                (from, Call::Retries(client, number))
            }
            _ => {
                let client = world.random.below(CLIENTS);
                let list = list(&operations(&mut world.random, keys));
                (Receiver::Invokes(client), Call::Invokes(client, list))
            }
        };
        if matches!(call, Call::Takes(Receiver::Nobody, _)) {
            continue;
        }
        if world.random.chance(5) {
            extra(world, &call)?;
        }
        let answer = world.call(&call)?;
        for packet in world.sent(from, &answer) {
            if kept.len() < KEPT {
                kept.push(packet);
            } else {
                let at = world.random.below(KEPT);
                kept[at] = packet;
            }
        }
        if step % INTERVAL == 0 {
            world.compare_all()?;
        }
    }
    Ok(())
}

fn takes(receiver: Receiver, frame: Vec<u8>) -> (Receiver, Call) {
    (receiver, Call::Takes(receiver, frame))
}

/// The second program's operations as a list for the library.
pub fn list(operations: &[reference::lists::Operation]) -> Operations {
    Operations::of(operations.iter().map(|operation| Asked {
        code: operation.action,
        key: operation.key,
        value: operation.value,
    }))
}
