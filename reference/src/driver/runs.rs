//! The runs: each made from a seed and its number.

use super::mischief::any_address;
use super::random::Random;
use super::simulation::{Setup, Simulation};
use crate::bench::Deliver;
use crate::register::Register;
use crate::sizes::{LOG, LONGEST};

/// Records of a run behind the one that filled the log.
const BEHIND_FULL: usize = 1_500;

/// Every so many runs, each sort of run has occurred.
pub const CYCLE: u64 = 16;

/// A sort of run.
#[derive(Clone, Copy, Debug, PartialEq, Eq)]
pub enum Sort {
    /// Only frames really sent are delivered; held to demand 3.
    Honest,
    /// An honest run that drives the log to 256 entries.
    HonestFull,
    /// Mixed with damaged frames, wrong addresses and invented frames.
    Mixed,
    /// A mixed run that drives the log to 256 entries.
    MixedFull,
    /// Any bytes.
    Noise,
    /// A bad or missing n or m, or no record.
    Setup,
}

/// A finished run.
pub struct Run {
    /// Its sort.
    pub sort: Sort,
    /// What goes through both programs.
    pub input: Vec<u8>,
    /// How an honest run broke demand 3.
    pub fault: Option<String>,
}

/// The sort of run number `run`.
pub fn sort(run: u64) -> Sort {
    match run % CYCLE {
        0 => Sort::MixedFull,
        1 => Sort::HonestFull,
        2..=7 => Sort::Honest,
        8..=13 => Sort::Mixed,
        14 => Sort::Noise,
        _ => Sort::Setup,
    }
}

/// Makes run number `run` under `seed`.
pub fn make(seed: u64, run: u64) -> Run {
    make_with(Register::deliver, seed, run)
}

/// As [`make`], with frames delivered by `deliver`.
pub fn make_with(deliver: Deliver, seed: u64, run: u64) -> Run {
    let mut random = Random::new(seed, run);
    let sort = sort(run);
    let (input, fault) = match sort {
        Sort::Honest | Sort::HonestFull | Sort::Mixed | Sort::MixedFull => {
            simulate(deliver, &mut random, sort)
        }
        Sort::Noise => (noise(&mut random), None),
        Sort::Setup => (bad_setup(&mut random), None),
    };
    Run { sort, input, fault }
}

fn simulate(deliver: Deliver, random: &mut Random, sort: Sort) -> (Vec<u8>, Option<String>) {
    let full = matches!(sort, Sort::HonestFull | Sort::MixedFull);
    let mixed = matches!(sort, Sort::Mixed | Sort::MixedFull);
    let setup = if full {
        full_setup(random, mixed)
    } else {
        setup(random, mixed)
    };
    let mut simulation = Simulation::new(deliver, setup, random.clone());
    // A crowd of frames that come too early, or mischief that is taken, keeps a log from
    // filling.
    (simulation.crowd, simulation.harm) = if full {
        (random.among(&[2, 4, 8, 16]), 0)
    } else {
        (random.among(&[4, 20, 100]), random.among(&[0, 2, 100]))
    };
    // Mischief that is always refused changes no state, so demand 3 still holds.
    if !mixed || simulation.harm == 0 {
        simulation = simulation.watched();
    }
    let filled = if full { simulation.fill() } else { Ok(()) };
    if full {
        simulation.setup.records = simulation.records + BEHIND_FULL;
    }
    let fault = filled.and_then(|()| simulation.run()).err();
    let mut input = simulation.bench_input;
    if mixed && random.chance(60) {
        cut(random, &simulation.register, &mut input);
    }
    (input, fault)
}

fn setup(random: &mut Random, mixed: bool) -> Setup {
    Setup {
        n: random.byte(2..=8),
        m: random.byte(1..=8),
        clients: random.byte(1..=16),
        keys: random.among(&[1, 2, 8, 40, 256]),
        invocations: random.within(20..=250),
        records: random.within(200..=6_000),
        disorder: random.among(&[1, 2, 4, 16, 64, 1_000]),
        talk: random.within(2..=15),
        retry: random.within(5..=50),
        loss: random.among(&[0, 0, 2, 10]),
        // One lost ExecNotif can stop a client for good, so most runs lose none.
        notif_loss: random.among(&[0, 0, 1]),
        doubling: random.among(&[0, 5, 20]),
        late: random.among(&[0, 2, 10]),
        again: random.among(&[0, 50, 90]),
        mischief: if mixed { random.within(5..=60) } else { 0 },
    }
}

/// A network in which a log fills: every way of going wrong occurs, but not too often.
fn full_setup(random: &mut Random, mixed: bool) -> Setup {
    Setup {
        clients: random.byte(8..=16),
        invocations: LOG + 100,
        // Most take a tenth of that.
        records: 200_000,
        disorder: random.among(&[1, 1, 2, 4]),
        retry: random.within(5..=20),
        loss: random.among(&[0, 1, 2]),
        notif_loss: 0,
        doubling: random.among(&[0, 5]),
        late: random.among(&[0, 2]),
        again: 90,
        mischief: if mixed { random.within(5..=20) } else { 0 },
        ..setup(random, mixed)
    }
}

/// Ends an input within a record, or by a length over 36 with more behind it.
fn cut(random: &mut Random, register: &Register, input: &mut Vec<u8>) {
    let rest = input[2..].to_vec();
    input.push(any_address(random, register));
    if random.chance(50) {
        let length = random.byte(0..=LONGEST as u8);
        let mut record = vec![length, 0];
        record.extend((0..length).map(|_| random.byte(0..=255)));
        record.truncate(random.below(record.len()));
        input.extend(record);
    } else {
        let length = match random.below(4) {
            0 => 37,
            1 => random.within(37..=255),
            2 => 256 * random.within(1..=255) + random.within(0..=36),
            _ => random.within(37..=65_535),
        };
        input.extend((length as u16).to_le_bytes());
        input.extend(&rest[..random.below(rest.len() + 1)]);
    }
}

fn noise(random: &mut Random) -> Vec<u8> {
    let mut input = vec![random.byte(2..=8), random.byte(1..=8)];
    for _ in 0..random.within(1..=3_000) {
        let length = random.byte(0..=LONGEST as u8);
        input.push(random.among(&[1, 2, 3, 8, 9, 16, 17, 18, 24, 25, 33, 49, 65]));
        input.extend([length, 0]);
        input.extend((0..length).map(|at| match at {
            0 => random.byte(0..=7),
            1 => u8::from(random.chance(5)),
            _ if random.chance(50) => random.byte(0..=4),
            _ => random.byte(0..=255),
        }));
    }
    input
}

fn bad_setup(random: &mut Random) -> Vec<u8> {
    let n = random.byte(2..=8);
    let m = random.byte(1..=8);
    let bad_n = random.among(&[0, 1, 9, 10, 255]);
    let bad_m = random.among(&[0, 9, 10, 17, 255]);
    let mut input = match random.below(6) {
        0 => return Vec::new(),
        1 => return vec![n],
        2 => return vec![n, m],
        3 => vec![bad_n, m],
        4 => vec![n, bad_m],
        _ => vec![bad_n, bad_m],
    };
    input.extend(&noise(random)[2..]);
    input
}
