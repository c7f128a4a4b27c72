//! Mixed traffic for the speed comparison.

use super::mischief::resized;
use super::random::Random;
use super::simulation::{Packet, Setup, Simulation};
use crate::board::Status;
use crate::register::{board_address, shard_address, Register};
use crate::sizes::{LOG, OUT_AREA};

/// How many of the latest Submits repeats are mostly drawn from: the older ones stand below
/// their client's floor and are only refused.
const LATEST: usize = 48;

/// A bench input of `records` records for a chain of `n` and `m` shard groups.
///
/// A log holds at most 256 entries, so the honest run that fills it is spread over the whole
/// input. Between its deliveries frames of kinds 1 to 5 arrive again, as many of each; a fifth
/// of them are spoilt, so that they are refused.
pub fn traffic(n: u8, m: u8, records: usize, seed: u64) -> Result<Vec<u8>, String> {
    let setup = Setup {
        n,
        m,
        clients: 16,
        keys: 256,
        invocations: LOG + 8,
        records,
        disorder: 1,
        talk: 10,
        retry: 0,
        loss: 0,
        notif_loss: 0,
        doubling: 0,
        late: 0,
        again: 0,
        mischief: 0,
    };
    let mut random = Random::new(seed, 0);
    let mut simulation = Simulation::new(Register::deliver, setup, Random::new(seed, 1));
    let pace = (records / honest_events(n)).max(1);
    // Where the frames of each kind stand among those delivered.
    let mut by_kind: [Vec<usize>; 7] = Default::default();
    let mut sorted = 0;
    let mut out = [0; OUT_AREA];
    while simulation.records < records {
        if random.below(pace) == 0 && !is_executed(&simulation) {
            simulation.turn()?;
            for (at, packet) in simulation.past.iter().enumerate().skip(sorted) {
                by_kind[usize::from(packet.frame[2])].push(at);
            }
            sorted = simulation.past.len();
        }
        let kind = random.within(1..=5);
        if let Some(at) = repeat(&mut random, kind, &by_kind[kind]) {
            let mut packet = simulation.past[at].clone();
            if random.chance(20) {
                packet = spoilt(&mut random, packet);
            }
            // What a repeat sends was sent before, so it goes nowhere.
            simulation.deliver_to_register(&packet, &mut out)?;
        }
    }
    Ok(simulation.bench_input)
}

/// The first log is full and all of it is EXE.
fn is_executed(simulation: &Simulation) -> bool {
    let log = simulation.register.boards[0].log();
    log.len() == LOG && log.iter().all(|entry| entry.status == Status::Exe)
}

/// Roughly the events of an honest run that fills the log.
fn honest_events(n: u8) -> usize {
    LOG * (2 * usize::from(n) + 16)
}

/// Which frame of a kind arrives again.
fn repeat(random: &mut Random, kind: usize, delivered: &[usize]) -> Option<usize> {
    let latest = if kind == 1 && random.chance(75) {
        LATEST
    } else {
        delivered.len()
    };
    let choice = &delivered[delivered.len().saturating_sub(latest)..];
    (!choice.is_empty()).then(|| random.among(choice))
}

/// A frame that is refused where the given one was taken: malformed, for another receiver, too
/// far ahead, or at odds with what is held.
fn spoilt(random: &mut Random, mut packet: Packet) -> Packet {
    let kind = packet.frame[2];
    match random.below(5) {
        0 | 1 => return resized(random, packet),
        2 => {
            packet.address = if kind == 3 {
                board_address(1)
            } else {
                shard_address(1)
            }
        }
        3 => match kind {
            1 => packet.frame[5..9].copy_from_slice(&[0, 200, 0, 200]),
            2 => packet.frame[4] = 255,
            3 => packet.frame[7..9].copy_from_slice(&[0, 1]),
            4 => packet.frame[5] = 255,
            _ => packet.frame[4] = 255,
        },
        _ => match kind {
            1 => packet.frame[11] ^= 1,
            2 => packet.frame[13] ^= 1,
            _ => {}
        },
    }
    packet
}

#[cfg(test)]
mod tests {
    use super::*;
    use crate::bench::bench;

    #[test]
    fn traffic_fills_the_log_and_is_mixed() {
        let input = traffic(3, 3, 40_000, 1).unwrap();
        let output = String::from_utf8(bench(&input)).unwrap();
        let count = |start: &str| {
            output
                .lines()
                .filter(|line| line.starts_with(start))
                .count()
        };
        assert_eq!(count("d"), 40_000);
        assert_eq!([count("L1 "), count("L2 "), count("L3 ")], [256; 3]);
        let answers = |answer: &str| {
            let answered =
                |line: &&str| line.starts_with('d') && line.split(' ').nth(1) == Some(answer);
            output.lines().filter(answered).count()
        };
        assert!(answers("0") > 10_000);
        for refusal in ["1", "2", "3", "4", "5", "6", "7", "8"] {
            assert!(answers(refusal) > 50, "{refusal}: {}", answers(refusal));
        }
    }
}
