//! Starts in any memory, each with a twin in other memory: nothing of the old bytes may be seen
//! afterwards.

use reference::driver::random::Random;
use reference::driver::simulation::operations;
use reference::frames::{Executed, Frame};
use reference::lists::Reads;

use super::compared::{ComparedBoard, ComparedSession, ComparedShard};
use super::lent::{any_memory, enough, Areas};
use super::runs::list;
use super::table::{Row, Table};
use crate::memory::{Memory, Record};

/// Starts of each kind in a run.
const STARTS: usize = 400;
/// Calls on what was not started.
const CALLS: usize = 3;

/// Plays a run of starts, and gives how many calls it made.
pub fn play(random: &mut Random, table: &mut Table) -> (u64, Result<(), String>) {
    let before = table.calls();
    let played = (1..=STARTS).try_for_each(|start| {
        let played = boards(random, table)
            .and_then(|()| shards(random, table))
            .and_then(|()| sessions(random, table));
        played.map_err(|fault| format!("step {start}: {fault}"))
    });
    (table.calls() - before, played)
}

/// A number that is mostly near the ends of 1..8.
fn near(random: &mut Random) -> u8 {
    match random.below(4) {
        0 => random.among(&[0, 1, 2, 8, 9, 255]),
        1 => random.byte(0..=255),
        _ => random.byte(1..=8),
    }
}

fn boards(random: &mut Random, table: &mut Table) -> Result<(), String> {
    let setup = (near(random), near(random), near(random));
    let named = |fault| format!("board_start{setup:?}: {fault}");
    let started = ComparedBoard::start(any_memory(random), setup);
    let (mut board, mut second) = started.map_err(named)?;
    let started = ComparedBoard::start(any_memory(random), setup);
    let (mut twin, mut second_twin) = started.map_err(named)?;
    count_starts(table, second.started());
    let mut areas = Areas::new();
    for _ in 0..CALLS {
        let frame = any_frame(random);
        for (board, second) in [(&mut board, &mut second), (&mut twin, &mut second_twin)] {
            let length = enough(random);
            areas.renew(random, length);
            let answer = board.step(second, &frame, &mut areas).map_err(named)?;
            table.add(Row::of(&frame), answer.answer);
        }
        alike(board.library().memory(), twin.library().memory()).map_err(named)?;
    }
    Ok(())
}

fn shards(random: &mut Random, table: &mut Table) -> Result<(), String> {
    let setup = (near(random), near(random));
    let named = |fault| format!("shard_start{setup:?}: {fault}");
    let started = ComparedShard::start(any_memory(random), setup);
    let (mut shard, mut second) = started.map_err(named)?;
    let started = ComparedShard::start(any_memory(random), setup);
    let (mut twin, mut second_twin) = started.map_err(named)?;
    count_starts(table, second.started());
    let mut areas = Areas::new();
    for _ in 0..CALLS {
        let frame = any_frame(random);
        for (shard, second) in [(&mut shard, &mut second), (&mut twin, &mut second_twin)] {
            let length = enough(random);
            areas.renew(random, length);
            let answer = shard.step(second, &frame, &mut areas).map_err(named)?;
            table.add(Row::of(&frame), answer.answer);
        }
        alike(shard.library().memory(), twin.library().memory()).map_err(named)?;
    }
    Ok(())
}

fn sessions(random: &mut Random, table: &mut Table) -> Result<(), String> {
    let client = match random.below(3) {
        0 => random.byte(0..=255),
        1 => random.among(&[0, 15, 16, 17, 255]),
        _ => random.byte(0..=15),
    };
    let named = |fault| format!("session_start({client}): {fault}");
    let started = ComparedSession::start(any_memory(random), client);
    let (mut session, mut second) = started.map_err(named)?;
    let started = ComparedSession::start(any_memory(random), client);
    let (mut twin, mut second_twin) = started.map_err(named)?;
    count_starts(table, second.started());
    let operations = list(&operations(random, 256));
    let number = random.byte(0..=1).into();
    let frame = any_frame(random);
    let mut areas = Areas::new();
    for (session, second) in [(&mut session, &mut second), (&mut twin, &mut second_twin)] {
        let length = enough(random);
        areas.renew(random, length);
        let answer = session
            .invoke(second, operations, &mut areas)
            .map_err(named)?;
        table.add(Row::Invoke, answer.answer);
        areas.renew(random, length);
        let answer = session.retry(second, number, &mut areas).map_err(named)?;
        table.add(Row::Retry, answer.answer);
        let answer = session.response(second, &frame).map_err(named)?;
        table.add(Row::of(&frame), answer.answer);
    }
    alike(session.library().memory(), twin.library().memory()).map_err(named)
}

/// Counts a start and its twin.
fn count_starts(table: &mut Table, started: bool) {
    for _ in 0..2 {
        table.add(Row::Start, if started { 0 } else { 11 });
    }
}

/// A frame that a board could take, or one with another kind.
fn any_frame(random: &mut Random) -> Vec<u8> {
    let reads = Reads::default();
    let mut frame = Frame::Executed(Executed {
        log_number: 0,
        reads,
    })
    .to_bytes();
    if random.chance(80) {
        frame[2] = random.byte(0..=7);
    }
    frame
}

/// Two records that were started in different memory have the same fields.
fn alike<R: Record>(first: &Memory<R>, twin: &Memory<R>) -> Result<(), String> {
    match first.difference(twin) {
        Some(difference) => Err(format!("the memory's old bytes are seen: {difference}")),
        None => Ok(()),
    }
}
