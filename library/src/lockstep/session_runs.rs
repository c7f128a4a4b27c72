//! Calls on sessions that a simulation doesn't make.

use reference::driver::random::Random;
use reference::driver::simulation::operations;
use reference::frames::{Frame, Response};
use reference::lists::{Operation, Read, Reads};
use reference::sizes::{LAST_NUMBER, WINDOW};

use super::runs::list;
use super::world::{Call, World};
use crate::ffi::{Operations, CLIENTS};
use crate::register::Receiver;

/// A call on a session that is mostly refused: a bad list, a number that isn't outstanding, a
/// Response that comes too late, doesn't fit or isn't its own.
pub fn bad_call(world: &mut World) -> Result<(), String> {
    let client = world.random.below(CLIENTS);
    let call = match world.random.below(4) {
        0 => Call::Invokes(client, bad_list(&mut world.random)),
        1 => Call::Retries(client, number_near(world, client)),
        _ => {
            let frame = response_near(world, client);
            Call::Takes(Receiver::Session(client), frame)
        }
    };
    world.call(&call).map(drop)
}

/// A list that breaks a rule: its count, an operation's code, or a get with a value. What lies
/// behind its end is anything.
fn bad_list(random: &mut Random) -> Operations {
    let mut list = list(&operations(random, 256));
    for slot in list.items.iter_mut().skip(list.count.into()) {
        (slot.code, slot.key) = (random.byte(0..=255), random.byte(0..=255));
        slot.value = random.value();
    }
    let at = random.below(list.count.into());
    match random.below(3) {
        0 => list.count = random.among(&[0, 5, 6, 255]),
        1 => list.items[at].code = random.byte(2..=255),
        _ => {
            list.items[at].code = 0;
            list.items[at].value = random.value().max(1);
        }
    }
    list
}

/// An outstanding number, or one nearby, or any.
fn number_near(world: &mut World, client: usize) -> u16 {
    let session = &world.sessions[client];
    let next = session.next();
    let random = &mut world.random;
    match random.below(4) {
        0 => random.within(0..=usize::from(u16::MAX)) as u16,
        1 => next,
        _ => next.saturating_sub(random.below(usize::from(WINDOW) + 3) as u16),
    }
}

/// A Response with fields close to what the session waits for.
fn response_near(world: &mut World, client: usize) -> Vec<u8> {
    let number = number_near(world, client).min(LAST_NUMBER);
    let mut outstanding = world.sessions[client].outstanding().iter();
    let kept = outstanding.find(|kept| kept.number == number);
    let gets: Vec<u8> = kept.map_or(Vec::new(), |kept| {
        let placed = kept.operations.placed();
        let gets = placed.filter(|placed| placed.operation.is_get());
        gets.map(|placed| placed.place).collect()
    });
    let random = &mut world.random;
    // Most fit nothing: a window that is answered too readily never fills.
    let fits = random.chance(10);
    let mut reads = Reads::default();
    for place in 0..4 {
        if gets.contains(&place) == fits || random.chance(20) {
            let value = random.chance(70).then(|| random.value());
            reads.push(Read { place, value });
        }
    }
    let own = if random.chance(90) {
        client as u8
    } else {
        random.byte(0..=15)
    };
    let mut frame = response(own, number, reads);
    if random.chance(20) {
        let at = random.below(frame.len());
        frame[at] = random.byte(0..=255);
    }
    frame
}

fn response(client: u8, number: u16, reads: Reads) -> Vec<u8> {
    let response = Frame::Response(Response {
        client,
        number,
        reads,
    });
    response.to_bytes()
}

/// One session invokes and is answered until its numbers are used up.
pub fn use_up_numbers(world: &mut World) -> Result<(), String> {
    let client = world.random.below(CLIENTS);
    let takes = Receiver::Session(client);
    while world.sessions[client].next() <= LAST_NUMBER {
        // Mostly fills the window first, now and then leaves it half empty.
        let invocations = world.random.within(1..=usize::from(WINDOW) + 1);
        for _ in 0..invocations {
            let operation = Operation::put(world.random.byte(0..=255), world.random.value());
            world.call(&Call::Invokes(client, list(&[operation])))?;
        }
        if world.random.chance(5) {
            bad_call(world)?;
        }
        while let Some(kept) = any_outstanding(world, client) {
            let frame = response(client as u8, kept, Reads::default());
            world.call(&Call::Takes(takes, frame))?;
            if world.random.chance(5) {
                break;
            }
        }
    }
    for _ in 0..20 {
        let operations = operations(&mut world.random, 256);
        world.call(&Call::Invokes(client, list(&operations)))?;
        let number = number_near(world, client);
        world.call(&Call::Retries(client, number))?;
    }
    while let Some(kept) = any_outstanding(world, client) {
        world.call(&Call::Retries(client, kept))?;
        let frame = response(client as u8, kept, Reads::default());
        world.call(&Call::Takes(takes, frame))?;
        let list = list(&[Operation::get(0)]);
        world.call(&Call::Invokes(client, list))?;
    }
    Ok(())
}

fn any_outstanding(world: &mut World, client: usize) -> Option<u16> {
    let outstanding = world.sessions[client].outstanding();
    if outstanding.is_empty() {
        return None;
    }
    Some(outstanding[world.random.below(outstanding.len())].number)
}
