//! Frames that nobody sent, or that were sent to somebody else.
//!
//! Each has a length of at most 36 that fits its bytes, so that the bench's next record still
//! begins where it should.

use super::random::Random;
use super::simulation::{operations, Packet};
use crate::board::Board;
use crate::frames::{ExecNotif, Executed, Forward, Frame, ShardAppend, Submit};
use crate::lists::{Operation, Placed, Read, Reads};
use crate::register::{board_address, shard_address, Receiver, Register};
use crate::shard::Shard;
use crate::sizes::{CLIENTS, LAST_NUMBER, LONGEST, OUT_AREA, WINDOW};

/// Something for a board, a shard group or nobody.
pub fn packet(random: &mut Random, register: &Register, past: &[Packet]) -> Packet {
    if past.is_empty() {
        return noise(random, register);
    }
    let real = &past[random.below(past.len())];
    match random.below(10) {
        0 | 1 => damaged(random, register, real),
        2 => resized(random, real.clone()),
        3 => Packet {
            address: any_address(random, register),
            frame: real.frame.clone(),
        },
        4 => noise(random, register),
        _ => crafted(random, register),
    }
}

/// Whether the packet's receiver would take it.
pub fn is_taken(register: &Register, packet: &Packet) -> bool {
    let Packet { address, frame } = packet;
    let mut out = [0; OUT_AREA];
    let answer = match register.receiver(*address) {
        Receiver::Board(board) => register.boards[board].clone().step(frame, &mut out),
        Receiver::Shard(shard) => register.shards[shard].clone().step(frame, &mut out),
        Receiver::Nobody => return false,
    };
    answer.answer == 0
}

/// A frame with one byte of its kind or body changed.
fn damaged(random: &mut Random, register: &Register, real: &Packet) -> Packet {
    let mut frame = real.frame.clone();
    let at = random.within(2..=frame.len() - 1);
    frame[at] = match random.below(5) {
        0 => frame[at].wrapping_add(1),
        1 => frame[at].wrapping_sub(1),
        2 => frame[at] ^ (1 << random.below(8)),
        3 => random.among(&[0, 1, 2, 4, 5, 8, 9, 15, 16, 255]),
        _ => random.byte(0..=255),
    };
    Packet {
        address: bench_address(random, register, real.address),
        frame,
    }
}

/// A frame cut or lengthened, its length adjusted.
pub fn resized(random: &mut Random, real: Packet) -> Packet {
    let Packet { address, mut frame } = real;
    if random.chance(50) {
        frame.truncate(random.within(2..=frame.len() - 1));
    } else {
        let longest = (2 + LONGEST).max(frame.len() + 1);
        for _ in frame.len()..random.within(frame.len() + 1..=longest) {
            frame.push(random.byte(0..=255));
        }
        frame.truncate(2 + LONGEST);
    }
    set_length(&mut frame);
    Packet { address, frame }
}

/// Any bytes, most often under a kind there is.
fn noise(random: &mut Random, register: &Register) -> Packet {
    let mut frame: Vec<u8> = (0..random.within(2..=2 + LONGEST))
        .map(|_| random.byte(0..=255))
        .collect();
    if frame.len() >= 4 && random.chance(90) {
        frame[2] = random.byte(0..=8);
        frame[3] = 0;
    }
    set_length(&mut frame);
    Packet {
        address: any_address(random, register),
        frame,
    }
}

fn set_length(frame: &mut [u8]) {
    let length = (frame.len() - 2) as u16;
    frame[..2].copy_from_slice(&length.to_le_bytes());
}

/// Any address, most often of a board or shard group that is there or nearly is. Those of
/// sessions, which the trace has and the bench doesn't, aren't drawn.
pub fn any_address(random: &mut Random, register: &Register) -> u8 {
    let boards = register.boards.len() as u8;
    let shards = register.shards.len() as u8;
    match random.below(8) {
        0..=2 => board_address(random.byte(1..=boards)),
        3 | 4 => shard_address(random.byte(1..=shards)),
        5 => random.among(&[0, 8, 9, 15, 16, 24, 25, 255]),
        6 => random.among(&[boards + 1, 17 + shards]),
        _ => random.byte(81..=255),
    }
}

/// The address, or that of some board where it is a client's, whom the bench doesn't have.
fn bench_address(random: &mut Random, register: &Register, address: u8) -> u8 {
    if address <= shard_address(8) {
        address
    } else {
        board_address(random.byte(1..=register.boards.len() as u8))
    }
}

/// A well-formed frame whose fields stand close to what the receiver's state has.
fn crafted(random: &mut Random, register: &Register) -> Packet {
    let n = register.boards.len() as u8;
    let m = register.shards.len() as u8;
    let tail = &register.boards[usize::from(n) - 1];
    let (address, frame) = match random.below(5) {
        0 => (board_address(1), submit(random, &register.boards[0])),
        1 => {
            let own = random.byte(2..=n);
            let board = &register.boards[usize::from(own) - 1];
            let before = &register.boards[usize::from(own) - 2];
            (board_address(own), forward(random, board, before))
        }
        2 => {
            let own = random.byte(1..=m);
            let shard = &register.shards[usize::from(own) - 1];
            (shard_address(own), shard_append(random, shard, own, m))
        }
        3 => (board_address(n), exec_notif(random, tail, m)),
        _ => {
            let own = random.byte(1..=n - 1);
            let board = &register.boards[usize::from(own) - 1];
            (board_address(own), executed(random, board))
        }
    };
    Packet {
        address,
        frame: frame.to_bytes(),
    }
}

fn submit(random: &mut Random, head: &Board) -> Frame {
    let client = random.byte(0..=CLIENTS - 1);
    let next = head.high(client).map_or(0, |high| high + 1);
    let floor = head.floor(client);
    let number = match random.below(6) {
        0 => floor.saturating_sub(1),
        1 => floor,
        2 => next.saturating_sub(1),
        3 => next,
        4 => next + 1,
        _ => random.within(0..=usize::from(next) + 3) as u16,
    };
    let held = head
        .log()
        .iter()
        .find(|entry| entry.client == client && entry.number == number);
    let operations = match held {
        Some(held) if random.chance(60) => held.operations,
        _ => operations(random, 256),
    };
    Frame::Submit(Submit {
        client,
        number,
        ack: ack(random, number),
        operations,
    })
}

/// An ack that the number allows.
fn ack(random: &mut Random, number: u16) -> u16 {
    number.saturating_sub(random.below(usize::from(WINDOW)) as u16)
}

fn forward(random: &mut Random, board: &Board, before: &Board) -> Frame {
    let length = board.log().len();
    let log_number = match random.below(5) {
        0 => length,
        1 => length + 1,
        2 => 255,
        _ => random.below(length + 1),
    }
    .min(255);
    let (mut client, mut number, mut operations) = match before.log().get(log_number) {
        Some(entry) => (entry.client, entry.number, entry.operations),
        None => {
            let client = random.byte(0..=CLIENTS - 1);
            let next = board.high(client).map_or(0, |high| high + 1);
            (client, next, operations(random, 256))
        }
    };
    match random.below(6) {
        0 => client = random.byte(0..=CLIENTS - 1),
        1 => number = (number + 1).min(LAST_NUMBER),
        2 => number = number.saturating_sub(1),
        3 => {
            let at = random.below(operations.len());
            operations[at].key = operations[at].key.wrapping_add(1);
        }
        _ => {}
    }
    Frame::Forward(Forward {
        log_number: log_number as u8,
        submit: Submit {
            client,
            number,
            ack: ack(random, number),
            operations,
        },
    })
}

fn shard_append(random: &mut Random, shard: &Shard, own: u8, m: u8) -> Frame {
    let sn = match random.below(4) {
        0 => shard.ssn(),
        1 => shard.ssn() + 2,
        _ => shard.ssn() + 1,
    };
    let last = shard.last_run().unwrap_or(0);
    let log_number = match random.below(4) {
        0 => last,
        1 => last.saturating_sub(1),
        2 => last.saturating_add(1),
        _ => random.byte(0..=255),
    };
    let foreign = random.chance(20);
    let first = random.byte(0..=3);
    let operations = (first..=random.byte(first..=3))
        .map(|place| {
            let key = own_key(random, own, m).wrapping_add(u8::from(foreign));
            let operation = if random.chance(50) {
                Operation::get(key)
            } else {
                Operation::put(key, random.value())
            };
            Placed { place, operation }
        })
        .collect();
    Frame::ShardAppend(ShardAppend {
        shard: own,
        log_number,
        sn: sn.clamp(1, 256),
        operations,
    })
}

/// A key that belongs to shard `own` of `m`.
fn own_key(random: &mut Random, own: u8, m: u8) -> u8 {
    let keys: Vec<u8> = (own - 1..=255).step_by(usize::from(m)).collect();
    random.among(&keys)
}

fn exec_notif(random: &mut Random, tail: &Board, m: u8) -> Frame {
    let log_number = near_log(random, tail);
    let mut shard = random.byte(1..=8);
    let mut reads = Reads::default();
    if let Some(entry) = tail.log().get(usize::from(log_number)) {
        let remaining: Vec<u8> = entry.remaining.iter().collect();
        if !remaining.is_empty() && random.chance(80) {
            shard = random.among(&remaining);
        }
        reads = reads_of(random, entry.operations.on_shard(shard, m));
    }
    Frame::ExecNotif(ExecNotif {
        shard,
        log_number,
        reads,
    })
}

fn executed(random: &mut Random, board: &Board) -> Frame {
    let log_number = near_log(random, board);
    let reads = match board.log().get(usize::from(log_number)) {
        Some(entry) => reads_of(random, entry.operations.placed()),
        None => Reads::default(),
    };
    Frame::Executed(Executed { log_number, reads })
}

/// A log number in the log, or just behind its end.
fn near_log(random: &mut Random, board: &Board) -> u8 {
    let length = board.log().len();
    match random.below(8) {
        0 => length.min(255) as u8,
        1 => random.byte(0..=255),
        _ => random.below(length.max(1)) as u8,
    }
}

/// Reads at the places of the gets; now and then at one place more or less.
fn reads_of(random: &mut Random, operations: impl Iterator<Item = Placed>) -> Reads {
    let mut places: Vec<u8> = operations
        .filter(|placed| placed.operation.is_get())
        .map(|placed| placed.place)
        .collect();
    if random.chance(30) {
        let place = random.byte(0..=3);
        match places.binary_search(&place) {
            Ok(at) => drop(places.remove(at)),
            Err(at) => places.insert(at, place),
        }
    }
    places
        .into_iter()
        .map(|place| Read {
            place,
            value: random.chance(70).then(|| random.value()),
        })
        .collect()
}
