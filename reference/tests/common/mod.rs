//! Frames written byte by byte, apart from the library's own writer, and steps that watch the
//! state and the out area.
#![allow(dead_code)]

use std::fmt::Debug;

use reference::answers::Answer;
use reference::board::Board;
use reference::session::Session;
use reference::shard::Shard;

pub const GET: u8 = 0;
pub const PUT: u8 = 1;

/// An operation: action, key, value.
pub type Op = (u8, u8, u32);
/// A read: place, present, value.
pub type Rd = (u8, u8, u32);

/// A frame of any kind and body, with the length that fits.
pub fn raw(kind: u16, body: &[u8]) -> Vec<u8> {
    let mut frame = ((body.len() + 2) as u16).to_le_bytes().to_vec();
    frame.extend(kind.to_le_bytes());
    frame.extend(body);
    frame
}

fn op_bytes(ops: &[Op]) -> Vec<u8> {
    let mut bytes = vec![ops.len() as u8];
    for &(action, key, value) in ops {
        bytes.extend([action, key]);
        bytes.extend(value.to_le_bytes());
    }
    bytes
}

fn read_bytes(reads: &[Rd]) -> Vec<u8> {
    let mut bytes = vec![reads.len() as u8];
    for &(place, present, value) in reads {
        bytes.extend([place, present]);
        bytes.extend(value.to_le_bytes());
    }
    bytes
}

pub fn submit(client: u8, number: u16, ack: u16, ops: &[Op]) -> Vec<u8> {
    let mut body = vec![client];
    body.extend(number.to_le_bytes());
    body.extend(ack.to_le_bytes());
    body.extend(op_bytes(ops));
    raw(1, &body)
}

pub fn forward(log_number: u16, client: u8, number: u16, ack: u16, ops: &[Op]) -> Vec<u8> {
    let mut body = log_number.to_le_bytes().to_vec();
    body.extend(&submit(client, number, ack, ops)[4..]);
    raw(2, &body)
}

pub fn shard_append(shard: u8, log_number: u16, sn: u16, placed: &[(u8, Op)]) -> Vec<u8> {
    let mut body = vec![shard];
    body.extend(log_number.to_le_bytes());
    body.extend(sn.to_le_bytes());
    body.push(placed.len() as u8);
    for &(place, (action, key, value)) in placed {
        body.extend([place, action, key]);
        body.extend(value.to_le_bytes());
    }
    raw(3, &body)
}

pub fn exec_notif(shard: u8, log_number: u16, reads: &[Rd]) -> Vec<u8> {
    let mut body = vec![shard];
    body.extend(log_number.to_le_bytes());
    body.extend(read_bytes(reads));
    raw(4, &body)
}

pub fn executed(log_number: u16, reads: &[Rd]) -> Vec<u8> {
    let mut body = log_number.to_le_bytes().to_vec();
    body.extend(read_bytes(reads));
    raw(5, &body)
}

pub fn response(client: u8, number: u16, reads: &[Rd]) -> Vec<u8> {
    let mut body = vec![client];
    body.extend(number.to_le_bytes());
    body.extend(read_bytes(reads));
    raw(6, &body)
}

/// Whoever takes frames and has an out area.
pub trait Steps: Clone + PartialEq + Debug {
    fn take(&mut self, frame: &[u8], out: &mut [u8]) -> Answer;
}

impl Steps for Board {
    fn take(&mut self, frame: &[u8], out: &mut [u8]) -> Answer {
        self.step(frame, out)
    }
}

impl Steps for Shard {
    fn take(&mut self, frame: &[u8], out: &mut [u8]) -> Answer {
        self.step(frame, out)
    }
}

/// Calls with an out area of `size` patterned bytes, and splits what was sent into frames. The
/// bytes behind the frames must be untouched.
pub fn called<S>(
    state: &mut S,
    size: usize,
    call: impl FnOnce(&mut S, &mut [u8]) -> Answer,
) -> (u8, Vec<Vec<u8>>) {
    let pattern: Vec<u8> = (0..size).map(|at| at as u8 ^ 0xA5).collect();
    let mut out = pattern.clone();
    let answer = call(state, &mut out);
    assert_eq!(out[answer.bytes..], pattern[answer.bytes..], "untouched");
    let mut sent = Vec::new();
    let mut rest = &out[..answer.bytes];
    while let [low, high, ..] = *rest {
        let end = 2 + usize::from(u16::from_le_bytes([low, high]));
        sent.push(rest[..end].to_vec());
        rest = &rest[end..];
    }
    assert!(rest.is_empty());
    assert_eq!(sent.len(), answer.frames);
    (answer.answer, sent)
}

/// A step that must be taken; gives the frames sent.
pub fn taken<S: Steps>(state: &mut S, frame: &[u8]) -> Vec<Vec<u8>> {
    let (answer, sent) = called(state, 68, |state, out| state.take(frame, out));
    assert_eq!(answer, 0, "{frame:02x?}");
    sent
}

/// A step that must be refused by `number`, with the state as before.
pub fn refused<S: Steps>(state: &mut S, frame: &[u8], number: u8) {
    let before = state.clone();
    let (answer, sent) = called(state, 68, |state, out| state.take(frame, out));
    assert_eq!(answer, number, "{frame:02x?}");
    assert!(sent.is_empty());
    assert_eq!(*state, before);
}

/// The answer alone, on a copy.
pub fn answer<S: Steps>(state: &S, frame: &[u8]) -> u8 {
    called(&mut state.clone(), 68, |state, out| state.take(frame, out)).0
}

/// A Response that must be refused by `number`.
pub fn response_refused(session: &mut Session, frame: &[u8], number: u8) {
    let before = session.clone();
    let reply = session.response(frame);
    assert_eq!(reply.answer, number, "{frame:02x?}");
    assert!(reply.reads.is_empty());
    assert_eq!(*session, before);
}

/// A bench input of n, m and records.
pub fn bench_input(n: u8, m: u8, records: &[(u8, Vec<u8>)]) -> Vec<u8> {
    let mut input = vec![n, m];
    for (address, frame) in records {
        input.push(*address);
        input.extend(frame);
    }
    input
}

/// The bench's output as text.
pub fn bench_text(input: &[u8]) -> String {
    String::from_utf8(reference::bench::bench(input)).expect("the bench writes ASCII")
}
