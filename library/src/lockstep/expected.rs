//! The record that the library should have, made from the second program's state.
//!
//! Numbers are set one by one, so that no padding is touched. What lies past a count or a length,
//! or belongs to no client or shard, is zero.

use reference::board::{self, Status};
use reference::lists::{Operations, Reads};
use reference::session;
use reference::shard;
use reference::sizes::Shards;

use crate::ffi::{Board, Entry, Item, Queue, Reply, Session, Shard, WINDOW};

/// A board's record: the setup is what it was started with.
pub fn board(record: &mut Board, second: &board::Board, (n, m, own): (u8, u8, u8)) {
    let started = second.started();
    record.started = started;
    record.n = if started { n } else { 0 };
    record.m = if started { m } else { 0 };
    record.own = if started { own } else { 0 };
    record.len = second.log().len() as u16;
    for (at, entry) in second.log().iter().enumerate() {
        set_entry(&mut record.log[at], entry);
        record.names[at] = u32::from(entry.client) << 16 | u32::from(entry.number);
        record.touched[at] = mask(entry.operations.touched(m));
    }
    for client in 0..16u8 {
        let at = usize::from(client);
        record.next[at] = one_more(second.high(client));
        record.floor[at] = second.floor(client);
    }
    for (shard, queue) in (1..).zip(&mut record.queues) {
        set_queue(queue, second.queue(shard));
    }
}

fn set_entry(record: &mut Entry, second: &board::Entry) {
    record.client = second.client;
    record.number = second.number;
    record.count = second.operations.len() as u8;
    set_operations(&mut record.items, &second.operations);
    record.exe = second.status == Status::Exe;
    set_reads(&mut record.reads, &second.reads, |_, place| place.into());
    record.remaining = mask(second.remaining);
}

fn set_queue(record: &mut Queue, second: &reference::queue::Queue) {
    let before = record.len;
    record.len = 0;
    for log_number in second.numbers() {
        record.numbers[record.len] = log_number.into();
        record.len += 1;
    }
    for number in record.numbers[..before].iter_mut().skip(record.len) {
        *number = 0;
    }
    record.taken = one_more(second.last_taken());
}

/// A shard group's record.
pub fn shard(record: &mut Shard, second: &shard::Shard, (m, own): (u8, u8)) {
    let started = second.started();
    record.started = started;
    record.m = if started { m } else { 0 };
    record.own = if started { own } else { 0 };
    record.ssn = second.ssn();
    record.last_run = one_more(second.last_run());
    for (cell, stored) in record.cells.iter_mut().zip(second.keys()) {
        cell.present = stored.is_some();
        cell.value = stored.map_or(0, |stored| stored.value);
        cell.log_number = stored.map_or(0, |stored| stored.log_number.into());
    }
}

/// A session's record.
pub fn session(record: &mut Session, second: &session::Session, client: u8) {
    let started = second.started();
    record.started = started;
    record.client = if started { client } else { 0 };
    record.window.next = second.next();
    for (at, slot) in record.window.slots.iter_mut().enumerate() {
        let mut outstanding = second.outstanding().iter();
        let kept = outstanding.find(|kept| usize::from(kept.number) % WINDOW == at);
        slot.number = kept.map_or(0, |kept| kept.number);
        slot.count = kept.map_or(0, |kept| kept.operations.len() as u8);
        let operations = kept.map_or(Operations::default(), |kept| kept.operations);
        set_operations(&mut slot.items, &operations);
    }
}

/// What a Response step gives back; the number is the frame's.
pub fn reply(second: &session::Reply, frame: &[u8]) -> Reply {
    let mut reply = Reply {
        answer: second.answer,
        count: second.reads.len() as u8,
        ..Reply::default()
    };
    if let (0, [_, _, _, _, _, low, high, ..]) = (second.answer, frame) {
        reply.number = u16::from_le_bytes([*low, *high]);
    }
    set_reads(&mut reply.reads, &second.reads, |at, _| at);
    reply
}

fn set_operations(items: &mut [Item; 4], operations: &Operations) {
    for (at, item) in items.iter_mut().enumerate() {
        match operations.get(at) {
            Some(operation) => set_item(
                item,
                at as u8,
                operation.action,
                operation.key,
                operation.value,
            ),
            None => set_item(item, 0, 0, 0, 0),
        }
    }
}

/// Sets each read in the slot that `slot` gives for its index and its place.
fn set_reads(items: &mut [Item; 4], reads: &Reads, slot: fn(usize, u8) -> usize) {
    for item in items.iter_mut() {
        set_item(item, 0, 0, 0, 0);
    }
    for (at, read) in reads.iter().enumerate() {
        set_item(
            &mut items[slot(at, read.place)],
            read.place,
            u8::from(read.value.is_some()),
            0,
            read.value.unwrap_or(0),
        );
    }
}

fn set_item(item: &mut Item, place: u8, code: u8, key: u8, value: u32) {
    item.place = place;
    item.code = code;
    item.key = key;
    item.value = value;
}

fn one_more(number: Option<impl Into<u32>>) -> u32 {
    number.map_or(0, |number| number.into() + 1)
}

fn mask(shards: Shards) -> u8 {
    shards.iter().fold(0, |mask, shard| mask | 1 << (shard - 1))
}
