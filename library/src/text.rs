//! States as text, line by line, as the trace prints them.
//!
//! Parts of a line are separated by bars; a part that is empty leaves its bar, and no line ends
//! with a space.

use std::fmt::Display;

use crate::board::Entry;
use crate::ffi::CLIENTS;
use crate::lists::{Operation, Read};
use crate::register::Register;
use crate::{Board, Session, Shard};

/// The state of boards, shard groups and sessions.
pub fn state(register: &Register) -> String {
    let mut text = String::new();
    for board in &register.boards {
        board_lines(&mut text, board);
    }
    for shard in &register.shards {
        shard_line(&mut text, shard);
    }
    for session in &register.sessions {
        session_line(&mut text, session);
    }
    text
}

/// Appends a board's L, H and Q lines.
pub fn board_lines(text: &mut String, board: &Board) {
    let own = board.own();
    for (log_number, entry) in board.log().enumerate() {
        entry_line(text, own, log_number, entry);
    }
    for client in 0..CLIENTS as u8 {
        let (high, floor) = (board.high(client), board.floor(client));
        if high.is_some() || floor > 0 {
            let high = or_dash(high);
            line(text, format_args!("H{own} {client} {high} {floor}"), &[]);
        }
    }
    for shard in 1..=board.m() {
        let last_taken = or_dash(board.last_taken(shard));
        let numbers = spaced(board.queued(shard));
        line(
            text,
            format_args!("Q{own} {shard} {last_taken}"),
            &[numbers],
        );
    }
}

fn entry_line(text: &mut String, own: u8, log_number: usize, entry: Entry) {
    let (client, number) = (entry.client(), entry.number());
    let status = if entry.is_exe() { "EXE" } else { "PRE" };
    line(
        text,
        format_args!("L{own} {log_number} {client} {number} {status}"),
        &[
            operations(entry.operations()),
            reads(entry.reads()),
            spaced(entry.remaining()),
        ],
    );
}

/// Appends a shard group's S line.
pub fn shard_line(text: &mut String, shard: &Shard) {
    let (own, ssn, last_run) = (shard.own(), shard.ssn(), or_dash(shard.last_run()));
    let keys = (0..=255).filter_map(|key| {
        let stored = shard.get(key)?;
        Some(format!("{key}={}@{}", stored.value, stored.log_number))
    });
    line(
        text,
        format_args!("S{own} {ssn} {last_run}"),
        &[spaced(keys)],
    );
}

/// Appends a session's C line, if the client has invoked.
pub fn session_line(text: &mut String, session: &Session) {
    let (client, next) = (session.client(), session.next());
    if next > 0 {
        let outstanding = spaced(session.outstanding().map(|(number, _)| number));
        line(text, format_args!("C{client} {next}"), &[outstanding]);
    }
}

/// Operations as `gKEY` or `pKEY=VALUE`.
pub fn operations(operations: impl Iterator<Item = Operation>) -> String {
    spaced(operations.map(|operation| match operation {
        Operation::Get(key) => format!("g{key}"),
        Operation::Put(key, value) => format!("p{key}={value}"),
    }))
}

/// Reads as `PLACE=VALUE` or `PLACE-`.
pub fn reads(reads: impl Iterator<Item = Read>) -> String {
    spaced(reads.map(|read| match read.value {
        Some(value) => format!("{}={value}", read.place),
        None => format!("{}-", read.place),
    }))
}

/// Bytes in lower-case hexadecimal.
pub fn hexadecimal(bytes: &[u8]) -> String {
    bytes.iter().map(|byte| format!("{byte:02x}")).collect()
}

fn line(text: &mut String, head: impl Display, parts: &[String]) {
    text.push_str(&head.to_string());
    for part in parts {
        text.push_str(" |");
        if !part.is_empty() {
            text.push(' ');
            text.push_str(part);
        }
    }
    text.push('\n');
}

fn spaced(words: impl IntoIterator<Item = impl Display>) -> String {
    let words: Vec<String> = words.into_iter().map(|word| word.to_string()).collect();
    words.join(" ")
}

fn or_dash(number: Option<u16>) -> String {
    number.map_or("-".into(), |number| number.to_string())
}
