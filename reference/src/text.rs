//! States as text, line by line, as the trace prints them.
//!
//! Parts of a line are separated by bars; a part that is empty leaves its bar, and no line
//! ends with a space.

use std::fmt::{Display, Write};

use crate::bench::status_word;
use crate::board::{Board, Entry};
use crate::lists::{Operation, Read};
use crate::register::Register;
use crate::session::Session;
use crate::shard::Shard;
use crate::sizes::CLIENTS;

/// The state of boards, shard groups and sessions.
pub fn state(register: &Register, sessions: &[Session]) -> String {
    let mut text = String::new();
    let m = register.shards.len() as u8;
    for (own, board) in (1..).zip(&register.boards) {
        text += &board_lines(own, m, board);
    }
    for (own, shard) in (1..).zip(&register.shards) {
        text += &shard_line(own, shard);
    }
    for (client, session) in (0..).zip(sessions) {
        text += &session_line(client, session);
    }
    text
}

/// A board's L, H and Q lines.
pub fn board_lines(own: u8, m: u8, board: &Board) -> String {
    let mut text = String::new();
    for (log_number, entry) in board.log().iter().enumerate() {
        text += &entry_line(own, log_number, entry);
    }
    for client in 0..CLIENTS {
        let (high, floor) = (board.high(client), board.floor(client));
        if high.is_some() || floor > 0 {
            line(
                &mut text,
                format_args!("H{own} {client} {} {floor}", or_dash(high)),
                &[],
            );
        }
    }
    for shard in 1..=m {
        let queue = board.queue(shard);
        let last_taken = or_dash(queue.last_taken());
        let numbers = spaced(queue.numbers());
        line(
            &mut text,
            format_args!("Q{own} {shard} {last_taken}"),
            &[numbers],
        );
    }
    text
}

fn entry_line(own: u8, log_number: usize, entry: &Entry) -> String {
    let (client, number) = (entry.client, entry.number);
    let status = status_word(entry.status);
    let mut text = String::new();
    line(
        &mut text,
        format_args!("L{own} {log_number} {client} {number} {status}"),
        &[
            spaced(entry.operations.iter().map(operation)),
            reads(&entry.reads),
            spaced(entry.remaining.iter()),
        ],
    );
    text
}

/// A shard group's S line.
pub fn shard_line(own: u8, shard: &Shard) -> String {
    let keys = shard.keys().iter().enumerate().filter_map(|(key, stored)| {
        let stored = stored.as_ref()?;
        Some(format!("{key}={}@{}", stored.value, stored.log_number))
    });
    let mut text = String::new();
    let (ssn, last_run) = (shard.ssn(), or_dash(shard.last_run()));
    line(
        &mut text,
        format_args!("S{own} {ssn} {last_run}"),
        &[spaced(keys)],
    );
    text
}

/// A session's C line, if the client has invoked.
pub fn session_line(client: u8, session: &Session) -> String {
    let mut text = String::new();
    if session.next() > 0 {
        let outstanding = spaced(session.outstanding().iter().map(|kept| kept.number));
        line(
            &mut text,
            format_args!("C{client} {}", session.next()),
            &[outstanding],
        );
    }
    text
}

/// Reads as `PLACE=VALUE` or `PLACE-`.
pub fn reads(reads: &[Read]) -> String {
    spaced(reads.iter().map(|read| match read.value {
        Some(value) => format!("{}={value}", read.place),
        None => format!("{}-", read.place),
    }))
}

fn operation(operation: &Operation) -> String {
    let key = operation.key;
    if operation.is_get() {
        format!("g{key}")
    } else {
        format!("p{key}={}", operation.value)
    }
}

fn line(text: &mut String, head: impl Display, parts: &[String]) {
    write!(text, "{head}").expect("a String takes all text");
    for part in parts {
        text.push_str(" |");
        if !part.is_empty() {
            text.push(' ');
            text.push_str(part);
        }
    }
    text.push('\n');
}

fn spaced(words: impl Iterator<Item = impl Display>) -> String {
    let words: Vec<String> = words.map(|word| word.to_string()).collect();
    words.join(" ")
}

fn or_dash(number: Option<impl Display>) -> String {
    number.map_or("-".into(), |number| number.to_string())
}
