//! The bench's input with sessions besides, every frame sent and the whole state at the end.

use std::io::{self, Read};

use crate::answers::{Answer, Refusal};
use crate::lists::Operation;
use crate::records::{Record, Records};
use crate::register::Register;
use crate::session::{Reply, Session};
use crate::sizes::{CLIENTS, OPERATIONS, OUT_AREA};
use crate::text;

/// Address 33 lets the session of client 0 take a frame, 49 lets it invoke, 65 retry.
const FIRST_TAKES: u8 = 33;
const FIRST_INVOKES: u8 = 49;
const FIRST_RETRIES: u8 = 65;
/// A count and four operation slots of 6 bytes.
const INVOKE_LENGTH: usize = 1 + 6 * OPERATIONS;

/// The address at which the session of `client` takes a frame.
pub fn client_address(client: u8) -> u8 {
    FIRST_TAKES + client
}

/// The record that lets `client` invoke `operations`, at most four.
pub fn invoke_record(client: u8, operations: &[Operation]) -> Vec<u8> {
    let mut record = vec![FIRST_INVOKES + client, INVOKE_LENGTH as u8, 0];
    record.push(operations.len() as u8);
    for operation in operations {
        record.extend([operation.action, operation.key]);
        record.extend(operation.value.to_le_bytes());
    }
    record.resize(3 + INVOKE_LENGTH, 0);
    record
}

/// The record that lets `client` retry `number`.
pub fn retry_record(client: u8, number: u16) -> Vec<u8> {
    let [low, high] = number.to_le_bytes();
    vec![FIRST_RETRIES + client, 2, 0, low, high]
}

/// The trace of an input.
pub fn trace(input: impl Read) -> io::Result<String> {
    let mut records = Records::new(input);
    let setup = records.setup()?;
    let Some((n, m, register)) = setup.and_then(|(n, m)| Some((n, m, Register::start(n, m)?)))
    else {
        return Ok("setup 11\n".into());
    };
    let mut traced = Traced {
        register,
        sessions: (0..CLIENTS).map(Session::start).collect(),
    };
    let mut text = format!("chain {n} shards {m}\n");
    let mut index = 0u64;
    loop {
        match records.next_record()? {
            Record::Frame { address, frame } => {
                text += &format!("d{index} {}\n", traced.deliver(address, frame));
                index += 1;
            }
            Record::Cut => {
                text += "cut\n";
                break;
            }
            Record::End => break,
        }
    }
    text += &text::state(&traced.register, &traced.sessions);
    Ok(text)
}

struct Traced {
    register: Register,
    sessions: Vec<Session>,
}

impl Traced {
    /// What a record's d line has behind its index.
    fn deliver(&mut self, address: u8, record: &[u8]) -> String {
        let client = |first: u8| {
            let client = address.checked_sub(first)?;
            (client < CLIENTS).then_some(usize::from(client))
        };
        let mut out = [0; OUT_AREA];
        let answer = if let Some(client) = client(FIRST_TAKES) {
            return reply_words(&self.sessions[client].response(record));
        } else if let Some(client) = client(FIRST_INVOKES) {
            invoke(&mut self.sessions[client], &record[2..], &mut out)
        } else if let Some(client) = client(FIRST_RETRIES) {
            retry(&self.sessions[client], &record[2..], &mut out)
        } else {
            self.register.deliver(address, record, &mut out)
        };
        sent_words(&answer, &out)
    }
}

fn reply_words(reply: &Reply) -> String {
    if reply.answer != 0 {
        return format!("{} 0", reply.answer);
    }
    let reads = text::reads(&reply.reads);
    format!("0 0 | {reads}").trim_end().to_string()
}

fn sent_words(answer: &Answer, out: &[u8]) -> String {
    let mut words = format!("{} {}", answer.answer, answer.frames);
    if answer.frames > 0 {
        words.push(' ');
        for byte in &out[..answer.bytes] {
            words += &format!("{byte:02x}");
        }
    }
    words
}

/// Slots past the count aren't part of the list; a count past the slots breaks its rule.
fn invoke(session: &mut Session, body: &[u8], out: &mut [u8]) -> Answer {
    let (count, slots) = match body {
        [count, slots @ ..] if body.len() == INVOKE_LENGTH => (usize::from(*count), slots),
        _ => return Refusal::Malformed.into(),
    };
    let operations: Vec<Operation> = slots
        .chunks_exact(6)
        .map(|slot| Operation {
            action: slot[0],
            key: slot[1],
            value: u32::from_le_bytes([slot[2], slot[3], slot[4], slot[5]]),
        })
        .collect();
    match operations.get(..count) {
        Some(operations) => session.invoke(operations, out),
        None => Refusal::Malformed.into(),
    }
}

fn retry(session: &Session, body: &[u8], out: &mut [u8]) -> Answer {
    match *body {
        [low, high] => session.retry(u16::from_le_bytes([low, high]), out),
        _ => Refusal::Malformed.into(),
    }
}
