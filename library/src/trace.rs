//! The bench's input with sessions besides: every frame sent, and the whole state at the end.

use std::io::{self, Read};

use reference::records::{Record, Records};

use crate::ffi::{Asked, Operations, Reply, Sent, Stepped, OPERATIONS, OUT};
use crate::register::{Receiver, Register};
use crate::text;

/// A count and four operation slots of 6 bytes.
const INVOKE_LENGTH: usize = 1 + 6 * OPERATIONS;
/// The answer to what breaks a rule.
const BREAKS_RULE: u8 = 1;
/// The answer of an address that names nobody.
const NOT_FOR_ME: u8 = 2;

/// A run that was traced.
#[derive(Debug, Default)]
pub struct Trace {
    /// What the tool prints.
    pub text: String,
    /// n and m, if they are in range.
    pub chain: Option<(u8, u8)>,
    /// The first deliveries, as many as were asked for.
    pub deliveries: Vec<Delivery>,
    /// How many deliveries there were in all.
    pub delivered: usize,
    /// Whether the input was cut.
    pub cut: bool,
}

/// A record of the input, and what came of it.
#[derive(Clone, Debug)]
pub struct Delivery {
    /// The address byte.
    pub address: u8,
    /// Whom it names.
    pub receiver: Receiver,
    /// The record behind the address, its length in front.
    pub record: Vec<u8>,
    /// What the call gave back.
    pub outcome: Outcome,
    /// The log number of a Submit or Response in the first log, if it is there.
    pub log_number: Option<usize>,
}

/// What a call gave back.
#[derive(Clone, Debug, Default, PartialEq, Eq)]
pub struct Outcome {
    /// 0, or the refusal's number.
    pub answer: u8,
    /// Frames sent.
    pub frames: u8,
    /// The bytes written.
    pub sent: Vec<u8>,
    /// The number that a session took, sent again or was answered.
    pub number: Option<u16>,
    /// What a session that took a Response hands over.
    pub reply: Option<Reply>,
}

/// Traces `input`, and keeps its first `keep` deliveries.
pub fn trace(input: impl Read, keep: usize) -> io::Result<Trace> {
    let mut records = Records::new(input);
    let setup = records.setup()?;
    let Some((n, m, mut register)) = setup.and_then(|(n, m)| Some((n, m, Register::start(n, m)?)))
    else {
        return Ok(Trace {
            text: "setup 11\n".into(),
            ..Trace::default()
        });
    };
    let mut trace = Trace {
        text: format!("chain {n} shards {m}\n"),
        chain: Some((n, m)),
        ..Trace::default()
    };
    loop {
        match records.next_record()? {
            Record::Frame { address, frame } => {
                let receiver = Receiver::of(address, n, m);
                let outcome = register.deliver(receiver, frame);
                trace.text += &format!("d{} {}\n", trace.delivered, outcome.words());
                trace.delivered += 1;
                if trace.deliveries.len() < keep {
                    trace.deliveries.push(Delivery {
                        address,
                        receiver,
                        record: frame.to_vec(),
                        outcome,
                        log_number: register.log_number(frame),
                    });
                }
            }
            Record::Cut => {
                trace.text += "cut\n";
                trace.cut = true;
                break;
            }
            Record::End => break,
        }
    }
    trace.text += &text::state(&register);
    Ok(trace)
}

impl Register {
    /// Makes the call that a record asks for; its length stands in front.
    pub fn deliver(&mut self, receiver: Receiver, record: &[u8]) -> Outcome {
        let mut out = [0; OUT];
        match receiver {
            Receiver::Board(at) => Outcome::of_step(self.boards[at].step(record, &mut out), &out),
            Receiver::Shard(at) => Outcome::of_step(self.shards[at].step(record, &mut out), &out),
            Receiver::Session(at) => Outcome::of_reply(self.sessions[at].response(record)),
            Receiver::Invokes(at) => match invoked(&record[2..]) {
                Some(list) => Outcome::of_sent(self.sessions[at].invoke(list, &mut out), &out),
                None => Outcome::refused(BREAKS_RULE),
            },
            Receiver::Retries(at) => match record[2..] {
                [low, high] => {
                    let number = u16::from_le_bytes([low, high]);
                    Outcome::of_sent(self.sessions[at].retry(number, &mut out), &out)
                }
                _ => Outcome::refused(BREAKS_RULE),
            },
            Receiver::Nobody => Outcome::refused(NOT_FOR_ME),
        }
    }

    /// Where the first log has the number that a Submit or a Response is about.
    fn log_number(&self, frame: &[u8]) -> Option<usize> {
        match *frame {
            [_, _, 1 | 6, 0, client, low, high, ..] => {
                let number = u16::from_le_bytes([low, high]);
                let mut log = self.boards[0].log();
                log.position(|entry| entry.client() == client && entry.number() == number)
            }
            _ => None,
        }
    }
}

/// The list of a record that lets a session invoke.
pub fn invoked(body: &[u8]) -> Option<Operations> {
    let [count, slots @ ..] = body else {
        return None;
    };
    if body.len() != INVOKE_LENGTH {
        return None;
    }
    let mut list = Operations::default();
    for (item, slot) in list.items.iter_mut().zip(slots.chunks_exact(6)) {
        *item = Asked {
            code: slot[0],
            key: slot[1],
            value: u32::from_le_bytes([slot[2], slot[3], slot[4], slot[5]]),
        };
    }
    list.count = *count;
    Some(list)
}

impl Outcome {
    fn refused(answer: u8) -> Self {
        Outcome {
            answer,
            ..Outcome::default()
        }
    }

    fn of_step(stepped: Stepped, out: &[u8]) -> Self {
        Outcome {
            answer: stepped.answer,
            frames: stepped.frames,
            sent: out[..stepped.bytes].to_vec(),
            ..Outcome::default()
        }
    }

    fn of_sent(sent: Sent, out: &[u8]) -> Self {
        Outcome {
            answer: sent.answer,
            frames: sent.frames,
            sent: out[..sent.bytes].to_vec(),
            number: (sent.answer == 0).then_some(sent.number),
            ..Outcome::default()
        }
    }

    fn of_reply(reply: Reply) -> Self {
        let taken = reply.answer == 0;
        Outcome {
            answer: reply.answer,
            number: taken.then_some(reply.number),
            reply: taken.then_some(reply),
            ..Outcome::default()
        }
    }

    /// What a d line has behind its index.
    fn words(&self) -> String {
        let mut words = format!("{} {}", self.answer, self.frames);
        if self.frames > 0 {
            words += " ";
            words += &text::hexadecimal(&self.sent);
        }
        if let Some(reply) = &self.reply {
            words += " | ";
            words += &text::reads(reply.found());
        }
        words.truncate(words.trim_end().len());
        words
    }
}
