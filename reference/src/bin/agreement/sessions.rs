//! Runs of a session: what the lift controller's program calls, and what the second program
//! made of it.

use std::collections::BTreeSet;
use std::fmt::Write;

use reference::driver::random::Random;
use reference::frames::{Frame, Response, ShardAppend};
use reference::lists::{Operation, Placed, Reads};
use reference::session::Session;
use reference::sizes::{LAST_NUMBER, OUT_AREA, WINDOW};

use crate::{executed, forward, list, notif, numbers, operation_text, read_text, reads, submit};

/// What is called; `out` is how many bytes the out area has.
enum Call {
    Start(u8),
    Invoke(Vec<Operation>, usize),
    Retry(u16, usize),
    Hear(Vec<u8>),
}

/// A run: the session before the first call, and the calls.
struct Given {
    name: &'static str,
    from: Session,
    calls: Vec<Call>,
}

/// Each call with each answer that it can give.
const ANSWERS: [(&str, u8); 16] = [
    ("start", 0),
    ("start", 11),
    ("invoke", 0),
    ("invoke", 1),
    ("invoke", 9),
    ("invoke", 10),
    ("invoke", 11),
    ("retry", 0),
    ("retry", 7),
    ("retry", 11),
    ("hear", 0),
    ("hear", 1),
    ("hear", 2),
    ("hear", 7),
    ("hear", 8),
    ("hear", 11),
];

/// Appends the runs; each call must have given each of its answers, and no other.
pub fn print(text: &mut String) {
    let mut met = BTreeSet::new();
    let runs: Vec<Given> = by_hand().into_iter().chain(mixed()).collect();
    for (index, given) in runs.iter().enumerate() {
        print_run(text, index + 1, given, &mut met);
    }
    assert_eq!(met, BTreeSet::from(ANSWERS), "the answers that were met");
    let names = (1..=runs.len()).map(|index| format!("calls{index}"));
    writeln!(
        text,
        "\nabbrev pub calls : List Calls\ncalls = {}",
        list(names)
    )
    .expect("a String takes all");
}

// ---- The runs

fn invoke(operations: &[Operation]) -> Call {
    Call::Invoke(operations.to_vec(), OUT_AREA)
}

fn retry(number: u16) -> Call {
    Call::Retry(number, OUT_AREA)
}

fn response(client: u8, number: u16, items: &[(u8, Option<u32>)]) -> Vec<u8> {
    let reads = reads(items);
    let response = Response {
        client,
        number,
        reads,
    };
    Frame::Response(response).to_bytes()
}

fn hear(client: u8, number: u16, items: &[(u8, Option<u32>)]) -> Call {
    Call::Hear(response(client, number, items))
}

/// A frame with the byte at `at` changed.
fn changed(mut frame: Vec<u8>, at: usize, byte: u8) -> Vec<u8> {
    frame[at] = byte;
    frame
}

/// Runs that meet each cause of each answer.
fn by_hand() -> Vec<Given> {
    let (get, put) = (Operation::get, Operation::put);
    let other = |action, value| Operation {
        action,
        key: 5,
        value,
    };

    // Nothing is served before a start, or after one that was refused.
    let starts = vec![
        hear(0, 0, &[]),
        invoke(&[get(5)]),
        retry(0),
        Call::Start(16),
        hear(0, 0, &[]),
        invoke(&[]),
        retry(0),
        Call::Start(255),
        Call::Start(15),
        invoke(&[get(5)]),
        hear(15, 0, &[(0, None)]),
        Call::Start(0),
        invoke(&[put(255, u32::MAX)]),
        Call::Start(16),
        retry(0),
    ];

    // Each rule of an invoked list, broken; out areas of 67, 68 and 69 bytes, 11 before 1 and 7.
    let lists = vec![
        Call::Start(3),
        invoke(&[]),
        invoke(&[get(1), get(2), get(3), get(4), get(5)]),
        invoke(&[other(2, 0)]),
        invoke(&[put(5, 7), other(0, 1)]),
        Call::Invoke(vec![get(5)], 67),
        Call::Invoke(vec![], 67),
        Call::Invoke(vec![put(5, 1000)], 68),
        Call::Invoke(vec![get(5), put(5, u32::MAX), get(255), get(5)], 69),
        Call::Retry(0, 67),
        Call::Retry(9, 67),
        Call::Retry(1, 68),
        retry(2),
        retry(u16::MAX),
    ];

    // Each way in which a Response is refused; then the right one, once.
    let own = submit(3, 0, 0, &[put(5, 1000), get(5), get(6)]);
    let fitting = [(1, Some(1000)), (2, None)];
    let right = response(3, 0, &fitting);
    let placed = Placed {
        place: 0,
        operation: get(5),
    };
    let append = Frame::ShardAppend(ShardAppend {
        shard: 1,
        log_number: 0,
        sn: 1,
        operations: [placed].into_iter().collect(),
    });
    let mut responses = vec![Call::Start(3), invoke(&own.operations)];
    let others = [
        Frame::Submit(own),
        forward(0, own),
        append,
        notif(1, 0, &fitting),
        executed(0, &fitting),
    ];
    responses.extend(others.map(|frame| Call::Hear(frame.to_bytes())));
    let longer = [right.as_slice(), &[0]].concat();
    let damaged = [
        vec![],
        right[..right.len() - 1].to_vec(),
        longer,
        // The length, kind 7, client 16, number 65,535, a count of 3, a place twice, present 2,
        // and a value where the key is absent.
        changed(right.clone(), 0, right[0] + 1),
        changed(right.clone(), 2, 7),
        changed(right.clone(), 4, 16),
        changed(changed(right.clone(), 5, 255), 6, 255),
        changed(right.clone(), 7, 3),
        changed(right.clone(), 14, 1),
        changed(right.clone(), 9, 2),
        changed(right.clone(), 16, 1),
    ];
    responses.extend(damaged.map(Call::Hear));
    responses.extend([
        hear(4, 0, &fitting),
        hear(4, 9, &[]),
        hear(3, 1, &fitting),
        hear(3, LAST_NUMBER, &[]),
        hear(3, 0, &[]),
        hear(3, 0, &[(1, Some(1000))]),
        hear(3, 0, &[(0, None), (2, None)]),
        hear(3, 0, &[(1, Some(1000)), (2, None), (3, None)]),
        retry(0),
        Call::Hear(right.clone()),
        Call::Hear(right),
        hear(3, 0, &[]),
        retry(0),
    ]);

    // The window of 8 opens with its smallest number only, and an ack is the present one.
    let mut window = vec![Call::Start(3)];
    window.extend((0..8).map(|value| invoke(&[put(5, value)])));
    window.extend([
        invoke(&[get(5)]),
        hear(3, 3, &[]),
        invoke(&[get(5)]),
        invoke(&[]),
        retry(5),
        retry(3),
        hear(3, 0, &[]),
        retry(5),
        invoke(&[get(5)]),
        invoke(&[get(5)]),
        hear(3, 2, &[]),
        hear(3, 1, &[]),
        retry(8),
        invoke(&[put(5, 9)]),
        hear(3, 8, &[(0, Some(7))]),
    ]);

    // The last eight numbers: 10, also where the window is full, and not before 1.
    let mut end = Vec::new();
    end.extend((0..8).map(|value| invoke(&[put(9, value)])));
    end.extend([
        invoke(&[put(9, 8)]),
        invoke(&[]),
        retry(LAST_NUMBER),
        retry(u16::MAX),
        hear(9, LAST_NUMBER - 7, &[]),
        retry(LAST_NUMBER),
        hear(9, LAST_NUMBER, &[]),
        invoke(&[put(9, 8)]),
    ]);

    let fresh = |name, calls| Given {
        name,
        from: Session::default(),
        calls,
    };
    vec![
        fresh("starts", starts),
        fresh("invoked lists, and out areas", lists),
        fresh("Responses", responses),
        fresh("the window, and acks", window),
        Given {
            name: "the end of the numbers",
            from: brought_to(9, LAST_NUMBER - 7),
            calls: end,
        },
    ]
}

/// A session whose numbers below `next` were all invoked and answered.
fn brought_to(client: u8, next: u16) -> Session {
    let mut session = Session::start(client);
    for number in 0..next {
        let mut out = [0; OUT_AREA];
        let invoked = session.invoke(&[Operation::put(0, 0)], &mut out);
        let answered = session.response(&response(client, number, &[]));
        assert_eq!((invoked.answer, answered.answer), (0, 0));
    }
    session
}

/// Calls by chance: most are taken, the others refused for one cause or another.
fn mixed() -> Vec<Given> {
    [0, 7, 15]
        .into_iter()
        .zip(0..)
        .map(|(client, run)| {
            let random = &mut Random::new(2, run);
            let mut session = Session::start(client);
            let mut past = vec![response(client, 0, &[])];
            let mut calls = vec![Call::Start(client)];
            for _ in 0..30 {
                let call = by_chance(random, client, &session, &mut past);
                made(&mut session, &call);
                calls.push(call);
            }
            Given {
                name: "mixed calls",
                from: Session::default(),
                calls,
            }
        })
        .collect()
}

fn by_chance(random: &mut Random, client: u8, session: &Session, past: &mut Vec<Vec<u8>>) -> Call {
    let out = if random.chance(5) { 67 } else { OUT_AREA };
    let outstanding = session.outstanding();
    match random.below(20) {
        0 => Call::Hear(spoiled(random, past)),
        1 => Call::Hear(past[random.below(past.len())].clone()),
        2..=5 => {
            let lowest = session.next().saturating_sub(WINDOW);
            let number = random.within(usize::from(lowest)..=usize::from(session.next()));
            Call::Retry(number as u16, out)
        }
        6..=11 if !outstanding.is_empty() => {
            let answered = outstanding[random.below(outstanding.len())];
            let gets = answered
                .operations
                .placed()
                .filter(|placed| placed.operation.is_get());
            let mut items: Vec<_> = gets
                .map(|placed| (placed.place, random.chance(70).then(|| random.value())))
                .collect();
            if random.chance(10) {
                items.pop();
            }
            let client = if random.chance(5) { client ^ 1 } else { client };
            past.push(response(client, answered.number, &items));
            Call::Hear(past[past.len() - 1].clone())
        }
        _ => {
            let operations = (0..random.within(1..=4)).map(|_| {
                let key = random.byte(0..=255);
                match random.below(40) {
                    0 => Operation {
                        action: random.byte(0..=2),
                        key,
                        value: random.value(),
                    },
                    1..=19 => Operation::get(key),
                    _ => Operation::put(key, random.value()),
                }
            });
            Call::Invoke(operations.collect(), out)
        }
    }
}

/// A Response that was there, with one byte changed.
fn spoiled(random: &mut Random, past: &[Vec<u8>]) -> Vec<u8> {
    let frame = past[random.below(past.len())].clone();
    let at = random.below(frame.len());
    changed(frame, at, random.byte(0..=255))
}

// ---- The text

/// What a call gave: the answer, the number that it was about, the bytes sent, the reads.
struct Made {
    answer: u8,
    number: u16,
    sent: Vec<u8>,
    reads: Reads,
}

fn made(session: &mut Session, call: &Call) -> Made {
    let mut out = [0; 2 * OUT_AREA];
    let sent = match call {
        Call::Start(client) => {
            *session = Session::start(*client);
            let answer = if session.started() { 0 } else { 11 };
            return Made {
                answer,
                number: 0,
                sent: Vec::new(),
                reads: Reads::default(),
            };
        }
        Call::Hear(frame) => {
            let before = session.outstanding().to_vec();
            let reply = session.response(frame);
            let gone = before
                .iter()
                .find(|outstanding| !session.outstanding().contains(outstanding));
            return Made {
                answer: reply.answer,
                number: gone.map_or(0, |outstanding| outstanding.number),
                sent: Vec::new(),
                reads: reply.reads,
            };
        }
        Call::Invoke(operations, length) => session.invoke(operations, &mut out[..*length]),
        Call::Retry(number, length) => session.retry(*number, &mut out[..*length]),
    };
    let bytes = &out[..sent.bytes];
    Made {
        answer: sent.answer,
        number: match Frame::read(bytes) {
            Some(Frame::Submit(submit)) => submit.number,
            _ => 0,
        },
        sent: bytes.to_vec(),
        reads: Reads::default(),
    }
}

fn print_run(
    text: &mut String,
    index: usize,
    given: &Given,
    met: &mut BTreeSet<(&'static str, u8)>,
) {
    let Given { name, from, calls } = given;
    let mut session = from.clone();
    let mut lines = vec![
        format!("\n-- {name}"),
        format!("abbrev pub calls{index} : Calls"),
        format!("calls{index} ="),
        "    record {".into(),
        format!("      from = {};", session_text(from)),
        "      turns =".into(),
    ];
    for call in calls {
        let made = made(&mut session, call);
        let (kind, call) = call_text(call);
        met.insert((kind, made.answer));
        lines.push(format!(
            "          record {{ call = {call}; answer = {}; number = {}; sent = {}; reads = {}; session = {} }} ∷",
            made.answer,
            made.number,
            numbers(&made.sent),
            list(made.reads.iter().map(read_text)),
            session_text(&session)
        ));
    }
    lines.push("          [];".into());
    lines.push("    }".into());
    for line in lines {
        writeln!(text, "{line}").expect("a String takes all");
    }
}

fn call_text(call: &Call) -> (&'static str, String) {
    match call {
        Call::Start(client) => ("start", format!("start {client}")),
        Call::Invoke(operations, out) => {
            let asked = operations.iter().map(|operation| {
                let Operation { action, key, value } = operation;
                format!("asked {action} {key} {value}")
            });
            ("invoke", format!("invoke {} {out}", list(asked)))
        }
        Call::Retry(number, out) => ("retry", format!("retry {number} {out}")),
        Call::Hear(frame) => ("hear", format!("hear {}", numbers(frame))),
    }
}

fn session_text(session: &Session) -> String {
    if *session == Session::default() {
        return "not_started".into();
    }
    let outstanding = session.outstanding().iter().map(|outstanding| {
        let operations = list(outstanding.operations.iter().map(operation_text));
        format!("waits {} {operations}", outstanding.number)
    });
    format!(
        "stands {} {} {}",
        session.client(),
        session.next(),
        list(outstanding)
    )
}
