//! The driver's own test: a wrong program or register must be noticed.
//!
//! Each mutant delivers frames as the register does, with one rule broken.

use super::compare::{compare, Program};
use super::runs;
use crate::answers::Answer;
use crate::bench::{bench, bench_with, Deliver};
use crate::board::Status;
use crate::frames::Frame;
use crate::register::Register;
use crate::shard::Stored;

/// Runs each mutant is tried on: one cycle has every sort.
const RUNS: u64 = runs::CYCLE;
const SEED: u64 = 7;

fn refusal(answer: u8) -> Answer {
    Answer {
        answer,
        ..Answer::default()
    }
}

fn always_refuses(_: &mut Register, _: u8, _: &[u8], _: &mut [u8]) -> Answer {
    refusal(8)
}

fn takes_all_and_does_nothing(_: &mut Register, _: u8, _: &[u8], _: &mut [u8]) -> Answer {
    refusal(0)
}

/// A repeated Submit that is still PRE is dropped.
fn drops_repeats(register: &mut Register, address: u8, frame: &[u8], out: &mut [u8]) -> Answer {
    let length = register.boards[0].log.len();
    let answer = register.deliver(address, frame, out);
    let repeated =
        address == 1 && frame.get(2) == Some(&1) && register.boards[0].log.len() == length;
    if answer.answer == 0 && repeated && out[2] == 2 {
        return refusal(0);
    }
    answer
}

/// High rises with a refused early Submit.
fn skips_numbers(register: &mut Register, address: u8, frame: &[u8], out: &mut [u8]) -> Answer {
    let answer = register.deliver(address, frame, out);
    if let (1, 4, Some(Frame::Submit(submit))) = (address, answer.answer, Frame::read(frame)) {
        if let Some(last) = register.boards[0].log.len().checked_sub(1) {
            let client = &mut register.boards[0].clients[usize::from(submit.client)];
            client.log_numbers.push(last as u8);
        }
    }
    answer
}

/// The operations of a repeated Submit aren't compared with the stored ones.
fn compares_nothing(register: &mut Register, address: u8, frame: &[u8], out: &mut [u8]) -> Answer {
    let answer = register.deliver(address, frame, out);
    if let (1, 8, Some(Frame::Submit(mut submit))) = (address, answer.answer, Frame::read(frame)) {
        let client = &register.boards[0].clients[usize::from(submit.client)];
        let held = client.log_numbers[usize::from(submit.number)];
        submit.operations = register.boards[0].log[usize::from(held)].operations;
        return register.deliver(address, &Frame::Submit(submit).to_bytes(), out);
    }
    answer
}

/// A refused Submit lifts the floor.
fn lifts_on_refusal(register: &mut Register, address: u8, frame: &[u8], out: &mut [u8]) -> Answer {
    let answer = register.deliver(address, frame, out);
    if let (1, 4, Some(Frame::Submit(submit))) = (address, answer.answer, Frame::read(frame)) {
        let client = &mut register.boards[0].clients[usize::from(submit.client)];
        client.floor = client.floor.max(submit.ack);
    }
    answer
}

/// A log of 255 entries counts as full.
fn full_at_255(register: &mut Register, address: u8, frame: &[u8], out: &mut [u8]) -> Answer {
    let mut tried = register.clone();
    let answer = tried.deliver(address, frame, out);
    if tried.boards[0].log.len() == 256 {
        return refusal(5);
    }
    *register = tried;
    answer
}

/// An address that names nobody is answered 1 where the frame is malformed.
fn looks_before_nobody(
    register: &mut Register,
    address: u8,
    frame: &[u8],
    out: &mut [u8],
) -> Answer {
    if Frame::read(frame).is_none() {
        return refusal(1);
    }
    register.deliver(address, frame, out)
}

/// A shard runs its first ShardAppend and afterwards only moves ssn.
fn runs_once(register: &mut Register, address: u8, frame: &[u8], out: &mut [u8]) -> Answer {
    let shards = register.shards.clone();
    let answer = register.deliver(address, frame, out);
    for (shard, before) in register.shards.iter_mut().zip(shards) {
        if before.ssn > 0 {
            shard.keys = before.keys;
        }
    }
    answer
}

/// A shard stores under a key of its neighbour.
fn stores_elsewhere(register: &mut Register, address: u8, frame: &[u8], out: &mut [u8]) -> Answer {
    let answer = register.deliver(address, frame, out);
    if let (17, 0) = (address, answer.answer) {
        register.shards[0].keys[1] = Some(Stored {
            value: 0,
            log_number: 0,
        });
    }
    answer
}

/// A board appends early Forwards in the order of their arrival.
fn appends_on_arrival(
    register: &mut Register,
    address: u8,
    frame: &[u8],
    out: &mut [u8],
) -> Answer {
    let answer = register.deliver(address, frame, out);
    if let (4, Some(Frame::Forward(mut forward))) = (answer.answer, Frame::read(frame)) {
        let board = &register.boards[usize::from(address) - 1];
        forward.log_number = board.log.len() as u8;
        return register.deliver(address, &Frame::Forward(forward).to_bytes(), out);
    }
    answer
}

/// A repeated Submit is appended once more, under the next number.
fn appends_twice(register: &mut Register, address: u8, frame: &[u8], out: &mut [u8]) -> Answer {
    if let (1, Some(Frame::Submit(mut submit))) = (address, Frame::read(frame)) {
        let next = register.boards[0].clients[usize::from(submit.client)]
            .log_numbers
            .len();
        if usize::from(submit.number) < next {
            submit.number = next as u16;
            submit.ack = submit.number;
            return register.deliver(address, &Frame::Submit(submit).to_bytes(), out);
        }
    }
    register.deliver(address, frame, out)
}

/// A shard reports other values than it holds.
fn misreads(register: &mut Register, address: u8, frame: &[u8], out: &mut [u8]) -> Answer {
    let answer = register.deliver(address, frame, out);
    if let (0, Some(Frame::ExecNotif(mut notif))) =
        (answer.answer, Frame::read(&out[..answer.bytes]))
    {
        for read in notif.reads.iter_mut() {
            read.value = read.value.map(|value| value ^ 1);
        }
        let altered = Frame::ExecNotif(notif).to_bytes();
        out[..altered.len()].copy_from_slice(&altered);
    }
    answer
}

/// The floor stands above what the client has acknowledged.
fn lifts_too_far(register: &mut Register, address: u8, frame: &[u8], out: &mut [u8]) -> Answer {
    let answer = register.deliver(address, frame, out);
    if let (2, 0, Some(Frame::Forward(forward))) = (address, answer.answer, Frame::read(frame)) {
        let client = &mut register.boards[1].clients[usize::from(forward.submit.client)];
        client.floor = forward.submit.number + 1;
    }
    answer
}

/// Executed empties the queues it takes from, as 000's dequeue can.
fn empties_queues(register: &mut Register, address: u8, frame: &[u8], out: &mut [u8]) -> Answer {
    let answer = register.deliver(address, frame, out);
    if let (0, Some(Frame::Executed(_))) = (answer.answer, Frame::read(frame)) {
        for queue in &mut register.boards[usize::from(address) - 1].queues {
            queue.numbers.clear();
        }
    }
    answer
}

/// The head forgets its last entry once it is EXE.
fn forgets_an_entry(register: &mut Register, address: u8, frame: &[u8], out: &mut [u8]) -> Answer {
    let answer = register.deliver(address, frame, out);
    let log = &mut register.boards[0].log;
    if log.last().is_some_and(|entry| entry.status == Status::Exe) {
        log.pop();
    }
    answer
}

/// A byte behind the frames is written.
fn writes_too_much(register: &mut Register, address: u8, frame: &[u8], out: &mut [u8]) -> Answer {
    let answer = register.deliver(address, frame, out);
    out[67] = 1;
    answer
}

struct Delivering(Deliver);

impl Program for Delivering {
    fn output(&self, input: &[u8]) -> Result<Vec<u8>, String> {
        Ok(bench_with(self.0, input))
    }
}

/// How many of the runs show a difference.
fn differences(deliver: Deliver) -> usize {
    (0..RUNS)
        .map(|run| runs::make(SEED, run).input)
        .filter(|input| compare(&Delivering(deliver), input, &bench(input)).is_err())
        .count()
}

/// How many of the runs break demand 3.
fn faults(deliver: Deliver) -> usize {
    (0..RUNS)
        .filter(|&run| runs::make_with(deliver, SEED, run).fault.is_some())
        .count()
}

#[test]
fn the_register_itself_passes() {
    assert_eq!(differences(Register::deliver), 0);
    assert_eq!(faults(Register::deliver), 0);
}

#[test]
fn outputs_of_wrong_programs_differ() {
    let mutants: [(&str, Deliver); 9] = [
        ("always refuses", always_refuses),
        ("takes all and does nothing", takes_all_and_does_nothing),
        ("drops repeats", drops_repeats),
        ("skips numbers", skips_numbers),
        ("compares nothing", compares_nothing),
        ("lifts on refusal", lifts_on_refusal),
        ("full at 255", full_at_255),
        ("looks before nobody", looks_before_nobody),
        ("appends on arrival", appends_on_arrival),
    ];
    for (name, mutant) in mutants {
        assert!(differences(mutant) > 0, "{name}");
    }
}

#[test]
fn wrong_registers_break_demand_3() {
    let mutants: [(&str, Deliver); 11] = [
        ("always refuses", always_refuses),
        ("skips numbers", skips_numbers),
        ("runs once", runs_once),
        ("stores elsewhere", stores_elsewhere),
        ("appends on arrival", appends_on_arrival),
        ("appends twice", appends_twice),
        ("misreads", misreads),
        ("lifts too far", lifts_too_far),
        ("empties queues", empties_queues),
        ("forgets an entry", forgets_an_entry),
        ("writes too much", writes_too_much),
    ];
    for (name, mutant) in mutants {
        assert!(faults(mutant) > 0, "{name}");
    }
}

#[test]
fn one_altered_byte_differs() {
    struct Altered(usize);

    impl Program for Altered {
        fn output(&self, input: &[u8]) -> Result<Vec<u8>, String> {
            let mut output = bench(input);
            output[self.0] ^= 1;
            Ok(output)
        }
    }

    let input = include_bytes!("../../data/example.bin");
    let expected = bench(input);
    for at in 0..expected.len() {
        let fault = compare(&Altered(at), input, &expected).unwrap_err();
        let line = 1 + expected[..at].iter().filter(|&&byte| byte == b'\n').count();
        assert!(fault.starts_with(&format!("line {line}: ")), "{fault}");
    }
}

#[test]
fn a_shorter_or_longer_output_differs() {
    struct Resized(isize);

    impl Program for Resized {
        fn output(&self, input: &[u8]) -> Result<Vec<u8>, String> {
            let mut output = bench(input);
            output.resize(output.len().saturating_add_signed(self.0), b'\n');
            Ok(output)
        }
    }

    let input = include_bytes!("../../data/example.bin");
    for change in [-1, 1, -40, 40] {
        assert!(compare(&Resized(change), input, &bench(input)).is_err());
    }
    assert!(compare(&Resized(0), input, &bench(input)).is_ok());
}

/// Delivers, and holds that a refusal leaves the whole register as it was.
fn watches_refusals(register: &mut Register, address: u8, frame: &[u8], out: &mut [u8]) -> Answer {
    let before = register.clone();
    let answer = register.deliver(address, frame, out);
    if answer.answer != 0 {
        assert_eq!((answer.frames, answer.bytes), (0, 0));
        assert!(
            *register == before,
            "a refusal of {frame:02x?} changed the state"
        );
    }
    answer
}

#[test]
fn refusals_leave_the_register() {
    for run in 8..12 {
        assert_eq!(runs::sort(run), runs::Sort::Mixed);
        runs::make_with(watches_refusals, SEED, run);
    }
}

#[test]
fn a_run_can_be_made_again() {
    for run in 0..RUNS {
        assert!(runs::make(SEED, run).input == runs::make(SEED, run).input);
    }
    assert!(runs::make(SEED, 2).input != runs::make(SEED + 1, 2).input);
}
