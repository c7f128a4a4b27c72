//! The trace over the library, beside that of the second program.

mod common;

use std::fs;
use std::path::Path;

use common::*;
use library::trace::trace;
use reference::driver::runs;
use reference::lists::Operation;
use reference::trace::{client_address, invoke_record, retry_record};

const EXAMPLE: &[u8] = include_bytes!("../../reference/data/example.bin");
const LOSSY: &[u8] = include_bytes!("../data/lossy.bin");
const LOSSY_TEXT: &str = include_str!("../data/lossy.txt");

fn text(input: &[u8]) -> String {
    trace(input, 0).expect("memory can be read").text
}

fn traced(n: u8, m: u8, records: &[Vec<u8>]) -> String {
    text(&[vec![n, m], records.concat()].concat())
}

fn to(address: u8, frame: &[u8]) -> Vec<u8> {
    [&[address], frame].concat()
}

/// Holds the tool's output to that of the second program, and to that of `second-trace` where it
/// has been built beside the tool.
fn compare(name: &str, input: &[u8]) {
    let output = run(TRACE, &[], input);
    assert!(output.status.success(), "{name}");
    let expected = reference::trace::trace(input).expect("memory can be read");
    assert!(output.stdout == expected.as_bytes(), "{name}");
    let second = Path::new(TRACE).with_file_name("second-trace");
    if second.is_file() {
        let second = run(second.to_str().expect("a plain path"), &[], input);
        assert!(output.stdout == second.stdout, "{name}");
    }
}

#[test]
fn the_same_as_the_second_program_on_simulated_runs() {
    for seed in 0..24 {
        let mischief = [0, 10, 60][seed as usize % 3];
        let input = simulated(seed, 1_500, mischief);
        compare(&format!("seed {seed}"), &input);
    }
}

#[test]
fn the_same_as_the_second_program_on_bench_inputs() {
    for run in 0..runs::CYCLE {
        let input = runs::make(7, run).input;
        // A full log takes long; the others have all that a bench input can have.
        if run > 1 {
            compare(&format!("run {run}"), &input);
        }
    }
    compare("the example", EXAMPLE);
}

#[test]
fn the_same_as_the_second_program_on_any_bytes() {
    let bytes: Vec<u8> = simulated(99, 2_000, 50);
    for seed in 0..40 {
        let mut input = bytes.clone();
        let mut random = reference::driver::random::Random::new(seed, 1);
        for _ in 0..random.within(1..=60) {
            let at = random.below(input.len());
            input[at] = random.byte(0..=80);
        }
        input.truncate(random.below(input.len()));
        compare(&format!("seed {seed}"), &input);
    }
}

#[test]
fn a_stored_run() {
    let output = run(TRACE, &[], LOSSY);
    assert_eq!(String::from_utf8_lossy(&output.stdout), LOSSY_TEXT);
    compare("the stored run", LOSSY);
}

#[test]
fn a_run_by_hand() {
    let records = [
        invoke_record(3, &[Operation::put(5, 1000)]),
        to(1, b"\x0e\0\x01\0\x03\0\0\0\0\x01\x01\x05\xe8\x03\0\0"),
        to(2, b"\x10\0\x02\0\0\0\x03\0\0\0\0\x01\x01\x05\xe8\x03\0\0"),
        to(17, b"\x0f\0\x03\0\x01\0\0\x01\0\x01\0\x01\x05\xe8\x03\0\0"),
    ];
    assert_eq!(
        traced(2, 1, &records),
        "chain 2 shards 1
d0 0 1 0e0001000300000000010105e8030000
d1 0 1 1000020000000300000000010105e8030000
d2 0 1 0f000300010000010001000105e8030000
d3 0 1 0600040001000000
L1 0 3 0 PRE | p5=1000 | | 1
H1 3 0 0
Q1 1 - | 0
L2 0 3 0 PRE | p5=1000 | | 1
H2 3 0 0
Q2 1 - | 0
S1 1 0 | 5=1000@0
C3 1 | 0
"
    );
}

#[test]
fn replies_and_reads() {
    let gets = [Operation::get(1), Operation::put(0, 7), Operation::get(0)];
    let response = b"\x12\0\x06\0\x0f\0\0\x02\0\0\0\0\0\0\x02\x01\x07\0\0\0";
    let text = traced(
        2,
        2,
        &[
            invoke_record(15, &gets),
            to(client_address(15), response),
            to(client_address(15), response),
            invoke_record(15, &[Operation::put(9, 9)]),
            to(client_address(15), b"\x06\0\x06\0\x0f\x01\0\0"),
        ],
    );
    assert!(text.contains("\nd1 0 0 | 0- 2=7\nd2 7 0\n"), "{text}");
    assert!(text.contains("\nd4 0 0 |\n"), "{text}");
    assert!(text.ends_with("\nC15 2 |\n"), "{text}");
}

#[test]
fn other_lengths_at_a_session_are_answered_1() {
    let records = [
        to(49, &[vec![24, 0], vec![1; 24]].concat()),
        to(49, &[vec![26, 0], vec![1; 26]].concat()),
        to(49, &[0, 0]),
        to(65, &[1, 0, 0]),
        to(65, &[3, 0, 0, 0, 0]),
        retry_record(0, 0),
        to(33, &[0, 0]),
        to(81, &[0, 0]),
        to(32, &[0, 0]),
    ];
    let text = traced(2, 1, &records);
    assert!(
        text.contains("\nd0 1 0\nd1 1 0\nd2 1 0\nd3 1 0\nd4 1 0\nd5 7 0\nd6 1 0\nd7 2 0\nd8 2 0\n"),
        "{text}"
    );
}

#[test]
fn cut_and_setup_as_the_bench_has_them() {
    for input in [&[][..], &[2], &[1, 1], &[9, 1], &[2, 0], &[2, 9, 1, 0, 0]] {
        assert_eq!(text(input), "setup 11\n", "{input:?}");
    }
    let state = "Q1 1 - |\nQ2 1 - |\nS1 0 - |\n";
    assert_eq!(text(&[2, 1]), format!("chain 2 shards 1\n{state}"));
    for input in [&[2, 1, 49][..], &[2, 1, 1, 4, 0, 1], &[2, 1, 1, 37, 0]] {
        assert_eq!(text(input), format!("chain 2 shards 1\ncut\n{state}"));
    }
}

#[test]
fn a_file_and_standard_input_are_one() {
    let folder = Folder::new("input");
    let name = folder.file("run.bin");
    fs::write(&name, LOSSY).expect("the folder is there");
    let output = run(TRACE, &[&name], b"");
    assert!(output.status.success());
    assert_eq!(String::from_utf8_lossy(&output.stdout), LOSSY_TEXT);
}
