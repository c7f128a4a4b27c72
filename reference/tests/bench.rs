//! The bench program: the stored example, and the points of 01 that are easy to read otherwise.

mod common;

use common::*;
use reference::driver::compare::{Executable, Program};

const EXAMPLE_INPUT: &[u8] = include_bytes!("../data/example.bin");
const EXAMPLE_OUTPUT: &str = include_str!("../data/example.txt");
const OPS: &[Op] = &[(PUT, 5, 1000)];

fn example_records() -> Vec<(u8, Vec<u8>)> {
    let append = shard_append(1, 0, 1, &[(0, OPS[0])]);
    vec![
        (1, submit(3, 0, 0, OPS)),
        (2, forward(0, 3, 0, 0, OPS)),
        (17, append.clone()),
        (17, append),
        (2, exec_notif(1, 0, &[])),
    ]
}

/// The output of the program itself.
fn program(input: &[u8]) -> String {
    let second = Executable(env!("CARGO_BIN_EXE_second").into());
    let output = second.output(input).expect("second runs");
    String::from_utf8(output).expect("second writes ASCII")
}

#[test]
fn the_example() {
    assert_eq!(bench_input(2, 1, &example_records()), EXAMPLE_INPUT);
    assert_eq!(bench_text(EXAMPLE_INPUT), EXAMPLE_OUTPUT);
    assert_eq!(program(EXAMPLE_INPUT), EXAMPLE_OUTPUT);
}

#[test]
fn an_input_cut_at_every_length() {
    // Where records end, and how many d lines and which L lines stand there.
    let mut ends = vec![2];
    for (_, frame) in example_records() {
        ends.push(ends[ends.len() - 1] + 1 + frame.len());
    }
    let logs = ["", "L1 0 3 0 PRE\n", "L1 0 3 0 PRE\nL2 0 3 0 PRE\n"];
    let answers = ["d0 0 1\n", "d1 0 1\n", "d2 0 1\n", "d3 7 0\n"];
    for length in 0..EXAMPLE_INPUT.len() {
        let whole = ends.iter().filter(|&&end| end <= length).count();
        let expected = if whole == 0 {
            "setup 11\n".to_string()
        } else {
            let cut = if ends.contains(&length) { "" } else { "cut\n" };
            let answers = answers[..whole - 1].concat();
            let log = logs[(whole - 1).min(2)];
            format!("chain 2 shards 1\n{answers}{cut}{log}")
        };
        assert_eq!(
            bench_text(&EXAMPLE_INPUT[..length]),
            expected,
            "length {length}"
        );
    }
}

#[test]
fn setups() {
    for input in [
        &[][..],
        &[2],
        &[8],
        &[1, 1],
        &[9, 1],
        &[0, 1],
        &[2, 0],
        &[2, 9],
        &[255, 255],
        &[2, 0, 1, 200, 200],
        &[9, 1, 1, 0],
    ] {
        assert_eq!(bench_text(input), "setup 11\n", "{input:?}");
        assert_eq!(program(input), "setup 11\n", "{input:?}");
    }
    for n in 2..=8 {
        for m in 1..=8 {
            assert_eq!(bench_text(&[n, m]), format!("chain {n} shards {m}\n"));
        }
    }
}

#[test]
fn nobody_is_answered_2_without_looking() {
    let (n, m) = (3, 2);
    for address in 0..=255 {
        let named = (1..=n).contains(&address) || (17..17 + m).contains(&address);
        let malformed = vec![1, 0, 9];
        let expected = if named { 1 } else { 2 };
        assert_eq!(
            bench_text(&bench_input(n, m, &[(address, malformed)])),
            format!("chain 3 shards 2\nd0 {expected} 0\n"),
            "{address}"
        );
    }
}

#[test]
fn short_records_are_records() {
    let records = [
        (1, vec![0, 0]),
        (2, vec![1, 0, 2]),
        (17, vec![0, 0]),
        (9, vec![0, 0]),
        (1, submit(3, 0, 0, OPS)),
    ];
    assert_eq!(
        bench_text(&bench_input(2, 1, &records)),
        "chain 2 shards 1\nd0 1 0\nd1 1 0\nd2 1 0\nd3 2 0\nd4 0 1\nL1 0 3 0 PRE\n"
    );
}

#[test]
fn a_length_over_36_is_cut_whatever_the_address() {
    let after = bench_input(2, 1, &[(1, submit(3, 0, 0, OPS))]);
    for address in [0, 1, 2, 17, 200, 255] {
        let mut input = bench_input(2, 1, &[(1, submit(3, 0, 0, OPS))]);
        let answer = if [1, 2, 17].contains(&address) { 1 } else { 2 };
        input.extend([address, 36, 0]);
        input.extend([0; 36]);
        let whole = input.clone();
        let head = format!("chain 2 shards 1\nd0 0 1\nd1 {answer} 0\n");
        assert_eq!(bench_text(&whole), format!("{head}L1 0 3 0 PRE\n"));
        for length in [37u16, 38, 255, 256, 256 + 14, 65_535] {
            let mut input = whole.clone();
            input.push(address);
            input.extend(length.to_le_bytes());
            input.extend([0; 300]);
            input.extend(&after[2..]);
            assert_eq!(bench_text(&input), format!("{head}cut\nL1 0 3 0 PRE\n"));
        }
    }
}

#[test]
fn the_index_never_wraps() {
    let mut input = vec![2, 1];
    let count = 70_000;
    for index in 0..count {
        input.extend([if index % 2 == 0 { 1 } else { 99 }, 0, 0]);
    }
    let mut expected = "chain 2 shards 1\n".to_string();
    for index in 0..count {
        expected += &format!("d{index} {} 0\n", 1 + index % 2);
    }
    assert_eq!(bench_text(&input), expected);
    assert_eq!(program(&input), expected);
}

#[test]
fn logs_stand_board_by_board() {
    let mut records = Vec::new();
    for number in 0..12u16 {
        records.push((1, submit(15, number, number, OPS)));
        if number < 11 {
            records.push((2, forward(number, 15, number, number, OPS)));
        }
    }
    let mut expected = String::new();
    for number in 0..12 {
        expected += &format!("L1 {number} 15 {number} PRE\n");
    }
    for number in 0..11 {
        expected += &format!("L2 {number} 15 {number} PRE\n");
    }
    assert!(bench_text(&bench_input(3, 8, &records)).ends_with(&format!("d22 0 1\n{expected}")));
}
