//! The trace of the second program.

mod common;

use common::*;
use reference::driver::random::Random;
use reference::driver::simulation::{Setup, Simulation};
use reference::lists::Operation;
use reference::register::Register;
use reference::text;
use reference::trace::{client_address, invoke_record, retry_record, trace};

const OPS: &[Op] = &[(PUT, 5, 1000)];
const PUT_5: &[Operation] = &[Operation::put(5, 1000)];

fn traced(n: u8, m: u8, records: &[Vec<u8>]) -> String {
    let mut input = vec![n, m];
    input.extend(records.concat());
    trace(&input[..]).expect("memory can be read")
}

fn to(address: u8, frame: Vec<u8>) -> Vec<u8> {
    [vec![address], frame].concat()
}

fn hex(frames: &[Vec<u8>]) -> String {
    frames
        .concat()
        .iter()
        .map(|byte| format!("{byte:02x}"))
        .collect()
}

#[test]
fn a_whole_run() {
    let a = submit(3, 0, 0, OPS);
    let forwarded = forward(0, 3, 0, 0, OPS);
    let append = shard_append(1, 0, 1, &[(0, OPS[0])]);
    let notif = exec_notif(1, 0, &[]);
    let exe = executed(0, &[]);
    let answer = response(3, 0, &[]);
    let records = [
        invoke_record(3, PUT_5),
        to(1, a.clone()),
        to(2, forwarded.clone()),
        to(17, append.clone()),
        to(17, append.clone()),
        to(2, notif.clone()),
        to(1, exe.clone()),
        to(client_address(3), answer.clone()),
        to(client_address(3), answer.clone()),
    ];
    let before = traced(2, 1, &records[..4]);
    let expected = format!(
        "chain 2 shards 1
d0 0 1 0e0001000300000000010105e8030000
d1 0 1 {}
d2 0 1 {}
d3 0 1 {}
L1 0 3 0 PRE | p5=1000 | | 1
H1 3 0 0
Q1 1 - | 0
L2 0 3 0 PRE | p5=1000 | | 1
H2 3 0 0
Q2 1 - | 0
S1 1 0 | 5=1000@0
C3 1 | 0
",
        hex(&[forwarded]),
        hex(&[append]),
        hex(&[notif]),
    );
    assert_eq!(before, expected);

    let after = traced(2, 1, &records);
    let expected = format!(
        "d4 7 0
d5 0 1 {}
d6 0 1 {}
d7 0 0 |
d8 7 0
L1 0 3 0 EXE | p5=1000 | |
H1 3 0 0
Q1 1 0 |
L2 0 3 0 EXE | p5=1000 | |
H2 3 0 0
Q2 1 0 |
S1 1 0 | 5=1000@0
C3 1 |
",
        hex(&[exe]),
        hex(&[answer]),
    );
    assert!(after.ends_with(&expected), "{after}");
}

#[test]
fn a_fresh_register() {
    assert_eq!(
        traced(2, 2, &[]),
        "chain 2 shards 2\nQ1 1 - |\nQ1 2 - |\nQ2 1 - |\nQ2 2 - |\nS1 0 - |\nS2 0 - |\n"
    );
    assert_eq!(traced(9, 1, &[]), "setup 11\n");
    assert_eq!(trace(&[2u8][..]).unwrap(), "setup 11\n");
}

#[test]
fn several_shards_and_reads() {
    let ops = [(GET, 1, 0), (PUT, 0, 7), (GET, 0, 0)];
    let operations = [Operation::get(1), Operation::put(0, 7), Operation::get(0)];
    let text = traced(
        2,
        2,
        &[
            invoke_record(15, &operations),
            to(1, submit(15, 0, 0, &ops)),
            to(2, forward(0, 15, 0, 0, &ops)),
            to(2, exec_notif(2, 0, &[(0, 0, 0)])),
            to(client_address(15), response(15, 0, &[(0, 0, 0), (2, 1, 7)])),
        ],
    );
    let sent = hex(&[
        shard_append(1, 0, 1, &[(1, ops[1]), (2, ops[2])]),
        shard_append(2, 0, 1, &[(0, ops[0])]),
    ]);
    assert!(
        text.contains(&format!("\nd2 0 2 {sent}\nd3 0 0\nd4 0 0 | 0- 2=7\n")),
        "{text}"
    );
    assert!(
        text.contains("\nL1 0 15 0 PRE | g1 p0=7 g0 | | 1 2\n"),
        "{text}"
    );
    assert!(
        text.contains("\nL2 0 15 0 PRE | g1 p0=7 g0 | 0- | 1\n"),
        "{text}"
    );
    assert!(
        text.contains("\nQ2 1 - | 0\nQ2 2 0 |\nS1 0 - |\n"),
        "{text}"
    );
    assert!(text.ends_with("C15 1 |\n"), "{text}");
}

#[test]
fn sessions_are_answered() {
    let d_lines = |records: &[Vec<u8>]| {
        let text = traced(2, 1, records);
        let lines = text.lines().filter(|line| line.starts_with('d'));
        lines.map(String::from).collect::<Vec<_>>()
    };
    let mut five = invoke_record(0, PUT_5);
    five[3] = 5;
    let mut none = invoke_record(0, PUT_5);
    none[3] = 0;
    let mut unused = invoke_record(0, PUT_5);
    unused[10..].fill(0xFF);
    let sent = hex(&[submit(0, 0, 0, OPS)]);
    assert_eq!(
        d_lines(&[
            five,
            none,
            to(49, vec![24, 0].into_iter().chain([1; 24]).collect()),
            to(49, vec![26, 0].into_iter().chain([1; 26]).collect()),
            to(49, vec![0, 0]),
            unused,
            retry_record(0, 0),
            retry_record(0, 1),
            retry_record(1, 0),
            to(65, vec![1, 0, 0]),
            to(65, vec![3, 0, 0, 0, 0]),
            to(33, vec![0, 0]),
            to(33, response(1, 0, &[])),
            to(81, vec![0, 0]),
            to(32, vec![0, 0]),
        ]),
        [
            "d0 1 0".to_string(),
            "d1 1 0".to_string(),
            "d2 1 0".to_string(),
            "d3 1 0".to_string(),
            "d4 1 0".to_string(),
            format!("d5 0 1 {sent}"),
            format!("d6 0 1 {sent}"),
            "d7 7 0".to_string(),
            "d8 7 0".to_string(),
            "d9 1 0".to_string(),
            "d10 1 0".to_string(),
            "d11 1 0".to_string(),
            "d12 2 0".to_string(),
            "d13 2 0".to_string(),
            "d14 2 0".to_string(),
        ]
    );
}

#[test]
fn cut_as_the_bench() {
    let text = traced(2, 1, &[invoke_record(3, PUT_5), vec![49, 25]]);
    assert!(text.contains("\ncut\nQ1 1 - |\n"), "{text}");
    let text = traced(2, 1, &[vec![49, 37, 0], vec![0; 50]]);
    assert_eq!(
        text,
        "chain 2 shards 1\ncut\nQ1 1 - |\nQ2 1 - |\nS1 0 - |\n"
    );
}

#[test]
fn a_traced_run_ends_in_the_states_of_the_run() {
    for (run, mischief) in [(0, 0), (1, 30), (2, 60)] {
        let setup = Setup {
            n: 4,
            m: 3,
            clients: 5,
            keys: 8,
            invocations: 100,
            records: 3_000,
            disorder: 16,
            talk: 10,
            retry: 20,
            loss: 2,
            notif_loss: 0,
            doubling: 5,
            late: 5,
            again: 50,
            mischief,
        };
        let mut simulation = Simulation::new(Register::deliver, setup, Random::new(3, run));
        simulation.crowd = 20;
        simulation.harm = 50;
        simulation.run().expect("nothing is watched");
        let text = trace(&simulation.trace_input[..]).expect("memory can be read");
        let state = text::state(&simulation.register, &simulation.sessions);
        assert!(state.contains("EXE"));
        assert!(text.ends_with(&format!("\n{state}")));
        assert!(text.lines().all(|line| !line.ends_with(' ')));
    }
}
