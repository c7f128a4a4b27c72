//! Situations A to K of 01, on the second program.

mod common;

use common::*;
use reference::board::{Board, Status};
use reference::lists::{Operation, Read};
use reference::session::Session;
use reference::shard::{Shard, Stored};

const A: [u8; 16] = [
    0x0E, 0x00, 0x01, 0x00, 0x03, 0x00, 0x00, 0x00, 0x00, 0x01, 0x01, 0x05, 0xE8, 0x03, 0x00, 0x00,
];

fn invoke(session: &mut Session, operations: &[Operation]) -> (u8, Vec<Vec<u8>>) {
    called(session, 68, |session, out| session.invoke(operations, out))
}

#[test]
fn a_submit_is_these_bytes() {
    let mut session = Session::start(3);
    let (answer, sent) = invoke(&mut session, &[Operation::put(5, 1000)]);
    assert_eq!((answer, sent), (0, vec![A.to_vec()]));
    assert_eq!(submit(3, 0, 0, &[(PUT, 5, 1000)]), A);
    taken(&mut Board::start(2, 1, 1), &A);
}

#[test]
fn b_a_count_of_two_is_malformed() {
    let mut b = A;
    b[9] = 2;
    refused(&mut Board::start(2, 1, 1), &b, 1);
}

#[test]
fn c_a_number_too_early() {
    let mut head = Board::start(2, 1, 1);
    refused(&mut head, &submit(3, 1, 0, &[(PUT, 5, 1000)]), 4);
    assert_eq!(head.high(3), None);
}

#[test]
fn d_a_repeated_submit_is_forwarded_again() {
    let mut head = Board::start(2, 1, 1);
    let forwarded = vec![forward(0, 3, 0, 0, &[(PUT, 5, 1000)])];
    assert_eq!(taken(&mut head, &A), forwarded);
    assert_eq!(taken(&mut head, &A), forwarded);
    assert_eq!(head.log().len(), 1);
}

#[test]
fn e_a_shard_runs_each_sn_once() {
    let mut shard = Shard::start(1, 1);
    refused(
        &mut shard,
        &shard_append(1, 1, 2, &[(0, (PUT, 5, 1000))]),
        4,
    );
    let first = shard_append(1, 0, 1, &[(0, (PUT, 5, 1000))]);
    assert_eq!(taken(&mut shard, &first), vec![exec_notif(1, 0, &[])]);
    refused(&mut shard, &first, 7);
    let stored = Stored {
        value: 1000,
        log_number: 0,
    };
    assert_eq!(shard.keys()[5], Some(stored));
    assert_eq!((shard.ssn(), shard.last_run()), (1, Some(0)));
}

#[test]
fn f_answers_out_of_order() {
    let mut tail = Board::start(2, 1, 2);
    for number in 0..3 {
        taken(&mut tail, &forward(number, 3, number, 0, &[(PUT, 5, 1)]));
    }
    assert!(tail.queue(1).numbers().eq([0, 1, 2]));
    assert_eq!(
        taken(&mut tail, &exec_notif(1, 2, &[])),
        vec![executed(2, &[])]
    );
    assert!(tail.queue(1).numbers().eq([]));
    let statuses = |tail: &Board| {
        tail.log()
            .iter()
            .map(|entry| entry.status)
            .collect::<Vec<_>>()
    };
    assert_eq!(statuses(&tail), [Status::Pre, Status::Pre, Status::Exe]);
    assert_eq!(
        taken(&mut tail, &exec_notif(1, 0, &[])),
        vec![executed(0, &[])]
    );
    assert_eq!(tail.queue(1).last_taken(), Some(2));
    assert_eq!(statuses(&tail), [Status::Exe, Status::Pre, Status::Exe]);
}

#[test]
fn g_a_get_sees_an_earlier_put_of_its_list() {
    let mut shard = Shard::start(3, 3);
    let append = shard_append(3, 0, 1, &[(0, (PUT, 5, 7)), (1, (GET, 5, 0))]);
    assert_eq!(
        taken(&mut shard, &append),
        vec![exec_notif(3, 0, &[(1, 1, 7)])]
    );
}

#[test]
fn h_the_window() {
    let mut session = Session::start(0);
    let operations = [Operation::put(1, 1)];
    for number in 0..8 {
        let (answer, sent) = invoke(&mut session, &operations);
        assert_eq!(
            (answer, sent),
            (0, vec![submit(0, number, 0, &[(PUT, 1, 1)])])
        );
    }
    for number in 1..8 {
        assert_eq!(session.response(&response(0, number, &[])).answer, 0);
    }
    let before = session.clone();
    assert_eq!(invoke(&mut session, &operations), (9, vec![]));
    assert_eq!(session, before);
    assert_eq!(session.response(&response(0, 0, &[])).answer, 0);
    let (answer, sent) = invoke(&mut session, &operations);
    assert_eq!((answer, sent), (0, vec![submit(0, 8, 8, &[(PUT, 1, 1)])]));
}

#[test]
fn i_executed_twice() {
    let mut head = Board::start(2, 1, 1);
    taken(&mut head, &A);
    assert_eq!(
        taken(&mut head, &executed(0, &[])),
        vec![response(3, 0, &[])]
    );
    refused(&mut head, &executed(0, &[]), 7);
}

#[test]
fn j_a_full_log() {
    let mut head = Board::start(2, 1, 1);
    for number in 0..256 {
        let ack = u16::saturating_sub(number, 7);
        taken(&mut head, &submit(3, number, ack, &[(PUT, 5, 1)]));
    }
    refused(&mut head, &submit(3, 256, 249, &[(PUT, 5, 1)]), 5);
    refused(&mut head, &submit(4, 0, 0, &[(PUT, 5, 1)]), 5);
    let sent = taken(&mut head, &submit(3, 255, 249, &[(PUT, 5, 1)]));
    assert_eq!(sent, vec![forward(255, 3, 255, 249, &[(PUT, 5, 1)])]);
    assert_eq!(head.log().len(), 256);
    taken(&mut head, &executed(255, &[]));
    let sent = taken(&mut head, &submit(3, 255, 249, &[(PUT, 5, 1)]));
    assert_eq!(sent, vec![response(3, 255, &[])]);
}

#[test]
fn k_the_last_number() {
    let mut session = Session::start(9);
    let operations = [Operation::get(1)];
    for number in 0..=65_534 {
        let (answer, sent) = invoke(&mut session, &operations);
        assert_eq!(
            (answer, sent),
            (0, vec![submit(9, number, number, &[(GET, 1, 0)])])
        );
        let reply = session.response(&response(9, number, &[(0, 1, 3)]));
        assert_eq!(reply.answer, 0);
        let read = Read {
            place: 0,
            value: Some(3),
        };
        assert_eq!(*reply.reads, [read]);
    }
    let before = session.clone();
    assert_eq!(invoke(&mut session, &operations), (10, vec![]));
    assert_eq!(session, before);
}
