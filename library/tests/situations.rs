//! The situations of 01 that concern a board, on the library.

use library::Board;
use reference::frames::{ExecNotif, Executed, Forward, Frame, Submit};
use reference::lists::{Operation, Reads};

/// Bytes that no step may leave in an out area where it wrote none.
const UNTOUCHED: [u8; 68] = [0xA5; 68];

/// A: client 3, number 0, ack 0, put key 5 value 1000.
const A: [u8; 16] = [
    0x0E, 0x00, 0x01, 0x00, 0x03, 0x00, 0x00, 0x00, 0x00, 0x01, 0x01, 0x05, 0xE8, 0x03, 0x00, 0x00,
];

fn submit(client: u8, number: u16, key: u8, value: u32) -> Submit {
    Submit {
        client,
        number,
        ack: number.saturating_sub(7),
        operations: [Operation::put(key, value)].into_iter().collect(),
    }
}

fn board(own: u8) -> Board {
    let (board, answer) = Board::start(2, 1, own);
    assert_eq!(answer, 0);
    board
}

/// The answer, and the bytes of what was sent; every other byte is untouched.
fn step(board: &mut Board, frame: &[u8]) -> (u8, Vec<u8>) {
    let mut out = UNTOUCHED;
    let stepped = board.step(frame, &mut out);
    assert_eq!(out[stepped.bytes..], UNTOUCHED[stepped.bytes..]);
    assert_eq!(stepped.frames == 0, stepped.bytes == 0);
    (stepped.answer, out[..stepped.bytes].to_vec())
}

fn states(board: &Board) -> Vec<bool> {
    board.log().map(|entry| entry.is_exe()).collect()
}

#[test]
fn b_a_wrong_count_breaks_a_rule() {
    let mut b = A;
    b[9] = 2;
    assert_eq!(step(&mut board(1), &b), (1, vec![]));
}

#[test]
fn c_an_early_number() {
    let frame = Frame::Submit(submit(3, 1, 5, 1000)).to_bytes();
    assert_eq!(step(&mut board(1), &frame), (4, vec![]));
}

#[test]
fn d_a_repeated_submit_is_sent_on_again() {
    let submit = submit(3, 0, 5, 1000);
    assert_eq!(Frame::Submit(submit).to_bytes(), A);
    let forward = Forward {
        log_number: 0,
        submit,
    };
    let forward = Frame::Forward(forward).to_bytes();
    let mut head = board(1);
    assert_eq!(step(&mut head, &A), (0, forward.clone()));
    assert_eq!(step(&mut head, &A), (0, forward));
    assert_eq!(states(&head), [false]);
}

#[test]
fn f_answers_out_of_order() {
    let mut tail = board(2);
    for number in 0..3 {
        let forward = Forward {
            log_number: number,
            submit: submit(3, number.into(), 5, 1000),
        };
        assert_eq!(step(&mut tail, &Frame::Forward(forward).to_bytes()).0, 0);
    }
    let notif = |log_number| {
        let reads = Reads::default();
        Frame::ExecNotif(ExecNotif {
            shard: 1,
            log_number,
            reads,
        })
        .to_bytes()
    };
    assert_eq!(step(&mut tail, &notif(2)).0, 0);
    assert!(tail.queued(1).is_empty());
    assert_eq!(states(&tail), [false, false, true]);
    assert_eq!(step(&mut tail, &notif(0)).0, 0);
    assert_eq!(tail.last_taken(1), Some(2));
    assert_eq!(states(&tail), [true, false, true]);
}

#[test]
fn i_executed_twice() {
    let mut head = board(1);
    assert_eq!(step(&mut head, &A).0, 0);
    let executed = Executed {
        log_number: 0,
        reads: Reads::default(),
    };
    let executed = Frame::Executed(executed).to_bytes();
    assert_eq!(step(&mut head, &executed).0, 0);
    assert_eq!(step(&mut head, &executed), (7, vec![]));
}

#[test]
fn j_a_full_log_refuses_a_new_number_and_serves_a_held_one() {
    let mut head = board(1);
    for number in 0..16 {
        for client in 0..16 {
            let frame = Frame::Submit(submit(client, number, client, number.into())).to_bytes();
            assert_eq!(step(&mut head, &frame).0, 0);
        }
    }
    let new = Frame::Submit(submit(4, 16, 4, 16)).to_bytes();
    assert_eq!(step(&mut head, &new), (5, vec![]));
    let held = submit(4, 15, 4, 15);
    let forward = Forward {
        log_number: 15 * 16 + 4,
        submit: held,
    };
    let forward = Frame::Forward(forward).to_bytes();
    assert_eq!(
        step(&mut head, &Frame::Submit(held).to_bytes()),
        (0, forward)
    );
}
