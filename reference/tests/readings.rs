//! The points of 01 that are easy to read otherwise: boards, shard groups and sessions.

mod common;

use common::*;
use reference::answers::Answer;
use reference::board::{Board, Status};
use reference::lists::{Operation, Operations, Read};
use reference::session::Session;
use reference::shard::Shard;

const OPS: &[Op] = &[(PUT, 5, 1000)];

/// The frame with the bytes at `at` replaced.
fn with(frame: &[u8], at: usize, bytes: &[u8]) -> Vec<u8> {
    let mut changed = frame.to_vec();
    changed[at..at + bytes.len()].copy_from_slice(bytes);
    changed
}

/// The frame with `bytes` at its end, inside its length.
fn longer(frame: &[u8], bytes: &[u8]) -> Vec<u8> {
    raw(
        u16::from_le_bytes([frame[2], frame[3]]),
        &[&frame[4..], bytes].concat(),
    )
}

/// One well-formed frame of each kind, with the longest list.
fn one_of_each() -> Vec<Vec<u8>> {
    let operations = [(PUT, 5, 9), (GET, 5, 0), (GET, 6, 0), (PUT, 255, u32::MAX)];
    let placed = [0, 1, 2, 3].map(|place| (place, operations[usize::from(place)]));
    let reads = [(0, 1, 7), (1, 0, 0), (2, 1, 0), (3, 1, u32::MAX)];
    vec![
        submit(3, 0, 0, &operations),
        forward(0, 3, 0, 0, &operations),
        shard_append(1, 0, 1, &placed),
        exec_notif(1, 0, &reads),
        executed(0, &reads),
        response(3, 0, &reads),
    ]
}

/// A board that takes the kind, or any.
fn board_for(frame: &[u8]) -> Board {
    let for_head = matches!(frame.get(2), Some(1 | 5));
    Board::start(2, 1, if for_head { 1 } else { 2 })
}

fn malformed(frame: &[u8]) {
    refused(&mut board_for(frame), frame, 1);
    refused(&mut Shard::start(1, 1), frame, 1);
    response_refused(&mut Session::start(3), frame, 1);
}

fn well_formed(frame: &[u8]) {
    assert_ne!(answer(&board_for(frame), frame), 1, "{frame:02x?}");
    assert_ne!(answer(&Shard::start(1, 1), frame), 1, "{frame:02x?}");
    assert_ne!(Session::start(3).response(frame).answer, 1, "{frame:02x?}");
}

#[test]
fn a_frame_cut_or_lengthened_is_malformed() {
    for frame in one_of_each() {
        well_formed(&frame);
        for length in 0..frame.len() {
            malformed(&frame[..length]);
            if length >= 4 {
                malformed(&raw(u16::from(frame[2]), &frame[4..length]));
            }
        }
        malformed(&longer(&frame, &[0]));
        malformed(&[&frame[..], &[0]].concat());
        malformed(&with(&frame, 1, &[1]));
    }
}

#[test]
fn the_kind_is_two_bytes() {
    for frame in one_of_each() {
        malformed(&with(&frame, 3, &[1]));
        for kind in [0, 7, 8, 255] {
            malformed(&with(&frame, 2, &[kind]));
        }
    }
}

#[test]
fn counts() {
    let op = (PUT, 1, 1);
    for count in [0, 5] {
        malformed(&submit(3, 0, 0, &vec![op; count]));
        malformed(&forward(0, 3, 0, 0, &vec![op; count]));
        let placed: Vec<_> = (0..count as u8).map(|place| (place, op)).collect();
        malformed(&shard_append(1, 0, 1, &placed));
    }
    let five: Vec<Rd> = (0..5).map(|place| (place, 1, 1)).collect();
    malformed(&exec_notif(1, 0, &five));
    malformed(&executed(0, &five));
    malformed(&response(3, 0, &five));
    well_formed(&exec_notif(1, 0, &[]));
    well_formed(&executed(0, &[]));
    well_formed(&response(3, 0, &[]));
}

#[test]
fn field_ranges() {
    for client in [16, 255] {
        malformed(&submit(client, 0, 0, OPS));
        malformed(&forward(0, client, 0, 0, OPS));
        malformed(&response(client, 0, &[]));
    }
    well_formed(&submit(15, 0, 0, OPS));
    malformed(&submit(3, 65_535, 65_535, OPS));
    malformed(&forward(0, 3, 65_535, 65_535, OPS));
    malformed(&response(3, 65_535, &[]));
    assert_eq!(
        answer(&Board::start(2, 1, 1), &submit(3, 65_534, 65_534, OPS)),
        4
    );
    for log_number in [256, 257, 65_535] {
        malformed(&forward(log_number, 3, 0, 0, OPS));
        malformed(&shard_append(1, log_number, 1, &[(0, OPS[0])]));
        malformed(&exec_notif(1, log_number, &[]));
        malformed(&executed(log_number, &[]));
    }
    assert_eq!(
        answer(&Board::start(2, 1, 2), &forward(255, 3, 0, 0, OPS)),
        4
    );
    assert_eq!(answer(&Board::start(2, 1, 2), &exec_notif(1, 255, &[])), 6);
    assert_eq!(answer(&Board::start(2, 1, 1), &executed(255, &[])), 6);
    for sn in [0, 257, 65_535] {
        malformed(&shard_append(1, 0, sn, &[(0, OPS[0])]));
    }
    assert_eq!(
        answer(
            &Shard::start(1, 1),
            &shard_append(1, 255, 256, &[(0, OPS[0])])
        ),
        4
    );
    for shard in [0, 9, 255] {
        malformed(&shard_append(shard, 0, 1, &[(0, OPS[0])]));
        malformed(&exec_notif(shard, 0, &[]));
    }
    assert_eq!(answer(&Board::start(2, 1, 2), &exec_notif(8, 0, &[])), 2);
    assert_eq!(
        answer(&Shard::start(1, 1), &shard_append(8, 0, 1, &[(0, OPS[0])])),
        2
    );
}

#[test]
fn operations_and_reads() {
    malformed(&submit(3, 0, 0, &[(2, 5, 0)]));
    malformed(&submit(3, 0, 0, &[(GET, 5, 1)]));
    malformed(&submit(3, 0, 0, &[(PUT, 5, 1), (GET, 5, 1 << 24)]));
    malformed(&forward(0, 3, 0, 0, &[(GET, 5, 1)]));
    malformed(&shard_append(1, 0, 1, &[(0, (GET, 5, 1))]));
    malformed(&shard_append(1, 0, 1, &[(0, (255, 5, 0))]));
    for reads in [
        &[(0, 2, 0)][..],
        &[(0, 0, 1)],
        &[(0, 0, 1 << 24)],
        &[(4, 1, 1)],
        &[(255, 1, 1)],
        &[(1, 1, 1), (1, 1, 1)],
        &[(2, 1, 1), (1, 1, 1)],
        &[(0, 1, 1), (3, 1, 1), (2, 1, 1)],
    ] {
        malformed(&exec_notif(1, 0, reads));
        malformed(&executed(0, reads));
        malformed(&response(3, 0, reads));
    }
    let put = (PUT, 5, 1);
    malformed(&shard_append(1, 0, 1, &[(4, put)]));
    malformed(&shard_append(1, 0, 1, &[(1, put), (1, put)]));
    malformed(&shard_append(1, 0, 1, &[(1, put), (0, put)]));
    well_formed(&shard_append(1, 0, 1, &[(0, put), (3, put)]));
}

#[test]
fn the_ack_rule_comes_before_the_state() {
    for (number, ack) in [(0, 1), (8, 0), (9, 1), (65_534, 65_526)] {
        malformed(&submit(3, number, ack, OPS));
        malformed(&forward(9, 3, number, ack, OPS));
    }
    assert_eq!(answer(&Board::start(2, 1, 1), &submit(3, 7, 0, OPS)), 4);
    assert_eq!(answer(&Board::start(2, 1, 1), &submit(3, 7, 7, OPS)), 4);
}

#[test]
fn who_takes_which_kind() {
    let frames = one_of_each();
    for n in 2..=8 {
        for own in 1..=n {
            let takes: &[u16] = match own {
                1 => &[1, 5],
                _ if own < n => &[2, 5],
                _ => &[2, 4],
            };
            for frame in &frames {
                let kind = u16::from(frame[2]);
                let refused_by_2 = answer(&Board::start(n, 1, own), frame) == 2;
                assert_eq!(
                    refused_by_2,
                    !takes.contains(&kind),
                    "board {own} of {n}, {kind}"
                );
            }
        }
    }
    for frame in &frames {
        let kind = u16::from(frame[2]);
        assert_eq!(answer(&Shard::start(1, 1), frame) == 2, kind != 3);
        assert_eq!(Session::start(3).response(frame).answer == 2, kind != 6);
    }
    response_refused(&mut Session::start(4), &frames[5], 2);
}

#[test]
fn shards_that_are_not_the_receivers() {
    refused(
        &mut Shard::start(3, 2),
        &shard_append(1, 0, 1, &[(0, (PUT, 0, 1))]),
        2,
    );
    let mut tail = Board::start(2, 3, 2);
    taken(&mut tail, &forward(0, 3, 0, 0, OPS));
    refused(&mut tail, &exec_notif(4, 0, &[]), 2);
    // 2 comes before 6 and 7.
    refused(&mut tail, &exec_notif(4, 9, &[]), 2);
    refused(&mut tail, &executed(9, &[]), 2);
}

#[test]
fn the_floor_rises_with_every_frame_taken() {
    let mut head = Board::start(2, 1, 1);
    for number in 0..4 {
        taken(&mut head, &submit(3, number, 0, OPS));
    }
    assert_eq!(head.floor(3), 0);
    // Held and PRE.
    taken(&mut head, &submit(3, 3, 1, OPS));
    assert_eq!(head.floor(3), 1);
    // Held and EXE.
    taken(&mut head, &executed(3, &[]));
    assert_eq!(
        taken(&mut head, &submit(3, 3, 2, OPS)),
        vec![response(3, 3, &[])]
    );
    assert_eq!(head.floor(3), 2);
    // Refused: held with other operations, and too early.
    refused(&mut head, &submit(3, 3, 3, &[(PUT, 6, 1)]), 8);
    refused(&mut head, &submit(3, 5, 5, OPS), 4);
    assert_eq!(head.floor(3), 2);
    // An ack below the floor is fine, a number below it is not.
    taken(&mut head, &submit(3, 3, 0, OPS));
    assert_eq!(head.floor(3), 2);
    taken(&mut head, &submit(3, 2, 0, OPS));
    refused(&mut head, &submit(3, 1, 0, OPS), 3);
    refused(&mut head, &submit(3, 1, 0, &[(PUT, 6, 1)]), 3);
    assert_eq!(head.floor(4), 0);
}

#[test]
fn numbers_are_refused_in_order() {
    let mut head = Board::start(2, 1, 1);
    taken(&mut head, &submit(3, 0, 0, OPS));
    refused(&mut head, &submit(3, 2, 2, OPS), 4);
    assert_eq!(head.high(3), Some(0));
    taken(&mut head, &submit(3, 1, 1, OPS));
    assert_eq!(head.high(3), Some(1));
    assert_eq!(head.high(4), None);
}

#[test]
fn a_full_log_refuses_in_order() {
    let mut head = Board::start(2, 1, 1);
    for number in 0..255 {
        taken(&mut head, &submit(3, number, number, OPS));
    }
    taken(&mut head, &submit(4, 0, 0, OPS));
    refused(&mut head, &submit(3, 255, 255, OPS), 5);
    refused(&mut head, &submit(3, 256, 256, OPS), 4);
    refused(&mut head, &submit(3, 254, 254, &[(PUT, 6, 1)]), 8);
    refused(&mut head, &submit(3, 253, 253, OPS), 3);
    refused(&mut head, &submit(4, 1, 1, OPS), 5);
    taken(&mut head, &submit(4, 0, 0, OPS));
    // A full log further down still serves what it holds.
    let mut second = Board::start(3, 1, 2);
    for number in 0..256 {
        taken(&mut second, &forward(number, 3, number, number, OPS));
    }
    let held = forward(255, 3, 255, 255, OPS);
    assert_eq!(taken(&mut second, &held), vec![held]);
}

#[test]
fn forward_compares_what_is_held_but_not_the_ack() {
    let mut second = Board::start(3, 1, 2);
    for number in 0..3 {
        taken(&mut second, &forward(number, 3, number, 0, OPS));
    }
    refused(&mut second, &forward(1, 4, 1, 0, OPS), 8);
    refused(&mut second, &forward(1, 3, 2, 0, OPS), 8);
    refused(&mut second, &forward(1, 3, 1, 0, &[(PUT, 5, 1001)]), 8);
    refused(&mut second, &forward(1, 3, 1, 0, &[OPS[0], OPS[0]]), 8);
    refused(&mut second, &forward(4, 3, 3, 0, OPS), 4);
    // A new entry must be that client's high + 1.
    refused(&mut second, &forward(3, 3, 4, 0, OPS), 8);
    refused(&mut second, &forward(3, 3, 2, 0, OPS), 8);
    refused(&mut second, &forward(3, 5, 1, 0, OPS), 8);
    // Another ack than before is taken, and the floor after it goes on.
    assert_eq!(
        taken(&mut second, &forward(2, 3, 2, 2, OPS)),
        vec![forward(2, 3, 2, 2, OPS)]
    );
    assert_eq!(second.floor(3), 2);
    // There is no refusal 3 here: a late Forward is served, with its number as ack.
    assert_eq!(
        taken(&mut second, &forward(1, 3, 1, 0, OPS)),
        vec![forward(1, 3, 1, 1, OPS)]
    );
    assert_eq!(second.floor(3), 2);
}

#[test]
fn a_middle_board_sends_executed_again() {
    let mut second = Board::start(3, 1, 2);
    taken(&mut second, &forward(0, 3, 0, 0, &[(GET, 5, 0)]));
    let sent = executed(0, &[(0, 1, 8)]);
    assert_eq!(taken(&mut second, &sent), vec![sent.clone()]);
    assert_eq!(
        taken(&mut second, &forward(0, 3, 0, 0, &[(GET, 5, 0)])),
        vec![sent]
    );
}

#[test]
fn the_tail_sends_to_the_shards_that_remain() {
    let mut tail = Board::start(2, 3, 2);
    // Keys 0, 3 belong to shard 1, keys 1, 4 to shard 2, key 2 to shard 3.
    let first = [(GET, 3, 0), (PUT, 2, 5), (GET, 0, 0), (PUT, 4, 6)];
    taken(&mut tail, &forward(0, 1, 0, 0, &[(GET, 0, 0)]));
    let sent = taken(&mut tail, &forward(1, 3, 0, 0, &first));
    let to_1 = shard_append(1, 1, 2, &[(0, first[0]), (2, first[2])]);
    let to_2 = shard_append(2, 1, 1, &[(3, first[3])]);
    let to_3 = shard_append(3, 1, 1, &[(1, first[1])]);
    assert_eq!(sent, vec![to_1, to_2.clone(), to_3.clone()]);
    taken(&mut tail, &forward(2, 3, 1, 0, &[(GET, 0, 0), (PUT, 1, 1)]));
    // A shard struck isn't sent to again; sn counts up to the entry, not to the log's end.
    assert!(taken(&mut tail, &exec_notif(1, 1, &[(0, 0, 0), (2, 0, 0)])).is_empty());
    assert_eq!(
        taken(&mut tail, &forward(1, 3, 0, 0, &first)),
        vec![to_2, to_3]
    );
}

#[test]
fn four_shards_fill_the_out_area() {
    let mut tail = Board::start(2, 8, 2);
    let operations = [0, 1, 2, 3].map(|key| (PUT, key, 1));
    let sent = taken(&mut tail, &forward(0, 3, 0, 0, &operations));
    assert_eq!(sent.concat().len(), 68);
    assert_eq!(sent.len(), 4);
}

#[test]
fn shards_that_do_not_remain() {
    let mut tail = Board::start(2, 3, 2);
    taken(&mut tail, &forward(0, 3, 0, 0, &[(PUT, 0, 1), (GET, 1, 0)]));
    refused(&mut tail, &exec_notif(1, 1, &[]), 6);
    // Never touched; 7 comes before 8.
    refused(&mut tail, &exec_notif(3, 0, &[]), 7);
    refused(&mut tail, &exec_notif(3, 0, &[(0, 1, 1)]), 7);
    // The reads of another shard's gets don't fit.
    refused(&mut tail, &exec_notif(1, 0, &[(1, 1, 1)]), 8);
    refused(&mut tail, &exec_notif(2, 0, &[]), 8);
    refused(&mut tail, &exec_notif(2, 0, &[(0, 1, 1)]), 8);
    // Struck.
    assert!(taken(&mut tail, &exec_notif(1, 0, &[])).is_empty());
    assert_eq!(tail.log()[0].status, Status::Pre);
    refused(&mut tail, &exec_notif(1, 0, &[]), 7);
    // EXE.
    let sent = taken(&mut tail, &exec_notif(2, 0, &[(1, 1, 1)]));
    assert_eq!(sent, vec![executed(0, &[(1, 1, 1)])]);
    for shard in 1..=3 {
        refused(&mut tail, &exec_notif(shard, 0, &[]), 7);
    }
}

#[test]
fn reads_are_kept_by_place_and_only_places_are_checked() {
    let mut tail = Board::start(2, 3, 2);
    let operations = [(GET, 0, 0), (GET, 1, 0), (PUT, 3, 9), (GET, 3, 0)];
    taken(&mut tail, &forward(0, 3, 0, 0, &operations));
    assert!(taken(&mut tail, &exec_notif(2, 0, &[(1, 1, 77)])).is_empty());
    // The get of key 3 behind its put would find 9; that isn't the tail's to judge.
    let all = [(0, 0, 0), (1, 1, 77), (3, 0, 0)];
    let sent = taken(&mut tail, &exec_notif(1, 0, &[all[0], all[2]]));
    assert_eq!(sent, vec![executed(0, &all)]);

    let mut head = Board::start(2, 3, 1);
    taken(&mut head, &submit(3, 0, 0, &operations));
    refused(&mut head, &executed(0, &all[..2]), 8);
    refused(
        &mut head,
        &executed(0, &[(0, 1, 1), (1, 1, 1), (2, 1, 1), (3, 1, 1)]),
        8,
    );
    refused(&mut head, &executed(1, &all), 6);
    assert_eq!(
        taken(&mut head, &executed(0, &all)),
        vec![response(3, 0, &all)]
    );
    // 7 comes before 8.
    refused(&mut head, &executed(0, &[]), 7);
    assert_eq!(
        taken(&mut head, &submit(3, 0, 0, &operations)),
        vec![response(3, 0, &all)]
    );
}

#[test]
fn executed_takes_from_every_touched_queue() {
    let mut head = Board::start(2, 3, 1);
    taken(&mut head, &submit(3, 0, 0, &[(PUT, 0, 1), (PUT, 1, 1)]));
    taken(&mut head, &submit(3, 1, 0, &[(PUT, 1, 1), (GET, 2, 0)]));
    taken(&mut head, &submit(3, 2, 0, &[(PUT, 2, 1)]));
    taken(&mut head, &executed(1, &[(1, 0, 0)]));
    let queue = |head: &Board, shard| {
        let queue = head.queue(shard);
        (queue.numbers().collect::<Vec<_>>(), queue.last_taken())
    };
    assert_eq!(queue(&head, 1), (vec![0], None));
    assert_eq!(queue(&head, 2), (vec![], Some(1)));
    assert_eq!(queue(&head, 3), (vec![2], Some(1)));
    assert!(head.log()[1].remaining.is_empty());
    taken(&mut head, &executed(0, &[]));
    assert_eq!(queue(&head, 1), (vec![], Some(0)));
    assert_eq!(queue(&head, 2), (vec![], Some(1)));
}

#[test]
fn a_shard_refuses_in_order() {
    let mut shard = Shard::start(3, 1);
    let own = [(0, (PUT, 3, 1))];
    let foreign = [(0, (PUT, 3, 1)), (1, (GET, 4, 0))];
    refused(&mut shard, &shard_append(1, 0, 2, &foreign), 4);
    refused(&mut shard, &shard_append(1, 0, 1, &foreign), 8);
    // None is below log number 0, and lists of gets count in ssn.
    let sent = taken(&mut shard, &shard_append(1, 0, 1, &[(2, (GET, 3, 0))]));
    assert_eq!(sent, vec![exec_notif(1, 0, &[(2, 0, 0)])]);
    assert_eq!(shard.ssn(), 1);
    refused(&mut shard, &shard_append(1, 0, 1, &foreign), 7);
    refused(&mut shard, &shard_append(1, 0, 2, &own), 8);
    refused(&mut shard, &shard_append(1, 0, 3, &own), 4);
    taken(&mut shard, &shard_append(1, 9, 2, &own));
    refused(&mut shard, &shard_append(1, 8, 3, &own), 8);
    refused(&mut shard, &shard_append(1, 9, 3, &own), 8);
    let sent = taken(&mut shard, &shard_append(1, 10, 3, &[(0, (GET, 3, 0))]));
    assert_eq!(sent, vec![exec_notif(1, 10, &[(0, 1, 1)])]);
    assert_eq!(shard.keys()[3].map(|stored| stored.log_number), Some(9));
}

#[test]
fn starts() {
    for (n, m, own) in [
        (1, 1, 1),
        (9, 1, 1),
        (0, 1, 1),
        (2, 0, 1),
        (2, 9, 1),
        (2, 1, 0),
        (2, 1, 3),
    ] {
        let mut board = Board::start(n, m, own);
        assert!(!board.started());
        assert_eq!(board, Board::start(0, 0, 0), "the empty state");
        refused(&mut board, &submit(3, 0, 0, OPS), 11);
        refused(&mut board, &[], 11);
    }
    for (m, own) in [(0, 0), (0, 1), (9, 1), (3, 0), (3, 4), (255, 255)] {
        let mut shard = Shard::start(m, own);
        assert!(!shard.started());
        assert_eq!(shard, Shard::start(0, 0), "the empty state");
        refused(&mut shard, &shard_append(1, 0, 1, &[(0, OPS[0])]), 11);
    }
    for client in [16, 255] {
        let mut session = Session::start(client);
        assert!(!session.started());
        let invoked = called(&mut session, 68, |s, out| {
            s.invoke(&[Operation::get(1)], out)
        });
        assert_eq!(invoked, (11, vec![]));
        assert_eq!(
            called(&mut session, 68, |s, out| s.retry(0, out)),
            (11, vec![])
        );
        response_refused(&mut session, &response(0, 0, &[]), 11);
        response_refused(&mut session, &[], 11);
    }
    for n in 2..=8 {
        for m in 1..=8 {
            assert!((1..=n).all(|own| Board::start(n, m, own).started()));
            assert!((1..=m).all(|own| Shard::start(m, own).started()));
        }
    }
    assert!((0..16).all(|client| Session::start(client).started()));
}

#[test]
fn an_out_area_of_67_bytes_comes_before_everything() {
    let small =
        |answer: Answer| assert_eq!((answer.answer, answer.frames, answer.bytes), (11, 0, 0));
    for frame in [
        &submit(3, 0, 0, OPS)[..],
        &response(3, 0, &[]),
        &[1, 2, 3],
        &[],
    ] {
        for size in [0, 1, 67] {
            let mut out = vec![0xA5; size];
            let mut board = Board::start(2, 1, 1);
            small(board.step(frame, &mut out));
            assert_eq!(board, Board::start(2, 1, 1));
            let mut shard = Shard::start(1, 1);
            small(shard.step(frame, &mut out));
            assert_eq!(shard, Shard::start(1, 1));
            let mut session = Session::start(3);
            small(session.invoke(&[], &mut out));
            small(session.invoke(&[Operation::get(1)], &mut out));
            small(session.retry(0, &mut out));
            assert_eq!(session, Session::start(3));
            assert!(out.iter().all(|&byte| byte == 0xA5));
        }
    }
    let mut out = [0xA5; 200];
    let answer = Board::start(2, 1, 1).step(&submit(3, 0, 0, OPS), &mut out);
    assert_eq!((answer.answer, answer.frames, answer.bytes), (0, 1, 18));
    assert!(out[18..].iter().all(|&byte| byte == 0xA5));
}

#[test]
fn invoke_refuses_in_order() {
    let invoke = |session: &mut Session, operations: &[Operation]| {
        let before = session.clone();
        let (answer, sent) = called(session, 68, |s, out| s.invoke(operations, out));
        assert!(answer == 0 || (sent.is_empty() && *session == before));
        answer
    };
    let bad = [
        vec![],
        vec![Operation::get(1); 5],
        vec![Operation {
            action: 0,
            key: 1,
            value: 1,
        }],
        vec![Operation {
            action: 2,
            key: 1,
            value: 0,
        }],
        vec![
            Operation::get(1),
            Operation {
                action: 255,
                key: 1,
                value: 0,
            },
        ],
    ];
    let mut session = Session::start(3);
    for number in 0..8 {
        assert_eq!(session.next(), number);
        assert_eq!(invoke(&mut session, &[Operation::put(1, 1)]), 0);
    }
    assert_eq!(invoke(&mut session, &[Operation::put(1, 1)]), 9);
    for operations in &bad {
        assert_eq!(invoke(&mut session, operations), 1);
    }
    // With nothing outstanding 9 never applies.
    for number in 0..8 {
        assert_eq!(session.response(&response(3, number, &[])).answer, 0);
    }
    assert_eq!(invoke(&mut session, &[Operation::get(1); 4]), 0);
    assert_eq!(session.smallest_outstanding(), Some(8));
}

#[test]
fn invoke_gives_10_before_9() {
    let mut session = Session::start(3);
    let mut out = [0; 68];
    while session.next() < 65_527 {
        let number = session.next();
        session.invoke(&[Operation::put(1, 1)], &mut out);
        session.response(&response(3, number, &[]));
    }
    for _ in 0..8 {
        assert_eq!(session.invoke(&[Operation::put(1, 1)], &mut out).answer, 0);
    }
    // Next would be 65,535, and the window is full as well.
    assert_eq!(session.next() - session.smallest_outstanding().unwrap(), 8);
    assert_eq!(session.invoke(&[Operation::put(1, 1)], &mut out).answer, 10);
    assert_eq!(session.invoke(&[], &mut out).answer, 1);
    assert_eq!(called(&mut session, 68, |s, out| s.retry(65_534, out)).0, 0);
    assert_eq!(called(&mut session, 68, |s, out| s.retry(65_535, out)).0, 7);
}

#[test]
fn retry_sends_the_kept_operations_and_the_present_ack() {
    let mut session = Session::start(3);
    let mut out = [0; 68];
    let operations = |number: u16| [Operation::put(1, number.into()), Operation::get(2)];
    for number in 0..3 {
        session.invoke(&operations(number), &mut out);
    }
    let retry = |session: &mut Session, number| called(session, 68, |s, out| s.retry(number, out));
    let sent = |number, ack| {
        (
            0,
            vec![submit(
                3,
                number,
                ack,
                &[(PUT, 1, number.into()), (GET, 2, 0)],
            )],
        )
    };
    assert_eq!(retry(&mut session, 2), sent(2, 0));
    assert_eq!(retry(&mut session, 3), (7, vec![]));
    session.response(&response(3, 0, &[(1, 0, 0)]));
    assert_eq!(retry(&mut session, 0), (7, vec![]));
    assert_eq!(retry(&mut session, 2), sent(2, 1));
    assert_eq!(retry(&mut session, 1), sent(1, 1));
    assert_eq!(retry(&mut session, 65_535), (7, vec![]));
}

#[test]
fn response_refuses_in_order() {
    let mut session = Session::start(3);
    let mut out = [0; 68];
    session.invoke(&[Operation::put(1, 1), Operation::get(2)], &mut out);
    response_refused(&mut session, &response(3, 0, &[(0, 2, 0)]), 1);
    response_refused(&mut session, &response(4, 0, &[]), 2);
    response_refused(&mut session, &executed(0, &[]), 2);
    response_refused(&mut session, &response(3, 1, &[]), 7);
    for reads in [&[][..], &[(0, 1, 1)], &[(0, 1, 1), (1, 1, 1)], &[(2, 1, 1)]] {
        response_refused(&mut session, &response(3, 0, reads), 8);
    }
    let reply = session.response(&response(3, 0, &[(1, 1, 6)]));
    assert_eq!(reply.answer, 0);
    let read = Read {
        place: 1,
        value: Some(6),
    };
    assert_eq!(*reply.reads, [read]);
    assert!(session.outstanding().is_empty());
    response_refused(&mut session, &response(3, 0, &[(1, 1, 6)]), 7);
    assert_eq!(session.next(), 1);
}

#[test]
fn sessions_keep_their_outstanding_numbers_rising() {
    let mut session = Session::start(3);
    let mut out = [0; 68];
    for number in 0..5u32 {
        session.invoke(&[Operation::put(1, number)], &mut out);
    }
    session.response(&response(3, 2, &[]));
    session.invoke(&[Operation::put(1, 5)], &mut out);
    let kept: Vec<_> = session
        .outstanding()
        .iter()
        .map(|kept| kept.number)
        .collect();
    assert_eq!(kept, [0, 1, 3, 4, 5]);
    for kept in session.outstanding() {
        let put: Operations = [Operation::put(1, kept.number.into())]
            .into_iter()
            .collect();
        assert_eq!(kept.operations, put);
    }
}
