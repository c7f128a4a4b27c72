//! Starts in memory that holds something: nothing of it may be seen.

mod common;

use common::simulated;
use library::lists::Operation;
use library::lockstep::lent::{any_memory, any_raw};
use library::register::{Receiver, Register};
use library::text;
use library::trace::Outcome;
use library::{ffi, Board, Memory, Raw, Session, Shard};
use reference::driver::random::Random;
use reference::frames::{ExecNotif, Executed, Forward, Frame, Response, ShardAppend, Submit};
use reference::lists::{Read, Reads};
use reference::records::{Record, Records};

/// A register started in any memory.
fn started_anywhere(n: u8, m: u8, random: &mut Random) -> Register {
    fn taken<T>((agent, answer): (T, u8)) -> T {
        assert_eq!(answer, 0);
        agent
    }
    Register {
        boards: (1..=n)
            .map(|own| taken(Board::start_in(any_memory(random), n, m, own)))
            .collect(),
        shards: (1..=m)
            .map(|own| taken(Shard::start_in(any_memory(random), m, own)))
            .collect(),
        sessions: (0..16)
            .map(|client| taken(Session::start_in(any_memory(random), client)))
            .collect(),
    }
}

/// Delivers the records of an input to each of the registers, and holds all to the first.
fn deliver_to_all(registers: &mut [Register], input: &[u8]) {
    let mut records = Records::new(input);
    let (n, m) = records.setup().unwrap().expect("n and m stand first");
    while let Record::Frame { address, frame } = records.next_record().unwrap() {
        let receiver = Receiver::of(address, n, m);
        let outcomes: Vec<Outcome> = registers
            .iter_mut()
            .map(|register| register.deliver(receiver, frame))
            .collect();
        assert!(outcomes.iter().all(|outcome| *outcome == outcomes[0]));
        for other in &registers[1..] {
            assert_same(&registers[0], other);
        }
    }
}

/// Every field of every record is the same.
fn assert_same(one: &Register, other: &Register) {
    for (one, other) in one.boards.iter().zip(&other.boards) {
        assert_eq!(one.memory().difference(other.memory()), None);
    }
    for (one, other) in one.shards.iter().zip(&other.shards) {
        assert_eq!(one.memory().difference(other.memory()), None);
    }
    for (one, other) in one.sessions.iter().zip(&other.sessions) {
        assert_eq!(one.memory().difference(other.memory()), None);
    }
}

#[test]
fn what_the_memory_held_makes_no_difference() {
    let mut random = Random::new(11, 0);
    for seed in 0..6 {
        let input = simulated(seed, 400, 20);
        let (n, m) = (input[0], input[1]);
        let mut registers = [
            Register::start(n, m).expect("a chain within the sizes"),
            started_anywhere(n, m, &mut random),
            started_anywhere(n, m, &mut random),
        ];
        assert_same(&registers[0], &registers[1]);
        assert_same(&registers[0], &registers[2]);
        deliver_to_all(&mut registers, &input);
    }
}

/// A park's register amid a run: entries that are PRE, keys that are put, numbers that are
/// outstanding.
fn park(seed: u64) -> Register {
    let input = simulated(seed, 500, 0);
    let mut register = Register::start(input[0], input[1]).expect("a chain within the sizes");
    deliver_to_all(std::slice::from_mut(&mut register), &input);
    register
}

/// An agent of another park that is worth a swap.
fn from_another_park<A>(agents: impl Fn(Register) -> Vec<A>, worth: impl Fn(&A) -> bool) -> A {
    let mut all = (0..40).flat_map(|seed| agents(park(seed)));
    all.find(worth).expect("a run that leaves such an agent")
}

/// What takes frames.
trait Agent {
    fn step(&mut self, frame: &[u8], out: &mut [u8]) -> ffi::Stepped;
    fn difference(&self, other: &Self) -> Option<String>;
}

impl Agent for Board {
    fn step(&mut self, frame: &[u8], out: &mut [u8]) -> ffi::Stepped {
        self.step(frame, out)
    }

    fn difference(&self, other: &Self) -> Option<String> {
        self.memory().difference(other.memory())
    }
}

impl Agent for Shard {
    fn step(&mut self, frame: &[u8], out: &mut [u8]) -> ffi::Stepped {
        self.step(frame, out)
    }

    fn difference(&self, other: &Self) -> Option<String> {
        self.memory().difference(other.memory())
    }
}

/// A frame to the swapped agent and to one started in zeroed memory: one answer, the same bytes, the
/// same record. The answer, and what was sent.
fn step<A: Agent>([swapped, fresh]: &mut [A; 2], frame: Frame) -> (u8, Vec<u8>) {
    let frame = frame.to_bytes();
    let mut outs = [[0xA5; ffi::OUT]; 2];
    let stepped = swapped.step(&frame, &mut outs[0]);
    assert_eq!(fresh.step(&frame, &mut outs[1]), stepped);
    assert_eq!(outs[0], outs[1]);
    assert_eq!(swapped.difference(fresh), None);
    (stepped.answer, outs[0][..stepped.bytes].to_vec())
}

/// The answer that the old agent would have given.
fn answer_there<A: Agent>(old: &mut A, frame: Frame) -> u8 {
    old.step(&frame.to_bytes(), &mut [0; ffi::OUT]).answer
}

fn submit(client: u8, number: u16) -> Submit {
    Submit {
        client,
        number,
        ack: number.saturating_sub(7),
        operations: [operation(5, 7)].into_iter().collect(),
    }
}

fn operation(key: u8, value: u32) -> reference::lists::Operation {
    reference::lists::Operation::put(key, value)
}

fn forward(log_number: u8, submit: Submit) -> Frame {
    Frame::Forward(Forward { log_number, submit })
}

fn executed(log_number: u8) -> Frame {
    let reads = Reads::default();
    Frame::Executed(Executed { log_number, reads })
}

/// The board of another park, started as board `own` of three over two shard groups; and its twin.
fn swapped_board(old: Board, own: u8) -> [Board; 2] {
    let (swapped, answer) = Board::start_in(old.into_memory(), 3, 2, own);
    assert_eq!(answer, 0);
    assert_eq!((swapped.n(), swapped.m(), swapped.own()), (3, 2, own));
    assert_eq!(swapped.log().len(), 0);
    assert!((0..16).all(|client| swapped.high(client).is_none() && swapped.floor(client) == 0));
    assert!((1..=8).all(|shard| swapped.queued(shard).is_empty()));
    assert!((1..=8).all(|shard| swapped.last_taken(shard).is_none()));
    let (fresh, _) = Board::start(3, 2, own);
    assert_eq!(swapped.memory().difference(fresh.memory()), None);
    [swapped, fresh]
}

#[test]
fn the_swapped_head() {
    let low = |head: &Board| (0..16).find(|&client| head.floor(client) > 0);
    let mut old = from_another_park(
        |park| park.boards,
        |board| board.own() == 1 && low(board).is_some(),
    );
    let client = low(&old).expect("a client whose floor has risen");
    let next = old.high(client).expect("the client is known there") + 1;
    assert_eq!(answer_there(&mut old, Frame::Submit(submit(client, 0))), 3);
    assert_eq!(
        answer_there(&mut old, Frame::Submit(submit(client, next))),
        0
    );

    // Its next number there is an early one here, and the old entries are in no log.
    let mut head = swapped_board(old, 1);
    assert_eq!(
        step(&mut head, Frame::Submit(submit(client, next))),
        (4, vec![])
    );
    assert_eq!(step(&mut head, executed(0)), (6, vec![]));

    // Number 0, which was below the floor there, is new here; then it takes its way.
    let first = forward(0, submit(client, 0)).to_bytes();
    assert_eq!(
        step(&mut head, Frame::Submit(submit(client, 0))),
        (0, first.clone())
    );
    assert_eq!(
        step(&mut head, Frame::Submit(submit(client, 0))),
        (0, first)
    );
    let response = Frame::Response(Response {
        client,
        number: 0,
        reads: Reads::default(),
    });
    assert_eq!(step(&mut head, executed(0)), (0, response.to_bytes()));
    assert_eq!(step(&mut head, executed(0)), (7, vec![]));
    assert_eq!(step(&mut head, executed(1)), (6, vec![]));
    assert_eq!(head[0].log().len(), 1);
}

#[test]
fn the_swapped_board() {
    let mut old = from_another_park(
        |park| park.boards,
        |board| board.own() == 2 && board.n() > 2 && board.log().len() > 20,
    );
    let held = old.log().next().expect("a log");
    let client = held.client();
    let operations: Vec<Operation> = held.operations().collect();
    let (len, next) = (old.log().len() as u8, old.high(client).expect("a high") + 1);
    assert_eq!(
        answer_there(&mut old, forward(len, submit(client, next))),
        0
    );

    // It joins nothing of the old log: the old client's next number doesn't follow here, a log
    // number that was held there is none here, and an Executed for it is for no entry.
    let mut board = swapped_board(old, 2);
    assert_eq!(
        step(&mut board, forward(len, submit(client, next))),
        (4, vec![])
    );
    assert_eq!(
        step(&mut board, forward(0, submit(client, next))),
        (8, vec![])
    );
    assert_eq!(step(&mut board, forward(1, submit(client, 0))), (4, vec![]));
    assert_eq!(step(&mut board, executed(0)), (6, vec![]));

    // What comes from its own park is new, and all that is there.
    let first = forward(0, submit(client, 0)).to_bytes();
    assert_eq!(step(&mut board, forward(0, submit(client, 0))), (0, first));
    let mut lines = String::new();
    text::board_lines(&mut lines, &board[0]);
    assert_eq!(
        lines,
        format!("L2 0 {client} 0 PRE | p5=7 | | 2\nH2 {client} 0 0\nQ2 1 - |\nQ2 2 - | 0\n")
    );
    let own: Vec<Operation> = board[0]
        .log()
        .flat_map(|entry| entry.operations())
        .collect();
    assert_ne!(own, operations);
    assert_eq!(step(&mut board, executed(0)), (0, executed(0).to_bytes()));
}

#[test]
fn the_swapped_tail() {
    // A tail amid a run: an entry waits in a queue, and its shard is to be heard from.
    let waits =
        |tail: &Board| (1..=2).find_map(|shard| Some((shard, *tail.queued(shard).first()?)));
    let waiting =
        |board: &Board| board.own() == board.n() && board.log().len() > 5 && waits(board).is_some();
    let mut old = from_another_park(|park| park.boards, waiting);
    let (shard, waiting) = waits(&old).expect("a queue that isn't empty");
    let notif = |shard, log_number| {
        let reads = Reads::default();
        Frame::ExecNotif(ExecNotif {
            shard,
            log_number,
            reads,
        })
    };
    let there = answer_there(&mut old, notif(shard, waiting as u8));
    assert!(there == 0 || there == 8, "the entry is held there: {there}");

    let mut tail = swapped_board(old, 3);
    assert_eq!(step(&mut tail, notif(shard, waiting as u8)), (6, vec![]));
    assert_eq!(step(&mut tail, notif(shard, 0)), (6, vec![]));

    // The first entry of its own park is the first that touches its shard.
    let append = Frame::ShardAppend(ShardAppend {
        shard: 2,
        log_number: 0,
        sn: 1,
        operations: submit(3, 0).operations.on_shard(2, 2).collect(),
    });
    assert_eq!(
        step(&mut tail, forward(0, submit(3, 0))),
        (0, append.to_bytes())
    );
    assert_eq!(step(&mut tail, notif(1, 0)), (7, vec![]));
    assert_eq!(step(&mut tail, notif(2, 0)), (0, executed(0).to_bytes()));
    assert_eq!(step(&mut tail, notif(2, 0)), (7, vec![]));
    assert_eq!(
        (tail[0].queued(2), tail[0].last_taken(2)),
        (&[][..], Some(0))
    );
}

#[test]
fn the_swapped_shard_group() {
    let even = |shard: &Shard| (0..=254).step_by(2).find(|&key| shard.get(key).is_some());
    let mut old = from_another_park(
        |park| park.shards,
        |shard| shard.ssn() > 3 && even(shard).is_some(),
    );
    let key = even(&old).expect("an even key that is put");
    let append = |shard: u8, log_number: u8, sn: u16| {
        let operations = [reference::lists::Operation::get(key), operation(key, 7)];
        let operations: reference::lists::Operations = operations.into_iter().collect();
        Frame::ShardAppend(ShardAppend {
            shard,
            log_number,
            sn,
            operations: operations.placed().collect(),
        })
    };
    let (sn, last) = (old.ssn(), old.last_run().expect("something has run") as u8);
    let own = old.own();
    assert_eq!(answer_there(&mut old, append(own, last + 1, 1)), 7);
    assert_eq!(answer_there(&mut old, append(own, last + 1, sn + 1)), 0);

    let (swapped, answer) = Shard::start_in(old.into_memory(), 2, 1);
    assert_eq!((answer, swapped.ssn(), swapped.last_run()), (0, 0, None));
    assert!((0..=255).all(|key| swapped.get(key).is_none()));
    let mut group = [swapped, Shard::start(2, 1).0];

    // The old sn comes too early; the first list finds the old key absent, and log number 0 is new.
    assert_eq!(step(&mut group, append(1, last + 1, sn + 1)), (4, vec![]));
    let absent = Read {
        place: 0,
        value: None,
    };
    let notif = |read| {
        let reads = [read].into_iter().collect();
        Frame::ExecNotif(ExecNotif {
            shard: 1,
            log_number: 0,
            reads,
        })
        .to_bytes()
    };
    assert_eq!(step(&mut group, append(1, 0, 1)), (0, notif(absent)));
    assert_eq!(step(&mut group, append(1, 0, 1)), (7, vec![]));
    assert_eq!(
        (0..=255).filter(|&key| group[0].get(key).is_some()).count(),
        1
    );
}

#[test]
fn the_swapped_session() {
    let worth = |session: &Session| session.next() > 9 && session.outstanding().next().is_some();
    let mut old = from_another_park(|park| park.sessions, worth);
    let (number, _) = old.outstanding().next().expect("a number that waits there");
    assert_eq!(old.retry(number, &mut [0; ffi::OUT]).answer, 0);
    let client = old.client();
    let (swapped, answer) = Session::start_in(old.into_memory(), client);
    assert_eq!(
        (answer, swapped.next(), swapped.outstanding().count()),
        (0, 0, 0)
    );
    let mut sessions = [swapped, Session::start(client).0];
    let mut sent = Vec::new();
    for session in &mut sessions {
        let mut out = [0xA5; ffi::OUT];
        let response = |number| {
            Frame::Response(Response {
                client,
                number,
                reads: Reads::default(),
            })
            .to_bytes()
        };
        assert_eq!(session.retry(number, &mut out).answer, 7);
        assert_eq!(session.response(&response(number)).answer, 7);
        let first = session.invoke(ffi::Operations::of([Operation::Put(5, 7)]), &mut out);
        assert_eq!((first.answer, first.number, first.bytes), (0, 0, 16));
        assert_eq!(out[..16], Frame::Submit(submit(client, 0)).to_bytes());
        assert_eq!(
            session.response(&response(number)).answer,
            if number == 0 { 0 } else { 7 }
        );
        sent.push(out);
    }
    assert_eq!(sent[0], sent[1]);
    assert_eq!(sessions[0].memory().difference(sessions[1].memory()), None);
}

#[test]
fn a_swapped_board_in_a_running_park() {
    let input = simulated(2, 1_000, 0);
    let (n, m) = (input[0], input[1]);
    let mut random = Random::new(3, 0);
    let mut registers = [
        Register::start(n, m).expect("a chain within the sizes"),
        started_anywhere(n, m, &mut random),
    ];
    let Register {
        boards,
        shards,
        sessions,
    } = park(1);
    for (own, board) in (1..).zip(boards).take(n.into()) {
        let at = usize::from(own) - 1;
        registers[1].boards[at] = Board::start_in(board.into_memory(), n, m, own).0;
    }
    for (own, shard) in (1..).zip(shards).take(m.into()) {
        let at = usize::from(own) - 1;
        registers[1].shards[at] = Shard::start_in(shard.into_memory(), m, own).0;
    }
    for (client, session) in (0..).zip(sessions) {
        let at = usize::from(client);
        registers[1].sessions[at] = Session::start_in(session.into_memory(), client).0;
    }
    deliver_to_all(&mut registers, &input);
}

#[test]
fn a_refused_start_is_empty_whatever_the_memory_held() {
    let mut random = Random::new(4, 0);
    let empty_board = Memory::<ffi::Board>::zeroed();
    for (n, m, own) in [
        (1, 1, 1),
        (9, 1, 1),
        (0, 0, 0),
        (2, 0, 1),
        (2, 9, 1),
        (2, 1, 0),
        (2, 1, 3),
        (8, 8, 9),
        (255, 255, 255),
    ] {
        let (mut board, answer) = Board::start_in(any_memory(&mut random), n, m, own);
        assert_eq!((answer, board.started()), (11, false));
        let mut out = [7; ffi::OUT];
        let submit = b"\x0e\0\x01\0\x03\0\0\0\0\x01\x01\x05\xe8\x03\0\0";
        assert_eq!(board.step(submit, &mut out).answer, 11);
        assert_eq!(out, [7; ffi::OUT]);
        assert_eq!(board.memory().difference(&empty_board), None);
    }
    let empty_shard = Memory::<ffi::Shard>::zeroed();
    for (m, own) in [(0, 0), (0, 1), (9, 1), (1, 0), (1, 2), (8, 9), (255, 255)] {
        let (mut shard, answer) = Shard::start_in(any_memory(&mut random), m, own);
        assert_eq!((answer, shard.started()), (11, false));
        assert_eq!(shard.step(&[], &mut [0; ffi::OUT]).answer, 11);
        assert_eq!(shard.memory().difference(&empty_shard), None);
    }
    let empty_session = Memory::<ffi::Session>::zeroed();
    for client in [16, 17, 128, 255] {
        let (mut session, answer) = Session::start_in(any_memory(&mut random), client);
        assert_eq!((answer, session.started()), (11, false));
        let operations = ffi::Operations::of([Operation::Get(0)]);
        assert_eq!(session.invoke(operations, &mut [0; ffi::OUT]).answer, 11);
        assert_eq!(session.retry(0, &mut [0; ffi::OUT]).answer, 11);
        assert_eq!(session.response(&[]).answer, 11);
        assert_eq!(session.memory().difference(&empty_session), None);
    }
}

#[test]
fn bytes_that_are_no_record() {
    // Bools that are neither 0 nor 1: what lay there is not looked at.
    fn each<R: library::memory::Record>(random: &mut Random) -> Vec<Raw<R>> {
        let filled = |byte: u8| Raw::holding(&vec![byte; std::mem::size_of::<R>()]);
        vec![filled(0xFF), filled(2), any_raw(random), any_raw(random)]
    }
    let mut random = Random::new(5, 0);
    let input = simulated(3, 200, 20);
    let (n, m) = (input[0], input[1]);
    let mut registers = vec![Register::start(n, m).expect("a chain within the sizes")];
    for _ in 0..4 {
        registers.push(Register {
            boards: Vec::new(),
            shards: Vec::new(),
            sessions: Vec::new(),
        });
    }
    for own in 1..=n {
        for (register, raw) in registers[1..].iter_mut().zip(each(&mut random)) {
            register.boards.push(Board::start_over(raw, n, m, own).0);
        }
    }
    for own in 1..=m {
        for (register, raw) in registers[1..].iter_mut().zip(each(&mut random)) {
            register.shards.push(Shard::start_over(raw, m, own).0);
        }
    }
    for client in 0..16 {
        for (register, raw) in registers[1..].iter_mut().zip(each(&mut random)) {
            register.sessions.push(Session::start_over(raw, client).0);
        }
    }
    for register in &registers[1..] {
        assert_same(&registers[0], register);
    }
    deliver_to_all(&mut registers, &input);
}
