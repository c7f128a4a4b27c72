//! Mixed runs of the second program, as definitions that the prover computes from the rules.
//!
//! The output is `crates/agreement/specs/Expected.antt`: for each run what was delivered to whom,
//! what the second program answered and sent, and how its boards and shard groups then stood;
//! then runs of sessions, call by call.

mod sessions;

use std::fmt::Write;

use reference::board::{Board, Status};
use reference::driver::random::Random;
use reference::driver::simulation::{Setup, Simulation};
use reference::frames::{ExecNotif, Executed, Forward, Frame, ShardAppend, Submit};
use reference::lists::{Operation, Operations, Placed, Read, Reads};
use reference::records::{Record, Records};
use reference::register::{board_address, shard_address, Receiver, Register};
use reference::shard::Shard;
use reference::sizes::OUT_AREA;

const HEAD: &str = "\
-- What the second program answered, sent and held, run by run and then call by call of a session. Written by its program `agreement`, never by hand.
-- Assumes nothing.
use Rattle.std.specs.Prelude.{List, [], ◌∷◌}
use Rattle.std.proofs.Math.Option.{none, some}
use Rattle.rules.specs.Transactions.{get, put}
use Rattle.rules.specs.Board.{PRE, EXE}
use Rattle.agreement.specs.Runs.{Run}
use Rattle.agreement.specs.Calls.{Calls, start, invoke, retry, hear, asked, waits, stands, not_started}
";

/// A run: its name, the setup, and who is given which bytes.
struct Given {
    name: &'static str,
    n: u8,
    m: u8,
    deliveries: Vec<(u8, Vec<u8>)>,
}

fn main() {
    let mut text = String::from(HEAD);
    let runs: Vec<Given> = by_hand().into_iter().chain(mixed()).collect();
    for (index, given) in runs.iter().enumerate() {
        print_run(&mut text, index + 1, given);
    }
    let names = (1..=runs.len()).map(|index| format!("run{index}"));
    writeln!(text, "\nabbrev pub runs : List Run\nruns = {}", list(names))
        .expect("a String takes all");
    sessions::print(&mut text);
    print!("{text}");
}

// ---- The runs

/// Damaged, doubled, late and invented frames among honest ones.
fn mixed() -> Vec<Given> {
    let sizes = [
        (2, 1),
        (3, 3),
        (4, 8),
        (2, 2),
        (8, 5),
        (3, 4),
        (5, 1),
        (3, 8),
    ];
    sizes
        .into_iter()
        .enumerate()
        .map(|(run, (n, m))| {
            let setup = Setup {
                n,
                m,
                clients: 3,
                keys: 8,
                invocations: 12,
                records: 45,
                disorder: 4,
                talk: 15,
                retry: 30,
                loss: 10,
                notif_loss: 0,
                doubling: 20,
                late: 10,
                again: 20,
                mischief: 25,
            };
            let random = Random::new(2, run as u64);
            let mut simulation = Simulation::new(Register::deliver, setup, random);
            simulation.run().expect("a mixed run is held to nothing");
            Given {
                name: "mixed",
                n,
                m,
                deliveries: records(&simulation.bench_input),
            }
        })
        .collect()
}

/// The records of a bench input that name a board or a shard group.
fn records(input: &[u8]) -> Vec<(u8, Vec<u8>)> {
    let mut records = Records::new(input);
    let (n, m) = records
        .setup()
        .expect("no error in memory")
        .expect("a setup");
    let register = Register::start(n, m).expect("a setup within the sizes");
    let mut deliveries = Vec::new();
    while let Ok(Record::Frame { address, frame }) = records.next_record() {
        if register.receiver(address) != Receiver::Nobody {
            deliveries.push((address, frame.to_vec()));
        }
    }
    deliveries
}

fn operations(items: &[Operation]) -> Operations {
    items.iter().copied().collect()
}

fn reads(items: &[(u8, Option<u32>)]) -> Reads {
    let read = |&(place, value)| Read { place, value };
    items.iter().map(read).collect()
}

fn submit(client: u8, number: u16, ack: u16, items: &[Operation]) -> Submit {
    Submit {
        client,
        number,
        ack,
        operations: operations(items),
    }
}

fn forward(log_number: u8, submit: Submit) -> Frame {
    Frame::Forward(Forward { log_number, submit })
}

fn notif(shard: u8, log_number: u8, items: &[(u8, Option<u32>)]) -> Frame {
    let reads = reads(items);
    Frame::ExecNotif(ExecNotif {
        shard,
        log_number,
        reads,
    })
}

fn executed(log_number: u8, items: &[(u8, Option<u32>)]) -> Frame {
    let reads = reads(items);
    Frame::Executed(Executed { log_number, reads })
}

fn to_board(own: u8, frame: Frame) -> (u8, Vec<u8>) {
    (board_address(own), frame.to_bytes())
}

/// Runs that chance rarely makes.
fn by_hand() -> Vec<Given> {
    let (get, put) = (Operation::get, Operation::put);
    let first = submit(3, 0, 0, &[put(5, 1000), get(4)]);
    let second = submit(3, 1, 0, &[get(5), get(4), put(4, 7)]);
    let both = [first, second];

    // An Executed and an ExecNotif at each board of three, the entry PRE everywhere. The tail
    // takes no Executed, the others no ExecNotif.
    let mut wrong_boards = vec![
        to_board(1, Frame::Submit(first)),
        to_board(2, forward(0, first)),
        to_board(3, forward(0, first)),
    ];
    for own in [3, 2, 1] {
        wrong_boards.push(to_board(own, executed(0, &[(1, None)])));
        wrong_boards.push(to_board(own, notif(2, 0, &[])));
        wrong_boards.push(to_board(own, notif(1, 0, &[(1, None)])));
        wrong_boards.push(to_board(own, Frame::Submit(first)));
    }

    // Two shards answer the second entry before the first: reads by place, the queue emptied,
    // the last taken number stays.
    let out_of_order = vec![
        to_board(2, forward(0, both[0])),
        to_board(2, forward(1, both[1])),
        to_board(2, notif(2, 1, &[(0, Some(9))])),
        to_board(2, notif(1, 1, &[(1, Some(8))])),
        to_board(2, forward(1, both[1])),
        to_board(2, notif(2, 0, &[])),
        to_board(2, forward(0, both[0])),
        to_board(2, notif(1, 0, &[(0, None)])),
        to_board(2, notif(1, 0, &[(1, None)])),
        to_board(2, notif(1, 0, &[(1, None)])),
        to_board(2, notif(3, 0, &[])),
        to_board(2, notif(1, 2, &[])),
    ];

    // Acks lift the floor, also of a held number; a Submit below it is refused, a late Forward
    // below it is served; a held number with other operations is refused and lifts nothing; an
    // ack above what the sender's floor was is carried as the smaller of floor and number.
    let third = submit(3, 2, 2, &[put(5, 3)]);
    let floors = vec![
        to_board(1, Frame::Submit(both[0])),
        to_board(1, Frame::Submit(both[1])),
        to_board(
            1,
            Frame::Submit(submit(3, 1, 1, &[get(5), get(4), put(4, 8)])),
        ),
        to_board(1, Frame::Submit(both[0])),
        to_board(1, Frame::Submit(Submit { ack: 1, ..both[1] })),
        to_board(1, Frame::Submit(both[0])),
        to_board(1, Frame::Submit(third)),
        to_board(1, Frame::Submit(both[1])),
        to_board(1, Frame::Submit(submit(3, 4, 3, &[get(1)]))),
        to_board(1, Frame::Submit(submit(3, 2, 0, &[put(5, 3)]))),
        to_board(2, forward(0, both[0])),
        to_board(2, forward(1, both[1])),
        to_board(2, forward(2, third)),
        to_board(2, forward(0, both[0])),
        to_board(2, forward(0, both[1])),
        to_board(2, forward(4, third)),
        to_board(2, forward(3, submit(3, 4, 3, &[get(1)]))),
    ];

    // sn counts the entries up to the one sent, gets included, also when a later one is held.
    let append = |shard, log_number, sn, items: &[(u8, Operation)]| {
        let placed = |&(place, operation)| Placed { place, operation };
        let operations = items.iter().map(placed).collect();
        let frame = Frame::ShardAppend(ShardAppend {
            shard,
            log_number,
            sn,
            operations,
        });
        (shard_address(shard), frame.to_bytes())
    };
    let shards = vec![
        append(2, 4, 2, &[(0, put(5, 1))]),
        append(2, 4, 1, &[(0, put(5, 1)), (1, get(5)), (3, get(7))]),
        append(2, 4, 1, &[(0, put(5, 1))]),
        append(2, 4, 2, &[(0, get(5))]),
        append(2, 5, 2, &[(0, get(4))]),
        append(2, 5, 2, &[(2, get(5))]),
        append(2, 9, 3, &[(0, put(5, 2)), (1, put(5, 3)), (2, get(5))]),
        append(1, 0, 1, &[(1, get(4)), (2, put(4, 6)), (3, get(4))]),
        (shard_address(1), append(2, 1, 1, &[(0, get(5))]).1),
        (shard_address(2), executed(0, &[]).to_bytes()),
    ];

    // 256 entries; then a new number is refused, a held one that is PRE is sent on again, and
    // one that is EXE is answered.
    let mut full_log = Vec::new();
    for number in 0..16 {
        for client in 0..16 {
            let ack = u16::saturating_sub(number, 7);
            full_log.push(submit(
                client,
                number,
                ack,
                &[put(client, u32::from(number))],
            ));
        }
    }
    full_log.push(submit(4, 16, 9, &[get(1)]));
    full_log.push(submit(4, 15, 8, &[put(4, 15)]));
    let mut full_log: Vec<_> = full_log
        .into_iter()
        .map(|submit| to_board(1, Frame::Submit(submit)))
        .collect();
    full_log.push(to_board(1, executed(255, &[])));
    full_log.push(to_board(
        1,
        Frame::Submit(submit(15, 15, 8, &[put(15, 15)])),
    ));
    full_log.push(to_board(1, Frame::Submit(submit(4, 16, 9, &[get(1)]))));

    vec![
        Given {
            name: "a full log",
            n: 2,
            m: 1,
            deliveries: full_log,
        },
        Given {
            name: "an Executed and an ExecNotif at each board",
            n: 3,
            m: 2,
            deliveries: wrong_boards,
        },
        Given {
            name: "answers out of order, from two shards",
            n: 2,
            m: 2,
            deliveries: out_of_order,
        },
        Given {
            name: "floors and acks",
            n: 3,
            m: 2,
            deliveries: floors,
        },
        Given {
            name: "shard groups",
            n: 2,
            m: 2,
            deliveries: shards,
        },
    ]
}

// ---- The text

fn print_run(text: &mut String, index: usize, given: &Given) {
    let Given { name, n, m, .. } = given;
    let mut register = Register::start(*n, *m).expect("a setup within the sizes");
    let mut deliveries = Vec::new();
    for (address, frame) in &given.deliveries {
        let mut out = [0; OUT_AREA];
        let answer = register.deliver(*address, frame, &mut out);
        deliveries.push(format!(
            "record {{ to = {address}; bytes = {}; answer = {}; sent = {} }}",
            numbers(frame),
            answer.answer,
            numbers(&out[..answer.bytes])
        ));
    }
    let clients = 0..4;
    let keys = 0..8;
    let boards = register.boards.iter().map(|board| board_text(board, *m));
    let shards = register.shards.iter().map(shard_text);
    let lines = [
        format!("\n-- {name}, {n} boards, {m} shard groups"),
        format!("abbrev pub run{index} : Run"),
        format!("run{index} ="),
        "    record {".into(),
        format!("      n = {n};"),
        format!("      m = {m};"),
        format!("      clients = {};", list(clients.map(|c| c.to_string()))),
        format!("      keys = {};", list(keys.map(|k| k.to_string()))),
        format!("      deliveries = {};", list(deliveries.into_iter())),
        format!("      boards = {};", list(boards)),
        format!("      shards = {};", list(shards)),
        "    }".into(),
    ];
    for line in lines {
        writeln!(text, "{line}").expect("a String takes all");
    }
}

fn list(items: impl Iterator<Item = String>) -> String {
    let text: String = items.map(|item| item + " ∷ ").collect();
    if text.is_empty() {
        "[]".into()
    } else {
        format!("({text}[])")
    }
}

fn numbers(bytes: &[u8]) -> String {
    list(bytes.iter().map(|byte| byte.to_string()))
}

fn option(value: Option<String>) -> String {
    value.map_or("none".into(), |value| format!("some {value}"))
}

fn operation_text(operation: &Operation) -> String {
    if operation.is_get() {
        format!("get {}", operation.key)
    } else {
        format!("put {} {}", operation.key, operation.value)
    }
}

fn read_text(read: &Read) -> String {
    let value = option(read.value.map(|value| value.to_string()));
    format!("record {{ place = {}; value = {value} }}", read.place)
}

fn board_text(board: &Board, m: u8) -> String {
    let log = board.log().iter().map(|entry| {
        let status = match entry.status {
            Status::Pre => "PRE",
            Status::Exe => "EXE",
        };
        format!(
            "record {{ write = record {{ client = {}; number = {}; operations = {} }}; status = {status}; reads = {}; remaining = {} }}",
            entry.client,
            entry.number,
            list(entry.operations.iter().map(operation_text)),
            list(entry.reads.iter().map(read_text)),
            list(entry.remaining.iter().map(|shard| shard.to_string())),
        )
    });
    let floors = (0..4).map(|client| board.floor(client).to_string());
    let queues = (1..=m).map(|shard| {
        let queue = board.queue(shard);
        format!(
            "record {{ waiting = {}; last_taken = {} }}",
            list(queue.numbers().map(|number| number.to_string())),
            option(queue.last_taken().map(|number| number.to_string())),
        )
    });
    format!(
        "record {{ log = {}; floors = {}; queues = {} }}",
        list(log),
        list(floors),
        list(queues)
    )
}

fn shard_text(shard: &Shard) -> String {
    let cells = shard.keys()[..8].iter().map(|stored| {
        option(stored.as_ref().map(|stored| {
            format!(
                "(record {{ value = {}; ind = {} }})",
                stored.value, stored.log_number
            )
        }))
    });
    format!(
        "record {{ ssn = {}; last_run = {}; cells = {} }}",
        shard.ssn(),
        option(shard.last_run().map(|number| number.to_string())),
        list(cells)
    )
}
