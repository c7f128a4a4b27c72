//! A traced run as a message sequence chart, in SVG.
//!
//! Clients, boards and shard groups are columns; each delivery is a row, with an arrow from whoever
//! sent the frame to whoever takes it. A refusal is dashed and ends in its number.

use std::collections::{BTreeSet, HashMap};
use std::fmt::Write;

use reference::driver::simulation::split;

use crate::register::Receiver;
use crate::text;
use crate::trace::{invoked, Delivery, Trace};

/// How many deliveries a chart shows at most.
pub const MOST: usize = 1_000;

/// Rows between two lines of column heads, so that one is always in sight.
const ROWS_PER_HEAD: usize = 30;
const ROW: usize = 24;
const HEAD: usize = 40;
const COLUMN: usize = 176;
const LEFT: usize = 110;
const RIGHT: usize = 90;
const TOP: usize = 84;
const BOTTOM: usize = 72;
/// How far an arrow from nobody known reaches.
const STUB: usize = 60;
/// How long an arrow's end is.
const END: usize = 9;

const STYLE: &str = "
text { font: 12px 'DejaVu Sans', Verdana, sans-serif; fill: #222 }
.title { font-size: 16px; font-weight: bold }
.head { font-weight: bold; text-anchor: middle }
.box { fill: #eef2f7; stroke: #8899aa }
.life { stroke: #b8c2cc }
.row { text-anchor: end; fill: #667 }
.note { fill: #889; font-size: 11px }
.word { text-anchor: middle; stroke: #fff; stroke-width: 4px; paint-order: stroke }
.ends { text-anchor: end }
.said { stroke: #fff; stroke-width: 4px; paint-order: stroke }
.down { stroke: #1f5fa8; fill: #1f5fa8 }
.back { stroke: #2c7a3f; fill: #2c7a3f }
.refused { stroke: #b3261e; fill: #b3261e }
line.refused { stroke-dasharray: 5 3 }
.number { fill: #fff; font-size: 11px; font-weight: bold; text-anchor: middle }
";

/// A column of the chart; their order is that of the columns.
#[derive(Clone, Copy, Debug, PartialEq, Eq, PartialOrd, Ord)]
enum Column {
    Client(usize),
    Board(usize),
    Shard(usize),
    Nobody,
}

impl Column {
    fn of(receiver: Receiver) -> Self {
        match receiver {
            Receiver::Board(at) => Column::Board(at),
            Receiver::Shard(at) => Column::Shard(at),
            Receiver::Session(at) | Receiver::Invokes(at) | Receiver::Retries(at) => {
                Column::Client(at)
            }
            Receiver::Nobody => Column::Nobody,
        }
    }

    fn name(self) -> String {
        match self {
            Column::Client(client) => format!("client {client}"),
            Column::Board(at) => format!("board {}", at + 1),
            Column::Shard(at) => format!("shard {}", at + 1),
            Column::Nobody => "nobody".into(),
        }
    }
}

/// What a row shows.
struct Row {
    /// Who sent the frame, where that is known; none for what a session does of itself.
    from: Option<Column>,
    to: Column,
    words: String,
    note: String,
    answer: u8,
    /// Away from the client, towards the shards.
    down: bool,
    /// A session invokes or retries: no frame is delivered.
    of_itself: bool,
    /// The whole record, for whoever points at the row.
    title: String,
}

/// The chart of a run.
pub fn draw(trace: &Trace) -> String {
    let Some((n, m)) = trace.chain else {
        return refused_setup();
    };
    let rows = rows(n, m, &trace.deliveries);
    let mut columns: BTreeSet<Column> = (0..n.into()).map(Column::Board).collect();
    columns.extend((0..m.into()).map(Column::Shard));
    for row in &rows {
        columns.insert(row.to);
        columns.extend(row.from);
    }
    let columns: Vec<Column> = columns.into_iter().collect();
    let mut below = match trace.delivered - rows.len() {
        0 => format!("{} deliveries", rows.len()),
        more => format!("{} deliveries shown, {more} more not shown", rows.len()),
    };
    if trace.cut {
        below += "; the input was cut here";
    }
    Drawing::new(columns).finish(&format!("chain {n} shards {m}"), &rows, &below)
}

fn refused_setup() -> String {
    Drawing::new(Vec::new()).finish("setup 11", &[], "n or m is missing or out of range")
}

/// Who sent a frame last, and in which row: by the frame and whom it is for, and, for what arrives
/// elsewhere, by the frame alone.
#[derive(Default)]
struct Senders {
    addressed: HashMap<(Receiver, Vec<u8>), (Column, usize)>,
    sent: HashMap<Vec<u8>, (Column, usize)>,
}

impl Senders {
    fn add(&mut self, n: u8, index: usize, delivery: &Delivery) {
        let from = (Column::of(delivery.receiver), index);
        for frame in split(&delivery.outcome.sent) {
            let to = delivery.receiver.of_sent(frame, n);
            self.addressed.insert((to, frame.to_vec()), from);
            self.sent.insert(frame.to_vec(), from);
        }
    }

    fn of(&self, delivery: &Delivery) -> Option<(Column, usize)> {
        let addressed = (delivery.receiver, delivery.record.clone());
        let sender = self.addressed.get(&addressed);
        sender.or_else(|| self.sent.get(&delivery.record)).copied()
    }
}

fn rows(n: u8, m: u8, deliveries: &[Delivery]) -> Vec<Row> {
    let mut senders = Senders::default();
    let mut rows = Vec::new();
    for (index, delivery) in deliveries.iter().enumerate() {
        rows.push(row((n, m), index, delivery, &senders));
        senders.add(n, index, delivery);
    }
    rows
}

fn row((n, m): (u8, u8), index: usize, delivery: &Delivery, senders: &Senders) -> Row {
    let to = Column::of(delivery.receiver);
    let of_itself = matches!(
        delivery.receiver,
        Receiver::Invokes(_) | Receiver::Retries(_)
    );
    let sender = senders.of(delivery).filter(|_| !of_itself);
    let from = match sender {
        Some((sender, _)) => Some(sender),
        None if of_itself => None,
        None => likely_sender((n, m), to, &delivery.record),
    };
    Row {
        from,
        to,
        words: words(delivery),
        note: match sender {
            Some((_, index)) => format!("sent in d{index}"),
            None if of_itself => String::new(),
            None => "from outside".into(),
        },
        answer: delivery.outcome.answer,
        down: of_itself || matches!(delivery.record.get(2), Some(1..=3)),
        of_itself,
        title: title(index, delivery),
    }
}

fn title(index: usize, delivery: &Delivery) -> String {
    let record = text::hexadecimal(&delivery.record);
    let answer = delivery.outcome.answer;
    let mut title = format!("d{index}: address {}, {record}: {answer}", delivery.address);
    if !delivery.outcome.sent.is_empty() {
        title += ", sends ";
        title += &text::hexadecimal(&delivery.outcome.sent);
    }
    title
}

/// Who sends frames of this kind to this receiver, by the table of "Frames". So is a frame drawn
/// that comes from outside the input.
fn likely_sender((n, m): (u8, u8), to: Column, record: &[u8]) -> Option<Column> {
    let tail = usize::from(n) - 1;
    match (record, to) {
        ([_, _, 1, 0, client @ 0..=15, ..], Column::Board(0)) => {
            Some(Column::Client(usize::from(*client)))
        }
        ([_, _, 2, 0, ..], Column::Board(at)) if at > 0 => Some(Column::Board(at - 1)),
        ([_, _, 3, 0, ..], Column::Shard(_)) => Some(Column::Board(tail)),
        ([_, _, 4, 0, shard @ 1..=8, ..], Column::Board(at)) if at == tail && *shard <= m => {
            Some(Column::Shard(usize::from(*shard) - 1))
        }
        ([_, _, 5, 0, ..], Column::Board(at)) if at < tail => Some(Column::Board(at + 1)),
        ([_, _, 6, 0, ..], Column::Client(_)) => Some(Column::Board(0)),
        _ => None,
    }
}

/// The kind and the log number, or what a session does.
fn words(delivery: &Delivery) -> String {
    let number = match delivery.outcome.number {
        Some(number) => format!(" {number}"),
        None => String::new(),
    };
    match delivery.receiver {
        Receiver::Invokes(_) => {
            let list = invoked(&delivery.record[2..]).filter(|_| delivery.outcome.answer == 0);
            let operations = list.map(|list| {
                let asked = list.items.into_iter().take(list.count.into());
                text::operations(asked.map(Into::into))
            });
            let colon = if operations.is_some() { ": " } else { "" };
            return format!("invoke{number}{colon}{}", operations.unwrap_or_default());
        }
        Receiver::Retries(_) => {
            let asked = match delivery.record[2..] {
                [low, high] => format!(" {}", u16::from_le_bytes([low, high])),
                _ => String::new(),
            };
            return format!("retry{asked}");
        }
        _ => {}
    }
    let log_number = delivery
        .log_number
        .map_or(String::new(), |at| format!(", log {at}"));
    match (delivery.outcome.answer, &delivery.record[2..]) {
        (1, [kind @ 1..=6, 0, ..]) => format!("{}, malformed", KINDS[usize::from(*kind) - 1]),
        (1, _) => "malformed".into(),
        (_, [1, 0, _, low, high, ..]) => format!("Submit {}{log_number}", two(*low, *high)),
        (_, [2, 0, low, high, ..]) => format!("Forward, log {}", two(*low, *high)),
        (_, [3, 0, _, low, high, sn_low, sn_high, ..]) => format!(
            "ShardAppend, log {}, sn {}",
            two(*low, *high),
            two(*sn_low, *sn_high)
        ),
        (_, [4, 0, _, low, high, ..]) => format!("ExecNotif, log {}", two(*low, *high)),
        (_, [5, 0, low, high, ..]) => format!("Executed, log {}", two(*low, *high)),
        (_, [6, 0, _, low, high, ..]) => {
            let reads = delivery
                .outcome
                .reply
                .map_or(String::new(), |reply| text::reads(reply.found()));
            let colon = if reads.is_empty() { "" } else { ": " };
            format!("Response {}{log_number}{colon}{reads}", two(*low, *high))
        }
        _ => format!("to address {}", delivery.address),
    }
}

const KINDS: [&str; 6] = [
    "Submit",
    "Forward",
    "ShardAppend",
    "ExecNotif",
    "Executed",
    "Response",
];

fn two(low: u8, high: u8) -> u16 {
    u16::from_le_bytes([low, high])
}

/// The SVG text, as it grows.
struct Drawing {
    columns: Vec<Column>,
    body: String,
}

impl Drawing {
    fn new(columns: Vec<Column>) -> Self {
        Drawing {
            columns,
            body: String::new(),
        }
    }

    fn finish(mut self, title: &str, rows: &[Row], below: &str) -> String {
        let height = TOP + Self::at_row(rows.len()) + BOTTOM;
        let width = LEFT + self.columns.len().max(2) * COLUMN + RIGHT;
        let end = height - BOTTOM + HEAD / 2;
        self.add(format_args!(
            "<text class=\"title\" x=\"20\" y=\"30\">{title}</text>"
        ));
        self.legend();
        for x in (0..self.columns.len()).map(Self::x) {
            self.add(format_args!(
                "<line class=\"life\" x1=\"{x}\" y1=\"{TOP}\" x2=\"{x}\" y2=\"{end}\"/>"
            ));
        }
        for (index, row) in rows.iter().enumerate() {
            let y = TOP + Self::at_row(index) + HEAD;
            if index % ROWS_PER_HEAD == 0 {
                self.heads(y - HEAD);
            }
            self.row(index, row, y);
        }
        if rows.is_empty() {
            self.heads(TOP);
        }
        self.add(format_args!(
            "<text class=\"note\" x=\"20\" y=\"{}\">{below}</text>",
            height - 16
        ));
        format!(
            "<?xml version=\"1.0\" encoding=\"UTF-8\"?>
<svg xmlns=\"http://www.w3.org/2000/svg\" width=\"{width}\" height=\"{height}\" viewBox=\"0 0 {width} {height}\">
<style>{STYLE}</style>
<rect width=\"{width}\" height=\"{height}\" fill=\"#fff\"/>
{}</svg>
",
            self.body
        )
    }

    fn legend(&mut self) {
        let entries = [
            ("down", "taken, towards the shards"),
            ("back", "taken, back to the client"),
            ("refused", "refused, with its number"),
        ];
        for (at, (class, words)) in entries.into_iter().enumerate() {
            let x = 20 + 220 * at;
            self.add(format_args!(
                "<line class=\"{class}\" x1=\"{x}\" y1=\"50\" x2=\"{}\" y2=\"50\"/>",
                x + 30
            ));
            self.add(format_args!(
                "<text class=\"note\" x=\"{}\" y=\"54\">{words}</text>",
                x + 38
            ));
        }
    }

    /// The names of the columns, in a line whose middle is at `y`.
    fn heads(&mut self, y: usize) {
        for at in 0..self.columns.len() {
            let (x, name) = (Self::x(at), self.columns[at].name());
            self.add(format_args!(
                "<rect class=\"box\" x=\"{}\" y=\"{}\" width=\"90\" height=\"20\" rx=\"4\"/>",
                x - 45,
                y - 10
            ));
            self.add(format_args!(
                "<text class=\"head\" x=\"{x}\" y=\"{}\">{name}</text>",
                y + 4
            ));
        }
    }

    fn row(&mut self, index: usize, row: &Row, y: usize) {
        self.add(format_args!("<g><title>{}</title>", row.title));
        self.add(format_args!(
            "<text class=\"row\" x=\"{}\" y=\"{}\">d{index}</text>",
            LEFT / 2,
            y + 4
        ));
        let class = match row {
            Row { answer: 1.., .. } => "refused",
            Row { down: true, .. } => "down",
            _ => "back",
        };
        let to = self.x_of(row.to);
        if row.of_itself {
            self.act(row, class, to, y);
        } else {
            self.arrow(row, class, to, y);
        }
        let notes = LEFT + self.columns.len() * COLUMN - COLUMN / 4;
        self.add(format_args!(
            "<text class=\"note\" x=\"{notes}\" y=\"{}\">{}</text></g>",
            y + 4,
            row.note
        ));
    }

    /// What a session does of itself: a mark on its line, the words beside it.
    fn act(&mut self, row: &Row, class: &str, x: usize, y: usize) {
        if row.answer == 0 {
            self.add(format_args!(
                "<circle class=\"{class}\" cx=\"{x}\" cy=\"{y}\" r=\"4\"/>"
            ));
        } else {
            self.refusal(row.answer, x, y);
        }
        self.add(format_args!(
            "<text class=\"said\" x=\"{}\" y=\"{}\">{}</text>",
            x + 14,
            y + 4,
            row.words
        ));
    }

    fn arrow(&mut self, row: &Row, class: &str, to: usize, y: usize) {
        let sender = row.from.filter(|&from| from != row.to);
        let from = sender.map_or(to - STUB, |from| self.x_of(from));
        // The words keep clear of the arrow's end.
        let end = if from < to { to - END } else { to + END };
        let (class_of_words, x) = match sender {
            Some(_) => ("word", from.midpoint(end)),
            None => ("word ends", end),
        };
        self.add(format_args!(
            "<line class=\"{class}\" x1=\"{from}\" y1=\"{y}\" x2=\"{to}\" y2=\"{y}\"/>"
        ));
        self.add(format_args!(
            "<text class=\"{class_of_words}\" x=\"{x}\" y=\"{}\">{}</text>",
            y - 4,
            row.words
        ));
        if row.answer == 0 {
            self.add(format_args!(
                "<polygon class=\"{class}\" points=\"{to},{y} {end},{} {end},{}\"/>",
                y - 4,
                y + 4
            ));
        } else {
            self.refusal(row.answer, to, y);
        }
    }

    fn refusal(&mut self, answer: u8, x: usize, y: usize) {
        self.add(format_args!(
            "<circle class=\"refused\" cx=\"{x}\" cy=\"{y}\" r=\"8\"/>"
        ));
        self.add(format_args!(
            "<text class=\"number\" x=\"{x}\" y=\"{}\">{answer}</text>",
            y + 4
        ));
    }

    fn add(&mut self, element: std::fmt::Arguments) {
        writeln!(self.body, "{element}").expect("a String takes all text");
    }

    fn x_of(&self, column: Column) -> usize {
        let at = self.columns.iter().position(|&other| other == column);
        Self::x(at.expect("every row's columns are drawn"))
    }

    fn x(at: usize) -> usize {
        LEFT + COLUMN / 2 + at * COLUMN
    }

    /// How far below the first line of heads a row begins.
    fn at_row(index: usize) -> usize {
        index * ROW + index / ROWS_PER_HEAD * HEAD
    }
}
