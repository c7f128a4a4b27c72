//! Kinds against answers: what was met, and what a bench can give.

use std::fmt;

use crate::records::{Record, Records};
use crate::register::{Receiver, Register};

/// The rows: whom a record is for decides before its kind.
const ROWS: [&str; 8] = [
    "1 Submit",
    "2 Forward",
    "3 ShardAppend",
    "4 ExecNotif",
    "5 Executed",
    "6 Response",
    "other kinds",
    "to nobody",
];
const OTHER: usize = 6;
const NOBODY: usize = 7;
const ANSWERS: usize = 12;

/// What a bench can answer, row by row, from the order of refusals in 01.
///
/// 9 and 10 are a session's. 11 can't be met: boards and shard groups have started and their
/// out areas are large enough. A kind 6 has no receiver in a bench, another kind none at all.
const POSSIBLE: [&[usize]; 8] = [
    &[0, 1, 2, 3, 4, 5, 8],
    &[0, 1, 2, 4, 8],
    &[0, 1, 2, 4, 7, 8],
    &[0, 1, 2, 6, 7, 8],
    &[0, 1, 2, 6, 7, 8],
    &[1, 2],
    &[1],
    &[2],
];

/// Counts of answers.
#[derive(Clone, Debug, Default, PartialEq, Eq)]
pub struct Table {
    counts: [[u64; ANSWERS]; 8],
    cut: u64,
    setup_11: u64,
}

impl Table {
    /// Counts the answers that `output` gives to the records of `input`. An error says what
    /// doesn't stand where the bench's output has it.
    pub fn add(&mut self, input: &[u8], output: &[u8]) -> Result<(), String> {
        if output == b"setup 11\n" {
            self.setup_11 += 1;
            return Ok(());
        }
        let mut records = Records::new(input);
        let setup = records.setup().map_err(|error| error.to_string())?;
        let register = setup
            .and_then(|(n, m)| Register::start(n, m))
            .ok_or("no setup, yet no `setup 11`")?;
        let mut lines = output.split(|&byte| byte == b'\n').skip(1);
        let mut index = 0;
        loop {
            match records.next_record().map_err(|error| error.to_string())? {
                Record::Frame { address, frame } => {
                    let answer = lines
                        .next()
                        .and_then(|line| answer_of(line, index))
                        .ok_or_else(|| format!("no line d{index}"))?;
                    let row = row(register.receiver(address), frame);
                    *self.counts[row]
                        .get_mut(answer)
                        .ok_or_else(|| format!("d{index} has answer {answer}"))? += 1;
                    index += 1;
                }
                Record::Cut => {
                    self.cut += 1;
                    return Ok(());
                }
                Record::End => return Ok(()),
            }
        }
    }

    /// What a bench can give and never gave, and what it gave and can't.
    pub fn faults(&self) -> Vec<String> {
        let mut faults = Vec::new();
        for (row, possible) in POSSIBLE.iter().enumerate() {
            for (answer, &count) in self.counts[row].iter().enumerate() {
                let name = ROWS[row];
                match (possible.contains(&answer), count) {
                    (true, 0) => faults.push(format!("{name}: answer {answer} was never met")),
                    (false, 1..) => faults.push(format!("{name}: answer {answer} can't be given")),
                    _ => {}
                }
            }
        }
        if self.cut == 0 {
            faults.push("no input was cut".into());
        }
        if self.setup_11 == 0 {
            faults.push("no setup was refused".into());
        }
        faults
    }
}

fn row(receiver: Receiver, frame: &[u8]) -> usize {
    match (receiver, frame) {
        (Receiver::Nobody, _) => NOBODY,
        (_, [_, _, kind @ 1..=6, 0, ..]) => usize::from(*kind) - 1,
        _ => OTHER,
    }
}

/// The answer in line d`index`.
fn answer_of(line: &[u8], index: u64) -> Option<usize> {
    let mut words = std::str::from_utf8(line).ok()?.split(' ');
    if words.next()?.strip_prefix('d')?.parse() != Ok(index) {
        return None;
    }
    words.next()?.parse().ok()
}

impl fmt::Display for Table {
    fn fmt(&self, f: &mut fmt::Formatter<'_>) -> fmt::Result {
        write!(f, "{:<14}", "kind \\ answer")?;
        for answer in 0..ANSWERS {
            write!(f, "{answer:>9}")?;
        }
        writeln!(f)?;
        for (row, counts) in self.counts.iter().enumerate() {
            write!(f, "{:<14}", ROWS[row])?;
            for (answer, &count) in counts.iter().enumerate() {
                if count == 0 && !POSSIBLE[row].contains(&answer) {
                    write!(f, "{:>9}", ".")?;
                } else {
                    write!(f, "{count:>9}")?;
                }
            }
            writeln!(f)?;
        }
        writeln!(f, "cut {}, setup 11 {}", self.cut, self.setup_11)
    }
}

#[cfg(test)]
mod tests {
    use super::*;
    use crate::bench::bench;

    const EXAMPLE: &[u8] = include_bytes!("../../data/example.bin");

    #[test]
    fn the_example_is_counted() {
        let mut table = Table::default();
        table.add(EXAMPLE, &bench(EXAMPLE)).unwrap();
        table.add(&EXAMPLE[..30], &bench(&EXAMPLE[..30])).unwrap();
        table.add(&[9], &bench(&[9])).unwrap();
        assert_eq!(table.counts[0][0], 2);
        assert_eq!(table.counts[1][0], 1);
        assert_eq!(table.counts[2][..], [1, 0, 0, 0, 0, 0, 0, 1, 0, 0, 0, 0]);
        assert_eq!((table.cut, table.setup_11), (1, 1));
    }

    #[test]
    fn what_is_missing_and_what_cannot_be_is_named() {
        let mut table = Table {
            cut: 1,
            setup_11: 1,
            ..Table::default()
        };
        for (row, possible) in POSSIBLE.iter().enumerate() {
            for &answer in possible.iter() {
                table.counts[row][answer] = 1;
            }
        }
        assert!(table.faults().is_empty());
        table.counts[2][7] = 0;
        table.counts[5][7] = 1;
        assert_eq!(
            table.faults(),
            [
                "3 ShardAppend: answer 7 was never met",
                "6 Response: answer 7 can't be given"
            ]
        );
        table.cut = 0;
        assert_eq!(table.faults().len(), 3);
    }

    #[test]
    fn an_output_of_another_form_is_no_answer() {
        let mut table = Table::default();
        assert!(table.add(EXAMPLE, b"chain 2 shards 1\nd0 0 1\n").is_err());
        assert!(table.add(EXAMPLE, b"chain 2 shards 1\nd1 0 1\n").is_err());
        assert!(table.add(&[9, 9], b"chain 9 shards 9\n").is_err());
    }
}
