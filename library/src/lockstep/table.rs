//! Calls against answers: what was met, and what can be given.

use std::fmt;

/// The rows: a call of its own, or the kind of the frame that is taken.
#[derive(Clone, Copy, Debug, PartialEq, Eq)]
#[allow(missing_docs)]
pub enum Row {
    Submit,
    Forward,
    ShardAppend,
    ExecNotif,
    Executed,
    Response,
    OtherKind,
    Invoke,
    Retry,
    Start,
}

const ROWS: [&str; 10] = [
    "1 Submit",
    "2 Forward",
    "3 ShardAppend",
    "4 ExecNotif",
    "5 Executed",
    "6 Response",
    "other kinds",
    "invoke",
    "retry",
    "start",
];
const ANSWERS: usize = 12;

/// What can be answered, row by row, from the order of refusals in 01.
const POSSIBLE: [&[usize]; 10] = [
    &[0, 1, 2, 3, 4, 5, 8, 11],
    &[0, 1, 2, 4, 8, 11],
    &[0, 1, 2, 4, 7, 8, 11],
    &[0, 1, 2, 6, 7, 8, 11],
    &[0, 1, 2, 6, 7, 8, 11],
    &[0, 1, 2, 7, 8, 11],
    &[1, 11],
    &[0, 1, 9, 10, 11],
    &[0, 7, 11],
    &[0, 11],
];

impl Row {
    /// The row of a frame.
    pub fn of(frame: &[u8]) -> Self {
        match frame {
            [_, _, 1, 0, ..] => Row::Submit,
            [_, _, 2, 0, ..] => Row::Forward,
            [_, _, 3, 0, ..] => Row::ShardAppend,
            [_, _, 4, 0, ..] => Row::ExecNotif,
            [_, _, 5, 0, ..] => Row::Executed,
            [_, _, 6, 0, ..] => Row::Response,
            _ => Row::OtherKind,
        }
    }
}

/// Counts of answers.
#[derive(Clone, Debug, Default, PartialEq, Eq)]
pub struct Table {
    counts: [[u64; ANSWERS]; 10],
}

impl Table {
    /// Counts an answer that both sides gave.
    pub fn add(&mut self, row: Row, answer: u8) {
        // An answer that is none has been noticed where it was given.
        if let Some(count) = self.counts[row as usize].get_mut(usize::from(answer)) {
            *count += 1;
        }
    }

    /// How many calls were counted.
    pub fn calls(&self) -> u64 {
        self.counts.iter().flatten().sum()
    }

    /// What can be given and never was, and what was given and can't be.
    pub fn faults(&self) -> Vec<String> {
        let mut faults = Vec::new();
        for (row, possible) in POSSIBLE.iter().enumerate() {
            for (answer, &count) in self.counts[row].iter().enumerate() {
                let name = ROWS[row];
                match (possible.contains(&answer), count) {
                    (true, 0) => faults.push(format!("{name}: answer {answer} was never met")),
                    (false, 1..) => faults.push(format!("{name}: answer {answer} can't be given")),
                    _ => {}
                }
            }
        }
        faults
    }
}

impl fmt::Display for Table {
    fn fmt(&self, f: &mut fmt::Formatter<'_>) -> fmt::Result {
        write!(f, "{:<14}", "call \\ answer")?;
        for answer in 0..ANSWERS {
            write!(f, "{answer:>9}")?;
        }
        writeln!(f)?;
        for (row, counts) in self.counts.iter().enumerate() {
            write!(f, "{:<14}", ROWS[row])?;
            for (answer, &count) in counts.iter().enumerate() {
                if count == 0 && !POSSIBLE[row].contains(&answer) {
                    write!(f, "{:>9}", ".")?;
                } else {
                    write!(f, "{count:>9}")?;
                }
            }
            writeln!(f)?;
        }
        Ok(())
    }
}

#[cfg(test)]
mod tests {
    use super::*;

    #[test]
    fn what_is_missing_and_what_cannot_be_is_named() {
        let mut table = Table::default();
        for (row, possible) in POSSIBLE.iter().enumerate() {
            for &answer in possible.iter() {
                table.counts[row][answer] = 1;
            }
        }
        assert!(table.faults().is_empty());
        table.counts[2][7] = 0;
        table.add(Row::Retry, 9);
        assert_eq!(
            table.faults(),
            [
                "3 ShardAppend: answer 7 was never met",
                "retry: answer 9 can't be given"
            ]
        );
    }

    #[test]
    fn kinds() {
        assert_eq!(Row::of(&[0, 0, 6, 0]), Row::Response);
        assert_eq!(Row::of(&[0, 0, 6, 1]), Row::OtherKind);
        assert_eq!(Row::of(&[0, 0, 6]), Row::OtherKind);
    }
}
