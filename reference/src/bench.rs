//! 01, section "The bench program".

use std::io::{self, BufWriter, Read, Write};

use crate::answers::Answer;
use crate::board::{Board, Status};
use crate::records::{Record, Records};
use crate::register::Register;
use crate::sizes::OUT_AREA;

/// Bytes handed to the output at a time.
const PIECE: usize = 1 << 18;

/// What delivers a record's frame; the driver's own tests put a wrong one in its place.
pub type Deliver = fn(&mut Register, u8, &[u8], &mut [u8]) -> Answer;

/// The bench's output for `input`.
pub fn bench(input: &[u8]) -> Vec<u8> {
    bench_with(Register::deliver, input)
}

/// As [`bench`], with frames delivered by `deliver`.
pub fn bench_with(deliver: Deliver, input: &[u8]) -> Vec<u8> {
    let mut output = Vec::new();
    write_run(deliver, input, &mut output).expect("memory can be read and written");
    output
}

/// Reads `input` to its end and writes the bench's output, both in large pieces.
pub fn run(input: impl Read, output: impl Write) -> io::Result<()> {
    let mut output = BufWriter::with_capacity(PIECE, output);
    write_run(Register::deliver, input, &mut output)?;
    output.flush()
}

fn write_run(deliver: Deliver, input: impl Read, output: &mut impl Write) -> io::Result<()> {
    let mut records = Records::new(input);
    let setup = records.setup()?;
    let Some((n, m, mut register)) = setup.and_then(|(n, m)| Some((n, m, Register::start(n, m)?)))
    else {
        return output.write_all(b"setup 11\n");
    };
    writeln!(output, "chain {n} shards {m}")?;
    let mut out = [0; OUT_AREA];
    let mut index = 0;
    loop {
        match records.next_record()? {
            Record::Frame { address, frame } => {
                let answer = deliver(&mut register, address, frame, &mut out);
                output.write_all(DLine::new(index, &answer).bytes())?;
                index += 1;
            }
            Record::Cut => {
                output.write_all(b"cut\n")?;
                break;
            }
            Record::End => break,
        }
    }
    for (own, board) in (1..).zip(&register.boards) {
        write_log(own, board, output)?;
    }
    Ok(())
}

fn write_log(own: u8, board: &Board, output: &mut impl Write) -> io::Result<()> {
    for (log_number, entry) in board.log().iter().enumerate() {
        let (client, number) = (entry.client, entry.number);
        let status = status_word(entry.status);
        writeln!(output, "L{own} {log_number} {client} {number} {status}")?;
    }
    Ok(())
}

/// `PRE` or `EXE`.
pub fn status_word(status: Status) -> &'static str {
    match status {
        Status::Pre => "PRE",
        Status::Exe => "EXE",
    }
}

/// A d line, filled from its end. Formatting is most of a refused record's cost, so this one
/// line isn't left to `write!`.
struct DLine {
    line: [u8; Self::LONGEST],
    start: usize,
}

impl DLine {
    /// `d`, an index of at most 20 digits, an answer of 3, frames of 20, spaces, newline.
    const LONGEST: usize = 1 + 20 + 1 + 3 + 1 + 20 + 1;

    fn new(index: u64, answer: &Answer) -> Self {
        let mut line = DLine {
            line: [0; Self::LONGEST],
            start: Self::LONGEST,
        };
        line.prepend(b'\n');
        line.prepend_decimal(answer.frames as u64);
        line.prepend(b' ');
        line.prepend_decimal(u64::from(answer.answer));
        line.prepend(b' ');
        line.prepend_decimal(index);
        line.prepend(b'd');
        line
    }

    fn bytes(&self) -> &[u8] {
        &self.line[self.start..]
    }

    fn prepend(&mut self, byte: u8) {
        self.start -= 1;
        self.line[self.start] = byte;
    }

    fn prepend_decimal(&mut self, mut number: u64) {
        loop {
            self.prepend(b'0' + (number % 10) as u8);
            number /= 10;
            if number == 0 {
                break;
            }
        }
    }
}

#[cfg(test)]
mod tests {
    use super::*;

    #[test]
    fn d_lines() {
        let line = |index, answer, frames| {
            let answer = Answer {
                answer,
                frames,
                bytes: 0,
            };
            String::from_utf8(DLine::new(index, &answer).bytes().to_vec()).unwrap()
        };
        assert_eq!(line(0, 0, 0), "d0 0 0\n");
        assert_eq!(line(10, 11, 4), "d10 11 4\n");
        assert_eq!(
            line(u64::MAX, u8::MAX, usize::MAX),
            format!("d{} 255 {}\n", u64::MAX, usize::MAX)
        );
    }
}
