//! The input of the bench and the trace: n, m, then records, read in large pieces.

use std::io::{self, Read};

use crate::sizes::LONGEST;

/// Bytes asked of the source at a time.
const PIECE: usize = 1 << 18;
/// An address and the longest frame.
const LONGEST_RECORD: usize = 1 + 2 + LONGEST;

/// What comes next in the input.
#[derive(Debug, PartialEq, Eq)]
pub enum Record<'a> {
    /// An address byte and a frame, its length in front.
    Frame {
        /// Whom the frame is for.
        address: u8,
        /// The frame.
        frame: &'a [u8],
    },
    /// The input ends within a record, or a length is over 36.
    Cut,
    /// The input ends behind a record.
    End,
}

/// An input that is read record by record.
pub struct Records<R> {
    source: R,
    buffer: Vec<u8>,
    /// Where the unread part of the buffer starts.
    start: usize,
    /// Where it ends.
    end: usize,
}

impl<R: Read> Records<R> {
    /// The input that `source` gives.
    pub fn new(source: R) -> Self {
        Records {
            source,
            buffer: vec![0; PIECE],
            start: 0,
            end: 0,
        }
    }

    /// The two bytes in front of the records, as far as they are there.
    pub fn setup(&mut self) -> io::Result<Option<(u8, u8)>> {
        match *self.ahead(2)? {
            [n, m, ..] => {
                self.start += 2;
                Ok(Some((n, m)))
            }
            _ => Ok(None),
        }
    }

    /// The next record.
    pub fn next_record(&mut self) -> io::Result<Record<'_>> {
        let ahead = self.ahead(LONGEST_RECORD)?;
        let (address, length) = match *ahead {
            [] => return Ok(Record::End),
            [address, low, high, ..] => (address, usize::from(u16::from_le_bytes([low, high]))),
            _ => return Ok(Record::Cut),
        };
        let end = 3 + length;
        if length > LONGEST || ahead.len() < end {
            return Ok(Record::Cut);
        }
        let start = self.start;
        self.start += end;
        Ok(Record::Frame {
            address,
            frame: &self.buffer[start + 1..start + end],
        })
    }

    /// The unread bytes in the buffer: at least `wanted`, or all that are left.
    fn ahead(&mut self, wanted: usize) -> io::Result<&[u8]> {
        if self.end - self.start < wanted {
            self.refill(wanted)?;
        }
        Ok(&self.buffer[self.start..self.end])
    }

    fn refill(&mut self, wanted: usize) -> io::Result<()> {
        self.buffer.copy_within(self.start..self.end, 0);
        self.end -= self.start;
        self.start = 0;
        while self.end < wanted {
            match self.source.read(&mut self.buffer[self.end..]) {
                Ok(0) => break,
                Ok(count) => self.end += count,
                Err(error) if error.kind() == io::ErrorKind::Interrupted => {}
                Err(error) => return Err(error),
            }
        }
        Ok(())
    }
}

#[cfg(test)]
mod tests {
    use super::*;

    /// Gives one byte at a time, as a slow pipe would.
    struct Dripping<'a>(&'a [u8]);

    impl Read for Dripping<'_> {
        fn read(&mut self, into: &mut [u8]) -> io::Result<usize> {
            self.0.read(&mut into[..1])
        }
    }

    fn all<R: Read>(source: R) -> Vec<(u8, Vec<u8>)> {
        let mut records = Records::new(source);
        let mut found = Vec::new();
        assert_eq!(records.setup().unwrap(), Some((2, 1)));
        while let Record::Frame { address, frame } = records.next_record().unwrap() {
            found.push((address, frame.to_vec()));
        }
        found
    }

    #[test]
    fn records_are_whole_across_pieces() {
        let mut input = vec![2, 1];
        for index in 0..40_000usize {
            let length = index % (LONGEST + 1);
            input.extend([index as u8, length as u8, 0]);
            input.extend((0..length).map(|at| (index + at) as u8));
        }
        assert!(input.len() > 3 * PIECE);
        let found = all(&input[..]);
        assert_eq!(found.len(), 40_000);
        for (index, (address, frame)) in found.iter().enumerate() {
            assert_eq!(*address, index as u8);
            assert_eq!(frame.len(), 2 + index % (LONGEST + 1));
            assert!((0..)
                .zip(&frame[2..])
                .all(|(at, &byte)| byte == (index + at) as u8));
        }
        assert_eq!(all(Dripping(&input)), found);
    }
}
