//! Reading: every rule of "Sizes" and "Frames" that a frame can break is refusal 1.

use super::{ExecNotif, Executed, Forward, Frame, Response, ShardAppend, Submit};
use crate::lists::{List, Operation, Placed, Read};
use crate::sizes::{CLIENTS, LAST_NUMBER, LOG, OPERATIONS, SHARDS, WINDOW};

impl Frame {
    /// The frame that `bytes` are, or none where they break a rule.
    pub fn read(bytes: &[u8]) -> Option<Frame> {
        let mut fields = Fields(bytes);
        let length = fields.u16()?;
        if usize::from(length) != fields.0.len() {
            return None;
        }
        let frame = match fields.u16()? {
            1 => Frame::Submit(fields.submit()?),
            2 => Frame::Forward(Forward {
                log_number: fields.log_number()?,
                submit: fields.submit()?,
            }),
            3 => Frame::ShardAppend(ShardAppend {
                shard: fields.shard()?,
                log_number: fields.log_number()?,
                sn: fields.sn()?,
                operations: fields.rising(1, Fields::placed, |placed| placed.place)?,
            }),
            4 => Frame::ExecNotif(ExecNotif {
                shard: fields.shard()?,
                log_number: fields.log_number()?,
                reads: fields.rising(0, Fields::read, |read| read.place)?,
            }),
            5 => Frame::Executed(Executed {
                log_number: fields.log_number()?,
                reads: fields.rising(0, Fields::read, |read| read.place)?,
            }),
            6 => Frame::Response(Response {
                client: fields.client()?,
                number: fields.number()?,
                reads: fields.rising(0, Fields::read, |read| read.place)?,
            }),
            _ => return None,
        };
        fields.0.is_empty().then_some(frame)
    }
}

/// The bytes of a frame that aren't read yet.
struct Fields<'a>(&'a [u8]);

impl Fields<'_> {
    fn bytes<const N: usize>(&mut self) -> Option<[u8; N]> {
        let (bytes, rest) = self.0.split_first_chunk()?;
        self.0 = rest;
        Some(*bytes)
    }

    fn u8(&mut self) -> Option<u8> {
        self.bytes().map(u8::from_le_bytes)
    }

    fn u16(&mut self) -> Option<u16> {
        self.bytes().map(u16::from_le_bytes)
    }

    fn u32(&mut self) -> Option<u32> {
        self.bytes().map(u32::from_le_bytes)
    }

    fn client(&mut self) -> Option<u8> {
        self.u8().filter(|&client| client < CLIENTS)
    }

    fn number(&mut self) -> Option<u16> {
        self.u16().filter(|&number| number <= LAST_NUMBER)
    }

    /// Log numbers are 0..255: the two-byte field must fit one byte.
    fn log_number(&mut self) -> Option<u8> {
        self.u16().and_then(|number| u8::try_from(number).ok())
    }

    fn shard(&mut self) -> Option<u8> {
        self.u8().filter(|shard| SHARDS.contains(shard))
    }

    fn sn(&mut self) -> Option<u16> {
        self.u16()
            .filter(|&sn| (1..=LOG).contains(&usize::from(sn)))
    }

    fn place(&mut self) -> Option<u8> {
        self.u8().filter(|&place| usize::from(place) < OPERATIONS)
    }

    fn submit(&mut self) -> Option<Submit> {
        let client = self.client()?;
        let number = self.number()?;
        let ack = self.u16()?;
        if ack > number || number - ack >= WINDOW {
            return None;
        }
        Some(Submit {
            client,
            number,
            ack,
            operations: self.list(1, Fields::operation)?,
        })
    }

    fn operation(&mut self) -> Option<Operation> {
        let operation = Operation {
            action: self.u8()?,
            key: self.u8()?,
            value: self.u32()?,
        };
        operation.keeps_rules().then_some(operation)
    }

    fn placed(&mut self) -> Option<Placed> {
        Some(Placed {
            place: self.place()?,
            operation: self.operation()?,
        })
    }

    fn read(&mut self) -> Option<Read> {
        let place = self.place()?;
        let value = match (self.u8()?, self.u32()?) {
            (0, 0) => None,
            (1, value) => Some(value),
            _ => return None,
        };
        Some(Read { place, value })
    }

    /// A one-byte count, `least`..4, and as many items.
    fn list<T: Copy + Default>(
        &mut self,
        least: usize,
        item: impl Fn(&mut Self) -> Option<T>,
    ) -> Option<List<T>> {
        let count = usize::from(self.u8()?);
        if !(least..=OPERATIONS).contains(&count) {
            return None;
        }
        (0..count).map(|_| item(self)).collect()
    }

    /// A list whose places rise strictly.
    fn rising<T: Copy + Default>(
        &mut self,
        least: usize,
        item: impl Fn(&mut Self) -> Option<T>,
        place: impl Fn(&T) -> u8,
    ) -> Option<List<T>> {
        let list = self.list(least, item)?;
        list.windows(2)
            .all(|pair| place(&pair[0]) < place(&pair[1]))
            .then_some(list)
    }
}
