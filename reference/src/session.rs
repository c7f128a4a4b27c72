//! 01, section "A client session".

use crate::answers::{Answer, Refusal, Sent};
use crate::frames::{Frame, Out, Submit};
use crate::lists::{Operation, Operations, Reads};
use crate::sizes::{CLIENTS, LAST_NUMBER, OUT_AREA, WINDOW};

/// A number the client waits for, with its operations.
#[derive(Clone, Copy, Debug, PartialEq, Eq)]
pub struct Outstanding {
    /// The number.
    pub number: u16,
    /// What was invoked under it.
    pub operations: Operations,
}

/// A session's state. The lift controller's program lends it for one call.
#[derive(Clone, Debug, Default, PartialEq, Eq)]
pub struct Session {
    started: bool,
    client: u8,
    pub(crate) next: u16,
    /// By rising number.
    pub(crate) outstanding: Vec<Outstanding>,
}

/// What a Response step gives back: a refusal hands over no reads.
#[derive(Clone, Copy, Debug, Default, PartialEq, Eq)]
pub struct Reply {
    /// 0, or the refusal's number.
    pub answer: u8,
    /// What the transaction's gets found.
    pub reads: Reads,
}

impl Session {
    /// The session of `client`. With a client out of range the empty state marked as not
    /// started (answer 11).
    pub fn start(client: u8) -> Self {
        if client >= CLIENTS {
            return Session::default();
        }
        Session {
            started: true,
            client,
            ..Session::default()
        }
    }

    /// Whether the start was taken.
    pub fn started(&self) -> bool {
        self.started
    }

    /// The client whose session this is; 0 if the start was refused.
    pub fn client(&self) -> u8 {
        self.client
    }

    /// The number the next invocation takes.
    pub fn next(&self) -> u16 {
        self.next
    }

    /// The outstanding numbers with their operations, rising.
    pub fn outstanding(&self) -> &[Outstanding] {
        &self.outstanding
    }

    /// The smallest outstanding number.
    pub fn smallest_outstanding(&self) -> Option<u16> {
        self.outstanding.first().map(|first| first.number)
    }

    /// Takes the next number for `operations`, makes it outstanding and sends Submit.
    pub fn invoke(&mut self, operations: &[Operation], out: &mut [u8]) -> Answer {
        self.take_next(operations, out).into()
    }

    /// Sends Submit again, with the kept operations and the present ack.
    pub fn retry(&self, number: u16, out: &mut [u8]) -> Answer {
        self.send_again(number, out).into()
    }

    /// Takes a Response: its number is outstanding no more.
    pub fn response(&mut self, frame: &[u8]) -> Reply {
        match self.take_response(frame) {
            Ok(reads) => Reply { answer: 0, reads },
            Err(refusal) => Reply {
                answer: refusal as u8,
                ..Reply::default()
            },
        }
    }

    fn take_next(&mut self, operations: &[Operation], out: &mut [u8]) -> Result<Sent, Refusal> {
        self.check_start(out)?;
        let operations = Operations::invoked(operations).ok_or(Refusal::Malformed)?;
        let number = self.next;
        if number > LAST_NUMBER {
            return Err(Refusal::NumbersUsedUp);
        }
        let smallest = self.smallest_outstanding().unwrap_or(number);
        if number - smallest >= WINDOW {
            return Err(Refusal::WindowFull);
        }
        self.next += 1;
        self.outstanding.push(Outstanding { number, operations });
        Ok(self.submit(self.outstanding.len() - 1, out))
    }

    fn send_again(&self, number: u16, out: &mut [u8]) -> Result<Sent, Refusal> {
        self.check_start(out)?;
        let at = self.position(number)?;
        Ok(self.submit(at, out))
    }

    fn take_response(&mut self, frame: &[u8]) -> Result<Reads, Refusal> {
        if !self.started {
            return Err(Refusal::NotStarted);
        }
        let response = match Frame::read(frame).ok_or(Refusal::Malformed)? {
            Frame::Response(response) if response.client == self.client => response,
            _ => return Err(Refusal::NotForReceiver),
        };
        let at = self.position(response.number)?;
        if !response
            .reads
            .answer(self.outstanding[at].operations.placed())
        {
            return Err(Refusal::DoesNotFit);
        }
        self.outstanding.remove(at);
        Ok(response.reads)
    }

    fn check_start(&self, out: &[u8]) -> Result<(), Refusal> {
        if !self.started || out.len() < OUT_AREA {
            return Err(Refusal::NotStarted);
        }
        Ok(())
    }

    fn position(&self, number: u16) -> Result<usize, Refusal> {
        self.outstanding
            .iter()
            .position(|outstanding| outstanding.number == number)
            .ok_or(Refusal::NotAwaited)
    }

    /// Sends the outstanding number at `at`; ack is the smallest outstanding number, the own
    /// one included.
    fn submit(&self, at: usize, out: &mut [u8]) -> Sent {
        let Outstanding { number, operations } = self.outstanding[at];
        let mut out = Out::new(out);
        out.send(Frame::Submit(Submit {
            client: self.client,
            number,
            ack: self.outstanding[0].number,
            operations,
        }));
        out.sent()
    }
}
