//! Writing: frames stand back to back from the first byte of the out area.

use super::{Frame, Submit};
use crate::answers::Sent;
use crate::lists::{Operation, Read};
use crate::sizes::LONGEST;

/// An out area that is being filled. The caller has checked that it has 68 bytes.
pub struct Out<'a> {
    area: &'a mut [u8],
    sent: Sent,
}

impl<'a> Out<'a> {
    /// An out area nothing is written to yet.
    pub fn new(area: &'a mut [u8]) -> Self {
        Out {
            area,
            sent: Sent::default(),
        }
    }

    /// What was sent.
    pub fn sent(self) -> Sent {
        self.sent
    }

    /// Writes one frame behind those already sent.
    pub fn send(&mut self, frame: Frame) {
        let length_at = self.sent.bytes;
        let behind_length = length_at + 2;
        self.sent.bytes = behind_length;
        self.put(&frame.kind().to_le_bytes());
        self.body(&frame);
        let length = (self.sent.bytes - behind_length) as u16;
        self.area[length_at..behind_length].copy_from_slice(&length.to_le_bytes());
        self.sent.frames += 1;
    }

    fn body(&mut self, frame: &Frame) {
        match frame {
            Frame::Submit(submit) => self.submit(submit),
            Frame::Forward(forward) => {
                self.log_number(forward.log_number);
                self.submit(&forward.submit);
            }
            Frame::ShardAppend(append) => {
                self.put(&[append.shard]);
                self.log_number(append.log_number);
                self.put(&append.sn.to_le_bytes());
                self.put(&[append.operations.len() as u8]);
                for placed in append.operations.iter() {
                    self.put(&[placed.place]);
                    self.operation(&placed.operation);
                }
            }
            Frame::ExecNotif(notif) => {
                self.put(&[notif.shard]);
                self.log_number(notif.log_number);
                self.reads(&notif.reads);
            }
            Frame::Executed(executed) => {
                self.log_number(executed.log_number);
                self.reads(&executed.reads);
            }
            Frame::Response(response) => {
                self.put(&[response.client]);
                self.put(&response.number.to_le_bytes());
                self.reads(&response.reads);
            }
        }
    }

    fn put(&mut self, bytes: &[u8]) {
        let end = self.sent.bytes + bytes.len();
        self.area[self.sent.bytes..end].copy_from_slice(bytes);
        self.sent.bytes = end;
    }

    fn log_number(&mut self, log_number: u8) {
        self.put(&u16::from(log_number).to_le_bytes());
    }

    fn submit(&mut self, submit: &Submit) {
        self.put(&[submit.client]);
        self.put(&submit.number.to_le_bytes());
        self.put(&submit.ack.to_le_bytes());
        self.put(&[submit.operations.len() as u8]);
        for operation in submit.operations.iter() {
            self.operation(operation);
        }
    }

    fn operation(&mut self, operation: &Operation) {
        self.put(&[operation.action, operation.key]);
        self.put(&operation.value.to_le_bytes());
    }

    fn reads(&mut self, reads: &[Read]) {
        self.put(&[reads.len() as u8]);
        for read in reads {
            self.put(&[read.place, u8::from(read.value.is_some())]);
            self.put(&read.value.unwrap_or(0).to_le_bytes());
        }
    }
}

impl Frame {
    /// The frame's bytes.
    pub fn to_bytes(self) -> Vec<u8> {
        let mut area = [0; 2 + LONGEST];
        let mut out = Out::new(&mut area);
        out.send(self);
        let bytes = out.sent().bytes;
        area[..bytes].to_vec()
    }
}
