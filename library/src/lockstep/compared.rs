//! A board, shard group or session of the library, held to the second program's after every call.

use reference::answers::Answer;
use reference::lists::Operation;
use reference::{board, session, shard};

use super::expected;
use super::lent::Areas;
use crate::ffi::{self, Operations, Sent, Stepped};
use crate::memory::{Memory, Record};
use crate::{Board, Session, Shard};

/// The library's board, and the record that it should have.
pub struct ComparedBoard {
    library: Board,
    expected: Memory<ffi::Board>,
    setup: (u8, u8, u8),
}

/// The library's shard group, and the record that it should have.
pub struct ComparedShard {
    library: Shard,
    expected: Memory<ffi::Shard>,
    setup: (u8, u8),
}

/// The library's session, and the record that it should have.
pub struct ComparedSession {
    library: Session,
    expected: Memory<ffi::Session>,
    setup: u8,
}

impl ComparedBoard {
    /// Starts both sides, the library in `memory`.
    pub fn start(
        memory: Memory<ffi::Board>,
        setup: (u8, u8, u8),
    ) -> Result<(Self, board::Board), String> {
        let (n, m, own) = setup;
        let second = board::Board::start(n, m, own);
        let (library, answer) = Board::start_in(memory, n, m, own);
        let expected = Memory::zeroed();
        let mut compared = ComparedBoard {
            library,
            expected,
            setup,
        };
        start_answer(answer, second.started())?;
        compared.compare(&second)?;
        Ok((compared, second))
    }

    /// Lets both sides take a frame, and gives what both answer.
    pub fn step(
        &mut self,
        second: &mut board::Board,
        frame: &[u8],
        areas: &mut Areas,
    ) -> Result<Answer, String> {
        let (area, second_area) = areas.both();
        let stepped = self.library.step(frame, area);
        let answer = second.step(frame, second_area);
        same_step(&stepped, &answer)?;
        areas.compare()?;
        self.compare(second)?;
        Ok(answer)
    }

    /// Holds every field of the record to the second program's state.
    pub fn compare(&mut self, second: &board::Board) -> Result<(), String> {
        expected::board(self.expected.record_mut(), second, self.setup);
        same_record(self.library.memory(), &self.expected)
    }

    /// The library's side.
    pub fn library(&self) -> &Board {
        &self.library
    }
}

impl ComparedShard {
    /// Starts both sides, the library in `memory`.
    pub fn start(
        memory: Memory<ffi::Shard>,
        setup: (u8, u8),
    ) -> Result<(Self, shard::Shard), String> {
        let (m, own) = setup;
        let second = shard::Shard::start(m, own);
        let (library, answer) = Shard::start_in(memory, m, own);
        let expected = Memory::zeroed();
        let mut compared = ComparedShard {
            library,
            expected,
            setup,
        };
        start_answer(answer, second.started())?;
        compared.compare(&second)?;
        Ok((compared, second))
    }

    /// Lets both sides take a frame, and gives what both answer.
    pub fn step(
        &mut self,
        second: &mut shard::Shard,
        frame: &[u8],
        areas: &mut Areas,
    ) -> Result<Answer, String> {
        let (area, second_area) = areas.both();
        let stepped = self.library.step(frame, area);
        let answer = second.step(frame, second_area);
        same_step(&stepped, &answer)?;
        areas.compare()?;
        self.compare(second)?;
        Ok(answer)
    }

    /// Holds every field of the record to the second program's state.
    pub fn compare(&mut self, second: &shard::Shard) -> Result<(), String> {
        expected::shard(self.expected.record_mut(), second, self.setup);
        same_record(self.library.memory(), &self.expected)
    }

    /// The library's side.
    pub fn library(&self) -> &Shard {
        &self.library
    }
}

impl ComparedSession {
    /// Starts both sides, the library in `memory`.
    pub fn start(
        memory: Memory<ffi::Session>,
        client: u8,
    ) -> Result<(Self, session::Session), String> {
        let second = session::Session::start(client);
        let (library, answer) = Session::start_in(memory, client);
        let expected = Memory::zeroed();
        let mut compared = ComparedSession {
            library,
            expected,
            setup: client,
        };
        start_answer(answer, second.started())?;
        compared.compare(&second)?;
        Ok((compared, second))
    }

    /// Lets both sides invoke. A list whose count is over 4 has no more than four slots, so the
    /// second program is handed a fifth operation in its place.
    pub fn invoke(
        &mut self,
        second: &mut session::Session,
        operations: Operations,
        areas: &mut Areas,
    ) -> Result<Answer, String> {
        let next = second.next();
        let (area, second_area) = areas.both();
        let sent = self.library.invoke(operations, area);
        let answer = second.invoke(&second_list(operations), second_area);
        self.same_sent(&sent, &answer, next)?;
        areas.compare()?;
        self.compare(second)?;
        Ok(answer)
    }

    /// Lets both sides retry.
    pub fn retry(
        &mut self,
        second: &mut session::Session,
        number: u16,
        areas: &mut Areas,
    ) -> Result<Answer, String> {
        let (area, second_area) = areas.both();
        let sent = self.library.retry(number, area);
        let answer = second.retry(number, second_area);
        self.same_sent(&sent, &answer, number)?;
        areas.compare()?;
        self.compare(second)?;
        Ok(answer)
    }

    /// Lets both sides take a Response.
    pub fn response(
        &mut self,
        second: &mut session::Session,
        frame: &[u8],
    ) -> Result<Answer, String> {
        let reply = self.library.response(frame);
        let second_reply = second.response(frame);
        let expected = expected::reply(&second_reply, frame);
        if reply != expected {
            return Err(format!("the reply is {reply:?}, not {expected:?}"));
        }
        self.compare(second)?;
        Ok(Answer {
            answer: reply.answer,
            ..Answer::default()
        })
    }

    /// Holds every field of the record to the second program's state.
    pub fn compare(&mut self, second: &session::Session) -> Result<(), String> {
        expected::session(self.expected.record_mut(), second, self.setup);
        same_record(self.library.memory(), &self.expected)
    }

    /// The library's side.
    pub fn library(&self) -> &Session {
        &self.library
    }

    fn same_sent(&self, sent: &Sent, answer: &Answer, number: u16) -> Result<(), String> {
        let expected = Sent {
            answer: answer.answer,
            number: if answer.answer == 0 { number } else { 0 },
            frames: answer.frames as u8,
            bytes: answer.bytes,
        };
        if *sent != expected {
            return Err(format!("the answer is {sent:?}, not {expected:?}"));
        }
        Ok(())
    }
}

/// The list as the second program takes it.
fn second_list(operations: Operations) -> Vec<Operation> {
    let slots = operations.items.iter().map(|asked| Operation {
        action: asked.code,
        key: asked.key,
        value: asked.value,
    });
    let fifth = std::iter::once(Operation::get(0));
    slots.chain(fifth).take(operations.count.into()).collect()
}

fn start_answer(answer: u8, started: bool) -> Result<(), String> {
    let expected = if started { 0 } else { 11 };
    if answer != expected {
        return Err(format!("the start is answered {answer}, not {expected}"));
    }
    Ok(())
}

fn same_step(stepped: &Stepped, answer: &Answer) -> Result<(), String> {
    let expected = Stepped {
        answer: answer.answer,
        frames: answer.frames as u8,
        bytes: answer.bytes,
    };
    if *stepped != expected {
        return Err(format!("the answer is {stepped:?}, not {expected:?}"));
    }
    Ok(())
}

fn same_record<R: Record>(library: &Memory<R>, expected: &Memory<R>) -> Result<(), String> {
    library.difference(expected).map_or(Ok(()), Err)
}

#[cfg(test)]
mod tests {
    use reference::driver::random::Random;
    use reference::frames::{Executed, Forward, Frame, Submit};
    use reference::lists::Read;

    use super::*;
    use crate::lockstep::lent::any_memory;

    fn forward(log_number: u8, ack: u16) -> Vec<u8> {
        let operations = [Operation::get(5), Operation::put(4, 7)];
        let submit = Submit {
            client: 3,
            number: log_number.into(),
            ack,
            operations: operations.into_iter().collect(),
        };
        Frame::Forward(Forward { log_number, submit }).to_bytes()
    }

    fn executed(log_number: u8) -> Vec<u8> {
        let read = Read {
            place: 0,
            value: Some(9),
        };
        let reads = [read].into_iter().collect();
        Frame::Executed(Executed { log_number, reads }).to_bytes()
    }

    /// What is found when the second program alone takes one frame more.
    fn found(frames: &[Vec<u8>], more: Vec<u8>) -> String {
        let random = &mut Random::new(1, 1);
        let setup = (3, 2, 2);
        let (mut board, mut second) = ComparedBoard::start(any_memory(random), setup).unwrap();
        let mut areas = Areas::new();
        for frame in frames {
            areas.renew(random, 68);
            let answer = board.step(&mut second, frame, &mut areas).unwrap();
            assert_eq!(answer.answer, 0);
        }
        assert_eq!(second.step(&more, &mut [0; 68]).answer, 0);
        board.compare(&second).unwrap_err()
    }

    #[test]
    fn a_field_that_differs_is_named() {
        let entry = found(&[], forward(0, 0));
        assert_eq!(entry, "Board.log[0].client is 0, not 3");
        let held = [forward(0, 0), forward(1, 0)];
        let floor = found(&held, forward(1, 1));
        assert_eq!(floor, "Board.floor[3] is 0, not 1");
        let exe = found(&held, executed(1));
        assert_eq!(exe, "Board.log[1].exe is 0, not 1");
    }

    #[test]
    fn answers_and_areas_that_differ_are_told() {
        let random = &mut Random::new(2, 1);
        let (mut shard, _) = ComparedShard::start(any_memory(random), (2, 1)).unwrap();
        let mut other = shard::Shard::start(2, 2);
        let mut areas = Areas::new();
        areas.renew(random, 68);
        // sn 1 for shard 1 is nothing for shard 2.
        let append = b"\x0f\0\x03\0\x01\0\0\x01\0\x01\0\x01\x04\x07\0\0\0";
        let fault = shard.step(&mut other, append, &mut areas).unwrap_err();
        assert!(
            fault.starts_with("the answer is Stepped { answer: 0"),
            "{fault}"
        );

        areas.renew(random, 70);
        areas.both().0[69] ^= 1;
        let fault = areas.compare().unwrap_err();
        assert!(
            fault.starts_with("byte 69 of the out area of 70 bytes"),
            "{fault}"
        );
    }

    #[test]
    fn a_session_that_differs_is_told() {
        let random = &mut Random::new(3, 1);
        let (mut session, mut second) = ComparedSession::start(any_memory(random), 7).unwrap();
        let mut areas = Areas::new();
        areas.renew(random, 80);
        let list = Operations::of([crate::lists::Operation::Get(1)]);
        session.invoke(&mut second, list, &mut areas).unwrap();
        second.invoke(&[Operation::get(2)], &mut [0; 68]);
        let fault = session.compare(&second).unwrap_err();
        assert_eq!(fault, "Session.window.next is 1, not 2");
    }
}
