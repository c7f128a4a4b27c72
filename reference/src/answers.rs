//! 01, section "Refusal numbers".

/// Why a call was refused; the discriminant is the paper's number.
#[derive(Clone, Copy, Debug, PartialEq, Eq)]
#[repr(u8)]
pub enum Refusal {
    /// The frame, or an invoked operation list, breaks a rule of "Sizes" or "Frames".
    Malformed = 1,
    /// The kind, shard or client isn't for this receiver.
    NotForReceiver = 2,
    /// The number is below the client's floor.
    BelowFloor = 3,
    /// Number, log number or sn is too far ahead; a later copy serves.
    TooEarly = 4,
    /// A new number, and the log has 256 entries.
    LogFull = 5,
    /// The log number isn't in the log.
    NotInLog = 6,
    /// Already run, struck, EXE or answered: nobody waits for it.
    NotAwaited = 7,
    /// It contradicts what is held.
    DoesNotFit = 8,
    /// The client's window is used up until its smallest outstanding number is answered.
    WindowFull = 9,
    /// The next number would be 65,535.
    NumbersUsedUp = 10,
    /// Out of range at start, not started, or an out area under 68 bytes.
    NotStarted = 11,
}

/// The frames of a step that was taken.
#[derive(Clone, Copy, Debug, Default, PartialEq, Eq)]
pub struct Sent {
    /// How many frames stand in the out area.
    pub frames: usize,
    /// How many bytes they have together.
    pub bytes: usize,
}

/// What a call gives back: 0 and what was sent, or a refusal's number and counts 0.
#[derive(Clone, Copy, Debug, Default, PartialEq, Eq)]
pub struct Answer {
    /// 0, or the refusal's number.
    pub answer: u8,
    /// Frames sent.
    pub frames: usize,
    /// Bytes written.
    pub bytes: usize,
}

impl From<Refusal> for Answer {
    fn from(refusal: Refusal) -> Self {
        Answer {
            answer: refusal as u8,
            ..Answer::default()
        }
    }
}

impl From<Result<Sent, Refusal>> for Answer {
    fn from(step: Result<Sent, Refusal>) -> Self {
        match step {
            Ok(Sent { frames, bytes }) => Answer {
                answer: 0,
                frames,
                bytes,
            },
            Err(refusal) => refusal.into(),
        }
    }
}
