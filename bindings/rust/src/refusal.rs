//! What a call answers where it is not done.

use core::{error::Error, fmt};

/// A refusal's number, and the place or the record that it speaks of. Nothing that was lent has changed.
///
/// ```
/// use muleflurry::{lent, Refusal};
///
/// let refusal = lent::decode_varint(&[0xf0, 0x80]).unwrap_err();
/// assert_eq!(refusal, Refusal { number: Refusal::TOO_SOON, place: 2 });
/// assert_eq!(refusal.to_string(), "refused: 3 at 2: the bytes end too soon");
/// ```
#[derive(Clone, Copy, Debug, PartialEq, Eq, Hash)]
pub struct Refusal {
    pub number: u64,
    pub place: usize,
}

impl Refusal {
    pub const DONE: u64 = 0;
    pub const WAIT: u64 = 1;
    pub const OVERSIZE: u64 = 2;
    pub const TOO_SOON: u64 = 3;
    pub const UNKNOWN: u64 = 4;
    pub const ABORTED: u64 = 5;
    pub const AGENTS: u64 = 6;
    pub const TOO_LARGE: u64 = 7;
    pub const NO_TYPE: u64 = 8;
    pub const MET_TWICE: u64 = 9;
    pub const TABLE_FULL: u64 = 10;
    pub const NO_ROOM: u64 = 11;
    pub const OVER_LIMIT: u64 = 12;
    pub const SIZE_TOO_SMALL: u64 = 13;
    pub const NOT_WRITABLE: u64 = 14;
    pub const NOT_TEXT: u64 = 15;
    pub const OUTSIDE: u64 = 16;
    pub const TOO_MANY: u64 = 17;
    pub const UNKNOWN_ACTION: u64 = 18;
    pub const NOT_FITTING: u64 = 19;

    /// What the number means.
    pub const fn text(&self) -> &'static str {
        refusal_text(self.number)
    }
}

/// What a number of refusal means: the same words in every language that this library is called from.
pub const fn refusal_text(number: u64) -> &'static str {
    match number {
        Refusal::DONE => "done",
        Refusal::WAIT => "the frame is not whole yet",
        Refusal::OVERSIZE => "the frame's length is over the limit",
        Refusal::TOO_SOON => "the bytes end too soon",
        Refusal::UNKNOWN => "the frame's type or flags are unknown",
        Refusal::ABORTED => "the frame has ABORT set",
        Refusal::AGENTS => "the frame is one that the other side sends",
        Refusal::TOO_LARGE => "a number is over 64 bits",
        Refusal::NO_TYPE => "a data type is none of 0 to 9",
        Refusal::MET_TWICE => "a key is met twice",
        Refusal::TABLE_FULL => "a table has no room for a record",
        Refusal::NO_ROOM => "the output is too short",
        Refusal::OVER_LIMIT => "the frame to be written is over the limit",
        Refusal::SIZE_TOO_SMALL => "a frame size is under 256",
        Refusal::NOT_WRITABLE => "a record or the frame's metadata is not writable",
        Refusal::NOT_TEXT => "a text is not UTF-8",
        Refusal::OUTSIDE => "a record points outside its buffer, or a count outside its table",
        Refusal::TOO_MANY => "a message has more than 255 arguments",
        Refusal::UNKNOWN_ACTION => "an action, its argument count or its scope is unknown",
        Refusal::NOT_FITTING => "a number's tenth byte is above 15",
        _ => "no such number",
    }
}

impl fmt::Display for Refusal {
    fn fmt(&self, out: &mut fmt::Formatter<'_>) -> fmt::Result {
        write!(out, "refused: {} at {}: {}", self.number, self.place, self.text())
    }
}

impl Error for Refusal {}

/// What a reader of frames answers in place of a frame.
#[derive(Clone, Copy, Debug, PartialEq, Eq, Hash)]
pub enum Answer {
    /// The frame is not whole yet. Call again with the same bytes and so many more behind them; where the four length bytes were
    /// not all there, it may then wait once more, for the rest.
    Wait {
        missing: usize,
    },
    Refused(Refusal),
}

impl fmt::Display for Answer {
    fn fmt(&self, out: &mut fmt::Formatter<'_>) -> fmt::Result {
        match self {
            Self::Wait { missing } => write!(out, "not whole: bytes missing: {missing}"),
            Self::Refused(refusal) => refusal.fmt(out),
        }
    }
}

impl Error for Answer {}

impl From<Refusal> for Answer {
    fn from(refusal: Refusal) -> Self {
        Self::Refused(refusal)
    }
}
