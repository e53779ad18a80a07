//! The paper's numbers for what the Rust answers. Every part takes them from here.

use crate::both::PARTED;
use nom::{
    Err, Needed,
    error::{Error, ErrorKind},
};
use std::fmt;

pub const DONE: u64 = 0;
pub const WAIT: u64 = 1;
pub const TOO_SHORT_OUT: u64 = 11;

#[derive(Clone, Copy, Debug, PartialEq, Eq)]
pub enum Answer {
    /// The paper's number, and what goes with it: bytes used or written, bytes missing, or a place.
    Paper { number: u64, at: u64 },
    /// What the Rust said where the paper has no number for it. No answer of the port equals it.
    Unlisted(&'static str, Option<ErrorKind>),
}

impl Answer {
    pub fn new(number: u64, at: u64) -> Self {
        Self::Paper { number, at }
    }

    pub fn done(count: usize) -> Self {
        Self::new(DONE, count as u64)
    }

    /// The number and what goes with it, for a list that has room for nothing else.
    pub fn listed(self) -> Result<(u64, u64), String> {
        match self {
            Self::Paper { number, at } => Ok((number, at)),
            Self::Unlisted(..) => Err(format!("the Rust answers {self}")),
        }
    }
}

impl fmt::Display for Answer {
    fn fmt(&self, out: &mut fmt::Formatter) -> fmt::Result {
        match self {
            Self::Paper { number: DONE, at } => write!(out, "0 (done), {at} bytes"),
            Self::Paper { number: WAIT, at } => write!(out, "1 (wait), {at} missing"),
            Self::Paper { number: PARTED, .. } => {
                write!(out, "the crate's safe form does otherwise")
            }
            Self::Paper { number, at } => write!(out, "{number} at {at}"),
            Self::Unlisted(what, Some(kind)) => write!(out, "{what} {kind:?}, not in the table"),
            Self::Unlisted(what, None) => write!(out, "{what}, not in the table"),
        }
    }
}

/// The answer to a call that left `rest` of its input.
pub fn accepted(input: &[u8], rest: &[u8]) -> Answer {
    match offset(input, rest) {
        Some(used) => Answer::done(used),
        None => Answer::Unlisted("a rest outside the input", None),
    }
}

/// The answer that stands for an error of the Rust.
pub fn refused(input: &[u8], error: Err<Error<&[u8]>>) -> Answer {
    match error {
        Err::Incomplete(Needed::Size(missing)) => Answer::new(WAIT, missing.get() as u64),
        Err::Incomplete(Needed::Unknown) => Answer::Unlisted("Incomplete without a count", None),
        Err::Error(e) => placed(input, &e, "Error", number_of_error(e.code)),
        Err::Failure(e) => placed(input, &e, "Failure", number_of_failure(e.code)),
    }
}

fn number_of_error(kind: ErrorKind) -> Option<u64> {
    match kind {
        ErrorKind::Eof => Some(3),
        ErrorKind::Alt => Some(4),
        ErrorKind::TooLarge => Some(7),
        ErrorKind::Tag => Some(8),
        _ => None,
    }
}

fn number_of_failure(kind: ErrorKind) -> Option<u64> {
    match kind {
        ErrorKind::TooLarge => Some(2),
        ErrorKind::Verify => Some(5),
        ErrorKind::NoneOf => Some(6),
        ErrorKind::Tag => Some(9),
        _ => None,
    }
}

fn placed(input: &[u8], error: &Error<&[u8]>, what: &'static str, number: Option<u64>) -> Answer {
    match (number, offset(input, error.input)) {
        (Some(number), Some(place)) => Answer::new(number, place as u64),
        (None, _) => Answer::Unlisted(what, Some(error.code)),
        (_, None) => Answer::Unlisted("a place outside the input", Some(error.code)),
    }
}

/// Where `part` starts in `whole`. By address, since a part need not reach to the whole's end.
fn offset(whole: &[u8], part: &[u8]) -> Option<usize> {
    let start = part.as_ptr().addr().checked_sub(whole.as_ptr().addr())?;
    (start + part.len() <= whole.len()).then_some(start)
}
