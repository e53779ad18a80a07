//! The frames of a stream of bytes.

use crate::{
    owned::{Frame, Tables},
    Answer, Refusal,
};
use alloc::vec::Vec;
use core::fmt;
use std::io::{self, Read};

/// The frames that `reader` gives, one after the other, each of them of at most `limit` bytes without its four length bytes.
///
/// A frame is handed out as soon as its last byte is there. The iterator ends where the reader does. It also ends behind a frame that
/// is refused or cut off, which it gives as an error; [`Frames::pass_over`] goes on behind one that is refused. An error of the
/// reader does not end it: what was read is kept, and the next call reads on.
///
/// ```
/// use muleflurry::{owned::frames, AGREED_FRAME};
///
/// let mut input = b"\0\0\0\x19\x03\0\0\0\x01\x01\x02\x05delay\x02\x04slot\x03\x07\x02ok\x11".repeat(2);
/// input.truncate(48);
/// let mut frames = frames(&input[..], AGREED_FRAME);
/// assert_eq!(frames.next().unwrap().unwrap().messages[0].name, "delay");
/// assert_eq!(frames.next().unwrap().unwrap_err().to_string(), "not whole: bytes missing: 10");
/// assert!(frames.next().is_none());
/// ```
pub fn frames<R: Read>(reader: R, limit: u32) -> Frames<R> {
    Frames { reader, limit, buffer: Vec::new(), start: 0, tables: Tables::default(), stopped: None }
}

/// The iterator of [`frames`].
#[derive(Debug)]
pub struct Frames<R> {
    reader: R,
    limit: u32,
    /// What was read, of which the bytes before `start` are taken.
    buffer: Vec<u8>,
    start: usize,
    tables: Tables,
    stopped: Option<Answer>,
}

/// Why a stream gives no frame.
#[derive(Debug)]
pub enum StreamError {
    /// The reader failed.
    Io(io::Error),
    /// The next frame is refused, or the stream ends before it is whole.
    Frame(Answer),
}

impl fmt::Display for StreamError {
    fn fmt(&self, out: &mut fmt::Formatter<'_>) -> fmt::Result {
        match self {
            Self::Io(error) => error.fmt(out),
            Self::Frame(answer) => answer.fmt(out),
        }
    }
}

impl std::error::Error for StreamError {}

impl<R> Frames<R> {
    /// Holds the frames from the next one on to what was agreed.
    pub fn set_limit(&mut self, limit: u32) {
        self.limit = limit;
    }

    pub fn get_ref(&self) -> &R {
        &self.reader
    }

    /// What is read from it elsewhere is missing here.
    pub fn get_mut(&mut self) -> &mut R {
        &mut self.reader
    }

    /// The bytes that were read and are in no frame that was given. A frame that is refused or cut off stands at their front.
    pub fn rest(&self) -> &[u8] {
        &self.buffer[self.start..]
    }

    /// Goes on behind the frame that was refused. That cannot be done where there is none, and where a frame is longer than the limit,
    /// since it was not waited for: then nothing changes, and the answer is false.
    pub fn pass_over(&mut self) -> bool {
        match (self.stopped, self.rest().first_chunk()) {
            (Some(Answer::Refused(refusal)), Some(length)) if refusal.number != Refusal::OVERSIZE => {
                self.start += length_of(length);
                self.stopped = None;
                true
            }
            _ => false,
        }
    }
}

/// How many bytes a frame has with its length bytes, of which the length does not speak.
fn length_of(length: &[u8; 4]) -> usize {
    4 + u32::from_be_bytes(*length) as usize
}

impl<R: Read> Frames<R> {
    /// The least and the most that the reader is asked for. A frame's length is not believed before its bytes are there.
    const LEAST: usize = 8 * 1024;
    const MOST: usize = 64 * 1024;

    /// Reads more, at the end of a buffer that holds nothing but the rest, and answers how much.
    fn fill(&mut self, missing: usize) -> io::Result<usize> {
        self.buffer.drain(..self.start);
        self.start = 0;
        let end = self.buffer.len();
        self.buffer.resize(end + missing.clamp(Self::LEAST, Self::MOST), 0);
        let read = loop {
            match self.reader.read(&mut self.buffer[end..]) {
                Err(error) if error.kind() == io::ErrorKind::Interrupted => {}
                read => break read,
            }
        };
        self.buffer.truncate(end + *read.as_ref().unwrap_or(&0));
        read
    }

    fn stop(&mut self, answer: Answer) -> StreamError {
        self.stopped = Some(answer);
        StreamError::Frame(answer)
    }
}

impl<R: Read> Iterator for Frames<R> {
    type Item = Result<Frame, StreamError>;

    fn next(&mut self) -> Option<Self::Item> {
        if self.stopped.is_some() {
            return None;
        }
        loop {
            let answer = match self.tables.read(&self.buffer[self.start..], self.limit) {
                Ok(frame) => {
                    let frame = Frame::from(frame);
                    self.start += frame.used;
                    return Some(Ok(frame));
                }
                Err(answer) => answer,
            };
            let Answer::Wait { missing } = answer else {
                return Some(Err(self.stop(answer)));
            };
            match self.fill(missing) {
                Err(error) => return Some(Err(StreamError::Io(error))),
                Ok(0) if self.rest().is_empty() => return None,
                Ok(0) => return Some(Err(self.stop(answer))),
                Ok(_) => {}
            }
        }
    }
}
