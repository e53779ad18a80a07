//! All frames of a receive buffer, read by one call.

use crate::{
    lent::{Frame, Message, Pair, Row},
    sys, Answer, FrameType, Metadata, Refusal,
};
use core::slice;

/// The frames at the front of a buffer that were read, and what stopped the reading there.
#[derive(Clone, Copy, Debug)]
pub struct FramesRead<'a> {
    input: &'a [u8],
    rows: &'a [Row],
    messages: &'a [Message],
    pairs: &'a [Pair],
    used: usize,
    stopped: Answer,
}

/// Reads all frames at the front of `input`, one after the other as [`crate::lent::read_frame`] does, each with the room that the frames
/// before it have left in the tables. It ends at the frame that is not read, if only since no byte is left.
///
/// A frame that would be read, and has no room in `rows`, is 10 at its end. The frame that stopped it has changed nothing.
///
/// ```
/// use muleflurry::{lent::{self, Message, Pair, Row}, Answer, AGREED_FRAME};
///
/// let input = b"\0\0\0\x19\x03\0\0\0\x01\x01\x02\x05delay\x02\x04slot\x03\x07\x02ok\x11".repeat(3);
/// let (mut rows, mut messages, mut pairs) = ([Row::default(); 8], [Message::default(); 8], [Pair::default(); 64]);
///
/// let read = lent::read_frames(&input[..77], AGREED_FRAME, &mut rows, &mut messages, &mut pairs);
/// for frame in read.frames() {
///     for (name, arguments) in frame.messages() {
///         assert_eq!(name, "delay");
///         assert_eq!(arguments.len(), 2);
///     }
/// }
/// assert_eq!((read.frames().len(), read.used()), (2, 58));
/// assert_eq!(read.stopped(), Answer::Wait { missing: 10 });
/// ```
#[inline]
pub fn read_frames<'a>(
    input: &'a [u8],
    limit: u32,
    rows: &'a mut [Row],
    messages: &'a mut [Message],
    pairs: &'a mut [Pair],
) -> FramesRead<'a> {
    let (mut counts, mut at) = ([0; 4], 0);
    let numbers = (Row::numbers_mut(rows), Message::numbers_mut(messages), Pair::numbers_mut(pairs));
    // SAFETY: each slice is lent with its length, there are four counts, and nothing lent overlaps.
    let number = unsafe {
        sys::spop_read_frames(
            input.as_ptr(),
            input.len(),
            limit,
            numbers.0.as_mut_ptr(),
            numbers.0.len(),
            numbers.1.as_mut_ptr(),
            numbers.1.len(),
            numbers.2.as_mut_ptr(),
            numbers.2.len(),
            &mut counts,
            &mut at,
        )
    };
    let [frames, of_messages, of_pairs, used] = counts.map(|count| count as usize);
    FramesRead {
        input,
        rows: &rows[..frames],
        messages: &messages[..of_messages],
        pairs: &pairs[..of_pairs],
        used,
        stopped: match number {
            Refusal::WAIT => Answer::Wait { missing: at as usize },
            _ => Answer::Refused(Refusal { number, place: at as usize }),
        },
    }
}

impl<'a> FramesRead<'a> {
    /// The frames in the order of the bytes.
    pub fn frames(&self) -> Frames<'a> {
        Frames { input: self.input, rows: self.rows.iter(), messages: self.messages, pairs: self.pairs }
    }

    /// How many bytes the frames have together, with their length bytes.
    pub fn used(&self) -> usize {
        self.used
    }

    /// The bytes behind the frames: from the one on that stopped the reading.
    pub fn rest(&self) -> &'a [u8] {
        &self.input[self.used..]
    }

    /// What the frame behind these is answered with. Where no byte is left, four are missing. A place counts in [`FramesRead::rest`].
    pub fn stopped(&self) -> Answer {
        self.stopped
    }

    /// The rows of the frames.
    pub fn rows(&self) -> &'a [Row] {
        self.rows
    }

    /// The records of all messages. Starts count in their frame's bytes, and a first pair among the pairs of its frame.
    pub fn message_records(&self) -> &'a [Message] {
        self.messages
    }

    /// The records of all pairs. Starts count in their frame's bytes.
    pub fn pair_records(&self) -> &'a [Pair] {
        self.pairs
    }
}

/// The frames of a buffer, in order.
#[derive(Clone, Debug)]
pub struct Frames<'a> {
    input: &'a [u8],
    rows: slice::Iter<'a, Row>,
    /// The records from the next frame's first on.
    messages: &'a [Message],
    pairs: &'a [Pair],
}

impl<'a> Iterator for Frames<'a> {
    type Item = Frame<'a>;

    fn next(&mut self) -> Option<Self::Item> {
        let row = self.rows.next()?;
        let kind = FrameType::from_number(row.kind).expect("a reader gives known types alone");
        let count = row.count as usize;
        let of_messages = if kind == FrameType::Notify { count } else { 0 };
        let (messages, messages_behind) = self.messages.split_at(of_messages);
        let of_pairs = match (kind, messages.last()) {
            (FrameType::Notify, last) => last.map_or(0, |last| (last.first_pair + last.pair_count) as usize),
            _ => count,
        };
        let (pairs, pairs_behind) = self.pairs.split_at(of_pairs);
        (self.messages, self.pairs) = (messages_behind, pairs_behind);
        let bytes = &self.input[row.start as usize..][..row.used as usize];
        let metadata = Metadata { stream_id: row.stream_id, frame_id: row.frame_id, ..Metadata::default() };
        Some(Frame { bytes, kind, metadata, messages, pairs })
    }

    fn size_hint(&self) -> (usize, Option<usize>) {
        self.rows.size_hint()
    }
}

impl ExactSizeIterator for Frames<'_> {}
