//! The calls over lent memory, without allocation. Whatever is lent changes only where the call is done; of [`read_frames`] by the
//! frames that are read.
//!
//! What each promises and refuses stands in `include/spop.h` and `docs/RULES.md`.

pub use crate::{
    agent::{read_agent_frame, AgentFrame},
    buffer::{read_frames, Frames, FramesRead},
    records::Data,
    sys::{Action, Message, Pair, Row},
};
use crate::{sys, Answer, Argument, FrameType, Metadata, Refusal, Text, ABORT, FIN};
use core::slice;

/// What goes with 0, or the refusal.
fn told(number: u64, at: u64) -> Result<usize, Refusal> {
    let at = at as usize;
    match number {
        Refusal::DONE => Ok(at),
        _ => Err(Refusal { number, place: at }),
    }
}

// ---------------------------------------------------------------- numbers and texts

/// How many bytes the written form of a number has: 1 to 10.
#[inline]
pub fn varint_len(n: u64) -> usize {
    // SAFETY: the call takes a number alone.
    unsafe { sys::spop_varint_len(n) as usize }
}

/// Writes a number at the front of `out`, and answers its length.
#[inline]
pub fn encode_varint(n: u64, out: &mut [u8]) -> Result<usize, Refusal> {
    let mut at = 0;
    // SAFETY: the slice is lent with its length, and nothing lent overlaps.
    let number = unsafe { sys::spop_encode_varint(n, out.as_mut_ptr(), out.len(), &mut at) };
    told(number, at)
}

/// Reads the number at the front of `input`, and answers it with the bytes that it has.
#[inline]
pub fn decode_varint(input: &[u8]) -> Result<(u64, usize), Refusal> {
    let (mut value, mut at) = (0, 0);
    // SAFETY: the slice is lent with its length, and nothing lent overlaps.
    let number = unsafe { sys::spop_decode_varint(input.as_ptr(), input.len(), &mut value, &mut at) };
    told(number, at).map(|used| (value, used))
}

/// Whether the bytes are well-formed UTF-8.
#[inline]
pub fn is_utf8(bytes: &[u8]) -> bool {
    // SAFETY: the slice is lent with its length.
    unsafe { sys::spop_is_utf8(bytes.as_ptr(), bytes.len()) }
}

/// Whether the two have the same lossy text. Keys of a KV list are compared so.
#[inline]
pub fn same_text(a: &[u8], b: &[u8]) -> bool {
    // SAFETY: each slice is lent with its length.
    unsafe { sys::spop_same_text(a.as_ptr(), a.len(), b.as_ptr(), b.len()) }
}

/// The same the plain way: writes both lossy texts, each at the front of its own buffer, and compares their bytes. Three times the
/// bytes of each are always room enough.
#[inline]
pub fn same_text_plain(a: &[u8], b: &[u8], a_text: &mut [u8], b_text: &mut [u8]) -> Result<bool, Refusal> {
    let (mut same, mut at) = (false, 0);
    // SAFETY: each slice is lent with its length, and nothing lent overlaps.
    let number = unsafe {
        sys::spop_same_text_plain(
            a.as_ptr(),
            a.len(),
            b.as_ptr(),
            b.len(),
            a_text.as_mut_ptr(),
            a_text.len(),
            b_text.as_mut_ptr(),
            b_text.len(),
            &mut same,
            &mut at,
        )
    };
    told(number, at).map(|_| same)
}

/// Writes the lossy text of the bytes at the front of `out`, and answers its length, which is at most three times theirs.
#[inline]
pub fn lossy_text(bytes: &[u8], out: &mut [u8]) -> Result<usize, Refusal> {
    let mut at = 0;
    // SAFETY: each slice is lent with its length, and nothing lent overlaps.
    let number = unsafe { sys::spop_lossy_text(bytes.as_ptr(), bytes.len(), out.as_mut_ptr(), out.len(), &mut at) };
    told(number, at)
}

// ---------------------------------------------------------------- values and pairs

/// Reads the value at the front of `input`, where its starts count, and answers it with the bytes that it has.
#[inline]
pub fn typed_data(input: &[u8]) -> Result<(Data, usize), Refusal> {
    let (mut value, mut at) = (Data::default().numbers(), 0);
    // SAFETY: the slice is lent with its length, the value has its numbers, and nothing lent overlaps.
    let number = unsafe { sys::spop_typed_data(input.as_ptr(), input.len(), &mut value, &mut at) };
    told(number, at).map(|used| (Data::of_numbers(value), used))
}

/// How many bytes the written form of a value has; 0 where it has none.
#[inline]
pub fn value_len(data: Data, buffer: &[u8]) -> usize {
    // SAFETY: the value has its numbers, and the slice is lent with its length.
    unsafe { sys::spop_value_len(&data.numbers(), buffer.as_ptr(), buffer.len()) as usize }
}

/// What a value is refused with before it is written, at place 0.
#[inline]
pub fn check_value(data: Data, buffer: &[u8]) -> Result<(), Refusal> {
    // SAFETY: the value has its numbers, and the slice is lent with its length.
    let number = unsafe { sys::spop_check_value(&data.numbers(), buffer.as_ptr(), buffer.len()) };
    told(number, 0).map(|_| ())
}

/// Writes a value at the front of `out`, and answers its length. Whether a string is UTF-8 is [`check_value`]'s to say.
#[inline]
pub fn write_value(data: Data, buffer: &[u8], out: &mut [u8]) -> Result<usize, Refusal> {
    let mut at = 0;
    // SAFETY: the value has its numbers, each slice is lent with its length, and nothing lent overlaps.
    let number =
        unsafe { sys::spop_write_value(&data.numbers(), buffer.as_ptr(), buffer.len(), out.as_mut_ptr(), out.len(), &mut at) };
    told(number, at)
}

/// Reads the pair at the front of `input`, where its starts count, and answers it with the bytes that it has.
///
/// ```
/// use muleflurry::{lent, Value};
///
/// let input = b"\x04slot\x03\x11 and more";
/// let (pair, used) = lent::read_pair(input).unwrap();
/// let argument = pair.argument(input).unwrap();
/// assert_eq!(used, 7);
/// assert_eq!(argument.key, "slot");
/// assert_eq!(argument.value, Value::U32(17));
/// ```
#[inline]
pub fn read_pair(input: &[u8]) -> Result<(Pair, usize), Refusal> {
    let (mut pair, mut at) = ([0; sys::PAIR_WIDTH], 0);
    // SAFETY: the slice is lent with its length, the pair has its numbers, and nothing lent overlaps.
    let number = unsafe { sys::spop_read_pair(input.as_ptr(), input.len(), &mut pair, &mut at) };
    told(number, at).map(|used| (Pair::of_numbers(pair), used))
}

// ---------------------------------------------------------------- frames, read

/// A frame that was read: its bytes, and its records at the front of the tables that were lent for them.
#[derive(Clone, Copy, Debug)]
pub struct Frame<'a> {
    pub(crate) bytes: &'a [u8],
    pub(crate) kind: FrameType,
    pub(crate) metadata: Metadata,
    pub(crate) messages: &'a [Message],
    pub(crate) pairs: &'a [Pair],
}

/// What a reader says of a frame besides its records.
pub(crate) struct Head {
    numbers: [u64; 6],
    used: usize,
}

impl Head {
    /// What goes with the numbers that a reader answered and set.
    pub(crate) fn told(number: u64, at: u64, numbers: [u64; 6]) -> Result<Self, Answer> {
        let used = at as usize;
        match number {
            Refusal::WAIT => Err(Answer::Wait { missing: used }),
            _ => Ok(told(number, at).map(|used| Self { numbers, used })?),
        }
    }

    /// Its type, its metadata, how many records it has of two sorts, and its bytes.
    pub(crate) fn parts(&self) -> (FrameType, Metadata, [usize; 2], usize) {
        let [kind, flags, stream_id, frame_id, first, second] = self.numbers;
        let kind = FrameType::from_number(kind).expect("a reader gives known types alone");
        let metadata = Metadata { fin: flags & FIN != 0, abort: flags & ABORT != 0, stream_id, frame_id };
        (kind, metadata, [first as usize, second as usize], self.used)
    }

    /// The frame at the front of the bytes and tables that it was read from and into.
    pub(crate) fn frame<'a>(&self, input: &'a [u8], messages: &'a [Message], pairs: &'a [Pair]) -> Frame<'a> {
        let (kind, metadata, counts, used) = self.parts();
        Frame { bytes: &input[..used], kind, metadata, messages: &messages[..counts[0]], pairs: &pairs[..counts[1]] }
    }
}

/// Reads the frame at the front of `input`, one that HAProxy sends: a HAPROXY-HELLO or a HAPROXY-DISCONNECT, which hold a KV list,
/// or a NOTIFY, which holds messages. `limit` is the most that its length bytes may say. What stands behind it is not looked at.
///
/// The tables have room for as many records as they have, and either may have none.
///
/// ```
/// use muleflurry::{lent::{self, Message, Pair}, Answer, AGREED_FRAME};
///
/// let input = b"\0\0\0\x19\x03\0\0\0\x01\x01\x02\x05delay\x02\x04slot\x03\x07\x02ok\x11";
/// let (mut messages, mut pairs) = ([Message::default(); 8], [Pair::default(); 64]);
///
/// let frame = lent::read_frame(input, AGREED_FRAME, &mut messages, &mut pairs).unwrap();
/// for (name, arguments) in frame.messages() {
///     assert_eq!(name, "delay");
///     let shown: Vec<String> = arguments.map(|argument| format!("{} {}", argument.key, argument.value)).collect();
///     assert_eq!(shown, ["slot 7", "ok true"]);
/// }
///
/// let answer = lent::read_frame(&input[..19], AGREED_FRAME, &mut messages, &mut pairs).unwrap_err();
/// assert_eq!(answer, Answer::Wait { missing: 10 });
/// ```
#[inline]
pub fn read_frame<'a>(
    input: &'a [u8],
    limit: u32,
    messages: &'a mut [Message],
    pairs: &'a mut [Pair],
) -> Result<Frame<'a>, Answer> {
    let head = read_head(input, limit, messages, pairs)?;
    Ok(head.frame(input, messages, pairs))
}

/// Fills the tables as [`read_frame`] does, and holds on to none of them.
#[inline]
pub(crate) fn read_head(input: &[u8], limit: u32, messages: &mut [Message], pairs: &mut [Pair]) -> Result<Head, Answer> {
    let (messages, pairs) = (Message::numbers_mut(messages), Pair::numbers_mut(pairs));
    let (mut head, mut at) = ([0; 6], 0);
    // SAFETY: each slice is lent with its length, the head has six numbers, and nothing lent overlaps.
    let number = unsafe {
        sys::spop_read_frame(
            input.as_ptr(),
            input.len(),
            limit,
            messages.as_mut_ptr(),
            messages.len(),
            pairs.as_mut_ptr(),
            pairs.len(),
            &mut head,
            &mut at,
        )
    };
    Head::told(number, at, head)
}

/// Reads a frame as [`read_frame`] does, and gives the same answers, by the call that takes its pairs as records.
#[inline]
pub fn read_frame_records<'a>(
    input: &'a [u8],
    limit: u32,
    messages: &'a mut [Message],
    pairs: &'a mut [Pair],
) -> Result<Frame<'a>, Answer> {
    let (mut head, mut at) = ([0; 6], 0);
    let numbers = Message::numbers_mut(messages);
    // SAFETY: each slice is lent with its length, the head has six numbers, and nothing lent overlaps.
    let number = unsafe {
        sys::spop_read_frame_records(
            input.as_ptr(),
            input.len(),
            limit,
            numbers.as_mut_ptr(),
            numbers.len(),
            pairs.as_mut_ptr(),
            pairs.len(),
            &mut head,
            &mut at,
        )
    };
    Ok(Head::told(number, at, head)?.frame(input, messages, pairs))
}

impl<'a> Frame<'a> {
    pub fn kind(&self) -> FrameType {
        self.kind
    }

    /// The ids, and FIN alone: no other flags are accepted.
    pub fn metadata(&self) -> Metadata {
        self.metadata
    }

    /// The frame's bytes, with its length bytes. The next frame starts right behind them.
    pub fn bytes(&self) -> &'a [u8] {
        self.bytes
    }

    /// How many bytes the frame has, with its length bytes.
    pub fn used(&self) -> usize {
        self.bytes.len()
    }

    /// The messages in the order of the bytes, each with its name and its arguments. A KV list has none.
    pub fn messages(&self) -> Messages<'a> {
        Messages { bytes: self.bytes, messages: self.messages.iter(), pairs: self.pairs }
    }

    /// All pairs in the order of the bytes: of a KV list, or the arguments of all messages, one message after the other.
    pub fn pairs(&self) -> Arguments<'a> {
        Arguments { bytes: self.bytes, pairs: self.pairs.iter() }
    }

    /// The records of the messages. Starts count in [`Frame::bytes`].
    pub fn message_records(&self) -> &'a [Message] {
        self.messages
    }

    /// The records of all pairs. Starts count in [`Frame::bytes`].
    pub fn pair_records(&self) -> &'a [Pair] {
        self.pairs
    }
}

/// The messages of a frame, in order.
#[derive(Clone, Debug)]
pub struct Messages<'a> {
    bytes: &'a [u8],
    messages: slice::Iter<'a, Message>,
    pairs: &'a [Pair],
}

impl<'a> Iterator for Messages<'a> {
    type Item = (Text<&'a [u8]>, Arguments<'a>);

    fn next(&mut self) -> Option<Self::Item> {
        let message = self.messages.next()?;
        let name = message.name(self.bytes).expect("a reader gives places inside the frame");
        let pairs = &self.pairs[message.first_pair as usize..][..message.pair_count as usize];
        Some((name, Arguments { bytes: self.bytes, pairs: pairs.iter() }))
    }

    fn size_hint(&self) -> (usize, Option<usize>) {
        self.messages.size_hint()
    }
}

impl ExactSizeIterator for Messages<'_> {}

/// The arguments of a message or the pairs of a frame, in order.
#[derive(Clone, Debug)]
pub struct Arguments<'a> {
    bytes: &'a [u8],
    pairs: slice::Iter<'a, Pair>,
}

impl<'a> Arguments<'a> {
    /// Those that these records say of the bytes.
    pub(crate) fn of(bytes: &'a [u8], pairs: &'a [Pair]) -> Self {
        Self { bytes, pairs: pairs.iter() }
    }
}

impl<'a> Iterator for Arguments<'a> {
    type Item = Argument<&'a [u8]>;

    fn next(&mut self) -> Option<Self::Item> {
        let pair = self.pairs.next()?;
        Some(pair.argument(self.bytes).expect("a reader gives values inside the frame"))
    }

    fn size_hint(&self) -> (usize, Option<usize>) {
        self.pairs.size_hint()
    }
}

impl ExactSizeIterator for Arguments<'_> {}

// ---------------------------------------------------------------- frames, written

/// Writes a KV frame at the front of `out`, and answers its length. The records' starts count in `buffer`, and `limit` is the most
/// that the frame may have without its four length bytes.
///
/// Types 101 and 102 are written with FIN alone and both ids 0; 1 and 2 with any metadata; another type is 14.
#[inline]
pub fn write_kv(
    kind: FrameType,
    metadata: Metadata,
    limit: u32,
    buffer: &[u8],
    pairs: &[Pair],
    out: &mut [u8],
) -> Result<usize, Refusal> {
    let (numbers, mut at) = (Pair::numbers(pairs), 0);
    // SAFETY: each slice is lent with its length, and nothing lent overlaps.
    let number = unsafe {
        sys::spop_write_kv(
            kind.number(),
            metadata.fin,
            metadata.abort,
            metadata.stream_id,
            metadata.frame_id,
            limit,
            buffer.as_ptr(),
            buffer.len(),
            numbers.as_ptr(),
            numbers.len(),
            pairs.len() as u64,
            out.as_mut_ptr(),
            out.len(),
            &mut at,
        )
    };
    told(number, at)
}

/// Writes an ACK with these actions at the front of `out`, and answers its length. Flags other than FIN alone are 14.
#[inline]
pub fn write_actions(
    metadata: Metadata,
    limit: u32,
    buffer: &[u8],
    actions: &[Action],
    out: &mut [u8],
) -> Result<usize, Refusal> {
    let (numbers, mut at) = (Action::numbers(actions), 0);
    // SAFETY: each slice is lent with its length, and nothing lent overlaps.
    let number = unsafe {
        sys::spop_write_actions(
            metadata.fin,
            metadata.abort,
            metadata.stream_id,
            metadata.frame_id,
            limit,
            buffer.as_ptr(),
            buffer.len(),
            numbers.as_ptr(),
            numbers.len(),
            actions.len() as u64,
            out.as_mut_ptr(),
            out.len(),
            &mut at,
        )
    };
    told(number, at)
}

/// Writes a NOTIFY at the front of `out`, and answers its length. Flags other than FIN alone are 14. The pairs of the messages
/// follow each other without a gap, up to the last pair.
///
/// ```
/// use muleflurry::{lent::{self, Data, Message, Pair}, Metadata, AGREED_FRAME};
///
/// let buffer = b"uploadslot";
/// let messages = [Message::new(0..6, 0..2)];
/// let pairs = [Pair::new(6..10, Data::u32(3)), Pair::new(6..10, Data::u32(17))];
/// let metadata = Metadata { stream_id: 1, frame_id: 1, ..Metadata::default() };
/// let mut out = [0; 64];
///
/// let length = lent::write_notify(metadata, AGREED_FRAME, buffer, &messages, &pairs, &mut out).unwrap();
/// assert_eq!(out[..length], *b"\0\0\0\x1d\x03\0\0\0\x01\x01\x01\x06upload\x02\x04slot\x03\x03\x04slot\x03\x11");
/// ```
#[inline]
pub fn write_notify(
    metadata: Metadata,
    limit: u32,
    buffer: &[u8],
    messages: &[Message],
    pairs: &[Pair],
    out: &mut [u8],
) -> Result<usize, Refusal> {
    let (message_numbers, pair_numbers) = (Message::numbers(messages), Pair::numbers(pairs));
    let mut at = 0;
    // SAFETY: each slice is lent with its length, and nothing lent overlaps.
    let number = unsafe {
        sys::spop_write_notify(
            metadata.fin,
            metadata.abort,
            metadata.stream_id,
            metadata.frame_id,
            limit,
            buffer.as_ptr(),
            buffer.len(),
            message_numbers.as_ptr(),
            message_numbers.len(),
            messages.len() as u64,
            pair_numbers.as_ptr(),
            pair_numbers.len(),
            pairs.len() as u64,
            out.as_mut_ptr(),
            out.len(),
            &mut at,
        )
    };
    told(number, at)
}

// ---------------------------------------------------------------- the handshake

/// The frame size that both sides can keep to: the smaller one, or 13 where either is under 256.
#[inline]
pub fn negotiate_max_frame_size(theirs: u32, ours: u32) -> Result<u32, Refusal> {
    let mut at = 0;
    // SAFETY: one number is lent.
    let number = unsafe { sys::spop_negotiate_max_frame_size(theirs, ours, &mut at) };
    told(number, at).map(|size| size as u32)
}

/// The version to speak, 2.0.0, where one of those that are announced has the major number 2 and does not rank below 2.0.0. An
/// announced version is major, minor, patch, and a number that is 0 exactly where it has no pre-release part; with one, its minor or
/// patch is to be above 0, so that 2.0.0-rc.1 does not count and 2.1.0-rc.1 does.
#[inline]
pub fn negotiate_version(versions: &[[u64; sys::VERSION_WIDTH]]) -> Option<[u64; 3]> {
    let (numbers, mut version) = (versions.as_flattened(), [0; 3]);
    // SAFETY: the slice is lent with its length, the version has three numbers, and nothing lent overlaps.
    let chosen = unsafe { sys::spop_negotiate_version(numbers.as_ptr(), numbers.len(), &mut version) };
    chosen.then_some(version)
}
