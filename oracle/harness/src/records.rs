//! Records in a lent buffer, as the paper has them: what they stand for in the Rust, and what they are refused with.

use crate::{
    answers::Answer,
    inputs::{self, Random},
    port::{PAIR_WIDTH, VALUE_WIDTH},
    text::{Difference, hex},
};
use spop::{
    SpopFrame,
    actions::{Action, VarScope},
    frame::{FrameFlags, FramePayload, FrameType, Metadata},
    types::TypedData,
    varint::encode_varint_into,
};
use std::{
    borrow::Cow,
    collections::HashMap,
    fmt::Debug,
    hint::black_box,
    net::{Ipv4Addr, Ipv6Addr},
};

pub const REPEATED: u64 = 9;
pub const NO_ROOM: u64 = 11;
pub const OVER_LIMIT: u64 = 12;
pub const NOT_WRITABLE: u64 = 14;
pub const NOT_TEXT: u64 = 15;
pub const OUTSIDE: u64 = 16;
pub const TOO_MANY: u64 = 17;

/// Kind, a, b, flags.
pub type Value = [u64; VALUE_WIDTH];

/// The bytes that a start and a length point at.
pub fn part(buffer: &[u8], start: u64, length: u64) -> Result<&[u8], u64> {
    let start = usize::try_from(start).map_err(|_| OUTSIDE)?;
    let length = usize::try_from(length).map_err(|_| OUTSIDE)?;
    let end = start.checked_add(length).ok_or(OUTSIDE)?;
    buffer.get(start..end).ok_or(OUTSIDE)
}

/// The text that a start and a length point at.
pub fn text(buffer: &[u8], start: u64, length: u64) -> Result<String, u64> {
    let bytes = part(buffer, start, length)?;
    String::from_utf8(bytes.to_vec()).map_err(|_| NOT_TEXT)
}

/// Whether each number lies in its field.
pub fn writable([kind, a, b, flags]: Value) -> Result<(), u64> {
    let right = match kind {
        0 => a == 0 && b == 0,
        1 => a < 2 && b == 0,
        2 => i64::from(a as i32) as u64 == a && b == 0,
        3 => u64::from(a as u32) == a && b == 0,
        4 | 5 => b == 0,
        6 => b == 4,
        7 => b == 16,
        8 | 9 => true,
        _ => false,
    };
    let flagged = if kind == 1 { flags == 0 } else { flags < 16 };
    if right && flagged {
        Ok(())
    } else {
        Err(NOT_WRITABLE)
    }
}

/// The Rust's value, which has no flags, or the first of 14, 16 and 15 that holds.
pub fn value(record: Value, buffer: &[u8]) -> Result<TypedData, u64> {
    writable(record)?;
    let [kind, a, b, _] = record;
    Ok(match kind {
        0 => TypedData::Null,
        1 => TypedData::Bool(a == 1),
        2 => TypedData::Int32(a as i32),
        3 => TypedData::UInt32(a as u32),
        4 => TypedData::Int64(a as i64),
        5 => TypedData::UInt64(a),
        6 => {
            let bytes: [u8; 4] = part(buffer, a, b)?.try_into().expect("four bytes");
            TypedData::IPv4(Ipv4Addr::from(bytes))
        }
        7 => {
            let bytes: [u8; 16] = part(buffer, a, b)?.try_into().expect("sixteen bytes");
            TypedData::IPv6(Ipv6Addr::from(bytes))
        }
        8 => TypedData::String(text(buffer, a, b)?),
        _ => TypedData::Binary(part(buffer, a, b)?.to_vec()),
    })
}

/// A pair's key and value, or what its numbers are refused with: 14, 16 and 15 for the key, 16 and 15 for the value.
pub fn pair(record: &[u64], buffer: &[u8]) -> Result<(String, TypedData), u64> {
    let numbers = value_of(record);
    writable(numbers)?;
    let key = text(buffer, record[0], record[1])?;
    Ok((key, value(numbers, buffer)?))
}

/// The value of a pair or an action, which has the last numbers of its record.
pub fn value_of(record: &[u64]) -> Value {
    *record.last_chunk().expect("a record has a value")
}

/// The flags of a pair's or an action's value, the last of its numbers.
pub fn flags_of(record: &[u64]) -> u64 {
    record[record.len() - 1]
}

/// The flags that are read from a type byte: a bool has none.
pub fn flags_read(byte: u8) -> u64 {
    match byte % 16 {
        1 => 0,
        _ => u64::from(byte / 16),
    }
}

/// Puts flags into a type byte that the Rust wrote, whose own are a bool's.
pub fn put_flags(byte: &mut u8, flags: u64) {
    *byte += 16 * flags as u8;
}

/// Adds the written form of a string.
pub fn add_string(text: &str, bytes: &mut Vec<u8>) {
    encode_varint_into(text.len() as u64, bytes);
    bytes.extend_from_slice(text.as_bytes());
}

/// The written form of a pair.
pub fn encoding(key: &str, value: &TypedData) -> Vec<u8> {
    let mut bytes = Vec::new();
    add_string(key, &mut bytes);
    value.to_bytes(&mut bytes);
    bytes
}

/// The same with the value's flags, of which the Rust writes none.
pub fn flagged(key: &str, value: &TypedData, flags: u64) -> Vec<u8> {
    let mut bytes = encoding(key, value);
    let place = bytes.len() - value.serialized_len();
    put_flags(&mut bytes[place], flags);
    bytes
}

// ---------------------------------------------------------------- frames

#[derive(Debug)]
pub enum Payload {
    Pairs(HashMap<String, TypedData>),
    Actions(Vec<Action>),
}

/// A frame of any type and metadata, which the Rust writes as it writes its own.
#[derive(Debug)]
pub struct Frame {
    pub kind: FrameType,
    pub metadata: Metadata,
    pub payload: Payload,
}

impl SpopFrame for Frame {
    fn frame_type(&self) -> &FrameType {
        &self.kind
    }

    fn metadata(&self) -> Cow<'_, Metadata> {
        Cow::Borrowed(&self.metadata)
    }

    fn payload(&self) -> FramePayload<'_> {
        match &self.payload {
            Payload::Pairs(pairs) => FramePayload::KVList(pairs.clone()),
            Payload::Actions(actions) => FramePayload::ListOfActions(actions),
        }
    }
}

impl Frame {
    pub fn ack(stream_id: u64, frame_id: u64, actions: Vec<Action>) -> Self {
        Self {
            kind: FrameType::Ack,
            metadata: Metadata {
                flags: FrameFlags::new(true, false),
                stream_id,
                frame_id,
            },
            payload: Payload::Actions(actions),
        }
    }

    /// The Rust's side of a race: writes the frame into a `Vec` that has room for it.
    pub fn race(&self) -> impl FnMut() {
        let mut grown = Vec::with_capacity(self.written().len());
        move || {
            grown.clear();
            black_box(self)
                .serialize_into(&mut grown)
                .expect("the Rust writes this frame");
            black_box(&grown);
        }
    }

    pub fn written(&self) -> Vec<u8> {
        self.serialize().expect("the Rust writes this frame")
    }
}

/// A set-var of the transaction, whose scope is the number 2.
pub fn set_var(name: String, value: TypedData) -> Action {
    let scope = VarScope::Transaction;
    Action::SetVar { scope, name, value }
}

/// Puts bytes behind those of the buffer, and answers their start and length.
pub fn lend(bytes: &[u8], buffer: &mut Vec<u8>) -> [u64; 2] {
    let start = buffer.len() as u64;
    buffer.extend_from_slice(bytes);
    [start, bytes.len() as u64]
}

/// The numbers of a pair whose bytes are put behind those of the buffer.
pub fn lend_pair(key: &str, value: &TypedData, buffer: &mut Vec<u8>) -> [u64; PAIR_WIDTH] {
    let [start, length] = lend(key.as_bytes(), buffer);
    let [kind, a, b] = match value {
        TypedData::UInt32(n) => [3, u64::from(*n), 0],
        TypedData::Int64(n) => [4, *n as u64, 0],
        TypedData::String(text) => {
            let [start, length] = lend(text.as_bytes(), buffer);
            [8, start, length]
        }
        _ => unreachable!("no such value is timed"),
    };
    [start, length, kind, a, b, 0]
}

// ---------------------------------------------------------------- writers

const UNTOUCHED: u64 = 0xa5c3_96e1_5a3c_691e;
const FILL: u8 = 0x6b;

/// Bytes behind the lent output, which have to stay.
const BEHIND: usize = 8;

/// What a writer answers, and the output that it was lent with the bytes behind it.
#[derive(PartialEq)]
pub struct Wrote {
    pub answer: Answer,
    pub area: Vec<u8>,
}

impl Wrote {
    /// Lends an output of `room` bytes to a call of the port.
    pub fn by_port(room: usize, call: impl FnOnce(&mut [u8], &mut u64) -> u64) -> Self {
        let (mut area, mut at) = (vec![FILL; room + BEHIND], UNTOUCHED);
        let number = call(&mut area[..room], &mut at);
        let answer = Answer::new(number, at);
        Self { answer, area }
    }

    /// What is to be done with a frame, or with a refusal and its place: after the refusals of records come those of
    /// limit and room, and none of them changes a byte.
    pub fn expected(frame: Result<Vec<u8>, (u64, u64)>, limit: u32, room: usize) -> Self {
        let mut area = vec![FILL; room + BEHIND];
        let answer = match frame {
            Err((number, place)) => Answer::new(number, place),
            Ok(bytes) if bytes.len() as u64 - 4 > u64::from(limit) => Answer::new(OVER_LIMIT, 0),
            Ok(bytes) if bytes.len() > room => Answer::new(NO_ROOM, 0),
            Ok(bytes) => {
                area[..bytes.len()].copy_from_slice(&bytes);
                Answer::done(bytes.len())
            }
        };
        Self { answer, area }
    }

    /// The length of the frame, where one was written.
    pub fn length(&self) -> Option<usize> {
        match self.answer {
            Answer::Paper { number: 0, at } => Some(at as usize),
            _ => None,
        }
    }
}

/// The difference between the two sides of a call, each with its name.
pub fn difference(name: &str, call: &impl Debug, sides: [(&str, &Wrote); 2]) -> Difference {
    let head = Difference::in_call(name).row("with", format!("{call:?}"));
    sides.into_iter().fold(head, |rows, (side, wrote)| {
        rows.row(side, wrote.answer).row("", hex(&wrote.area))
    })
}

/// Makes the limit or the room just enough for a frame of this length, or one too small.
pub fn to_an_edge(random: &mut Random, length: usize, limit: &mut u32, room: &mut usize) {
    match random.below(4) {
        0 => *room = length,
        1 => *room = length - 1,
        2 => *limit = length as u32 - 4,
        _ => *limit = length as u32 - 5,
    }
}

// ---------------------------------------------------------------- drawing

/// The longest buffer that is drawn.
pub const LONGEST: usize = 28;

/// More bytes than the head of a frame takes, or a message without its arguments, or a pair, in such a buffer.
pub const ROW: usize = 64;

/// Text, most of the time; a byte of it changed, or any bytes.
pub fn contents(random: &mut Random) -> Vec<u8> {
    let length = random.index(LONGEST);
    let mut bytes: Vec<u8> = (0..length).map(|_| b' ' + random.below(95) as u8).collect();
    match random.below(4) {
        0 if length > 0 => inputs::damage(random, &mut bytes),
        1 => bytes.iter_mut().for_each(|byte| *byte = random.byte()),
        2 if length > 3 => bytes[..3].copy_from_slice("€".as_bytes()),
        _ => {}
    }
    bytes
}

/// A value that is right most of the time, in a buffer of this length.
pub fn drawn_value(random: &mut Random, room: u64) -> Value {
    let [kind, a, b] = drawn_numbers(random, room);
    [kind, a, b, drawn_flags(random, kind)]
}

/// No flags half of the time, and at times some that there are not.
fn drawn_flags(random: &mut Random, kind: u64) -> u64 {
    match random.below(32) {
        0 => 16 + random.below(2),
        1 => inputs::number(random),
        2..16 if kind != 1 => random.below(16),
        _ => 0,
    }
}

/// Kind, a, b.
fn drawn_numbers(random: &mut Random, room: u64) -> [u64; 3] {
    let kind = match random.below(16) {
        0 => 10 + random.below(3),
        _ => random.below(10),
    };
    match kind {
        0 | 1 => [kind, random.below(3).min(kind), unused(random)],
        2 => [
            kind,
            i64::from(inputs::number(random) as i32) as u64 ^ (unused(random) << 40),
            unused(random),
        ],
        3 => [
            kind,
            u64::from(inputs::number(random) as u32) ^ (unused(random) << 32),
            unused(random),
        ],
        4 | 5 => [kind, inputs::number(random), unused(random)],
        6 | 7 => {
            let length = if kind == 6 { 4 } else { 16 };
            let (start, _) = drawn_part(random, room);
            [
                kind,
                start.min(room.saturating_sub(length)),
                length + unused(random),
            ]
        }
        _ => {
            let (start, length) = drawn_part(random, room);
            [kind, start, length]
        }
    }
}

/// A start and a length, inside most of the time.
pub fn drawn_part(random: &mut Random, room: u64) -> (u64, u64) {
    match random.below(24) {
        0 => (inputs::number(random), inputs::number(random)),
        1 => (room, random.below(2)),
        2 => (room + 1, 0),
        _ => {
            let start = random.below(room + 1);
            (start, random.below(room - start + 1))
        }
    }
}

/// 0 but for one time in sixteen: what an unused number has to be.
pub fn unused(random: &mut Random) -> u64 {
    match random.below(16) {
        0 => 1 + random.below(3),
        _ => 0,
    }
}
