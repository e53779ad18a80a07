//! What the Rust reads, before it converts a HELLO or a DISCONNECT, and whether that is what the paper has.

use super::model::{Pair, Read};
use crate::{
    answers::{self, Answer},
    records,
};
use spop::{
    SpopFrame,
    frame::{FrameFlags, FramePayload, FrameType, Message},
    parser::{parse_frame_with_limit, parse_key_value_pairs},
    types::TypedData,
    varint::decode_varint,
};
use std::{borrow::Cow, collections::HashMap};

/// What the Rust answers where a list lacks what its type needs. No data type stands at this place.
const NOT_CONVERTED: Answer = Answer::Paper { number: 8, at: 4 };

#[derive(Debug)]
pub enum Content {
    Nothing,
    Pairs(HashMap<String, TypedData>),
    Messages(Box<dyn SpopFrame>),
}

#[derive(Debug)]
pub struct ByRust {
    pub answer: Answer,
    /// Type, flags and ids.
    pub head: [u64; 4],
    pub content: Content,
}

impl ByRust {
    pub fn read(input: &[u8], limit: u32) -> Self {
        match parse_frame_with_limit(input, limit) {
            Ok((rest, frame)) => Self::accepted(input, answers::accepted(input, rest), frame),
            Err(error) => match answers::refused(input, error) {
                NOT_CONVERTED => Self::list(input),
                answer => Self::refused(answer),
            },
        }
    }

    pub fn refused(answer: Answer) -> Self {
        Self {
            answer,
            head: [0; 4],
            content: Content::Nothing,
        }
    }

    fn accepted(input: &[u8], answer: Answer, frame: Box<dyn SpopFrame>) -> Self {
        let metadata = frame.metadata();
        let head = [
            u64::from(frame.frame_type().to_u8()),
            u64::from(u32::from_be_bytes(metadata.flags.to_be_bytes())),
            metadata.stream_id,
            metadata.frame_id,
        ];
        let content = match frame.frame_type() {
            FrameType::Notify => Content::Messages(frame),
            _ => Self::list(input).content,
        };
        Self {
            answer,
            head,
            content,
        }
    }

    /// The list of a whole frame, by the functions that the Rust's reader of frames is made of.
    fn list(input: &[u8]) -> Self {
        let end = 4 + u32::from_be_bytes([input[0], input[1], input[2], input[3]]) as usize;
        let unlisted = |what| Self::refused(Answer::Unlisted(what, None));
        let Some((head, payload)) = head_by_rust(&input[..end]) else {
            return unlisted("a head that is refused on its own");
        };
        match parse_key_value_pairs(payload) {
            Ok(([], FramePayload::KVList(pairs))) => Self {
                answer: Answer::done(end),
                head,
                content: Content::Pairs(pairs),
            },
            _ => unlisted("a list that is refused on its own"),
        }
    }

    pub fn agrees(&self, read: &Read, input: &[u8]) -> bool {
        if self.answer != Answer::new(read.number, read.at) {
            return false;
        }
        match &self.content {
            Content::Nothing => read.number != answers::DONE,
            Content::Pairs(pairs) => {
                read.head[..4] == self.head
                    && read.messages.is_empty()
                    && same_set(pairs, read, input)
            }
            Content::Messages(frame) => match frame.payload() {
                FramePayload::ListOfMessages(messages) => {
                    read.head[..4] == self.head && same_messages(messages, read, input)
                }
                _ => false,
            },
        }
    }
}

/// Type, flags and ids, and the payload.
pub fn head_by_rust(frame: &[u8]) -> Option<([u64; 4], &[u8])> {
    let kind = FrameType::from_u8(frame[4]).ok()?;
    let flags = u32::from_be_bytes([frame[5], frame[6], frame[7], frame[8]]);
    let flags = FrameFlags::from_u32(flags).ok()?.to_be_bytes();
    let (rest, stream) = decode_varint(&frame[9..]).ok()?;
    let (payload, frame) = decode_varint(rest).ok()?;
    let flags = u64::from(u32::from_be_bytes(flags));
    Some(([u64::from(kind.to_u8()), flags, stream, frame], payload))
}

/// The paper's keys have different texts, so as many pairs as the map has are all of them.
fn same_set(pairs: &HashMap<String, TypedData>, read: &Read, input: &[u8]) -> bool {
    let listed = |record: &Pair| {
        let value = lossy(input, record[0], record[1]).and_then(|key| pairs.get(&*key));
        value.is_some_and(|value| same_value(value, record, input))
    };
    pairs.len() == read.pairs.len() && read.pairs.iter().all(listed)
}

/// Messages and arguments in their order, also arguments that repeat a name.
fn same_messages(messages: &[Message], read: &Read, input: &[u8]) -> bool {
    let mut pairs = 0;
    let same = messages
        .iter()
        .zip(&read.messages)
        .all(|(message, record)| {
            let arguments = read.pairs.get(pairs..pairs + message.args.len());
            let run = [pairs as u64, message.args.len() as u64];
            pairs += message.args.len();
            run == record[2..]
                && is_text(&message.name, record[0], record[1], input)
                && arguments.is_some_and(|records| same_arguments(message, records, input))
        });
    same && messages.len() == read.messages.len() && pairs == read.pairs.len()
}

fn same_arguments(message: &Message, records: &[Pair], input: &[u8]) -> bool {
    let mut both = message.args.iter().zip(records);
    both.all(|((key, value), record)| same_pair(key, value, record, input))
}

pub fn same_pair(key: &str, value: &TypedData, record: &Pair, input: &[u8]) -> bool {
    is_text(key, record[0], record[1], input) && same_value(value, record, input)
}

/// Of a text the Rust has the lossy form alone, and a record has the place of its bytes. Flags it has none.
fn same_value(value: &TypedData, record: &Pair, input: &[u8]) -> bool {
    let [_, _, kind, a, b, _] = *record;
    let numbers = [kind, a, b];
    match value {
        TypedData::Null => numbers == [0, 0, 0],
        TypedData::Bool(yes) => numbers == [1, u64::from(*yes), 0],
        TypedData::Int32(n) => numbers == [2, i64::from(*n) as u64, 0],
        TypedData::UInt32(n) => numbers == [3, u64::from(*n), 0],
        TypedData::Int64(n) => numbers == [4, *n as u64, 0],
        TypedData::UInt64(n) => numbers == [5, *n, 0],
        TypedData::IPv4(address) => kind == 6 && is_part(&address.octets(), a, b, input),
        TypedData::IPv6(address) => kind == 7 && is_part(&address.octets(), a, b, input),
        TypedData::String(text) => kind == 8 && is_text(text, a, b, input),
        TypedData::Binary(data) => kind == 9 && is_part(data, a, b, input),
    }
}

fn lossy(input: &[u8], start: u64, length: u64) -> Option<Cow<'_, str>> {
    let bytes = records::part(input, start, length).ok()?;
    Some(String::from_utf8_lossy(bytes))
}

fn is_text(text: &str, start: u64, length: u64, input: &[u8]) -> bool {
    lossy(input, start, length).is_some_and(|found| found == text)
}

fn is_part(bytes: &[u8], start: u64, length: u64, input: &[u8]) -> bool {
    records::part(input, start, length) == Ok(bytes)
}
