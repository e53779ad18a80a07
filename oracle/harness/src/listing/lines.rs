//! The listing as it has to be, made of what the Rust reads. The bytes are walked for what the Rust does not keep, the
//! order of a list and the bytes of a text, and each step of the walk is held to the Rust's values. Agents' frames are in
//! `sent.rs`.

use crate::{
    answers::{Answer, DONE},
    reader::{
        model::{self, Rooms, TABLE_FULL},
        rust::{ByRust, Content, head_by_rust},
    },
    tenth::NOT_FITTING,
    text::hex,
};
use spop::{
    frame::{FramePayload, Message},
    parser::parse_key_value_pair,
    types::{TypedData, typed_data},
    varint::decode_varint,
};
use std::{collections::HashMap, fmt::Display};

/// Whose frames an input has. A word tells the program that they are an agent's.
#[derive(Clone, Copy)]
pub enum Sender {
    Haproxy,
    Agent,
}

impl Sender {
    pub fn words(self) -> &'static [&'static str] {
        match self {
            Self::Haproxy => &[],
            Self::Agent => &["agent"],
        }
    }
}

/// How many bytes of its input the program reads.
pub const SEEN: usize = 65_536;

/// The longest frame that it reads, without the length bytes.
pub const LIMIT: u32 = 65_532;

pub const ROOMS: Rooms = Rooms {
    messages: 64,
    pairs: 256,
};

pub struct Listing {
    pub text: String,
    /// What stopped it, 0 where no byte was left.
    pub stop: Answer,
    /// Whether a text was not UTF-8.
    pub lossy: bool,
    /// How many of them were listed for the frame.
    messages: usize,
    pairs: usize,
}

/// The listing of an input.
pub fn of(sender: Sender, input: &[u8]) -> Listing {
    let mut listing = Listing {
        text: String::new(),
        stop: Answer::done(0),
        lossy: false,
        messages: 0,
        pairs: 0,
    };
    let seen = &input[..input.len().min(SEEN)];
    let mut rest = seen;
    for index in 0.. {
        listing.stop = match (rest, sender) {
            ([], _) => Answer::done(0),
            (_, Sender::Haproxy) => listing.frame(index, rest),
            (_, Sender::Agent) => listing.sent(index, rest),
        };
        match listing.stop {
            Answer::Paper { number: DONE, at } if at > 0 => rest = &rest[at as usize..],
            _ => break,
        }
    }
    listing.end(seen.len() - rest.len());
    listing
}

/// What the Rust answers, and 10 and 19, which it does not have, as the paper has them.
fn read(input: &[u8]) -> ByRust {
    let paper = model::frame(input, LIMIT, ROOMS);
    match paper.number {
        TABLE_FULL | NOT_FITTING => ByRust::refused(Answer::new(paper.number, paper.at)),
        _ => ByRust::read(input, LIMIT),
    }
}

/// The line of a frame, without its end.
pub fn frame_line(index: usize, [kind, stream, id]: [u64; 3], bytes: u64) -> String {
    format!("frame {index} type {kind} stream {stream} id {id} bytes {bytes}")
}

/// The end of a line with a value: its kind, and how it is shown.
pub fn value_end(value: &TypedData) -> String {
    let (kind, shown) = match value {
        TypedData::Null => (0, hex(&[])),
        TypedData::Bool(yes) => (1, u8::from(*yes).to_string()),
        TypedData::Int32(n) => (2, n.to_string()),
        TypedData::UInt32(n) => (3, n.to_string()),
        TypedData::Int64(n) => (4, n.to_string()),
        TypedData::UInt64(n) => (5, n.to_string()),
        TypedData::IPv4(address) => (6, hex(&address.octets())),
        TypedData::IPv6(address) => (7, hex(&address.octets())),
        TypedData::String(text) => (8, hex(text.as_bytes())),
        TypedData::Binary(data) => (9, hex(data)),
    };
    format!("kind {kind} value {shown}")
}

impl Listing {
    pub fn line(&mut self, line: impl Display) {
        self.text += &format!("{line}\n");
    }

    /// Adds the lines of the frame at the front of the input, where it is accepted.
    fn frame(&mut self, index: usize, input: &[u8]) -> Answer {
        let rust = read(input);
        let Answer::Paper { number: DONE, at } = rust.answer else {
            return rust.answer;
        };
        let frame = &input[..at as usize];
        let [kind, _, stream, id] = rust.head;
        self.line(frame_line(index, [kind, stream, id], at));
        (self.messages, self.pairs) = (0, 0);
        match self.records(frame, &rust.content) {
            Some([]) => rust.answer,
            _ => Answer::Unlisted("a frame whose bytes do not give what was read", None),
        }
    }

    /// What has no number of the paper gets a line that no program writes.
    fn end(&mut self, used: usize) {
        match self.stop {
            Answer::Paper { number, at } => self.line(format_args!("end {used} {number} {at}")),
            Answer::Unlisted(..) => self.line(self.stop),
        }
    }

    // Each of the following answers the bytes behind what it has listed, or nothing where bytes and values part.

    fn records<'a>(&mut self, frame: &'a [u8], content: &Content) -> Option<&'a [u8]> {
        let (_, payload) = head_by_rust(frame)?;
        match content {
            Content::Nothing => None,
            Content::Pairs(pairs) => self.list(payload, pairs.clone()),
            Content::Messages(frame) => match frame.payload() {
                FramePayload::ListOfMessages(messages) => messages
                    .iter()
                    .try_fold(payload, |rest, message| self.message(rest, message)),
                _ => None,
            },
        }
    }

    /// The pairs in the order of their bytes. Each is one of the map, and all of the map are met.
    fn list<'a>(
        &mut self,
        payload: &'a [u8],
        mut left: HashMap<String, TypedData>,
    ) -> Option<&'a [u8]> {
        let mut rest = payload;
        while !rest.is_empty() {
            let (_, (key, _)) = parse_key_value_pair(rest).ok()?;
            let value = left.remove(&key)?;
            rest = self.pair(rest, &key, &value)?;
        }
        left.is_empty().then_some(rest)
    }

    fn message<'a>(&mut self, input: &'a [u8], message: &Message) -> Option<&'a [u8]> {
        let (name, rest) = self.string(input, &message.name)?;
        let (count, rest) = rest.split_first()?;
        let index = self.messages;
        self.messages += 1;
        self.line(format_args!(
            "message {index} name {} args {count}",
            hex(name)
        ));
        let mut pairs = message.args.iter();
        let rest = pairs.try_fold(rest, |rest, (key, value)| self.pair(rest, key, value));
        rest.filter(|_| message.args.len() == usize::from(*count))
    }

    fn pair<'a>(&mut self, input: &'a [u8], key: &str, value: &TypedData) -> Option<&'a [u8]> {
        let (key, typed) = self.string(input, key)?;
        let (rest, again) = typed_data(typed).ok()?;
        let end = match value {
            TypedData::String(text) => {
                format!("kind 8 value {}", hex(self.string(&typed[1..], text)?.0))
            }
            _ => value_end(value),
        };
        let index = self.pairs;
        self.pairs += 1;
        self.line(format_args!("pair {index} key {} {end}", hex(key)));
        (again == *value).then_some(rest)
    }

    /// The bytes of a string, which have to give the Rust's text, and what stands behind them.
    fn string<'a>(&mut self, input: &'a [u8], text: &str) -> Option<(&'a [u8], &'a [u8])> {
        let (rest, length) = decode_varint(input).ok()?;
        let (bytes, behind) = rest.split_at_checked(usize::try_from(length).ok()?)?;
        self.lossy |= bytes != text.as_bytes();
        (String::from_utf8_lossy(bytes) == text).then_some((bytes, behind))
    }
}
