//! Frames that own their bytes, and builders of frames to write.

use crate::{
    lent::{self, Data, Pair},
    sys, Answer, FrameType, Metadata, Refusal, Scope, AGREED_FRAME,
};
use alloc::{string::String, vec, vec::Vec};
use core::{
    net::{IpAddr, Ipv4Addr, Ipv6Addr},
    ops::Range,
};

#[cfg(feature = "std")]
pub use crate::frames::{frames, Frames, StreamError};

pub type Text = crate::Text<Vec<u8>>;
pub type Value = crate::Value<Vec<u8>>;
pub type Argument = crate::Argument<Vec<u8>>;

// ---------------------------------------------------------------- what a frame holds

/// A message: a name, and arguments in their order. Names and keys may repeat.
#[derive(Clone, Debug, Default, PartialEq, Eq)]
pub struct Message {
    pub name: Text,
    pub arguments: Vec<Argument>,
}

impl Message {
    pub fn new(name: impl Into<Text>) -> Self {
        Self { name: name.into(), arguments: Vec::new() }
    }

    /// Adds an argument behind those that are there. Its kind is that of the value's type: `3u32` is a u32, and `3` an i32.
    pub fn argument(mut self, key: impl Into<Text>, value: impl Into<Value>) -> Self {
        self.arguments.push(Argument::new(key, value));
        self
    }

    /// The value of the first argument with this key. Others with it may stand behind it in `arguments`.
    pub fn get(&self, key: &str) -> Option<&Value> {
        first(&self.arguments, key)
    }
}

impl Argument {
    pub fn new(key: impl Into<Text>, value: impl Into<Value>) -> Self {
        Self { key: key.into(), value: value.into(), flags: 0 }
    }
}

fn first<'a>(arguments: &'a [Argument], key: &str) -> Option<&'a Value> {
    let found = arguments.iter().find(|argument| argument.key == key);
    found.map(|argument| &argument.value)
}

/// An action of an ACK.
#[derive(Clone, Debug, PartialEq, Eq)]
pub enum Action {
    SetVar { scope: Scope, name: Text, value: Value, flags: u8 },
    UnsetVar { scope: Scope, name: Text },
}

// ---------------------------------------------------------------- reading

/// A frame that was read. A NOTIFY has messages, and the other two have pairs.
#[derive(Clone, Debug, PartialEq, Eq)]
pub struct Frame {
    pub kind: FrameType,
    pub metadata: Metadata,
    /// How many bytes it had, with its length bytes.
    pub used: usize,
    /// The messages of a NOTIFY, in order.
    pub messages: Vec<Message>,
    /// The pairs of a HAPROXY-HELLO or a HAPROXY-DISCONNECT, in order.
    pub pairs: Vec<Argument>,
}

impl Frame {
    /// The value of a pair by its key, in a HAPROXY-HELLO or a HAPROXY-DISCONNECT.
    pub fn get(&self, key: &str) -> Option<&Value> {
        first(&self.pairs, key)
    }
}

impl From<lent::Frame<'_>> for Frame {
    fn from(frame: lent::Frame<'_>) -> Self {
        let is_notify = frame.kind() == FrameType::Notify;
        let pairs = (!is_notify).then(|| frame.pairs().map(Argument::from).collect());
        let messages = frame
            .messages()
            .map(|(name, arguments)| Message { name: name.into(), arguments: arguments.map(Argument::from).collect() });
        Self {
            kind: frame.kind(),
            metadata: frame.metadata(),
            used: frame.used(),
            messages: messages.collect(),
            pairs: pairs.unwrap_or_default(),
        }
    }
}

/// Reads the frame at the front of `input`, as [`lent::read_frame`] does, in tables that grow as it needs.
///
/// A KV list of more than [`Tables::MOST_KEYS`] pairs is refused with 10.
///
/// ```
/// use muleflurry::{owned, Value, AGREED_FRAME};
///
/// let input = b"\0\0\0\x19\x03\0\0\0\x01\x01\x02\x05delay\x02\x04slot\x03\x07\x02ok\x11";
/// let frame = owned::read_frame(input, AGREED_FRAME).unwrap();
/// assert_eq!(frame.used, 29);
/// assert_eq!(frame.messages[0].name, "delay");
/// assert_eq!(frame.messages[0].get("slot"), Some(&Value::U32(7)));
/// ```
pub fn read_frame(input: &[u8], limit: u32) -> Result<Frame, Answer> {
    Tables::default().read(input, limit).map(Frame::from)
}

/// The frames at the front of a buffer that were read, and what stopped the reading there.
#[derive(Clone, Debug, PartialEq, Eq)]
pub struct FramesRead {
    /// The frames in the order of the bytes.
    pub frames: Vec<Frame>,
    /// How many bytes they have together. What is behind these is the frame that stopped the reading, from where its place counts.
    pub used: usize,
    /// What that frame is answered with. Where no byte is left, four are missing.
    pub stopped: Answer,
}

/// Reads all frames at the front of `input`, many by each call of [`lent::read_frames`], and one that is too long for its tables as
/// [`read_frame`] does. So it answers as that does, one frame after the other.
///
/// ```
/// use muleflurry::{owned, Answer, AGREED_FRAME};
///
/// let input = b"\0\0\0\x19\x03\0\0\0\x01\x01\x02\x05delay\x02\x04slot\x03\x07\x02ok\x11".repeat(2);
/// let read = owned::read_frames(&input, AGREED_FRAME);
/// assert_eq!(read.frames[1].messages[0].name, "delay");
/// assert_eq!((read.used, read.stopped), (58, Answer::Wait { missing: 4 }));
/// ```
pub fn read_frames(input: &[u8], limit: u32) -> FramesRead {
    let mut tables = Tables::default();
    // A frame has eleven bytes or more, and a record two.
    let mut rows = vec![sys::Row::default(); (input.len() / 11).min(256)];
    let mut messages = vec![sys::Message::default(); (input.len() / 2).min(1024)];
    let mut pairs = vec![Pair::default(); (input.len() / 2).min(2048)];
    let (mut frames, mut used) = (Vec::new(), 0);
    loop {
        let read = lent::read_frames(&input[used..], limit, &mut rows, &mut messages, &mut pairs);
        frames.extend(read.frames().map(Frame::from));
        used += read.used();
        let mut stopped = read.stopped();
        if matches!(stopped, Answer::Refused(Refusal { number: Refusal::TABLE_FULL, .. })) {
            match tables.read(&input[used..], limit) {
                Ok(frame) => {
                    used += frame.used();
                    frames.push(frame.into());
                    continue;
                }
                Err(answer) => stopped = answer,
            }
        }
        return FramesRead { frames, used, stopped };
    }
}

/// Tables for the frames that are read one after the other. They grow as a frame needs, and stay so for the next.
#[derive(Clone, Debug, Default)]
pub struct Tables {
    messages: Vec<sys::Message>,
    pairs: Vec<Pair>,
}

impl Tables {
    /// The most pairs of a KV list. Its keys are compared each with each, so without an end the time for one frame would grow with the
    /// square of its length. A HAPROXY-HELLO has about five.
    ///
    /// A frame of the agreed size has no more: they all have different keys, and so all but 130 of them take four bytes or more.
    pub const MOST_KEYS: usize = AGREED_FRAME as usize / 4 + 64;

    /// The rooms of the first tables.
    const FIRST: usize = 32;

    pub fn read<'a>(&'a mut self, input: &'a [u8], limit: u32) -> Result<lent::Frame<'a>, Answer> {
        let room = Self::room(input);
        loop {
            let pairs = self.pairs.len().min(room);
            let head = lent::read_head(input, limit, &mut self.messages, &mut self.pairs[..pairs]);
            match head {
                Ok(head) => return Ok(head.frame(input, &self.messages, &self.pairs)),
                Err(Answer::Refused(Refusal { number: Refusal::TABLE_FULL, .. })) if pairs < room => self.grow(room),
                Err(answer) => return Err(answer),
            }
        }
    }

    /// The most records of either table that a frame can need. A record has two bytes or more, so with as many as that it is not
    /// refused with 10, but for a KV list that has too many keys.
    fn room(input: &[u8]) -> usize {
        match input {
            [_, _, _, _, 1 | 2, body @ ..] => (body.len() / 2).min(Self::MOST_KEYS),
            _ => input.len() / 2,
        }
    }

    fn grow(&mut self, room: usize) {
        let grown = (4 * self.pairs.len()).max(Self::FIRST).min(room);
        self.pairs.resize(grown.max(self.pairs.len()), Pair::default());
        self.messages.resize(grown.max(self.messages.len()), sys::Message::default());
    }
}

// ---------------------------------------------------------------- writing

/// A NOTIFY to be written.
///
/// ```
/// use muleflurry::{owned::{Message, Notify}, Metadata, AGREED_FRAME};
///
/// let upload = Message::new("upload").argument("slot", 3u32).argument("slot", 17u32);
/// let metadata = Metadata { stream_id: 1, frame_id: 1, ..Metadata::default() };
/// let bytes = Notify::new(metadata).message(upload).write(AGREED_FRAME).unwrap();
/// assert_eq!(bytes, *b"\0\0\0\x1d\x03\0\0\0\x01\x01\x01\x06upload\x02\x04slot\x03\x03\x04slot\x03\x11");
/// ```
#[derive(Clone, Debug, Default, PartialEq, Eq)]
pub struct Notify {
    pub metadata: Metadata,
    pub messages: Vec<Message>,
}

impl Notify {
    pub fn new(metadata: Metadata) -> Self {
        Self { metadata, messages: Vec::new() }
    }

    /// Adds a message behind those that are there.
    pub fn message(mut self, message: Message) -> Self {
        self.messages.push(message);
        self
    }

    /// The frame's bytes, or why it is refused. The place of 14 to 17 is the index of a message, or of an argument counted over all
    /// messages.
    pub fn write(&self, limit: u32) -> Result<Vec<u8>, Refusal> {
        let (mut pool, mut pairs) = (Pool::default(), Vec::new());
        let mut messages = Vec::with_capacity(self.messages.len());
        for message in &self.messages {
            let (name, first) = (pool.put(message.name.as_bytes()), pairs.len());
            pairs.extend(message.arguments.iter().map(|argument| pool.pair(argument)));
            messages.push(sys::Message::new(name, first..pairs.len()));
        }
        let room = pool.room(messages.len() + pairs.len());
        written(room, |out| lent::write_notify(self.metadata, limit, &pool.buffer, &messages, &pairs, out))
    }
}

/// An ACK to be written. The metadata are those of the NOTIFY that it answers.
///
/// ```
/// use muleflurry::{owned::Ack, Metadata, Scope, AGREED_FRAME};
///
/// let metadata = Metadata { stream_id: 1, frame_id: 2, ..Metadata::default() };
/// let ack = Ack::new(metadata).set_var(Scope::Transaction, "slot_a", 7u32).unset_var(Scope::Session, "b");
/// let bytes = ack.write(AGREED_FRAME).unwrap();
/// assert_eq!(bytes, *b"\0\0\0\x18\x67\0\0\0\x01\x01\x02\x01\x03\x02\x06slot_a\x03\x07\x02\x02\x01\x01b");
/// ```
#[derive(Clone, Debug, Default, PartialEq, Eq)]
pub struct Ack {
    pub metadata: Metadata,
    pub actions: Vec<Action>,
}

impl Ack {
    pub fn new(metadata: Metadata) -> Self {
        Self { metadata, actions: Vec::new() }
    }

    /// Adds an action behind those that are there.
    pub fn action(mut self, action: Action) -> Self {
        self.actions.push(action);
        self
    }

    pub fn set_var(self, scope: Scope, name: impl Into<Text>, value: impl Into<Value>) -> Self {
        self.action(Action::SetVar { scope, name: name.into(), value: value.into(), flags: 0 })
    }

    pub fn unset_var(self, scope: Scope, name: impl Into<Text>) -> Self {
        self.action(Action::UnsetVar { scope, name: name.into() })
    }

    /// The frame's bytes, or why it is refused. The place of 14 to 16 is the index of an action.
    pub fn write(&self, limit: u32) -> Result<Vec<u8>, Refusal> {
        let mut pool = Pool::default();
        let actions: Vec<sys::Action> = self.actions.iter().map(|action| pool.action(action)).collect();
        let room = pool.room(actions.len());
        written(room, |out| lent::write_actions(self.metadata, limit, &pool.buffer, &actions, out))
    }
}

/// A frame that holds a KV list, to be written: a HELLO or a DISCONNECT of either side.
///
/// ```
/// use muleflurry::{owned::Kv, AGREED_FRAME};
///
/// let bytes = Kv::agent_disconnect(0, "normal").write(AGREED_FRAME).unwrap();
/// assert_eq!(bytes, *b"\0\0\0\x25\x66\0\0\0\x01\0\0\x0bstatus-code\x03\x00\x07message\x08\x06normal");
/// ```
#[derive(Clone, Debug, PartialEq, Eq)]
pub struct Kv {
    pub kind: FrameType,
    pub metadata: Metadata,
    pub pairs: Vec<Argument>,
}

impl Kv {
    pub fn new(kind: FrameType) -> Self {
        Self { kind, metadata: Metadata::default(), pairs: Vec::new() }
    }

    /// What HAProxy sends first. Versions and capabilities are lists with commas between.
    pub fn haproxy_hello(versions: &str, max_frame_size: u32, capabilities: &str) -> Self {
        Self::new(FrameType::HaproxyHello)
            .pair("supported-versions", versions)
            .pair("max-frame-size", max_frame_size)
            .pair("capabilities", capabilities)
    }

    /// What an agent answers to it.
    pub fn agent_hello(version: &str, max_frame_size: u32, capabilities: &str) -> Self {
        Self::new(FrameType::AgentHello)
            .pair("version", version)
            .pair("max-frame-size", max_frame_size)
            .pair("capabilities", capabilities)
    }

    pub fn haproxy_disconnect(status: u32, message: &str) -> Self {
        Self::new(FrameType::HaproxyDisconnect).pair("status-code", status).pair("message", message)
    }

    pub fn agent_disconnect(status: u32, message: &str) -> Self {
        Self::new(FrameType::AgentDisconnect).pair("status-code", status).pair("message", message)
    }

    /// Adds a pair behind those that are there. A key that is met twice is refused where the frame is written.
    pub fn pair(mut self, key: impl Into<Text>, value: impl Into<Value>) -> Self {
        self.pairs.push(Argument::new(key, value));
        self
    }

    /// The frame's bytes, or why it is refused. The place of 9 and of 14 to 16 is the index of a pair.
    pub fn write(&self, limit: u32) -> Result<Vec<u8>, Refusal> {
        let mut pool = Pool::default();
        let pairs: Vec<Pair> = self.pairs.iter().map(|pair| pool.pair(pair)).collect();
        let room = pool.room(pairs.len());
        written(room, |out| lent::write_kv(self.kind, self.metadata, limit, &pool.buffer, &pairs, out))
    }
}

/// The bytes of all names, keys and values of a frame, one behind the other.
#[derive(Default)]
struct Pool {
    buffer: Vec<u8>,
}

impl Pool {
    /// More than the head of a frame has, and more than a record has besides the bytes that it points at.
    const HEAD: usize = 32;
    const RECORD: usize = 32;

    fn put(&mut self, bytes: &[u8]) -> Range<usize> {
        let start = self.buffer.len();
        self.buffer.extend_from_slice(bytes);
        start..self.buffer.len()
    }

    fn data(&mut self, value: &Value, flags: u8) -> Data {
        let data = match value {
            Value::Null => Data::null(),
            Value::Bool(b) => Data::bool(*b),
            Value::I32(n) => Data::i32(*n),
            Value::U32(n) => Data::u32(*n),
            Value::I64(n) => Data::i64(*n),
            Value::U64(n) => Data::u64(*n),
            Value::Ipv4(address) => Data::ipv4(self.put(&address.octets()).start),
            Value::Ipv6(address) => Data::ipv6(self.put(&address.octets()).start),
            Value::String(text) => Data::string(self.put(text.as_bytes())),
            Value::Binary(bytes) => Data::binary(self.put(bytes)),
        };
        data.with_flags(flags)
    }

    fn pair(&mut self, argument: &Argument) -> Pair {
        let key = self.put(argument.key.as_bytes());
        Pair::new(key, self.data(&argument.value, argument.flags))
    }

    fn action(&mut self, action: &Action) -> sys::Action {
        match action {
            Action::SetVar { scope, name, value, flags } => {
                let name = self.put(name.as_bytes());
                sys::Action::set_var(*scope, name, self.data(value, *flags))
            }
            Action::UnsetVar { scope, name } => sys::Action::unset_var(*scope, self.put(name.as_bytes())),
        }
    }

    /// Room enough for a frame of so many records.
    fn room(&self, records: usize) -> usize {
        Self::HEAD + self.buffer.len() + Self::RECORD * records
    }
}

/// What a writer leaves in an output of so many bytes.
fn written(room: usize, write: impl FnOnce(&mut [u8]) -> Result<usize, Refusal>) -> Result<Vec<u8>, Refusal> {
    let mut out = vec![0; room];
    let length = write(&mut out)?;
    out.truncate(length);
    Ok(out)
}

// ---------------------------------------------------------------- values from others

impl From<crate::Text<&[u8]>> for Text {
    fn from(text: crate::Text<&[u8]>) -> Self {
        Self(text.0.to_vec())
    }
}

impl From<crate::Value<&[u8]>> for Value {
    fn from(value: crate::Value<&[u8]>) -> Self {
        value.map(<[u8]>::to_vec)
    }
}

impl From<crate::Argument<&[u8]>> for Argument {
    fn from(argument: crate::Argument<&[u8]>) -> Self {
        Self { key: argument.key.into(), value: argument.value.into(), flags: argument.flags }
    }
}

impl From<&str> for Text {
    fn from(text: &str) -> Self {
        Self(text.into())
    }
}

impl From<String> for Text {
    fn from(text: String) -> Self {
        Self(text.into_bytes())
    }
}

/// A type's value is of the kind that has its name.
macro_rules! from {
    ($($kind:ty => $variant:ident,)*) => {
        $(
            impl From<$kind> for Value {
                fn from(value: $kind) -> Self {
                    Self::$variant(value.into())
                }
            }
        )*
    };
}

from! {
    bool => Bool,
    i32 => I32,
    u32 => U32,
    i64 => I64,
    u64 => U64,
    Ipv4Addr => Ipv4,
    Ipv6Addr => Ipv6,
    &str => String,
    String => String,
    Text => String,
    &[u8] => Binary,
    Vec<u8> => Binary,
}

impl From<IpAddr> for Value {
    fn from(address: IpAddr) -> Self {
        match address {
            IpAddr::V4(address) => address.into(),
            IpAddr::V6(address) => address.into(),
        }
    }
}
