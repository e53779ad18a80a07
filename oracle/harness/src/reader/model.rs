//! Reading as the paper has it, in its plainest form. It calls neither the Rust nor the port, so that each can be
//! compared with it.

use crate::{
    answers,
    port::{ACTION_WIDTH, MESSAGE_WIDTH, PAIR_WIDTH, VALUE_WIDTH},
    records::{self, REPEATED},
    tenth::NOT_FITTING,
};
use std::borrow::Cow;

pub const OVERSIZE: u64 = 2;
pub const TOO_SOON: u64 = 3;
pub const UNKNOWN: u64 = 4;
pub const ABORTED: u64 = 5;
pub const AGENTS: u64 = 6;
pub const TOO_LARGE: u64 = 7;
pub const NO_TYPE: u64 = 8;
pub const TABLE_FULL: u64 = 10;
pub const UNKNOWN_ACTION: u64 = 18;

/// The place of a refusal that is about the frame as a whole.
const FRAME: u64 = 4;

/// A number of refusal, and the place or the missing bytes.
pub type Refusal = (u64, u64);

/// Key start, key length, kind, a, b, flags.
pub type Pair = [u64; PAIR_WIDTH];

/// Name start, name length, first pair, pair count.
pub type Message = [u64; MESSAGE_WIDTH];

/// Set or unset, scope, name start, name length, kind, a, b, flags.
pub type Action = [u64; ACTION_WIDTH];

/// How many records the tables have room for.
#[derive(Clone, Copy, PartialEq)]
pub struct Rooms {
    pub messages: usize,
    pub pairs: usize,
}

impl Rooms {
    pub const ENDLESS: Self = Self {
        messages: usize::MAX,
        pairs: usize::MAX,
    };

    /// Of tables with so many numbers.
    pub fn of([messages, pairs]: [usize; 2]) -> Self {
        Self {
            messages: messages / MESSAGE_WIDTH,
            pairs: pairs / PAIR_WIDTH,
        }
    }
}

pub struct Read {
    pub number: u64,
    /// The bytes used, the bytes missing, or the place.
    pub at: u64,
    /// Type, flags, stream id, frame id, message count, pair count; all 0 after a refusal.
    pub head: [u64; 6],
    /// The records that were met up to the answer, also where it is a refusal.
    pub messages: Vec<Message>,
    pub pairs: Vec<Pair>,
}

/// Reads the frame at the front of the input.
pub fn frame(input: &[u8], limit: u32, rooms: Rooms) -> Read {
    let mut tables = Tables {
        rooms,
        messages: Vec::new(),
        pairs: Vec::new(),
    };
    let outcome = whole(input, limit).and_then(|frame| {
        let head = tables.fill(frame)?;
        Ok((head, frame.len() as u64))
    });
    let Tables {
        messages, pairs, ..
    } = tables;
    let counts = [messages.len() as u64, pairs.len() as u64];
    let (number, at, head) = match outcome {
        Ok(([kind, flags, stream, frame], used)) => {
            let head = [kind, flags, stream, frame, counts[0], counts[1]];
            (answers::DONE, used, head)
        }
        Err((number, at)) => (number, at, [0; 6]),
    };
    Read {
        number,
        at,
        head,
        messages,
        pairs,
    }
}

/// Reads the pair at the front of the input, and answers how many bytes it has.
pub fn pair(input: &[u8]) -> Result<(Pair, u64), Refusal> {
    let mut bytes = Bytes { all: input, at: 0 };
    Ok((bytes.pair()?, bytes.at as u64))
}

/// Where the payload of a whole frame starts, if it is read.
pub fn payload(frame: &[u8]) -> Option<u64> {
    let mut bytes = Bytes { all: frame, at: 4 };
    bytes.head(false).ok().map(|_| bytes.at as u64)
}

/// The frame with its length field.
pub fn whole(input: &[u8], limit: u32) -> Result<&[u8], Refusal> {
    let Some(field) = input.first_chunk::<4>() else {
        return Err((answers::WAIT, 4 - input.len() as u64));
    };
    let length = u32::from_be_bytes(*field);
    if length > limit {
        return Err((OVERSIZE, FRAME));
    }
    let end = 4 + length as usize;
    match input.get(..end) {
        Some(frame) => Ok(frame),
        None => Err((answers::WAIT, (end - input.len()) as u64)),
    }
}

/// What an agent's frame comes to.
pub struct Sent {
    pub number: u64,
    /// The bytes used, the bytes missing, or the place.
    pub at: u64,
    /// Type, flags, stream id, frame id, pair count, action count; all 0 after a refusal.
    pub head: [u64; 6],
    /// None after a refusal.
    pub pairs: Vec<Pair>,
    pub actions: Vec<Action>,
}

/// Reads the agent's frame at the front of the input, with room for so many pairs and so many actions.
pub fn agent_frame(input: &[u8], limit: u32, [pairs, actions]: [usize; 2]) -> Sent {
    let outcome = whole(input, limit).and_then(|frame| {
        let mut bytes = Bytes { all: frame, at: 4 };
        let [kind, flags, stream, id] = bytes.head(true)?;
        let mut tables = Tables {
            rooms: Rooms { messages: 0, pairs },
            messages: Vec::new(),
            pairs: Vec::new(),
        };
        let mut met = Vec::new();
        match kind {
            103 => met = bytes.actions(actions)?,
            _ => tables.fill_list(&mut bytes)?,
        }
        let counts = [tables.pairs.len() as u64, met.len() as u64];
        let head = [kind, flags, stream, id, counts[0], counts[1]];
        Ok((frame.len() as u64, head, tables.pairs, met))
    });
    let (number, (at, head, pairs, actions)) = match outcome {
        Ok(read) => (answers::DONE, read),
        Err((number, at)) => (number, (at, [0; 6], Vec::new(), Vec::new())),
    };
    Sent {
        number,
        at,
        head,
        pairs,
        actions,
    }
}

// ---------------------------------------------------------------- tables

struct Tables {
    rooms: Rooms,
    messages: Vec<Message>,
    pairs: Vec<Pair>,
}

impl Tables {
    /// Answers type, flags and ids.
    fn fill(&mut self, frame: &[u8]) -> Result<[u64; 4], Refusal> {
        let mut bytes = Bytes { all: frame, at: 4 };
        let head = bytes.head(false)?;
        match head[0] {
            3 => self.fill_messages(&mut bytes)?,
            _ => self.fill_list(&mut bytes)?,
        }
        Ok(head)
    }

    fn fill_list(&mut self, bytes: &mut Bytes) -> Result<(), Refusal> {
        let mut keys: Vec<Cow<str>> = Vec::new();
        while !bytes.at_end() {
            let pair = bytes.pair()?;
            let key = bytes.text(&pair);
            if keys.contains(&key) {
                self.pairs.push(pair);
                return bytes.refuse(REPEATED);
            }
            keys.push(key);
            self.add_pair(pair, bytes)?;
        }
        Ok(())
    }

    fn fill_messages(&mut self, bytes: &mut Bytes) -> Result<(), Refusal> {
        while !bytes.at_end() {
            let [start, length] = bytes.string()?;
            let count = bytes.byte()?;
            let first = self.pairs.len() as u64;
            if self.messages.len() == self.rooms.messages {
                return bytes.refuse(TABLE_FULL);
            }
            self.messages.push([start, length, first, u64::from(count)]);
            for _ in 0..count {
                let pair = bytes.pair()?;
                self.add_pair(pair, bytes)?;
            }
        }
        Ok(())
    }

    fn add_pair(&mut self, pair: Pair, bytes: &Bytes) -> Result<(), Refusal> {
        if self.pairs.len() == self.rooms.pairs {
            return bytes.refuse(TABLE_FULL);
        }
        self.pairs.push(pair);
        Ok(())
    }
}

// ---------------------------------------------------------------- bytes

/// Some bytes, of which those before `at` have been read. Starts and places count from the first one.
pub struct Bytes<'a> {
    pub all: &'a [u8],
    pub at: usize,
}

impl<'a> Bytes<'a> {
    pub fn at_end(&self) -> bool {
        self.at == self.all.len()
    }

    fn refuse<T>(&self, number: u64) -> Result<T, Refusal> {
        Err((number, self.at as u64))
    }

    pub fn byte(&mut self) -> Result<u8, Refusal> {
        let Some(byte) = self.all.get(self.at) else {
            return self.refuse(TOO_SOON);
        };
        self.at += 1;
        Ok(*byte)
    }

    /// The start and the length of that many bytes.
    pub fn take(&mut self, length: u64) -> Result<[u64; 2], Refusal> {
        if length > (self.all.len() - self.at) as u64 {
            return self.refuse(TOO_SOON);
        }
        let start = self.at as u64;
        self.at += length as usize;
        Ok([start, length])
    }

    pub fn number(&mut self) -> Result<u64, Refusal> {
        let first = self.byte()?;
        if first < 240 {
            return Ok(u64::from(first));
        }
        let mut sum = u128::from(first);
        for place in 2.. {
            let byte = self.byte()?;
            if place == 10 && byte > 15 {
                return self.refuse(NOT_FITTING);
            }
            sum += u128::from(byte) << (7 * place - 10);
            if sum > u128::from(u64::MAX) {
                return self.refuse(TOO_LARGE);
            }
            if byte < 128 {
                break;
            }
        }
        Ok(sum as u64)
    }

    pub fn string(&mut self) -> Result<[u64; 2], Refusal> {
        let length = self.number()?;
        self.take(length)
    }

    /// Kind, a, b, flags.
    fn value(&mut self) -> Result<[u64; VALUE_WIDTH], Refusal> {
        let byte = self.byte()?;
        let kind = u64::from(byte % 16);
        let [a, b] = match kind {
            0 => [0, 0],
            1 => [u64::from(byte >> 4) % 2, 0],
            2 => [i64::from(self.number()? as i32) as u64, 0],
            3 => [u64::from(self.number()? as u32), 0],
            4 | 5 => [self.number()?, 0],
            6 => self.take(4)?,
            7 => self.take(16)?,
            8 | 9 => self.string()?,
            _ => return self.refuse(NO_TYPE),
        };
        Ok([kind, a, b, records::flags_read(byte)])
    }

    fn pair(&mut self) -> Result<Pair, Refusal> {
        let [start, length] = self.string()?;
        let [kind, a, b, flags] = self.value()?;
        Ok([start, length, kind, a, b, flags])
    }

    /// The actions up to the end.
    fn actions(&mut self, room: usize) -> Result<Vec<Action>, Refusal> {
        let mut met = Vec::new();
        while !self.at_end() {
            let action = self.action()?;
            if met.len() == room {
                return self.refuse(TABLE_FULL);
            }
            met.push(action);
        }
        Ok(met)
    }

    fn action(&mut self) -> Result<Action, Refusal> {
        let verb = self.byte_of(&[1, 2])?;
        self.byte_of(&[4 - verb])?;
        let scope = self.byte_of(&[0, 1, 2, 3, 4])?;
        let [start, length] = self.string()?;
        let [kind, a, b, flags] = match verb {
            1 => self.value()?,
            _ => [0; VALUE_WIDTH],
        };
        let [verb, scope] = [verb, scope].map(u64::from);
        Ok([verb, scope, start, length, kind, a, b, flags])
    }

    /// A byte that is one of these.
    fn byte_of(&mut self, known: &[u8]) -> Result<u8, Refusal> {
        let byte = self.byte()?;
        match known.contains(&byte) {
            true => Ok(byte),
            false => self.refuse(UNKNOWN_ACTION),
        }
    }

    /// The lossy text of a pair's key, by which keys are compared.
    fn text(&self, pair: &Pair) -> Cow<'a, str> {
        let start = pair[0] as usize;
        String::from_utf8_lossy(&self.all[start..start + pair[1] as usize])
    }

    /// Type, flags and ids.
    pub fn head(&mut self, agents: bool) -> Result<[u64; 4], Refusal> {
        let kind = self.byte()?;
        if !matches!(kind, 1..=3 | 101..=103) {
            return Err((UNKNOWN, FRAME));
        }
        let flags = self.flags()?;
        if flags % 2 == 0 || flags > 3 {
            return Err((UNKNOWN, FRAME));
        }
        if flags == 3 {
            return Err((ABORTED, FRAME));
        }
        let (stream, frame) = (self.number()?, self.number()?);
        if (kind > 100) != agents {
            return Err((AGENTS, FRAME));
        }
        Ok([u64::from(kind), u64::from(flags), stream, frame])
    }

    fn flags(&mut self) -> Result<u32, Refusal> {
        let [start, _] = self.take(4)?;
        let bytes = &self.all[start as usize..self.at];
        Ok(bytes
            .iter()
            .fold(0, |sum, byte| (sum << 8) + u32::from(*byte)))
    }
}
