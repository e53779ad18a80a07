//! A frame that the port read, written again by the port from what it read, with the frame as its buffer. What has to come
//! out is told by the frame's bytes alone: the same bytes, 15, or other ones.

use super::{
    call::Call,
    lent::Reading,
    model::{Bytes, Refusal},
    wire,
};
use crate::{
    answers::DONE,
    both,
    port::{ACTION_WIDTH, MESSAGE_WIDTH, PAIR_WIDTH},
    records::{self, NOT_TEXT, Wrote},
    text::{Difference, hex},
};
use spop::varint::encode_varint_into;

/// A reading, and how many bytes the writer's output has more than the frame.
#[derive(Clone)]
pub struct Rewritten {
    pub read: Call,
    pub spare: usize,
}

/// A frame that was accepted, what its bytes say, what the port read it as, and what it wrote.
pub struct Seen {
    pub frame: Vec<u8>,
    pub told: Told,
    pub meaning: Meaning,
    pub wrote: Wrote,
}

/// What a frame is read as, starts aside: type, flags and ids; each message's name, first pair and count; and each pair's key,
/// kind, flags, and number or bytes.
#[derive(PartialEq)]
pub struct Meaning {
    head: [u64; 4],
    messages: Vec<(Vec<u8>, [u64; 2])>,
    /// Of each action whether it sets, and its scope. Its name and its value are a pair.
    actions: Vec<[u64; 2]>,
    pairs: Vec<Row>,
}

/// What does not hold, in the words of a difference.
type Law = &'static str;

const REFUSED: Law = "what the port accepts is accepted by a plain reading";
const DIFFERS: Law = "a frame that does not meet the conditions is other bytes";
const WRITTEN: Law = "what is written again is what the frame's bytes say";

impl Rewritten {
    /// What there is of an accepted frame. Of a law that does not hold the smallest input is shown that can be found.
    pub fn checked(&self) -> Result<Option<Seen>, Difference> {
        self.check().map_err(|_| self.smaller().difference())
    }

    fn check(&self) -> Result<Option<Seen>, Law> {
        let reading = self.read.by_port();
        if reading.number() != DONE {
            return Ok(None);
        }
        let frame = self.frame();
        let told = Told::of(&frame, false).map_err(|_| REFUSED)?;
        if told.is_plain() == (told.bytes != frame) {
            return Err(DIFFERS);
        }
        let wrote = self.by_port(&reading, &frame).ok_or(WRITTEN)?;
        if wrote != self.expected(&told, &frame) {
            return Err(WRITTEN);
        }
        let meaning = Meaning::of(&reading, &frame).ok_or(WRITTEN)?;
        Ok(Some(Seen {
            frame,
            told,
            meaning,
            wrote,
        }))
    }

    /// The frame's own bytes, by its length field.
    fn frame(&self) -> Vec<u8> {
        let end = 4 + super::call::declared(&self.read.input) as usize;
        self.read.input[..end].to_vec()
    }

    fn room(&self, frame: &[u8]) -> usize {
        frame.len() + self.spare
    }

    /// The records that were read go to the writer of the frame's type, with the flags and the limit that they were read with.
    fn by_port(&self, reading: &Reading, frame: &[u8]) -> Option<Wrote> {
        let [messages, pairs] = reading.records()?;
        let [kind, flags, stream, id, rows, count] = reading.head;
        let (flags, ids, limit) = ([flags == 1, false], [stream, id], self.read.limit);
        Some(Wrote::by_port(self.room(frame), |out, at| match kind {
            3 => both::write_notify(
                flags, ids, limit, frame, messages, rows, pairs, count, out, at,
            ),
            _ => both::write_kv(kind, flags, ids, limit, frame, pairs, count, out, at),
        }))
    }

    fn expected(&self, told: &Told, frame: &[u8]) -> Wrote {
        let result = match (told.ill_name, told.ill_pair, told.is_plain()) {
            (Some(message), ..) => Err((NOT_TEXT, message)),
            (None, Some((pair, _)), _) => Err((NOT_TEXT, pair)),
            (None, None, true) => Ok(frame.to_vec()),
            (None, None, false) => Ok(told.bytes.clone()),
        };
        Wrote::expected(result, self.read.limit, self.room(frame))
    }

    fn smaller(&self) -> Self {
        let with = |read: &Call| Self {
            read: read.clone(),
            ..*self
        };
        let read = self.read.smaller(
            |less| with(less).check().is_err(),
            |less| less.by_port().answer,
        );
        with(&read)
    }

    fn difference(&self) -> Difference {
        let law = self.check().err().unwrap_or(WRITTEN);
        let rows = self.read.difference().row("law", law);
        let reading = self.read.by_port();
        let frame = self.frame();
        let rows = rows.row("read", &reading).row("room", self.room(&frame));
        let rows = match Told::of(&frame, false) {
            Ok(told) => {
                let expected = self.expected(&told, &frame);
                rows.row("paper", expected.answer)
                    .row("", hex(&expected.area))
            }
            Err((number, place)) => rows.row("paper", format!("{number} at {place}")),
        };
        match self.by_port(&reading, &frame) {
            Some(wrote) => rows.row("port", wrote.answer).row("", hex(&wrote.area)),
            None => rows.row("port", "records that were not written whole"),
        }
    }
}

impl Meaning {
    /// Where each start and length point into the frame.
    fn of(reading: &Reading, frame: &[u8]) -> Option<Self> {
        let [messages, pairs] = reading.records()?;
        let message = |row: &[u64]| Some((part(frame, row[0], row[1])?, [row[2], row[3]]));
        let messages = messages.chunks_exact(MESSAGE_WIDTH).map(message);
        Some(Self {
            head: *reading.head.first_chunk()?,
            messages: messages.collect::<Option<_>>()?,
            actions: Vec::new(),
            pairs: rows(pairs.chunks_exact(PAIR_WIDTH), frame)?,
        })
    }

    /// The same of an agent's frame, which has pairs or actions.
    pub fn of_sent(head: [u64; 6], pairs: &[u64], actions: &[u64], frame: &[u8]) -> Option<Self> {
        let actions = actions.chunks_exact(ACTION_WIDTH);
        let variables = actions.clone().map(|row| &row[2..]);
        Some(Self {
            head: *head.first_chunk()?,
            messages: Vec::new(),
            actions: actions.map(|row| [row[0], row[1]]).collect(),
            pairs: rows(pairs.chunks_exact(PAIR_WIDTH).chain(variables), frame)?,
        })
    }
}

fn part(frame: &[u8], start: u64, length: u64) -> Option<Vec<u8>> {
    Some(records::part(frame, start, length).ok()?.to_vec())
}

/// A key, kind, number and flags, and the bytes that a value points at.
type Row = (Vec<u8>, [u64; 3], Vec<u8>);

fn rows<'a>(rows: impl Iterator<Item = &'a [u64]>, frame: &[u8]) -> Option<Vec<Row>> {
    rows.map(|row| {
        let [kind, a, b, flags] = [row[2], row[3], row[4], row[5]];
        let (number, bytes) = match kind {
            6..=9 => (0, part(frame, a, b)?),
            _ => (a, Vec::new()),
        };
        Some((part(frame, row[0], row[1])?, [kind, number, flags], bytes))
    })
    .collect()
}

// ---------------------------------------------------------------- what the bytes say

/// Which text of a pair is not UTF-8, the first of them.
#[derive(Clone, Copy, PartialEq)]
pub enum Text {
    Key,
    Value,
}

#[derive(Default)]
pub struct Told {
    /// The frame with a boolean's lowest flag alone, and with the 32 bits that an integer of that width keeps.
    pub bytes: Vec<u8>,
    /// The first message whose name is not UTF-8, and the first pair with such a text.
    pub ill_name: Option<u64>,
    pub ill_pair: Option<(u64, Text)>,
    /// Booleans with other flags, and numbers beyond the range of an i32 and of a u32.
    pub flagged: u64,
    pub signed: u64,
    pub unsigned: u64,
    pub kinds: [bool; 10],
    /// Other kinds than bool with flags, and binary that is not UTF-8.
    pub kept_flags: bool,
    pub ill_binary: bool,
    pub messages: u64,
    /// An action's name and value are a pair here, and an unset's name is one.
    pub pairs: u64,
    pub sets: u64,
    pub unsets: u64,
}

impl Told {
    pub fn of(frame: &[u8], agents: bool) -> Result<Self, Refusal> {
        let mut walk = Walk {
            bytes: Bytes { all: frame, at: 4 },
            told: Self::default(),
        };
        let [kind, ..] = walk.bytes.head(agents)?;
        walk.copy_from(0);
        while !walk.bytes.at_end() {
            match kind {
                3 => walk.message()?,
                103 => walk.action()?,
                _ => walk.pair()?,
            }
        }
        wire::fit(&mut walk.told.bytes);
        Ok(walk.told)
    }

    pub fn is_plain(&self) -> bool {
        self.flagged + self.signed + self.unsigned == 0
    }

    pub fn is_well(&self) -> bool {
        self.ill_name.is_none() && self.ill_pair.is_none()
    }
}

struct Walk<'a> {
    bytes: Bytes<'a>,
    told: Told,
}

impl<'a> Walk<'a> {
    /// What was read from a place on is written as it is.
    fn copy_from(&mut self, start: usize) {
        let read = &self.bytes.all[start..self.bytes.at];
        self.told.bytes.extend_from_slice(read);
    }

    /// A string's content.
    fn string(&mut self) -> Result<&'a [u8], Refusal> {
        let start = self.bytes.at;
        let [first, length] = self.bytes.string()?;
        self.copy_from(start);
        Ok(&self.bytes.all[first as usize..][..length as usize])
    }

    fn message(&mut self) -> Result<(), Refusal> {
        let ill = !is_text(self.string()?);
        if ill && self.told.ill_name.is_none() {
            self.told.ill_name = Some(self.told.messages);
        }
        self.told.messages += 1;
        let count = self.bytes.byte()?;
        self.told.bytes.push(count);
        for _ in 0..count {
            self.pair()?;
        }
        Ok(())
    }

    /// Three bytes, and a set's name and value or an unset's name.
    fn action(&mut self) -> Result<(), Refusal> {
        let start = self.bytes.at;
        let verb = self.bytes.byte()?;
        self.bytes.take(2)?;
        self.copy_from(start);
        match verb {
            1 => {
                self.told.sets += 1;
                self.pair()
            }
            _ => {
                self.told.unsets += 1;
                let name = !is_text(self.string()?);
                self.add([name, false]);
                Ok(())
            }
        }
    }

    fn pair(&mut self) -> Result<(), Refusal> {
        let key = !is_text(self.string()?);
        let value = self.value()?;
        self.add([key, value]);
        Ok(())
    }

    /// Counts a pair whose key or value is not UTF-8, or neither.
    fn add(&mut self, ill: [bool; 2]) {
        let text = match ill {
            [true, _] => Some(Text::Key),
            [false, true] => Some(Text::Value),
            [false, false] => None,
        };
        let ill = text.map(|text| (self.told.pairs, text));
        self.told.ill_pair = self.told.ill_pair.or(ill);
        self.told.pairs += 1;
    }

    /// Whether it is a string that is not UTF-8.
    fn value(&mut self) -> Result<bool, Refusal> {
        let byte = self.bytes.byte()?;
        let kind = byte % 16;
        self.told.bytes.push(byte);
        if let Some(met) = self.told.kinds.get_mut(usize::from(kind)) {
            *met = true;
        }
        self.told.kept_flags |= kind != 1 && byte > 15;
        let start = self.bytes.at;
        match kind {
            1 => self.boolean(byte),
            2 => self.told.signed += self.integer(|n| i64::from(n as i32) as u64)?,
            3 => self.told.unsigned += self.integer(|n| u64::from(n as u32))?,
            4 | 5 => _ = self.integer(|n| n)?,
            6 | 7 => {
                self.bytes.take(if kind == 6 { 4 } else { 16 })?;
                self.copy_from(start);
            }
            8 => return Ok(!is_text(self.string()?)),
            9 => self.told.ill_binary |= !is_text(self.string()?),
            _ => {}
        }
        Ok(false)
    }

    /// Of its flags the lowest alone is read.
    fn boolean(&mut self, byte: u8) {
        let written = self.told.bytes.last_mut().expect("its type byte");
        *written = byte % 32;
        self.told.flagged += u64::from(*written != byte);
    }

    /// Answers how many numbers lost bits.
    fn integer(&mut self, kept: impl Fn(u64) -> u64) -> Result<u64, Refusal> {
        let number = self.bytes.number()?;
        encode_varint_into(kept(number), &mut self.told.bytes);
        Ok(u64::from(kept(number) != number))
    }
}

fn is_text(bytes: &[u8]) -> bool {
    std::str::from_utf8(bytes).is_ok()
}
