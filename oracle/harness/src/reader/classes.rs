//! The kinds of answers, and how often each was met.

use super::{
    call::Call,
    model::{self, Pair, Read, Rooms, TABLE_FULL},
    sides::{self, PairRead},
};
use crate::{
    counts::{Class, Counts},
    inputs::LONGEST,
    records::{self, REPEATED},
    tenth::NOT_FITTING,
    text::Difference,
};
use spop::parser::parse_frame_with_limit;

#[derive(Default)]
pub struct Met {
    pub frames: Counts,
    pub pairs: Counts,
    /// Frames and pairs that the Rust's answer was left out of.
    pub left_out: u64,
}

impl Met {
    pub fn frame(&mut self, call: &Call) -> Result<Read, Difference> {
        let read = sides::checked(call)?;
        self.frames.add(&classes(call, &read));
        self.left_out += u64::from(sides::is_left_out(call, &read));
        Ok(read)
    }

    pub fn pair(&mut self, input: &[u8]) -> Result<(), Difference> {
        let read = sides::checked_pair(input)?;
        self.pairs.add(&pair_classes(input, &read));
        self.left_out += u64::from(matches!(read, Err((NOT_FITTING, _))));
        Ok(())
    }

    pub fn all(&self, inputs: &str) -> Result<(), Difference> {
        self.frames.all("read_frame", inputs)?;
        self.pairs.all("read_pair", inputs)
    }

    pub fn print(&self) {
        self.frames.print();
        println!("pairs on their own:");
        self.pairs.print();
    }
}

/// Which of the classes a call is of, with their names.
fn classes(call: &Call, read: &Read) -> [Class; 33] {
    let is = |number| read.number == number;
    let kind = call.input.get(4).copied().unwrap_or_default();
    let rooms = Rooms::of(call.lengths);
    let fills = [read.messages.len(), read.pairs.len()] == [rooms.messages, rooms.pairs];
    let list = matches!(kind, 1 | 2);
    let notify = kind == 3;
    let known = list || notify || matches!(kind, 101..=103);
    let payload = payload(call);
    let in_payload = payload.is_some();
    let first_of_payload = payload.is_some_and(|start| read.at == start + LONGEST as u64);
    let same_bytes = is(REPEATED) && repeats_bytes(&call.input, &read.pairs);
    let in_message = within_message(read);
    [
        ("0, a KV list", is(0) && list),
        (
            "0, a KV list without a pair",
            is(0) && list && read.pairs.is_empty(),
        ),
        (
            "0, a KV list that the Rust does not convert",
            is(0) && list && parse_frame_with_limit(&call.input, call.limit).is_err(),
        ),
        ("0, a NOTIFY", is(0) && notify),
        (
            "0, a NOTIFY with a repeated argument",
            is(0) && repeats_argument(&call.input, read),
        ),
        (
            "0, with flags of a value",
            is(0) && read.pairs.iter().any(|pair| records::flags_of(pair) > 0),
        ),
        (
            "0, with bytes behind the frame",
            is(0) && read.at < call.input.len() as u64,
        ),
        ("0, with tables that are full then", is(0) && fills),
        ("1, from the length bytes", is(1) && call.input.len() < 4),
        ("1, from the frame", is(1) && call.input.len() >= 4),
        ("2", is(2)),
        ("3, no type", is(3) && read.at == 4),
        ("3, short flags", is(3) && read.at == 5),
        ("3, an id", is(3) && read.at > 5 && !in_payload),
        ("3, the payload", is(3) && in_payload),
        ("4, the type", is(4) && !known),
        ("4, the flags", is(4) && known),
        ("5", is(5)),
        ("6", is(6)),
        ("7, an id", is(7) && !in_payload),
        ("7, the payload", is(7) && in_payload),
        ("8", is(8)),
        ("9, the same bytes", same_bytes),
        ("9, the same lossy text alone", is(REPEATED) && !same_bytes),
        (
            "9, and 10 without it",
            is(REPEATED) && read.pairs.len() > rooms.pairs,
        ),
        ("10, a message", is(TABLE_FULL) && notify && !in_message),
        ("10, an argument", is(TABLE_FULL) && notify && in_message),
        ("10, a pair of a KV list", is(TABLE_FULL) && list),
        (
            "10, and 9 with more room",
            is(TABLE_FULL) && call.by_paper_without_end().number == REPEATED,
        ),
        (
            "10, and 19 with more room",
            is(TABLE_FULL) && sides::is_left_out(call, read),
        ),
        ("19, an id", is(NOT_FITTING) && !in_payload),
        (
            "19, the first key's or name's length",
            is(NOT_FITTING) && first_of_payload,
        ),
        (
            "19, further on in the payload",
            is(NOT_FITTING) && in_payload && !first_of_payload,
        ),
    ]
}

/// Where the payload starts, if both ids are read.
fn payload(call: &Call) -> Option<u64> {
    let frame = model::whole(&call.input, call.limit).ok()?;
    model::payload(frame)
}

/// Which of the classes a pair is of, with their names.
fn pair_classes(input: &[u8], read: &PairRead) -> [Class; 7] {
    let is = |number| matches!(read, Err(refusal) if refusal.0 == number);
    // The type byte of a value stands right before its number.
    let kind = match read {
        Err((NOT_FITTING, at)) if *at > LONGEST as u64 => input[*at as usize - LONGEST - 1] % 16,
        _ => 0,
    };
    [
        ("0", read.is_ok()),
        ("3", is(3)),
        ("7", is(7)),
        ("8", is(8)),
        ("19, the key's length", is(NOT_FITTING) && kind == 0),
        ("19, an integer", matches!(kind, 2..=5)),
        ("19, a value's length", matches!(kind, 8 | 9)),
    ]
}

/// Whether the last message has arguments that were not met.
fn within_message(read: &Read) -> bool {
    let end = read.messages.last().map(|message| message[2] + message[3]);
    end.is_some_and(|end| end > read.pairs.len() as u64)
}

/// Whether the last key has the bytes of an earlier one.
fn repeats_bytes(input: &[u8], pairs: &[Pair]) -> bool {
    let key = |pair: &Pair| records::part(input, pair[0], pair[1]);
    match pairs.split_last() {
        Some((last, earlier)) => earlier.iter().any(|pair| key(pair) == key(last)),
        None => false,
    }
}

/// Whether a message has an argument's name twice, in its first ones.
fn repeats_argument(input: &[u8], read: &Read) -> bool {
    read.messages.iter().any(|message| {
        let (first, count) = (message[2] as usize, message[3].min(8) as usize);
        let run = &read.pairs[first..first + count];
        (2..=count).any(|end| repeats_bytes(input, &run[..end]))
    })
}
