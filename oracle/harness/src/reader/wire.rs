//! Frames and pairs as they may come over the wire: right ones, odd ones, and damaged ones.

use crate::{
    inputs::{self, Random},
    records,
};
use spop::varint::encode_varint_into;

/// The most messages of a frame, and the most pairs of a list or a message, but for a few that are long.
const MESSAGES: u64 = 4;
const PAIRS: u64 = 5;

/// Keys that have the same lossy text, row by row.
const TWINS: [&[&[u8]]; 4] = [
    &[b"A\xff", b"A\xfe", b"A\xc3", b"A\xef\xbf\xbd"],
    &[b"\xe2\x82", b"\x80", b"\xf0\x9f\x98", b"\xef\xbf\xbd"],
    &[b"\xed\xa0\x80", b"\xff\xff\xff", b"\xe2\x82\xc0\x80"],
    &[b"\xf4\x8f\xbfz", b"\xc1z"],
];

const STATUS: &[Item] = &[
    Item("status-code", b"\x03\x0a"),
    Item("message", b"\x08\x03bad"),
    Item("reason", b"\x00"),
];

const HELLO: &[Item] = &[
    Item("supported-versions", b"\x08\x032.0"),
    Item("max-frame-size", b"\x03\xfc\xf0\x06"),
    Item("capabilities", b"\x08\x0apipelining"),
    Item("healthcheck", b"\x11"),
    Item("engine-id", b"\x08\x02id"),
];

/// A key, and its value's written form.
struct Item(&'static str, &'static [u8]);

/// A buffer of frames, and how many records the first one was made of.
pub struct Drawn {
    pub bytes: Vec<u8>,
    pub messages: usize,
    pub pairs: usize,
}

/// One frame or several, of which half are damaged.
pub fn drawn(random: &mut Random) -> Drawn {
    let mut first = frame(random);
    if random.below(4) == 0 {
        for _ in 0..random.within(1, 3) {
            first.bytes.extend(frame(random).bytes);
        }
    }
    for _ in 0..[0, 0, 0, 0, 1, 1, 2, 3][random.index(8)] {
        spoil(random, &mut first.bytes);
    }
    first
}

/// A frame of any type, right most of the time.
pub fn frame(random: &mut Random) -> Drawn {
    let kind = match random.below(16) {
        0..5 => 1,
        5..7 => 2,
        7..13 => 3,
        13..15 => random.within(101, 103) as u8,
        _ => random.byte(),
    };
    let mut bytes = vec![0, 0, 0, 0, kind];
    bytes.extend(flags(random).to_be_bytes());
    number(random, &mut bytes);
    number(random, &mut bytes);
    let (messages, pairs) = match kind {
        1 if random.below(3) == 0 => (0, items(random, HELLO, &mut bytes)),
        2 if random.below(2) == 0 => (0, items(random, STATUS, &mut bytes)),
        3 => messages_of(random, &mut bytes),
        _ => (0, list(random, 16, 400, &mut bytes)),
    };
    fit(&mut bytes);
    Drawn {
        bytes,
        messages,
        pairs,
    }
}

/// An agent's frame, right most of the time: an ACK, or a KV list, of which most have both ids 0.
pub fn sent(random: &mut Random) -> Vec<u8> {
    let kind = [101, 102, 103, 103][random.index(4)];
    let mut bytes = vec![0, 0, 0, 0, kind];
    bytes.extend(flags(random).to_be_bytes());
    for _ in 0..2 {
        match kind == 103 || random.below(16) == 0 {
            true => number(random, &mut bytes),
            false => bytes.push(0),
        }
    }
    match kind {
        103 => actions(random, &mut bytes),
        _ => _ = list(random, 16, 400, &mut bytes),
    }
    fit(&mut bytes);
    bytes
}

/// Sets the length field to what stands behind it.
pub fn fit(bytes: &mut [u8]) {
    let length = bytes.len().saturating_sub(4) as u32;
    set_length(bytes, length);
}

fn set_length(bytes: &mut [u8], length: u32) {
    if let Some(field) = bytes.first_chunk_mut() {
        *field = length.to_be_bytes();
    }
}

/// FIN alone, most of the time.
fn flags(random: &mut Random) -> u32 {
    match random.below(32) {
        0 => random.below(8) as u32,
        1 => 3,
        2 => 1 | 1 << random.below(32),
        3 => random.next() as u32,
        _ => 1,
    }
}

// ---------------------------------------------------------------- payloads

/// Items in any order, at times without one of them.
fn items(random: &mut Random, all: &[Item], bytes: &mut Vec<u8>) -> usize {
    let mut left: Vec<&Item> = all.iter().collect();
    if random.below(4) == 0 {
        left.swap_remove(random.index(all.len()));
    }
    let count = left.len();
    while !left.is_empty() {
        let Item(key, value) = left.swap_remove(random.index(left.len()));
        records::add_string(key, bytes);
        bytes.extend_from_slice(value);
    }
    count
}

fn messages_of(random: &mut Random, bytes: &mut Vec<u8>) -> (usize, usize) {
    let (count, mut pairs) = (random.within(0, MESSAGES), 0);
    for _ in 0..count {
        let name = lone_key(random);
        string(random, &name, bytes);
        let place = bytes.len();
        bytes.push(0);
        let found = list(random, 4, 255, bytes);
        pairs += found;
        bytes[place] = match random.below(32) {
            0 => found.wrapping_add(1) as u8,
            1 => found.wrapping_sub(1) as u8,
            2 => random.byte(),
            _ => found as u8,
        };
    }
    (count as usize, pairs)
}

/// Sets and unsets, of which few have another scope than there are.
fn actions(random: &mut Random, bytes: &mut Vec<u8>) {
    for _ in 0..random.within(0, PAIRS) {
        let verb = random.within(1, 2) as u8;
        let scope = match random.below(64) {
            0 => random.byte(),
            _ => random.below(5) as u8,
        };
        bytes.extend([verb, 4 - verb, scope]);
        let name = lone_key(random);
        string(random, &name, bytes);
        if verb == 1 {
            value(random, bytes);
        }
    }
}

/// Pairs, up to `most` of them, of which one of `rarely` repeats an earlier key.
fn list(random: &mut Random, rarely: u64, most: u64, bytes: &mut Vec<u8>) -> usize {
    let count = match random.below(256) {
        0 => random.within(60, most),
        _ => random.within(0, PAIRS),
    };
    let twins = TWINS[random.index(TWINS.len())];
    let mut keys: Vec<Vec<u8>> = Vec::new();
    for _ in 0..count {
        let key = match random.below(rarely) {
            0 if !keys.is_empty() => keys[random.index(keys.len())].clone(),
            _ => key(random, twins),
        };
        string(random, &key, bytes);
        value(random, bytes);
        keys.push(key);
    }
    count as usize
}

/// A pair, at times one that is damaged.
pub fn pair(random: &mut Random) -> Vec<u8> {
    let mut bytes = Vec::new();
    match random.below(16) {
        0 => inputs::long_number(random, &mut bytes),
        _ => {
            let key = lone_key(random);
            string(random, &key, &mut bytes);
        }
    }
    match random.below(16) {
        0 => long_value(random, &mut bytes),
        _ => value(random, &mut bytes),
    }
    match random.below(6) {
        0 => inputs::append(random, &mut bytes),
        1 => inputs::cut(random, &mut bytes),
        2 => inputs::damage(random, &mut bytes),
        3 => insert(random, &mut bytes),
        _ => {}
    }
    bytes
}

fn lone_key(random: &mut Random) -> Vec<u8> {
    let twins = TWINS[random.index(TWINS.len())];
    key(random, twins)
}

fn key(random: &mut Random, twins: &[&[u8]]) -> Vec<u8> {
    match random.below(24) {
        0 => Vec::new(),
        1..4 => twins[random.index(twins.len())].to_vec(),
        4 => records::contents(random),
        5 => text(random, 238, 260),
        _ => text(random, 1, 9),
    }
}

fn text(random: &mut Random, least: u64, most: u64) -> Vec<u8> {
    let length = random.within(least, most);
    let letter = |_| b'a' + random.below(26) as u8;
    (0..length).map(letter).collect()
}

fn string(random: &mut Random, content: &[u8], bytes: &mut Vec<u8>) {
    let length = content.len() as u64;
    match random.below(192) {
        0 => number(random, bytes),
        1 => encode_varint_into(length + 1, bytes),
        2 => encode_varint_into(length.saturating_sub(1), bytes),
        3..5 => inputs::long_number(random, bytes),
        _ => encode_varint_into(length, bytes),
    }
    bytes.extend_from_slice(content);
}

fn value(random: &mut Random, bytes: &mut Vec<u8>) {
    let kind = match random.below(128) {
        0 => random.within(10, 15),
        _ => random.below(10),
    };
    bytes.push(kind as u8 | type_flags(random));
    match kind {
        2..=5 => number(random, bytes),
        6 => bytes.extend((0..4).map(|_| random.byte())),
        7 => bytes.extend((0..16).map(|_| random.byte())),
        8 | 9 => {
            let content = records::contents(random);
            string(random, &content, bytes);
        }
        _ => {}
    }
}

/// A value with a number that has a tenth byte, as itself or as a length.
pub fn long_value(random: &mut Random, bytes: &mut Vec<u8>) {
    let kind = [2, 3, 4, 5, 8, 9][random.index(6)];
    bytes.push(kind | type_flags(random));
    inputs::long_number(random, bytes);
}

pub fn type_flags(random: &mut Random) -> u8 {
    match random.below(2) {
        0 => 0,
        _ => random.byte() & 0xf0,
    }
}

/// A number's written form, at times one with a tenth byte that no writer gives.
fn number(random: &mut Random, bytes: &mut Vec<u8>) {
    match random.below(64) {
        0 => inputs::long_number(random, bytes),
        1..24 => encode_varint_into(inputs::number(random), bytes),
        _ => encode_varint_into(random.below(300), bytes),
    }
}

// ---------------------------------------------------------------- damage

/// Changes one thing. Where the length field follows the change, the damage shows behind the head of the frame.
pub fn spoil(random: &mut Random, bytes: &mut Vec<u8>) {
    if bytes.len() < 9 {
        return inputs::append(random, bytes);
    }
    match random.below(16) {
        0..3 => inputs::damage(random, bytes),
        3 => insert(random, bytes),
        4 => remove(random, bytes),
        5 => inputs::cut(random, bytes),
        6 => inputs::append(random, bytes),
        7 => change_length(random, bytes),
        8 => bytes[4] = [1, 2, 3, 101, 102, 103, 0, 4, 100, 104][random.index(10)],
        9 => {
            let flags = flags(random);
            bytes[5..9].copy_from_slice(&flags.to_be_bytes());
        }
        _ => {
            match random.below(3) {
                0 => insert(random, bytes),
                1 => remove(random, bytes),
                _ => inputs::cut(random, bytes),
            }
            fit(bytes);
        }
    }
}

fn insert(random: &mut Random, bytes: &mut Vec<u8>) {
    let (place, byte) = (random.index(bytes.len() + 1), random.byte());
    bytes.insert(place, byte);
}

/// Takes away one to four bytes that stand together.
fn remove(random: &mut Random, bytes: &mut Vec<u8>) {
    let place = random.index(bytes.len());
    let end = bytes.len().min(place + random.within(1, 4) as usize);
    bytes.drain(place..end);
}

fn change_length(random: &mut Random, bytes: &mut [u8]) {
    let right = bytes.len() as u32 - 4;
    let wrong = match random.below(4) {
        0 => right.wrapping_add(random.within(1, 3) as u32),
        1 => right.wrapping_sub(random.within(1, 3) as u32),
        2 => random.below(9) as u32,
        _ => inputs::number(random) as u32,
    };
    set_length(bytes, wrong);
}
