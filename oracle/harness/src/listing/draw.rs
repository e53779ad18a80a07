//! Inputs of the program: frames one behind the other, damaged, cut, with bytes behind them, and near its limits.

use super::{
    agents,
    lines::{LIMIT, ROOMS, SEEN, Sender},
};
use crate::{
    inputs::{self, Random},
    parts::frames::{framed, hello, upload},
    reader::wire,
    records,
};
use spop::{frame::FrameType, types::TypedData, varint::encode_varint_into};
use std::net::{Ipv4Addr, Ipv6Addr};

/// The most frames of an input that is not near the end of what is read, and the most messages and pairs of a frame.
const FRAMES: u64 = 6;
const MESSAGES: u64 = 5;
const PAIRS: u64 = 6;

/// Numbers of eleven bytes, and of ten that are too large.
const TOO_LARGE: [&[u8]; 2] = [
    b"\xf0\x80\x80\x80\x80\x80\x80\x80\x80\x80\0",
    b"\xf0\x80\x80\x80\x80\x80\x80\x80\x80\x0f",
];

pub fn input(random: &mut Random, sender: Sender) -> Vec<u8> {
    let mut frames = match random.below(32) {
        0 => Vec::new(),
        1..5 => long(random, sender),
        _ => (0..random.within(1, FRAMES))
            .map(|_| frame(random, sender))
            .collect(),
    };
    if random.below(3) == 0 && !frames.is_empty() {
        let index = random.index(frames.len());
        spoil(random, &mut frames[index]);
    }
    let mut bytes = frames.concat();
    match random.below(6) {
        0 if !bytes.is_empty() => inputs::cut(random, &mut bytes),
        1 => inputs::append(random, &mut bytes),
        _ => {}
    }
    bytes
}

// ---------------------------------------------------------------- frames

fn frame(random: &mut Random, sender: Sender) -> Vec<u8> {
    match sender {
        Sender::Haproxy => frame_of_haproxy(random),
        Sender::Agent => agents::frame(random),
    }
}

/// As they come from a proxy, of every kind of value, odd ones, and at the end of a room.
fn frame_of_haproxy(random: &mut Random) -> Vec<u8> {
    match random.below(16) {
        0..3 => upload(random.below(1_000)),
        3 => hello(),
        4..8 => messages(random),
        8..10 => list(random, Sender::Haproxy),
        10..12 => full(random),
        _ => wire::frame(random).bytes,
    }
}

fn messages(random: &mut Random) -> Vec<u8> {
    let mut payload = Vec::new();
    for _ in 0..random.within(0, MESSAGES) {
        let count = random.within(0, PAIRS);
        message(random, count, &mut payload);
    }
    notify(random, &payload)
}

/// Each key has its number in it, so that none but the empty one is met twice.
pub fn list(random: &mut Random, sender: Sender) -> Vec<u8> {
    let count = random.within(0, PAIRS);
    let mut payload = Vec::new();
    for index in 0..count {
        add(&key(random, index), &mut payload);
        value(random, &mut payload);
    }
    kv(random, sender, &payload)
}

/// As many messages or pairs as there is room for, or one or two more.
fn full(random: &mut Random) -> Vec<u8> {
    let (mut payload, over) = (Vec::new(), over(random));
    let pairs = ROOMS.pairs as u64 + over;
    match random.below(3) {
        0 => {
            for _ in 0..ROOMS.messages as u64 + over {
                let count = random.below(3);
                message(random, count, &mut payload);
            }
            notify(random, &payload)
        }
        1 => {
            let first = random.within(5, 250);
            message(random, first, &mut payload);
            message(random, pairs - first, &mut payload);
            notify(random, &payload)
        }
        _ => full_list(random, Sender::Haproxy, over),
    }
}

/// How many records a full frame has more than there is room for.
pub fn over(random: &mut Random) -> u64 {
    [0, 0, 1, 2][random.index(4)]
}

/// The key that has no room may be met twice.
pub fn full_list(random: &mut Random, sender: Sender, over: u64) -> Vec<u8> {
    let mut keys: Vec<u64> = (0..ROOMS.pairs as u64 + over).collect();
    if random.below(3) == 0 {
        keys.truncate(ROOMS.pairs);
        keys.push(random.below(ROOMS.pairs as u64));
    }
    let mut payload = Vec::new();
    for key in keys {
        add(format!("k{key}").as_bytes(), &mut payload);
        value(random, &mut payload);
    }
    kv(random, sender, &payload)
}

fn notify(random: &mut Random, payload: &[u8]) -> Vec<u8> {
    framed(FrameType::Notify, ids(random), payload)
}

fn kv(random: &mut Random, sender: Sender, payload: &[u8]) -> Vec<u8> {
    let kinds = match sender {
        Sender::Haproxy => [FrameType::HaproxyHello, FrameType::HaproxyDisconnect],
        Sender::Agent => [FrameType::AgentHello, FrameType::AgentDisconnect],
    };
    framed(kinds[random.index(2)], ids(random), payload)
}

pub fn ids(random: &mut Random) -> [u64; 2] {
    [inputs::number(random), inputs::number(random)]
}

/// At most 255 pairs.
fn message(random: &mut Random, count: u64, bytes: &mut Vec<u8>) {
    add(&key(random, count), bytes);
    bytes.push(count as u8);
    for _ in 0..count {
        add(&key(random, count), bytes);
        value(random, bytes);
    }
}

pub fn key(random: &mut Random, number: u64) -> Vec<u8> {
    match random.below(16) {
        0 => Vec::new(),
        1 => [&b"\xff"[..], number.to_string().as_bytes()].concat(),
        _ => format!("arg{number}").into_bytes(),
    }
}

/// A string of any bytes.
pub fn add(content: &[u8], bytes: &mut Vec<u8>) {
    encode_varint_into(content.len() as u64, bytes);
    bytes.extend_from_slice(content);
}

/// A value of any kind, with any flags, which no line shows.
pub fn value(random: &mut Random, bytes: &mut Vec<u8>) {
    let place = bytes.len();
    plain_value(random, bytes);
    // Of a bool the lowest flag is its value.
    let flags = wire::type_flags(random);
    bytes[place] |= if bytes[place] % 16 == 1 {
        flags & 0xe0
    } else {
        flags
    };
}

/// The same without flags. A string need not be UTF-8, so the Rust does not write it.
fn plain_value(random: &mut Random, bytes: &mut Vec<u8>) {
    match random.below(10) {
        8 => {
            bytes.push(8);
            add(&records::contents(random), bytes);
        }
        kind => typed(random, kind).to_bytes(bytes),
    }
}

/// A value of this kind as the Rust has it.
pub fn typed(random: &mut Random, kind: u64) -> TypedData {
    match kind {
        0 => TypedData::Null,
        1 => TypedData::Bool(random.below(2) == 0),
        2 => TypedData::Int32(signed(random) as i32),
        3 => TypedData::UInt32(inputs::number(random) as u32),
        4 => TypedData::Int64(signed(random)),
        5 => TypedData::UInt64(inputs::number(random)),
        6 => TypedData::IPv4(Ipv4Addr::from(random.next() as u32)),
        7 => TypedData::IPv6(Ipv6Addr::from(u128::from(random.next()) << 57)),
        8 => TypedData::String(String::from_utf8_lossy(&records::contents(random)).into_owned()),
        _ => TypedData::Binary(records::contents(random)),
    }
}

fn signed(random: &mut Random) -> i64 {
    let number = inputs::number(random) as i64;
    match random.below(2) {
        0 => number,
        _ => number.wrapping_neg(),
    }
}

// ---------------------------------------------------------------- long inputs

/// A frame that is near the longest, or frames up to the end of what is read and beyond it.
fn long(random: &mut Random, sender: Sender) -> Vec<Vec<u8>> {
    let mut frames = Vec::new();
    if random.below(2) == 0 {
        let length = LIMIT as usize - 1 + [0, 1, 1, 1, 2, 3][random.index(6)];
        frames.push(padded(random, sender, 4 + length));
        frames.push(frame(random, sender));
        return frames;
    }
    let (mut left, last) = (SEEN, random.within(5_000, 20_000) as usize);
    while left > last {
        frames.push(match sender {
            Sender::Agent => agents::ack(random),
            _ if random.below(8) == 0 => messages(random),
            _ => upload(left as u64),
        });
        left -= frames.last().map_or(0, Vec::len);
    }
    let length = match random.below(4) {
        0..2 => left,
        2 => left + random.index(3) - 1,
        _ => left + random.index(5_000),
    };
    frames.push(padded(random, sender, length));
    if random.below(4) == 0 {
        frames.push(frame(random, sender));
    }
    frames
}

/// A frame's type, and what stands before and behind its one long text.
pub type Around = (FrameType, &'static [u8], &'static [u8]);

/// The text is a message's name, a key, a string, binary.
const AROUND: [Around; 4] = [
    (FrameType::Notify, b"", b"\0"),
    (FrameType::Notify, b"\x01m\x01", b"\0"),
    (FrameType::Notify, b"\x01m\x01\x01k\x08", b""),
    (FrameType::Notify, b"\x01m\x01\x01k\x09", b""),
];

/// A frame of so many bytes, all but a few of which are a name, a key or a value. They are 2,400 or more, so that a
/// number of three bytes has their count.
fn padded(random: &mut Random, sender: Sender, length: usize) -> Vec<u8> {
    let around: &[Around] = match sender {
        Sender::Haproxy => &AROUND,
        Sender::Agent => &agents::AROUND,
    };
    let (kind, before, behind) = around[random.index(around.len())];
    let with = |count: usize| {
        let mut payload = before.to_vec();
        add(&vec![b'z'; count], &mut payload);
        payload.extend_from_slice(behind);
        framed(kind, [1, 2], &payload)
    };
    let more = with(length).len() - length;
    with(length - more)
}

// ---------------------------------------------------------------- damage

/// Changes one thing, at times so that a refusal follows which is rare else.
fn spoil(random: &mut Random, frame: &mut Vec<u8>) {
    match random.below(10) {
        0 => {
            let number = TOO_LARGE[random.index(2)];
            frame.splice(9..9, number.iter().copied());
            wire::fit(frame);
        }
        1 => {
            let pair = [0, random.within(10, 15) as u8];
            let before: &[u8] = match frame[4] {
                3 => &[0, 1],
                103 => &[1, 3, 0],
                _ => &[],
            };
            frame.extend([before, &pair].concat());
            wire::fit(frame);
        }
        2 => frame[8] |= 2,
        3..6 if frame[4] == 103 => agents::add_no_action(random, frame),
        _ => wire::spoil(random, frame),
    }
}
