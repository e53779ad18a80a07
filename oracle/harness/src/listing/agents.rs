//! Frames that agents send, for inputs of the program.

use super::{
    draw::{self, Around, add, ids, key, typed, value},
    lines::Sender,
    sent::{Ack, ROOMS, SCOPES},
};
use crate::{
    inputs::Random,
    parts::frames::{encoded, framed},
    reader::wire,
};
use spop::{actions::Action, frame::FrameType, types::TypedData};

/// The most ACKs of an input that the Rust writes, and the most actions of one that is not full.
const ACKS: u64 = 6;
const ACTIONS: u64 = 6;

/// Bytes that start no action, by the first, the second or the third of them.
const NO_ACTIONS: [[u8; 3]; 6] = [
    [3, 2, 0],
    [1, 2, 0],
    [1, 4, 0],
    [2, 3, 0],
    [1, 3, 5],
    [2, 2, 255],
];

/// Of frames with one long text: it is the name of a set, that of an unset, a string, binary; a key, a string.
pub const AROUND: [Around; 6] = [
    (FrameType::Ack, b"\x01\x03\x02", b"\0"),
    (FrameType::Ack, b"\x02\x02\x02", b""),
    (FrameType::Ack, b"\x01\x03\0\x01k\x08", b""),
    (FrameType::Ack, b"\x01\x03\x04\x01k\x09", b""),
    (FrameType::AgentHello, b"", b"\0"),
    (FrameType::AgentDisconnect, b"\x01k\x08", b""),
];

/// As they come from an agent, of every kind of value, odd ones, at the end of a room, and at times one of HAProxy's.
pub fn frame(random: &mut Random) -> Vec<u8> {
    match random.below(32) {
        0..2 => hello(),
        2 => disconnect(),
        3..12 => ack(random),
        12..16 => draw::list(random, Sender::Agent),
        16..20 => full(random),
        20 => wire::frame(random).bytes,
        _ => wire::sent(random),
    }
}

pub fn hello() -> Vec<u8> {
    let text = |text: &str| TypedData::String(text.into());
    let pairs = [
        ("version", text("2.0")),
        ("max-frame-size", TypedData::UInt32(16_380)),
        ("capabilities", text("pipelining,async")),
    ];
    framed(FrameType::AgentHello, [0, 0], &encoded(&pairs))
}

pub fn disconnect() -> Vec<u8> {
    let pairs = [
        ("status-code", TypedData::UInt32(2)),
        ("message", TypedData::String("a timeout occurred".into())),
    ];
    framed(FrameType::AgentDisconnect, [0, 0], &encoded(&pairs))
}

pub fn ack(random: &mut Random) -> Vec<u8> {
    let count = random.within(0, ACTIONS);
    ack_of(random, count)
}

/// As many actions or pairs as there is room for, or one or two more, or one that there is not.
fn full(random: &mut Random) -> Vec<u8> {
    let (actions, over) = (ROOMS[1] as u64, draw::over(random));
    match random.below(5) {
        0..2 => ack_of(random, actions + over),
        2..4 => draw::full_list(random, Sender::Agent, over),
        _ => {
            let mut frame = ack_of(random, actions);
            add_no_action(random, &mut frame);
            frame
        }
    }
}

/// Adds bytes to an ACK that start no action.
pub fn add_no_action(random: &mut Random, frame: &mut Vec<u8>) {
    frame.extend(NO_ACTIONS[random.index(NO_ACTIONS.len())]);
    wire::fit(frame);
}

/// Names and strings need not be UTF-8, and values have any flags, so the Rust does not write it.
fn ack_of(random: &mut Random, count: u64) -> Vec<u8> {
    let mut payload = Vec::new();
    for index in 0..count {
        let verb = random.within(1, 2) as u8;
        payload.extend([verb, 4 - verb, random.below(5) as u8]);
        add(&key(random, index), &mut payload);
        if verb == 1 {
            value(random, &mut payload);
        }
    }
    framed(FrameType::Ack, ids(random), &payload)
}

// ---------------------------------------------------------------- for the Rust to write

pub fn acks(random: &mut Random) -> Vec<Ack> {
    let count = random.within(1, ACKS);
    (0..count).map(|_| for_rust(random)).collect()
}

fn for_rust(random: &mut Random) -> Ack {
    let count = match random.below(32) {
        0 => ROOMS[1] as u64,
        _ => random.within(0, ACTIONS),
    };
    Ack {
        ids: ids(random),
        actions: (0..count).map(|index| action(random, index)).collect(),
    }
}

fn action(random: &mut Random, index: u64) -> Action {
    let scope = SCOPES[random.index(SCOPES.len())];
    let name = String::from_utf8_lossy(&key(random, index)).into_owned();
    if random.below(3) == 0 {
        return Action::UnSetVar { scope, name };
    }
    let kind = random.below(10);
    let value = typed(random, kind);
    Action::SetVar { scope, name, value }
}
