//! What agents send, read. The Rust has no such reader: every ACK that its writer makes is to read back to its actions, and frames that are
//! damaged are held to a plain reading of SPOE.txt.

use super::{actions, frames};
use crate::{
    answers,
    both,
    inputs::{self, Random},
    port::{self, ACTION_WIDTH, PAIR_WIDTH},
    reader::model,
    records::{self, Frame},
    text::{Difference, hex},
    timing,
};
use spop::types::TypedData;
use std::{collections::BTreeMap, hint::black_box};

/// What stands in the tables before a call.
const FILL: u64 = 0x5555_5555_5555_5555;

#[derive(Clone)]
struct Call {
    input: Vec<u8>,
    limit: u32,
    /// How many numbers the tables have.
    numbers: [usize; 2],
}

/// What a reader answers and leaves: the number, what goes with it, the head, and both tables.
type Left = (u64, u64, [u64; 6], Vec<u64>, Vec<u64>);

impl Call {
    fn by_port(&self) -> Left {
        let [mut pairs, mut rows] = self.numbers.map(|count| vec![FILL; count]);
        let (mut head, mut at) = ([FILL; 6], FILL);
        let number = both::read_agent_frame(&self.input, self.limit, &mut pairs, &mut rows, &mut head, &mut at);
        (number, at, head, pairs, rows)
    }

    fn by_paper(&self) -> Left {
        let rooms = [self.numbers[0] / PAIR_WIDTH, self.numbers[1] / ACTION_WIDTH];
        let read = model::agent_frame(&self.input, self.limit, rooms);
        let head = match read.number {
            answers::DONE => read.head,
            _ => [FILL; 6],
        };
        let [mut pairs, mut rows] = self.numbers.map(|count| vec![FILL; count]);
        pairs[..PAIR_WIDTH * read.pairs.len()].copy_from_slice(read.pairs.as_flattened());
        rows[..ACTION_WIDTH * read.actions.len()].copy_from_slice(read.actions.as_flattened());
        (read.number, read.at, head, pairs, rows)
    }

    fn difference(&self, port: &Left, other: &str, paper: impl std::fmt::Debug) -> Difference {
        Difference::in_call("read_agent_frame")
            .row("input", hex(&self.input))
            .row("limit", self.limit)
            .row("numbers", format!("{:?}", self.numbers))
            .row("port", format!("{port:?}"))
            .row(other, format!("{paper:?}"))
    }

    fn compare(&self) -> Result<Left, Difference> {
        let (port, paper) = (self.by_port(), self.by_paper());
        if port == paper {
            return Ok(port);
        }
        Err(self.difference(&port, "paper", paper))
    }
}

/// What a record means wherever its bytes stand: the numbers that are no start, the name, and the bytes of a value that has some.
fn meaning(row: &[u64], bytes: &[u8]) -> ([u64; 5], Vec<u8>, Vec<u8>) {
    let [kind, a, b, flags] = records::value_of(row);
    let part = |start: u64, length: u64| bytes[start as usize..(start + length) as usize].to_vec();
    let (number, content) = match kind {
        6..=9 => (0, part(a, b)),
        _ => (a, Vec::new()),
    };
    ([row[0], row[1], kind, number, flags], part(row[2], row[3]), content)
}

pub fn diff(random: &mut Random, rounds: u64) -> Result<String, Difference> {
    let (mut done, mut numbers) = (0, BTreeMap::new());
    for _ in 0..rounds {
        let drawn = actions::drawn(random);
        let mut input = match drawn.expected() {
            Ok(frame) => {
                reads_back(random, &drawn, &frame)?;
                done += 1;
                frame
            }
            Err(_) => kv_list(random),
        };
        disturb(random, &mut input);
        let call = Call {
            limit: match random.below(16) {
                0 => random.below(80) as u32,
                _ => u32::MAX,
            },
            numbers: [random.index(40), random.index(60)],
            input,
        };
        *numbers.entry(call.compare()?.0).or_insert(0u64) += 1;
    }
    let counts: Vec<String> = numbers.iter().map(|(number, count)| format!("{number}: {count}")).collect();
    Ok(format!(
        "{rounds} rounds, in {done} of them an ACK that the Rust wrote read back to its actions, and in each a frame that may be damaged, by number {{{}}}",
        counts.join(", ")
    ))
}

/// The bytes that the Rust wrote are read as the actions that it wrote, whatever stands behind them.
fn reads_back(random: &mut Random, drawn: &actions::Call, frame: &[u8]) -> Result<(), Difference> {
    let mut input = frame.to_vec();
    inputs::append(random, &mut input);
    let should: Vec<_> = drawn.rows().map(|row| meaning(row, &drawn.buffer)).collect();
    let call = Call {
        input,
        limit: frame.len() as u32 - 4,
        numbers: [0, ACTION_WIDTH * should.len() + random.index(ACTION_WIDTH)],
    };
    let left = call.compare()?;
    let read: Vec<_> = left.4.chunks_exact(ACTION_WIDTH).map(|row| meaning(row, &call.input)).collect();
    match (left.0, left.1) == (answers::DONE, frame.len() as u64) && read == should {
        true => Ok(()),
        false => Err(call.difference(&left, "rust", should)),
    }
}

/// An agent's frame with a KV list.
fn kv_list(random: &mut Random) -> Vec<u8> {
    let mut frame = vec![0, 0, 0, 0, 101 + random.below(2) as u8, 0, 0, 0, 1, 0, 0];
    for _ in 0..random.index(5) {
        let key = ["a", "b", "version", "capabilities", ""][random.index(5)];
        frame.extend(records::encoding(key, &TypedData::UInt32(random.below(300) as u32)));
    }
    set_length(&mut frame);
    frame
}

fn set_length(frame: &mut [u8]) {
    let length = frame.len() as u32 - 4;
    frame[..4].copy_from_slice(&length.to_be_bytes());
}

/// Changes some bytes, ends the frame sooner, or takes its length at its word.
fn disturb(random: &mut Random, frame: &mut Vec<u8>) {
    match random.below(6) {
        0 => {}
        1 => inputs::damage(random, frame),
        2 => inputs::cut(random, frame),
        3 if frame.len() > 11 => {
            frame.truncate(11 + random.index(frame.len() - 11));
            set_length(frame);
        }
        4 if frame.len() > 11 => {
            let place = 11 + random.index(frame.len() - 11);
            frame[place] = random.below(6) as u8;
        }
        _ if frame.len() > 4 => frame[4] = [1, 2, 3, 101, 102, 103, 104, 0][random.index(8)],
        _ => {}
    }
}

// ---------------------------------------------------------------- timing

pub fn bench(_: &mut Random) {
    let values = |index: usize| TypedData::UInt32(7 + index as u32);
    let actions = (0..2).map(|index| records::set_var(format!("slot{index:02}"), values(index)));
    let ack = Frame::ack(1, 2, actions.collect()).written();
    let upload = frames::upload(1);
    // The first is to be no slower than the second, the upload that it answers.
    timing::compare("read_agent_frame, 2 set-vars", 1, reads(&ack), frames::port_reads(&upload, 1));
}

fn reads(frame: &[u8]) -> impl FnMut() {
    let (mut pairs, mut rows) = ([0; 8 * PAIR_WIDTH], [0; 8 * ACTION_WIDTH]);
    let (mut head, mut at) = ([0; 6], 0);
    move || {
        let number = port::read_agent_frame(black_box(frame), 16_384, &mut pairs, &mut rows, &mut head, &mut at);
        assert!(number == answers::DONE, "the port answers {number}");
        black_box((&pairs, &rows, &head));
    }
}

/// The Rust has no such reader.
pub fn list(_: &mut Random) -> Result<Vec<String>, String> {
    Ok(Vec::new())
}
