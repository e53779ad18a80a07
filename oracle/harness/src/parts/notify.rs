//! NOTIFY frames. The Rust does not write them, so refusals and bytes are a plain reading of the paper, with the Rust's
//! encodings; and the Rust reads back each frame that the port writes.

use crate::{
    answers::{self, Answer},
    both,
    inputs::{self, Random},
    port::{self, MESSAGE_WIDTH, PAIR_WIDTH},
    reader::back::{Writer, Written},
    records::{self, Frame, NOT_WRITABLE, OUTSIDE, ROW, TOO_MANY, Wrote, flags_of},
    shrink::{self, Fields},
    text::{Difference, hex},
    timing,
};
use spop::{
    frame::{FrameFlags, FramePayload, FrameType, Metadata},
    parser::parse_frame_with_limit,
    types::TypedData,
};
use std::hint::black_box;

/// The most messages that are drawn, and the most arguments of one that is not near the 255 that it may have.
const MESSAGES: u64 = 6;
const ARGUMENTS: u64 = 8;

/// A name, and the arguments in their order.
type Message = (String, Vec<(String, TypedData)>);

#[derive(Clone, Debug, PartialEq)]
pub struct Call {
    fin: bool,
    abort: bool,
    stream: u64,
    frame: u64,
    limit: u32,
    buffer: Vec<u8>,
    messages: Vec<u64>,
    message_count: u64,
    pairs: Vec<u64>,
    pair_count: u64,
    room: usize,
}

impl Writer for Call {
    fn by_port(&self) -> Wrote {
        Wrote::by_port(self.room, |out, at| {
            both::write_notify(
                [self.fin, self.abort],
                [self.stream, self.frame],
                self.limit,
                &self.buffer,
                &self.messages,
                self.message_count,
                &self.pairs,
                self.pair_count,
                out,
                at,
            )
        })
    }

    fn records(&self) -> Written<'_> {
        Written {
            kind: 3,
            fin: self.fin,
            abort: self.abort,
            ids: [self.stream, self.frame],
            limit: self.limit,
            spare: [0, 0],
            buffer: &self.buffer,
            messages: &self.messages[..MESSAGE_WIDTH * self.message_count as usize],
            pairs: &self.pairs[..PAIR_WIDTH * self.pair_count as usize],
        }
    }
}

impl Call {
    fn by_paper(&self) -> Wrote {
        let frame = self.stands_for().map(|messages| self.written(&messages));
        Wrote::expected(frame, self.limit, self.room)
    }

    /// The messages that the tables stand for, or the first refusal and its place.
    fn stands_for(&self) -> Result<Vec<Message>, (u64, u64)> {
        if !self.fin || self.abort {
            return Err((NOT_WRITABLE, 0));
        }
        if self.message_count > (self.messages.len() / MESSAGE_WIDTH) as u64 {
            return Err((OUTSIDE, 0));
        }
        if self.pair_count > (self.pairs.len() / PAIR_WIDTH) as u64 {
            return Err((OUTSIDE, 0));
        }
        if self.message_count == 0 && self.pair_count > 0 {
            return Err((NOT_WRITABLE, 0));
        }
        let names = self.names()?;
        let mut pairs = self.arguments()?.into_iter();
        // The runs follow each other without a gap, so each message takes the next ones.
        let runs = self
            .rows()
            .map(|row| pairs.by_ref().take(row[3] as usize).collect());
        Ok(names.into_iter().zip(runs).collect())
    }

    fn rows(&self) -> impl Iterator<Item = &[u64]> {
        self.messages
            .chunks_exact(MESSAGE_WIDTH)
            .take(self.message_count as usize)
    }

    fn pair_rows(&self) -> impl Iterator<Item = &[u64]> {
        self.pairs
            .chunks_exact(PAIR_WIDTH)
            .take(self.pair_count as usize)
    }

    fn names(&self) -> Result<Vec<String>, (u64, u64)> {
        let (mut names, mut end) = (Vec::new(), 0);
        for (index, row) in self.rows().enumerate() {
            let last = index as u64 + 1 == self.message_count;
            let name = self.name(row, end, last);
            names.push(name.map_err(|number| (number, index as u64))?);
            end = end_of_run(row);
        }
        Ok(names)
    }

    /// The name of a message, where its run starts at the end of the one before it, and the last ends at the last pair.
    fn name(&self, row: &[u64], start: u128, last: bool) -> Result<String, u64> {
        if u128::from(row[2]) != start {
            return Err(NOT_WRITABLE);
        }
        if last && end_of_run(row) != u128::from(self.pair_count) {
            return Err(NOT_WRITABLE);
        }
        if row[3] > 255 {
            return Err(TOO_MANY);
        }
        records::text(&self.buffer, row[0], row[1])
    }

    fn arguments(&self) -> Result<Vec<(String, TypedData)>, (u64, u64)> {
        let pairs = self
            .pair_rows()
            .map(|row| records::pair(row, &self.buffer));
        pairs
            .enumerate()
            .map(|(index, pair)| pair.map_err(|number| (number, index as u64)))
            .collect()
    }

    fn written(&self, messages: &[Message]) -> Vec<u8> {
        let mut frame = vec![FrameType::Notify.to_u8()];
        let metadata = Metadata {
            flags: FrameFlags::new(self.fin, self.abort),
            stream_id: self.stream,
            frame_id: self.frame,
        };
        metadata.write_to(&mut frame);
        let mut rows = self.pair_rows();
        for (name, arguments) in messages {
            records::add_string(name, &mut frame);
            frame.push(arguments.len() as u8);
            let run = arguments.iter().zip(rows.by_ref());
            frame.extend(
                run.flat_map(|((key, value), row)| records::flagged(key, value, flags_of(row))),
            );
        }
        let mut whole = (frame.len() as u32).to_be_bytes().to_vec();
        whole.append(&mut frame);
        whole
    }
}

/// A sum of two numbers need not be one of 64 bits.
fn end_of_run(row: &[u64]) -> u128 {
    u128::from(row[2]) + u128::from(row[3])
}

/// What the Rust reads at the front of some bytes.
#[derive(Debug, PartialEq)]
struct Read {
    used: Answer,
    ids: [u64; 2],
    messages: Vec<Message>,
}

fn read(bytes: &[u8], limit: u32) -> Result<Read, Answer> {
    let (rest, frame) =
        parse_frame_with_limit(bytes, limit).map_err(|error| answers::refused(bytes, error))?;
    let FramePayload::ListOfMessages(messages) = frame.payload() else {
        return Err(Answer::Unlisted("a frame without messages", None));
    };
    let messages = messages
        .iter()
        .map(|one| (one.name.clone(), one.args.clone()));
    let metadata = frame.metadata();
    Ok(Read {
        used: answers::accepted(bytes, rest),
        ids: [metadata.stream_id, metadata.frame_id],
        messages: messages.collect(),
    })
}

// ---------------------------------------------------------------- comparing

/// Answers the length of the frame, where one was written.
fn compare(call: &Call) -> Result<Option<usize>, Difference> {
    let (port, paper) = (call.by_port(), call.by_paper());
    if port != paper {
        let sides = [("port", &port), ("paper", &paper)];
        return Err(records::difference("write_notify", call, sides));
    }
    if let Some(length) = port.length() {
        compare_read(call, &port)?;
        // The port reads its own frame: messages and arguments come back in order.
        call.records().read_back(&port.area, length, call)?;
    }
    Ok(port.length())
}

/// The Rust gets the bytes behind the frame as well, and has to leave them.
fn compare_read(call: &Call, port: &Wrote) -> Result<(), Difference> {
    let expected = call.stands_for().map(|messages| Read {
        used: port.answer,
        ids: [call.stream, call.frame],
        messages,
    });
    let read = read(&port.area, call.limit);
    if read.as_ref().ok() == expected.as_ref().ok() {
        return Ok(());
    }
    Err(Difference::in_call("write_notify, read back")
        .row("with", format!("{call:?}"))
        .row("port", port.answer)
        .row("", hex(&port.area))
        .row("tables", format!("{expected:?}"))
        .row("rust", format!("{read:?}")))
}

pub fn diff(random: &mut Random, rounds: u64) -> Result<String, Difference> {
    let mut done = 0;
    for _ in 0..rounds {
        let mut call = drawn(random);
        if let Some(length) = checked(&call)? {
            done += 1;
            records::to_an_edge(random, length, &mut call.limit, &mut call.room);
            checked(&call)?;
        }
    }
    Ok(format!(
        "{rounds} rounds, {done} of them with a frame written and read back by both"
    ))
}

fn checked(call: &Call) -> Result<Option<usize>, Difference> {
    compare(call).or_else(|_| compare(&shrink::call(call)))
}

// ---------------------------------------------------------------- making a call smaller

impl shrink::Call for Call {
    fn differing(&self) -> Option<[Answer; 2]> {
        let answers = [self.by_port().answer, self.by_paper().answer];
        compare(self).is_err().then_some(answers)
    }

    fn length(&self) -> Option<usize> {
        let messages = self.stands_for().ok()?;
        Some(self.written(&messages).len())
    }

    fn with_less(&self) -> Vec<Call> {
        let mut all = vec![self.without_rests()];
        for index in 0..self.rows().count() {
            let count = self.messages[MESSAGE_WIDTH * index + 3] as usize;
            let fewer = [count, count / 2, 1].map(|less| self.without_pairs(index, less));
            all.extend(fewer);
            all.push(Some(self.without_message(index)));
        }
        let plainer = shrink::with_null(&self.pairs, PAIR_WIDTH).into_iter();
        let plainer = plainer.map(|pairs| Call {
            pairs,
            ..self.clone()
        });
        all.into_iter().flatten().chain(plainer).collect()
    }

    fn fields(&mut self) -> Fields<'_> {
        let ids = [&mut self.stream, &mut self.frame];
        let counts = [&mut self.message_count, &mut self.pair_count];
        let tables = self.messages.iter_mut().chain(&mut self.pairs);
        Fields {
            flags: [&mut self.fin, &mut self.abort],
            limit: &mut self.limit,
            buffer: &mut self.buffer,
            room: &mut self.room,
            numbers: ids.into_iter().chain(counts).chain(tables).collect(),
        }
    }
}

impl Call {
    /// Without what stands in the tables behind the records.
    fn without_rests(&self) -> Option<Call> {
        let mut less = self.clone();
        less.messages.truncate(MESSAGE_WIDTH * self.rows().count());
        less.pairs
            .truncate(PAIR_WIDTH * usize::try_from(self.pair_count).ok()?.min(self.pairs.len()));
        (less.messages.len() + less.pairs.len() < self.messages.len() + self.pairs.len())
            .then_some(less)
    }

    /// Without the first `count` pairs of a run, where it has them; those behind it move up.
    fn without_pairs(&self, index: usize, count: usize) -> Option<Call> {
        let mut less = self.clone();
        let row = &mut less.messages[MESSAGE_WIDTH * index..];
        let start = usize::try_from(row[2]).ok()?;
        row[3] = row[3].checked_sub(count as u64)?;
        for later in row[MESSAGE_WIDTH..].chunks_exact_mut(MESSAGE_WIDTH) {
            later[2] = later[2].saturating_sub(count as u64);
        }
        less.pair_count = less.pair_count.checked_sub(count as u64)?;
        let end = start.checked_add(count)?;
        let rows = start.checked_mul(PAIR_WIDTH)?..end.checked_mul(PAIR_WIDTH)?;
        if count == 0 || rows.end > less.pairs.len() {
            return None;
        }
        less.pairs.drain(rows);
        Some(less)
    }

    fn without_message(&self, index: usize) -> Call {
        let mut less = self.clone();
        let start = MESSAGE_WIDTH * index;
        less.messages.drain(start..start + MESSAGE_WIDTH);
        less.message_count -= 1;
        less
    }
}

// ---------------------------------------------------------------- drawing

/// A call that is right half of the time. Several faults at once show which check comes first.
fn drawn(random: &mut Random) -> Call {
    let mut call = right(random);
    for _ in 0..[0, 0, 0, 0, 1, 1, 2, 4][random.index(8)] {
        spoil(random, &mut call);
    }
    call
}

/// Tables that can be written, but for runs of 256 or 257 pairs.
pub fn right(random: &mut Random) -> Call {
    let buffer = contents(random);
    let (mut messages, mut pairs) = (Vec::new(), Vec::new());
    let message_count = random.within(0, MESSAGES);
    for _ in 0..message_count {
        let count = match random.below(64) {
            0 => random.within(254, 257),
            _ => random.within(0, ARGUMENTS),
        };
        let first = (pairs.len() / PAIR_WIDTH) as u64;
        add_message(random, &buffer, [first, count], &mut messages);
        (0..count).for_each(|_| add_pair(random, &buffer, &mut pairs));
    }
    let pair_count = (pairs.len() / PAIR_WIDTH) as u64;
    let room = ROW * (1 + message_count + pair_count) as usize;
    // What stands behind the records is not to be looked at.
    messages.extend((0..random.index(2 * MESSAGE_WIDTH + 1)).map(|_| random.below(3)));
    pairs.extend((0..random.index(2 * PAIR_WIDTH + 1)).map(|_| random.below(3)));
    Call {
        fin: true,
        abort: false,
        stream: inputs::number(random),
        frame: inputs::number(random),
        limit: match random.below(8) {
            0 => u32::MAX,
            _ => 16_384,
        },
        buffer,
        messages,
        message_count,
        pairs,
        pair_count,
        room,
    }
}

/// Characters of every length, or what the other parts draw.
fn contents(random: &mut Random) -> Vec<u8> {
    if random.below(4) == 0 {
        return records::contents(random);
    }
    let (mut bytes, length) = (Vec::new(), random.index(records::LONGEST - 4));
    while bytes.len() < length {
        match random.below(2) {
            0 => bytes.push(b'a' + random.below(26) as u8),
            _ => inputs::sequence(random, &mut bytes),
        }
    }
    bytes
}

/// A message with any name, at times that of an earlier one.
fn add_message(random: &mut Random, buffer: &[u8], run: [u64; 2], messages: &mut Vec<u64>) {
    let mut name = drawn_name(random, buffer);
    while records::text(buffer, name[0], name[1]).is_err() {
        name = drawn_name(random, buffer);
    }
    if random.below(4) == 0 {
        repeat(random, &mut name, messages, MESSAGE_WIDTH);
    }
    messages.extend(name);
    messages.extend(run);
}

fn drawn_name(random: &mut Random, buffer: &[u8]) -> [u64; 2] {
    records::drawn_part(random, buffer.len() as u64).into()
}

/// A pair with any key, at times that of an earlier one.
fn add_pair(random: &mut Random, buffer: &[u8], pairs: &mut Vec<u64>) {
    let mut pair = drawn_pair(random, buffer);
    while records::pair(&pair, buffer).is_err() {
        pair = drawn_pair(random, buffer);
    }
    if random.below(4) == 0 {
        repeat(random, &mut pair, pairs, PAIR_WIDTH);
    }
    pairs.extend(pair);
}

fn drawn_pair(random: &mut Random, buffer: &[u8]) -> [u64; PAIR_WIDTH] {
    let [start, length] = drawn_name(random, buffer);
    let [kind, a, b, flags] = records::drawn_value(random, buffer.len() as u64);
    [start, length, kind, a, b, flags]
}

/// Takes over the start and the length of a record of the table, where it has one.
fn repeat(random: &mut Random, record: &mut [u64], table: &[u64], width: usize) {
    if !table.is_empty() {
        let start = width * random.index(table.len() / width);
        record[..2].copy_from_slice(&table[start..start + 2]);
    }
}

// ---------------------------------------------------------------- spoiling

/// Changes one thing, mostly so that the call is refused.
fn spoil(random: &mut Random, call: &mut Call) {
    match random.below(16) {
        0 => {
            let wrong = [(false, false), (false, true), (true, true)];
            (call.fin, call.abort) = wrong[random.index(3)];
        }
        1 | 2 => change_one(random, &mut call.messages),
        3..=5 => change_one(random, &mut call.pairs),
        6 => change_some(random, &mut call.messages, MESSAGE_WIDTH),
        7 => change_some(random, &mut call.pairs, PAIR_WIDTH),
        8 => call.message_count = other_count(random, call.message_count, MESSAGE_WIDTH),
        9 => call.pair_count = other_count(random, call.pair_count, PAIR_WIDTH),
        10 => call.message_count = 0,
        11 => move_runs(random, call),
        12 => wrap_last_run(random, call),
        13 if !call.buffer.is_empty() => inputs::damage(random, &mut call.buffer),
        14 if !call.buffer.is_empty() => inputs::cut(random, &mut call.buffer),
        15 if random.below(2) == 0 => call.limit = random.below(60) as u32,
        _ => call.room = random.index(60),
    }
}

fn change_one(random: &mut Random, table: &mut [u64]) {
    if !table.is_empty() {
        let place = random.index(table.len());
        table[place] = other(random, table[place]);
    }
}

/// Changes about half of the numbers of a record, for several faults in it.
fn change_some(random: &mut Random, table: &mut [u64], width: usize) {
    if table.len() >= width {
        let start = width * random.index(table.len() / width);
        for number in &mut table[start..start + width] {
            if random.below(2) == 0 {
                *number = other(random, *number);
            }
        }
    }
}

/// A neighbour, an end of a range, or any number.
fn other(random: &mut Random, old: u64) -> u64 {
    match random.below(6) {
        0 => old.wrapping_add(1),
        1 => old.wrapping_sub(1),
        2 => 0,
        3 => u64::MAX - random.below(3),
        4 => random.within(254, 258),
        _ => inputs::number(random),
    }
}

/// Some counts are so large that their numbers, counted in 64 bits, would start from 0 again.
fn other_count(random: &mut Random, old: u64, width: usize) -> u64 {
    match random.below(4) {
        0 => u64::MAX / width as u64 + 1 + random.below(3),
        _ => other(random, old),
    }
}

/// Makes a gap or an overlap before a run, and takes the runs behind it and the count of pairs along, so that nothing
/// else is wrong where the table has a pair more.
fn move_runs(random: &mut Random, call: &mut Call) {
    let step = [1, u64::MAX][random.index(2)];
    let from = random.below(call.message_count.max(1)) as usize;
    for row in call.messages.chunks_exact_mut(MESSAGE_WIDTH).skip(from) {
        row[2] = row[2].wrapping_add(step);
    }
    call.pair_count = call.pair_count.wrapping_add(step);
}

/// Has the last run start behind the last pair, and end at it where sums lose what 64 bits do not hold.
fn wrap_last_run(random: &mut Random, call: &mut Call) {
    let last = call.message_count.wrapping_sub(1) as usize;
    if let Some(row) = call.messages.chunks_exact_mut(MESSAGE_WIDTH).nth(last)
        && row[2] > 0
    {
        call.pair_count = random.below(row[2]);
        row[3] = call.pair_count.wrapping_sub(row[2]);
    }
}

// ---------------------------------------------------------------- timing

pub fn bench(_: &mut Random) {
    time(
        "write_notify, upload",
        vec![
            ("slot_a".into(), TypedData::UInt32(3)),
            ("delay_a".into(), TypedData::Int64(1_250)),
            ("slot_b".into(), TypedData::UInt32(17)),
            ("delay_b".into(), TypedData::Int64(-730)),
        ],
    );
    let long = |index| {
        (
            format!("slot{index:04}"),
            TypedData::String(format!("{index:>69}")),
        )
    };
    time("write_notify, 200 arguments", (0..200).map(long).collect());
}

/// One message. The Rust writes an ACK that sets variables of the same names to the same values.
fn time(name: &str, arguments: Vec<(String, TypedData)>) {
    let mut buffer = Vec::new();
    let [start, length] = records::lend(b"delay-upload", &mut buffer);
    let count = arguments.len() as u64;
    let message = [start, length, 0, count];
    let (mut pairs, mut actions) = (Vec::new(), Vec::new());
    for (key, value) in arguments {
        pairs.extend(records::lend_pair(&key, &value, &mut buffer));
        actions.push(records::set_var(key, value));
    }
    let (mut lent, mut at) = (vec![0; 16_384], 0);
    let mut port = || {
        black_box(port::write_notify(
            [true, false],
            [1, 2],
            16_384,
            black_box(&buffer),
            black_box(&message),
            1,
            black_box(&pairs),
            count,
            &mut lent,
            &mut at,
        ));
        black_box((&lent, &at));
        at
    };
    let length = port();
    let floor = timing::copying(vec![1; length as usize]);
    let ack = Frame::ack(1, 2, actions);
    let nanoseconds = timing::race_above(name, 1, || _ = port(), ack.race(), floor);
    timing::rate(length, nanoseconds);
}

/// The Rust writes no such frame, so it has no answers to list.
pub fn list(_: &mut Random) -> Result<Vec<String>, String> {
    Ok(Vec::new())
}
