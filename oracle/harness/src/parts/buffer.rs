//! Whole buffers, read by one call. Answer, counts and all three tables of the port are compared with the paper's reading of one frame
//! after the other, each with the room that is left, and each of these with what the Rust reads there.

use super::frames;
use crate::{
    answers::{self, Answer},
    both,
    counts::{Class, Counts, ENOUGH},
    inputs::{self, Random},
    port::{self, MESSAGE_WIDTH, PAIR_WIDTH, ROW_WIDTH},
    reader::{
        call::{Call as Single, declared},
        lent::{self, changed, pattern},
        model::{self, Read, Rooms, TABLE_FULL},
        sides, wire,
    },
    shrink,
    tenth::{self, NOT_FITTING},
    text::{Difference, hex},
    timing,
};
use std::{fmt, hint::black_box};

/// The most frames of a random buffer.
const MOST: u64 = 40;

const WIDTHS: [usize; 3] = [ROW_WIDTH, MESSAGE_WIDTH, PAIR_WIDTH];

// ---------------------------------------------------------------- the sides

#[derive(Clone)]
struct Call {
    input: Vec<u8>,
    limit: u32,
    /// How many numbers the tables of rows, messages and pairs have.
    lengths: [usize; 3],
}

/// What is answered, and all memory that was lent for it.
#[derive(PartialEq)]
struct Left {
    answer: Answer,
    counts: [u64; 4],
    /// Rows, messages and pairs.
    tables: [Vec<u64>; 3],
}

impl fmt::Display for Left {
    fn fmt(&self, out: &mut fmt::Formatter) -> fmt::Result {
        let Self { answer, counts, .. } = self;
        let [rows, messages, pairs] = self.tables.each_ref().map(|table| changed(table));
        write!(out, "{answer}; counts {counts:?}; rows {rows}; messages {messages}; pairs {pairs}")
    }
}

/// What the paper reads of a buffer: the frames, and what stopped it.
struct Walk {
    frames: Vec<Read>,
    /// The single call's reading where the last frame ended.
    last: Read,
    /// Whether that one is accepted, and has no row.
    no_row: bool,
    used: usize,
}

type PortCall = fn(&[u8], u32, &mut [u64], &mut [u64], &mut [u64], &mut [u64; 4], &mut u64) -> u64;

impl Call {
    fn left(&self, call: PortCall) -> Left {
        let mut tables = self.lengths.map(lent::table);
        let (mut counts, [mut at]) = (pattern(), pattern());
        let [rows, messages, pairs] = &mut tables;
        let [rows_len, messages_len, pairs_len] = self.lengths;
        let number = call(
            &self.input,
            self.limit,
            &mut rows[..rows_len],
            &mut messages[..messages_len],
            &mut pairs[..pairs_len],
            &mut counts,
            &mut at,
        );
        Left {
            answer: Answer::new(number, at),
            counts,
            tables,
        }
    }

    /// The single call that comes next, behind these frames.
    fn single(&self, frames: &[Read], used: usize) -> Single {
        let taken = |count: fn(&Read) -> usize| frames.iter().map(count).sum::<usize>();
        Single {
            input: self.input[used..].to_vec(),
            limit: self.limit,
            lengths: [
                self.lengths[1] - MESSAGE_WIDTH * taken(|read| read.messages.len()),
                self.lengths[2] - PAIR_WIDTH * taken(|read| read.pairs.len()),
            ],
        }
    }

    /// Reads by the paper, and looks at each reading.
    fn walk(&self, mut look: impl FnMut(&Single, &Read) -> Result<(), Difference>) -> Result<Walk, Difference> {
        let (mut frames, mut used) = (Vec::new(), 0);
        loop {
            let single = self.single(&frames, used);
            let read = model::frame(&single.input, single.limit, Rooms::of(single.lengths));
            look(&single, &read)?;
            let no_row = read.number == answers::DONE && frames.len() == self.lengths[0] / ROW_WIDTH;
            if read.number != answers::DONE || no_row {
                return Ok(Walk {
                    frames,
                    last: read,
                    no_row,
                    used,
                });
            }
            used += read.at as usize;
            frames.push(read);
        }
    }

    fn by_paper(&self) -> Walk {
        self.walk(|_, _| Ok(())).unwrap_or_else(|_| unreachable!("nothing is looked at"))
    }

    /// What the paper's walk is to leave in the memory that is lent.
    fn expected(&self, walk: &Walk) -> Left {
        let (mut records, mut used) = ([const { Vec::new() }; 3], 0);
        for read in &walk.frames {
            let [rows, messages, pairs] = &mut records;
            let [kind, _, stream, frame, of_messages, of_pairs] = read.head;
            let (first, count) = match kind {
                3 => (messages.len() / MESSAGE_WIDTH, of_messages),
                _ => (pairs.len() / PAIR_WIDTH, of_pairs),
            };
            rows.extend([used, read.at, kind, stream, frame, first as u64, count]);
            messages.extend_from_slice(read.messages.as_flattened());
            pairs.extend_from_slice(read.pairs.as_flattened());
            used += read.at;
        }
        let [rows, messages, pairs] = [0, 1, 2].map(|place| (records[place].len() / WIDTHS[place]) as u64);
        let mut tables = self.lengths.map(lent::table);
        for (table, records) in tables.iter_mut().zip(&records) {
            lent::put(table, records);
        }
        let number = if walk.no_row { TABLE_FULL } else { walk.last.number };
        Left {
            answer: Answer::new(number, walk.last.at),
            counts: [rows, messages, pairs, used],
            tables,
        }
    }

    /// The call itself comes first: the crate's views stand on what it promises.
    fn compare(&self) -> Result<Walk, Difference> {
        let walk = self.walk(sides::compare_paper)?;
        let expected = self.expected(&walk);
        for call in [port::read_frames as PortCall, both::read_frames] {
            let port = self.left(call);
            if port != expected {
                return Err(self.difference().row("port", port).row("paper", expected));
            }
        }
        Ok(walk)
    }

    fn difference(&self) -> Difference {
        let [rows, messages, pairs] = self.lengths;
        Difference::in_call("read_frames")
            .row("input", hex(&self.input))
            .row("limit", self.limit)
            .row("tables", format!("{rows}, {messages} and {pairs} numbers"))
    }

    /// Compares the sides. Of a difference the smallest call is shown that can be found.
    fn checked(&self) -> Result<Walk, Difference> {
        self.compare().or_else(|_| self.smaller().compare())
    }

    /// Tables first, since a full one may be what differs, and then few frames are enough; then whole frames, and bytes of what is
    /// short by then.
    fn smaller(&self) -> Call {
        let call = self.with_smaller_tables();
        let with = |input: Vec<u8>| Call {
            input,
            ..call.clone()
        };
        let differs = |input: Vec<u8>| with(input).differs();
        let mut input = shrink::runs(&call.pieces(), |less| differs(less.concat())).concat();
        if input.len() <= 128 {
            input = shrink::bytes(&input, |less| differs(less.to_vec()));
        }
        with(input).with_smaller_tables()
    }

    fn with_smaller_tables(&self) -> Call {
        let mut best = self.clone();
        for place in 0..3 {
            let with = |length: u64| {
                let mut less = best.clone();
                less.lengths[place] = length as usize;
                less
            };
            best = with(shrink::number(best.lengths[place] as u64, |less| with(less).differs()));
        }
        best
    }

    fn differs(&self) -> bool {
        self.compare().is_err()
    }

    /// The frames that are read, whatever the tables are, and the rest.
    fn pieces(&self) -> Vec<Vec<u8>> {
        let walk = self.roomy().by_paper();
        let mut rest = &self.input[..];
        let mut pieces = Vec::new();
        for read in walk.frames {
            let (frame, behind) = rest.split_at(read.at as usize);
            pieces.push(frame.to_vec());
            rest = behind;
        }
        pieces.push(rest.to_vec());
        pieces
    }

    /// The same with room for whatever there may be.
    fn roomy(&self) -> Call {
        Call {
            lengths: WIDTHS.map(|width| width * self.input.len()),
            ..self.clone()
        }
    }
}

// ---------------------------------------------------------------- the inputs

pub fn diff(random: &mut Random, rounds: u64) -> Result<String, Difference> {
    let (mut fixed, mut drawn) = (Met::default(), Met::default());
    from_haproxy(&mut fixed)?;
    all_rooms(&mut fixed)?;
    for _ in 0..rounds {
        drawn.call(&draw(random))?;
    }
    if rounds >= ENOUGH {
        drawn.counts.all("read_frames", "random")?;
    }
    drawn.counts.print();
    Ok(format!(
        "{} fixed buffers, and {} random ones of {} frames that are read; {}",
        fixed.counts.inputs,
        drawn.counts.inputs,
        drawn.frames,
        tenth::left_out(fixed.left_out, drawn.left_out),
    ))
}

/// What HAProxy sent, with tables that are just enough, and one number short in each.
fn from_haproxy(met: &mut Met) -> Result<(), Difference> {
    let all = Call {
        input: frames::FROM_HAPROXY.to_vec(),
        limit: 16_384,
        lengths: [0; 3],
    };
    let exact = all.exact();
    met.call(&exact)?;
    for place in 0..3 {
        let mut short = exact.clone();
        short.lengths[place] -= 1;
        met.call(&short)?;
    }
    Ok(())
}

/// A list of a pair, the paper's listing, a NOTIFY and a list without a record, and one more of each.
const SMALL: [&[u8]; 6] = [
    b"\0\0\0\x0a\x01\0\0\0\x01\0\0\x01A\0",
    frames::LISTING,
    b"\0\0\0\x07\x03\0\0\0\x01\x02\x03",
    b"\0\0\0\x07\x02\0\0\0\x01\0\0",
    b"\0\0\0\x0a\x03\0\0\0\x01\x04\x05\x01m\0",
    b"\0\0\0\x0a\x02\0\0\0\x01\0\0\x01B\x11",
];

/// These cut anywhere, and with each room from none to one more than there are, in each table; whole, and with the last one refused.
fn all_rooms(met: &mut Met) -> Result<(), Difference> {
    let whole = SMALL.concat();
    let mut refused = whole.clone();
    refused[whole.len() - 10] = 4;
    let mut inputs: Vec<&[u8]> = (0..=whole.len()).map(|end| &whole[..end]).collect();
    inputs.push(&refused);
    for input in inputs {
        let edges = [0, SMALL[0].len(), whole.len() - 1, whole.len()];
        let all = edges.contains(&input.len());
        let steps = if all { [1, 1, 1] } else { [2, 3, 4] };
        for rows in (0..=7).step_by(steps[0]) {
            for messages in (0..=3).step_by(steps[1]) {
                for pairs in (0..=5).step_by(steps[2]) {
                    met.call(&Call {
                        input: input.to_vec(),
                        limit: 25,
                        lengths: [ROW_WIDTH * rows, MESSAGE_WIDTH * messages, PAIR_WIDTH * pairs],
                    })?;
                }
            }
        }
    }
    Ok(())
}

/// A buffer of up to 40 frames, whole, cut or damaged, with a limit and three tables.
fn draw(random: &mut Random) -> Call {
    let mut pieces: Vec<Vec<u8>> = (0..random.within(0, MOST)).map(|_| accepted(random)).collect();
    if random.below(3) == 0 {
        let mut odd = refused(random);
        if random.below(4) == 0 {
            wire::spoil(random, &mut odd);
        }
        pieces.insert(random.index(pieces.len() + 1), odd);
    }
    let limit = match (random.below(16), pieces.is_empty()) {
        (0, false) => declared(&pieces[random.index(pieces.len())]),
        (1, false) => declared(&pieces[random.index(pieces.len())]).wrapping_sub(1),
        (2, _) => u32::MAX,
        _ => 16_384,
    };
    let mut input = pieces.concat();
    match random.below(8) {
        0..2 if !input.is_empty() => inputs::cut(random, &mut input),
        2 if !input.is_empty() => inputs::damage(random, &mut input),
        3 => inputs::append(random, &mut input),
        _ => {}
    }
    let lengths = [0; 3];
    let mut call = Call { input, limit, lengths }.exact();
    spoil_rooms(random, &mut call.lengths);
    call
}

impl Call {
    /// The same with tables that have room for just what is read, where there is room for all.
    fn exact(&self) -> Call {
        let walk = self.roomy().by_paper();
        let sum = |count: fn(&Read) -> usize| walk.frames.iter().map(count).sum::<usize>();
        let counts = [walk.frames.len(), sum(|read| read.messages.len()), sum(|read| read.pairs.len())];
        Call {
            lengths: [0, 1, 2].map(|place| WIDTHS[place] * counts[place]),
            ..self.clone()
        }
    }
}

/// A frame that is read where there is room.
fn accepted(random: &mut Random) -> Vec<u8> {
    drawn_until(random, |_, number| number == answers::DONE)
}

/// One that is not: for its type or its flags seldom, since most of those that are drawn are refused for these.
fn refused(random: &mut Random) -> Vec<u8> {
    drawn_until(random, |random, number| match number {
        answers::DONE => false,
        4..=6 => random.below(8) == 0,
        _ => true,
    })
}

/// The first frame whose answer is one that is asked for.
fn drawn_until(random: &mut Random, asked: impl Fn(&mut Random, u64) -> bool) -> Vec<u8> {
    loop {
        let frame = wire::frame(random).bytes;
        if asked(random, model::frame(&frame, u32::MAX, Rooms::ENDLESS).number) {
            return frame;
        }
    }
}

/// Tables that are just enough stay so, or one is short by a record, or all are, or they have any size; and some have numbers that are
/// no record.
fn spoil_rooms(random: &mut Random, lengths: &mut [usize; 3]) {
    let one_less = |random: &mut Random, place: usize, length: usize| length.saturating_sub(1 + random.index(WIDTHS[place]));
    match random.below(8) {
        0..2 => {}
        place @ 2..5 => {
            let place = place as usize - 2;
            lengths[place] = one_less(random, place, lengths[place]);
        }
        5 => {
            for place in 0..3 {
                lengths[place] = one_less(random, place, lengths[place]);
            }
        }
        6 => {
            for length in lengths {
                *length = random.index(*length + 1);
            }
        }
        _ => {
            for (length, width) in lengths.iter_mut().zip(WIDTHS) {
                *length += random.index(2 * width);
            }
        }
    }
}

// ---------------------------------------------------------------- what was met

#[derive(Default)]
struct Met {
    counts: Counts,
    frames: u64,
    /// Buffers that end with a frame which the Rust's answer was left out of.
    left_out: u64,
}

impl Met {
    fn call(&mut self, call: &Call) -> Result<(), Difference> {
        let walk = call.checked()?;
        let last = call.single(&walk.frames, walk.used);
        self.left_out += u64::from(sides::is_left_out(&last, &walk.last));
        self.frames += walk.frames.len() as u64;
        self.counts.add(&classes(call, &walk, &last));
        Ok(())
    }
}

/// Which of the classes a call is of, with their names.
fn classes(call: &Call, walk: &Walk, last: &Single) -> [Class; 29] {
    let is = |number| walk.last.number == number;
    let rest = &last.input;
    let full = walk.frames.len() == call.lengths[0] / ROW_WIDTH;
    let list = matches!(rest.get(4), Some(1 | 2));
    let notify = rest.get(4) == Some(&3);
    let is_notify = |read: &Read| read.head[0] == 3;
    let empty = |read: &Read| read.messages.is_empty() && read.pairs.is_empty();
    let pairs_before = |read: &[Read]| read.iter().any(|read| !read.pairs.is_empty());
    // A frame of one sort whose first record is behind records of the other sort.
    let behind = |notify: bool| {
        (1..walk.frames.len()).any(|place| {
            let (before, frame) = (&walk.frames[..place], &walk.frames[place]);
            is_notify(frame) == notify && !empty(frame) && before.iter().any(|one| is_notify(one) != notify && !empty(one))
        })
    };
    let most = walk.frames.len() as u64 >= MOST;
    [
        ("no frame is read", walk.frames.is_empty()),
        ("40 frames are read", most),
        ("a NOTIFY behind lists of pairs", behind(true)),
        ("a list of pairs behind messages", behind(false)),
        ("a NOTIFY without a message", walk.frames.iter().any(|read| is_notify(read) && empty(read))),
        ("a list without a pair", walk.frames.iter().any(|read| !is_notify(read) && empty(read))),
        ("messages without arguments, behind pairs", (1..walk.frames.len()).any(|place| {
            let read = &walk.frames[place];
            !read.messages.is_empty() && read.pairs.is_empty() && pairs_before(&walk.frames[..place])
        })),
        ("1, no byte is left", is(1) && rest.is_empty()),
        ("1, from the length bytes", is(1) && !rest.is_empty() && rest.len() < 4),
        ("1, from the frame", is(1) && rest.len() >= 4),
        ("1, with bytes and no row", is(1) && full && !rest.is_empty()),
        ("2", is(2)),
        ("2, and no row", is(2) && full),
        ("3", is(3)),
        ("4", is(4)),
        ("5", is(5)),
        ("6", is(6)),
        ("7", is(7)),
        ("8", is(8)),
        ("9", is(9)),
        ("3 to 9, and no row", (3..=9).contains(&walk.last.number) && full),
        ("19", is(NOT_FITTING)),
        ("10, a pair of a list", is(TABLE_FULL) && list),
        ("10, of a NOTIFY", is(TABLE_FULL) && notify),
        ("10, and no row either", is(TABLE_FULL) && full),
        ("10, a row of a list", walk.no_row && list),
        ("10, a row of a NOTIFY", walk.no_row && notify),
        ("10, a row, and no room at all", walk.no_row && call.lengths[0] < ROW_WIDTH),
        ("10, a row, of a frame without a record", walk.no_row && empty(&walk.last)),
    ]
}

// ---------------------------------------------------------------- timing

/// So many uploads, all of the same length.
fn uploads(count: u64) -> Vec<u8> {
    (0..count).flat_map(|number| frames::upload(number % 64)).collect()
}

pub fn bench(_: &mut Random) {
    let (few, many) = (uploads(64), uploads(4_096));
    timing::race("read_frames, 64 uploads", 64, reads(&few, 64, 1), frames::rust_reads(&few, 64));
    timing::compare("beside read_frame, 64", 64, reads(&few, 64, 1), frames::port_reads(&few, 64));
    timing::race("read_frames, 4,096 uploads", 4_096, reads(&many, 4_096, 1), frames::rust_reads(&many, 4_096));
    timing::compare("beside read_frame, 4,096", 4_096, reads(&many, 4_096, 1), frames::port_reads(&many, 4_096));
    timing::compare("4,096 at once, 64 by 64", 4_096, reads(&many, 4_096, 1), reads(&many, 64, 64));
}

/// Reads a buffer by so many calls, each with room for so many uploads.
fn reads(buffer: &[u8], uploads: usize, calls: usize) -> impl FnMut() {
    let mut tables = [ROW_WIDTH, MESSAGE_WIDTH, 4 * PAIR_WIDTH].map(|numbers| vec![0; numbers * uploads]);
    let (mut counts, mut at) = ([0; 4], 0);
    move || {
        let mut rest = black_box(buffer);
        for _ in 0..calls {
            let [rows, messages, pairs] = &mut tables;
            let number = port::read_frames(rest, frames::LIMIT, rows, messages, pairs, &mut counts, &mut at);
            assert!(counts[0] == uploads as u64, "the port answers {number} behind {} frames", counts[0]);
            black_box((&tables, &counts));
            rest = &rest[counts[3] as usize..];
        }
    }
}

/// The paper's tables and places have no counterpart in what the Rust gives, so there is no list.
pub fn list(_: &mut Random) -> Result<Vec<String>, String> {
    Ok(Vec::new())
}
