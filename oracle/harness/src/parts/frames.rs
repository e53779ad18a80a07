//! Frames and pairs that are read. Number, place, head and tables of the port are compared with a plain reading of
//! the paper, and that with what the Rust reads.

use crate::{
    answers::{self, Answer},
    counts::ENOUGH,
    growth,
    inputs::{self, Random},
    port::{self, MESSAGE_WIDTH, PAIR_WIDTH},
    reader::{
        call::{Call, declared},
        classes::Met,
        model::{self, Read, Rooms, TABLE_FULL},
        wire,
    },
    records::{self, REPEATED},
    tenth,
    text::Difference,
    timing,
};
use nom::IResult;
use spop::{
    SpopFrame, frame::FrameType, parser::parse_frame, types::TypedData, varint::encode_varint_into,
};
use std::hint::black_box;

// ---------------------------------------------------------------- the inputs

pub fn diff(random: &mut Random, rounds: u64) -> Result<String, Difference> {
    let (mut fixed, mut drawn) = (Met::default(), Met::default());
    examples(&mut fixed)?;
    from_haproxy(&mut fixed)?;
    around_the_listing(&mut fixed)?;
    small_payloads(&mut fixed)?;
    long_numbers(&mut fixed)?;
    small_pairs(&mut fixed)?;
    fixed.all("fixed")?;
    for _ in 0..rounds {
        round(&mut drawn, random)?;
    }
    if rounds >= ENOUGH {
        drawn.all("random")?;
    }
    drawn.print();
    Ok(format!(
        "{} fixed frames and {} fixed pairs, {} random frames and {} random pairs in {rounds} rounds; {}",
        fixed.frames.inputs,
        fixed.pairs.inputs,
        drawn.frames.inputs,
        drawn.pairs.inputs,
        tenth::left_out(fixed.left_out, drawn.left_out),
    ))
}

/// The frame of the paper's listing.
pub const LISTING: &[u8] =
    b"\0\0\0\x19\x03\0\0\0\x01\x01\x02\x05delay\x02\x04slot\x03\x07\x02ok\x11";

/// Tables for 64 messages and 256 pairs.
const ROOMY: [usize; 2] = [MESSAGE_WIDTH * 64, PAIR_WIDTH * 256];

/// The paper's examples of frames, with a limit and the answer: they hold the reading of the paper to it.
const EXAMPLES: [(&[u8], u32, Answer); 13] = [
    (LISTING, 65_532, paper(0, 29)),
    (b"\0\0\0\x07\x01\0\0\0\x01\0\0", 7, paper(0, 11)),
    (b"\0\0\0\x07\x01\0\0\0\x00\0\0", 7, paper(4, 4)),
    (b"\0\0\0\x07\x01\0\0\0\x02\0\0", 7, paper(4, 4)),
    (b"\0\0\0\x07\x01\0\0\0\x05\0\0", 7, paper(4, 4)),
    (b"\0\0\0\x07\x01\0\0\0\x03\0\0", 7, paper(5, 4)),
    (b"\0\0\0\x07\x65\0\0\0\x02\0\0", 7, paper(4, 4)),
    (b"\0\x10\0\x01", 1_048_576, paper(2, 4)),
    (b"\0\x10\0\0", 1_048_576, paper(1, 1_048_576)),
    (b"\0\0\0\0", 0, paper(3, 4)),
    (
        b"\0\0\0\x0f\x01\0\0\0\x01\xf0\x80\x80\x80\x80\x80\x80\x80\x80\x0f",
        15,
        paper(7, 19),
    ),
    (
        b"\0\0\0\x0f\x01\0\0\0\x01\xf0\x80\x80\x80\x80\x80\x80\x80\x80\x10",
        15,
        paper(19, 19),
    ),
    (
        b"\0\0\0\x0f\x01\0\0\0\x01\0\0\x02A\xff\0\x02A\xfe\0",
        15,
        paper(9, 19),
    ),
];

const fn paper(number: u64, at: u64) -> Answer {
    Answer::Paper { number, at }
}

fn examples(met: &mut Met) -> Result<(), Difference> {
    for (input, limit, answer) in EXAMPLES {
        let call = Call {
            input: input.to_vec(),
            limit,
            lengths: ROOMY,
        };
        let read = met.frame(&call)?;
        assert!(
            answer == Answer::new(read.number, read.at),
            "{answer}, not as the paper has it"
        );
    }
    let read = model::frame(LISTING, 65_532, Rooms::of(ROOMY));
    assert_eq!(read.head, [3, 1, 1, 2, 1, 2]);
    assert_eq!(read.messages, [[12, 5, 0, 2]]);
    assert_eq!(read.pairs, [[19, 4, 3, 7, 0, 0], [26, 2, 1, 1, 0, 0]]);
    Ok(())
}

/// Frames that a HAProxy sent, all of them whole.
pub const FROM_HAPROXY: &[u8] = include_bytes!("../../../../examples/haproxy/frames.bin");

/// These read one after the other, with what stands behind them, and each in tables that are just enough and too small.
fn from_haproxy(met: &mut Met) -> Result<(), Difference> {
    let mut call = Call {
        input: FROM_HAPROXY.to_vec(),
        limit: 16_384,
        lengths: ROOMY,
    };
    while !call.input.is_empty() {
        let read = met.frame(&call)?;
        assert!(
            read.number == answers::DONE,
            "HAProxy's frame is answered with {}",
            read.number
        );
        let (frame, behind) = call.input.split_at(read.at as usize);
        let mut alone = Call {
            input: frame.to_vec(),
            limit: declared(frame),
            lengths: [
                MESSAGE_WIDTH * read.messages.len(),
                PAIR_WIDTH * read.pairs.len(),
            ],
        };
        call.input = behind.to_vec();
        met.frame(&alone)?;
        alone.lengths[1] -= 1;
        met.frame(&alone)?;
    }
    Ok(())
}

/// The listing cut anywhere, with each byte changed to each other, and with each type and each bit of the flags.
fn around_the_listing(met: &mut Met) -> Result<(), Difference> {
    let mut call = Call {
        input: LISTING.to_vec(),
        limit: 25,
        lengths: [MESSAGE_WIDTH, 2 * PAIR_WIDTH],
    };
    for end in 0..LISTING.len() {
        call.input.truncate(LISTING.len() - end);
        met.frame(&call)?;
    }
    for place in 0..LISTING.len() {
        for byte in 0..=255 {
            call.input = LISTING.to_vec();
            call.input[place] = byte;
            met.frame(&call)?;
        }
    }
    for kind in 0..=255 {
        for bit in 0..32 {
            call.input = LISTING.to_vec();
            call.input[4] = kind;
            call.input[5..9].copy_from_slice(&(1u32 ^ 1 << bit).to_be_bytes());
            met.frame(&call)?;
        }
    }
    Ok(())
}

/// Each string of up to six bytes of a few kinds, as a payload, as ids and as a whole frame, with small tables of
/// changing sizes.
fn small_payloads(met: &mut Met) -> Result<(), Difference> {
    const BYTES: [u8; 8] = [0x00, 0x01, 0x02, 0x0a, b'A', 0x80, 0xf0, 0xff];
    for length in 0..=6 {
        for index in 0..8usize.pow(length) {
            let digits = (0..length).map(|place| BYTES[index >> (3 * place) & 7]);
            let payload: Vec<u8> = digits.collect();
            for kind in [1, 3] {
                let frame = [
                    &[0, 0, 0, 7 + length as u8, kind, 0, 0, 0, 1, 0, 0],
                    &payload[..],
                ];
                small_tables(met, frame.concat(), index)?;
            }
            let cut = [&[0, 0, 0, length as u8], &payload[..]].concat();
            small_tables(met, cut, index)?;
            let ids = [&[0, 0, 0, 5 + length as u8, 2, 0, 0, 0, 1], &payload[..]].concat();
            small_tables(met, ids, index)?;
        }
    }
    Ok(())
}

fn small_tables(met: &mut Met, input: Vec<u8>, index: usize) -> Result<(), Difference> {
    let lengths = [index % 13, index % 17];
    let limit = 13;
    met.frame(&Call {
        input,
        limit,
        lengths,
    })?;
    Ok(())
}

/// What may stand before a number behind the flags: it is an id, a length or a value then.
const BEFORE: [&[u8]; 7] = [
    b"",
    b"\0",
    b"\0\0",
    b"\0\0\0\x02",
    b"\0\0\0\x05",
    b"\0\0\0\x08",
    b"\0\0\0\x01\0\x04",
];

/// The same for a pair on its own.
const IN_PAIRS: [&[u8]; 6] = [
    b"",
    b"\0\x02",
    b"\0\x14",
    b"\x01k\x05",
    b"\0\x08",
    b"\x01k\xf9",
];

/// Numbers of ten and eleven bytes, cut anywhere, and any tenth byte.
fn long_numbers(met: &mut Met) -> Result<(), Difference> {
    const NUMBERS: [&[u8]; 4] = [
        b"\xf0\x80\x80\x80\x80\x80\x80\x80\x80\x10",
        b"\xf0\x80\x80\x80\x80\x80\x80\x80\x80\x0f",
        b"\xf0\x80\x80\x80\x80\x80\x80\x80\x80\x80\0",
        b"\xff\xf0\xfe\xfe\xfe\xfe\xfe\xfe\xfe\x0e",
    ];
    for number in NUMBERS {
        for end in 0..=number.len() {
            with_number(met, &number[..end], ROOMY)?;
        }
    }
    for number in inputs::tenth_bytes() {
        with_number(met, &number, ROOMY)?;
        with_number(met, &number, [4, 0])?;
        for before in IN_PAIRS {
            met.pair(&[before, &number[..]].concat())?;
        }
    }
    Ok(())
}

/// Frames that end with this number, as an id, a length or a value.
fn with_number(met: &mut Met, number: &[u8], lengths: [usize; 2]) -> Result<(), Difference> {
    for before in BEFORE {
        for kind in [1, 3, 103] {
            let body = [&[kind, 0, 0, 0, 1], before, number].concat();
            let input = [&[0, 0, 0, body.len() as u8], &body[..]].concat();
            let limit = 60;
            met.frame(&Call {
                input,
                limit,
                lengths,
            })?;
        }
    }
    Ok(())
}

/// Each byte string of up to three bytes.
fn small_pairs(met: &mut Met) -> Result<(), Difference> {
    for length in 0..=3 {
        for bits in 0..1u32 << (8 * length) {
            met.pair(&bits.to_be_bytes()[4 - length..])?;
        }
    }
    Ok(())
}

/// Reads a buffer frame by frame, as a caller does, and each frame once more at an edge.
fn round(met: &mut Met, random: &mut Random) -> Result<(), Difference> {
    let mut call = drawn(random);
    loop {
        let read = met.frame(&call)?;
        if matches!(read.number, answers::DONE | REPEATED) {
            met.frame(&at_an_edge(random, &call, &read))?;
        }
        if read.number != answers::DONE {
            break;
        }
        call.input.drain(..read.at as usize);
    }
    met.pair(&wire::pair(random))
}

/// A buffer, a limit and two tables.
pub fn drawn(random: &mut Random) -> Call {
    let drawn = wire::drawn(random);
    let limit = match random.below(32) {
        0 => 0,
        1 => declared(&drawn.bytes),
        2 => declared(&drawn.bytes).wrapping_sub(1),
        3 => u32::MAX,
        4 => random.below(60) as u32,
        5..8 => 1_048_576,
        _ => 16_384,
    };
    Call {
        limit,
        lengths: [
            length(random, drawn.messages, MESSAGE_WIDTH),
            length(random, drawn.pairs, PAIR_WIDTH),
        ],
        input: drawn.bytes,
    }
}

/// How many numbers a table has that is to hold so many records: enough most of the time, and some that are no record.
fn length(random: &mut Random, records: usize, width: usize) -> usize {
    let rows = match random.below(16) {
        0 => 0,
        1 => records.saturating_sub(1),
        2 => random.index(records + 1),
        3..7 => records,
        _ => records + random.index(4),
    };
    rows * width + random.index(width)
}

/// The same frame cut, with a limit that is just enough or one too small, or with such a table.
fn at_an_edge(random: &mut Random, call: &Call, read: &Read) -> Call {
    let mut edge = call.clone();
    let rows = [read.messages.len(), read.pairs.len()];
    match random.below(8) {
        0 => edge
            .input
            .truncate(random.index(4 + declared(&call.input) as usize)),
        1 => edge.limit = declared(&call.input),
        2 => edge.limit = declared(&call.input) - 1,
        3 => edge.lengths = [MESSAGE_WIDTH * rows[0], PAIR_WIDTH * rows[1]],
        4 => edge.lengths[0] = (MESSAGE_WIDTH * rows[0]).saturating_sub(1),
        _ => {
            let fewer = 1 + random.index(2 * PAIR_WIDTH);
            edge.lengths[1] = (PAIR_WIDTH * rows[1]).saturating_sub(fewer);
        }
    }
    edge
}

// ---------------------------------------------------------------- timing

/// The limit of the Rust's `parse_frame`.
pub const LIMIT: u32 = 1_048_576;

pub fn bench(_: &mut Random) {
    time("read_frame, upload", &upload(1));
    time("read_frame, 200 arguments", &long_notify());
    time("read_frame, HAPROXY-HELLO", &hello());
    time_a_buffer();
    time_a_flood();
    time_records("as records, upload", &upload(1));
    time_records("as records, 200 arguments", &long_notify());
    time_records("as records, 50 messages", &messages());
    time_records("as records, HAPROXY-HELLO", &hello());
    growth::bench();
}

fn time(name: &str, frame: &[u8]) {
    let sides = (port_reads(frame, 1), rust_reads(frame, 1));
    let floor = timing::copying(frame.to_vec());
    let nanoseconds = timing::race_above(name, 1, sides.0, sides.1, floor);
    timing::rate(frame.len() as u64, nanoseconds);
}

/// The reader with pair records beside the one with numbers.
fn time_records(name: &str, frame: &[u8]) {
    timing::compare(name, 1, record_reads(frame), port_reads(frame, 1));
}

fn record_reads(frame: &[u8]) -> impl FnMut() {
    let (mut messages, mut pairs) = ([0; ROOMY[0]], [[0; PAIR_WIDTH]; ROOMY[1] / PAIR_WIDTH]);
    let (mut head, mut at) = ([0; 6], 0);
    move || {
        let input = black_box(frame);
        let number =
            port::read_frame_records(input, LIMIT, &mut messages, &mut pairs, &mut head, &mut at);
        assert!(number == answers::DONE, "the port answers {number}");
        black_box((&messages, &pairs, &head));
    }
}

/// 64 frames of one length, to be read at the same cost whatever stands behind them.
fn time_a_buffer() {
    let frames: Vec<u8> = (0..64).flat_map(upload).collect();
    let (all, half) = (frames.len(), frames.len() / 2);
    let sides = (port_reads(&frames, 64), rust_reads(&frames, 64));
    let nanoseconds = timing::race("read_frame, 64 from a buffer", 64, sides.0, sides.1);
    timing::rate(all as u64 / 64, nanoseconds);
    let halves = (port_reads(&frames, 32), port_reads(&frames[half..], 32));
    timing::compare("read_frame, first 32, last 32", 32, halves.0, halves.1);
}

/// A list with far more keys than its table has room for: the work has to be that of the room.
fn time_a_flood() {
    let frame = flood();
    let (mut tables, mut head, mut at) = (Tables::new(), [0; 6], 0);
    let port = || {
        let number = tables.read(black_box(&frame), &mut head, &mut at);
        assert!(number == TABLE_FULL, "the port answers {number}");
        black_box(at);
    };
    timing::alone("read_frame, 209,713 keys, 10", port);
}

struct Tables {
    messages: [u64; ROOMY[0]],
    pairs: [u64; ROOMY[1]],
}

impl Tables {
    fn new() -> Self {
        Self {
            messages: [0; ROOMY[0]],
            pairs: [0; ROOMY[1]],
        }
    }

    fn read(&mut self, input: &[u8], head: &mut [u64; 6], at: &mut u64) -> u64 {
        port::read_frame(input, LIMIT, &mut self.messages, &mut self.pairs, head, at)
    }
}

/// Reads the first frames of a buffer, one after the other.
pub fn port_reads(buffer: &[u8], frames: usize) -> impl FnMut() {
    let (mut tables, mut head, mut at) = (Tables::new(), [0; 6], 0);
    move || {
        let mut rest = black_box(buffer);
        for _ in 0..frames {
            let number = tables.read(rest, &mut head, &mut at);
            assert!(number == answers::DONE, "the port answers {number}");
            black_box((&tables.messages, &tables.pairs, &head));
            rest = &rest[at as usize..];
        }
    }
}

pub fn rust_reads(buffer: &[u8], frames: usize) -> impl FnMut() {
    let rust_read: fn(&[u8]) -> IResult<&[u8], Box<dyn SpopFrame>> = black_box(rust_read);
    move || {
        let mut rest = black_box(buffer);
        for _ in 0..frames {
            let (behind, frame) = rust_read(rest).expect("the Rust reads this frame");
            black_box(&frame);
            rest = behind;
        }
    }
}

#[inline(never)]
fn rust_read(input: &[u8]) -> IResult<&[u8], Box<dyn SpopFrame>> {
    parse_frame(input)
}

// ---------------------------------------------------------------- the frames that are timed

pub fn framed(kind: FrameType, ids: [u64; 2], payload: &[u8]) -> Vec<u8> {
    let mut frame = vec![kind.to_u8(), 0, 0, 0, 1];
    ids.iter()
        .for_each(|id| encode_varint_into(*id, &mut frame));
    frame.extend_from_slice(payload);
    let length = frame.len() as u32;
    [&length.to_be_bytes(), &frame[..]].concat()
}

pub fn encoded(pairs: &[(&str, TypedData)]) -> Vec<u8> {
    let pairs = pairs.iter();
    pairs
        .flat_map(|(key, value)| records::encoding(key, value))
        .collect()
}

fn notify(ids: [u64; 2], arguments: &[(&str, TypedData)]) -> Vec<u8> {
    let mut payload = Vec::new();
    records::add_string("delay-upload", &mut payload);
    payload.push(arguments.len() as u8);
    payload.extend(encoded(arguments));
    framed(FrameType::Notify, ids, &payload)
}

/// Two slots and two delays. All numbers below 64 give frames of the same length.
pub fn upload(number: u64) -> Vec<u8> {
    let arguments = [
        ("slot_a", TypedData::UInt32(3)),
        ("delay_a", TypedData::Int64(1_250 + number as i64)),
        ("slot_b", TypedData::UInt32(17 + number as u32)),
        ("delay_b", TypedData::Int64(-730 - number as i64)),
    ];
    notify([1, number], &arguments)
}

fn long_notify() -> Vec<u8> {
    let names: Vec<String> = (0..200).map(|index| format!("slot{index:04}")).collect();
    let texts = (0..200).map(|index| TypedData::String(format!("{index:>69}")));
    let arguments: Vec<_> = names.iter().map(String::as_str).zip(texts).collect();
    notify([1, 2], &arguments)
}

/// Fifty messages of four arguments each.
fn messages() -> Vec<u8> {
    let mut payload = Vec::new();
    for index in 0..50 {
        let arguments = [
            ("slot_a", TypedData::UInt32(index)),
            ("delay_a", TypedData::Int64(1_250)),
            ("slot_b", TypedData::UInt32(index + 1)),
            ("delay_b", TypedData::Int64(-730)),
        ];
        records::add_string("delay-upload", &mut payload);
        payload.push(arguments.len() as u8);
        payload.extend(encoded(&arguments));
    }
    framed(FrameType::Notify, [1, 2], &payload)
}

pub fn hello() -> Vec<u8> {
    let text = |text: &str| TypedData::String(text.into());
    let pairs = [
        ("supported-versions", text("2.0")),
        ("max-frame-size", TypedData::UInt32(16_380)),
        ("capabilities", text("pipelining,async")),
        ("engine-id", text("6f9619ff-8b86-4d01-b42d-00cf4fc964ff")),
    ];
    framed(FrameType::HaproxyHello, [0, 0], &encoded(&pairs))
}

/// As long as the limit allows: keys of three bytes, all of them different, with null, and a longer key at the end.
fn flood() -> Vec<u8> {
    let mut payload = Vec::new();
    let room = LIMIT as usize - 7;
    let digit = |index: usize, place: usize| b'0' + (index >> (6 * place) & 63) as u8;
    for index in 0..room / 5 {
        payload.extend([3, digit(index, 2), digit(index, 1), digit(index, 0), 0]);
    }
    let last = payload.len() - 5;
    let rest = room - payload.len();
    payload[last] += rest as u8;
    payload.splice(last + 1..last + 1, vec![b'-'; rest]);
    framed(FrameType::HaproxyHello, [0, 0], &payload)
}

/// The paper's tables and places have no counterpart in what the Rust gives, so there is no list.
pub fn list(_: &mut Random) -> Result<Vec<String>, String> {
    Ok(Vec::new())
}
