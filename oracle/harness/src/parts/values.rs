//! Values: `typed_data`, `TypedData::to_bytes` and `TypedData::serialized_len`.

use crate::{
    answers::{self, Answer, TOO_SHORT_OUT},
    both,
    counts::ENOUGH,
    inputs::{self, Random},
    port::{self, VALUE_WIDTH},
    reader::wire,
    records::{self, NOT_TEXT, Value as Record},
    shrink, tenth,
    text::{Difference, hex},
    timing,
};
use spop::{
    types::{TypedData, typed_data},
    varint::{decode_varint, encode_varint_into},
};
use std::{hint::black_box, net::Ipv4Addr};

/// The memory that a lent output stands at the front of, so that a call that goes past its end shows.
const AREA: usize = records::LONGEST + 20;

const UNTOUCHED: u64 = 0xa5c3_96e1_5a3c_691e;
const FILL: u8 = 0x6b;


// ---------------------------------------------------------------- reading, both sides

#[derive(PartialEq)]
struct Read {
    answer: Answer,
    value: Record,
}

fn read_by_port(input: &[u8]) -> Read {
    let (mut value, mut at) = ([UNTOUCHED; VALUE_WIDTH], UNTOUCHED);
    let number = both::typed_data(input, &mut value, &mut at);
    let answer = Answer::new(number, at);
    Read { answer, value }
}

fn read_by_rust(input: &[u8]) -> Read {
    match typed_data(input) {
        Ok((rest, value)) => Read {
            answer: answers::accepted(input, rest),
            value: record_read(input, &value),
        },
        Err(error) => Read {
            answer: answers::refused(input, error),
            value: [UNTOUCHED; VALUE_WIDTH],
        },
    }
}

/// The paper's record for what the Rust read, which has no flags.
fn record_read(input: &[u8], value: &TypedData) -> Record {
    let [kind, a, b] = numbers_read(input, value);
    [kind, a, b, records::flags_read(input[0])]
}

/// Kind, a, b. Of bytes the Rust has the contents alone, so that their place is a plain reading of the paper's, whose
/// contents have to be the Rust's.
fn numbers_read(input: &[u8], value: &TypedData) -> [u64; 3] {
    match value {
        TypedData::Null => [0, 0, 0],
        TypedData::Bool(yes) => [1, u64::from(*yes), 0],
        TypedData::Int32(n) => [2, i64::from(*n) as u64, 0],
        TypedData::UInt32(n) => [3, u64::from(*n), 0],
        TypedData::Int64(n) => [4, *n as u64, 0],
        TypedData::UInt64(n) => [5, *n, 0],
        TypedData::IPv4(address) => part(input, 6, 1, 4, |bytes| bytes == address.octets()),
        TypedData::IPv6(address) => part(input, 7, 1, 16, |bytes| bytes == address.octets()),
        TypedData::String(text) => {
            let (start, length) = string_part(input);
            part(input, 8, start, length, |bytes| {
                String::from_utf8_lossy(bytes) == *text
            })
        }
        TypedData::Binary(data) => {
            let (start, length) = string_part(input);
            part(input, 9, start, length, |bytes| bytes == data)
        }
    }
}

/// Numbers that no answer of the port has where the bytes at that place are not the Rust's.
fn part(
    input: &[u8],
    kind: u64,
    start: usize,
    length: usize,
    right: impl Fn(&[u8]) -> bool,
) -> [u64; 3] {
    match input.get(start..start + length) {
        Some(bytes) if right(bytes) => [kind, start as u64, length as u64],
        _ => [u64::MAX; 3],
    }
}

fn string_part(input: &[u8]) -> (usize, usize) {
    match decode_varint(&input[1..]) {
        Ok((rest, length)) => (input.len() - rest.len(), length as usize),
        Err(_) => (usize::MAX / 2, 0),
    }
}

/// The paper's answer where the value has a number with a tenth byte above 15.
fn refusal(input: &[u8]) -> Option<Answer> {
    match input.first()? % 16 {
        2..=5 | 8 | 9 => tenth::refusal(input, 1),
        _ => None,
    }
}

/// What is right: the Rust's answer, or the paper's where the Rust is left out.
fn read_rightly(input: &[u8]) -> Read {
    match refusal(input) {
        Some(answer) => Read {
            answer,
            value: [UNTOUCHED; VALUE_WIDTH],
        },
        None => read_by_rust(input),
    }
}

fn differs_in_reading(input: &[u8]) -> bool {
    read_by_port(input) != read_rightly(input)
}

// ---------------------------------------------------------------- writing, both sides

#[derive(Clone)]
struct Write {
    record: Record,
    buffer: Vec<u8>,
    room: usize,
}

#[derive(PartialEq)]
struct Wrote {
    length: u64,
    answer: Answer,
    area: [u8; AREA],
}

impl Write {
    fn by_port(&self) -> Wrote {
        let (mut area, mut at) = ([FILL; AREA], UNTOUCHED);
        let length = both::value_len(&self.record, &self.buffer);
        let answer = match both::check_value(&self.record, &self.buffer) {
            answers::DONE => {
                let out = &mut area[..self.room];
                let number = both::write_value(&self.record, &self.buffer, out, &mut at);
                Answer::new(number, at)
            }
            number => Answer::new(number, 0),
        };
        Wrote {
            length,
            answer,
            area,
        }
    }

    /// The Rust writes a value that it holds. Which records are one, what is refused, and where flags go, of which it
    /// writes none, is a plain reading of the paper.
    fn by_rust(&self) -> Wrote {
        let mut area = [FILL; AREA];
        let value = match self.value() {
            Ok(value) => value,
            Err(number) => {
                let length = match number {
                    NOT_TEXT => self.binary_length(),
                    _ => 0,
                };
                return Wrote {
                    length,
                    answer: Answer::new(number, 0),
                    area,
                };
            }
        };
        let mut bytes = Vec::new();
        value.to_bytes(&mut bytes);
        records::put_flags(&mut bytes[0], records::flags_of(&self.record));
        let answer = match area[..self.room].get_mut(..bytes.len()) {
            Some(front) => {
                front.copy_from_slice(&bytes);
                Answer::done(bytes.len())
            }
            None => Answer::new(TOO_SHORT_OUT, 0),
        };
        let length = value.serialized_len() as u64;
        Wrote {
            length,
            answer,
            area,
        }
    }

    /// A text that is not UTF-8 is as long as a binary of the same bytes.
    fn binary_length(&self) -> u64 {
        let part = records::part(&self.buffer, self.record[1], self.record[2]);
        let bytes = part.unwrap_or_default().to_vec();
        TypedData::Binary(bytes).serialized_len() as u64
    }

    fn value(&self) -> Result<TypedData, u64> {
        records::value(self.record, &self.buffer)
    }

    fn differs(&self) -> bool {
        self.by_port() != self.by_rust()
    }
}

// ---------------------------------------------------------------- a difference, made small

fn read_difference(input: &[u8]) -> Difference {
    let input = shrink::bytes(input, differs_in_reading);
    let show = |side: Read| match side.value {
        value if value == [UNTOUCHED; VALUE_WIDTH] => format!("{}, value untouched", side.answer),
        [kind, a, b, flags] => format!("{}, value {kind} {a:#x} {b:#x} {flags:#x}", side.answer),
    };
    let right = match refusal(&input) {
        Some(_) => "paper",
        None => "rust",
    };
    Difference::in_call("typed_data")
        .row("input", hex(&input))
        .row("port", show(read_by_port(&input)))
        .row(right, show(read_rightly(&input)))
}

fn smaller_write(mut call: Write) -> Write {
    for place in 1..VALUE_WIDTH {
        let old = call.clone();
        call.record[place] = shrink::number(call.record[place], |n| {
            let mut tried = old.clone();
            tried.record[place] = n;
            tried.differs()
        });
    }
    call
}

fn write_difference(call: Write) -> Difference {
    let call = smaller_write(call);
    let (port, rust) = (call.by_port(), call.by_rust());
    Difference::in_call("write_value and value_len")
        .row("record", format!("{:x?}", call.record))
        .row("buffer", hex(&call.buffer))
        .row("out", format!("{} bytes", call.room))
        .row("port", format!("length {}, {}", port.length, port.answer))
        .row("", hex(&port.area))
        .row("rust", format!("length {}, {}", rust.length, rust.answer))
        .row("", hex(&rust.area))
}

// ---------------------------------------------------------------- comparing

#[derive(Default)]
struct Comparer {
    count: u64,
    left_out: u64,
}

impl Comparer {
    fn read(&mut self, input: &[u8]) -> Result<(), Difference> {
        self.count += 1;
        self.left_out += u64::from(refusal(input).is_some());
        if differs_in_reading(input) {
            return Err(read_difference(input));
        }
        Ok(())
    }

    fn write(&mut self, call: &Write) -> Result<(), Difference> {
        self.count += 1;
        if call.differs() {
            return Err(write_difference(call.clone()));
        }
        Ok(())
    }
}

pub fn diff(random: &mut Random, rounds: u64) -> Result<String, Difference> {
    let mut sides = Comparer::default();
    for length in 0..=3 {
        for bits in 0..1u32 << (8 * length) {
            sides.read(&bits.to_be_bytes()[4 - length..])?;
        }
    }
    let short = std::mem::take(&mut sides.count);
    long_numbers(&mut sides)?;
    let fixed = std::mem::take(&mut sides.count);
    let fixed_left_out = std::mem::take(&mut sides.left_out);
    for _ in 0..rounds {
        round(&mut sides, random)?;
    }
    let drawn = sides.count;
    if rounds >= ENOUGH && sides.left_out == 0 {
        return Err(tenth::not_met("typed_data"));
    }
    let left_out = tenth::left_out(fixed_left_out, sides.left_out);
    Ok(format!(
        "all {short} byte strings of up to three bytes, {fixed} further fixed calls, \
         {drawn} random calls in {rounds} rounds; {left_out}"
    ))
}

/// Any tenth byte behind any type byte.
fn long_numbers(sides: &mut Comparer) -> Result<(), Difference> {
    for number in inputs::tenth_bytes() {
        for first in 0..=255 {
            sides.read(&[&[first], &number[..]].concat())?;
        }
    }
    Ok(())
}

fn round(sides: &mut Comparer, random: &mut Random) -> Result<(), Difference> {
    let mut bytes = encoded(random);
    sides.read(&bytes)?;
    match random.below(3) {
        0 => inputs::append(random, &mut bytes),
        1 => inputs::cut(random, &mut bytes),
        _ => inputs::damage(random, &mut bytes),
    }
    sides.read(&bytes)?;
    sides.read(&with_long_number(random))?;
    let call = drawn_write(random);
    sides.write(&call)
}

/// A value as it may come over the wire: any type byte, numbers that fit their type and others, lengths that are right
/// and others.
fn encoded(random: &mut Random) -> Vec<u8> {
    let kind = random.below(11) as u8;
    let flags = if random.below(2) == 0 {
        0
    } else {
        random.byte() & 0xf0
    };
    let mut bytes = vec![kind | flags];
    match kind {
        2..=5 => encode_varint_into(inputs::number(random), &mut bytes),
        6 => bytes.extend((0..random.within(3, 5)).map(|_| random.byte())),
        7 => bytes.extend((0..random.within(15, 17)).map(|_| random.byte())),
        8 | 9 => {
            let content = records::contents(random);
            let length = match random.below(8) {
                0 => inputs::number(random),
                1 => content.len() as u64 + 1,
                _ => content.len() as u64,
            };
            encode_varint_into(length, &mut bytes);
            bytes.extend(content);
        }
        _ => {}
    }
    bytes
}

/// A value whose number has a tenth byte, at times cut.
fn with_long_number(random: &mut Random) -> Vec<u8> {
    let mut bytes = Vec::new();
    wire::long_value(random, &mut bytes);
    if random.below(8) == 0 {
        inputs::cut(random, &mut bytes);
    }
    bytes
}

fn drawn_write(random: &mut Random) -> Write {
    let buffer = records::contents(random);
    Write {
        record: records::drawn_value(random, buffer.len() as u64),
        buffer,
        room: random.index(AREA - 6),
    }
}

// ---------------------------------------------------------------- timing

/// Enough values of a kind that the processor does not learn them by heart.
const TIMED: usize = 1 << 12;

/// One value in each form: the bytes that are read, the record that is written, and the Rust's own.
struct Timed {
    bytes: Vec<u8>,
    record: Record,
    buffer: Vec<u8>,
    value: TypedData,
}

pub fn bench(random: &mut Random) {
    let sets: [(&str, Vec<Timed>); 4] = [
        ("u32", timed(random, |r| TypedData::UInt32(r.next() as u32))),
        (
            "i64",
            timed(random, |r| TypedData::Int64(inputs::number(r) as i64)),
        ),
        ("text of 12 bytes", timed(random, text)),
        (
            "IPv4 address",
            timed(random, |r| TypedData::IPv4(Ipv4Addr::from(r.next() as u32))),
        ),
    ];
    for (name, values) in &sets {
        time_reading(&format!("typed_data, {name}"), values);
    }
    for (name, values) in &sets {
        time_writing(&format!("write_value, {name}"), values);
    }
}

fn text(random: &mut Random) -> TypedData {
    let letters = (0..12).map(|_| (b'a' + random.below(26) as u8) as char);
    TypedData::String(letters.collect())
}

fn timed(random: &mut Random, draw: fn(&mut Random) -> TypedData) -> Vec<Timed> {
    let one = || {
        let value = draw(random);
        let mut bytes = Vec::new();
        value.to_bytes(&mut bytes);
        let (record, buffer) = match &value {
            TypedData::UInt32(n) => ([3, u64::from(*n), 0, 0], Vec::new()),
            TypedData::Int64(n) => ([4, *n as u64, 0, 0], Vec::new()),
            TypedData::IPv4(address) => ([6, 0, 4, 0], address.octets().to_vec()),
            TypedData::String(text) => ([8, 0, text.len() as u64, 0], text.clone().into_bytes()),
            _ => unreachable!("no such value is timed"),
        };
        Timed {
            bytes,
            record,
            buffer,
            value,
        }
    };
    std::iter::repeat_with(one).take(TIMED).collect()
}

#[inline(never)]
fn rust_read(input: &[u8]) -> nom::IResult<&[u8], TypedData> {
    typed_data(input)
}

#[inline(never)]
fn rust_write(value: &TypedData, out: &mut Vec<u8>) {
    value.to_bytes(out);
}

fn time_reading(name: &str, values: &[Timed]) {
    let (mut value, mut at) = ([0; VALUE_WIDTH], 0);
    let port = || {
        for one in values {
            if port::typed_data(black_box(&one.bytes), &mut value, &mut at) == 0 {
                black_box(&value);
                black_box(at);
            }
        }
    };
    let rust_read: fn(&[u8]) -> nom::IResult<&[u8], TypedData> = black_box(rust_read);
    let rust = || {
        for one in values {
            if let Ok((rest, value)) = rust_read(black_box(&one.bytes)) {
                black_box(&value);
                black_box(rest.len());
            }
        }
    };
    timing::race(name, values.len(), port, rust);
}

fn time_writing(name: &str, values: &[Timed]) {
    let (mut lent, mut at) = ([0; 64], 0);
    let port = || {
        for one in values {
            let (record, buffer) = (black_box(&one.record), black_box(&one.buffer));
            black_box(port::write_value(record, buffer, &mut lent, &mut at));
            black_box((&lent, &at));
        }
    };
    let mut grown = Vec::with_capacity(64);
    let rust_write: fn(&TypedData, &mut Vec<u8>) = black_box(rust_write);
    let rust = || {
        for one in values {
            grown.clear();
            rust_write(black_box(&one.value), &mut grown);
            black_box(&grown);
        }
    };
    timing::race(name, values.len(), port, rust);
}

// ---------------------------------------------------------------- the list

/// Each kind with its edges, each refusal, and random values, cut and damaged.
pub fn list(random: &mut Random) -> Result<Vec<String>, String> {
    let mut lines = Vec::new();
    let examples: [&[u8]; 8] = [
        &[0x02, 0xf0, 0xf1, 0xfe, 0xfe, 0x7e],
        &[0x21],
        &[0xf1],
        &[0x0a],
        &[],
        &[0x06, 1, 2, 3],
        &[0x07, 0, 1, 2, 3, 4, 5, 6, 7, 8, 9, 10, 11, 12, 13, 14, 15],
        &[0x08, 3, b'a', b'b'],
    ];
    for input in examples {
        add(&mut lines, input)?;
    }
    for first in 0..=255 {
        add(&mut lines, &[first, 3, 1, 2, 3])?;
    }
    for _ in 0..60 {
        let mut bytes = encoded(random);
        add(&mut lines, &bytes)?;
        inputs::cut(random, &mut bytes);
        add(&mut lines, &bytes)?;
    }
    list_long_numbers(&mut lines)?;
    Ok(lines)
}

/// A tenth byte above 15 behind each kind, and with a byte behind it.
fn list_long_numbers(lines: &mut Vec<String>) -> Result<(), String> {
    const NINE: &[u8; 9] = b"\xf0\x80\x80\x80\x80\x80\x80\x80\x80";
    for kind in 0..=10 {
        add(lines, &[&[kind], &NINE[..], b"\x10"].concat())?;
    }
    for tenth in [b"\x7f\x00", b"\x80\x00", b"\xff\x00"] {
        add(lines, &[b"\x05", &NINE[..], tenth].concat())?;
    }
    Ok(())
}

fn add(lines: &mut Vec<String>, input: &[u8]) -> Result<(), String> {
    let read = read_rightly(input);
    let (number, at) = read.answer.listed()?;
    let [kind, a, b, _] = match number {
        answers::DONE => read.value,
        _ => [0; VALUE_WIDTH],
    };
    lines.push(format!(
        "v {} {number:016x} {at:016x} {kind:016x} {a:016x} {b:016x}",
        hex(input)
    ));
    Ok(())
}
