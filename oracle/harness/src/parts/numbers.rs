//! Numbers: `varint_len`, `encode_varint_into` and `decode_varint`.

use crate::{
    answers::{self, Answer, TOO_SHORT_OUT},
    both,
    counts::ENOUGH,
    inputs::{self, FIRSTS, LONGEST, Random},
    port, shrink, tenth,
    text::{Difference, hex},
    timing,
};
use spop::varint::{decode_varint, encode_varint_into, varint_len};
use std::{collections::HashSet, hint::black_box};

/// The longest input and the longest output that are tried, some way past a number's ten bytes.
const ROOM: usize = 14;

/// The memory that a lent slice stands at the front of, so that a call that goes past its end shows.
const AREA: usize = ROOM + 6;

/// What a lent number holds before a call.
const UNTOUCHED: u64 = 0xa5c3_96e1_5a3c_691e;

// ---------------------------------------------------------------- one input, both sides

fn differs_in_length(n: u64) -> bool {
    both::varint_len(n) != varint_len(n) as u64
}

/// An encode call: the number, the length of the output, and what its bytes are made from.
#[derive(Clone, Copy)]
struct Encode {
    n: u64,
    room: usize,
    fill: u8,
}

#[derive(PartialEq)]
struct Encoded {
    answer: Answer,
    area: [u8; AREA],
}

impl Encode {
    /// The memory before the call. No two bytes that follow each other are equal.
    fn before(&self) -> [u8; AREA] {
        std::array::from_fn(|place| self.fill.wrapping_add((place as u8).wrapping_mul(29)))
    }

    fn by_port(&self) -> Encoded {
        let mut area = self.before();
        let mut at = UNTOUCHED;
        let number = both::encode_varint(self.n, &mut area[..self.room], &mut at);
        let answer = Answer::new(number, at);
        Encoded { answer, area }
    }

    /// The Rust lets its output grow and so has no refusal: where the number does not fit, the
    /// answer is the paper's, 11 at 0 with every byte as it was.
    fn by_rust(&self, written: &mut Vec<u8>) -> Encoded {
        let mut area = self.before();
        written.clear();
        encode_varint_into(self.n, written);
        let answer = match area[..self.room].get_mut(..written.len()) {
            Some(front) => {
                front.copy_from_slice(written);
                Answer::done(written.len())
            }
            None => Answer::new(TOO_SHORT_OUT, 0),
        };
        Encoded { answer, area }
    }

    fn differs(&self, written: &mut Vec<u8>) -> bool {
        self.by_port() != self.by_rust(written)
    }
}

#[derive(PartialEq)]
struct Decoded {
    answer: Answer,
    value: u64,
}

/// Bytes that would end a number lie behind the input, so that reading past its end shows.
fn decode_by_port(input: &[u8]) -> Decoded {
    let mut area = [0; AREA];
    area[..input.len()].copy_from_slice(input);
    let (mut value, mut at) = (UNTOUCHED, UNTOUCHED);
    let number = both::decode_varint(&area[..input.len()], &mut value, &mut at);
    let answer = Answer::new(number, at);
    Decoded { answer, value }
}

fn decode_by_rust(input: &[u8]) -> Decoded {
    match decode_varint(input) {
        Ok((rest, value)) => Decoded {
            answer: answers::accepted(input, rest),
            value,
        },
        Err(error) => Decoded {
            answer: answers::refused(input, error),
            value: UNTOUCHED,
        },
    }
}

/// What is right: the Rust's answer, or the paper's where the tenth byte is above 15.
fn decode_rightly(input: &[u8]) -> Decoded {
    match tenth::refusal(input, 0) {
        Some(answer) => Decoded {
            answer,
            value: UNTOUCHED,
        },
        None => decode_by_rust(input),
    }
}

fn differs_in_decoding(input: &[u8]) -> bool {
    decode_by_port(input) != decode_rightly(input)
}

// ---------------------------------------------------------------- a difference, made small

fn length_difference(n: u64) -> Difference {
    let n = shrink::number(n, differs_in_length);
    Difference::in_call("varint_len")
        .row("number", n)
        .row("port", both::varint_len(n))
        .row("rust", varint_len(n))
}

fn smaller_encode(mut call: Encode) -> Encode {
    let differs = |call: Encode| call.differs(&mut Vec::new());
    loop {
        call.n = shrink::number(call.n, |n| differs(Encode { n, ..call }));
        match (0..call.room).find(|&room| differs(Encode { room, ..call })) {
            Some(room) => call.room = room,
            None => return call,
        }
    }
}

fn encode_difference(call: Encode) -> Difference {
    let call = smaller_encode(call);
    let (port, rust) = (call.by_port(), call.by_rust(&mut Vec::new()));
    let right = if call.room < written(call.n).len() {
        "paper"
    } else {
        "rust"
    };
    let show = |area: &[u8; AREA]| {
        let (lent, past) = area.split_at(call.room);
        format!("{}, past it {}", hex(lent), hex(past))
    };
    Difference::in_call("encode_varint")
        .row("number", format!("{} ({:#x})", call.n, call.n))
        .row("out", format!("{} bytes", call.room))
        .row("before", show(&call.before()))
        .row("port", port.answer)
        .row("", show(&port.area))
        .row(right, rust.answer)
        .row("", show(&rust.area))
}

fn decode_difference(input: &[u8]) -> Difference {
    let input = shrink::bytes(input, differs_in_decoding);
    let show = |side: Decoded| match side.value {
        UNTOUCHED => format!("{}, value untouched", side.answer),
        value => format!("{}, value {value} ({value:#x})", side.answer),
    };
    let right = match tenth::refusal(&input, 0) {
        Some(_) => "paper",
        None => "rust",
    };
    Difference::in_call("decode_varint")
        .row("input", format!("{} ({} bytes)", hex(&input), input.len()))
        .row("port", show(decode_by_port(&input)))
        .row(right, show(decode_rightly(&input)))
}

// ---------------------------------------------------------------- comparing

/// Compares call after call and counts them. It keeps its buffers, so that no input allocates.
#[derive(Default)]
struct Comparer {
    count: u64,
    left_out: u64,
    written: Vec<u8>,
    input: Vec<u8>,
}

impl Comparer {
    fn length(&mut self, n: u64) -> Result<(), Difference> {
        self.count += 1;
        if differs_in_length(n) {
            return Err(length_difference(n));
        }
        Ok(())
    }

    fn encode(&mut self, n: u64, room: usize, fill: u8) -> Result<(), Difference> {
        self.count += 1;
        let call = Encode { n, room, fill };
        if call.differs(&mut self.written) {
            return Err(encode_difference(call));
        }
        Ok(())
    }

    fn decode(&mut self, input: &[u8]) -> Result<(), Difference> {
        self.count += 1;
        self.left_out += u64::from(tenth::refusal(input, 0).is_some());
        if differs_in_decoding(input) {
            return Err(decode_difference(input));
        }
        Ok(())
    }

    /// Decodes what `spoil` makes of the bytes that were written last.
    fn decode_spoilt(
        &mut self,
        random: &mut Random,
        spoil: impl Fn(&mut Random, &mut Vec<u8>),
    ) -> Result<(), Difference> {
        let mut input = std::mem::take(&mut self.input);
        input.clear();
        input.extend_from_slice(&self.written);
        spoil(random, &mut input);
        let compared = self.decode(&input);
        self.input = input;
        compared
    }
}

pub fn diff(random: &mut Random, rounds: u64) -> Result<String, Difference> {
    let mut sides = Comparer::default();
    short_strings(&mut sides)?;
    let short = std::mem::take(&mut sides.count);
    constant_runs(&mut sides)?;
    for input in inputs::tenth_bytes() {
        sides.decode(&input)?;
    }
    for n in inputs::edges() {
        edge(&mut sides, n)?;
    }
    let fixed = std::mem::take(&mut sides.count);
    let fixed_left_out = std::mem::take(&mut sides.left_out);
    for _ in 0..rounds {
        round(&mut sides, random)?;
    }
    let drawn = sides.count;
    if rounds >= ENOUGH && sides.left_out == 0 {
        return Err(tenth::not_met("decode_varint"));
    }
    let left_out = tenth::left_out(fixed_left_out, sides.left_out);
    Ok(format!(
        "all {short} byte strings of up to three bytes, {fixed} further fixed calls, \
         {drawn} random calls in {rounds} rounds; {left_out}"
    ))
}

fn short_strings(sides: &mut Comparer) -> Result<(), Difference> {
    for length in 0..=3 {
        for bits in 0..1u32 << (8 * length) {
            sides.decode(&bits.to_be_bytes()[4 - length..])?;
        }
    }
    Ok(())
}

/// A first byte from 240 on, a run of one byte from 128 on, and any last byte, up to `ROOM` bytes.
fn constant_runs(sides: &mut Comparer) -> Result<(), Difference> {
    for first in 240..=255 {
        for again in 128..=255 {
            let mut input = [again; ROOM];
            input[0] = first;
            for length in 2..=ROOM {
                for last in 0..=255 {
                    input[length - 1] = last;
                    sides.decode(&input[..length])?;
                }
                input[length - 1] = again;
            }
        }
    }
    Ok(())
}

/// Everything about one number: every output length, every cut, every change of one byte.
fn edge(sides: &mut Comparer, n: u64) -> Result<(), Difference> {
    sides.length(n)?;
    for room in 0..=ROOM {
        for fill in [0x00, 0x6b, 0xff] {
            sides.encode(n, room, fill)?;
        }
    }
    let mut form = written(n);
    for end in 0..=form.len() {
        sides.decode(&form[..end])?;
    }
    for place in 0..form.len() {
        let old = form[place];
        for changed in 0..=255 {
            form[place] = changed;
            sides.decode(&form)?;
        }
        form[place] = old;
    }
    form.push(0);
    for after in 0..=255 {
        *form.last_mut().expect("a byte was added") = after;
        sides.decode(&form)?;
    }
    Ok(())
}

fn round(sides: &mut Comparer, random: &mut Random) -> Result<(), Difference> {
    let n = inputs::number(random);
    sides.length(n)?;
    sides.encode(n, random.index(ROOM + 1), random.byte())?;
    sides.decode_spoilt(random, |_, _| {})?;
    sides.decode_spoilt(random, inputs::append)?;
    sides.decode_spoilt(random, inputs::cut)?;
    sides.decode_spoilt(random, |random, bytes| inputs::damage(random, bytes))?;
    sides.decode_spoilt(random, long_run)
}

/// A first byte from 240 on, then bytes from 128 on, the last one any byte.
fn long_run(random: &mut Random, bytes: &mut Vec<u8>) {
    bytes.clear();
    bytes.push(240 | random.byte());
    for _ in 0..random.below(ROOM as u64 - 1) {
        bytes.push(128 | random.byte());
    }
    bytes.push(random.byte());
}

// ---------------------------------------------------------------- timing

/// Enough that a processor does not learn the order of the lengths by heart, as it does with 4,096.
const TIMED: usize = 1 << 16;

pub fn bench(random: &mut Random) {
    let sets = [
        ("1 byte", timed_numbers(random, 1, 1)),
        ("2 to 3 bytes", timed_numbers(random, 2, 3)),
        ("5 bytes", timed_numbers(random, 5, 5)),
        ("10 bytes", timed_numbers(random, LONGEST, LONGEST)),
        ("mixed", timed_numbers(random, 1, LONGEST)),
    ];
    for (name, numbers) in &sets {
        time_length(&format!("varint_len, {name}"), numbers);
    }
    time_nothing(&sets[0].1);
    for (name, numbers) in &sets {
        time_encode(&format!("encode_varint, {name}"), numbers);
    }
    for (name, numbers) in &sets {
        time_decode(&format!("decode_varint, {name}"), numbers);
    }
}

/// Each length from `least` to `most` as often as the others.
fn timed_numbers(random: &mut Random, least: usize, most: usize) -> Vec<u64> {
    let draw = || {
        let length = least + random.index(most - least + 1);
        inputs::number_of_length(random, length)
    };
    std::iter::repeat_with(draw).take(TIMED).collect()
}

// The port is called through C into a library of its own, by the address that the linker gives.
// These keep the original behind a call too, and the loops reach it by an address as well:
// at one to two nanoseconds for a call, the kind of call is half of what is timed.

#[inline(never)]
fn rust_length(n: u64) -> usize {
    varint_len(n)
}

#[inline(never)]
fn rust_encode(n: u64, out: &mut Vec<u8>) {
    encode_varint_into(n, out);
}

#[inline(never)]
fn rust_decode(input: &[u8]) -> nom::IResult<&[u8], u64> {
    decode_varint(input)
}

fn time_length(name: &str, numbers: &[u64]) {
    let port = || {
        for &n in numbers {
            black_box(port::varint_len(black_box(n)));
        }
    };
    let rust_length: fn(u64) -> usize = black_box(rust_length);
    let rust = || {
        for &n in numbers {
            black_box(rust_length(black_box(n)));
        }
    };
    timing::race(name, numbers.len(), port, rust);
}

#[inline(never)]
fn nothing(_: u64) -> usize {
    1
}

/// What is left of a call of `varint_len` that does no work: no side can come below it.
fn time_nothing(numbers: &[u64]) {
    let rust_length: fn(u64) -> usize = black_box(rust_length);
    let length = || {
        for &n in numbers {
            black_box(rust_length(black_box(n)));
        }
    };
    let nothing: fn(u64) -> usize = black_box(nothing);
    let call = || {
        for &n in numbers {
            black_box(nothing(black_box(n)));
        }
    };
    timing::compare(
        "a call that answers 1, the Rust's",
        numbers.len(),
        call,
        length,
    );
}

fn time_encode(name: &str, numbers: &[u64]) {
    let (mut lent, mut at) = ([0; 16], 0);
    let port = || {
        for &n in numbers {
            black_box(port::encode_varint(black_box(n), &mut lent, &mut at));
            black_box((&lent, &at));
        }
    };
    let mut grown = Vec::with_capacity(16);
    let rust_encode: fn(u64, &mut Vec<u8>) = black_box(rust_encode);
    let rust = || {
        for &n in numbers {
            grown.clear();
            rust_encode(black_box(n), &mut grown);
            black_box(&grown);
        }
    };
    timing::race(name, numbers.len(), port, rust);
}

/// The numbers stand one behind the other, and each call is lent all from its number on. Of each
/// answer the caller takes the number and the count of bytes.
fn time_decode(name: &str, numbers: &[u64]) {
    let (mut bytes, mut starts) = (Vec::new(), Vec::new());
    for &n in numbers {
        starts.push(bytes.len());
        encode_varint_into(n, &mut bytes);
    }
    let (mut value, mut at) = (0, 0);
    let port = || {
        for &start in &starts {
            let input = black_box(&bytes[start..]);
            if port::decode_varint(input, &mut value, &mut at) == 0 {
                black_box(value);
                black_box(at);
            }
        }
    };
    let rust_decode: fn(&[u8]) -> nom::IResult<&[u8], u64> = black_box(rust_decode);
    let rust = || {
        for &start in &starts {
            let input = black_box(&bytes[start..]);
            if let Ok((rest, value)) = rust_decode(input) {
                black_box(value);
                black_box(rest.len());
            }
        }
    };
    timing::race(name, numbers.len(), port, rust);
}

// ---------------------------------------------------------------- the list

/// The Rust's answers, and the paper's where it is left out, each line once.
#[derive(Default)]
struct List {
    lines: Vec<String>,
    seen: HashSet<String>,
}

impl List {
    fn add(&mut self, line: String) {
        if self.seen.insert(line.clone()) {
            self.lines.push(line);
        }
    }

    fn length(&mut self, n: u64) {
        self.add(format!("l {n:016x} {:016x}", varint_len(n)));
    }

    fn encode(&mut self, n: u64) {
        self.add(format!("e {n:016x} {}", hex(&written(n))));
    }

    fn decode(&mut self, input: &[u8]) -> Result<(), String> {
        let right = decode_rightly(input);
        let (number, at) = right.answer.listed()?;
        let value = match number {
            answers::DONE => right.value,
            _ => 0,
        };
        let input = hex(input);
        self.add(format!("d {input} {number:016x} {at:016x} {value:016x}"));
        Ok(())
    }
}

fn written(n: u64) -> Vec<u8> {
    let mut bytes = Vec::new();
    encode_varint_into(n, &mut bytes);
    bytes
}

pub fn list(random: &mut Random) -> Result<Vec<String>, String> {
    let mut list = List::default();
    let around = |n: u64| [n.wrapping_sub(1), n, n.wrapping_add(1)];
    let boundaries: Vec<u64> = FIRSTS.into_iter().flat_map(around).collect();
    let powers: Vec<u64> = (0..64).map(|bit| 1 << bit).collect();
    for &n in boundaries.iter().chain(&powers) {
        list.length(n);
    }
    for &n in &boundaries {
        list.encode(n);
        list.decode(&written(n))?;
    }
    // Smaller powers have neighbours of one byte alone.
    for n in powers.into_iter().skip(7).flat_map(around) {
        list.encode(n);
    }
    list_examples(&mut list)?;
    list_refusals(&mut list)?;
    list_random(&mut list, random)?;
    // The kinds one after the other, each in the order in which it was asked for.
    list.lines.sort_by_key(|line| "led".find(&line[..1]));
    Ok(list.lines)
}

/// F0, eight or nine bytes 80, and what comes last: the shortest run up to a tenth byte and past it.
fn run_of_80(count: usize, last: &[u8]) -> Vec<u8> {
    let mut bytes = vec![0xf0];
    bytes.resize(1 + count, 0x80);
    bytes.extend_from_slice(last);
    bytes
}

/// The examples on numbers that the paper marks.
fn list_examples(list: &mut List) -> Result<(), String> {
    list.decode(&[0xef])?;
    list.decode(&[0xf0, 0x00])?;
    list.decode(&[0xff, 0x7f])?;
    list.decode(&[0xf0, 0x80, 0x00])?;
    list.decode(&[0xff, 0xf0, 0xfe, 0xfe, 0xfe, 0xfe, 0xfe, 0xfe, 0xfe, 0x0e])?;
    list.decode(&[0xf0, 0xf1, 0xfe, 0xfe, 0x7e])?;
    list.decode(&run_of_80(8, &[0x10]))?;
    list.decode(&run_of_80(8, &[0x0f]))?;
    list.decode(&run_of_80(9, &[0x00]))
}

/// Ends too soon, a tenth byte above 15 with and without bytes behind it, sums just in range and just over.
fn list_refusals(list: &mut List) -> Result<(), String> {
    for end in 0..=11 {
        list.decode(&run_of_80(11, &[])[..end])?;
    }
    for length in 9..=11 {
        list.decode(&[0xff; 11][..length])?;
    }
    for tenth in [0x00, 0x01, 0x0e, 0x0f, 0x11, 0x1e, 0x1f, 0x20, 0x7e, 0x7f] {
        list.decode(&run_of_80(8, &[tenth]))?;
    }
    for tenth in [0x80, 0x8e, 0x8f, 0x90, 0xfe, 0xff] {
        list.decode(&run_of_80(8, &[tenth]))?;
        list.decode(&run_of_80(8, &[tenth, 0x00]))?;
        list.decode(&run_of_80(8, &[tenth, 0xff, 0x00]))?;
    }
    let largest = written(u64::MAX);
    for place in 0..largest.len() {
        let mut over = largest.clone();
        over[place] = over[place].wrapping_add(1);
        list.decode(&over)?;
    }
    Ok(())
}

/// Random numbers: written, with bytes after them, cut, and with one byte changed.
fn list_random(list: &mut List, random: &mut Random) -> Result<(), String> {
    for length in 1..=LONGEST {
        let n = inputs::number_of_length(random, length);
        list.length(n);
        list.encode(n);
        let form = written(n);
        list.decode(&form)?;
        for spoil in [
            inputs::append,
            inputs::cut,
            |random: &mut Random, bytes: &mut Vec<u8>| inputs::damage(random, bytes),
        ] {
            let mut bytes = form.clone();
            spoil(random, &mut bytes);
            list.decode(&bytes)?;
        }
    }
    Ok(())
}
