//! Text: `std::str::from_utf8`, `String::from_utf8_lossy` and whether two lossy texts are equal, by both calls that compare keys.

use crate::{
    answers::{Answer, TOO_SHORT_OUT},
    both,
    inputs::{self, Random},
    plain, port, shrink,
    text::{Difference, hex},
    timing,
};
use std::{hint::black_box, str};

/// The longest text that is drawn, some way past a step of eight bytes.
const LONGEST: usize = 40;

/// Each byte can become a mark of three, and some bytes past the output show a call that goes past its end.
const AREA: usize = 3 * LONGEST + 8;

const UNTOUCHED: u64 = 0xa5c3_96e1_5a3c_691e;

/// What a lent output holds before a call.
const FILL: u8 = 0x6b;

// ---------------------------------------------------------------- one input, both sides

fn lossy(bytes: &[u8]) -> Vec<u8> {
    String::from_utf8_lossy(bytes).into_owned().into_bytes()
}

fn differs_in_form(bytes: &[u8]) -> bool {
    both::is_utf8(bytes) != str::from_utf8(bytes).is_ok()
}

#[derive(PartialEq)]
struct Written {
    answer: Answer,
    area: [u8; AREA],
}

fn lossy_by_port(bytes: &[u8], room: usize) -> Written {
    let (mut area, mut at) = ([FILL; AREA], UNTOUCHED);
    let number = both::lossy_text(bytes, &mut area[..room], &mut at);
    let answer = Answer::new(number, at);
    Written { answer, area }
}

/// The Rust's text grows, so that where the lent bytes are too few the answer is the paper's.
fn lossy_by_rust(bytes: &[u8], room: usize) -> Written {
    let (mut area, text) = ([FILL; AREA], String::from_utf8_lossy(bytes));
    let answer = match area[..room].get_mut(..text.len()) {
        Some(front) => {
            front.copy_from_slice(text.as_bytes());
            Answer::done(text.len())
        }
        None => Answer::new(TOO_SHORT_OUT, 0),
    };
    Written { answer, area }
}

fn differs_in_lossy(bytes: &[u8], room: usize) -> bool {
    lossy_by_port(bytes, room) != lossy_by_rust(bytes, room)
}

fn differs_in_sameness(a: &[u8], b: &[u8]) -> bool {
    both::same_text(a, b) != (String::from_utf8_lossy(a) == String::from_utf8_lossy(b))
}

// ---------------------------------------------------------------- a difference, made small

fn form_difference(bytes: &[u8]) -> Difference {
    let bytes = shrink::bytes(bytes, differs_in_form);
    Difference::in_call("is_utf8")
        .row("bytes", hex(&bytes))
        .row("port", both::is_utf8(&bytes))
        .row("rust", str::from_utf8(&bytes).is_ok())
}

fn lossy_difference(bytes: &[u8], room: usize) -> Difference {
    let bytes = shrink::bytes(bytes, |bytes| differs_in_lossy(bytes, room));
    let room = (0..room)
        .find(|&room| differs_in_lossy(&bytes, room))
        .unwrap_or(room);
    let (port, rust) = (lossy_by_port(&bytes, room), lossy_by_rust(&bytes, room));
    Difference::in_call("lossy_text")
        .row("bytes", hex(&bytes))
        .row("out", format!("{room} bytes"))
        .row("port", port.answer)
        .row("", hex(&port.area))
        .row("rust", rust.answer)
        .row("", hex(&rust.area))
}

fn sameness_difference(a: &[u8], b: &[u8]) -> Difference {
    let a = shrink::bytes(a, |a| differs_in_sameness(a, b));
    let b = shrink::bytes(b, |b| differs_in_sameness(&a, b));
    Difference::in_call("same_text")
        .row("a", hex(&a))
        .row("b", hex(&b))
        .row("port", both::same_text(&a, &b))
        .row("rust", lossy(&a) == lossy(&b))
}

// ---------------------------------------------------------------- comparing

#[derive(Default)]
struct Comparer {
    count: u64,
    /// Of the calls that compare the plain way: how many had room, and how many had not.
    plain: [u64; 2],
}

impl Comparer {
    fn form(&mut self, bytes: &[u8]) -> Result<(), Difference> {
        self.count += 1;
        if differs_in_form(bytes) {
            return Err(form_difference(bytes));
        }
        Ok(())
    }

    fn lossy(&mut self, bytes: &[u8], room: usize) -> Result<(), Difference> {
        self.count += 1;
        if differs_in_lossy(bytes, room) {
            return Err(lossy_difference(bytes, room));
        }
        Ok(())
    }

    fn sameness(&mut self, a: &[u8], b: &[u8]) -> Result<(), Difference> {
        self.count += 1;
        if differs_in_sameness(a, b) {
            return Err(sameness_difference(a, b));
        }
        Ok(())
    }

    fn plain(&mut self, a: &[u8], b: &[u8], rooms: [usize; 2]) -> Result<(), Difference> {
        self.count += 1;
        let done = plain::compare(a, b, rooms)?;
        self.plain[usize::from(!done)] += 1;
        Ok(())
    }

    /// All four calls on one string, which is compared with another.
    fn all(
        &mut self,
        bytes: &[u8],
        other: &[u8],
        room: usize,
        other_room: usize,
    ) -> Result<(), Difference> {
        self.form(bytes)?;
        self.lossy(bytes, room)?;
        self.sameness(bytes, other)?;
        self.plain(bytes, other, [room, other_room])
    }
}

pub fn diff(random: &mut Random, rounds: u64) -> Result<String, Difference> {
    let mut sides = Comparer::default();
    short_strings(&mut sides)?;
    let short = std::mem::take(&mut sides.count);
    edges(&mut sides)?;
    let fixed = std::mem::take(&mut sides.count);
    for _ in 0..rounds {
        round(&mut sides, random)?;
    }
    let (drawn, [done, refused]) = (sides.count, sides.plain);
    Ok(format!(
        "{short} calls on every byte string of up to three bytes, {fixed} on every lead and second byte \
         with the edges of the third and fourth, {drawn} random calls in {rounds} rounds; of all these \
         {done} compared two texts the plain way, and {refused} had no room for them"
    ))
}

/// Each string with the one before it, whose lossy text is often the same, and an output that is just
/// long enough or just too short.
fn short_strings(sides: &mut Comparer) -> Result<(), Difference> {
    let mut before = Vec::new();
    for length in 0..=3 {
        for bits in 0..1u32 << (8 * length) {
            let bytes = &bits.to_be_bytes()[4 - length..];
            let room = String::from_utf8_lossy(bytes).len();
            let other_room = String::from_utf8_lossy(&before).len();
            sides.all(bytes, &before, room, other_room)?;
            if room > 0 && bits % 16 == 0 {
                sides.lossy(bytes, room - 1)?;
                sides.plain(bytes, &before, [room - 1, other_room])?;
                sides.plain(&before, bytes, [other_room, room - 1])?;
            }
            before.clear();
            before.extend_from_slice(bytes);
        }
    }
    Ok(())
}

/// The first and last byte of each range of the table's second to fourth bytes, and their neighbours.
const EDGES: [u8; 12] = [
    0x00, 0x7f, 0x80, 0x8f, 0x90, 0x9f, 0xa0, 0xbf, 0xc0, 0xc2, 0xf4, 0xff,
];

fn edges(sides: &mut Comparer) -> Result<(), Difference> {
    let mut before = [0; 4];
    for first in 0..=255 {
        for second in 0..=255 {
            for third in EDGES {
                for fourth in EDGES {
                    let bytes = [first, second, third, fourth];
                    sides.all(&bytes, &before, AREA - 8, AREA - 8)?;
                    before = bytes;
                }
            }
        }
    }
    Ok(())
}

fn round(sides: &mut Comparer, random: &mut Random) -> Result<(), Difference> {
    let bytes = draw(random);
    let room = some_room(random, &bytes);
    let other = like(random, &bytes);
    sides.all(&bytes, &other, room, some_room(random, &other))
}

/// Any room for a text, or one that is just enough, or just too small.
fn some_room(random: &mut Random, bytes: &[u8]) -> usize {
    match random.below(3) {
        0 => random.index(AREA - 8 + 1),
        1 => String::from_utf8_lossy(bytes).len(),
        _ => String::from_utf8_lossy(bytes).len().saturating_sub(1),
    }
}

/// Runs of ASCII, well-formed sequences of each length, parts of such and any bytes.
fn draw(random: &mut Random) -> Vec<u8> {
    let (mut bytes, length) = (Vec::new(), random.index(LONGEST + 1));
    while bytes.len() < length {
        match random.below(8) {
            0..=2 => (0..random.within(1, 12)).for_each(|_| bytes.push(random.byte() & 0x7f)),
            3..=5 => inputs::sequence(random, &mut bytes),
            6 => {
                let start = bytes.len();
                inputs::sequence(random, &mut bytes);
                bytes.truncate(start + 1 + random.index(bytes.len() - start));
            }
            _ => bytes.push(random.byte()),
        }
    }
    bytes.truncate(LONGEST);
    bytes
}

/// The same, its lossy text, it with one byte changed, cut, with bytes appended, or another text.
fn like(random: &mut Random, bytes: &[u8]) -> Vec<u8> {
    let mut other = bytes.to_vec();
    match random.below(6) {
        0 => other = lossy(bytes),
        1 if !bytes.is_empty() => inputs::damage(random, &mut other),
        2 if !bytes.is_empty() => inputs::cut(random, &mut other),
        3 => inputs::append(random, &mut other),
        4 => other = draw(random),
        _ => {}
    }
    other
}

// ---------------------------------------------------------------- timing

/// Enough texts of a kind that the processor does not learn them by heart.
const TIMED: usize = 1 << 12;

pub fn bench(random: &mut Random) {
    let sets = [
        ("8 ASCII bytes", texts(random, 8, ascii)),
        ("64 ASCII bytes", texts(random, 64, ascii)),
        ("64 bytes, mixed", texts(random, 64, scripts)),
    ];
    for (name, texts) in &sets {
        time_form(&format!("is_utf8, {name}"), texts);
    }
    for (name, texts) in &sets {
        time_lossy(&format!("lossy_text, {name}"), texts);
    }
    for (name, texts) in &sets {
        time_sameness(&format!("same_text, {name}"), texts, &texts.to_vec());
    }
    for (name, texts) in &sets {
        plain::time(
            &format!("same_text_plain, {name}"),
            texts,
            &texts.to_vec(),
            rust_sameness,
        );
    }
    let (name, texts) = &sets[2];
    let others: Vec<Vec<u8>> = texts.iter().map(|text| other_end(text)).collect();
    time_sameness(&format!("same_text, {name}, other"), texts, &others);
    plain::time(
        "same_text_plain, mixed, other",
        texts,
        &others,
        rust_sameness,
    );
}

/// The text with another end, so that both are walked to it and are not the same.
fn other_end(text: &[u8]) -> Vec<u8> {
    [&text[..text.len() - 1], b"#"].concat()
}

fn texts(random: &mut Random, length: usize, add: fn(&mut Random, &mut Vec<u8>)) -> Vec<Vec<u8>> {
    let draw = || {
        let mut bytes = Vec::new();
        while bytes.len() < length {
            add(random, &mut bytes);
        }
        // What is cut inside a sequence would be ill-formed; a letter takes each byte's place.
        let whole = (0..=length)
            .rev()
            .find(|&end| str::from_utf8(&bytes[..end]).is_ok())
            .unwrap_or(0);
        bytes.truncate(whole);
        bytes.resize(length, b'x');
        bytes
    };
    std::iter::repeat_with(draw).take(TIMED).collect()
}

fn ascii(random: &mut Random, bytes: &mut Vec<u8>) {
    bytes.push(b'a' + random.below(26) as u8);
}

/// A word of Latin, Greek, Cyrillic, Devanagari or Han letters, or of signs past the first plane, and a space.
fn scripts(random: &mut Random, bytes: &mut Vec<u8>) {
    let (first, last) = [
        (0x61, 0x7a),
        (0x3b1, 0x3c9),
        (0x430, 0x44f),
        (0x915, 0x939),
        (0x4e00, 0x4fff),
        (0x1_f300, 0x1_f5ff),
    ][random.index(6)];
    for _ in 0..random.within(2, 8) {
        let letter = char::from_u32(random.within(first, last) as u32).expect("a scalar value");
        bytes.extend_from_slice(letter.encode_utf8(&mut [0; 4]).as_bytes());
    }
    bytes.push(b' ');
}

#[inline(never)]
fn rust_form(bytes: &[u8]) -> bool {
    str::from_utf8(bytes).is_ok()
}

/// The same job as the port's: the text stands in the lent bytes afterwards.
#[inline(never)]
fn rust_lossy(bytes: &[u8], out: &mut [u8]) -> usize {
    let text = String::from_utf8_lossy(bytes);
    out[..text.len()].copy_from_slice(text.as_bytes());
    text.len()
}

#[inline(never)]
fn rust_sameness(a: &[u8], b: &[u8]) -> bool {
    String::from_utf8_lossy(a) == String::from_utf8_lossy(b)
}

fn time_form(name: &str, texts: &[Vec<u8>]) {
    let port = || {
        for text in texts {
            black_box(port::is_utf8(black_box(text)));
        }
    };
    let rust_form: fn(&[u8]) -> bool = black_box(rust_form);
    let rust = || {
        for text in texts {
            black_box(rust_form(black_box(text)));
        }
    };
    timing::race_above(name, texts.len(), port, rust, timing::looking(texts));
}

fn time_lossy(name: &str, texts: &[Vec<u8>]) {
    let (mut lent, mut at) = ([0; 192], 0);
    let port = || {
        for text in texts {
            black_box(port::lossy_text(black_box(text), &mut lent, &mut at));
            black_box((&lent, &at));
        }
    };
    let mut filled = [0; 192];
    let rust_lossy: fn(&[u8], &mut [u8]) -> usize = black_box(rust_lossy);
    let rust = || {
        for text in texts {
            black_box(rust_lossy(black_box(text), &mut filled));
            black_box(&filled);
        }
    };
    timing::race_above(name, texts.len(), port, rust, timing::looking(texts));
}

/// Each text with the other of its number.
fn time_sameness(name: &str, texts: &[Vec<u8>], others: &[Vec<u8>]) {
    let port = || {
        for (text, other) in texts.iter().zip(others) {
            black_box(port::same_text(black_box(text), black_box(other)));
        }
    };
    let rust_sameness: fn(&[u8], &[u8]) -> bool = black_box(rust_sameness);
    let rust = || {
        for (text, other) in texts.iter().zip(others) {
            black_box(rust_sameness(black_box(text), black_box(other)));
        }
    };
    timing::race_above(name, texts.len(), port, rust, timing::looking(texts));
}

// ---------------------------------------------------------------- the list

/// Unicode's worked examples and docs/RULES.md's, the edges of the table, and random texts.
pub fn list(random: &mut Random) -> Result<Vec<String>, String> {
    let mut lines = Vec::new();
    for bytes in EXAMPLES {
        add(&mut lines, bytes, &lossy(bytes));
    }
    for first in [
        0x7f, 0x80, 0xc1, 0xc2, 0xdf, 0xe0, 0xe1, 0xed, 0xef, 0xf0, 0xf1, 0xf4, 0xf5,
    ] {
        for second in [0x7f, 0x80, 0x8f, 0x90, 0x9f, 0xa0, 0xbf, 0xc0] {
            let bytes = [first, second, 0x80, 0x80];
            add(&mut lines, &bytes, &[first, second]);
        }
    }
    for _ in 0..60 {
        let bytes = draw(random);
        let other = like(random, &bytes);
        add(&mut lines, &bytes, &other);
    }
    Ok(lines)
}

/// The Unicode standard's section 3.9, the tables of maximal subparts, and docs/RULES.md's two.
const EXAMPLES: [&[u8]; 8] = [
    b"",
    &[0xed, 0xa0, 0x80],
    &[0xe2, 0x82],
    &[0xc0, 0xaf, 0xe0, 0x80, 0xbf, 0xf0, 0x81, 0x82, 0x41],
    &[0xed, 0xa0, 0x80, 0xed, 0xbf, 0xbf, 0xed, 0xaf, 0x41],
    &[0xf4, 0x91, 0x92, 0x93, 0xff, 0x41, 0x80, 0xbf, 0x42],
    &[0xe1, 0x80, 0xe2, 0xf0, 0x91, 0x92, 0xf1, 0xbf, 0x41],
    &[
        0x61, 0xf1, 0x80, 0x80, 0xe1, 0x80, 0xc2, 0x62, 0x80, 0x63, 0x80, 0xbf, 0x64,
    ],
];

fn add(lines: &mut Vec<String>, bytes: &[u8], other: &[u8]) {
    let yes = |b: bool| u64::from(b);
    lines.push(format!("t {} {}", hex(bytes), hex(&lossy(bytes))));
    lines.push(format!(
        "u {:016x} {}",
        yes(str::from_utf8(bytes).is_ok()),
        hex(bytes)
    ));
    lines.push(format!(
        "s {:016x} {} {}",
        yes(lossy(bytes) == lossy(other)),
        hex(bytes),
        hex(other)
    ));
}
