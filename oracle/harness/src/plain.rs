//! Key comparison the plain way: both lossy texts in two lent buffers, and whether they are equal. The Rust's side is
//! `String::from_utf8_lossy` of both; where a buffer has no room for its text the answer is the paper's.

use crate::{
    answers::{Answer, TOO_SHORT_OUT},
    both, port, shrink,
    text::{Difference, hex},
    timing,
};
use std::hint::black_box;

/// Some bytes past each buffer show a call that goes past its end.
const BEHIND: usize = 8;

const UNTOUCHED: u64 = 0xa5c3_96e1_5a3c_691e;

/// What the buffers hold before a call, each another byte, so that it shows where they are exchanged.
const FILLS: [u8; 2] = [0x6b, 0x94];

/// What a call is to leave: its answer, whether the texts are the same, and both areas.
#[derive(PartialEq)]
struct Compared {
    answer: Answer,
    same: bool,
    areas: [Vec<u8>; 2],
}

fn areas(rooms: [usize; 2]) -> [Vec<u8>; 2] {
    [0, 1].map(|side| vec![FILLS[side]; rooms[side] + BEHIND])
}

fn equal(a: &[u8], b: &[u8]) -> bool {
    String::from_utf8_lossy(a) == String::from_utf8_lossy(b)
}

/// Before the call `same` is the wrong answer: one that is done has to change it, and one that is refused not to.
fn by_port(a: &[u8], b: &[u8], rooms: [usize; 2]) -> Compared {
    let (mut areas, mut same, mut at) = (areas(rooms), !equal(a, b), UNTOUCHED);
    let [a_text, b_text] = &mut areas;
    let (a_text, b_text) = (&mut a_text[..rooms[0]], &mut b_text[..rooms[1]]);
    let number = both::same_text_plain(a, b, a_text, b_text, &mut same, &mut at);
    Compared {
        answer: Answer::new(number, at),
        same,
        areas,
    }
}

fn by_rust(a: &[u8], b: &[u8], rooms: [usize; 2]) -> Compared {
    let mut areas = areas(rooms);
    let texts = [a, b].map(String::from_utf8_lossy);
    let same = texts[0] == texts[1];
    if texts
        .iter()
        .zip(rooms)
        .any(|(text, room)| text.len() > room)
    {
        return Compared {
            answer: Answer::new(TOO_SHORT_OUT, 0),
            same: !same,
            areas,
        };
    }
    for (area, text) in areas.iter_mut().zip(&texts) {
        area[..text.len()].copy_from_slice(text.as_bytes());
    }
    Compared {
        answer: Answer::done(0),
        same,
        areas,
    }
}

fn differs(a: &[u8], b: &[u8], rooms: [usize; 2]) -> bool {
    by_port(a, b, rooms) != by_rust(a, b, rooms)
}

fn difference(a: &[u8], b: &[u8], rooms: [usize; 2]) -> Difference {
    let a = shrink::bytes(a, |a| differs(a, b, rooms));
    let b = shrink::bytes(b, |b| differs(&a, b, rooms));
    let [first, second] = rooms;
    let first = (0..first)
        .find(|&first| differs(&a, &b, [first, second]))
        .unwrap_or(first);
    let second = (0..second)
        .find(|&second| differs(&a, &b, [first, second]))
        .unwrap_or(second);
    let rows = Difference::in_call("same_text_plain")
        .row("a", hex(&a))
        .row("b", hex(&b))
        .row("rooms", format!("{first} and {second} bytes"));
    let sides = [
        ("port", by_port(&a, &b, [first, second])),
        ("rust", by_rust(&a, &b, [first, second])),
    ];
    sides.iter().fold(rows, |rows, (name, side)| {
        rows.row(name, format!("{}, same {}", side.answer, side.same))
            .row("", hex(&side.areas[0]))
            .row("", hex(&side.areas[1]))
    })
}

/// Whether both texts had room, where the sides do not differ.
pub fn compare(a: &[u8], b: &[u8], rooms: [usize; 2]) -> Result<bool, Difference> {
    let rust = by_rust(a, b, rooms);
    match by_port(a, b, rooms) == rust {
        true => Ok(rust.answer == Answer::done(0)),
        false => Err(difference(a, b, rooms)),
    }
}

/// Each text with the other of its number, in buffers that have room for any, beside the Rust's comparison.
pub fn time(name: &str, texts: &[Vec<u8>], others: &[Vec<u8>], rust: fn(&[u8], &[u8]) -> bool) {
    let (mut first, mut second, mut same, mut at) = ([0; 192], [0; 192], false, 0);
    let port = || {
        for (text, other) in texts.iter().zip(others) {
            let (text, other) = (black_box(text), black_box(other));
            black_box(port::same_text_plain(
                text,
                other,
                &mut first,
                &mut second,
                &mut same,
                &mut at,
            ));
            black_box((&first, &second, &same, &at));
        }
    };
    let rust = black_box(rust);
    let rust = || {
        for (text, other) in texts.iter().zip(others) {
            black_box(rust(black_box(text), black_box(other)));
        }
    };
    timing::race_above(name, texts.len(), port, rust, timing::looking(texts));
}
