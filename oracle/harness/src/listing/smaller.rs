//! Makes an input smaller while the sides differ on it. Each question costs a process, so whole frames go first, then
//! records and texts with what counts them, and there is an end to the questions.

use crate::{reader::call::declared, shrink};
use spop::{
    types::typed_data,
    varint::{decode_varint, encode_varint_into},
};
use std::{cell::Cell, ops::Range};

/// How often it is asked whether the sides differ.
const QUESTIONS: u32 = 600;

pub fn input(start: &[u8], differs: impl Fn(&[u8]) -> bool) -> Vec<u8> {
    let left = Cell::new(QUESTIONS);
    let differs = |less: &[u8]| match left.get() {
        0 => false,
        count => {
            left.set(count - 1);
            differs(less)
        }
    };
    let frames = shrink::runs(&frames(start), |less| differs(&less.concat()));
    let best = with_less(frames.concat(), &differs);
    shrink::bytes(&best, differs)
}

/// The frames by their length fields, and what is behind the last whole one.
fn frames(input: &[u8]) -> Vec<&[u8]> {
    let (mut all, mut rest) = (Vec::new(), input);
    while let Some((frame, behind)) = rest.split_at_checked(4 + declared(rest) as usize) {
        all.push(frame);
        rest = behind;
    }
    all.push(rest);
    all
}

/// Other bytes for some of a frame, whose length follows.
struct Edit {
    frame: usize,
    place: Range<usize>,
    with: Vec<u8>,
    /// A count byte, of which one goes.
    count: Option<usize>,
}

impl Edit {
    fn of(&self, input: &[u8]) -> Vec<u8> {
        let mut bytes = input.to_vec();
        if let Some(count) = self.count {
            bytes[count] = bytes[count].wrapping_sub(1);
        }
        let less = (self.place.len() - self.with.len()) as u32;
        let length = declared(&bytes[self.frame..]).wrapping_sub(less);
        bytes[self.frame..][..4].copy_from_slice(&length.to_be_bytes());
        bytes.splice(self.place.clone(), self.with.iter().copied());
        bytes
    }
}

/// Tries each edit once, and behind one that helps those that are left.
fn with_less(mut best: Vec<u8>, differs: &impl Fn(&[u8]) -> bool) -> Vec<u8> {
    let mut index = 0;
    while let Some(edit) = edits(&best).get(index) {
        let less = edit.of(&best);
        match differs(&less) {
            true => best = less,
            false => index += 1,
        }
    }
    best
}

/// Messages, pairs and actions that can go, then shorter texts, null for values and 0 for ids.
fn edits(input: &[u8]) -> Vec<Edit> {
    let mut walk = Walk {
        input,
        frame: 0,
        at: 0,
        records: Vec::new(),
        texts: Vec::new(),
    };
    for frame in frames(input) {
        let start = walk.frame;
        // A frame that is refused is walked as far as it goes.
        let _ = walk.records(start + frame.len());
        walk.frame = start + frame.len();
    }
    walk.records.append(&mut walk.texts);
    walk.records
}

struct Walk<'a> {
    input: &'a [u8],
    /// Where the frame starts, and where the walk is.
    frame: usize,
    at: usize,
    records: Vec<Edit>,
    /// Those of texts, values and ids.
    texts: Vec<Edit>,
}

impl Walk<'_> {
    fn records(&mut self, end: usize) -> Option<()> {
        let kind = *self.input[..end].get(self.frame + 4)?;
        self.at = self.frame + 9;
        self.id(end)?;
        self.id(end)?;
        while self.at < end {
            match kind {
                3 => self.message(end)?,
                103 => self.action(end)?,
                _ => self.pair(end, None)?,
            }
        }
        Some(())
    }

    fn id(&mut self, end: usize) -> Option<()> {
        let start = self.at;
        self.number(end)?;
        if self.at - start > 1 {
            self.texts.push(self.edit(start, vec![0], None));
        }
        Some(())
    }

    fn message(&mut self, end: usize) -> Option<()> {
        let start = self.at;
        self.string(end)?;
        let count = self.at;
        self.at += 1;
        for _ in 0..*self.input[..end].get(count)? {
            self.pair(end, Some(count))?;
        }
        self.records.push(self.edit(start, Vec::new(), None));
        Some(())
    }

    fn action(&mut self, end: usize) -> Option<()> {
        let start = self.at;
        let verb = *self.input[..end].get(start)?;
        self.at += 3;
        self.string(end)?;
        if verb == 1 {
            self.value(end)?;
        }
        self.records.push(self.edit(start, Vec::new(), None));
        Some(())
    }

    fn pair(&mut self, end: usize, count: Option<usize>) -> Option<()> {
        let start = self.at;
        self.string(end)?;
        self.value(end)?;
        self.records.push(self.edit(start, Vec::new(), count));
        Some(())
    }

    fn value(&mut self, end: usize) -> Option<()> {
        let start = self.at;
        let (rest, _) = typed_data(&self.input[start..end]).ok()?;
        if matches!(self.input[start] % 16, 8 | 9) {
            self.at += 1;
            self.string(end)?;
        }
        self.at = end - rest.len();
        if self.at - start > 1 {
            self.texts.push(self.edit(start, vec![0], None));
        }
        Some(())
    }

    /// Takes away powers of two, large ones first.
    fn string(&mut self, end: usize) -> Option<()> {
        let start = self.at;
        let length = usize::try_from(self.number(end)?).ok()?;
        let content = self.at..self.at.checked_add(length).filter(|last| *last <= end)?;
        self.at = content.end;
        let steps = (0..17).rev().map(|bit| 1 << bit);
        for shorter in steps.filter_map(|step| length.checked_sub(step)) {
            let mut with = Vec::new();
            encode_varint_into(shorter as u64, &mut with);
            with.extend_from_slice(&self.input[content.clone()][..shorter]);
            self.texts.push(self.edit(start, with, None));
        }
        Some(())
    }

    fn number(&mut self, end: usize) -> Option<u64> {
        let (rest, number) = decode_varint(self.input.get(self.at..end)?).ok()?;
        self.at = end - rest.len();
        Some(number)
    }

    /// Other bytes from the start on to where the walk is.
    fn edit(&self, start: usize, with: Vec<u8>, count: Option<usize>) -> Edit {
        Edit {
            frame: self.frame,
            place: start..self.at,
            with,
            count,
        }
    }
}
