//! The port's reader of frames: the memory that it is lent, and what that has to hold afterwards.

use super::model::Read;
use crate::{
    answers::{self, Answer},
    both,
    port::{MESSAGE_WIDTH, PAIR_WIDTH},
};
use std::fmt;

/// Numbers behind each lent table, which have to stay.
const BEHIND: usize = 3;

/// What memory is filled with. No two places have the same, so that a number that is copied shows too.
pub fn untouched(place: usize) -> u64 {
    0xa5c3_96e1_5a3c_691e + place as u64
}

pub fn pattern<const N: usize>() -> [u64; N] {
    std::array::from_fn(untouched)
}

pub fn table(length: usize) -> Vec<u64> {
    (0..length + BEHIND).map(untouched).collect()
}

/// An answer, and all memory that was lent for it.
#[derive(PartialEq)]
pub struct Reading {
    pub answer: Answer,
    pub head: [u64; 6],
    pub messages: Vec<u64>,
    pub pairs: Vec<u64>,
}

impl Reading {
    /// Lends tables of messages and pairs that have so many numbers.
    pub fn by_port(input: &[u8], limit: u32, [messages_len, pairs_len]: [usize; 2]) -> Self {
        let (mut messages, mut pairs) = (table(messages_len), table(pairs_len));
        let (mut head, [mut at]) = (pattern(), pattern());
        let number = both::read_frame(
            input,
            limit,
            &mut messages[..messages_len],
            &mut pairs[..pairs_len],
            &mut head,
            &mut at,
        );
        Self {
            answer: Answer::new(number, at),
            head,
            messages,
            pairs,
        }
    }

    /// Lends the same memory, with the pairs as records: as many as its numbers have room for.
    pub fn by_records(input: &[u8], limit: u32, [messages_len, pairs_len]: [usize; 2]) -> Self {
        let (mut messages, mut pairs) = (table(messages_len), table(pairs_len));
        let (mut head, [mut at]) = (pattern(), pattern());
        let number = both::read_frame_records(
            input,
            limit,
            &mut messages[..messages_len],
            pairs[..pairs_len].as_chunks_mut().0,
            &mut head,
            &mut at,
        );
        Self {
            answer: Answer::new(number, at),
            head,
            messages,
            pairs,
        }
    }

    /// What is to be answered, in memory that was lent for it in the same way.
    pub fn expected(read: &Read, [messages_len, pairs_len]: [usize; 2]) -> Self {
        let mut whole = Self {
            answer: Answer::new(read.number, read.at),
            head: pattern(),
            messages: table(messages_len),
            pairs: table(pairs_len),
        };
        if read.number == answers::DONE {
            whole.head = read.head;
            put(&mut whole.messages, read.messages.as_flattened());
            put(&mut whole.pairs, read.pairs.as_flattened());
        }
        whole
    }

    pub fn is_untouched(&self) -> bool {
        stays(&self.head, 0) && stays(&self.messages, 0) && stays(&self.pairs, 0)
    }

    pub fn number(&self) -> u64 {
        match self.answer {
            Answer::Paper { number, .. } => number,
            Answer::Unlisted(..) => unreachable!("the port answers a number"),
        }
    }

    /// The bytes used or missing, or the place.
    pub fn at(&self) -> u64 {
        match self.answer {
            Answer::Paper { at, .. } => at,
            Answer::Unlisted(..) => unreachable!("the port answers a number"),
        }
    }

    /// The messages and pairs that the head counts, where all their numbers were written and none behind them.
    pub fn records(&self) -> Option<[&[u64]; 2]> {
        let messages = front(&self.messages, self.head[4], MESSAGE_WIDTH)?;
        Some([messages, front(&self.pairs, self.head[5], PAIR_WIDTH)?])
    }
}

fn front(table: &[u64], count: u64, width: usize) -> Option<&[u64]> {
    let end = usize::try_from(count).ok()?.checked_mul(width)?;
    let numbers = table.get(..end)?;
    let mut places = numbers.iter().enumerate();
    let written = places.all(|(place, number)| *number != untouched(place));
    (written && stays(table, end) && end + BEHIND <= table.len()).then_some(numbers)
}

/// Whether the key of each pair starts behind that of the one before it.
pub fn keys_rise(pairs: &[u64]) -> bool {
    pairs
        .chunks_exact(PAIR_WIDTH)
        .is_sorted_by(|one, next| one[0] < next[0])
}

pub fn put(table: &mut [u64], records: &[u64]) {
    table[..records.len()].copy_from_slice(records);
}

impl fmt::Display for Reading {
    fn fmt(&self, out: &mut fmt::Formatter) -> fmt::Result {
        let parts = [&self.head[..], &self.messages, &self.pairs].map(changed);
        let [head, messages, pairs] = parts;
        let answer = self.answer;
        write!(
            out,
            "{answer}; head {head}; messages {messages}; pairs {pairs}"
        )
    }
}

/// Whether the numbers from a place on are as they were filled in.
pub fn stays(numbers: &[u64], from: usize) -> bool {
    let mut rest = numbers.iter().enumerate().skip(from);
    rest.all(|(place, number)| *number == untouched(place))
}

/// The numbers up to the last one that changed, with a dot for each that stayed.
pub fn changed(numbers: &[u64]) -> String {
    let end = (0..numbers.len()).find(|from| stays(numbers, *from));
    let shown = numbers[..end.unwrap_or(numbers.len())].iter().enumerate();
    let shown = shown.map(|(place, number)| match *number == untouched(place) {
        true => ".".to_string(),
        false => number.to_string(),
    });
    match end {
        Some(0) => "untouched".into(),
        _ => shown.collect::<Vec<_>>().join(" "),
    }
}
