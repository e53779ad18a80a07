//! A frame that is read, and read again with more of everything: bytes appended, a limit no lower, tables no smaller.
//! What has to hold then is asked of the port's answers and of the bytes alone.

use super::{
    call::Call,
    exact::is_exact,
    lent::{Reading, keys_rise},
    model::{OVERSIZE, Rooms, TABLE_FULL},
};
use crate::{
    answers::{Answer, DONE, WAIT},
    shrink,
    text::{Difference, hex},
};

#[derive(Clone, PartialEq)]
pub struct Again {
    pub first: Call,
    /// What the second reading has more: bytes, and how much the limit and the tables grow.
    pub behind: Vec<u8>,
    pub raise: u32,
    pub spare: [usize; 2],
}

/// What the port reads.
pub struct Seen {
    pub first: Reading,
    pub second: Reading,
    /// With the bytes that the first reading waits for behind its length field.
    pub whole: Option<Reading>,
}

/// What does not hold, in the words of a difference.
pub type Law = &'static str;

const WAITS: Law = "a wait is given where bytes are missing, and for those";
const ONCE: Law = "with the bytes that were asked for it does not wait again";
const FILLED: Law = "after 0 the records stand in front, and no other number changes";
const ORDER: Law = "the keys' starts rise";
const EXACT: Law = "every number has exactly the bytes that it is written as";
const UNTOUCHED: Law = "only 0 changes what is lent";
const ACCEPTED: Law = "what is accepted is accepted again, and the same";
const REFUSED: Law = "a refusal keeps its number and its place";
const FULL: Law = "10 is kept where the table that was full does not grow";

/// The type of a frame that has messages; the others of HAProxy's have pairs alone.
const NOTIFY: u8 = 3;

/// The most bytes that are appended because a reading waits for them.
const MOST: u64 = 1 << 16;

impl Again {
    pub fn second(&self) -> Call {
        Call {
            input: [&self.first.input[..], &self.behind].concat(),
            limit: self.first.limit.saturating_add(self.raise),
            lengths: [0, 1].map(|table| self.first.lengths[table] + self.spare[table]),
        }
    }

    /// Which of the tables of messages and pairs has room for more records in the second reading.
    pub fn larger(&self) -> [bool; 2] {
        let (first, second) = (self.first.lengths, self.second().lengths);
        let [first, second] = [Rooms::of(first), Rooms::of(second)];
        [first.messages < second.messages, first.pairs < second.pairs]
    }

    /// Asks for every law. Of one that does not hold the smallest input is shown that can be found.
    pub fn checked(&self) -> Result<Seen, Difference> {
        self.read().map_err(|law| self.smaller(law).difference(law))
    }

    fn read(&self) -> Result<Seen, Law> {
        let first = lawful(&self.first)?;
        let second = lawful(&self.second())?;
        self.kept(&first, &second)?;
        let whole = self.read_whole(&first)?;
        Ok(Seen {
            first,
            second,
            whole,
        })
    }

    /// What a wait becomes is not said here.
    fn kept(&self, first: &Reading, second: &Reading) -> Result<(), Law> {
        let same = first.answer == second.answer;
        match first.number() {
            WAIT => Ok(()),
            DONE if same && same_content(first, second) => Ok(()),
            DONE => Err(ACCEPTED),
            OVERSIZE if self.first.limit < self.second().limit => Ok(()),
            TABLE_FULL if self.larger().contains(&true) => self.full_kept(first),
            _ if same => Ok(()),
            _ => Err(REFUSED),
        }
    }

    /// One table was full: of a KV list that of pairs, of a NOTIFY one of the two. As long as it does not grow the 10 is
    /// kept, however the other one does.
    fn full_kept(&self, first: &Reading) -> Result<(), Law> {
        let [messages, pairs] = self.by_one_table().map(|then| then.answer == first.answer);
        let is_notify = self.first.input.get(4) == Some(&NOTIFY);
        if messages || (is_notify && pairs) {
            Ok(())
        } else {
            Err(FULL)
        }
    }

    /// The second reading with more room for messages alone, and with more room for pairs alone.
    pub fn by_one_table(&self) -> [Reading; 2] {
        let [messages, pairs] = self.spare;
        [[messages, 0], [0, pairs]].map(|spare| {
            let alone = Again {
                spare,
                ..self.clone()
            };
            alone.second().by_port()
        })
    }

    fn read_whole(&self, first: &Reading) -> Result<Option<Reading>, Law> {
        let Some(call) = self.whole(first) else {
            return Ok(None);
        };
        match call.by_port().number() {
            WAIT => Err(ONCE),
            _ => lawful(&call).map(Some),
        }
    }

    /// The first reading with at least the bytes that it asks for.
    fn whole(&self, first: &Reading) -> Option<Call> {
        match first.answer {
            Answer::Paper { number: WAIT, at } if self.first.input.len() >= 4 && at <= MOST => {
                let mut input = self.second().input;
                let least = self.first.input.len() + at as usize;
                input.resize(input.len().max(least), 0);
                Some(Call {
                    input,
                    ..self.first.clone()
                })
            }
            _ => None,
        }
    }
}

/// What the port reads, where the laws that need no second reading hold of it.
fn lawful(call: &Call) -> Result<Reading, Law> {
    let reading = call.by_port();
    let waits = match missing(call) {
        Some(count) => reading.answer == Answer::new(WAIT, count),
        None => reading.number() != WAIT,
    };
    if !waits {
        return Err(WAITS);
    }
    if reading.number() != DONE {
        return if reading.is_untouched() {
            Ok(reading)
        } else {
            Err(UNTOUCHED)
        };
    }
    match reading.records() {
        None => Err(FILLED),
        Some([_, pairs]) if !keys_rise(pairs) => Err(ORDER),
        Some(records) if !is_exact(&call.input, reading.at(), &reading.head, records) => Err(EXACT),
        Some(_) => Ok(reading),
    }
}

/// How many bytes a reading has to wait for, where it has to.
fn missing(call: &Call) -> Option<u64> {
    let there = call.input.len() as u64;
    let Some(field) = call.input.first_chunk() else {
        return Some(4 - there);
    };
    let length = u32::from_be_bytes(*field);
    match (4 + u64::from(length)).checked_sub(there) {
        Some(rest) if rest > 0 && length <= call.limit => Some(rest),
        _ => None,
    }
}

/// Type, flags, ids, counts and records.
fn same_content(first: &Reading, second: &Reading) -> bool {
    first.head == second.head && first.records() == second.records()
}

// ---------------------------------------------------------------- a smaller input

impl Again {
    fn breaks(&self, law: Law) -> bool {
        self.read().err() == Some(law)
    }

    /// Goes on until nothing helps any more.
    fn smaller(&self, law: Law) -> Again {
        let mut best = self.clone();
        loop {
            let less = best.with_less_added(law).with_smaller_first(law);
            if less == best {
                return best;
            }
            best = less;
        }
    }

    /// Less of what the second reading has more.
    fn with_less_added(&self, law: Law) -> Again {
        let mut best = self.clone();
        let with = |behind: &[u8]| Again {
            behind: behind.to_vec(),
            ..best.clone()
        };
        best = with(&shrink::bytes(&best.behind, |less| with(less).breaks(law)));
        let with = |raise: u64| Again {
            raise: raise as u32,
            ..best.clone()
        };
        let raise = u64::from(best.raise);
        best = with(shrink::number(raise, |less| with(less).breaks(law)));
        for table in 0..2 {
            let with = |spare: u64| {
                let mut less = best.clone();
                less.spare[table] = spare as usize;
                less
            };
            let spare = best.spare[table] as u64;
            best = with(shrink::number(spare, |less| with(less).breaks(law)));
        }
        best
    }

    fn with_smaller_first(&self, law: Law) -> Again {
        let with = |first: &Call| Again {
            first: first.clone(),
            ..self.clone()
        };
        let breaks = |less: &Call| with(less).breaks(law);
        with(&self.first.smaller(breaks, |less| less.by_port().number()))
    }

    fn difference(&self, law: Law) -> Difference {
        let (first, second) = (self.first.by_port(), self.second());
        let whole = self.whole(&first);
        let [messages, pairs] = second.lengths;
        let rows = (self.first.difference())
            .row("port", first)
            .row("appended", hex(&self.behind))
            .row("limit", second.limit)
            .row("tables", format!("{messages} and {pairs} numbers"))
            .row("port", second.by_port());
        let rows = match whole {
            Some(call) => rows
                .row("whole", hex(&call.input))
                .row("port", call.by_port()),
            None => rows,
        };
        rows.row("broken", law)
    }
}
