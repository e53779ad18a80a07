//! Frames that a writer of the port made, read by the port.

use super::{
    lent::{Reading, keys_rise, stays, untouched},
    model::{ABORTED, AGENTS, UNKNOWN},
};
use crate::{
    answers::{Answer, DONE},
    both,
    port::{MESSAGE_WIDTH, PAIR_WIDTH},
    records::{self, Wrote, flags_of},
    shrink::{Call, Fields},
    text::{Difference, hex},
};
use std::fmt::Debug;

/// A call of a writer of the port.
pub trait Writer: Call + Debug {
    fn by_port(&self) -> Wrote;
    /// What its frame is made of, where one was written.
    fn records(&self) -> Written<'_>;
}

/// What a writer of the port made a frame of.
pub struct Written<'a> {
    pub kind: u64,
    pub fin: bool,
    pub abort: bool,
    pub ids: [u64; 2],
    /// A limit to read it with, and how many numbers the tables of messages and pairs have behind its records then.
    pub limit: u32,
    pub spare: [usize; 2],
    pub buffer: &'a [u8],
    /// The records that count, without what stands behind them in the tables.
    pub messages: &'a [u64],
    pub pairs: &'a [u64],
}

impl Written<'_> {
    /// Has the port read the frame at the front of `area`.
    pub fn read_back(
        &self,
        area: &[u8],
        length: usize,
        call: &impl Debug,
    ) -> Result<(), Difference> {
        let lengths = [
            self.messages.len() + self.spare[0],
            self.pairs.len() + self.spare[1],
        ];
        let reading = Reading::by_port(area, self.limit, lengths);
        let rows = |call_of: &str| {
            Difference::in_call(call_of)
                .row("written", format!("{call:?}"))
                .row("frame", hex(&area[..length]))
        };
        if !self.is_right(&reading, area, length) {
            return Err(rows("read_frame of a written frame").row("read", reading));
        }
        match self.kind {
            101..=102 if !self.is_read_as_agents(area, length) => {
                Err(rows("read_agent_frame of a written frame"))
            }
            _ => Ok(()),
        }
    }

    /// A KV list of an agent's, by the reader of what agents send: all its pairs, and no action.
    fn is_read_as_agents(&self, area: &[u8], length: usize) -> bool {
        let mut pairs: Vec<u64> = (0..self.pairs.len() + self.spare[1]).map(untouched).collect();
        let (mut head, mut at) = ([0; 6], 0);
        let number =
            both::read_agent_frame(area, self.limit, &mut pairs, &mut [], &mut head, &mut at);
        let count = (self.pairs.len() / PAIR_WIDTH) as u64;
        number == DONE
            && at == length as u64
            && head == [self.kind, 1, self.ids[0], self.ids[1], count, 0]
            && self.same_pairs(&pairs, area)
            && stays(&pairs, self.pairs.len())
            && keys_rise(&pairs[..self.pairs.len()])
    }

    fn is_right(&self, reading: &Reading, area: &[u8], length: usize) -> bool {
        if reading.answer != self.answer(length) {
            return false;
        }
        if reading.answer != Answer::done(length) {
            return reading.is_untouched();
        }
        reading.head == self.head()
            && self.same_messages(&reading.messages, area)
            && self.same_pairs(&reading.pairs, area)
            && stays(&reading.messages, self.messages.len())
            && stays(&reading.pairs, self.pairs.len())
            && keys_rise(&reading.pairs[..self.pairs.len()])
    }

    fn answer(&self, length: usize) -> Answer {
        match (self.kind, self.fin, self.abort) {
            (_, false, _) => Answer::new(UNKNOWN, 4),
            (_, true, true) => Answer::new(ABORTED, 4),
            (101..=103, ..) => Answer::new(AGENTS, 4),
            _ => Answer::done(length),
        }
    }

    fn head(&self) -> [u64; 6] {
        let counts = [
            (self.messages.len() / MESSAGE_WIDTH) as u64,
            (self.pairs.len() / PAIR_WIDTH) as u64,
        ];
        [self.kind, 1, self.ids[0], self.ids[1], counts[0], counts[1]]
    }

    fn same_messages(&self, read: &[u64], area: &[u8]) -> bool {
        let rows = self.messages.chunks_exact(MESSAGE_WIDTH);
        let mut rows = rows.zip(read.chunks_exact(MESSAGE_WIDTH));
        rows.all(|(given, read)| {
            given[2..] == read[2..] && same_bytes(&given[..2], self.buffer, &read[..2], area)
        })
    }

    fn same_pairs(&self, read: &[u64], area: &[u8]) -> bool {
        let rows = self.pairs.chunks_exact(PAIR_WIDTH);
        let mut rows = rows.zip(read.chunks_exact(PAIR_WIDTH));
        rows.all(|(given, read)| {
            let value = match given[2] {
                6..=9 => same_bytes(&given[3..], self.buffer, &read[3..], area),
                _ => given[3..5] == read[3..5],
            };
            let same = given[2] == read[2] && flags_of(given) == flags_of(read);
            value && same && same_bytes(&given[..2], self.buffer, &read[..2], area)
        })
    }
}

/// Whether two starts and lengths point at the same bytes, each in its own buffer.
fn same_bytes(one: &[u64], in_one: &[u8], other: &[u64], in_other: &[u8]) -> bool {
    let one = records::part(in_one, one[0], one[1]);
    one.is_ok() && one == records::part(in_other, other[0], other[1])
}

// ---------------------------------------------------------------- with more of everything

/// A frame that is written, and read with any bytes behind it, a limit no lower and tables no smaller.
#[derive(Clone, Debug, PartialEq)]
pub struct Back<C> {
    pub call: C,
    pub behind: Vec<u8>,
    /// How much higher the limit is, and how many numbers the tables of messages and pairs have behind the records.
    pub raise: u64,
    pub spare: [u64; 2],
}

impl<C: Writer> Back<C> {
    /// Answers the length of the frame, where one was written.
    pub fn check(&self) -> Result<Option<usize>, Difference> {
        let wrote = self.call.by_port();
        let Some(length) = wrote.length() else {
            return Ok(None);
        };
        let Some(frame) = wrote.area.get(..length) else {
            let rows = Difference::in_call("a frame longer than its output");
            return Err(rows
                .row("with", format!("{:?}", self.call))
                .row("port", wrote.answer));
        };
        let written = self.call.records();
        let written = Written {
            limit: written.limit.saturating_add(self.raise as u32),
            spare: self.spare.map(|count| count as usize),
            ..written
        };
        let area = [frame, &self.behind].concat();
        written
            .read_back(&area, length, self)
            .map(|()| Some(length))
    }
}

impl<C: Writer> Call for Back<C> {
    fn differing(&self) -> Option<[Answer; 2]> {
        let answer = self.call.by_port().answer;
        self.check().is_err().then_some([answer; 2])
    }

    fn length(&self) -> Option<usize> {
        self.call.length()
    }

    fn with_less(&self) -> Vec<Self> {
        let calls = self.call.with_less().into_iter().map(|call| Self {
            call,
            ..self.clone()
        });
        let shorter = [0, self.behind.len() / 2].map(|length| Self {
            behind: self.behind[..length].to_vec(),
            ..self.clone()
        });
        let shorter = shorter.into_iter().filter(|_| !self.behind.is_empty());
        calls.chain(shorter).collect()
    }

    fn fields(&mut self) -> Fields<'_> {
        let mut fields = self.call.fields();
        fields.numbers.push(&mut self.raise);
        fields.numbers.extend(&mut self.spare);
        fields
    }
}
