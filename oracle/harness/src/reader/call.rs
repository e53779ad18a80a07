//! A call of the port's reader of frames, and how it becomes smaller.

use super::lent::Reading;
use crate::{
    shrink,
    text::{Difference, hex},
};

#[derive(Clone, Debug, PartialEq)]
pub struct Call {
    pub input: Vec<u8>,
    pub limit: u32,
    /// How many numbers the tables of messages and pairs have.
    pub lengths: [usize; 2],
}

/// What the length field says, 0 where it is not whole.
pub fn declared(input: &[u8]) -> u32 {
    input
        .first_chunk()
        .map_or(0, |field| u32::from_be_bytes(*field))
}

impl Call {
    pub fn by_port(&self) -> Reading {
        Reading::by_port(&self.input, self.limit, self.lengths)
    }

    /// The same call with a table of pair records.
    pub fn by_records(&self) -> Reading {
        Reading::by_records(&self.input, self.limit, self.lengths)
    }

    pub fn difference(&self) -> Difference {
        let [messages, pairs] = self.lengths;
        Difference::in_call("read_frame")
            .row("input", hex(&self.input))
            .row("limit", self.limit)
            .row("tables", format!("{messages} and {pairs} numbers"))
    }

    /// Goes on until nothing helps any more. With smaller tables the answers have to be as before, or 10 would take the
    /// place of what differs.
    pub fn smaller<A: PartialEq>(
        &self,
        differs: impl Fn(&Call) -> bool,
        answers: impl Fn(&Call) -> A,
    ) -> Call {
        let mut best = self.clone();
        loop {
            let less = best.with_smaller_input(&differs);
            let before = answers(&less);
            let less = less
                .with_smaller_tables(&|less| answers(less) == before && differs(less))
                .with_smaller_limit(&differs);
            if less == best {
                return best;
            }
            best = less;
        }
    }

    /// Bytes go from behind the length field, which says so many less, or else from anywhere.
    fn with_smaller_input(&self, differs: &impl Fn(&Call) -> bool) -> Call {
        let with = |input: Vec<u8>| Call {
            input,
            ..self.clone()
        };
        let mut input = self.input.clone();
        if let Some((field, body)) = self.input.split_first_chunk() {
            let fitted = |less: &[u8]| {
                let dropped = (body.len() - less.len()) as u32;
                let length = u32::from_be_bytes(*field).saturating_sub(dropped);
                [&length.to_be_bytes(), less].concat()
            };
            input = fitted(&shrink::bytes(body, |less| differs(&with(fitted(less)))));
        }
        with(shrink::bytes(&input, |less| differs(&with(less.to_vec()))))
    }

    fn with_smaller_tables(&self, differs: &impl Fn(&Call) -> bool) -> Call {
        let mut call = self.clone();
        for place in 0..2 {
            let with = |length: u64| {
                let mut less = call.clone();
                less.lengths[place] = length as usize;
                less
            };
            let length = call.lengths[place] as u64;
            call = with(shrink::number(length, |less| differs(&with(less))));
        }
        call
    }

    /// The largest limit says that none has a part in the difference.
    fn with_smaller_limit(&self, differs: &impl Fn(&Call) -> bool) -> Call {
        let with = |limit: u64| Call {
            limit: limit as u32,
            ..self.clone()
        };
        let differs = |limit| differs(&with(limit));
        let largest = u64::from(u32::MAX);
        match differs(largest) {
            true => with(largest),
            false => with(shrink::number(u64::from(self.limit), differs)),
        }
    }
}
