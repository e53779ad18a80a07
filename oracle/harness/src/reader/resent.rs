//! An agent's frame that the port read, written again by the port from what it read, with the frame as its buffer. What has to
//! come out is told by the frame's bytes alone: the same bytes, 14, 15, or other ones.

use super::{
    call::declared,
    rewritten::{Meaning, Text, Told},
    wire,
};
use crate::{
    answers::DONE,
    both,
    counts::{Class, Counts, ENOUGH},
    inputs::{self, Random},
    port::{ACTION_WIDTH, PAIR_WIDTH},
    records::{NOT_TEXT, NOT_WRITABLE, Wrote},
    text::{Difference, hex},
};

/// Tables with room for all of a frame that is drawn.
const ROOMY: [usize; 2] = [1_024 * PAIR_WIDTH, 1_024 * ACTION_WIDTH];

/// A frame to be read, and how many bytes the writer's output has more than the frame.
struct Resent {
    input: Vec<u8>,
    limit: u32,
    spare: usize,
}

/// A frame that was accepted, what its bytes say, what the port read it as, and what it wrote.
struct Seen {
    frame: Vec<u8>,
    told: Told,
    meaning: Meaning,
    wrote: Wrote,
    /// Whether its ids are those that the writer takes.
    allowed: bool,
}

impl Resent {
    fn checked(&self) -> Result<Option<Seen>, Difference> {
        let [mut pairs, mut actions] = ROOMY.map(|numbers| vec![0; numbers]);
        let (mut head, mut at) = ([0; 6], 0);
        let number = both::read_agent_frame(
            &self.input,
            self.limit,
            &mut pairs,
            &mut actions,
            &mut head,
            &mut at,
        );
        if number != DONE {
            return Ok(None);
        }
        let [kind, flags, stream, id, count, rows] = head;
        let frame = self.input[..at as usize].to_vec();
        let (pairs, actions) = (
            &pairs[..count as usize * PAIR_WIDTH],
            &actions[..rows as usize * ACTION_WIDTH],
        );
        let Ok(told) = Told::of(&frame, true) else {
            return Err(self.difference("what the port accepts is accepted by a plain reading"));
        };
        if told.is_plain() == (told.bytes != frame) {
            return Err(self.difference("a frame that does not meet the conditions is other bytes"));
        }
        let (flags, ids, room) = ([flags == 1, false], [stream, id], frame.len() + self.spare);
        let wrote = Wrote::by_port(room, |out, at| match kind {
            103 => both::write_actions(flags, ids, self.limit, &frame, actions, rows, out, at),
            _ => both::write_kv(kind, flags, ids, self.limit, &frame, pairs, count, out, at),
        });
        let allowed = kind == 103 || ids == [0, 0];
        let should = match (allowed, told.ill_pair) {
            (false, _) => Err((NOT_WRITABLE, 0)),
            (true, Some((index, _))) => Err((NOT_TEXT, index)),
            (true, None) => Ok(told.bytes.clone()),
        };
        let expected = Wrote::expected(should, self.limit, room);
        if wrote != expected {
            let rows = self.difference("what is written again is what the frame's bytes say");
            let rows = rows
                .row("paper", expected.answer)
                .row("", hex(&expected.area));
            return Err(rows.row("port", wrote.answer).row("", hex(&wrote.area)));
        }
        let Some(meaning) = Meaning::of_sent(head, pairs, actions, &frame) else {
            return Err(self.difference("what is read lies in the frame"));
        };
        Ok(Some(Seen {
            frame,
            told,
            meaning,
            wrote,
            allowed,
        }))
    }

    fn difference(&self, law: &str) -> Difference {
        Difference::in_call("read_agent_frame, written again")
            .row("input", hex(&self.input))
            .row("limit", self.limit)
            .row("spare", self.spare)
            .row("law", law)
    }
}

// ---------------------------------------------------------------- drawing

/// A frame that is right most of the time. At times the limit is just enough, and bytes stand behind it; the output is just
/// long enough half of the time.
fn drawn(random: &mut Random) -> Resent {
    let mut input = wire::sent(random);
    match random.below(8) {
        0 => inputs::damage(random, &mut input),
        1 => inputs::append(random, &mut input),
        _ => {}
    }
    let limit = match random.below(4) {
        0 => declared(&input),
        _ => 65_532,
    };
    let spare = match random.below(8) {
        0..4 => 0,
        4 => random.index(12),
        _ => 4_096,
    };
    Resent {
        input,
        limit,
        spare,
    }
}

/// The frame with one to three bits changed behind its length field.
fn twin(random: &mut Random, call: &Resent, seen: &Seen) -> Resent {
    let mut input = seen.frame.clone();
    for _ in 0..[1, 1, 1, 2, 3][random.index(5)] {
        let place = random.within(4, input.len() as u64 - 1) as usize;
        let bit = match random.below(2) {
            0 => random.within(5, 7),
            _ => random.below(8),
        };
        input[place] ^= 1 << bit;
    }
    Resent {
        input,
        limit: call.limit,
        spare: 0,
    }
}

// ---------------------------------------------------------------- rounds

#[derive(Default)]
struct Met {
    same: Counts,
    refused: Counts,
    other: Counts,
    twins: Counts,
}

pub fn diff(random: &mut Random, rounds: u64) -> Result<String, Difference> {
    let mut met = Met::default();
    for _ in 0..rounds {
        let call = drawn(random);
        if let Some(seen) = call.checked()? {
            met.add(&call, &seen);
            if let Some(other) = twin(random, &call, &seen).checked()? {
                met.add_twin(&seen, &other)?;
            }
        }
    }
    if rounds >= ENOUGH {
        met.same
            .all("an agent's frame written again as it was", "random")?;
        met.refused
            .all("an agent's frame written again, refused", "random")?;
        met.other
            .all("an agent's frame written again as another", "random")?;
        met.twins
            .all("two frames of agents that are read", "random")?;
    }
    met.print();
    let [same, refused, other, twins] =
        [&met.same, &met.refused, &met.other, &met.twins].map(|counts| counts.inputs);
    Ok(format!(
        "of agents {same} frames that came out as they went in, {refused} answered 14 or 15, {other} with other bytes, {twins} \
         frames with some bits changed"
    ))
}

impl Met {
    fn add(&mut self, call: &Resent, seen: &Seen) {
        match (seen.allowed && seen.told.is_well(), seen.told.is_plain()) {
            (false, _) => self.refused.add(&refused(seen)),
            (true, true) => self.same.add(&same(call, seen)),
            (true, false) => self.other.add(&other(seen)),
        }
    }

    /// Two frames with plain values that are other bytes are read as something else.
    fn add_twin(&mut self, seen: &Seen, twin: &Seen) -> Result<(), Difference> {
        let plain = seen.told.is_plain() && twin.told.is_plain();
        let (other, same) = (twin.frame != seen.frame, twin.meaning == seen.meaning);
        if other && same && plain {
            return Err(Difference::in_call("read_agent_frame of two frames")
                .row("one", hex(&seen.frame))
                .row("other", hex(&twin.frame)));
        }
        self.twins.add(&[
            ("both with plain values", other && plain),
            (
                "with another value, and read as the same",
                other && same && !plain,
            ),
        ]);
        Ok(())
    }

    fn print(&self) {
        println!("frames of agents written again as they were:");
        self.same.print();
        println!(
            "frames of agents with a text that is not UTF-8 or another id, answered 15 or 14:"
        );
        self.refused.print();
        println!("frames of agents with another value, written as other bytes:");
        self.other.print();
        println!("frames of agents with some bits changed, and read again:");
        self.twins.print();
    }
}

fn kind(seen: &Seen) -> u8 {
    seen.frame[4]
}

fn same(call: &Resent, seen: &Seen) -> Vec<Class> {
    let told = &seen.told;
    vec![
        ("type 101", kind(seen) == 101),
        ("type 102", kind(seen) == 102),
        ("type 103", kind(seen) == 103),
        ("without a record", told.pairs == 0),
        ("sets and unsets", told.sets > 0 && told.unsets > 0),
        ("flags of a value", told.kept_flags),
        (
            "under a limit that is just enough",
            call.limit as usize + 4 == seen.frame.len(),
        ),
        ("into an output that is just long enough", call.spare == 0),
        ("with bytes behind it", call.input.len() > seen.frame.len()),
    ]
}

fn refused(seen: &Seen) -> Vec<Class> {
    let ack = kind(seen) == 103;
    let ill = seen.told.ill_pair.filter(|_| seen.allowed);
    let text = |of| ill.is_some_and(|(_, text)| text == of);
    vec![
        ("an id that is not 0", !seen.allowed),
        ("a key of a KV list", !ack && text(Text::Key)),
        ("a value of a KV list", !ack && text(Text::Value)),
        ("an action's name", ack && text(Text::Key)),
        ("an action's value", ack && text(Text::Value)),
        (
            "not the first record",
            ill.is_some_and(|(index, _)| index > 0),
        ),
    ]
}

fn other(seen: &Seen) -> Vec<Class> {
    let (told, length) = (&seen.told, seen.wrote.length());
    vec![
        ("a boolean with other flags", told.flagged > 0),
        ("an i32 beyond its range", told.signed > 0),
        ("a u32 beyond its range", told.unsigned > 0),
        ("of an action", kind(seen) == 103),
        ("of a KV list", kind(seen) != 103),
        ("as many bytes", length == Some(seen.frame.len())),
        ("fewer bytes", length.is_some_and(|n| n < seen.frame.len())),
    ]
}
