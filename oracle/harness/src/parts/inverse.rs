//! What is read is written back, byte for byte, where texts are UTF-8, 32-bit integers are in their ranges and booleans have
//! no other flag; and only there. Asked of the port alone: the frame's bytes say what has to come out.

use super::{frames, laws::KINDS};
use crate::{
    answers::Answer,
    counts::{Class, Counts, ENOUGH},
    inputs::Random,
    port::{MESSAGE_WIDTH, PAIR_WIDTH},
    reader::{
        call::{Call, declared},
        resent,
        rewritten::{Rewritten, Seen, Text},
        wire,
    },
    records::{self, NO_ROOM, OVER_LIMIT},
    text::{Difference, hex},
};
use spop::varint::encode_varint_into;

pub fn diff(random: &mut Random, rounds: u64) -> Result<String, Difference> {
    let [haproxy, listed] = STORED.map(stored);
    let [haproxy, listed] = [haproxy?, listed?];
    let mut met = Met::default();
    for _ in 0..rounds {
        let call = drawn(random);
        if let Some(seen) = met.add(&call)? {
            met.add_twin(&seen, &twin(random, &call, &seen))?;
        }
    }
    if rounds >= ENOUGH {
        met.all()?;
    }
    met.print();
    let sent = resent::diff(random, rounds)?;
    let [same, refused, other, twins] =
        [&met.same, &met.refused, &met.other, &met.twins].map(|counts| counts.inputs);
    Ok(format!(
        "{} frames of HAProxy and {} of the listing's input that came out as they went in, {} and {} answered 15; {rounds} \
         rounds, {same} frames that came out as they went in, {refused} answered 15, {other} with other bytes, {twins} frames \
         with some bits changed; {sent}",
        haproxy.same, listed.same, haproxy.refused, listed.refused
    ))
}

// ---------------------------------------------------------------- stored frames

/// Frames that a HAProxy sent, and what the program of the listing is run on, which has the same ones and others, in front of
/// a frame that is refused. Behind each is how many bytes are left then.
const STORED: [(&[u8], usize); 2] = [
    (include_bytes!("../../../../examples/haproxy/frames.bin"), 0),
    (include_bytes!("../../../../crates/spoplist/stdin"), 19),
];

/// The limit of the program of the listing, and tables with room for all of a frame.
const LIMIT: u32 = 65_532;
const ROOMY: [usize; 2] = [64 * MESSAGE_WIDTH, 1_024 * PAIR_WIDTH];

/// Of stored frames, how many came out as they went in, and how many have a text that is not UTF-8, which is 15. None of them
/// has a value that gives other bytes.
#[derive(Default)]
struct Stored {
    same: u64,
    refused: u64,
}

fn stored((bytes, left): (&[u8], usize)) -> Result<Stored, Difference> {
    let (mut met, mut rest) = (Stored::default(), bytes);
    while let Some(seen) = again(rest)? {
        match (seen.told.is_well(), unchanged(&seen)) {
            (true, true) => met.same += 1,
            (false, false) => met.refused += 1,
            _ => return Err(not_the_same(&seen)),
        }
        rest = &rest[seen.frame.len()..];
    }
    match rest.len() == left {
        true => Ok(met),
        false => Err(Difference::in_call("read_frame of stored frames").row("left", rest.len())),
    }
}

/// The frame at the front, written again into just enough bytes.
fn again(input: &[u8]) -> Result<Option<Seen>, Difference> {
    let read = Call {
        input: input.to_vec(),
        limit: LIMIT,
        lengths: ROOMY,
    };
    Rewritten { read, spare: 0 }.checked()
}

fn unchanged(seen: &Seen) -> bool {
    seen.wrote.length() == Some(seen.frame.len()) && seen.wrote.area.starts_with(&seen.frame)
}

fn not_the_same(seen: &Seen) -> Difference {
    Difference::in_call("a stored frame, written again")
        .row("frame", hex(&seen.frame))
        .row("port", seen.wrote.answer)
        .row("", hex(&seen.wrote.area))
}

// ---------------------------------------------------------------- drawing

/// A call as the part `frames` draws it, or a frame that is right most of the time and has room for everything. At times the
/// limit is just enough; the output is just long enough half of the time.
fn drawn(random: &mut Random) -> Rewritten {
    let roomy = |input| Call {
        input,
        limit: LIMIT,
        lengths: ROOMY,
    };
    let mut read = match random.below(32) {
        0 => roomy(lengthened(random)),
        1..16 => roomy(wire::frame(random).bytes),
        _ => frames::drawn(random),
    };
    if random.below(4) == 0 {
        read.limit = declared(&read.input);
    }
    let spare = match random.below(8) {
        0..4 => 0,
        4 => random.index(12),
        _ => 4_096,
    };
    Rewritten { read, spare }
}

/// The frame with one to three bits changed behind its length field, in tables with room for everything. Half of the bits would
/// be flags that a boolean loses, if they were in its type byte.
fn twin(random: &mut Random, call: &Rewritten, seen: &Seen) -> Rewritten {
    let mut input = seen.frame.clone();
    for _ in 0..[1, 1, 1, 2, 3][random.index(5)] {
        let place = random.within(4, input.len() as u64 - 1) as usize;
        let bit = match random.below(2) {
            0 => random.within(5, 7),
            _ => random.below(8),
        };
        input[place] ^= 1 << bit;
    }
    let read = Call {
        input,
        limit: call.read.limit,
        lengths: ROOMY,
    };
    Rewritten { read, spare: 0 }
}

/// A list with an i32 beyond its range, of which the sign's bits make more bytes.
fn lengthened(random: &mut Random) -> Vec<u8> {
    let mut bytes = vec![0, 0, 0, 0, 2, 0, 0, 0, 1, 0, 0];
    records::add_string("k", &mut bytes);
    bytes.push(2);
    encode_varint_into(random.within(1 << 31, u64::from(u32::MAX)), &mut bytes);
    wire::fit(&mut bytes);
    bytes
}

// ---------------------------------------------------------------- classes

#[derive(Default)]
struct Met {
    same: Counts,
    refused: Counts,
    other: Counts,
    twins: Counts,
}

impl Met {
    fn add(&mut self, call: &Rewritten) -> Result<Option<Seen>, Difference> {
        let Some(seen) = call.checked()? else {
            return Ok(None);
        };
        match (seen.told.is_well(), seen.told.is_plain()) {
            (false, _) => self.refused.add(&refused(&seen)),
            (true, true) => self.same.add(&same(call, &seen)),
            (true, false) => self.other.add(&other(&seen)),
        }
        Ok(Some(seen))
    }

    /// Two frames with plain values that are other bytes are read as something else.
    fn add_twin(&mut self, seen: &Seen, call: &Rewritten) -> Result<(), Difference> {
        let Some(twin) = call.checked()? else {
            return Ok(());
        };
        let plain = [seen, &twin].map(|seen| seen.told.is_plain());
        let (other, same) = (twin.frame != seen.frame, twin.meaning == seen.meaning);
        if other && same && plain == [true, true] {
            return Err(Difference::in_call("read_frame of two frames")
                .row("one", hex(&seen.frame))
                .row("other", hex(&twin.frame)));
        }
        self.twins.add(&[
            ("both with plain values", other && plain == [true, true]),
            (
                "both with plain values, and a text that is not UTF-8",
                other && plain == [true, true] && !twin.told.is_well(),
            ),
            (
                "with another value, and read as the same",
                other && same && plain.contains(&false),
            ),
        ]);
        Ok(())
    }

    fn all(&self) -> Result<(), Difference> {
        self.same.all("a frame written again as it was", "random")?;
        self.refused
            .all("a frame written again, refused", "random")?;
        self.other
            .all("a frame written again as another", "random")?;
        self.twins.all("two frames that are read", "random")
    }

    fn print(&self) {
        println!("frames written again as they were:");
        self.same.print();
        println!("frames with a text that is not UTF-8, answered 15:");
        self.refused.print();
        println!("frames with another value, written as other bytes:");
        self.other.print();
        println!("frames with some bits changed, and read again:");
        self.twins.print();
    }
}

fn kind(seen: &Seen) -> u8 {
    seen.frame[4]
}

fn same(call: &Rewritten, seen: &Seen) -> Vec<Class> {
    let told = &seen.told;
    let kinds = KINDS.into_iter().zip(told.kinds);
    let just = call.read.limit as usize + 4 == seen.frame.len();
    let all = [
        ("type 1", kind(seen) == 1),
        ("type 2", kind(seen) == 2),
        ("type 3", kind(seen) == 3),
        ("without a record", told.messages + told.pairs == 0),
        ("several messages", told.messages > 1),
        ("more than eight pairs", told.pairs > 8),
        ("flags of a value", told.kept_flags),
        ("binary that is not UTF-8", told.ill_binary),
        ("under a limit that is just enough", just),
        ("into an output that is just long enough", call.spare == 0),
        (
            "with bytes behind it",
            call.read.input.len() > seen.frame.len(),
        ),
    ];
    all.into_iter().chain(kinds).collect()
}

fn refused(seen: &Seen) -> Vec<Class> {
    let told = &seen.told;
    let (notify, name) = (kind(seen) == 3, told.ill_name);
    let pair = told.ill_pair.filter(|_| name.is_none());
    let text = |of| pair.is_some_and(|(_, text)| text == of);
    vec![
        ("a message's name", name.is_some()),
        (
            "a message's name, behind a pair that is refused too",
            name.is_some_and(|index| index > 0) && told.ill_pair.is_some(),
        ),
        ("a key of a KV list", !notify && text(Text::Key)),
        ("a value of a KV list", !notify && text(Text::Value)),
        ("a key of a message", notify && text(Text::Key)),
        ("a value of a message", notify && text(Text::Value)),
        (
            "not the first record",
            name.or(pair.map(|(index, _)| index)) > Some(0),
        ),
        ("with another value that would differ", !told.is_plain()),
    ]
}

fn other(seen: &Seen) -> Vec<Class> {
    let told = &seen.told;
    let length = seen.wrote.length();
    let number = |of| seen.wrote.answer == Answer::new(of, 0);
    vec![
        ("a boolean with other flags", told.flagged > 0),
        ("an i32 beyond its range", told.signed > 0),
        ("a u32 beyond its range", told.unsigned > 0),
        ("type 1", kind(seen) == 1),
        ("type 2", kind(seen) == 2),
        ("type 3", kind(seen) == 3),
        ("as many bytes", length == Some(seen.frame.len())),
        ("fewer bytes", length.is_some_and(|n| n < seen.frame.len())),
        ("more bytes", length.is_some_and(|n| n > seen.frame.len())),
        ("more than the limit, answered 12", number(OVER_LIMIT)),
        ("more than the output, answered 11", number(NO_ROOM)),
    ]
}

/// There is nothing to time that the parts of the calls do not.
pub fn bench(_: &mut Random) {}

/// The port alone answers, so there is no answer of the Rust to list.
pub fn list(_: &mut Random) -> Result<Vec<String>, String> {
    Ok(Vec::new())
}
