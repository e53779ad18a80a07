//! The program `spoplist`: what it writes is compared with a listing of what the Rust reads, and of agents' frames with one
//! of the plain reading of SPOE.txt.

use super::frames::{LISTING, upload};
use crate::{
    counts::Counts,
    inputs::Random,
    listing::{
        agents, classes, draw,
        lines::{self, Sender},
        program::Program,
        sent::{Ack, SCOPES},
        sides,
    },
    text::Difference,
    timing,
};
use spop::{actions::Action, types::TypedData};
use std::net::{Ipv4Addr, Ipv6Addr};

/// From so many rounds on each class has to be met in them.
const ENOUGH: u64 = 1_000;

/// The paper's listing, to which the harness's own is held.
const LINES: &str = "\
frame 0 type 3 stream 1 id 2 bytes 29
message 0 name 64656c6179 args 2
pair 0 key 736c6f74 kind 3 value 7
pair 1 key 6f6b kind 1 value 1
end 29 0 0
";

/// The paper's ACK, and its listing.
const ACK: &[u8] =
    b"\0\0\0\x1c\x67\0\0\0\x01\x01\x02\x01\x03\x02\x04slot\x03\x07\x02\x02\x01\x02ok\x01\x03\0\0\0";
const ACK_LINES: &str = "\
frame 0 type 103 stream 1 id 2 bytes 32
action 0 set scope 2 name 736c6f74 kind 3 value 7
action 1 unset scope 1 name 6f6b
action 2 set scope 0 name - kind 0 value -
end 32 0 0
";

/// Of frames that the other one sends.
const REFUSED: &str = "end 0 6 4\n";

pub fn diff(random: &mut Random, rounds: u64) -> Result<String, Difference> {
    let program = Program::handed_over();
    let fixed = [fixed(&program)?, fixed_of_agents(&program)?];
    let words = words(&program)?;
    let mut met = Met::default();
    for _ in 0..rounds {
        met.round(&program, random)?;
    }
    if rounds >= ENOUGH {
        met.all()?;
    }
    met.print();
    Ok(format!(
        "{} fixed and {rounds} random inputs of HAProxy's frames, {} fixed and {rounds} random ones of agents', {} of ACKs that \
         the Rust wrote, and {words} with words that there are not",
        fixed[0], fixed[1], met.written.inputs
    ))
}

// ---------------------------------------------------------------- rounds

#[derive(Default)]
struct Met {
    haproxys: Counts,
    agents: Counts,
    written: Counts,
}

impl Met {
    /// An input of each sender, and at times one that the Rust writes.
    fn round(&mut self, program: &Program, random: &mut Random) -> Result<(), Difference> {
        let both = [
            (Sender::Haproxy, &mut self.haproxys),
            (Sender::Agent, &mut self.agents),
        ];
        for (sender, met) in both {
            let input = draw::input(random, sender);
            let listing = sides::checked(program, sender, &input)?;
            met.add(&classes::of(sender, &input, &listing));
        }
        if random.below(4) == 0 {
            let listing = sides::written(program, &agents::acks(random))?;
            self.written.add(&classes::of_actions(&listing.text));
        }
        Ok(())
    }

    fn all(&self) -> Result<(), Difference> {
        self.haproxys.all("spoplist", "random")?;
        self.agents.all("spoplist agent", "random")?;
        self.written
            .all("spoplist agent", "of ACKs that the Rust wrote")
    }

    fn print(&self) {
        println!("inputs of HAProxy's frames:");
        self.haproxys.print();
        println!("inputs of agents' frames:");
        self.agents.print();
        println!("inputs of ACKs that the Rust wrote:");
        self.written.print();
    }
}

// ---------------------------------------------------------------- fixed inputs

/// Answers how many there are.
fn fixed(program: &Program) -> Result<u64, Difference> {
    let sender = Sender::Haproxy;
    assert_eq!(lines::of(sender, LISTING).text, LINES);
    assert_eq!(lines::of(sender, ACK).text, REFUSED);
    sides::checked(program, sender, ACK)?;
    Ok(1 + around(program, sender, LISTING)? + in_pieces(program, sender, LISTING)?)
}

fn fixed_of_agents(program: &Program) -> Result<u64, Difference> {
    let sender = Sender::Agent;
    assert_eq!(lines::of(sender, ACK).text, ACK_LINES);
    assert_eq!(lines::of(sender, LISTING).text, REFUSED);
    let (hello, disconnect) = (agents::hello(), agents::disconnect());
    let all = [&hello[..], ACK, &disconnect].concat();
    for input in [LISTING, ACK, &hello, &disconnect, &all] {
        sides::checked(program, sender, input)?;
    }
    let every = of_every_kind();
    let bytes = every.written();
    sides::written(program, &[every])?;
    Ok(6 + around(program, sender, &bytes)? + in_pieces(program, sender, ACK)?)
}

/// The frame cut anywhere, and with each byte changed to a few others.
fn around(program: &Program, sender: Sender, frame: &[u8]) -> Result<u64, Difference> {
    let mut count = 0;
    let mut check = |input: &[u8]| {
        count += 1;
        sides::checked(program, sender, input)
    };
    for end in 0..=frame.len() {
        check(&frame[..end])?;
    }
    for place in 0..frame.len() {
        let old = frame[place];
        for byte in [0, old ^ 1, old ^ 0x12, old ^ 0x80, 0x65, 0xf0, 0xff] {
            let mut input = frame.to_vec();
            input[place] = byte;
            check(&input)?;
        }
    }
    Ok(count)
}

/// A read may give less than there will be.
fn in_pieces(program: &Program, sender: Sender, frame: &[u8]) -> Result<u64, Difference> {
    let ends = [0, 2, 17];
    for end in ends {
        sides::compare(program, sender, &[&frame[..end], &frame[end..]])?;
    }
    Ok(ends.len() as u64)
}

/// Sets of every kind of value and in every scope, with unsets between them.
fn of_every_kind() -> Ack {
    let values = [
        TypedData::Null,
        TypedData::Bool(true),
        TypedData::Int32(-730),
        TypedData::UInt32(1_250),
        TypedData::Int64(-1),
        TypedData::UInt64(u64::MAX),
        TypedData::IPv4(Ipv4Addr::LOCALHOST),
        TypedData::IPv6(Ipv6Addr::LOCALHOST),
        TypedData::String("ö".into()),
        TypedData::Binary(vec![0, 0xff]),
    ];
    let mut actions = Vec::new();
    for (index, value) in values.into_iter().enumerate() {
        let (scope, name) = (SCOPES[index % 5], index.to_string());
        actions.push(Action::SetVar { scope, name, value });
        if index % 3 == 2 {
            let name = "n".repeat(index % 2);
            actions.push(Action::UnSetVar { scope, name });
        }
    }
    Ack {
        ids: [1, 300],
        actions,
    }
}

/// Answers how many runs there are with words that the program does not know.
fn words(program: &Program) -> Result<u64, Difference> {
    let long = "agent".repeat(2_000);
    let unknown: [&[&str]; 12] = [
        &["agents"],
        &["agen"],
        &["Agent"],
        &["agent "],
        &["agent agent"],
        &[""],
        &["haproxy"],
        &[&long],
        &["agent", "agent"],
        &["agent", ""],
        &["", "agent"],
        &["agent", "agent", "agent"],
    ];
    for words in unknown {
        sides::usage(program, words, ACK)?;
    }
    Ok(unknown.len() as u64)
}

// ---------------------------------------------------------------- timing

/// The bytes of the input that is timed are fewer than this.
const TIMED: usize = 60_000;

/// The Rust has no such program, so the time stands alone.
pub fn bench(_: &mut Random) {
    let program = Program::handed_over();
    let mut input = Vec::new();
    for frame in (0..).map(upload) {
        if input.len() + frame.len() >= TIMED {
            break;
        }
        input.extend(frame);
    }
    let right = lines::of(Sender::Haproxy, &input).text;
    let name = format!("spoplist, {} bytes", input.len());
    timing::processes(&name, 20, || {
        let ran = program.run(&[], &[&input]);
        assert!(ran.text == right.as_bytes(), "the program lists otherwise");
    });
}

/// The port's program is compared itself, so there is no list.
pub fn list(_: &mut Random) -> Result<Vec<String>, String> {
    Ok(Vec::new())
}
