//! Action frames, byte by byte.

use crate::{
    answers::Answer,
    both,
    inputs::{self, Random},
    port::{self, ACTION_WIDTH, VALUE_WIDTH},
    reader::back::Written,
    records::{self, Frame, NOT_WRITABLE, OUTSIDE, Wrote},
    shrink::{self, Fields},
    text::Difference,
    timing,
};
use spop::{
    actions::{Action, VarScope},
    types::TypedData,
};
use std::hint::black_box;

/// The most actions that are drawn.
const MOST: usize = 6;

#[derive(Clone, Debug, PartialEq)]
pub struct Call {
    fin: bool,
    abort: bool,
    stream: u64,
    frame: u64,
    limit: u32,
    pub buffer: Vec<u8>,
    actions: Vec<u64>,
    count: u64,
    room: usize,
}

impl Call {
    fn by_port(&self) -> Wrote {
        Wrote::by_port(self.room, |out, at| {
            both::write_actions(
                [self.fin, self.abort],
                [self.stream, self.frame],
                self.limit,
                &self.buffer,
                &self.actions,
                self.count,
                out,
                at,
            )
        })
    }

    /// Refusals are a plain reading of the paper; the bytes are the Rust's.
    fn by_rust(&self) -> Wrote {
        Wrote::expected(self.expected(), self.limit, self.room)
    }

    pub fn expected(&self) -> Result<Vec<u8>, (u64, u64)> {
        if !self.fin || self.abort {
            return Err((NOT_WRITABLE, 0));
        }
        if self.count > (self.actions.len() / ACTION_WIDTH) as u64 {
            return Err((OUTSIDE, 0));
        }
        let mut actions = Vec::new();
        for (index, record) in self.rows().enumerate() {
            let action = action(record, &self.buffer);
            actions.push(action.map_err(|number| (number, index as u64))?);
        }
        Ok(self.written(actions))
    }

    /// Whether no value has flags, so that the bytes are the Rust's alone.
    fn is_plain(&self) -> bool {
        self.rows().all(|row| records::flags_of(row) == 0)
    }

    pub fn rows(&self) -> impl Iterator<Item = &[u64]> {
        self.actions
            .chunks_exact(ACTION_WIDTH)
            .take(self.count as usize)
    }

    /// What the Rust writes, with the values' flags put in, of which it writes none.
    fn written(&self, actions: Vec<Action>) -> Vec<u8> {
        let parts: Vec<[usize; 2]> = actions.iter().map(parts).collect();
        let mut whole = Frame::ack(self.stream, self.frame, actions).written();
        let mut at = whole.len() - parts.as_flattened().iter().sum::<usize>();
        for ([name, value], record) in parts.into_iter().zip(self.rows()) {
            at += name;
            if value > 0 {
                records::put_flags(&mut whole[at], records::flags_of(record));
            }
            at += value;
        }
        whole
    }
}

/// How many bytes an action has up to its value, and how many the value has, 0 for an unset.
fn parts(action: &Action) -> [usize; 2] {
    let (name, value) = match action {
        Action::SetVar { name, value, .. } => (name, value.serialized_len()),
        Action::UnSetVar { name, .. } => (name, 0),
    };
    let mut front = vec![0; 3];
    records::add_string(name, &mut front);
    [front.len(), value]
}

fn action(record: &[u64], buffer: &[u8]) -> Result<Action, u64> {
    let value = records::value_of(record);
    match record[0] {
        1 => records::writable(value)?,
        2 if value == [0; VALUE_WIDTH] => {}
        _ => return Err(NOT_WRITABLE),
    }
    let scope = scope(record[1])?;
    let name = records::text(buffer, record[2], record[3])?;
    if record[0] == 2 {
        return Ok(Action::UnSetVar { scope, name });
    }
    let value = records::value(value, buffer)?;
    Ok(Action::SetVar { scope, name, value })
}

fn scope(number: u64) -> Result<VarScope, u64> {
    Ok(match number {
        0 => VarScope::Process,
        1 => VarScope::Session,
        2 => VarScope::Transaction,
        3 => VarScope::Request,
        4 => VarScope::Response,
        _ => return Err(NOT_WRITABLE),
    })
}

// ---------------------------------------------------------------- comparing

/// Answers the length of the frame, where one was written.
fn compare(call: &Call) -> Result<Option<usize>, Difference> {
    let (port, rust) = (call.by_port(), call.by_rust());
    if port == rust {
        let length = port.length();
        length.map_or(Ok(()), |length| compare_read(call, &port, length))?;
        return Ok(length);
    }
    let sides = [("port", &port), ("rust", &rust)];
    Err(records::difference("write_actions", call, sides))
}

/// The port refuses to read its own frame, since agents write such frames and do not read them.
fn compare_read(call: &Call, port: &Wrote, length: usize) -> Result<(), Difference> {
    let written = Written {
        kind: 103,
        fin: call.fin,
        abort: call.abort,
        ids: [call.stream, call.frame],
        limit: call.limit,
        spare: [0, 0],
        buffer: &call.buffer,
        messages: &[],
        pairs: &[],
    };
    written.read_back(&port.area, length, call)
}

pub fn diff(random: &mut Random, rounds: u64) -> Result<String, Difference> {
    let (mut done, mut plain) = (0, 0);
    for _ in 0..rounds {
        let mut call = drawn(random);
        if let Some(length) = checked(&call)? {
            done += 1;
            plain += u64::from(call.is_plain());
            records::to_an_edge(random, length, &mut call.limit, &mut call.room);
            checked(&call)?;
        }
    }
    Ok(format!(
        "{rounds} rounds, {done} of them with a frame written and read back, {plain} of these without a flag, as the Rust writes them"
    ))
}

fn checked(call: &Call) -> Result<Option<usize>, Difference> {
    compare(call).or_else(|_| compare(&shrink::call(call)))
}

impl shrink::Call for Call {
    fn differing(&self) -> Option<[Answer; 2]> {
        let answers = [self.by_port().answer, self.by_rust().answer];
        compare(self).is_err().then_some(answers)
    }

    fn length(&self) -> Option<usize> {
        self.expected().ok().map(|frame| frame.len())
    }

    fn with_less(&self) -> Vec<Call> {
        let fewer = shrink::table(&self.actions, self.count, ACTION_WIDTH);
        let fewer = fewer.into_iter().map(|(actions, count)| Call {
            actions,
            count,
            ..self.clone()
        });
        fewer.collect()
    }

    fn fields(&mut self) -> Fields<'_> {
        Fields {
            flags: [&mut self.fin, &mut self.abort],
            limit: &mut self.limit,
            buffer: &mut self.buffer,
            room: &mut self.room,
            numbers: [&mut self.stream, &mut self.frame, &mut self.count]
                .into_iter()
                .chain(&mut self.actions)
                .collect(),
        }
    }
}

pub fn drawn(random: &mut Random) -> Call {
    let buffer = records::contents(random);
    let room = buffer.len() as u64;
    let rows = random.index(MOST + 1);
    let mut actions = Vec::new();
    for _ in 0..rows {
        let set = random.below(3) > 0;
        let kind = match random.below(24) {
            0 => random.below(4) + 2 * random.below(2),
            _ => 2 - u64::from(set),
        };
        let (start, length) = records::drawn_part(random, room);
        actions.extend([
            kind,
            random.below(5) + records::unused(random) / 3,
            start,
            length,
        ]);
        actions.extend(match kind {
            2 => [
                records::unused(random),
                records::unused(random) / 2,
                0,
                records::unused(random) / 2,
            ],
            _ => records::drawn_value(random, room),
        });
    }
    actions.extend((0..random.index(ACTION_WIDTH)).map(|_| random.below(3)));
    let plain = random.below(8) > 0;
    Call {
        fin: plain || random.below(2) == 0,
        abort: !plain && random.below(2) == 0,
        stream: inputs::number(random),
        frame: inputs::number(random),
        limit: match random.below(8) {
            0 => random.below(60) as u32,
            1 => u32::MAX,
            _ => 16_384,
        },
        buffer,
        count: match random.below(16) {
            0 => inputs::number(random),
            1 => rows as u64 + 1,
            _ => random.below(rows as u64 + 1).max(rows as u64 / 2),
        },
        actions,
        room: match random.below(8) {
            0 => random.index(60),
            _ => 500,
        },
    }
}

// ---------------------------------------------------------------- timing

pub fn bench(_: &mut Random) {
    time("write_actions, 2 set-vars", 2, |index| {
        TypedData::UInt32(7 + index as u32)
    });
    time("write_actions, 100 texts", 100, |index| {
        TypedData::String(format!("{index:>40}"))
    });
}

/// An ACK of set-vars with names of six bytes.
fn time(name: &str, count: usize, value: fn(usize) -> TypedData) {
    let (mut buffer, mut table, mut actions) = (Vec::new(), Vec::new(), Vec::new());
    for index in 0..count {
        let (name, value) = (format!("slot{index:02}"), value(index));
        table.extend([1, 2]);
        table.extend(records::lend_pair(&name, &value, &mut buffer));
        actions.push(records::set_var(name, value));
    }
    let (mut lent, mut at) = (vec![0; 16_384], 0);
    let mut port = || {
        black_box(port::write_actions(
            [true, false],
            [1, 2],
            16_384,
            black_box(&buffer),
            black_box(&table),
            count as u64,
            &mut lent,
            &mut at,
        ));
        black_box((&lent, &at));
        at
    };
    let floor = timing::copying(vec![1; port() as usize]);
    let ack = Frame::ack(1, 2, actions);
    timing::race_above(name, 1, || _ = port(), ack.race(), floor);
}

/// The refusals are the paper's, and the bytes are compared here.
pub fn list(_: &mut Random) -> Result<Vec<String>, String> {
    Ok(Vec::new())
}
