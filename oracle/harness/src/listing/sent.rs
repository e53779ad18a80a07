//! The listing of agents' frames as it has to be. The Rust has no reader of these, so the lines are made of the plain
//! reading of SPOE.txt. Of frames that the Rust wrote they are also told from the actions that it was given.

use super::lines::{LIMIT, Listing, frame_line, value_end};
use crate::{
    answers::{Answer, DONE},
    reader::model::{self, Action as Read, Pair},
    records::{self, Frame, Value},
    text::hex,
};
use spop::actions::{Action, VarScope};
use std::str;

/// How many pairs and actions there is room for.
pub const ROOMS: [usize; 2] = [256, 256];

pub const SCOPES: [VarScope; 5] = [
    VarScope::Process,
    VarScope::Session,
    VarScope::Transaction,
    VarScope::Request,
    VarScope::Response,
];

// ---------------------------------------------------------------- by the plain reading

impl Listing {
    /// Adds the lines of the agent's frame at the front of the input, where it is accepted.
    pub fn sent(&mut self, index: usize, input: &[u8]) -> Answer {
        let read = model::agent_frame(input, LIMIT, ROOMS);
        if read.number == DONE {
            let [kind, _, stream, id, ..] = read.head;
            self.line(frame_line(index, [kind, stream, id], read.at));
        }
        // After a refusal there are none.
        for (index, pair) in read.pairs.iter().enumerate() {
            self.sent_pair(index, pair, input);
        }
        for (index, action) in read.actions.iter().enumerate() {
            self.action(index, action, input);
        }
        Answer::new(read.number, read.at)
    }

    fn sent_pair(&mut self, index: usize, pair: &Pair, input: &[u8]) {
        let key = self.text(pair[0], pair[1], input);
        let end = self.value(records::value_of(pair), input);
        self.line(format_args!("pair {index} key {key} {end}"));
    }

    fn action(&mut self, index: usize, action: &Read, input: &[u8]) {
        let [verb, scope, start, length, ..] = *action;
        let name = self.text(start, length, input);
        match verb {
            1 => {
                let end = self.value(records::value_of(action), input);
                let front = format!("action {index} set scope {scope}");
                self.line(format_args!("{front} name {name} {end}"));
            }
            _ => self.line(format_args!(
                "action {index} unset scope {scope} name {name}"
            )),
        }
    }

    fn value(&mut self, [kind, a, b, _]: Value, input: &[u8]) -> String {
        let shown = match kind {
            0 => hex(&[]),
            1 | 3 | 5 => a.to_string(),
            2 | 4 => (a as i64).to_string(),
            8 => self.text(a, b, input),
            _ => hex(part(a, b, input)),
        };
        format!("kind {kind} value {shown}")
    }

    fn text(&mut self, start: u64, length: u64, input: &[u8]) -> String {
        let bytes = part(start, length, input);
        self.lossy |= str::from_utf8(bytes).is_err();
        hex(bytes)
    }
}

/// Starts count from the front of the frame, and so does the input.
fn part(start: u64, length: u64, input: &[u8]) -> &[u8] {
    records::part(input, start, length).expect("the reading stays inside the frame")
}

// ---------------------------------------------------------------- by what the Rust was given

/// An ACK for the Rust to write.
pub struct Ack {
    pub ids: [u64; 2],
    pub actions: Vec<Action>,
}

impl Ack {
    pub fn written(&self) -> Vec<u8> {
        let [stream, id] = self.ids;
        Frame::ack(stream, id, self.actions.clone()).written()
    }
}

/// The listing of such ACKs, one behind the other. Their bytes are counted, and none is read.
pub fn told(acks: &[Ack]) -> String {
    let (mut lines, mut used) = (Vec::new(), 0);
    for (index, ack) in acks.iter().enumerate() {
        let ([stream, id], bytes) = (ack.ids, ack.written().len());
        used += bytes;
        lines.push(frame_line(index, [103, stream, id], bytes as u64));
        lines.extend(ack.actions.iter().enumerate().map(told_action));
    }
    lines.push(format!("end {used} 0 0\n"));
    lines.join("\n")
}

fn told_action((index, action): (usize, &Action)) -> String {
    let front = |verb, scope: &VarScope, name: &str| {
        let (scope, name) = (scope.to_u8(), hex(name.as_bytes()));
        format!("action {index} {verb} scope {scope} name {name}")
    };
    match action {
        Action::SetVar { scope, name, value } => {
            format!("{} {}", front("set", scope, name), value_end(value))
        }
        Action::UnSetVar { scope, name } => front("unset", scope, name),
    }
}
