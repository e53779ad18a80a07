//! What an input and its listing are of, so that random ones which have become too plain show.

use super::{
    lines::{LIMIT, Listing, ROOMS, SEEN, Sender},
    sent,
};
use crate::{
    answers::{Answer, DONE},
    counts::Class,
    parts::laws::KINDS,
    reader::{
        model::{self, TABLE_FULL, UNKNOWN_ACTION},
        wire,
    },
    tenth::NOT_FITTING,
};

pub fn of(sender: Sender, input: &[u8], listing: &Listing) -> Vec<Class> {
    let text = &listing.text;
    let mut all = of_inputs(input, text);
    match sender {
        Sender::Haproxy => {
            all.extend(of_haproxys(text));
            all.extend(of_values(text));
        }
        Sender::Agent => {
            all.extend(of_agents(text));
            all.extend(of_actions(text));
        }
    }
    all.push(("an empty key", text.contains(" key - ")));
    all.push(("text that is not UTF-8", listing.lossy));
    let end = End::of(input, listing);
    all.extend(end.classes());
    all.extend(match sender {
        Sender::Haproxy => end.of_haproxys(),
        Sender::Agent => end.of_agents(),
    });
    all
}

// ---------------------------------------------------------------- lines

fn of_inputs(input: &[u8], text: &str) -> Vec<Class> {
    let frames = text
        .lines()
        .filter(|line| line.starts_with("frame"))
        .count();
    vec![
        ("an empty input", input.is_empty()),
        ("one frame", frames == 1),
        ("several frames", frames > 1),
        ("more than 65,536 bytes", input.len() > SEEN),
        ("a frame of 65,536 bytes", text.contains(" bytes 65536\n")),
        ("256 pairs", text.contains("\npair 255 ")),
    ]
}

/// Whether a frame of this type has no line behind its own.
fn empty(text: &str, kind: &str) -> bool {
    let mut two = text.lines().zip(text.lines().skip(1));
    two.any(|(one, next)| one.contains(kind) && !next.starts_with(['m', 'p', 'a']))
}

fn of_haproxys(text: &str) -> Vec<Class> {
    vec![
        ("a HELLO", text.contains(" type 1 ")),
        ("a DISCONNECT", text.contains(" type 2 ")),
        (
            "a list without a pair",
            empty(text, " type 1 ") || empty(text, " type 2 "),
        ),
        ("a NOTIFY without a message", empty(text, " type 3 ")),
        ("several messages", text.contains("\nmessage 1 ")),
        ("a message without arguments", text.contains(" args 0\n")),
        ("64 messages", text.contains("\nmessage 63 ")),
    ]
}

fn of_agents(text: &str) -> Vec<Class> {
    vec![
        ("a HELLO", text.contains(" type 101 ")),
        ("a DISCONNECT", text.contains(" type 102 ")),
        ("an ACK", text.contains(" type 103 ")),
        (
            "a list without a pair",
            empty(text, " type 101 ") || empty(text, " type 102 "),
        ),
        ("several pairs", text.contains("\npair 1 ")),
        ("an ACK without an action", empty(text, " type 103 ")),
    ]
}

/// Those of actions alone, without the pairs that stand among them.
pub fn of_actions(text: &str) -> Vec<Class> {
    let lines = text.split_inclusive('\n');
    let text: String = lines.filter(|line| line.starts_with("action")).collect();
    let scopes = ["scope 0", "scope 1", "scope 2", "scope 3", "scope 4"];
    let mut all = vec![
        ("a set", text.contains(" set ")),
        ("an unset", text.contains(" unset ")),
        ("several actions", text.contains("action 1 ")),
        ("256 actions", text.contains("action 255 ")),
    ];
    all.extend(scopes.map(|scope| (scope, text.contains(scope))));
    all.extend(of_values(&text));
    all
}

fn of_values(text: &str) -> Vec<Class> {
    let of_kind = |kind| text.contains(&format!(" kind {kind} value "));
    let negative = |kind| {
        let mut parts = text.split(kind).skip(1);
        parts.any(|part| part.starts_with('-'))
    };
    let kinds = (0..).zip(KINDS).map(|(kind, name)| (name, of_kind(kind)));
    let all = [
        ("a negative i32", negative(" kind 2 value ")),
        ("a negative i64", negative(" kind 4 value ")),
        ("an empty string", text.contains(" kind 8 value -\n")),
        ("an empty binary", text.contains(" kind 9 value -\n")),
        ("an empty name", text.contains(" name -")),
    ];
    kinds.chain(all).collect()
}

// ---------------------------------------------------------------- ends

/// What stopped a listing, and the bytes that were left for it.
struct End<'a> {
    stop: Answer,
    used: usize,
    rest: &'a [u8],
    /// Whether there were more bytes than the program reads.
    unseen: bool,
}

impl<'a> End<'a> {
    fn of(input: &'a [u8], listing: &Listing) -> Self {
        let last = listing.text.lines().last().unwrap_or_default();
        let used = last.split(' ').nth(1).and_then(|used| used.parse().ok());
        let used = used.unwrap_or_default();
        Self {
            stop: listing.stop,
            used,
            rest: &input[used..input.len().min(SEEN)],
            unseen: input.len() > SEEN,
        }
    }

    fn is(&self, number: u64) -> bool {
        matches!(self.stop, Answer::Paper { number: n, .. } if n == number)
    }

    fn classes(&self) -> Vec<Class> {
        let names = ["2", "3", "4", "5", "6", "7", "8", "9"];
        let refusals = (2..).zip(names);
        let refusals = refusals.map(|(number, name)| (name, self.is(number)));
        let mut all = vec![
            ("0", self.is(0)),
            ("0, at 65,536", self.is(0) && self.used == SEEN),
            (
                "1, from the length bytes",
                self.is(1) && self.rest.len() < 4,
            ),
            ("1, from the frame", self.is(1) && self.rest.len() >= 4),
            (
                "1, from a frame that is not read to its end",
                self.is(1) && self.unseen,
            ),
        ];
        all.extend(refusals);
        all.push(("19", self.is(NOT_FITTING)));
        all.push((
            "a refusal behind a frame",
            !self.is(0) && !self.is(1) && self.used > 0,
        ));
        all
    }

    fn of_haproxys(&self) -> Vec<Class> {
        let rest = model::frame(self.rest, LIMIT, ROOMS);
        let full = rest.pairs.len() >= ROOMS.pairs;
        let (ten, list) = (self.is(TABLE_FULL), rest.messages.is_empty());
        vec![
            (
                "9, and 10 without it",
                self.is(9) && rest.pairs.len() > ROOMS.pairs,
            ),
            ("10, a message", ten && !full),
            ("10, an argument", ten && full && !list),
            ("10, a pair of a list", ten && list),
        ]
    }

    fn of_agents(&self) -> Vec<Class> {
        let ten = self.is(TABLE_FULL);
        let ack = self.rest.get(4) == Some(&103);
        // With room for one record less, 10 comes first where the refusal is about a record without room, and only there.
        let less = sent::ROOMS.map(|room| room - 1);
        let full = model::agent_frame(self.rest, LIMIT, less).number == TABLE_FULL;
        vec![
            ("9, and 10 without it", self.is(9) && full),
            ("18, and 10 without it", self.is(UNKNOWN_ACTION) && full),
            ("10, an action", ten && ack),
            ("10, a pair of a list", ten && !ack),
            ("18, of the first byte", self.no_action() == Some(1)),
            ("18, of the count", self.no_action() == Some(2)),
            ("18, of the scope", self.no_action() == Some(3)),
        ]
    }

    /// Which byte of an action there is not. Without that byte and those before it the frame is whole.
    fn no_action(&self) -> Option<usize> {
        let Answer::Paper {
            number: UNKNOWN_ACTION,
            at,
        } = self.stop
        else {
            return None;
        };
        (1..=3).find(|back| {
            let mut frame = self.rest[..at as usize - back].to_vec();
            wire::fit(&mut frame);
            model::agent_frame(&frame, LIMIT, sent::ROOMS).number == DONE
        })
    }
}
