//! Laws of the reader and the writers, asked of the port alone: what is read stays when there is more of everything, a
//! wait is for what is missing, and what was written reads back.

use super::{frames, kv, notify};
use crate::{
    answers::{DONE, WAIT},
    counts::{Class, Counts, ENOUGH},
    inputs::{self, Random},
    port::{MESSAGE_WIDTH, PAIR_WIDTH},
    reader::{
        again::{Again, Seen},
        back::{Back, Writer},
        call::{Call, declared},
        lent::Reading,
        model::{OVERSIZE, Rooms, TABLE_FULL},
        wire,
    },
    records, shrink,
    tenth::NOT_FITTING,
    text::Difference,
};

pub fn diff(random: &mut Random, rounds: u64) -> Result<String, Difference> {
    let mut met = Met::default();
    for _ in 0..rounds {
        met.round(random)?;
    }
    if rounds >= ENOUGH {
        met.all()?;
    }
    met.print();
    let [again, kv, notify] = [&met.again, &met.kv, &met.notify].map(|counts| counts.inputs);
    Ok(format!(
        "{rounds} rounds, {again} readings with a second one, {kv} KV frames and {notify} NOTIFY frames read back"
    ))
}

#[derive(Default)]
struct Met {
    again: Counts,
    kv: Counts,
    notify: Counts,
}

impl Met {
    fn round(&mut self, random: &mut Random) -> Result<(), Difference> {
        let again = drawn(random);
        let seen = again.checked()?;
        self.again.add(&classes(&again, &seen));
        let call = kv::right(random);
        let back = read_back(random, call);
        if let Some(length) = checked(&back)? {
            self.kv.add(&kv_classes(&back, length));
        }
        let call = notify::right(random);
        let back = read_back(random, call);
        if let Some(length) = checked(&back)? {
            self.notify.add(&notify_classes(&back, length));
        }
        Ok(())
    }

    fn all(&self) -> Result<(), Difference> {
        self.again.all("read_frame", "random")?;
        self.kv.all("write_kv and read_frame", "random")?;
        self.notify.all("write_notify and read_frame", "random")
    }

    fn print(&self) {
        println!("readings, and the second ones:");
        self.again.print();
        println!("KV frames read back:");
        self.kv.print();
        println!("NOTIFY frames read back:");
        self.notify.print();
    }
}

fn checked<C: Writer>(back: &Back<C>) -> Result<Option<usize>, Difference> {
    back.check().or_else(|_| shrink::call(back).check())
}

// ---------------------------------------------------------------- drawing

/// A call as the part `frames` draws it, or only the start of its bytes, of which the rest is appended.
fn drawn(random: &mut Random) -> Again {
    let mut first = frames::drawn(random);
    if random.below(64) == 0 {
        lengthen(random, &mut first);
    }
    let behind = match random.below(4) {
        0 => first.input.split_off(cut(random, &first.input)),
        _ => bytes_behind(random),
    };
    let over = declared(&first.input).saturating_sub(first.limit);
    Again {
        first,
        behind,
        raise: raise(random, over),
        spare: [spare(random, MESSAGE_WIDTH), spare(random, PAIR_WIDTH)],
    }
}

/// Has the length field say a number that is near the end of its 32 bits, or over it with the field's own four bytes.
fn lengthen(random: &mut Random, call: &mut Call) {
    let [length, limit] = [(); 2].map(|()| u32::MAX - random.below(8) as u32);
    if let Some(field) = call.input.first_chunk_mut() {
        *field = length.to_be_bytes();
        call.limit = limit;
    }
}

/// Where to cut: at times in the length field, at times right behind it or before the end.
fn cut(random: &mut Random, input: &[u8]) -> usize {
    let whole = input.len().min(4 + declared(input) as usize);
    match random.below(8) {
        0 => random.index(5).min(input.len()),
        1 => whole.saturating_sub(1),
        _ => random.index(whole + 1),
    }
}

/// Nothing, some bytes, or frames.
fn bytes_behind(random: &mut Random) -> Vec<u8> {
    let mut bytes = Vec::new();
    match random.below(4) {
        0 => {}
        1 => bytes = wire::drawn(random).bytes,
        _ => inputs::append(random, &mut bytes),
    }
    bytes
}

/// How much higher a limit becomes: where a frame is over it, at times so that it is just enough or one too low.
fn raise(random: &mut Random, over: u32) -> u32 {
    match random.below(8) {
        0..3 => 0,
        3 if over > 0 => over,
        4 if over > 0 => over - 1,
        5 => inputs::number(random) as u32,
        6 => u32::MAX,
        _ => random.within(1, 3) as u32,
    }
}

/// How many numbers a table has more: up to two records, or many, and some that are no record.
fn spare(random: &mut Random, width: usize) -> usize {
    match random.below(16) {
        0..8 => 0,
        8 => random.index(100 * width),
        _ => random.index(3 * width),
    }
}

/// Some frames are as long as the writer's limit allows, and a few one byte longer, which are not to be written.
fn read_back<C: Writer>(random: &mut Random, mut call: C) -> Back<C> {
    if let Some(length) = call.by_port().length() {
        let limit = call.fields().limit;
        match random.below(8) {
            0..4 => {}
            4 => *limit = (length as u32).saturating_sub(5),
            _ => *limit = (length as u32).saturating_sub(4),
        }
    }
    Back {
        call,
        behind: bytes_behind(random),
        raise: u64::from(raise(random, 0)),
        spare: [MESSAGE_WIDTH, PAIR_WIDTH].map(|width| spare(random, width) as u64),
    }
}

// ---------------------------------------------------------------- classes of readings

/// What the second reading has more than the first.
struct More {
    bytes: bool,
    limit: bool,
    /// Room for messages, and for pairs.
    rooms: [bool; 2],
}

impl More {
    fn of(again: &Again) -> Self {
        Self {
            bytes: !again.behind.is_empty(),
            limit: again.first.limit < again.second().limit,
            rooms: again.larger(),
        }
    }

    fn room(&self) -> bool {
        self.rooms.contains(&true)
    }

    fn all(&self) -> bool {
        self.bytes && self.limit && self.room()
    }
}

/// The refusals that more of everything does not change.
const KEPT: [(u64, &str); 8] = [
    (3, "3, kept"),
    (4, "4, kept"),
    (5, "5, kept"),
    (6, "6, kept"),
    (7, "7, kept"),
    (8, "8, kept"),
    (9, "9, kept"),
    (NOT_FITTING, "19, kept"),
];

fn classes(again: &Again, seen: &Seen) -> Vec<Class> {
    let more = More::of(again);
    let mut all = classes_of_accepted(again, &more, &seen.first);
    all.extend(classes_of_waits(again, &more, seen));
    all.extend(classes_of_oversize(again, &more, seen));
    let kept = |(number, name)| (name, seen.first.number() == number && more.all());
    all.extend(KEPT.map(kept));
    all.extend(classes_of_full(again, &more, seen));
    all
}

fn classes_of_accepted(again: &Again, more: &More, first: &Reading) -> Vec<Class> {
    let [kind, _, _, _, messages, pairs] = first.head;
    let done = first.number() == DONE;
    let kept = done && more.all();
    let room = Rooms::of(again.first.lengths);
    let full = [room.messages as u64, room.pairs as u64] == [messages, pairs];
    let just = declared(&again.first.input) == again.first.limit;
    vec![
        ("0, a KV list", kept && kind < 3),
        ("0, a NOTIFY", kept && kind == 3),
        ("0, without a record", kept && first.head[4..] == [0, 0]),
        ("0, more than eight pairs", kept && pairs > 8),
        (
            "0, in tables that are full then, and in larger ones",
            done && full && more.rooms == [true; 2],
        ),
        (
            "0, under a limit that is just enough, and a higher one",
            done && just && more.limit,
        ),
    ]
}

fn classes_of_waits(again: &Again, more: &More, seen: &Seen) -> Vec<Class> {
    let (input, limit) = (&again.first.input, again.first.limit);
    let wait = seen.first.number() == WAIT;
    let from_frame = wait && input.len() >= 4;
    let from_field = wait && input.len() < 4;
    let waits_again = seen.second.number() == WAIT;
    let whole = seen.whole.as_ref().map(Reading::number);
    vec![
        ("1, from the length bytes", from_field),
        (
            "1, from the length bytes, and 1 from the frame",
            from_field && waits_again && input.len() + again.behind.len() >= 4,
        ),
        (
            "1, from the length bytes, and an answer",
            from_field && !waits_again,
        ),
        ("1, from the frame", from_frame),
        (
            "1, from the frame, and 1 for fewer bytes",
            from_frame && waits_again && more.bytes,
        ),
        (
            "1, from the frame, under a limit that is just enough",
            from_frame && declared(input) == limit,
        ),
        (
            "1, from a frame with more bytes than 32 bits count",
            from_frame && declared(input) > u32::MAX - 4,
        ),
        ("1, and 0 with the bytes asked for", whole == Some(DONE)),
        (
            "1, and a refusal with the bytes asked for",
            whole.is_some_and(|number| number != DONE),
        ),
    ]
}

fn classes_of_oversize(again: &Again, more: &More, seen: &Seen) -> Vec<Class> {
    let is = seen.first.number() == OVERSIZE;
    let then = seen.second.number();
    let whole = 4 + u64::from(declared(&again.first.input));
    vec![
        ("2, kept", is && more.bytes && !more.limit && more.room()),
        (
            "2, of a frame that is not whole",
            is && (again.first.input.len() as u64) < whole,
        ),
        (
            "2, and 2 under a higher limit",
            is && more.limit && then == OVERSIZE,
        ),
        ("2, and 0 under a higher limit", is && then == DONE),
        ("2, and 1 under a higher limit", is && then == WAIT),
        (
            "2, and another refusal under a higher limit",
            is && then > OVERSIZE,
        ),
    ]
}

fn classes_of_full(again: &Again, more: &More, seen: &Seen) -> Vec<Class> {
    let is = seen.first.number() == TABLE_FULL;
    let by_one = if is {
        again.by_one_table().map(|then| then.answer == seen.first.answer)
    } else {
        [false; 2]
    };
    let list = is && again.first.input[4] < 3;
    let then = seen.second.number();
    let moved = is && seen.first.answer != seen.second.answer;
    vec![
        ("10, kept", is && more.bytes && more.limit && !more.room()),
        (
            "10 of a KV list, kept with more room for messages",
            list && more.rooms[0] && by_one[0],
        ),
        (
            "10 of a NOTIFY, kept with more room for messages",
            is && !list && more.rooms[0] && by_one[0],
        ),
        (
            "10 of a NOTIFY, kept with more room for pairs",
            is && !list && more.rooms[1] && by_one[1],
        ),
        (
            "10, and 0 with more room for messages alone",
            is && then == DONE && more.rooms == [true, false],
        ),
        (
            "10, and 0 with more room for pairs alone",
            is && then == DONE && more.rooms == [false, true],
        ),
        (
            "10, and 10 further on with more room",
            moved && then == TABLE_FULL,
        ),
        (
            "10, and another refusal with more room",
            moved && then > WAIT && then != TABLE_FULL,
        ),
    ]
}

// ---------------------------------------------------------------- classes of frames

fn kv_classes(back: &Back<kv::Call>, length: usize) -> Vec<Class> {
    let kind = back.call.records().kind;
    let mut all = vec![("type 1", kind == 1), ("type 2", kind == 2)];
    all.extend(classes_of_both(back, length));
    all
}

fn notify_classes(back: &Back<notify::Call>, length: usize) -> Vec<Class> {
    let written = back.call.records();
    let rows: Vec<&[u64]> = written.messages.chunks_exact(MESSAGE_WIDTH).collect();
    let empty_first = rows.windows(2).any(|two| two[0][3] == 0 && two[1][3] > 0);
    let pairs: Vec<&[u64]> = written.pairs.chunks_exact(PAIR_WIDTH).collect();
    let repeated = pairs.windows(2).any(|two| two[0][..2] == two[1][..2]);
    let mut all = vec![
        ("no message", rows.is_empty()),
        ("one message", rows.len() == 1),
        ("several messages", rows.len() > 1),
        (
            "a message without arguments, and one with some",
            empty_first,
        ),
        ("an argument with the name of the one before it", repeated),
        ("255 arguments", rows.iter().any(|row| row[3] == 255)),
    ];
    all.extend(classes_of_both(back, length));
    all
}

pub const KINDS: [&str; 10] = [
    "null", "bool", "i32", "u32", "i64", "u64", "IPv4", "IPv6", "string", "binary",
];

fn classes_of_both<C: Writer>(back: &Back<C>, length: usize) -> Vec<Class> {
    let written = back.call.records();
    let pairs: Vec<&[u64]> = written.pairs.chunks_exact(PAIR_WIDTH).collect();
    let of_kind = |kind| pairs.iter().any(|pair| pair[2] == kind);
    let kinds = (0..).zip(KINDS).map(|(kind, name)| (name, of_kind(kind)));
    let just = u64::from(written.limit) + 4 == length as u64;
    let all = [
        ("no pair", pairs.is_empty()),
        ("one pair", pairs.len() == 1),
        ("several pairs", pairs.len() > 1),
        ("more than eight pairs", pairs.len() > 8),
        ("nothing behind it", back.behind.is_empty()),
        ("bytes behind it", !back.behind.is_empty()),
        ("under the writer's limit", back.raise == 0),
        ("under a limit that is just enough", back.raise == 0 && just),
        (
            "under a higher limit",
            back.raise > 0 && written.limit < u32::MAX,
        ),
        ("in tables without a spare record", back.spare == [0, 0]),
        (
            "in larger tables",
            back.spare[0] >= MESSAGE_WIDTH as u64 && back.spare[1] >= PAIR_WIDTH as u64,
        ),
        (
            "flags of a value",
            pairs.iter().any(|pair| records::flags_of(pair) > 0),
        ),
    ];
    all.into_iter().chain(kinds).collect()
}

/// There is nothing to time that the parts of the calls do not.
pub fn bench(_: &mut Random) {}

/// Laws are of the port alone, so there is no answer of the Rust to list.
pub fn list(_: &mut Random) -> Result<Vec<String>, String> {
    Ok(Vec::new())
}
