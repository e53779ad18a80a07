//! The calls that are compared. Each is made twice: as the port's address gives it, and through the safe form that the crate
//! `muleflurry` has for it, on a copy of what is lent. The two have to answer the same and to leave the same in all memory. What the
//! crate owns is compared as well: frames that it reads into tables of its own, and frames that it builds.

use crate::port::{self, PAIR_WIDTH, VALUE_WIDTH, VERSION_WIDTH, calls};

/// The number where the crate's safe form does otherwise than the call that it stands on. No side has it.
pub const PARTED: u64 = u64::MAX;

calls! {
    pub fn varint_len(n: u64) -> u64 {
        let length = port::varint_len(n);
        agreed(length, lent::varint_len(n) as u64 == length)
    }

    pub fn encode_varint(n: u64, out: &mut [u8], at: &mut u64) -> u64 {
        let mut copy = Copied::of(out);
        let number = port::encode_varint(n, out, at);
        let safe = lent::encode_varint(n, copy.lent());
        agreed(number, told(safe) == (number, *at) && copy.is(out))
    }

    pub fn decode_varint(input: &[u8], value: &mut u64, at: &mut u64) -> u64 {
        let before = *value;
        let number = port::decode_varint(input, value, at);
        let safe = told_with(lent::decode_varint(input), before);
        agreed(number, safe == (number, *at, *value))
    }

    pub fn is_utf8(bytes: &[u8]) -> bool {
        let answer = port::is_utf8(bytes);
        assert_eq!(lent::is_utf8(bytes), answer, "the crate's is_utf8 of {bytes:02x?}");
        answer
    }

    pub fn same_text(a: &[u8], b: &[u8]) -> bool {
        let answer = port::same_text(a, b);
        assert_eq!(lent::same_text(a, b), answer, "the crate's same_text of {a:02x?} and {b:02x?}");
        answer
    }

    pub fn same_text_plain(
        a: &[u8],
        b: &[u8],
        a_text: &mut [u8],
        b_text: &mut [u8],
        same: &mut bool,
        at: &mut u64,
    ) -> u64 {
        let (mut first, mut second, before) = (Copied::of(a_text), Copied::of(b_text), *same);
        let number = port::same_text_plain(a, b, a_text, b_text, same, at);
        let safe = lent::same_text_plain(a, b, first.lent(), second.lent()).map(|same| (same, 0));
        agreed(number, told_with(safe, before) == (number, *at, *same) && first.is(a_text) && second.is(b_text))
    }

    pub fn lossy_text(bytes: &[u8], out: &mut [u8], at: &mut u64) -> u64 {
        let mut copy = Copied::of(out);
        let number = port::lossy_text(bytes, out, at);
        let safe = lent::lossy_text(bytes, copy.lent());
        let shown = number != 0 || Text(bytes).to_string().as_bytes() == &out[..*at as usize];
        agreed(number, told(safe) == (number, *at) && copy.is(out) && shown)
    }

    pub fn typed_data(input: &[u8], value: &mut [u64; VALUE_WIDTH], at: &mut u64) -> u64 {
        let before = *value;
        let number = port::typed_data(input, value, at);
        let read = lent::typed_data(input);
        let shown = read.is_ok_and(|(data, _)| data.value(input).is_some_and(|value| stands(&value, data, input)));
        let safe = told_with(read.map(|(data, used)| (data.numbers(), used)), before);
        agreed(number, safe == (number, *at, *value) && shown == (number == 0))
    }

    pub fn value_len(value: &[u64; VALUE_WIDTH], buffer: &[u8]) -> u64 {
        let length = port::value_len(value, buffer);
        agreed(length, lent::value_len(Data::of_numbers(*value), buffer) as u64 == length)
    }

    pub fn check_value(value: &[u64; VALUE_WIDTH], buffer: &[u8]) -> u64 {
        let number = port::check_value(value, buffer);
        let data = Data::of_numbers(*value);
        // Numbers stand for a value where a writer takes them, the text of a string aside.
        let shown = data.value(buffer).is_some() == [0, Refusal::NOT_TEXT].contains(&number);
        let safe = lent::check_value(data, buffer).map(|()| 0);
        agreed(number, told(safe) == (number, 0) && shown)
    }

    pub fn write_value(value: &[u64; VALUE_WIDTH], buffer: &[u8], out: &mut [u8], at: &mut u64) -> u64 {
        let mut copy = Copied::of(out);
        let number = port::write_value(value, buffer, out, at);
        let safe = lent::write_value(Data::of_numbers(*value), buffer, copy.lent());
        agreed(number, told(safe) == (number, *at) && copy.is(out))
    }

    pub fn negotiate_max_frame_size(theirs: u32, ours: u32, at: &mut u64) -> u64 {
        let number = port::negotiate_max_frame_size(theirs, ours, at);
        let safe = lent::negotiate_max_frame_size(theirs, ours);
        agreed(number, told(safe.map(|size| size as usize)) == (number, *at))
    }

    pub fn negotiate_version(versions: &[u64], version: &mut [u64; 3]) -> bool {
        let before = *version;
        let chosen = port::negotiate_version(versions, version);
        let safe = lent::negotiate_version(versions.as_chunks::<VERSION_WIDTH>().0);
        assert_eq!((safe.is_some(), safe.unwrap_or(before)), (chosen, *version), "the crate's version of {versions:?}");
        chosen
    }

    /// FIN and ABORT are `flags`, the stream's and the frame's number are `ids`.
    #[allow(clippy::too_many_arguments)]
    pub fn write_kv(
        kind: u64,
        flags: [bool; 2],
        ids: [u64; 2],
        limit: u32,
        buffer: &[u8],
        pairs: &[u64],
        count: u64,
        out: &mut [u8],
        at: &mut u64,
    ) -> u64 {
        let mut copy = Copied::of(out);
        let number = port::write_kv(kind, flags, ids, limit, buffer, pairs, count, out, at);
        // The crate's types have no other kinds, and no other count than a table's own.
        let (Some(kind), Some(records)) = (FrameType::from_number(kind), counted(Pair::table(pairs), count)) else {
            return number;
        };
        let metadata = metadata(flags, ids);
        let safe = lent::write_kv(kind, metadata, limit, buffer, records, copy.lent());
        let owned = arguments(records, buffer).map(|pairs| owned::Kv { kind, metadata, pairs }.write(limit));
        let same = told(safe) == (number, *at) && copy.is(out);
        agreed(number, same && built_so(owned, number, *at, out))
    }

    /// FIN and ABORT are `flags`, the stream's and the frame's number are `ids`.
    #[allow(clippy::too_many_arguments)]
    pub fn write_actions(
        flags: [bool; 2],
        ids: [u64; 2],
        limit: u32,
        buffer: &[u8],
        actions: &[u64],
        count: u64,
        out: &mut [u8],
        at: &mut u64,
    ) -> u64 {
        let mut copy = Copied::of(out);
        let number = port::write_actions(flags, ids, limit, buffer, actions, count, out, at);
        let Some(records) = counted(Action::table(actions), count) else {
            return number;
        };
        let metadata = metadata(flags, ids);
        let safe = lent::write_actions(metadata, limit, buffer, records, copy.lent());
        let actions = records.iter().map(|record| action(record, buffer)).collect::<Option<_>>();
        let owned = actions.map(|actions| owned::Ack { metadata, actions }.write(limit));
        let same = told(safe) == (number, *at) && copy.is(out);
        agreed(number, same && built_so(owned, number, *at, out))
    }

    /// FIN and ABORT are `flags`, the stream's and the frame's number are `ids`.
    #[allow(clippy::too_many_arguments)]
    pub fn write_notify(
        flags: [bool; 2],
        ids: [u64; 2],
        limit: u32,
        buffer: &[u8],
        messages: &[u64],
        message_count: u64,
        pairs: &[u64],
        pair_count: u64,
        out: &mut [u8],
        at: &mut u64,
    ) -> u64 {
        let mut copy = Copied::of(out);
        let number = port::write_notify(
            flags, ids, limit, buffer, messages, message_count, pairs, pair_count, out, at,
        );
        let tables = (counted(Message::table(messages), message_count), counted(Pair::table(pairs), pair_count));
        let (Some(messages), Some(pairs)) = tables else {
            return number;
        };
        let metadata = metadata(flags, ids);
        let safe = lent::write_notify(metadata, limit, buffer, messages, pairs, copy.lent());
        let messages = owned_messages(messages, pairs, buffer);
        let owned = messages.map(|messages| owned::Notify { metadata, messages }.write(limit));
        let same = told(safe) == (number, *at) && copy.is(out);
        agreed(number, same && built_so(owned, number, *at, out))
    }

    pub fn read_pair(input: &[u8], pair: &mut [u64; PAIR_WIDTH], at: &mut u64) -> u64 {
        let before = *pair;
        let number = port::read_pair(input, pair, at);
        let read = lent::read_pair(input);
        let shown = read.is_ok_and(|(pair, _)| pair.argument(input).is_some_and(|one| is_pair(&one, &pair, input)));
        let safe = told_with(read.map(|(pair, used)| (numbers(&pair), used)), before);
        agreed(number, safe == (number, *at, *pair) && shown == (number == 0))
    }

    pub fn read_frame(
        input: &[u8],
        limit: u32,
        messages: &mut [u64],
        pairs: &mut [u64],
        head: &mut [u64; 6],
        at: &mut u64,
    ) -> u64 {
        let (mut some, mut others, before) = (Copied::of(messages), Copied::of(pairs), *head);
        let number = port::read_frame(input, limit, messages, pairs, head, at);
        let tables = (Message::table_mut(some.lent()), Pair::table_mut(others.lent()));
        let safe = lent::read_frame(input, limit, tables.0, tables.1);
        let same = told_of_frame(safe, before) == (number, *at, *head)
            && safe.map_or(true, |frame| walked(&frame))
            && owned_so(input, limit, number, safe);
        agreed(number, same && some.is(messages) && others.is(pairs))
    }

    pub fn read_frames(
        input: &[u8],
        limit: u32,
        rows: &mut [u64],
        messages: &mut [u64],
        pairs: &mut [u64],
        counts: &mut [u64; 4],
        at: &mut u64,
    ) -> u64 {
        let mut copies = [Copied::of(rows), Copied::of(messages), Copied::of(pairs)];
        let number = port::read_frames(input, limit, rows, messages, pairs, counts, at);
        let [some, others, more] = copies.each_mut().map(Copied::lent);
        let tables = (Row::table_mut(some), Message::table_mut(others), Pair::table_mut(more));
        let safe = lent::read_frames(input, limit, tables.0, tables.1, tables.2);
        let same = told_of_frames(&safe) == (number, *at, *counts)
            && safe.frames().all(|frame| walked(&frame))
            && owned_frames_so(input, limit, &safe);
        agreed(number, same && copies[0].is(rows) && copies[1].is(messages) && copies[2].is(pairs))
    }

    pub fn read_agent_frame(
        input: &[u8],
        limit: u32,
        pairs: &mut [u64],
        actions: &mut [u64],
        head: &mut [u64; 6],
        at: &mut u64,
    ) -> u64 {
        let (mut some, mut others, before) = (Copied::of(pairs), Copied::of(actions), *head);
        let number = port::read_agent_frame(input, limit, pairs, actions, head, at);
        let tables = (Pair::table_mut(some.lent()), Action::table_mut(others.lent()));
        let safe = lent::read_agent_frame(input, limit, tables.0, tables.1);
        let same = told_of_agent(safe, before) == (number, *at, *head);
        agreed(number, same && some.is(pairs) && others.is(actions))
    }

    pub fn read_frame_records(
        input: &[u8],
        limit: u32,
        messages: &mut [u64],
        pairs: &mut [[u64; PAIR_WIDTH]],
        head: &mut [u64; 6],
        at: &mut u64,
    ) -> u64 {
        let (mut some, mut others, before) = (Copied::of(messages), Copied::of(pairs.as_flattened()), *head);
        let number = port::read_frame_records(input, limit, messages, pairs, head, at);
        let tables = (Message::table_mut(some.lent()), Pair::table_mut(others.lent()));
        let safe = lent::read_frame_records(input, limit, tables.0, tables.1);
        let same = told_of_frame(safe, before) == (number, *at, *head) && safe.map_or(true, |frame| walked(&frame));
        agreed(number, same && some.is(messages) && others.is(pairs.as_flattened()))
    }
}

#[cfg(feature = "port")]
use with_the_crate::*;

#[cfg(feature = "port")]
mod with_the_crate {
    use muleflurry::{ABORT, Answer, Argument, FIN, Metadata, Scope, Value};
    pub use muleflurry::{
        FrameType, Refusal, Text,
        lent::{self, Action, Data, Message, Pair, Row},
        owned,
    };

    // ------------------------------------------------------------ answers

    pub fn agreed(number: u64, same: bool) -> u64 {
        match same {
            true => number,
            false => super::PARTED,
        }
    }

    /// The number of an answer, and what goes with it.
    pub fn told(answer: Result<usize, Refusal>) -> (u64, u64) {
        match answer {
            Ok(count) => (0, count as u64),
            Err(refusal) => (refusal.number, refusal.place as u64),
        }
    }

    /// The same with what is read; after a refusal what stood there before.
    pub fn told_with<T>(answer: Result<(T, usize), Refusal>, before: T) -> (u64, u64, T) {
        match answer {
            Ok((value, used)) => (0, used as u64, value),
            Err(refusal) => (refusal.number, refusal.place as u64, before),
        }
    }

    /// The same with a frame's head.
    pub fn told_of_frame(
        answer: Result<lent::Frame, Answer>,
        before: [u64; 6],
    ) -> (u64, u64, [u64; 6]) {
        let counts = |frame: &lent::Frame| [frame.message_records().len(), frame.pair_records().len()];
        let read = answer.map(|frame| (frame.used(), head(frame.kind(), frame.metadata(), counts(&frame))));
        told_of_head(read, before)
    }

    /// The same of an agent's frame.
    pub fn told_of_agent(
        answer: Result<lent::AgentFrame, Answer>,
        before: [u64; 6],
    ) -> (u64, u64, [u64; 6]) {
        let counts = |frame: &lent::AgentFrame| [frame.pair_records().len(), frame.action_records().len()];
        let read = answer.map(|frame| (frame.used(), head(frame.kind(), frame.metadata(), counts(&frame))));
        told_of_head(read, before)
    }

    /// What stopped the reading of a buffer, and the four counts.
    pub fn told_of_frames(read: &lent::FramesRead) -> (u64, u64, [u64; 4]) {
        let counts = [read.frames().len(), read.message_records().len(), read.pair_records().len(), read.used()];
        let (number, at, _) = told_of_head(Err(read.stopped()), [0; 6]);
        (number, at, counts.map(|count| count as u64))
    }

    fn told_of_head(read: Result<(usize, [u64; 6]), Answer>, before: [u64; 6]) -> (u64, u64, [u64; 6]) {
        match read {
            Ok((used, head)) => (0, used as u64, head),
            Err(Answer::Wait { missing }) => (1, missing as u64, before),
            Err(Answer::Refused(refusal)) => (refusal.number, refusal.place as u64, before),
        }
    }

    fn head(kind: FrameType, metadata: Metadata, counts: [usize; 2]) -> [u64; 6] {
        let flags = if metadata.fin { FIN } else { 0 } + if metadata.abort { ABORT } else { 0 };
        let [first, second] = counts.map(|count| count as u64);
        [kind.number(), flags, metadata.stream_id, metadata.frame_id, first, second]
    }

    // ------------------------------------------------------------ memory

    /// A copy of lent memory, with some behind it that has to stay.
    pub struct Copied<T> {
        area: Vec<T>,
        length: usize,
    }

    impl<T: Copy + PartialEq + From<u8>> Copied<T> {
        const BEHIND: usize = 8;
        const FILL: u8 = 0x5d;

        pub fn of(lent: &[T]) -> Self {
            let mut area = lent.to_vec();
            area.resize(lent.len() + Self::BEHIND, Self::FILL.into());
            Self {
                area,
                length: lent.len(),
            }
        }

        pub fn lent(&mut self) -> &mut [T] {
            &mut self.area[..self.length]
        }

        pub fn is(&self, lent: &[T]) -> bool {
            let (copy, behind) = self.area.split_at(self.length);
            copy == lent && behind.iter().all(|one| *one == Self::FILL.into())
        }
    }

    // ------------------------------------------------------------ what is read

    /// Whether the value is the one that the numbers stand for.
    pub fn stands<B: AsRef<[u8]>>(value: &Value<B>, data: Data, bytes: &[u8]) -> bool {
        let number = |a: u64| data.a == a && data.b == 0;
        let points_at = |part: &[u8]| bytes[data.a as usize..][..data.b as usize] == *part;
        let (kind, same) = match value {
            Value::Null => (0, number(0)),
            Value::Bool(b) => (1, number(u64::from(*b))),
            Value::I32(n) => (2, number(i64::from(*n) as u64)),
            Value::U32(n) => (3, number(u64::from(*n))),
            Value::I64(n) => (4, number(*n as u64)),
            Value::U64(n) => (5, number(*n)),
            Value::Ipv4(address) => (6, points_at(&address.octets())),
            Value::Ipv6(address) => (7, points_at(&address.octets())),
            Value::String(text) => (8, points_at(text.as_bytes())),
            Value::Binary(part) => (9, points_at(part.as_ref())),
        };
        data.kind == kind && same
    }

    pub fn is_pair<B: AsRef<[u8]>>(argument: &Argument<B>, pair: &Pair, bytes: &[u8]) -> bool {
        let key = &bytes[pair.key_start as usize..][..pair.key_len as usize];
        let flags = u64::from(argument.flags) == pair.flags;
        argument.key.as_bytes() == key && flags && stands(&argument.value, pair.data(), bytes)
    }

    pub fn numbers(pair: &Pair) -> [u64; 6] {
        Pair::numbers(std::slice::from_ref(pair))
            .try_into()
            .expect("six numbers")
    }

    fn is_run<B: AsRef<[u8]>>(arguments: &[Argument<B>], pairs: &[Pair], bytes: &[u8]) -> bool {
        let mut sides = arguments.iter().zip(pairs);
        arguments.len() == pairs.len()
            && sides.all(|(argument, pair)| is_pair(argument, pair, bytes))
    }

    /// Whether the frame's iterators give what its records say, in their order.
    pub fn walked(frame: &lent::Frame) -> bool {
        let (bytes, pairs) = (frame.bytes(), frame.pair_records());
        let all: Vec<_> = frame.pairs().collect();
        let runs = frame.messages().zip(frame.message_records());
        frame.messages().len() == frame.message_records().len()
            && is_run(&all, pairs, bytes)
            && runs.into_iter().all(|((name, arguments), record)| {
                let run = &pairs[record.first_pair as usize..][..record.pair_count as usize];
                let named =
                    bytes[record.name_start as usize..][..record.name_len as usize] == *name.0;
                named && is_run(&arguments.collect::<Vec<_>>(), run, bytes)
            })
    }

    /// Whether the crate reads the same into tables of its own, which have room for each frame here.
    pub fn owned_so(
        input: &[u8],
        limit: u32,
        number: u64,
        safe: Result<lent::Frame, Answer>,
    ) -> bool {
        let owned = owned::read_frame(input, limit);
        match (owned, safe) {
            (owned, _) if number == Refusal::TABLE_FULL => owned != Err(safe.unwrap_err()),
            (Ok(owned), Ok(frame)) => is_owned(&owned, &frame),
            (Err(owned), Err(answer)) => owned == answer,
            _ => false,
        }
    }

    /// Whether the crate reads the same frames of a buffer into tables of its own, and goes on where these had no room.
    pub fn owned_frames_so(input: &[u8], limit: u32, safe: &lent::FramesRead) -> bool {
        let owned = owned::read_frames(input, limit);
        let full = matches!(safe.stopped(), Answer::Refused(refusal) if refusal.number == Refusal::TABLE_FULL);
        let all = owned.frames.len() == safe.frames().len();
        owned.frames.iter().zip(safe.frames()).all(|(owned, frame)| is_owned(owned, &frame))
            && match full {
                true => owned.frames.len() > safe.frames().len() || all && owned.stopped != safe.stopped(),
                false => all && (owned.used, owned.stopped) == (safe.used(), safe.stopped()),
            }
    }

    fn is_owned(owned: &owned::Frame, frame: &lent::Frame) -> bool {
        let (bytes, pairs) = (frame.bytes(), frame.pair_records());
        let heads = (owned.kind, owned.metadata, owned.used)
            == (frame.kind(), frame.metadata(), frame.used());
        let mut messages = owned
            .messages
            .iter()
            .zip(frame.messages().zip(frame.message_records()));
        heads
            && owned.messages.len() == frame.messages().len()
            && messages.all(|(message, ((name, _), record))| {
                let run = &pairs[record.first_pair as usize..][..record.pair_count as usize];
                message.name.as_bytes() == name.0 && is_run(&message.arguments, run, bytes)
            })
            && match owned.kind {
                FrameType::Notify => owned.pairs.is_empty(),
                _ => is_run(&owned.pairs, pairs, bytes),
            }
    }

    // ------------------------------------------------------------ what is written

    pub fn metadata([fin, abort]: [bool; 2], [stream_id, frame_id]: [u64; 2]) -> Metadata {
        Metadata {
            fin,
            abort,
            stream_id,
            frame_id,
        }
    }

    /// So many records of a table, where it has them.
    pub fn counted<T>(records: &[T], count: u64) -> Option<&[T]> {
        records.get(..usize::try_from(count).ok()?)
    }

    /// The arguments that the records stand for, where all of them stand for one.
    pub fn arguments(pairs: &[Pair], buffer: &[u8]) -> Option<Vec<owned::Argument>> {
        pairs
            .iter()
            .map(|pair| Some(pair.argument(buffer)?.into()))
            .collect()
    }

    pub fn action(record: &Action, buffer: &[u8]) -> Option<owned::Action> {
        let scope = Scope::from_number(record.scope)?;
        let name = buffer
            .get(record.name_start as usize..)?
            .get(..record.name_len as usize)?;
        let (name, data) = (
            Text(name.to_vec()),
            Data {
                kind: record.kind,
                a: record.a,
                b: record.b,
                flags: record.flags,
            },
        );
        match record.action {
            1 => Some(owned::Action::SetVar {
                scope,
                name,
                value: data.value(buffer)?.into(),
                flags: record.flags as u8,
            }),
            2 if data == Data::null() => Some(owned::Action::UnsetVar { scope, name }),
            _ => None,
        }
    }

    /// The messages that the tables stand for, where their runs follow each other up to the last pair.
    pub fn owned_messages(
        messages: &[Message],
        pairs: &[Pair],
        buffer: &[u8],
    ) -> Option<Vec<owned::Message>> {
        let (mut left, mut end) = (pairs, 0);
        let all = messages.iter().map(|message| {
            let run = (message.first_pair == end).then_some(message.pair_count)?;
            let (run, rest) = left.split_at_checked(usize::try_from(run).ok()?)?;
            (left, end) = (rest, end + run.len() as u64);
            Some(owned::Message {
                name: message.name(buffer)?.into(),
                arguments: arguments(run, buffer)?,
            })
        });
        let all = all.collect::<Option<_>>()?;
        left.is_empty().then_some(all)
    }

    /// Whether a frame that the crate built, if it could, is the one that was written or is refused as that was. Its own output is
    /// never too short.
    pub fn built_so(
        owned: Option<Result<Vec<u8>, Refusal>>,
        number: u64,
        at: u64,
        out: &[u8],
    ) -> bool {
        match owned {
            None => true,
            Some(Ok(frame)) if number == Refusal::NO_ROOM => frame.len() > out.len(),
            Some(Ok(frame)) => number == 0 && frame == out[..at as usize],
            Some(Err(refusal)) => told(Err(refusal)) == (number, at),
        }
    }
}
