//! KV frames: the port's pairs in their order, the Rust's as the set that its map holds.

use crate::{
    answers::Answer,
    both,
    inputs::{self, Random},
    port::{self, PAIR_WIDTH},
    reader::back::{Writer, Written},
    records::{
        self, Frame, NOT_WRITABLE, OUTSIDE, Payload, REPEATED, ROW, Wrote, encoding, flags_of,
    },
    shrink::{self, Fields},
    text::Difference,
    timing,
};
use spop::{
    frame::{FrameFlags, FrameType, Metadata},
    types::TypedData,
};
use std::{collections::HashMap, hint::black_box};

/// The most pairs that are drawn, and below how many a few long lists stay.
const MOST: usize = 6;
const MANY: usize = 200;

#[derive(Clone, Debug, PartialEq)]
pub struct Call {
    kind: u64,
    fin: bool,
    abort: bool,
    stream: u64,
    frame: u64,
    limit: u32,
    buffer: Vec<u8>,
    pairs: Vec<u64>,
    count: u64,
    room: usize,
}

impl Writer for Call {
    fn by_port(&self) -> Wrote {
        Wrote::by_port(self.room, |out, at| {
            both::write_kv(
                self.kind,
                [self.fin, self.abort],
                [self.stream, self.frame],
                self.limit,
                &self.buffer,
                &self.pairs,
                self.count,
                out,
                at,
            )
        })
    }

    fn records(&self) -> Written<'_> {
        Written {
            kind: self.kind,
            fin: self.fin,
            abort: self.abort,
            ids: [self.stream, self.frame],
            limit: self.limit,
            spare: [0, 0],
            buffer: &self.buffer,
            messages: &[],
            pairs: &self.pairs[..PAIR_WIDTH * self.count as usize],
        }
    }
}

impl Call {
    /// Refusals are a plain reading of the paper; the bytes are the Rust's, a pair's after the other.
    fn by_rust(&self) -> Wrote {
        Wrote::expected(self.expected(), self.limit, self.room)
    }

    fn frame_type(&self) -> Result<FrameType, (u64, u64)> {
        let handshake = self.fin && !self.abort && self.stream == 0 && self.frame == 0;
        match self.kind {
            1 => Ok(FrameType::HaproxyHello),
            2 => Ok(FrameType::HaproxyDisconnect),
            101 if handshake => Ok(FrameType::AgentHello),
            102 if handshake => Ok(FrameType::AgentDisconnect),
            _ => Err((NOT_WRITABLE, 0)),
        }
    }

    fn expected(&self) -> Result<Vec<u8>, (u64, u64)> {
        let kind = self.frame_type()?;
        if self.count > (self.pairs.len() / PAIR_WIDTH) as u64 {
            return Err((OUTSIDE, 0));
        }
        let mut pairs: Vec<(String, TypedData)> = Vec::new();
        for (index, record) in self.rows().enumerate() {
            let pair = self.pair(record, &pairs);
            pairs.push(pair.map_err(|number| (number, index as u64))?);
        }
        Ok(self.written(kind, pairs))
    }

    /// Whether no value has flags, so that the bytes are the Rust's alone.
    fn is_plain(&self) -> bool {
        self.rows().all(|row| flags_of(row) == 0)
    }

    fn rows(&self) -> impl Iterator<Item = &[u64]> {
        self.pairs.chunks_exact(PAIR_WIDTH).take(self.count as usize)
    }

    fn pair(
        &self,
        record: &[u64],
        earlier: &[(String, TypedData)],
    ) -> Result<(String, TypedData), u64> {
        let (key, value) = records::pair(record, &self.buffer)?;
        if earlier.iter().any(|(other, _)| *other == key) {
            return Err(REPEATED);
        }
        Ok((key, value))
    }

    /// The Rust's header, and the encodings of the pairs in the records' order, with the values' flags. The Rust's own
    /// payload has to be the same encodings in its map's order, without flags.
    fn written(&self, kind: FrameType, pairs: Vec<(String, TypedData)>) -> Vec<u8> {
        let encodings: Vec<Vec<u8>> = pairs
            .iter()
            .map(|(key, value)| encoding(key, value))
            .collect();
        let flagged: Vec<Vec<u8>> = pairs
            .iter()
            .zip(self.rows())
            .map(|((key, value), row)| records::flagged(key, value, flags_of(row)))
            .collect();
        let map: HashMap<String, TypedData> = pairs.into_iter().collect();
        let order: Vec<Vec<u8>> = map
            .iter()
            .map(|(key, value)| encoding(key, value))
            .collect();
        let frame = Frame {
            kind,
            metadata: Metadata {
                flags: FrameFlags::new(self.fin, self.abort),
                stream_id: self.stream,
                frame_id: self.frame,
            },
            payload: Payload::Pairs(map),
        };
        let mut whole = frame.written();
        let payload: usize = encodings.iter().map(Vec::len).sum();
        let head = whole.len() - payload;
        let mut sides = [encodings.clone(), order];
        sides.iter_mut().for_each(|side| side.sort());
        let parts = cut(&whole[head..], &encodings);
        assert!(
            sides[0] == sides[1] && parts,
            "the Rust's payload is not its pairs"
        );
        whole.truncate(head);
        whole.extend(flagged.concat());
        whole
    }
}

/// Whether the bytes are these encodings in some order. Keys differ, so no encoding starts another.
fn cut(mut bytes: &[u8], encodings: &[Vec<u8>]) -> bool {
    let mut left: Vec<&Vec<u8>> = encodings.iter().collect();
    while !bytes.is_empty() {
        let Some(place) = left.iter().position(|one| bytes.starts_with(one)) else {
            return false;
        };
        bytes = &bytes[left.swap_remove(place).len()..];
    }
    left.is_empty()
}

// ---------------------------------------------------------------- comparing

/// Answers the length of the frame, where one was written.
fn compare(call: &Call) -> Result<Option<usize>, Difference> {
    let (port, rust) = (call.by_port(), call.by_rust());
    if port == rust {
        let length = port.length();
        // The port reads its own frame: the pairs come back in order, or the flags or the type are refused.
        length.map_or(Ok(()), |length| {
            call.records().read_back(&port.area, length, call)
        })?;
        return Ok(length);
    }
    let sides = [("port", &port), ("rust", &rust)];
    Err(records::difference("write_kv", call, sides))
}

pub fn diff(random: &mut Random, rounds: u64) -> Result<String, Difference> {
    let (mut done, mut plain) = (0, 0);
    for _ in 0..rounds {
        let mut call = drawn(random);
        if let Some(length) = checked(&call)? {
            done += 1;
            plain += u64::from(call.is_plain());
            records::to_an_edge(random, length, &mut call.limit, &mut call.room);
            checked(&call)?;
        }
    }
    Ok(format!(
        "{rounds} rounds, {done} of them with a frame written and read back, {plain} of these without a flag, as the Rust writes them"
    ))
}

fn checked(call: &Call) -> Result<Option<usize>, Difference> {
    compare(call).or_else(|_| compare(&shrink::call(call)))
}

impl shrink::Call for Call {
    fn differing(&self) -> Option<[Answer; 2]> {
        let answers = [self.by_port().answer, self.by_rust().answer];
        compare(self).is_err().then_some(answers)
    }

    fn length(&self) -> Option<usize> {
        self.expected().ok().map(|frame| frame.len())
    }

    fn with_less(&self) -> Vec<Call> {
        let fewer = shrink::table(&self.pairs, self.count, PAIR_WIDTH);
        let fewer = fewer.into_iter().map(|(pairs, count)| Call {
            pairs,
            count,
            ..self.clone()
        });
        let plainer = (self.kind != 1).then(|| Call {
            kind: 1,
            ..self.clone()
        });
        fewer.chain(plainer).collect()
    }

    fn fields(&mut self) -> Fields<'_> {
        Fields {
            flags: [&mut self.fin, &mut self.abort],
            limit: &mut self.limit,
            buffer: &mut self.buffer,
            room: &mut self.room,
            numbers: [&mut self.stream, &mut self.frame, &mut self.count]
                .into_iter()
                .chain(&mut self.pairs)
                .collect(),
        }
    }
}

fn drawn(random: &mut Random) -> Call {
    let buffer = records::contents(random);
    let room = buffer.len() as u64;
    let rows = random.index(MOST + 1);
    let mut pairs = drawn_pairs(random, rows, room);
    pairs.extend((0..random.index(PAIR_WIDTH)).map(|_| random.below(3)));
    let kind = [1, 1, 2, 101, 102, 3, 103, 0, 256][random.index(9)];
    let plain = random.below(4) > 0;
    Call {
        kind,
        fin: plain || random.below(2) == 0,
        abort: !plain && random.below(2) == 0,
        stream: if plain && kind > 100 {
            0
        } else {
            inputs::number(random)
        },
        frame: if plain && kind > 100 {
            0
        } else {
            inputs::number(random)
        },
        limit: match random.below(8) {
            0 => random.below(60) as u32,
            1 => u32::MAX,
            _ => 16_384,
        },
        buffer,
        count: match random.below(16) {
            0 => inputs::number(random),
            1 => rows as u64 + 1,
            _ => random.below(rows as u64 + 1).max(rows as u64 / 2),
        },
        pairs,
        room: match random.below(8) {
            0 => random.index(60),
            _ => 400,
        },
    }
}

fn drawn_pairs(random: &mut Random, rows: usize, room: u64) -> Vec<u64> {
    let mut pairs = Vec::new();
    for _ in 0..rows {
        let (start, length) = records::drawn_part(random, room);
        pairs.extend([start, length]);
        pairs.extend(records::drawn_value(random, room));
    }
    pairs
}

/// A frame of type 1 or 2 with FIN alone, of those records out of some that can be written together.
pub fn right(random: &mut Random) -> Call {
    let mut call = Call {
        kind: random.within(1, 2),
        fin: true,
        abort: false,
        limit: 16_384,
        ..drawn(random)
    };
    let rows = match random.below(32) {
        0 => random.index(MANY),
        _ => random.index(MOST + 2),
    };
    call.pairs.clear();
    let mut earlier = Vec::new();
    for record in drawn_pairs(random, rows, call.buffer.len() as u64).chunks_exact(PAIR_WIDTH) {
        if let Ok(pair) = call.pair(record, &earlier) {
            earlier.push(pair);
            call.pairs.extend(record);
        }
    }
    call.count = earlier.len() as u64;
    call.room = ROW * (1 + rows);
    call
}

// ---------------------------------------------------------------- timing

pub fn bench(_: &mut Random) {
    let call = Call {
        kind: 101,
        fin: true,
        abort: false,
        stream: 0,
        frame: 0,
        limit: 16_384,
        buffer: b"versionmax-frame-sizecapabilities2.0".to_vec(),
        pairs: vec![
            0, 7, 8, 33, 3, 0, 7, 14, 3, 16_380, 0, 0, 21, 12, 8, 0, 0, 0,
        ],
        count: 3,
        room: 256,
    };
    let (mut lent, mut at) = (vec![0; call.room], 0);
    let port = || {
        let call = black_box(&call);
        black_box(port::write_kv(
            call.kind,
            [call.fin, call.abort],
            [call.stream, call.frame],
            call.limit,
            &call.buffer,
            &call.pairs,
            call.count,
            &mut lent,
            &mut at,
        ));
        black_box((&lent, &at));
    };
    let map = HashMap::from([
        ("version".to_string(), TypedData::String("2.0".into())),
        ("max-frame-size".to_string(), TypedData::UInt32(16_380)),
        ("capabilities".to_string(), TypedData::String(String::new())),
    ]);
    let frame = Frame {
        kind: FrameType::AgentHello,
        metadata: Metadata {
            flags: FrameFlags::new(true, false),
            stream_id: 0,
            frame_id: 0,
        },
        payload: Payload::Pairs(map),
    };
    let floor = timing::copying(call.expected().expect("this frame is written"));
    timing::race_above("write_kv, AGENT-HELLO", 1, port, frame.race(), floor);
}

/// The writers' answers are the paper's and the Rust's map has no order, so there is no list of them.
pub fn list(_: &mut Random) -> Result<Vec<String>, String> {
    Ok(Vec::new())
}
