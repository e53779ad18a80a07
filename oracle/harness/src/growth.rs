//! How the port's time grows with a frame: for each byte of a NOTIFY that is read or written, and with the keys of a KV list.

use crate::{answers, port, timing};
use std::hint::black_box;

const LIMIT: u32 = 1_048_576;

/// The records of a NOTIFY, whose names and texts stand in the buffer.
struct Records {
    buffer: Vec<u8>,
    messages: Vec<u64>,
    pairs: Vec<u64>,
}

const NAME: u64 = 8;
const TEXT: u64 = 69;
/// Two length bytes and a type byte beside name and text.
const ARGUMENT: u64 = NAME + TEXT + 3;
const ARGUMENTS: u64 = 200;
/// More than the frame has in front of its messages.
const HEAD: u64 = 32;

impl Records {
    /// Messages of up to 200 arguments, of no more than so many bytes in all. A message has ten bytes beside its arguments, less than
    /// one for each of them.
    fn of(bytes: u64) -> Self {
        let count = bytes / (ARGUMENT + 1);
        let mut records = Self {
            buffer: b"message ".to_vec(),
            messages: Vec::new(),
            pairs: Vec::new(),
        };
        for first in (0..count).step_by(ARGUMENTS as usize) {
            let arguments = ARGUMENTS.min(count - first);
            records.messages.extend([0, NAME, first, arguments]);
            (first..first + arguments).for_each(|index| records.add(index));
        }
        records
    }

    fn add(&mut self, index: u64) {
        let start = self.buffer.len() as u64;
        self.buffer
            .extend_from_slice(format!("slot{index:04}{index:>69}").as_bytes());
        self.pairs.extend([start, NAME, 8, start + NAME, TEXT, 0]);
    }

    fn write(&self, out: &mut [u8]) -> u64 {
        let mut at = 0;
        let number = port::write_notify(
            [true, false],
            [1, 2],
            LIMIT,
            black_box(&self.buffer),
            black_box(&self.messages),
            self.messages.len() as u64 / 4,
            black_box(&self.pairs),
            self.pairs.len() as u64 / 6,
            out,
            &mut at,
        );
        assert!(number == answers::DONE, "the port answers {number}");
        at
    }
}

pub fn bench() {
    for kilobytes in [1, 4, 16, 64, 1024] {
        time_bytes(kilobytes);
    }
    for keys in [4, 16, 64, 256] {
        time_keys(keys);
    }
}

fn time_bytes(kilobytes: u64) {
    let records = Records::of(kilobytes * 1024 - HEAD);
    let mut out = vec![0; LIMIT as usize + 4];
    let length = records.write(&mut out);
    let frame = out[..length as usize].to_vec();
    let written = timing::best_alone(|| _ = black_box(records.write(&mut out)));
    let (mut messages, mut pairs) = (records.messages.clone(), records.pairs.clone());
    let read = timing::best_alone(|| {
        let (mut head, mut at) = ([0; 6], 0);
        let number = port::read_frame(
            black_box(&frame),
            LIMIT,
            &mut messages,
            &mut pairs,
            &mut head,
            &mut at,
        );
        assert!(number == answers::DONE, "the port answers {number}");
        black_box((&messages, &pairs, &head));
    });
    let byte = |time: f64| time / length as f64;
    println!(
        "NOTIFY of {kilobytes} kilobytes: written {:.3} ns a byte, read {:.3}",
        byte(written),
        byte(read)
    );
}

/// A HAPROXY-HELLO whose keys are compared each with each.
fn time_keys(keys: u64) {
    let buffer: Vec<u8> = (0..keys)
        .flat_map(|key| format!("key-{key:04}").into_bytes())
        .collect();
    let table: Vec<u64> = (0..keys)
        .flat_map(|key| [key * 8, 8, 3, key, 0, 0])
        .collect();
    let (mut out, mut at) = (vec![0; 16_384], 0);
    let mut write = || {
        let flags = [true, false];
        let number = port::write_kv(
            1,
            flags,
            [0, 0],
            LIMIT,
            black_box(&buffer),
            black_box(&table),
            keys,
            &mut out,
            &mut at,
        );
        assert!(number == answers::DONE, "the port answers {number}");
        black_box(&out);
    };
    write();
    let written = timing::best_alone(&mut write);
    let frame = out[..at as usize].to_vec();
    let mut pairs = table.clone();
    let read = timing::best_alone(|| {
        let (mut head, mut used) = ([0; 6], 0);
        let number = port::read_frame(
            black_box(&frame),
            LIMIT,
            &mut [],
            &mut pairs,
            &mut head,
            &mut used,
        );
        assert!(number == answers::DONE, "the port answers {number}");
        black_box((&pairs, &head));
    });
    let square = (keys * keys) as f64;
    println!(
        "KV list of {keys} keys: written in {written:.0} ns, {:.3} by the square of the keys; read in {read:.0}, {:.3}",
        written / square,
        read / square
    );
}
