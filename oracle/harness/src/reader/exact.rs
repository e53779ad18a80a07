//! Whether every number inside an accepted frame of HAProxy's has exactly the bytes that it is written as, its value plain
//! or not, and each part of the frame stands right behind the one before it.

use crate::port::{MESSAGE_WIDTH, PAIR_WIDTH};
use spop::varint::{decode_varint, encode_varint_into};

/// Goes through the frame by its records, as far as the bytes are those.
pub fn is_exact(input: &[u8], used: u64, head: &[u64; 6], [messages, pairs]: [&[u64]; 2]) -> bool {
    let mut frame = Frame { input, at: 9 };
    frame.holds(head, messages, pairs).is_some() && frame.at as u64 == used
}

struct Frame<'a> {
    input: &'a [u8],
    at: usize,
}

impl Frame<'_> {
    fn holds(&mut self, head: &[u64; 6], messages: &[u64], pairs: &[u64]) -> Option<()> {
        self.number(head[2])?;
        self.number(head[3])?;
        let mut pairs = pairs.chunks_exact(PAIR_WIDTH);
        for message in messages.chunks_exact(MESSAGE_WIDTH) {
            self.string(message[0], message[1])?;
            self.bytes(&[u8::try_from(message[3]).ok()?])?;
            for _ in 0..message[3] {
                self.pair(pairs.next()?)?;
            }
        }
        pairs.try_for_each(|pair| self.pair(pair))
    }

    fn pair(&mut self, pair: &[u64]) -> Option<()> {
        let [start, length, kind, a, b, flags] = *pair.first_chunk()?;
        self.string(start, length)?;
        let first = *self.input.get(self.at)?;
        self.at += 1;
        // A bool has the lowest flag for its number, and none is kept.
        let is_first = kind == 1 || u64::from(first) == kind + 16 * flags;
        if !is_first {
            return None;
        }
        match kind {
            2..=5 => {
                let (_, number) = decode_varint(self.input.get(self.at..)?).ok()?;
                let kept = if kind < 4 { number as u32 == a as u32 } else { number == a };
                self.number(number).filter(|()| kept)
            }
            6 | 7 => self.part(a, b),
            8 | 9 => self.string(a, b),
            _ => Some(()),
        }
    }

    /// A length number, and right behind it as many bytes.
    fn string(&mut self, start: u64, length: u64) -> Option<()> {
        self.number(length)?;
        self.part(start, length)
    }

    fn part(&mut self, start: u64, length: u64) -> Option<()> {
        let is_here = self.at as u64 == start;
        self.at = self.at.checked_add(usize::try_from(length).ok()?)?;
        is_here.then_some(())
    }

    /// This number, as it is written.
    fn number(&mut self, number: u64) -> Option<()> {
        let mut written = Vec::new();
        encode_varint_into(number, &mut written);
        self.bytes(&written)
    }

    fn bytes(&mut self, bytes: &[u8]) -> Option<()> {
        let is_here = self.input.get(self.at..)?.starts_with(bytes);
        self.at += bytes.len();
        is_here.then_some(())
    }
}
