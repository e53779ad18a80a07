//! Names, keys and values, over lent bytes (`&[u8]`) or their own (`Vec<u8>`).

use crate::Kind;
use core::{
    fmt::{self, Write},
    net::{Ipv4Addr, Ipv6Addr},
    str::{self, Utf8Error},
};

/// The bytes of a name, a key or a string. A reader takes any bytes, a writer only UTF-8.
///
/// It is compared by its bytes, and shown as its lossy text: each maximal subpart of an ill-formed sequence is U+FFFD.
#[derive(Clone, Copy, Default, PartialEq, Eq, PartialOrd, Ord, Hash)]
pub struct Text<B>(pub B);

impl<B: AsRef<[u8]>> Text<B> {
    pub fn as_bytes(&self) -> &[u8] {
        self.0.as_ref()
    }

    /// The text, where it is well-formed.
    pub fn as_str(&self) -> Result<&str, Utf8Error> {
        str::from_utf8(self.as_bytes())
    }
}

impl<B: AsRef<[u8]>> fmt::Display for Text<B> {
    fn fmt(&self, out: &mut fmt::Formatter<'_>) -> fmt::Result {
        for chunk in self.as_bytes().utf8_chunks() {
            out.write_str(chunk.valid())?;
            if !chunk.invalid().is_empty() {
                out.write_char(char::REPLACEMENT_CHARACTER)?;
            }
        }
        Ok(())
    }
}

/// Each byte shows, also where the text is ill-formed.
impl<B: AsRef<[u8]>> fmt::Debug for Text<B> {
    fn fmt(&self, out: &mut fmt::Formatter<'_>) -> fmt::Result {
        write!(out, "\"{}\"", self.as_bytes().escape_ascii())
    }
}

impl<B: AsRef<[u8]>> PartialEq<str> for Text<B> {
    fn eq(&self, other: &str) -> bool {
        self.as_bytes() == other.as_bytes()
    }
}

impl<B: AsRef<[u8]>> PartialEq<&str> for Text<B> {
    fn eq(&self, other: &&str) -> bool {
        *self == **other
    }
}

/// A value. It is shown as a number in decimal, `true` or `false`, `null`, an address in its usual notation, a lossy text, or
/// hex for what is binary.
#[derive(Clone, Copy, Debug, PartialEq, Eq, Hash)]
pub enum Value<B: AsRef<[u8]>> {
    Null,
    Bool(bool),
    I32(i32),
    U32(u32),
    I64(i64),
    U64(u64),
    Ipv4(Ipv4Addr),
    Ipv6(Ipv6Addr),
    String(Text<B>),
    Binary(B),
}

impl<B: AsRef<[u8]>> Value<B> {
    pub const fn kind(&self) -> Kind {
        match self {
            Self::Null => Kind::Null,
            Self::Bool(_) => Kind::Bool,
            Self::I32(_) => Kind::I32,
            Self::U32(_) => Kind::U32,
            Self::I64(_) => Kind::I64,
            Self::U64(_) => Kind::U64,
            Self::Ipv4(_) => Kind::Ipv4,
            Self::Ipv6(_) => Kind::Ipv6,
            Self::String(_) => Kind::String,
            Self::Binary(_) => Kind::Binary,
        }
    }

    /// The same value over other bytes.
    pub fn map<C: AsRef<[u8]>>(self, bytes: impl FnOnce(B) -> C) -> Value<C> {
        match self {
            Self::Null => Value::Null,
            Self::Bool(b) => Value::Bool(b),
            Self::I32(n) => Value::I32(n),
            Self::U32(n) => Value::U32(n),
            Self::I64(n) => Value::I64(n),
            Self::U64(n) => Value::U64(n),
            Self::Ipv4(address) => Value::Ipv4(address),
            Self::Ipv6(address) => Value::Ipv6(address),
            Self::String(text) => Value::String(Text(bytes(text.0))),
            Self::Binary(binary) => Value::Binary(bytes(binary)),
        }
    }
}

impl<B: AsRef<[u8]>> fmt::Display for Value<B> {
    fn fmt(&self, out: &mut fmt::Formatter<'_>) -> fmt::Result {
        match self {
            Self::Null => out.write_str("null"),
            Self::Bool(b) => b.fmt(out),
            Self::I32(n) => n.fmt(out),
            Self::U32(n) => n.fmt(out),
            Self::I64(n) => n.fmt(out),
            Self::U64(n) => n.fmt(out),
            Self::Ipv4(address) => address.fmt(out),
            Self::Ipv6(address) => address.fmt(out),
            Self::String(text) => text.fmt(out),
            Self::Binary(bytes) => bytes.as_ref().iter().try_for_each(|byte| write!(out, "{byte:02x}")),
        }
    }
}

/// An argument of a message, or a pair of a KV list: a key and a value.
#[derive(Clone, Copy, Debug, PartialEq, Eq, Hash)]
pub struct Argument<B: AsRef<[u8]>> {
    pub key: Text<B>,
    pub value: Value<B>,
    /// The upper four bits of the value's type byte, 0 to 15, which SPOP leaves unused; 0 for a bool.
    pub flags: u8,
}
