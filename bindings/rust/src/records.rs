//! Records: how they are made, what they stand for, and tables of them as the numbers that the calls take.

use crate::{
    sys::{Action, Message, Pair, Row, ACTION_WIDTH, MESSAGE_WIDTH, PAIR_WIDTH, ROW_WIDTH, VALUE_WIDTH},
    ActionType, Argument, Kind, Scope, Text, Value,
};
use core::{mem, ops::Range, slice};

// Starts, lengths and counts are numbers of 64 bits, and the library is built for processors of that width alone.
const _: () = assert!(mem::size_of::<usize>() == mem::size_of::<u64>());

/// Gives a record its ways to numbers and back. All its fields are `u64` and it is `repr(C)`, so it has no padding, and any
/// numbers are one.
macro_rules! table {
    ($record:ident, $width:ident) => {
        const _: () = assert!(mem::size_of::<$record>() == $width * mem::size_of::<u64>());
        const _: () = assert!(mem::align_of::<$record>() == mem::align_of::<u64>());

        impl $record {
            /// The records' numbers, one record after the other.
            pub const fn numbers(records: &[Self]) -> &[u64] {
                // SAFETY: a record is so many `u64` in a row and nothing else, so the same memory is as many of them.
                unsafe { slice::from_raw_parts(records.as_ptr().cast(), records.len() * $width) }
            }

            /// The records' numbers, one record after the other.
            pub fn numbers_mut(records: &mut [Self]) -> &mut [u64] {
                // SAFETY: as above, and the numbers are lent alone as long as the records were.
                unsafe { slice::from_raw_parts_mut(records.as_mut_ptr().cast(), records.len() * $width) }
            }

            /// A table of numbers as records. Numbers that are left over at its end are in none.
            pub const fn table(numbers: &[u64]) -> &[Self] {
                // SAFETY: so many `u64` in a row are a record, whatever they are, and as many records are inside the numbers.
                unsafe { slice::from_raw_parts(numbers.as_ptr().cast(), numbers.len() / $width) }
            }

            /// A table of numbers as records. Numbers that are left over at its end are in none.
            pub fn table_mut(numbers: &mut [u64]) -> &mut [Self] {
                // SAFETY: as above, and the records are lent alone as long as the numbers were.
                unsafe { slice::from_raw_parts_mut(numbers.as_mut_ptr().cast(), numbers.len() / $width) }
            }
        }
    };
}

table!(Pair, PAIR_WIDTH);
table!(Message, MESSAGE_WIDTH);
table!(Action, ACTION_WIDTH);
table!(Row, ROW_WIDTH);

/// A value's four numbers. Of an address, a string and what is binary, `a` is where it starts in a buffer and `b` how many bytes it
/// has; of any other value `a` is the number and `b` is 0.
#[derive(Clone, Copy, Debug, Default, PartialEq, Eq)]
pub struct Data {
    pub kind: u64,
    pub a: u64,
    pub b: u64,
    pub flags: u64,
}

impl Data {
    pub const fn null() -> Self {
        Self::number(Kind::Null, 0)
    }

    pub const fn bool(b: bool) -> Self {
        Self::number(Kind::Bool, b as u64)
    }

    /// A negative number has its sign in all 64 bits.
    pub const fn i32(n: i32) -> Self {
        Self::number(Kind::I32, n as i64 as u64)
    }

    pub const fn u32(n: u32) -> Self {
        Self::number(Kind::U32, n as u64)
    }

    pub const fn i64(n: i64) -> Self {
        Self::number(Kind::I64, n as u64)
    }

    pub const fn u64(n: u64) -> Self {
        Self::number(Kind::U64, n)
    }

    /// An address whose four bytes start there.
    pub const fn ipv4(start: usize) -> Self {
        Self::bytes(Kind::Ipv4, start, 4)
    }

    /// An address whose sixteen bytes start there.
    pub const fn ipv6(start: usize) -> Self {
        Self::bytes(Kind::Ipv6, start, 16)
    }

    pub const fn string(bytes: Range<usize>) -> Self {
        Self::bytes(Kind::String, bytes.start, length(&bytes))
    }

    pub const fn binary(bytes: Range<usize>) -> Self {
        Self::bytes(Kind::Binary, bytes.start, length(&bytes))
    }

    pub const fn with_flags(self, flags: u8) -> Self {
        Self { flags: flags as u64, ..self }
    }

    const fn number(kind: Kind, a: u64) -> Self {
        Self { kind: kind.number(), a, b: 0, flags: 0 }
    }

    const fn bytes(kind: Kind, start: usize, len: usize) -> Self {
        Self { kind: kind.number(), a: start as u64, b: len as u64, flags: 0 }
    }

    pub const fn numbers(self) -> [u64; VALUE_WIDTH] {
        [self.kind, self.a, self.b, self.flags]
    }

    pub const fn of_numbers([kind, a, b, flags]: [u64; VALUE_WIDTH]) -> Self {
        Self { kind, a, b, flags }
    }

    /// The value that the numbers stand for in a buffer. They stand for none where a writer would refuse them, the text of a string
    /// aside.
    pub fn value(self, buffer: &[u8]) -> Option<Value<&[u8]>> {
        let Self { kind, a, b, flags } = self;
        let kind = Kind::from_number(kind)?;
        if flags > if kind == Kind::Bool { 0 } else { 15 } {
            return None;
        }
        Some(match (kind, b) {
            (Kind::Null, 0) if a == 0 => Value::Null,
            (Kind::Bool, 0) if a < 2 => Value::Bool(a == 1),
            (Kind::I32, 0) => Value::I32(i32::try_from(a as i64).ok()?),
            (Kind::U32, 0) => Value::U32(u32::try_from(a).ok()?),
            (Kind::I64, 0) => Value::I64(a as i64),
            (Kind::U64, 0) => Value::U64(a),
            (Kind::Ipv4, _) => Value::Ipv4(<[u8; 4]>::try_from(part(buffer, a, b)?).ok()?.into()),
            (Kind::Ipv6, _) => Value::Ipv6(<[u8; 16]>::try_from(part(buffer, a, b)?).ok()?.into()),
            (Kind::String, _) => Value::String(Text(part(buffer, a, b)?)),
            (Kind::Binary, _) => Value::Binary(part(buffer, a, b)?),
            _ => return None,
        })
    }
}

/// A range that ends before its start has no bytes, as in a `for`.
const fn length(range: &Range<usize>) -> usize {
    range.end.saturating_sub(range.start)
}

/// The bytes that a start and a length point at.
fn part(buffer: &[u8], start: u64, len: u64) -> Option<&[u8]> {
    buffer.get(start as usize..)?.get(..len as usize)
}

impl Pair {
    /// A pair whose key stands there in the buffer.
    pub const fn new(key: Range<usize>, data: Data) -> Self {
        Self {
            key_start: key.start as u64,
            key_len: length(&key) as u64,
            kind: data.kind,
            a: data.a,
            b: data.b,
            flags: data.flags,
        }
    }

    pub const fn of_numbers([key_start, key_len, kind, a, b, flags]: [u64; PAIR_WIDTH]) -> Self {
        Self { key_start, key_len, kind, a, b, flags }
    }

    pub const fn data(&self) -> Data {
        Data { kind: self.kind, a: self.a, b: self.b, flags: self.flags }
    }

    /// The argument that the record stands for in a buffer, if any.
    pub fn argument<'a>(&self, buffer: &'a [u8]) -> Option<Argument<&'a [u8]>> {
        Some(Argument {
            key: Text(part(buffer, self.key_start, self.key_len)?),
            value: self.data().value(buffer)?,
            flags: self.flags as u8,
        })
    }
}

impl Message {
    /// A message whose name stands there in the buffer, and whose arguments are these of the table of pairs.
    pub const fn new(name: Range<usize>, pairs: Range<usize>) -> Self {
        Self {
            name_start: name.start as u64,
            name_len: length(&name) as u64,
            first_pair: pairs.start as u64,
            pair_count: length(&pairs) as u64,
        }
    }

    /// The name that the record has in a buffer, if it is inside.
    pub fn name<'a>(&self, buffer: &'a [u8]) -> Option<Text<&'a [u8]>> {
        part(buffer, self.name_start, self.name_len).map(Text)
    }
}

impl Action {
    /// Sets the variable whose name stands there in the buffer.
    pub const fn set_var(scope: Scope, name: Range<usize>, data: Data) -> Self {
        Self::new(ActionType::SetVar, scope, name, data)
    }

    /// Unsets the variable whose name stands there in the buffer.
    pub const fn unset_var(scope: Scope, name: Range<usize>) -> Self {
        Self::new(ActionType::UnsetVar, scope, name, Data::null())
    }

    const fn new(action: ActionType, scope: Scope, name: Range<usize>, data: Data) -> Self {
        Self {
            action: action.number(),
            scope: scope.number(),
            name_start: name.start as u64,
            name_len: length(&name) as u64,
            kind: data.kind,
            a: data.a,
            b: data.b,
            flags: data.flags,
        }
    }
}
