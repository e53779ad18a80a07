//! The calls under their C names, as `include/spop.h` has them, and the records of their tables. `tools/boundary` makes both.
//!
//! A slice is lent as its pointer and how many elements it has. No pointer may be null, which the pointer of an empty slice is not,
//! and what a call may change must not overlap what else is lent to it. Every call answers a number, 0 for done, unless its line in
//! the header says otherwise, and sets `at` to what goes with it. [`crate::lent`] has the same calls in a form that is safe.

/// How many numbers a value has, and each record of a table.
pub const VALUE_WIDTH: usize = 4;
pub const MESSAGE_WIDTH: usize = 4;
pub const PAIR_WIDTH: usize = 6;
pub const ACTION_WIDTH: usize = 8;
pub const ROW_WIDTH: usize = 7;
pub const VERSION_WIDTH: usize = 4;

/// A pair's six numbers. `kind`, `a`, `b` and `flags` are its value's, as in [`crate::lent::Data`].
#[repr(C)]
#[derive(Clone, Copy, Debug, Default, PartialEq, Eq)]
pub struct Pair {
    pub key_start: u64,
    pub key_len: u64,
    pub kind: u64,
    pub a: u64,
    pub b: u64,
    pub flags: u64,
}

/// A message's four numbers. Its first pair is how many pairs the messages before it have.
#[repr(C)]
#[derive(Clone, Copy, Debug, Default, PartialEq, Eq)]
pub struct Message {
    pub name_start: u64,
    pub name_len: u64,
    pub first_pair: u64,
    pub pair_count: u64,
}

/// An action's eight numbers. An unset has 0 for the last four.
#[repr(C)]
#[derive(Clone, Copy, Debug, Default, PartialEq, Eq)]
pub struct Action {
    pub action: u64,
    pub scope: u64,
    pub name_start: u64,
    pub name_len: u64,
    pub kind: u64,
    pub a: u64,
    pub b: u64,
    pub flags: u64,
}

/// A row's seven numbers: a frame of a buffer, by where it starts there, its bytes, and its records. `first` is an index into the table
/// of messages for a NOTIFY, and else into that of pairs, and `count` says how many it has there.
#[repr(C)]
#[derive(Clone, Copy, Debug, Default, PartialEq, Eq)]
pub struct Row {
    pub start: u64,
    pub used: u64,
    pub kind: u64,
    pub stream_id: u64,
    pub frame_id: u64,
    pub first: u64,
    pub count: u64,
}

extern "C" {
    pub fn spop_varint_len(n: u64) -> u64;

    pub fn spop_encode_varint(n: u64, out: *mut u8, out_len: usize, at: *mut u64) -> u64;

    pub fn spop_decode_varint(input: *const u8, input_len: usize, value: *mut u64, at: *mut u64) -> u64;

    pub fn spop_is_utf8(bytes: *const u8, bytes_len: usize) -> bool;

    pub fn spop_same_text(a: *const u8, a_len: usize, b: *const u8, b_len: usize) -> bool;

    pub fn spop_same_text_plain(
        a: *const u8,
        a_len: usize,
        b: *const u8,
        b_len: usize,
        a_text: *mut u8,
        a_text_len: usize,
        b_text: *mut u8,
        b_text_len: usize,
        same: *mut bool,
        at: *mut u64,
    ) -> u64;

    pub fn spop_lossy_text(bytes: *const u8, bytes_len: usize, out: *mut u8, out_len: usize, at: *mut u64) -> u64;

    pub fn spop_typed_data(input: *const u8, input_len: usize, value: *mut [u64; VALUE_WIDTH], at: *mut u64) -> u64;

    pub fn spop_value_len(value: *const [u64; VALUE_WIDTH], buffer: *const u8, buffer_len: usize) -> u64;

    pub fn spop_check_value(value: *const [u64; VALUE_WIDTH], buffer: *const u8, buffer_len: usize) -> u64;

    pub fn spop_write_value(
        value: *const [u64; VALUE_WIDTH],
        buffer: *const u8,
        buffer_len: usize,
        out: *mut u8,
        out_len: usize,
        at: *mut u64,
    ) -> u64;

    pub fn spop_read_pair(input: *const u8, input_len: usize, pair: *mut [u64; PAIR_WIDTH], at: *mut u64) -> u64;

    pub fn spop_read_frame(
        input: *const u8,
        input_len: usize,
        limit: u32,
        messages: *mut u64,
        messages_len: usize,
        pairs: *mut u64,
        pairs_len: usize,
        head: *mut [u64; 6],
        at: *mut u64,
    ) -> u64;

    pub fn spop_read_frame_records(
        input: *const u8,
        input_len: usize,
        limit: u32,
        messages: *mut u64,
        messages_len: usize,
        pairs: *mut Pair,
        pairs_len: usize,
        head: *mut [u64; 6],
        at: *mut u64,
    ) -> u64;

    pub fn spop_read_agent_frame(
        input: *const u8,
        input_len: usize,
        limit: u32,
        pairs: *mut u64,
        pairs_len: usize,
        actions: *mut u64,
        actions_len: usize,
        head: *mut [u64; 6],
        at: *mut u64,
    ) -> u64;

    pub fn spop_read_frames(
        input: *const u8,
        input_len: usize,
        limit: u32,
        rows: *mut u64,
        rows_len: usize,
        messages: *mut u64,
        messages_len: usize,
        pairs: *mut u64,
        pairs_len: usize,
        counts: *mut [u64; 4],
        at: *mut u64,
    ) -> u64;

    pub fn spop_write_kv(
        kind: u64,
        fin: bool,
        abort: bool,
        stream_id: u64,
        frame_id: u64,
        limit: u32,
        buffer: *const u8,
        buffer_len: usize,
        pairs: *const u64,
        pairs_len: usize,
        pair_count: u64,
        out: *mut u8,
        out_len: usize,
        at: *mut u64,
    ) -> u64;

    pub fn spop_write_actions(
        fin: bool,
        abort: bool,
        stream_id: u64,
        frame_id: u64,
        limit: u32,
        buffer: *const u8,
        buffer_len: usize,
        actions: *const u64,
        actions_len: usize,
        action_count: u64,
        out: *mut u8,
        out_len: usize,
        at: *mut u64,
    ) -> u64;

    pub fn spop_write_notify(
        fin: bool,
        abort: bool,
        stream_id: u64,
        frame_id: u64,
        limit: u32,
        buffer: *const u8,
        buffer_len: usize,
        messages: *const u64,
        messages_len: usize,
        message_count: u64,
        pairs: *const u64,
        pairs_len: usize,
        pair_count: u64,
        out: *mut u8,
        out_len: usize,
        at: *mut u64,
    ) -> u64;

    pub fn spop_negotiate_max_frame_size(theirs: u32, ours: u32, at: *mut u64) -> u64;

    pub fn spop_negotiate_version(versions: *const u64, versions_len: usize, version: *mut [u64; 3]) -> bool;
}
