//! The port's calls, through the crate `muleflurry` of `bindings/rust`, each in a form that Rust can call safely and that adds nothing
//! to it. These are timed; what is compared goes through `both.rs`.

#[cfg(feature = "port")]
use muleflurry::sys;

/// How many numbers a value has, and each record of a table.
pub const VALUE_WIDTH: usize = 4;
pub const MESSAGE_WIDTH: usize = 4;
pub const PAIR_WIDTH: usize = 6;
pub const ACTION_WIDTH: usize = 8;
pub const ROW_WIDTH: usize = 7;
pub const VERSION_WIDTH: usize = 4;

/// Gives each call its body. A build without the library gets calls that are never to be reached.
macro_rules! calls {
    ($($(#[$note:meta])* pub fn $name:ident($($arg:ident: $kind:ty),* $(,)?) -> $answer:ty $body:block)*) => {
        $(
            $(#[$note])*
            #[cfg(feature = "port")]
            pub fn $name($($arg: $kind),*) -> $answer $body

            $(#[$note])*
            #[cfg(not(feature = "port"))]
            pub fn $name($(_: $kind),*) -> $answer {
                unreachable!("built without the port")
            }
        )*
    };
}

pub(crate) use calls;

calls! {
    pub fn varint_len(n: u64) -> u64 {
        // SAFETY: the call takes a number alone.
        unsafe { sys::spop_varint_len(n) }
    }

    pub fn encode_varint(n: u64, out: &mut [u8], at: &mut u64) -> u64 {
        // SAFETY: the slice is lent with its length, and nothing lent overlaps.
        unsafe { sys::spop_encode_varint(n, out.as_mut_ptr(), out.len(), at) }
    }

    pub fn decode_varint(input: &[u8], value: &mut u64, at: &mut u64) -> u64 {
        // SAFETY: the slice is lent with its length, and nothing lent overlaps.
        unsafe { sys::spop_decode_varint(input.as_ptr(), input.len(), value, at) }
    }

    pub fn is_utf8(bytes: &[u8]) -> bool {
        // SAFETY: the slice is lent with its length.
        unsafe { sys::spop_is_utf8(bytes.as_ptr(), bytes.len()) }
    }

    pub fn same_text(a: &[u8], b: &[u8]) -> bool {
        // SAFETY: each slice is lent with its length.
        unsafe { sys::spop_same_text(a.as_ptr(), a.len(), b.as_ptr(), b.len()) }
    }

    pub fn same_text_plain(
        a: &[u8],
        b: &[u8],
        a_text: &mut [u8],
        b_text: &mut [u8],
        same: &mut bool,
        at: &mut u64,
    ) -> u64 {
        // SAFETY: each slice is lent with its length, and nothing lent overlaps.
        unsafe {
            sys::spop_same_text_plain(
                a.as_ptr(),
                a.len(),
                b.as_ptr(),
                b.len(),
                a_text.as_mut_ptr(),
                a_text.len(),
                b_text.as_mut_ptr(),
                b_text.len(),
                same,
                at,
            )
        }
    }

    pub fn lossy_text(bytes: &[u8], out: &mut [u8], at: &mut u64) -> u64 {
        // SAFETY: each slice is lent with its length, and nothing lent overlaps.
        unsafe { sys::spop_lossy_text(bytes.as_ptr(), bytes.len(), out.as_mut_ptr(), out.len(), at) }
    }

    pub fn typed_data(input: &[u8], value: &mut [u64; VALUE_WIDTH], at: &mut u64) -> u64 {
        // SAFETY: the slice is lent with its length, the record has its numbers, and nothing lent overlaps.
        unsafe { sys::spop_typed_data(input.as_ptr(), input.len(), value, at) }
    }

    pub fn value_len(value: &[u64; VALUE_WIDTH], buffer: &[u8]) -> u64 {
        // SAFETY: the record has its numbers, and the slice is lent with its length.
        unsafe { sys::spop_value_len(value, buffer.as_ptr(), buffer.len()) }
    }

    pub fn check_value(value: &[u64; VALUE_WIDTH], buffer: &[u8]) -> u64 {
        // SAFETY: the record has its numbers, and the slice is lent with its length.
        unsafe { sys::spop_check_value(value, buffer.as_ptr(), buffer.len()) }
    }

    pub fn write_value(value: &[u64; VALUE_WIDTH], buffer: &[u8], out: &mut [u8], at: &mut u64) -> u64 {
        // SAFETY: the record has its numbers, each slice is lent with its length, and nothing lent overlaps.
        unsafe {
            sys::spop_write_value(
                value,
                buffer.as_ptr(),
                buffer.len(),
                out.as_mut_ptr(),
                out.len(),
                at,
            )
        }
    }

    pub fn negotiate_max_frame_size(theirs: u32, ours: u32, at: &mut u64) -> u64 {
        // SAFETY: one number is lent.
        unsafe { sys::spop_negotiate_max_frame_size(theirs, ours, at) }
    }

    pub fn negotiate_version(versions: &[u64], version: &mut [u64; 3]) -> bool {
        // SAFETY: the slice is lent with its length, the version has three numbers, and nothing lent overlaps.
        unsafe { sys::spop_negotiate_version(versions.as_ptr(), versions.len(), version) }
    }

    /// FIN and ABORT are `flags`, the stream's and the frame's number are `ids`.
    #[allow(clippy::too_many_arguments)]
    pub fn write_kv(
        kind: u64,
        flags: [bool; 2],
        ids: [u64; 2],
        limit: u32,
        buffer: &[u8],
        pairs: &[u64],
        count: u64,
        out: &mut [u8],
        at: &mut u64,
    ) -> u64 {
        // SAFETY: each slice is lent with its length, and nothing lent overlaps.
        unsafe {
            sys::spop_write_kv(
                kind,
                flags[0],
                flags[1],
                ids[0],
                ids[1],
                limit,
                buffer.as_ptr(),
                buffer.len(),
                pairs.as_ptr(),
                pairs.len(),
                count,
                out.as_mut_ptr(),
                out.len(),
                at,
            )
        }
    }

    /// FIN and ABORT are `flags`, the stream's and the frame's number are `ids`.
    #[allow(clippy::too_many_arguments)]
    pub fn write_actions(
        flags: [bool; 2],
        ids: [u64; 2],
        limit: u32,
        buffer: &[u8],
        actions: &[u64],
        count: u64,
        out: &mut [u8],
        at: &mut u64,
    ) -> u64 {
        // SAFETY: each slice is lent with its length, and nothing lent overlaps.
        unsafe {
            sys::spop_write_actions(
                flags[0],
                flags[1],
                ids[0],
                ids[1],
                limit,
                buffer.as_ptr(),
                buffer.len(),
                actions.as_ptr(),
                actions.len(),
                count,
                out.as_mut_ptr(),
                out.len(),
                at,
            )
        }
    }

    /// FIN and ABORT are `flags`, the stream's and the frame's number are `ids`.
    #[allow(clippy::too_many_arguments)]
    pub fn write_notify(
        flags: [bool; 2],
        ids: [u64; 2],
        limit: u32,
        buffer: &[u8],
        messages: &[u64],
        message_count: u64,
        pairs: &[u64],
        pair_count: u64,
        out: &mut [u8],
        at: &mut u64,
    ) -> u64 {
        // SAFETY: each slice is lent with its length, and nothing lent overlaps.
        unsafe {
            sys::spop_write_notify(
                flags[0],
                flags[1],
                ids[0],
                ids[1],
                limit,
                buffer.as_ptr(),
                buffer.len(),
                messages.as_ptr(),
                messages.len(),
                message_count,
                pairs.as_ptr(),
                pairs.len(),
                pair_count,
                out.as_mut_ptr(),
                out.len(),
                at,
            )
        }
    }

    pub fn read_pair(input: &[u8], pair: &mut [u64; PAIR_WIDTH], at: &mut u64) -> u64 {
        // SAFETY: the slice is lent with its length, the record has its numbers, and nothing lent overlaps.
        unsafe { sys::spop_read_pair(input.as_ptr(), input.len(), pair, at) }
    }

    pub fn read_frame(
        input: &[u8],
        limit: u32,
        messages: &mut [u64],
        pairs: &mut [u64],
        head: &mut [u64; 6],
        at: &mut u64,
    ) -> u64 {
        // SAFETY: each slice is lent with its length, the head has six numbers, and nothing lent overlaps.
        unsafe {
            sys::spop_read_frame(
                input.as_ptr(),
                input.len(),
                limit,
                messages.as_mut_ptr(),
                messages.len(),
                pairs.as_mut_ptr(),
                pairs.len(),
                head,
                at,
            )
        }
    }

    pub fn read_frames(
        input: &[u8],
        limit: u32,
        rows: &mut [u64],
        messages: &mut [u64],
        pairs: &mut [u64],
        counts: &mut [u64; 4],
        at: &mut u64,
    ) -> u64 {
        // SAFETY: each slice is lent with its length, there are four counts, and nothing lent overlaps.
        unsafe {
            sys::spop_read_frames(
                input.as_ptr(),
                input.len(),
                limit,
                rows.as_mut_ptr(),
                rows.len(),
                messages.as_mut_ptr(),
                messages.len(),
                pairs.as_mut_ptr(),
                pairs.len(),
                counts,
                at,
            )
        }
    }

    pub fn read_agent_frame(
        input: &[u8],
        limit: u32,
        pairs: &mut [u64],
        actions: &mut [u64],
        head: &mut [u64; 6],
        at: &mut u64,
    ) -> u64 {
        // SAFETY: each slice is lent with its length, the head has six numbers, and nothing lent overlaps.
        unsafe {
            sys::spop_read_agent_frame(
                input.as_ptr(),
                input.len(),
                limit,
                pairs.as_mut_ptr(),
                pairs.len(),
                actions.as_mut_ptr(),
                actions.len(),
                head,
                at,
            )
        }
    }

    /// The header's struct of a pair is its numbers in a row.
    pub fn read_frame_records(
        input: &[u8],
        limit: u32,
        messages: &mut [u64],
        pairs: &mut [[u64; PAIR_WIDTH]],
        head: &mut [u64; 6],
        at: &mut u64,
    ) -> u64 {
        // SAFETY: each slice is lent with its length, the head has six numbers, and nothing lent overlaps.
        unsafe {
            sys::spop_read_frame_records(
                input.as_ptr(),
                input.len(),
                limit,
                messages.as_mut_ptr(),
                messages.len(),
                pairs.as_mut_ptr().cast(),
                pairs.len(),
                head,
                at,
            )
        }
    }
}
