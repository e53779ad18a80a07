//! The parts of the comparison, one file for each layer of the port.

use crate::{inputs::Random, text::Difference};

pub struct Part {
    pub name: &'static str,
    /// The most rounds, but where the part is named with a number of them.
    pub most: u64,
    /// Compares on the part's fixed inputs and on `rounds` random ones, up to the first difference.
    /// The answer says what was compared.
    pub diff: fn(&mut Random, rounds: u64) -> Result<String, Difference>,
    /// Times each case of the part by `timing::race`.
    pub bench: fn(&mut Random),
    /// The lines of the part's list of the Rust's answers.
    pub list: fn(&mut Random) -> Result<Vec<String>, String>,
}

macro_rules! parts {
    ($($name:ident $(at most $most:literal)?,)*) => {
        $(pub mod $name;)*

        pub const PARTS: &[Part] = &[
            $(Part {
                name: stringify!($name),
                most: [$($most,)? u64::MAX][0],
                diff: $name::diff,
                bench: $name::bench,
                list: $name::list,
            },)*
        ];
    };
}

parts! {
    numbers,
    text,
    values,
    kv,
    actions,
    agent,
    notify,
    frames,
    buffer,
    laws,
    inverse,
    listing at most 1_000,
    hello,
}
