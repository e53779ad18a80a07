//! Numbers with a tenth byte above 15. The paper refuses them. The Rust takes that byte modulo 16 and reads on, so its
//! answer is left out where it meets one. Which these are is told by the bytes' places, without adding them up.

use crate::{answers::Answer, inputs::LONGEST, text::Difference};

pub const NOT_FITTING: u64 = 19;

/// The paper's answer where a number that starts at this place has such a byte.
pub fn refusal(input: &[u8], start: usize) -> Option<Answer> {
    let number = input.get(start..)?.first_chunk()?;
    does_not_fit(number).then(|| Answer::new(NOT_FITTING, (start + LONGEST) as u64))
}

/// Whether nine bytes announce the tenth, and that has more than four bits.
fn does_not_fit([first, between @ .., tenth]: &[u8; LONGEST]) -> bool {
    *first >= 240 && between.iter().all(|byte| *byte >= 128) && *tenth > 15
}

/// How many inputs the Rust's answer was left out of: the fixed ones, and the random ones.
pub fn left_out(fixed: u64, drawn: u64) -> String {
    format!("left out for a tenth byte above 15: {fixed} fixed and {drawn} random ones")
}

/// Random inputs without such a number say that they have become too plain.
pub fn not_met(call: &str) -> Difference {
    Difference::in_call(call)
        .row("inputs", "random")
        .row("not met", NOT_FITTING)
}
