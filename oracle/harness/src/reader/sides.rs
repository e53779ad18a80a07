//! The three sides of a call: the port, the paper and the Rust.

use super::{
    call::Call,
    lent::{self, Reading},
    model::{self, Pair, Read, Refusal, Rooms, TABLE_FULL, TOO_SOON},
    rust::{self, ByRust},
};
use crate::{
    answers::{self, Answer},
    both,
    inputs::LONGEST,
    port::{MESSAGE_WIDTH, PAIR_WIDTH},
    shrink,
    tenth::{self, NOT_FITTING},
    text::{Difference, hex},
};
use spop::parser::parse_key_value_pair;

impl Call {
    fn by_paper(&self) -> Read {
        model::frame(&self.input, self.limit, Rooms::of(self.lengths))
    }

    fn answers(&self) -> [Answer; 3] {
        let paper = self.by_paper();
        [
            self.by_port().answer,
            self.by_records().answer,
            Answer::new(paper.number, paper.at),
        ]
    }

    /// The Rust's tables have no end, so it has no answer 10.
    pub fn by_paper_without_end(&self) -> Read {
        model::frame(&self.input, self.limit, Rooms::ENDLESS)
    }
}

// ---------------------------------------------------------------- frames

fn compare(call: &Call) -> Result<Read, Difference> {
    let (paper, port) = (call.by_paper(), call.by_port());
    let expected = Reading::expected(&paper, call.lengths);
    if port != expected {
        let rows = call.difference().row("port", port);
        return Err(rows.row("paper", expected));
    }
    let records = call.by_records();
    if records != expected {
        let rows = call.difference().row("port, as records", records);
        return Err(rows.row("paper", expected));
    }
    compare_paper(call, &paper)?;
    Ok(paper)
}

/// Holds what the paper reads to the Rust.
pub fn compare_paper(call: &Call, paper: &Read) -> Result<(), Difference> {
    let endless = (paper.number == TABLE_FULL).then(|| call.by_paper_without_end());
    match endless.as_ref().unwrap_or(paper) {
        read if read.number == NOT_FITTING => compare_before_tenth(call, read),
        read => compare_with_rust(call, read),
    }
}

fn compare_with_rust(call: &Call, read: &Read) -> Result<(), Difference> {
    let rust = ByRust::read(&call.input, call.limit);
    if rust.agrees(read, &call.input) {
        return Ok(());
    }
    // The tables of the difference have room for all that was read.
    let lengths = [
        MESSAGE_WIDTH * read.messages.len(),
        PAIR_WIDTH * read.pairs.len(),
    ];
    let expected = Reading::expected(read, lengths);
    let rows = call
        .difference()
        .row("rust", format!("{}; {:?}", rust.answer, rust.content));
    Err(rows.row("paper", expected))
}

/// The Rust takes a tenth byte above 15. That it comes to that byte, and reads all before it as the paper does, shows in
/// the frame that ends before it, where the byte is missing.
fn compare_before_tenth(call: &Call, read: &Read) -> Result<(), Difference> {
    let end = before_tenth(&call.input, read.at);
    let length = (end - 4) as u32;
    let cut = Call {
        input: [&length.to_be_bytes(), &call.input[4..end]].concat(),
        ..call.clone()
    };
    let short = cut.by_paper_without_end();
    assert_eq!([short.number, short.at], [TOO_SOON, end as u64]);
    compare_with_rust(&cut, &short)
}

/// Where the byte stands that is refused with 19 at this place. The ten bytes up to the place are such a number.
fn before_tenth(input: &[u8], at: u64) -> usize {
    let end = at as usize;
    let number = tenth::refusal(&input[..end], end - LONGEST);
    assert_eq!(number, Some(Answer::new(NOT_FITTING, at)));
    end - 1
}

/// Whether the Rust meets a tenth byte above 15, also where the paper's tables are full before it.
pub fn is_left_out(call: &Call, paper: &Read) -> bool {
    match paper.number {
        TABLE_FULL => call.by_paper_without_end().number == NOT_FITTING,
        number => number == NOT_FITTING,
    }
}

/// Compares the three sides. Of a difference the smallest call is shown that can be found.
pub fn checked(call: &Call) -> Result<Read, Difference> {
    let differs = |less: &Call| compare(less).is_err();
    compare(call).or_else(|_| compare(&call.smaller(differs, Call::answers)))
}

// ---------------------------------------------------------------- pairs

pub type PairRead = Result<(Pair, u64), Refusal>;

/// Compares the three sides on a pair, and answers what the paper reads.
pub fn checked_pair(input: &[u8]) -> Result<PairRead, Difference> {
    match pair_differs(input) {
        true => Err(pair_difference(input)),
        false => Ok(model::pair(input)),
    }
}

fn pair_differs(input: &[u8]) -> bool {
    let paper = model::pair(input);
    if pair_by_port(input) != expected_pair(&paper) {
        return true;
    }
    let (bytes, right) = pair_for_rust(input, paper);
    !rust_agrees_on_pair(bytes, &right)
}

/// The bytes that the Rust is given, and what it has to answer: as with frames, those before a tenth byte above 15.
fn pair_for_rust(input: &[u8], paper: PairRead) -> (&[u8], PairRead) {
    match paper {
        Err((NOT_FITTING, at)) => {
            let end = before_tenth(input, at);
            (&input[..end], Err((TOO_SOON, end as u64)))
        }
        _ => (input, paper),
    }
}

fn pair_by_port(input: &[u8]) -> (Answer, Pair) {
    let (mut pair, [mut at]) = (lent::pattern(), lent::pattern());
    let number = both::read_pair(input, &mut pair, &mut at);
    (Answer::new(number, at), pair)
}

fn expected_pair(paper: &PairRead) -> (Answer, Pair) {
    match *paper {
        Ok((pair, used)) => (Answer::new(answers::DONE, used), pair),
        Err((number, at)) => (Answer::new(number, at), lent::pattern()),
    }
}

fn rust_agrees_on_pair(input: &[u8], paper: &PairRead) -> bool {
    let (expected, record) = expected_pair(paper);
    match parse_key_value_pair(input) {
        Ok((rest, (key, value))) => {
            answers::accepted(input, rest) == expected
                && rust::same_pair(&key, &value, &record, input)
        }
        Err(error) => answers::refused(input, error) == expected,
    }
}

fn pair_difference(input: &[u8]) -> Difference {
    let input = &shrink::bytes(input, pair_differs);
    let paper = model::pair(input);
    let (for_rust, _) = pair_for_rust(input, paper);
    let show = |(answer, pair): (Answer, Pair)| format!("{answer}; pair {}", lent::changed(&pair));
    Difference::in_call("read_pair")
        .row("input", hex(input))
        .row("port", show(pair_by_port(input)))
        .row("paper", show(expected_pair(&paper)))
        .row("rust", format!("{:?}", parse_key_value_pair(for_rust)))
}
