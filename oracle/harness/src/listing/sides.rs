//! The two sides of a listing: the program and the Rust, or of agents' frames the plain reading.

use super::{
    lines::{self, Listing, Sender},
    program::{Program, Ran},
    sent::{self, Ack},
    smaller,
};
use crate::text::{Difference, hex};

/// Of a line that is longer, so many characters before and behind the first that differs are shown.
const AROUND: usize = 80;

/// Compares the sides. Of a difference the smallest input is shown that can be found.
pub fn checked(program: &Program, sender: Sender, input: &[u8]) -> Result<Listing, Difference> {
    compare(program, sender, &[input]).map_err(|first| {
        let less = smaller::input(input, |less| compare(program, sender, &[less]).is_err());
        compare(program, sender, &[&less]).err().unwrap_or(first)
    })
}

/// Compares the sides on an input that comes in parts.
pub fn compare(program: &Program, sender: Sender, parts: &[&[u8]]) -> Result<Listing, Difference> {
    let listing = lines::of(sender, &parts.concat());
    let ran = program.run(sender.words(), parts);
    let names = match sender {
        Sender::Haproxy => ["spoplist", "rust"],
        Sender::Agent => ["spoplist agent", "paper"],
    };
    match ran == Ran::right(&listing.text) {
        true => Ok(listing),
        false => Err(difference(names, parts, &ran, &listing.text)),
    }
}

/// Compares the sides on ACKs that the Rust wrote, and both with lines that are told from its actions.
pub fn written(program: &Program, acks: &[Ack]) -> Result<Listing, Difference> {
    let input: Vec<u8> = acks.iter().flat_map(Ack::written).collect();
    let listing = checked(program, Sender::Agent, &input)?;
    let (told, names) = (sent::told(acks), ["spoplist agent", "rust"]);
    let ran = Ran::right(&listing.text);
    match listing.text == told {
        true => Ok(listing),
        false => Err(difference(names, &[&input], &ran, &told)),
    }
}

/// Words that the program does not know get one line on standard error, and nothing is listed.
pub fn usage(program: &Program, words: &[&str], input: &[u8]) -> Result<(), Difference> {
    let ran = program.run(words, &[input]);
    let lines: Vec<&str> = ran.said.split_inclusive('\n').collect();
    let usage = matches!(lines[..], [line] if line.starts_with("usage: ") && line.ends_with('\n'));
    if usage && ran.text.is_empty() && ran.failure.is_none() {
        return Ok(());
    }
    let head = Difference::in_call("spoplist").row("words", format!("{words:?}"));
    Err(failed(head, &ran).row("listed", format!("{} bytes", ran.text.len())))
}

fn failed(head: Difference, ran: &Ran) -> Difference {
    let head = match &ran.failure {
        Some(failure) => head.row("failed", failure),
        None => head,
    };
    match ran.said.is_empty() {
        true => head,
        false => head.row("said", format!("{:?}", ran.said)),
    }
}

/// Of the names, one is the call's and one is that of the other side.
fn difference([call, name]: [&str; 2], parts: &[&[u8]], ran: &Ran, right: &str) -> Difference {
    let head = Difference::in_call(call).row("bytes", parts.concat().len());
    let head = parts
        .iter()
        .fold(head, |rows, part| rows.row("input", hex(part)));
    let head = failed(head, ran);
    let mut both = both_lines(&ran.text, right.as_bytes()).enumerate();
    match both.find(|(_, [one, other])| one != other) {
        None => head.row("lines", "the same"),
        Some((index, [one, other])) => {
            let same = one.iter().zip(other).take_while(|(a, b)| a == b).count();
            head.row("line", index + 1)
                .row("program", shown(one, same))
                .row(name, shown(other, same))
        }
    }
}

/// The lines with their ends, and with nothing for those that one side lacks.
fn both_lines<'a>(one: &'a [u8], other: &'a [u8]) -> impl Iterator<Item = [&'a [u8]; 2]> {
    let count = lines_of(one).count().max(lines_of(other).count());
    let endless = |text: &'a [u8]| lines_of(text).chain(std::iter::repeat(&b""[..]));
    let both = endless(one).zip(endless(other));
    both.map(|(one, other)| [one, other]).take(count)
}

fn lines_of(text: &[u8]) -> impl Iterator<Item = &[u8]> {
    text.split_inclusive(|byte| *byte == b'\n')
}

fn shown(line: &[u8], same: usize) -> String {
    if line.is_empty() {
        return "no such line".into();
    }
    let start = match line.len() > 2 * AROUND {
        true => same.saturating_sub(AROUND),
        false => 0,
    };
    let end = line.len().min(start + 2 * AROUND);
    let text = String::from_utf8_lossy(&line[start..end]);
    match (start, end) == (0, line.len()) {
        true => format!("{text:?}"),
        false => format!("{text:?}, from character {start} of {}", line.len()),
    }
}
