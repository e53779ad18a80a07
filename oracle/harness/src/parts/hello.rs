//! The two negotiations: `HaproxyHello::negotiate_max_frame_size` and `negotiate_version`. Versions are texts, which the Rust reads and
//! compares as whole versions by `semver`; the port gets the numbers that `versions.rs` makes of them.

use crate::{
    answers::Answer,
    both,
    counts::{Counts, ENOUGH},
    inputs::Random,
    port, shrink,
    text::Difference,
    timing,
    versions::{self, Announced, Input},
};
use semver::Version;
use spop::frames::HaproxyHello;
use std::hint::black_box;

const UNTOUCHED: u64 = 0xa5c3_96e1_5a3c_691e;

/// The paper's number for a size under 256.
const TOO_SMALL: u64 = 13;

/// The most versions that are announced.
const MOST: usize = 5;

fn hello(size: u32, versions: Vec<Version>) -> HaproxyHello {
    HaproxyHello {
        supported_versions: versions,
        max_frame_size: size,
        capabilities: Vec::new(),
        healthcheck: None,
        engine_id: None,
    }
}

// ---------------------------------------------------------------- one input, both sides

fn size_by_port(theirs: u32, ours: u32) -> Answer {
    let mut at = UNTOUCHED;
    let number = both::negotiate_max_frame_size(theirs, ours, &mut at);
    Answer::new(number, at)
}

fn size_by_rust(theirs: u32, ours: u32) -> Answer {
    match hello(theirs, Vec::new()).negotiate_max_frame_size(ours) {
        Ok(size) => Answer::done(size as usize),
        Err(_) => Answer::new(TOO_SMALL, 0),
    }
}

fn version_by_port(numbers: &[u64]) -> (bool, [u64; 3]) {
    let mut version = [UNTOUCHED; 3];
    let given = both::negotiate_version(numbers, &mut version);
    (given, version)
}

fn version_by_rust(announced: Vec<Version>) -> (bool, [u64; 3]) {
    match hello(0, announced).negotiate_version() {
        Some(version) => (true, [version.major, version.minor, version.patch]),
        None => (false, [UNTOUCHED; 3]),
    }
}

// ---------------------------------------------------------------- comparing

fn compare_sizes(theirs: u32, ours: u32) -> Result<(), Difference> {
    let differs = |theirs: u32, ours: u32| size_by_port(theirs, ours) != size_by_rust(theirs, ours);
    if !differs(theirs, ours) {
        return Ok(());
    }
    let smaller = |n: u32, differs: &dyn Fn(u32) -> bool| {
        shrink::number(u64::from(n), |n| u32::try_from(n).is_ok_and(differs)) as u32
    };
    let theirs = smaller(theirs, &|n| differs(n, ours));
    let ours = smaller(ours, &|n| differs(theirs, n));
    Err(Difference::in_call("negotiate_max_frame_size")
        .row("theirs", theirs)
        .row("ours", ours)
        .row("port", size_by_port(theirs, ours))
        .row("rust", size_by_rust(theirs, ours)))
}

/// What both sides answer. Nothing where a text is no version.
fn answers(input: &Input) -> Option<[(bool, [u64; 3]); 2]> {
    let rust = version_by_rust(input.parsed()?);
    Some([version_by_port(&input.numbers()?), rust])
}

/// Answers whether 2.0.0 is given.
fn compare_versions(input: &Input) -> Result<bool, Difference> {
    let Some([port, rust]) = answers(input) else {
        return Err(Difference::in_call("Version::parse").row("versions", input.shown()));
    };
    if port == rust {
        return Ok(rust.0);
    }
    let input = smaller(input);
    let [port, rust] = answers(&input).unwrap_or([port, rust]);
    Err(Difference::in_call("negotiate_version")
        .row("versions", input.shown())
        .row(
            "numbers",
            format!("{:?}", input.numbers().unwrap_or_default()),
        )
        .row("port", format!("{port:?}"))
        .row("rust", format!("{rust:?}")))
}

/// Versions go first, then numbers of the rest, and then characters of the texts.
fn smaller(input: &Input) -> Input {
    let differs = |input: &Input| answers(input).is_some_and(|[port, rust]| port != rust);
    let mut best = input.clone();
    let with = |versions: &[Announced], rest: &[u64]| Input {
        versions: versions.to_vec(),
        rest: rest.to_vec(),
    };
    best.versions = shrink::runs(&best.versions, |fewer| differs(&with(fewer, &best.rest)));
    best.rest = shrink::runs(&best.rest, |fewer| differs(&with(&best.versions, fewer)));
    for place in 0..best.versions.len() {
        let with = |text: &[u8]| {
            let mut less = best.clone();
            less.versions[place].text = String::from_utf8(text.to_vec()).ok()?;
            differs(&less).then_some(less)
        };
        let text = shrink::bytes(best.versions[place].text.as_bytes(), |text| {
            with(text).is_some()
        });
        best = with(&text).unwrap_or(best);
    }
    best
}

pub fn diff(random: &mut Random, rounds: u64) -> Result<String, Difference> {
    let mut fixed = 0;
    for theirs in 0..600 {
        for ours in 0..600 {
            compare_sizes(theirs, ours)?;
            fixed += 1;
        }
    }
    let lists = fixed_versions()?;
    let mut met = Counts::default();
    for _ in 0..rounds {
        compare_sizes(size(random), size(random))?;
        let input = versions::input(random, MOST);
        let given = compare_versions(&input)?;
        met.add(&input.classes(given));
    }
    if rounds >= ENOUGH {
        met.all("negotiate_version", "random")?;
    }
    met.print();
    Ok(format!(
        "{fixed} fixed pairs of sizes, {lists} fixed lists of versions, {} random calls in {rounds} rounds",
        2 * rounds
    ))
}

/// Answers how many lists there are. Of the named versions it is known what is given.
fn fixed_versions() -> Result<usize, Difference> {
    for (text, should) in versions::NAMED {
        let given = compare_versions(&Input::of(text))?;
        if given != should {
            return Err(Difference::in_call("negotiate_version")
                .row("versions", text)
                .row("given", given));
        }
    }
    let lists = [versions::grid(), versions::named()].concat();
    for input in &lists {
        compare_versions(input)?;
    }
    Ok(versions::NAMED.len() + lists.len())
}

fn size(random: &mut Random) -> u32 {
    match random.below(3) {
        0 => random.within(250, 262) as u32,
        1 => random.within(0, 2_000_000) as u32,
        _ => random.next() as u32,
    }
}

// ---------------------------------------------------------------- timing

pub fn bench(random: &mut Random) {
    let sizes: Vec<(u32, u32)> = (0..4096).map(|_| (size(random), size(random))).collect();
    let hellos: Vec<HaproxyHello> = sizes
        .iter()
        .map(|&(theirs, _)| hello(theirs, Vec::new()))
        .collect();
    let mut at = 0;
    let port = || {
        for &(theirs, ours) in &sizes {
            black_box(port::negotiate_max_frame_size(theirs, ours, &mut at));
            black_box(&at);
        }
    };
    let rust = || {
        for (hello, &(_, ours)) in hellos.iter().zip(&sizes) {
            let _ = black_box(hello.negotiate_max_frame_size(ours));
        }
    };
    timing::race("negotiate_max_frame_size", sizes.len(), port, rust);
}

// ---------------------------------------------------------------- the list

pub fn list(random: &mut Random) -> Result<Vec<String>, String> {
    let mut lines = Vec::new();
    let edges = [0, 1, 255, 256, 257, 16_384, 1_048_576, u32::MAX];
    for theirs in edges {
        for ours in edges {
            let (number, at) = size_by_rust(theirs, ours).listed()?;
            lines.push(format!(
                "z {theirs:016x} {ours:016x} {number:016x} {at:016x}"
            ));
        }
    }
    let named = versions::NAMED.map(|(text, _)| Input::of(text));
    let drawn: Vec<Input> = (0..60).map(|_| versions::input(random, MOST)).collect();
    for input in named.iter().chain(&drawn) {
        let (Some(announced), Some(numbers)) = (input.parsed(), input.numbers()) else {
            return Err(format!("one of these is no version: {}", input.shown()));
        };
        let (given, _) = version_by_rust(announced);
        let fields: String = numbers.iter().map(|n| format!(" {n:016x}")).collect();
        lines.push(format!("n {:016x}{fields}", u64::from(given)));
    }
    Ok(lines)
}
