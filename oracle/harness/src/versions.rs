//! Announced versions: their texts, drawn by the grammar of Semantic Versioning 2.0.0, and the numbers that the port has for them.

use crate::{
    counts::Class,
    inputs::{self, Random},
    port::VERSION_WIDTH,
};
use semver::Version;

/// Texts that are always compared, and whether a HAProxy that announces one alone is answered with 2.0.0.
pub const NAMED: [(&str, bool); 16] = [
    ("2.0.0", true),
    ("2.0.0-rc.1", false),
    ("2.0.1-0", true),
    ("2.1.0-rc.1", true),
    ("3.0.0-2", false),
    ("3.0.0", false),
    ("1.9.9", false),
    ("2.0.0-0", false),
    ("2.0.0--", false),
    ("2.0.0-alpha.1.x-y.22", false),
    ("2.0.0-rc.1+5", false),
    ("2.0.0+5", true),
    ("2.0.0+rc-1.007", true),
    ("2.0.1-99999999999999999999999+a", true),
    ("2.18446744073709551615.0-rc", true),
    (
        "18446744073709551615.18446744073709551615.18446744073709551615-0",
        false,
    ),
];

const CHARACTERS: &[u8] = b"0123456789ABCDEFGHIJKLMNOPQRSTUVWXYZabcdefghijklmnopqrstuvwxyz-";

/// A version, and the number that tells the port of its pre-release part, where it has one: any but 0.
#[derive(Clone, PartialEq)]
pub struct Announced {
    pub text: String,
    pub mark: u64,
}

/// What is put to both sides. The rest is numbers that are too few for a version.
#[derive(Clone, PartialEq)]
pub struct Input {
    pub versions: Vec<Announced>,
    pub rest: Vec<u64>,
}

impl Announced {
    pub fn new(text: &str, mark: u64) -> Self {
        let text = text.to_string();
        Self { text, mark }
    }

    /// The text before the pre-release part, and that part. A plus sign ends both: what is behind it is build metadata, and may have
    /// a hyphen too.
    fn split(&self) -> (&str, Option<&str>) {
        let version = self.text.split('+').next().unwrap_or_default();
        match version.split_once('-') {
            Some((numbers, part)) => (numbers, Some(part)),
            None => (version, None),
        }
    }

    /// Nothing where the text is no version.
    fn numbers(&self) -> Option<[u64; VERSION_WIDTH]> {
        let (numbers, part) = self.split();
        let mut numbers = numbers.split('.').map(|number| number.parse().ok());
        let mut next = || numbers.next().flatten();
        Some([next()?, next()?, next()?, part.map_or(0, |_| self.mark)])
    }
}

impl Input {
    pub fn of(text: &str) -> Self {
        Self {
            versions: vec![Announced::new(text, 1)],
            rest: Vec::new(),
        }
    }

    /// All versions as the Rust reads them. Nothing where one of the texts is no version.
    pub fn parsed(&self) -> Option<Vec<Version>> {
        let parsed = |version: &Announced| Version::parse(&version.text).ok();
        self.versions.iter().map(parsed).collect()
    }

    /// All versions in fours, and the rest behind them.
    pub fn numbers(&self) -> Option<Vec<u64>> {
        let fours: Option<Vec<_>> = self.versions.iter().map(Announced::numbers).collect();
        Some([fours?.as_flattened(), &self.rest].concat())
    }

    pub fn shown(&self) -> String {
        let texts: Vec<&str> = self.versions.iter().map(|v| v.text.as_str()).collect();
        texts.join(", ")
    }

    /// What the random inputs have to be, and what is given for them.
    pub fn classes(&self, given: bool) -> Vec<Class> {
        let any = |test: &dyn Fn(&Announced) -> bool| self.versions.iter().any(test);
        let fours: Vec<_> = self
            .versions
            .iter()
            .filter_map(Announced::numbers)
            .collect();
        let four = |test: &dyn Fn([u64; VERSION_WIDTH]) -> bool| fours.iter().any(|&n| test(n));
        let part = |test: &dyn Fn(&str) -> bool| any(&|v| v.split().1.is_some_and(test));
        let numeric = |name: &str| name.bytes().all(|byte| byte.is_ascii_digit());
        vec![
            ("2.0.0 is given", given),
            ("no version is given", !given),
            ("no version is announced", self.versions.is_empty()),
            ("several versions", self.versions.len() > 1),
            ("a rest of one number", self.rest.len() == 1),
            ("a rest of two numbers", self.rest.len() == 2),
            ("a rest of three numbers", self.rest.len() == 3),
            ("2.0.0", four(&|n| n == [2, 0, 0, 0])),
            (
                "a pre-release of 2.0.0",
                four(&|n| n[..3] == [2, 0, 0] && n[3] != 0),
            ),
            (
                "of 2.0.0 alone",
                self.versions.len() == 1 && !given && fours[0][0] == 2,
            ),
            (
                "of a later patch",
                four(&|n| n[..2] == [2, 0] && n[2] != 0 && n[3] != 0),
            ),
            (
                "of a later minor",
                four(&|n| n[0] == 2 && n[1] != 0 && n[3] != 0),
            ),
            ("of another major", four(&|n| n[0] != 2 && n[3] != 0)),
            ("one identifier", part(&|part| !part.contains('.'))),
            ("several identifiers", part(&|part| part.contains('.'))),
            (
                "a numeric identifier",
                part(&|part| part.split('.').any(numeric)),
            ),
            (
                "one over 64 bits",
                part(&|part| part.split('.').any(|name| numeric(name) && name.len() > 20)),
            ),
            (
                "an alphanumeric identifier",
                part(&|part| !part.split('.').all(numeric)),
            ),
            ("one with a hyphen", part(&|part| part.contains('-'))),
            (
                "build metadata behind a pre-release",
                any(&|v| v.split().1.is_some() && v.text.contains('+')),
            ),
            (
                "build metadata alone",
                any(&|v| v.split().1.is_none() && v.text.contains('+')),
            ),
            (
                "such with a hyphen",
                any(&|v| v.split().1.is_none() && v.text.contains('-')),
            ),
            ("a major of 2^64 - 1", four(&|n| n[0] == u64::MAX)),
            ("a minor of 2^64 - 1", four(&|n| n[1] == u64::MAX)),
            ("a patch of 2^64 - 1", four(&|n| n[2] == u64::MAX)),
            ("2^64 - 1 for a pre-release", four(&|n| n[3] == u64::MAX)),
        ]
    }
}

// ---------------------------------------------------------------- drawing

/// Up to `most` versions, and at times one to three numbers more.
pub fn input(random: &mut Random, most: usize) -> Input {
    let count = random.index(most + 1);
    let versions = (0..count).map(|_| announced(random)).collect();
    let rest = (0..random.below(4)).map(|_| [2, 0, 0, 1, number(random)][random.index(5)]);
    Input {
        versions,
        rest: rest.collect(),
    }
}

fn announced(random: &mut Random) -> Announced {
    let mark = match random.below(3) {
        0 => u64::MAX,
        1 => inputs::number(random).max(1),
        _ => 1,
    };
    match random.below(8) {
        0 => Announced::new(NAMED[random.index(NAMED.len())].0, mark),
        _ => Announced::new(&text(random), mark),
    }
}

/// The major number is 2 most of the time, and the others are 0 half of the time: so a pre-release often decides.
fn text(random: &mut Random) -> String {
    let major = match random.below(4) {
        0 => number(random),
        _ => 2,
    };
    let [minor, patch] = [0; 2].map(|zero| match random.below(2) {
        0 => zero,
        _ => number(random),
    });
    let mut text = format!("{major}.{minor}.{patch}");
    if random.below(2) == 0 {
        text += "-";
        text += &identifiers(random, pre_release);
    }
    if random.below(4) == 0 {
        text += "+";
        text += &identifiers(random, any);
    }
    text
}

fn number(random: &mut Random) -> u64 {
    match random.below(8) {
        0 => u64::MAX,
        1 => inputs::number(random),
        _ => random.below(4),
    }
}

/// One to four, with dots between.
fn identifiers(random: &mut Random, one: fn(&mut Random) -> String) -> String {
    let count = random.within(1, 4);
    let all: Vec<String> = (0..count).map(|_| one(random)).collect();
    all.join(".")
}

/// A number has no 0 in front, and may be over 64 bits.
fn pre_release(random: &mut Random) -> String {
    match random.below(8) {
        0 => "0".into(),
        1 => number(random).to_string(),
        2 => format!("{}{:020}", random.within(1, 9), random.next()),
        3 => ["rc", "alpha", "beta", "-", "x-y", "0a"][random.index(6)].into(),
        _ => match any(random) {
            digits if digits.bytes().all(|byte| byte.is_ascii_digit()) => digits + "-",
            name => name,
        },
    }
}

/// One to six characters.
fn any(random: &mut Random) -> String {
    let length = random.within(1, 6);
    let character = |_| char::from(CHARACTERS[random.index(CHARACTERS.len())]);
    (0..length).map(character).collect()
}

/// Versions around 2.0.0 and at the ends of the numbers, each without a part and with some.
pub fn grid() -> Vec<Input> {
    let mut all = Vec::new();
    for major in [0, 1, 2, 3, u64::MAX] {
        for [minor, patch] in pairs([0, 1, u64::MAX]) {
            for part in ["", "-0", "-1", "-rc", "-rc.1", "-1.a-b.0.x"] {
                for build in ["", "+0", "+00.a-b"] {
                    all.push(Input::of(&format!("{major}.{minor}.{patch}{part}{build}")));
                }
            }
        }
    }
    all
}

/// The named texts, each with each behind it, each mark and each length of a rest.
pub fn named() -> Vec<Input> {
    let mut all = Vec::new();
    for [first, second] in pairs(NAMED.map(|(text, _)| text)) {
        for mark in [1, 2, u64::MAX] {
            for rest in 0..VERSION_WIDTH {
                all.push(Input {
                    versions: vec![Announced::new(first, mark), Announced::new(second, mark)],
                    rest: vec![2; rest],
                });
            }
        }
    }
    all
}

fn pairs<T: Copy, const N: usize>(of: [T; N]) -> Vec<[T; 2]> {
    let with = |first| of.map(|second| [first, second]);
    of.into_iter().flat_map(with).collect()
}
