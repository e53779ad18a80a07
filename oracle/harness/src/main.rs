//! Runs the original Rust and the port on the same inputs, in one process.

mod answers;
mod both;
mod counts;
mod growth;
mod inputs;
mod listing;
mod parts;
mod plain;
mod port;
mod reader;
mod records;
mod shrink;
mod tenth;
mod text;
mod timing;
mod versions;

use inputs::Random;
use parts::{PARTS, Part};
use std::{env, fs, io, path::Path, process::ExitCode};

const ROUNDS: u64 = 1_000_000;
const SEED: u64 = 1;

const USAGE: &str = "usage: oracle diff [PART] [ROUNDS] [SEED] | bench [PART] | vectors FOLDER";

fn main() -> ExitCode {
    let words: Vec<String> = env::args().skip(1).collect();
    let words: Vec<&str> = words.iter().map(String::as_str).collect();
    run(&words).unwrap_or_else(|| {
        eprintln!("{USAGE}");
        ExitCode::from(2)
    })
}

/// Answers nothing where the words are no command.
fn run(words: &[&str]) -> Option<ExitCode> {
    match *words {
        ["diff"] => diff("all", None, SEED),
        ["diff", part] => diff(part, None, SEED),
        ["diff", part, rounds] => diff(part, Some(rounds.parse().ok()?), SEED),
        ["diff", part, rounds, seed] => diff(part, Some(rounds.parse().ok()?), seed.parse().ok()?),
        ["bench"] => bench("all"),
        ["bench", part] => bench(part),
        ["vectors", folder] => Some(vectors(Path::new(folder))),
        _ => None,
    }
}

fn named(word: &str) -> Option<Vec<&'static Part>> {
    let chosen: Vec<&Part> = PARTS
        .iter()
        .filter(|part| word == "all" || word == part.name)
        .collect();
    (!chosen.is_empty()).then_some(chosen)
}

/// A part ends at its first difference; the other parts still run.
fn diff(word: &str, rounds: Option<u64>, seed: u64) -> Option<ExitCode> {
    let mut equal = true;
    for part in named(word)? {
        let rounds = match rounds {
            Some(rounds) if word == part.name => rounds,
            _ => rounds.unwrap_or(ROUNDS).min(part.most),
        };
        // Each part starts from the seed, so that it says the same alone as among all.
        match (part.diff)(&mut Random::new(seed), rounds) {
            Ok(compared) => println!("{}: equal on {compared}, seed {seed}", part.name),
            Err(difference) => {
                println!("{}: DIFFERENCE, seed {seed}\n{difference}", part.name);
                equal = false;
            }
        }
    }
    Some(if equal {
        ExitCode::SUCCESS
    } else {
        ExitCode::FAILURE
    })
}

fn bench(word: &str) -> Option<ExitCode> {
    let chosen = named(word)?;
    timing::head();
    for part in chosen {
        (part.bench)(&mut Random::new(SEED));
    }
    Some(ExitCode::SUCCESS)
}

fn vectors(folder: &Path) -> ExitCode {
    for part in PARTS {
        if let Err(reason) = write_list(part, folder) {
            eprintln!("oracle: {}: {reason}", part.name);
            return ExitCode::FAILURE;
        }
    }
    ExitCode::SUCCESS
}

fn write_list(part: &Part, folder: &Path) -> Result<(), String> {
    let lines = (part.list)(&mut Random::new(SEED))?;
    if lines.is_empty() {
        return Ok(());
    }
    let name = format!("{}.txt", part.name);
    save(&folder.join(&name), &lines).map_err(|error| error.to_string())?;
    println!("{name}: {} lines", lines.len());
    Ok(())
}

fn save(path: &Path, lines: &[String]) -> io::Result<()> {
    let whole: String = lines.iter().flat_map(|line| [line, "\n"]).collect();
    fs::write(path, whole)
}
