//! The program, in a process of its own for each input.

use std::{
    env,
    io::{self, Write},
    process::{ChildStdin, Command, Output, Stdio},
    thread,
    time::Duration,
};

/// Long enough that a program has read what came before it.
const PAUSE: Duration = Duration::from_millis(300);

pub struct Program {
    words: Vec<String>,
}

/// What a process has written, what it has said on standard error, and why it is not to be believed, if so.
#[derive(PartialEq)]
pub struct Ran {
    pub text: Vec<u8>,
    pub said: String,
    pub failure: Option<String>,
}

impl Ran {
    /// Of a process that writes this and does nothing else.
    pub fn right(text: &str) -> Self {
        Self {
            text: text.as_bytes().to_vec(),
            said: String::new(),
            failure: None,
        }
    }
}

impl Program {
    /// The one that `oracle/run` hands over, a word of its command on each line.
    pub fn handed_over() -> Self {
        let words = env::var("SPOP_LIST_WORDS").expect("SPOP_LIST_WORDS has the program's command");
        Self {
            words: words.lines().map(String::from).collect(),
        }
    }

    /// Gives it some words and the parts of an input, with a pause between them, and takes all that it writes.
    pub fn run(&self, words: &[&str], parts: &[&[u8]]) -> Ran {
        match self.output(words, parts) {
            Ok(output) => Ran {
                failure: failure(&output),
                said: String::from_utf8_lossy(&output.stderr).into_owned(),
                text: output.stdout,
            },
            Err(error) => Ran {
                text: Vec::new(),
                said: String::new(),
                failure: Some(error.to_string()),
            },
        }
    }

    /// The input is written while the output is read, so that neither waits for the other.
    fn output(&self, words: &[&str], parts: &[&[u8]]) -> io::Result<Output> {
        let (first, others) = self.words.split_first().expect("a command has a word");
        let mut child = Command::new(first)
            .args(others)
            .args(words)
            .stdin(Stdio::piped())
            .stdout(Stdio::piped())
            .stderr(Stdio::piped())
            .spawn()?;
        let input = child.stdin.take().expect("a pipe");
        thread::scope(|scope| {
            scope.spawn(move || feed(input, parts));
            child.wait_with_output()
        })
    }
}

/// A program that has read enough may end before all is written.
fn feed(mut input: ChildStdin, parts: &[&[u8]]) {
    for (index, part) in parts.iter().enumerate() {
        if index > 0 {
            thread::sleep(PAUSE);
        }
        if input.write_all(part).is_err() {
            return;
        }
    }
}

fn failure(output: &Output) -> Option<String> {
    (!output.status.success()).then(|| output.status.to_string())
}
