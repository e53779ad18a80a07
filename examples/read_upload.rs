//! Reads the frames of standard input, and prints each message's name and its arguments in order.

use muleflurry::{
    owned::{frames, StreamError},
    AGREED_FRAME,
};
use std::{io, process::ExitCode};

fn main() -> ExitCode {
    match print_all() {
        Ok(()) => ExitCode::SUCCESS,
        Err(reason) => {
            println!("{reason}"); // refused: NUMBER at PLACE: TEXT, or: not whole: bytes missing: N
            ExitCode::FAILURE
        }
    }
}

fn print_all() -> Result<(), StreamError> {
    for frame in frames(io::stdin().lock(), AGREED_FRAME) {
        for message in frame?.messages {
            println!("{}", message.name);
            for argument in message.arguments {
                println!("  {} {}", argument.key, argument.value);
            }
        }
    }
    Ok(())
}
