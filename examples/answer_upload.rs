//! Reads the NOTIFY frames of standard input, and prints for each, in hex, the ACK that sets a
//! variable for each of its arguments: slot0, delay0, slot1, delay1.

use muleflurry::{
    owned::{frames, Ack, Action},
    FrameType, Scope, Text, AGREED_FRAME,
};
use std::{collections::HashMap, error::Error, io, process::ExitCode};

fn main() -> ExitCode {
    match answer_all() {
        Ok(()) => ExitCode::SUCCESS,
        Err(reason) => {
            println!("{reason}"); // refused: NUMBER at PLACE: TEXT, or: not whole: bytes missing: N
            ExitCode::FAILURE
        }
    }
}

fn answer_all() -> Result<(), Box<dyn Error>> {
    for frame in frames(io::stdin().lock(), AGREED_FRAME) {
        let frame = frame?;
        if frame.kind != FrameType::Notify {
            continue;
        }
        let (mut ack, mut met) = (Ack::new(frame.metadata), HashMap::new());
        for argument in frame.messages.into_iter().flat_map(|m| m.arguments) {
            let before: &mut u32 = met.entry(argument.key.clone()).or_default();
            ack.actions.push(Action::SetVar {
                scope: Scope::Transaction,
                name: Text([argument.key.as_bytes(), before.to_string().as_bytes()].concat()),
                value: argument.value,
                flags: argument.flags,
            });
            *before += 1;
        }
        for byte in ack.write(AGREED_FRAME)? {
            print!("{byte:02x}");
        }
        println!();
    }
    Ok(())
}
