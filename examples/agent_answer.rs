//! Writes what an agent answers, an AGENT-HELLO and the ACK of an upload, and prints both in hex, a line for each.

use muleflurry::{
    owned::{Ack, Kv},
    Metadata, Refusal, Scope, AGREED_FRAME,
};

fn main() -> Result<(), Refusal> {
    let hello = Kv::agent_hello("2.0", AGREED_FRAME, "");
    print_hex(&hello.write(AGREED_FRAME)?);

    let metadata = Metadata {
        stream_id: 1,
        frame_id: 1,
        ..Metadata::default()
    };
    let ack = Ack::new(metadata)
        .set_var(Scope::Transaction, "slot0", 3u32)
        .set_var(Scope::Transaction, "delay0", 1250i64)
        .set_var(Scope::Transaction, "slot1", 17u32)
        .set_var(Scope::Transaction, "delay1", -730i64);
    print_hex(&ack.write(AGREED_FRAME)?);
    Ok(())
}

fn print_hex(frame: &[u8]) {
    for byte in frame {
        print!("{byte:02x}");
    }
    println!();
}
