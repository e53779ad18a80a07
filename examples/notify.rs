//! Writes the NOTIFY of an upload, two slots and their residual delays, and prints it in hex.

use muleflurry::{
    owned::{Message, Notify},
    Metadata, Refusal, AGREED_FRAME,
};

fn main() -> Result<(), Refusal> {
    let upload = Message::new("upload")
        .argument("slot", 3u32)
        .argument("delay", 1250i64)
        .argument("slot", 17u32)
        .argument("delay", -730i64);
    let metadata = Metadata {
        stream_id: 1,
        frame_id: 1,
        ..Metadata::default()
    };
    let frame = Notify::new(metadata).message(upload).write(AGREED_FRAME)?;

    for byte in frame {
        print!("{byte:02x}");
    }
    println!();
    Ok(())
}
