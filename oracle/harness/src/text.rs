//! Bytes and differences as text.

use std::fmt::{self, Display, Write};

/// Pairs of hex digits, `-` for no bytes.
pub fn hex(bytes: &[u8]) -> String {
    if bytes.is_empty() {
        return "-".into();
    }
    bytes.iter().fold(String::new(), |mut text, byte| {
        let _ = write!(text, "{byte:02x}");
        text
    })
}

/// An input on which the sides differ, row by row.
pub struct Difference {
    rows: Vec<String>,
}

impl Difference {
    pub fn in_call(call: &str) -> Self {
        Self { rows: Vec::new() }.row("call", call)
    }

    pub fn row(mut self, name: &str, what: impl Display) -> Self {
        self.rows.push(format!("    {name:<8} {what}"));
        self
    }
}

impl Display for Difference {
    fn fmt(&self, out: &mut fmt::Formatter) -> fmt::Result {
        out.write_str(&self.rows.join("\n"))
    }
}
