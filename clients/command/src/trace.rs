//! What `--trace` says on standard error: of each call its status and its time, and of each message
//! its skeleton, with no value.
use crate::failure::plain;
use crate::tree::{tree, Show};
use std::io::Write;

fn say(text: &str) {
    // Where standard error takes nothing, nothing can be said of it.
    let _ = std::io::stderr().lock().write_all(text.as_bytes());
}

/// A call that has ended.
pub fn event(text: &str) {
    say(&format!("# {}\n", plain(text)));
}

/// An exchange, as `raw REQUEST RESPONSE` in hex.
pub fn exchange(line: &str) {
    for (what, hex) in ["sent", "read"].iter().zip(line.split_whitespace().skip(1)) {
        let bytes = hex.len() / 2;
        let skeleton = tree(hex.as_bytes(), Show::Skeleton, true);
        let skeleton = skeleton.unwrap_or_else(|failure| format!("# {}\n", plain(&failure.text)));
        say(&format!("# {what}: {bytes} bytes\n{skeleton}"));
    }
}
