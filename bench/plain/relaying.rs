//! What the relay of one topic writes, in plain Rust: what `baseline.rs` and `plain.rs` share.

use crate::stomp::{write_error, write_message, Command, Frame, Frames};
use std::io::{self, Write};

/// Why a whole frame is refused by the relay of that topic, as the ERROR says it.
fn refusal(frame: &Frame, topic: &[u8]) -> Option<&'static str> {
    if !matches!(frame.command, Command::Send) {
        return Some("21 Unsupported");
    }
    match frame.first(b"destination") {
        None => Some("22 Missing destination"),
        Some(destination) if destination != topic => Some("67 UnknownDestination"),
        Some(_) => frame.first(b"transaction").map(|_| "66 NoSuchTxn"),
    }
}

/// Writes what a subscriber of the topic gets; answers whether the whole text was read
/// without a fault.
pub fn relay(topic: &[u8], text: &[u8], out: &mut impl Write) -> io::Result<bool> {
    for (place, frame) in Frames::new(text).enumerate() {
        let frame = match frame {
            Ok(frame) => frame,
            Err(fault) => {
                write_error(fault.message(), None, out)?;
                return Ok(false);
            }
        };
        if let Some(message) = refusal(&frame, topic) {
            write_error(message, frame.receipt(), out)?;
            return Ok(false);
        }
        write_message("0", place + 1, &frame, out)?;
    }
    Ok(true)
}
