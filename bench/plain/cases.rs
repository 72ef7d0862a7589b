//! The case table in plain Rust: what a client's frame must have (docs/PROTOCOL.md). It shares no
//! code with the crates.

use crate::stomp::{Command, Frame};
use std::borrow::Cow;

/// The headers that a client's frame of this command must have, and whether it may have a body,
/// or why no client may send it.
fn case(command: Command) -> Result<(&'static [&'static str], bool), &'static str> {
    match command {
        Command::Connect => Ok((&["accept-version", "host"], false)),
        Command::Send => Ok((&["destination"], true)),
        Command::Subscribe => Ok((&["destination", "id"], false)),
        Command::Unsubscribe => Ok((&["id"], false)),
        Command::Begin | Command::Commit | Command::Abort => Ok((&["transaction"], false)),
        Command::Disconnect => Ok((&[], false)),
        Command::Ack | Command::Nack => Err("21 Unsupported"),
        Command::Connected | Command::Message | Command::Receipt | Command::Error => {
            Err("20 NotClient")
        }
    }
}

/// Why no client may send a frame of this command, as the ERROR says it: it has a body or none, and the headers of which
/// `has` says so.
pub fn fault_of(
    command: Command,
    has_body: bool,
    has: impl Fn(&str) -> bool,
) -> Option<Cow<'static, str>> {
    let (required, may_have_body) = match case(command) {
        Ok(case) => case,
        Err(fault) => return Some(fault.into()),
    };
    for name in required {
        if !has(name) {
            return Some(format!("22 Missing {name}").into());
        }
    }
    (has_body && !may_have_body).then_some("23 BodyNotAllowed".into())
}

/// Tells whether it is a client's frame; if not, what the ERROR says.
#[allow(dead_code)] // A core that is fed in pieces has frames of its own.
pub fn classify(frame: &Frame) -> Result<(), Cow<'static, str>> {
    let has = |name: &str| frame.first(name.as_bytes()).is_some();
    match fault_of(frame.command, !frame.body.is_empty(), has) {
        Some(fault) => Err(fault),
        None => Ok(()),
    }
}
