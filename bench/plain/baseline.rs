//! The relay in plain Rust, with the standard library alone: `baseline NAME` does the job of
//! `stompd relay NAME`. It is the yardstick of `bench/relay` and the second opinion of
//! `bench/check`.

mod relaying;
mod stomp;

use relaying::relay;
use std::env;
use std::io::{self, Read, Write};
use std::os::unix::ffi::OsStrExt;
use std::process::ExitCode;

const INPUT_LIMIT: usize = 16_777_216;

/// Reads all of standard input, then writes to standard output.
fn run(topic: &[u8]) -> io::Result<bool> {
    let mut text = Vec::new();
    stomp::input()?
        .take(INPUT_LIMIT as u64 + 1)
        .read_to_end(&mut text)?;
    let mut out = stomp::output()?;
    let done = if text.len() > INPUT_LIMIT {
        out.write_all(b"bad 112 TooLong\n")?;
        false
    } else {
        relay(topic, &text, &mut out)?
    };
    out.flush()?;
    Ok(done)
}

fn main() -> ExitCode {
    let arguments: Vec<_> = env::args_os().skip(1).collect();
    let topic = match &arguments[..] {
        [name] if !name.is_empty() => name.as_bytes(),
        _ => &[],
    };
    if topic.is_empty() || !topic.iter().all(u8::is_ascii_graphic) {
        eprintln!("usage: baseline NAME");
        return ExitCode::from(1);
    }
    match run(topic) {
        Ok(true) => ExitCode::from(0),
        Ok(false) => ExitCode::from(2),
        Err(error) if error.kind() == io::ErrorKind::OutOfMemory => {
            eprintln!("no memory");
            ExitCode::from(4)
        }
        Err(_) => {
            eprintln!("io fault");
            ExitCode::from(5)
        }
    }
}
