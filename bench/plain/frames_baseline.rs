//! The job of `bench/measured/frames_main.txt` in plain Rust, with the standard library alone: it reads
//! standard input to its end, tells the case of each frame, and writes what answers it.

mod cases;
mod stomp;

use cases::classify;
use std::io::{self, Read, Write};
use std::process::ExitCode;
use stomp::{write_error, write_escaped, write_message, Command, Frames};

fn write_receipt(id: &[u8], out: &mut impl Write) -> io::Result<()> {
    out.write_all(b"RECEIPT\nreceipt-id:")?;
    write_escaped(id, out)?;
    out.write_all(b"\n\n\0")
}

/// A SEND gives its message, a frame that asks for a receipt gets it, and one that is refused
/// gives an error; up to the first that the reader refuses.
fn answer_all(text: &[u8], out: &mut impl Write) -> io::Result<()> {
    let mut sends = 0;
    for frame in Frames::new(text) {
        let frame = frame.map_err(|fault| io::Error::other(fault.message()))?;
        if let Err(message) = classify(&frame) {
            write_error(&message, frame.receipt(), out)?;
            continue;
        }
        if matches!(frame.command, Command::Send) {
            sends += 1;
            write_message("s", sends, &frame, out)?;
        }
        if let Some(id) = frame.receipt() {
            write_receipt(id, out)?;
        }
    }
    Ok(())
}

fn run() -> io::Result<()> {
    let mut text = Vec::new();
    stomp::input()?.read_to_end(&mut text)?;
    let mut out = stomp::output()?;
    answer_all(&text, &mut out)?;
    out.flush()
}

fn main() -> ExitCode {
    match run() {
        Ok(()) => ExitCode::SUCCESS,
        Err(error) => {
            eprintln!("frames_baseline: {error}");
            ExitCode::FAILURE
        }
    }
}
