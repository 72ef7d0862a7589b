//! The jobs of `stompd` in plain Rust, of any input: `plain relay NAME`, `plain script`, `plain trace`, `plain
//! audit`. And `plain lacks script` or `plain lacks trace`: what may be written of a script where one event
//! finds no memory, each text after a line with its length. It is the second opinion of `bench/fuzz` and
//! `bench/refuse`, and shares no code with the crates.

mod cases;
mod doing;
mod reading;
mod relaying;
mod stomp;
mod whole_audit;
mod whole_core;
mod whole_script;

use doing::{answer, lacks, Job};
use std::env;
use std::io::{self, Read, Write};
use std::process::ExitCode;

fn input() -> io::Result<Vec<u8>> {
    let mut text = Vec::new();
    stomp::input()?.read_to_end(&mut text)?;
    Ok(text)
}

/// Whether a topic may have this name.
fn is_name(name: &str) -> bool {
    !name.is_empty() && name.bytes().all(|octet| octet.is_ascii_graphic())
}

fn run(words: &[&str]) -> io::Result<u8> {
    let (job, topic) = match words {
        ["relay", topic] if is_name(topic) => (Job::Relay, topic.as_bytes()),
        ["script"] | ["lacks", "script"] => (Job::Script, &b""[..]),
        ["trace"] | ["lacks", "trace"] => (Job::Trace, &b""[..]),
        ["audit"] => (Job::Audit, &b""[..]),
        _ => {
            eprintln!("usage: plain relay NAME | script | trace | audit | lacks script | lacks trace");
            return Ok(1);
        }
    };
    let mut out = stomp::output()?;
    let mut status = 0;
    if words[0] == "lacks" {
        for text in lacks(job, &input()?) {
            writeln!(out, "{}", text.len())?;
            out.write_all(&text)?;
        }
    } else {
        let told = answer(job, topic, &input()?);
        out.write_all(&told.0)?;
        status = told.1;
    }
    out.flush()?;
    Ok(status)
}

fn main() -> ExitCode {
    let words: Vec<_> = env::args_os().skip(1).collect();
    let words: Vec<&str> = words.iter().map(|word| word.to_str().unwrap_or("")).collect();
    match run(&words) {
        Ok(status) => ExitCode::from(status),
        Err(error) => {
            eprintln!("plain: {error}");
            ExitCode::from(5)
        }
    }
}
