//! The job of `stompd script` in plain Rust: it reads a script, runs it on a core, and writes what came of each event
//! and the report. It knows the events that the inputs of `bench/script` have, takes each line for right, and ends with
//! status 2 at a refusal.

mod cases;
mod plain_core;
#[allow(dead_code)] // It writes no ERRORs.
mod stomp;

use plain_core::{CAPACITY, Core, Event, Id, Outcome, Refused, Stamp};
use std::io::{Read, Write};
use std::process::ExitCode;

/// The word before the first space, and what is after it.
fn word(line: &[u8]) -> (&[u8], &[u8]) {
    match line.iter().position(|octet| *octet == b' ') {
        Some(end) => (&line[..end], &line[end + 1..]),
        None => (line, b""),
    }
}

fn number(digits: &[u8]) -> usize {
    let digits = digits.iter().map(|digit| usize::from(digit.wrapping_sub(b'0')));
    digits.fold(0, |number: usize, digit| number.wrapping_mul(10).wrapping_add(digit))
}

/// The octets that a TEXT spells.
fn octets(text: &[u8]) -> Result<Vec<u8>, Refused> {
    let mut octets = Vec::with_capacity(text.len());
    let mut rest = text.iter();
    while let Some(&octet) = rest.next() {
        if octet != b'\\' {
            octets.push(octet);
            continue;
        }
        octets.push(match rest.next() {
            Some(b'n') => b'\n',
            Some(b'r') => b'\r',
            Some(b'0') => 0,
            Some(b'\\') => b'\\',
            Some(b'x') => {
                let digits = [*rest.next().ok_or("cut")?, *rest.next().ok_or("cut")?];
                u8::from_str_radix(std::str::from_utf8(&digits)?, 16)?
            }
            _ => return Err("a backslash".into()),
        });
    }
    Ok(octets)
}

/// The event that a line asks for.
fn event(line: &[u8]) -> Result<Event, Refused> {
    let (name, rest) = word(line);
    let (first, rest) = word(rest);
    let first = number(first);
    Ok(match name {
        b"open" => Event::Open,
        b"piece" => Event::Piece(first, octets(rest)?),
        b"next" => Event::Next(first),
        b"propose" => Event::Propose(first, number(rest)),
        b"decide" => Event::Decide(first),
        b"release" => Event::Release(first),
        b"turn" => Event::Turn(first),
        b"take" => Event::Take(first),
        b"leave" => Event::Leave(first),
        b"lost" => Event::Lost(first),
        b"learn" => {
            let (sender, seq) = word(rest);
            Event::Learn(first, (number(sender), number(seq)))
        }
        _ => return Err("no event".into()),
    })
}

/// The core and the events of a script.
fn parse(text: &[u8]) -> Result<(Core, Vec<Event>), Refused> {
    let (mut topics, mut events) = (Vec::new(), Vec::new());
    for line in text.split(|octet| *octet == b'\n') {
        match word(line) {
            (b"", _) => (),
            (b"capacity", digits) if number(digits) == CAPACITY => (),
            (b"topic", rest) => {
                let (name, clock) = word(rest);
                topics.push((name.to_vec(), number(clock) as u64));
            }
            _ => events.push(event(line)?),
        }
    }
    Ok((Core::new(topics), events))
}

fn write_stamp(stamp: Stamp, out: &mut impl Write) -> std::io::Result<()> {
    write!(out, "{}.{}", stamp.number, stamp.topic)
}

fn write_outcome(outcome: Outcome, out: &mut impl Write) -> Result<(), Refused> {
    match outcome {
        Outcome::Opened(c) => write!(out, "conn {c}")?,
        Outcome::Fed => out.write_all(b"fed")?,
        Outcome::Done => out.write_all(b"done")?,
        Outcome::Subscribed(s, from) => write!(out, "sub {s} from {}.{}", from.number, from.topic)?,
        Outcome::Flying(id) => write!(out, "flight {} {}", id.0, id.1)?,
        Outcome::Proposed(number) => write!(out, "ticket {number}")?,
        Outcome::Decided(stamp) => write!(out, "stamp {}.{}", stamp.number, stamp.topic)?,
        Outcome::Learnt => out.write_all(b"learnt")?,
        Outcome::Released(id) => write!(out, "released {} {}", id.0, id.1)?,
        Outcome::Turned(count) => write!(out, "turned {count}")?,
        Outcome::Handed(count) => write!(out, "handed {count}")?,
        Outcome::Leaving => out.write_all(b"leaving")?,
        Outcome::Gone => out.write_all(b"gone")?,
    }
    Ok(out.write_all(b"\n")?)
}

/// A transaction with its stamp, and its topics where they are named.
fn write_row(id: Id, stamp: Stamp, topics: &[usize], out: &mut impl Write) -> Result<(), Refused> {
    write!(out, " {} {} ", id.0, id.1)?;
    write_stamp(stamp, out)?;
    for (place, topic) in topics.iter().enumerate() {
        write!(out, "{}{topic}", if place == 0 { ' ' } else { ',' })?;
    }
    Ok(out.write_all(b"\n")?)
}

/// Octets as an `out` line shows them.
fn write_shown(octets: &[u8], out: &mut impl Write) -> Result<(), Refused> {
    let is_plain = |octet: u8| (32..127).contains(&octet) && octet != b'\\';
    let mut rest = octets;
    while let Some(&octet) = rest.first() {
        let plain = rest.iter().position(|octet| !is_plain(*octet)).unwrap_or(rest.len());
        out.write_all(&rest[..plain])?;
        rest = &rest[plain..];
        if plain > 0 {
            continue;
        }
        match octet {
            b'\n' => out.write_all(b"\\n")?,
            b'\r' => out.write_all(b"\\r")?,
            0 => out.write_all(b"\\0")?,
            b'\\' => out.write_all(b"\\\\")?,
            other => write!(out, "\\x{other:02x}")?,
        }
        rest = &rest[1..];
    }
    Ok(())
}

fn write_report(core: &Core, out: &mut impl Write) -> Result<(), Refused> {
    for row in &core.commits {
        out.write_all(b"commit")?;
        write_row(row.id, row.stamp, &row.topics, out)?;
    }
    for (number, topic) in core.topics.iter().enumerate() {
        for row in &topic.rows {
            write!(out, "log {number}")?;
            write_row(row.id, row.stamp, &row.topics, out)?;
        }
    }
    for (number, queue) in core.queues.iter().enumerate() {
        write!(out, "span {number} {} ", queue.topic)?;
        write_stamp(queue.from, out)?;
        out.write_all(b" -\n")?;
        for (word, items) in [("queue", &queue.items[..]), ("handed", &queue.items[..queue.taken])] {
            for (part, stamp) in items {
                write!(out, "{word} {number}")?;
                write_row(part.id, *stamp, &[], out)?;
            }
        }
    }
    for (number, connection) in core.connections.iter().enumerate() {
        write!(out, "out {number}")?;
        if !connection.out.is_empty() {
            out.write_all(b" ")?;
        }
        write_shown(&connection.out, out)?;
        out.write_all(b"\n")?;
    }
    Ok(())
}

fn run() -> Result<(), Refused> {
    let mut text = Vec::new();
    stomp::input()?.read_to_end(&mut text)?;
    let (mut core, events) = parse(&text)?;
    drop(text);
    let mut out = stomp::output()?;
    for event in events {
        write_outcome(core.step(event)?, &mut out)?;
    }
    write_report(&core, &mut out)?;
    Ok(out.flush()?)
}

fn main() -> ExitCode {
    match run() {
        Ok(()) => ExitCode::SUCCESS,
        Err(error) => {
            eprintln!("script_baseline: {error}");
            ExitCode::from(2)
        }
    }
}
