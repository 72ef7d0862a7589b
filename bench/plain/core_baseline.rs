//! The job of `bench/measured/core_main.txt` in plain Rust, with the maps and vectors of the standard library: it
//! gives each event of its input to a core, keeps it with what came of it, and writes that and what the
//! core holds at the end. It ends with status 2 at a refusal.

mod cases;
mod plain_core;
#[allow(dead_code)] // It writes no ERRORs.
mod stomp;

use plain_core::{Core, Event, Outcome, Refused, Row, Stamp};
use std::io::{Read, Write};
use std::process::ExitCode;

/// What came of an event, as a letter and its numbers.
fn write_outcome(outcome: Outcome, out: &mut impl Write) -> Result<(), Refused> {
    match outcome {
        Outcome::Opened(c) => writeln!(out, "o {c}")?,
        Outcome::Fed => out.write_all(b"f\n")?,
        Outcome::Done => out.write_all(b"d\n")?,
        Outcome::Subscribed(s, from) => writeln!(out, "s {s} {} {}", from.number, from.topic)?,
        Outcome::Flying(id) => writeln!(out, "b {} {}", id.0, id.1)?,
        Outcome::Proposed(number) => writeln!(out, "p {number}")?,
        Outcome::Decided(stamp) => writeln!(out, "c {} {}", stamp.number, stamp.topic)?,
        Outcome::Learnt => out.write_all(b"l\n")?,
        Outcome::Released(id) => writeln!(out, "r {} {}", id.0, id.1)?,
        Outcome::Turned(count) => writeln!(out, "t {count}")?,
        Outcome::Handed(count) => writeln!(out, "h {count}")?,
        Outcome::Leaving => out.write_all(b"v\n")?,
        Outcome::Gone => out.write_all(b"g\n")?,
    }
    Ok(())
}

/// The commits, how many rows each log has, the subscriptions, and the octets out of each connection.
fn write_report(core: &Core, out: &mut impl Write) -> Result<(), Refused> {
    for row in &core.commits {
        let Row { id, topics, stamp } = row;
        write!(out, "C {} {} {} {}", id.0, id.1, stamp.number, stamp.topic)?;
        for topic in topics.iter() {
            write!(out, ",{topic}")?;
        }
        out.write_all(b"\n")?;
    }
    for topic in &core.topics {
        writeln!(out, "T {}", topic.rows.len())?;
    }
    for queue in &core.queues {
        let Stamp { number, topic } = queue.from;
        let (queued, handed) = (queue.items.len(), queue.taken);
        writeln!(out, "S {} {number} {topic} {queued} {handed}", queue.topic)?;
    }
    for connection in &core.connections {
        out.write_all(&connection.out)?;
        out.write_all(b"\n")?;
    }
    Ok(())
}

/// The octets before the first octet of this value, and those behind it.
fn split(text: &[u8], at: u8) -> Option<(&[u8], &[u8])> {
    let end = text.iter().position(|octet| *octet == at)?;
    Some((&text[..end], &text[end + 1..]))
}

fn number(digits: &[u8]) -> usize {
    let digits = digits.iter().map(|digit| usize::from(digit.wrapping_sub(b'0')));
    digits.fold(0, |number: usize, digit| number.wrapping_mul(10).wrapping_add(digit))
}

/// The event of these octets: its letter, a number, a space, and what else it names.
fn event(octets: &[u8]) -> Option<Event> {
    let (&letter, rest) = octets.split_first()?;
    let (digits, rest) = split(rest, b' ')?;
    match letter {
        b'O' => Some(Event::Open),
        b'P' => Some(Event::Piece(number(digits), rest.to_vec())),
        b'N' => Some(Event::Next(number(digits))),
        b'A' => Some(Event::Propose(number(digits), number(rest))),
        b'D' => Some(Event::Decide(number(digits))),
        b'L' => {
            let (sender, seq) = split(rest, b' ')?;
            Some(Event::Learn(number(digits), (number(sender), number(seq))))
        }
        b'R' => Some(Event::Release(number(digits))),
        b'T' => Some(Event::Turn(number(digits))),
        b'K' => Some(Event::Take(number(digits))),
        b'V' => Some(Event::Leave(number(digits))),
        b'X' => Some(Event::Lost(number(digits))),
        _ => None,
    }
}

fn run() -> Result<(), Refused> {
    let mut text = Vec::new();
    stomp::input()?.read_to_end(&mut text)?;
    let mut out = stomp::output()?;
    let (digits, mut rest) = split(&text, 1).ok_or("no number of topics")?;
    let names = (0..number(digits)).map(|topic| (topic.to_string().into_bytes(), 0));
    let mut core = Core::new(names.collect());
    while let Some((octets, behind)) = split(rest, 1) {
        rest = behind;
        write_outcome(core.step(event(octets).ok_or("no event")?)?, &mut out)?;
    }
    write_report(&core, &mut out)?;
    Ok(out.flush()?)
}

fn main() -> ExitCode {
    match run() {
        Ok(()) => ExitCode::SUCCESS,
        Err(error) => {
            eprintln!("core_baseline: {error}");
            ExitCode::from(2)
        }
    }
}
