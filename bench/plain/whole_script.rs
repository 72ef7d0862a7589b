//! Scripts in plain Rust: each line that there is, and what is written of a run. docs/PROGRAMS.md, and no line
//! of the crates.

use crate::whole_core::{Core, Event, Id, Lack, Row, Stamp};
use std::io::Write;

const TOPICS_LIMIT: usize = 1_024;
const CAPACITY_LIMIT: u64 = 4_096;

pub struct Script {
    capacity: usize,
    topics: Vec<(Vec<u8>, u64)>,
    pub events: Vec<Event>,
}

/// A decimal number without sign or leading zero, up to this one.
pub fn number(digits: &[u8], most: u64) -> Option<u64> {
    let is_spelled = !digits.is_empty() && digits.iter().all(u8::is_ascii_digit);
    if !is_spelled || (digits[0] == b'0' && digits.len() > 1) {
        return None;
    }
    let number = std::str::from_utf8(digits).ok()?.parse().ok()?;
    (number <= most).then_some(number)
}

/// The octets that a TEXT spells, at least one.
fn octets(text: &[u8]) -> Option<Vec<u8>> {
    let (mut octets, mut rest) = (Vec::new(), text);
    while let [first, others @ ..] = rest {
        let (octet, after) = match (first, others) {
            (b'\\', [b'n', after @ ..]) => (b'\n', after),
            (b'\\', [b'r', after @ ..]) => (b'\r', after),
            (b'\\', [b'0', after @ ..]) => (0, after),
            (b'\\', [b'\\', after @ ..]) => (b'\\', after),
            (b'\\', [b'x', high, low, after @ ..]) => (16 * hexadecimal(*high)? + hexadecimal(*low)?, after),
            (b'\\', _) => return None,
            (octet, after) => (*octet, after),
        };
        octets.push(octet);
        rest = after;
    }
    (!octets.is_empty()).then_some(octets)
}

fn hexadecimal(digit: u8) -> Option<u8> {
    match digit {
        b'0'..=b'9' => Some(digit - b'0'),
        b'a'..=b'f' => Some(digit - b'a' + 10),
        _ => None,
    }
}

/// The event of a line.
fn event(line: &[u8]) -> Option<Event> {
    let words: Vec<&[u8]> = line.split(|octet| *octet == b' ').collect();
    let at = |place: usize| number(words[place], u64::MAX);
    let topic_at = |place: usize| number(words[place], u32::MAX.into());
    Some(match (words[0], words.len()) {
        (b"open", 1) => Event::Open,
        (b"piece", 3..) => {
            let place = b"piece ".len() + words[1].len() + 1;
            Event::Piece(at(1)?, octets(&line[place..])?)
        }
        (b"next", 2) => Event::Next(at(1)?),
        (b"propose", 3) => Event::Propose(at(1)?, topic_at(2)?),
        (b"decide", 2) => Event::Decide(at(1)?),
        (b"withdraw", 2) => Event::Withdraw(at(1)?),
        (b"cancel", 3) => Event::Cancel(at(1)?, topic_at(2)?),
        (b"learn", 4) => Event::Learn(topic_at(1)?, (at(2)?, at(3)?)),
        (b"release", 2) => Event::Release(topic_at(1)?),
        (b"turn", 2) => Event::Turn(topic_at(1)?),
        (b"take", 2) => Event::Take(at(1)?),
        (b"leave", 2) => Event::Leave(at(1)?),
        (b"lost", 2) => Event::Lost(at(1)?),
        _ => return None,
    })
}

impl Script {
    /// The script, or the number of its first bad line.
    pub fn parse(text: &[u8]) -> Result<Script, usize> {
        let mut script = Script {
            capacity: 0,
            topics: Vec::new(),
            events: Vec::new(),
        };
        for (place, line) in text.split(|octet| *octet == b'\n').enumerate() {
            if !line.is_empty() && line[0] != b'#' {
                script.add(line).ok_or(place + 1)?;
            }
        }
        Ok(script)
    }

    fn add(&mut self, line: &[u8]) -> Option<()> {
        if let Some(setting) = self.setting(line) {
            return setting.filter(|_| self.events.is_empty());
        }
        self.events.push(event(line)?);
        Some(())
    }

    /// None where the line is no setting; else whether it is a good one.
    fn setting(&mut self, line: &[u8]) -> Option<Option<()>> {
        let words: Vec<&[u8]> = line.split(|octet| *octet == b' ').collect();
        match words[..] {
            [b"capacity", digits] => Some(match number(digits, CAPACITY_LIMIT) {
                Some(capacity) if capacity > 0 && self.capacity == 0 => {
                    self.capacity = capacity as usize;
                    Some(())
                }
                _ => None,
            }),
            [b"topic", name, clock] => {
                let is_name = !name.is_empty() && name.iter().all(|octet| (33..127).contains(octet));
                let is_new = self.topics.iter().all(|topic| topic.0 != name);
                Some(match number(clock, u64::MAX) {
                    Some(clock) if is_name && is_new && self.topics.len() < TOPICS_LIMIT => {
                        self.topics.push((name.to_vec(), clock));
                        Some(())
                    }
                    _ => None,
                })
            }
            _ => None,
        }
    }

    /// Runs it: the core, and the outcomes. The event of this place lacks this; none where it can't.
    fn run(&self, place: usize, lack: Lack) -> Option<(Core, Vec<String>)> {
        let capacity = if self.capacity == 0 { 64 } else { self.capacity };
        let mut core = Core::new(capacity, &self.topics);
        let mut told = Vec::with_capacity(self.events.len());
        for (at, event) in self.events.iter().enumerate() {
            let lack = if at == place { lack } else { Lack::Nothing };
            told.push(core.step(event, lack)?);
        }
        Some((core, told))
    }

    /// What `stompd script` writes, where the event of this place lacks this.
    pub fn outcomes(&self, place: usize, lack: Lack) -> Option<Vec<u8>> {
        let (core, told) = self.run(place, lack)?;
        let mut out = Vec::new();
        for line in told {
            out.extend_from_slice(line.as_bytes());
            out.push(b'\n');
        }
        core.commits
            .iter()
            .for_each(|row| put_row("commit", row, &mut out));
        put_logs(&core, &mut out);
        put_queues(&core, true, &mut out);
        for (number, connection) in core.connections.iter().enumerate() {
            put(&mut out, &format!("out {number}"));
            if !connection.out.is_empty() {
                out.push(b' ');
                connection
                    .out
                    .iter()
                    .for_each(|octet| put_shown(*octet, &mut out));
            }
            out.push(b'\n');
        }
        Some(out)
    }

    /// What `stompd trace` writes, where the event of this place lacks this.
    pub fn trace(&self, place: usize, lack: Lack) -> Option<Vec<u8>> {
        let (core, _) = self.run(place, lack)?;
        let mut out = Vec::new();
        put_logs(&core, &mut out);
        put_queues(&core, false, &mut out);
        Some(out)
    }
}

fn put(out: &mut Vec<u8>, text: &str) {
    out.extend_from_slice(text.as_bytes());
}

fn stamp_text(stamp: Stamp) -> String {
    format!("{}.{}", stamp.number, stamp.topic)
}

fn put_row(word: &str, row: &Row, out: &mut Vec<u8>) {
    let topics: Vec<String> = row.topics.iter().map(usize::to_string).collect();
    let (id, stamp, topics) = (row.id, stamp_text(row.stamp), topics.join(","));
    put(out, &format!("{word} {} {} {stamp} {topics}\n", id.0, id.1));
}

fn put_logs(core: &Core, out: &mut Vec<u8>) {
    for (topic, log) in core.logs().enumerate() {
        log.iter()
            .for_each(|row| put_row(&format!("log {topic}"), row, out));
    }
}

fn put_queues(core: &Core, with_handed: bool, out: &mut Vec<u8>) {
    for (number, queue) in core.queues.iter().enumerate() {
        let to = queue.to.map_or("-".into(), stamp_text);
        put(
            out,
            &format!("span {number} {} {} {to}\n", queue.topic, stamp_text(queue.from)),
        );
        put_items(&format!("queue {number}"), &queue.items, out);
        if with_handed {
            put_items(&format!("handed {number}"), &queue.items[..queue.taken], out);
        }
    }
}

fn put_items(word: &str, items: &[(Id, Stamp)], out: &mut Vec<u8>) {
    for (id, stamp) in items {
        put(out, &format!("{word} {} {} {}\n", id.0, id.1, stamp_text(*stamp)));
    }
}

/// An octet as an `out` line shows it.
fn put_shown(octet: u8, out: &mut Vec<u8>) {
    match octet {
        b'\n' => put(out, "\\n"),
        b'\r' => put(out, "\\r"),
        0 => put(out, "\\0"),
        b'\\' => put(out, "\\\\"),
        32..=126 => out.push(octet),
        other => write!(out, "\\x{other:02x}").expect("a vector takes all"),
    }
}
