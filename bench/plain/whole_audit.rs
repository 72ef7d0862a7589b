//! Traces in plain Rust: their rows, and what an auditor says of them. docs/PROGRAMS.md, and no line of the
//! crates. `audit_baseline.rs` beside it is for measuring.

use crate::whole_script::number;
use std::collections::{BTreeMap, HashMap};
use std::fmt::Write;

type Id = (u64, u64);
type Stamp = (u64, u64);

const WORD: u64 = u32::MAX as u64;

struct LogRow {
    id: Id,
    stamp: Stamp,
    topics: Vec<u64>,
}

struct Span {
    topic: u64,
    from: Stamp,
    to: Option<Stamp>,
    queue: Vec<(Id, Stamp)>,
}

#[derive(Default)]
struct Trace {
    logs: BTreeMap<u64, Vec<LogRow>>,
    spans: BTreeMap<u64, Span>,
}

/// What is written of a trace's text, and the status.
pub fn audit(text: &[u8]) -> (Vec<u8>, u8) {
    let trace = match Trace::parse(text) {
        Ok(trace) => trace,
        Err(line) => return (format!("bad 90 BadRow {line}\n").into(), 2),
    };
    match trace.agreed() {
        Ok(told) => (told.into(), 0),
        Err(fault) => (format!("no {fault}\n").into(), 3),
    }
}

fn stamp(text: &[u8]) -> Option<Stamp> {
    let dot = text.iter().position(|octet| *octet == b'.')?;
    Some((number(&text[..dot], u64::MAX)?, number(&text[dot + 1..], WORD)?))
}

/// Topics that rise.
fn topics(text: &[u8]) -> Option<Vec<u64>> {
    let topics = text
        .split(|octet| *octet == b',')
        .map(|digits| number(digits, WORD));
    let topics = topics.collect::<Option<Vec<u64>>>()?;
    topics.windows(2).all(|two| two[0] < two[1]).then_some(topics)
}

impl Trace {
    /// The trace, or the number of its first bad line.
    fn parse(text: &[u8]) -> Result<Trace, usize> {
        let mut trace = Trace::default();
        if text.is_empty() {
            return Ok(trace);
        }
        // The last line may lack its end. A text of one end alone is an empty line.
        let text = text.strip_suffix(b"\n").unwrap_or_else(|| text);
        for (place, line) in text.split(|octet| *octet == b'\n').enumerate() {
            trace.add(line).ok_or(place + 1)?;
        }
        Ok(trace)
    }

    fn add(&mut self, line: &[u8]) -> Option<()> {
        let words: Vec<&[u8]> = line.split(|octet| *octet == b' ').collect();
        let whole = |digits: &[u8]| number(digits, u64::MAX);
        match words[..] {
            [b"log", topic, sender, seq, at, named] => {
                let (topic, topics) = (number(topic, WORD)?, topics(named)?);
                let row = LogRow {
                    id: (whole(sender)?, whole(seq)?),
                    stamp: stamp(at)?,
                    topics,
                };
                if !row.topics.contains(&topic) {
                    return None;
                }
                self.logs.entry(topic).or_default().push(row);
            }
            [b"span", sub, topic, from, to] => {
                let span = Span {
                    topic: number(topic, WORD)?,
                    from: stamp(from)?,
                    to: if to == b"-" { None } else { Some(stamp(to)?) },
                    queue: Vec::new(),
                };
                let sub = whole(sub)?;
                if self.spans.contains_key(&sub) {
                    return None;
                }
                self.spans.insert(sub, span);
            }
            [b"queue", sub, sender, seq, at] => {
                let row = ((whole(sender)?, whole(seq)?), stamp(at)?);
                self.spans.get_mut(&whole(sub)?)?.queue.push(row);
            }
            _ => return None,
        }
        Some(())
    }

    /// The distinct rows of all logs by their stamps.
    fn rows(&self) -> Result<Vec<&LogRow>, String> {
        let mut rows: HashMap<Id, &LogRow> = HashMap::new();
        for row in self.logs.values().flatten() {
            let other = rows.entry(row.id).or_insert(row);
            if other.stamp != row.stamp || other.topics != row.topics {
                return Err("93 TwoVerdicts".into());
            }
        }
        let mut rows: Vec<&LogRow> = rows.into_values().collect();
        rows.sort_by_key(|row| row.stamp);
        match rows.windows(2).any(|two| two[0].stamp == two[1].stamp) {
            true => Err("97 SameStamp".into()),
            false => Ok(rows),
        }
    }

    fn agreed(&self) -> Result<String, String> {
        let rows = self.rows()?;
        if self
            .logs
            .values()
            .any(|log| log.windows(2).any(|two| two[0].stamp >= two[1].stamp))
        {
            return Err("92 LogOrder".into());
        }
        let mut seqs: HashMap<u64, u64> = HashMap::new();
        for row in &rows {
            if seqs.insert(row.id.0, row.id.1).is_some_and(|seq| seq >= row.id.1) {
                return Err("94 SenderOrder".into());
            }
        }
        for (topic, log) in &self.logs {
            let last = log.last().map(|row| row.stamp);
            let due = rows
                .iter()
                .filter(|row| row.topics.contains(topic) && Some(row.stamp) <= last);
            if !due.map(|row| row.id).eq(log.iter().map(|row| row.id)) {
                return Err(format!("95 Hole {topic}"));
            }
        }
        for (sub, span) in &self.spans {
            let log = self.logs.get(&span.topic).map_or(&[][..], Vec::as_slice);
            let is_within = |row: &&LogRow| span.from < row.stamp && span.to.is_none_or(|to| row.stamp <= to);
            let due = log.iter().filter(is_within).map(|row| (row.id, row.stamp));
            if !due.eq(span.queue.iter().copied()) {
                return Err(format!("96 QueueRow {sub}"));
            }
        }
        Ok(self.told(&rows))
    }

    fn told(&self, rows: &[&LogRow]) -> String {
        let (mut told, mut is_complete) = (String::new(), true);
        for row in rows {
            let names: Vec<String> = row.topics.iter().map(u64::to_string).collect();
            let (id, stamp, names) = (row.id, row.stamp, names.join(","));
            writeln!(told, "agreed {} {} {}.{} {names}", id.0, id.1, stamp.0, stamp.1)
                .expect("a text takes all");
            let is_in = |topic: &u64| {
                self.logs
                    .get(topic)
                    .is_some_and(|log| log.iter().any(|own| own.id == row.id))
            };
            is_complete &= row.topics.iter().all(is_in);
        }
        told + if is_complete { "complete\n" } else { "incomplete\n" }
    }
}
