//! The job of `bench/measured/topic_main.txt` in plain Rust, with the standard library alone: it reads a number
//! of subscriptions and the bodies of transactions, each of one SEND, and sends each transaction to
//! one topic, which releases it to each subscription. It ends with status 2 at a refusal.

use std::error::Error;
use std::io::{self, BufWriter, Read, Write};
use std::process::ExitCode;
use std::sync::Arc;

/// The topic's limit of parts and rows, and the capacity of each queue: nothing lags.
const LIMIT: usize = 1_000_000;

/// A number, and the place of the topic that gave it. They are ordered by the number first.
#[derive(Clone, Copy, PartialEq, Eq, PartialOrd, Ord)]
struct Stamp {
    number: u64,
    topic: u32,
}

const ZERO: Stamp = Stamp {
    number: 0,
    topic: 0,
};

/// The SENDs of a transaction to one topic, each with its place in the transaction.
#[allow(dead_code)] // A subscriber would read the SENDs, and there is none here.
struct Part {
    id: u64,
    topics: Arc<[u32]>,
    sends: Vec<(usize, Vec<u8>)>,
}

struct Pending {
    part: Arc<Part>,
    ticket: u64,
    learnt: Option<Stamp>,
}

impl Pending {
    fn key(&self) -> Stamp {
        self.learnt.unwrap_or(Stamp {
            number: self.ticket,
            topic: 0,
        })
    }
}

#[allow(dead_code)] // Nobody reads the log here.
struct Row {
    id: u64,
    topics: Arc<[u32]>,
    stamp: Stamp,
}

struct Subscription {
    number: u64,
    to: Option<Stamp>,
    items: Vec<(Arc<Part>, Stamp)>,
    taken: usize,
}

/// A topic: its clock, its pending parts, its log and its subscriptions.
struct Topic {
    clock: u64,
    pending: Vec<Pending>,
    rows: Vec<Row>,
    frontier: Stamp,
    subscriptions: Vec<Subscription>,
}

impl Topic {
    fn new(subscriptions: u64) -> Topic {
        Topic {
            clock: 0,
            pending: Vec::new(),
            rows: Vec::new(),
            frontier: ZERO,
            subscriptions: (0..subscriptions)
                .map(|number| Subscription {
                    number,
                    to: None,
                    items: Vec::new(),
                    taken: 0,
                })
                .collect(),
        }
    }

    fn propose(&mut self, floor: Stamp, part: Arc<Part>) -> Result<u64, &'static str> {
        let place = match self.pending.binary_search_by_key(&part.id, |p| p.part.id) {
            Ok(_) => return Err("49 Twice"),
            Err(place) => place,
        };
        let last = self.clock.max(floor.number);
        let ticket = last.checked_add(1).ok_or("40 ClockFull")?;
        if self.pending.len() + self.rows.len() >= LIMIT {
            return Err("41 LogFull");
        }
        self.pending.insert(
            place,
            Pending {
                part,
                ticket,
                learnt: None,
            },
        );
        self.clock = ticket;
        Ok(ticket)
    }

    fn learn(&mut self, id: u64, stamp: Stamp) -> Result<(), &'static str> {
        let place = self
            .pending
            .binary_search_by_key(&id, |p| p.part.id)
            .map_err(|_| "43 NotPending")?;
        self.pending[place].learnt = Some(stamp);
        self.clock = self.clock.max(stamp.number);
        Ok(())
    }

    /// Releases the part of least key, if it has learnt its stamp.
    fn release(&mut self) {
        let least = (0..self.pending.len()).min_by_key(|place| self.pending[*place].key());
        let Some(place) = least.filter(|place| self.pending[*place].learnt.is_some()) else {
            return;
        };
        let pending = self.pending.remove(place);
        let (part, stamp) = (&pending.part, pending.key());
        for sub in &mut self.subscriptions {
            if sub.to.is_some() {
                continue;
            }
            if sub.items.len() - sub.taken < LIMIT {
                sub.items.push((part.clone(), stamp));
            } else {
                sub.to = Some(self.frontier);
            }
        }
        self.rows.push(Row {
            id: part.id,
            topics: part.topics.clone(),
            stamp,
        });
        self.frontier = stamp;
    }
}

/// Sends a transaction of one SEND to the topic, which releases it; the sender's new floor.
fn commit(topic: &mut Topic, id: u64, floor: Stamp, body: &[u8]) -> Result<Stamp, &'static str> {
    let part = Arc::new(Part {
        id,
        topics: Arc::from([0]),
        sends: vec![(0, body.to_vec())],
    });
    let number = topic.propose(floor, part)?;
    let verdict = vec![Stamp { number, topic: 0 }];
    let stamp = verdict.iter().copied().max().unwrap_or(floor);
    topic.learn(id, stamp)?;
    topic.release();
    Ok(stamp)
}

fn run() -> Result<(), Box<dyn Error>> {
    let mut text = Vec::new();
    io::stdin().lock().read_to_end(&mut text)?;
    let mut out = BufWriter::with_capacity(65_536, io::stdout().lock());
    let text = text.strip_suffix(b"\0").ok_or("no end")?;
    let mut bodies = text.split(|octet| *octet == 0);
    let digits = bodies.next().ok_or("no number of subscriptions")?;
    let subscriptions = std::str::from_utf8(digits)?.parse()?;
    let mut topic = Topic::new(subscriptions);
    let mut floor = ZERO;
    for (place, body) in bodies.enumerate() {
        floor = commit(&mut topic, place as u64 + 1, floor, body)?;
        writeln!(out, "{}.{}", topic.frontier.number, topic.frontier.topic)?;
    }
    for number in 0..subscriptions {
        let found = topic.subscriptions.iter().position(|sub| sub.number == number);
        let sub = topic.subscriptions.remove(found.ok_or("48 NoSub")?);
        let end = sub.to.unwrap_or(topic.frontier);
        writeln!(out, "{} {}.{}", sub.items.len(), end.number, end.topic)?;
    }
    Ok(out.flush()?)
}

fn main() -> ExitCode {
    match run() {
        Ok(()) => ExitCode::SUCCESS,
        Err(error) => {
            eprintln!("topic_baseline: {error}");
            ExitCode::from(2)
        }
    }
}
