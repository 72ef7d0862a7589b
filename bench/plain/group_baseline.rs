//! The job of `bench/measured/group_main.txt` in plain Rust, with the standard library alone: it reads a letter, a
//! number of parts, and the bodies of transactions, each of one SEND, and proposes each to one topic, whose
//! parts are in a tree by their keys and in a map by their ids. At `o`, once more parts than that number are
//! pending, the oldest learns its stamp and is released. At the other letters, once that number is pending,
//! all learn their stamps and are released: at `r` in an order that is drawn, at `t` by a turn, and at `d` in
//! their order, and then the log is drained. It ends with status 2 at a refusal.

use std::collections::{BTreeMap, HashMap, VecDeque};
use std::error::Error;
use std::io::{self, BufWriter, Read, Write};
use std::process::ExitCode;
use std::sync::Arc;

/// The topic's limit of parts and rows.
const LIMIT: usize = 1_000_000;

/// A number, and the place of the topic that gave it. They are ordered by the number first.
#[derive(Clone, Copy, PartialEq, Eq, PartialOrd, Ord)]
struct Stamp {
    number: u64,
    topic: u32,
}

/// The SENDs of a transaction to one topic, each with its place in the transaction.
#[allow(dead_code)] // A subscriber would read the SENDs, and there is none here.
struct Part {
    id: u64,
    topics: Arc<[u32]>,
    sends: Vec<(usize, Vec<u8>)>,
}

struct Pending {
    part: Arc<Part>,
    learnt: bool,
}

#[allow(dead_code)] // Nobody reads the log here.
struct Row {
    id: u64,
    topics: Arc<[u32]>,
    stamp: Stamp,
}

/// A topic: its clock, its pending parts by key, their keys by id, and its log.
struct Topic {
    clock: u64,
    pending: BTreeMap<Stamp, Pending>,
    keys: HashMap<u64, Stamp>,
    rows: Vec<Row>,
    frontier: Stamp,
}

impl Topic {
    fn propose(&mut self, part: Arc<Part>) -> Result<Stamp, &'static str> {
        if self.keys.contains_key(&part.id) {
            return Err("49 Twice");
        }
        let number = self.clock.checked_add(1).ok_or("40 ClockFull")?;
        if self.pending.len() + self.rows.len() >= LIMIT {
            return Err("41 LogFull");
        }
        let key = Stamp { number, topic: 0 };
        self.keys.insert(part.id, key);
        self.pending.insert(key, Pending { part, learnt: false });
        self.clock = number;
        Ok(key)
    }

    fn learn(&mut self, id: u64, stamp: Stamp) -> Result<(), &'static str> {
        let key = self.keys.get_mut(&id).ok_or("43 NotPending")?;
        if *key != stamp && self.pending.contains_key(&stamp) {
            return Err("45 Clash");
        }
        let mut pending = self.pending.remove(key).ok_or("43 NotPending")?;
        pending.learnt = true;
        self.pending.insert(stamp, pending);
        *key = stamp;
        self.clock = self.clock.max(stamp.number);
        Ok(())
    }

    /// Releases the part of least key, if it has learnt its stamp; whether it was.
    fn release(&mut self) -> bool {
        let Some(least) = self.pending.first_entry().filter(|least| least.get().learnt) else {
            return false;
        };
        let (stamp, pending) = least.remove_entry();
        self.keys.remove(&pending.part.id);
        self.rows.push(Row {
            id: pending.part.id,
            topics: pending.part.topics.clone(),
            stamp,
        });
        self.frontier = stamp;
        true
    }

    /// Releases until nothing is due; how many were released.
    fn release_all(&mut self) -> u64 {
        let mut count = 0;
        while self.release() {
            count += 1;
        }
        count
    }

    /// Tries to learn for each pending part, and releases until nothing is due; how many were released.
    fn turn(&mut self, stamps: &HashMap<u64, Stamp>) -> u64 {
        let found: Vec<(u64, Stamp)> = self
            .pending
            .values()
            .filter_map(|pending| Some((pending.part.id, *stamps.get(&pending.part.id)?)))
            .collect();
        for (id, stamp) in found {
            let _ = self.learn(id, stamp);
        }
        self.release_all()
    }
}

/// The stamp that a verdict's rows say.
fn decided(rows: &[Stamp]) -> Stamp {
    let zero = Stamp { number: 0, topic: 0 };
    rows.iter().copied().max().unwrap_or(zero)
}

/// All learn their stamps and are released, as the letter says; how many were, or the sum of the ids that were drained.
fn run_round(
    job: u8,
    topic: &mut Topic,
    verdicts: &mut Vec<(u64, Vec<Stamp>)>,
    draws: &mut u32,
) -> Result<u64, &'static str> {
    match job {
        b'r' => {
            while !verdicts.is_empty() {
                *draws = draws.wrapping_mul(1_664_525).wrapping_add(1_013_904_223);
                let place = (*draws >> 8) as usize % verdicts.len();
                let (id, rows) = verdicts.swap_remove(place);
                topic.learn(id, decided(&rows))?;
            }
            Ok(topic.release_all())
        }
        b't' => {
            let stamps = verdicts.iter().map(|(id, rows)| (*id, decided(rows))).collect();
            Ok(topic.turn(&stamps))
        }
        _ => {
            for (id, rows) in verdicts.iter() {
                topic.learn(*id, decided(rows))?;
            }
            topic.release_all();
            Ok(topic.rows.drain(..).fold(0, |sum, row| sum.wrapping_add(row.id)))
        }
    }
}

fn run() -> Result<(), Box<dyn Error>> {
    let mut text = Vec::new();
    io::stdin().lock().read_to_end(&mut text)?;
    let mut out = BufWriter::with_capacity(65_536, io::stdout().lock());
    let text = text.strip_suffix(b"\0").ok_or("no end")?;
    let mut bodies = text.split(|octet| *octet == 0);
    let (job, digits) = bodies.next().and_then(<[u8]>::split_first).ok_or("no letter")?;
    let many: usize = std::str::from_utf8(digits)?.parse()?;
    let zero = Stamp {
        number: 0,
        topic: 0,
    };
    let mut topic = Topic {
        clock: 0,
        pending: BTreeMap::new(),
        keys: HashMap::new(),
        rows: Vec::new(),
        frontier: zero,
    };
    let mut oldest: VecDeque<(u64, Vec<Stamp>)> = VecDeque::new();
    let mut round: Vec<(u64, Vec<Stamp>)> = Vec::new();
    let mut draws = 1;
    for (place, body) in bodies.enumerate() {
        let id = place as u64 + 1;
        let part = Arc::new(Part {
            id,
            topics: Arc::from([0]),
            sends: vec![(0, body.to_vec())],
        });
        let verdict = (id, vec![topic.propose(part)?]);
        if *job != b'o' {
            round.push(verdict);
            if round.len() == many {
                let done = run_round(*job, &mut topic, &mut round, &mut draws)?;
                round.clear();
                writeln!(out, "{done} {}.{}", topic.frontier.number, topic.frontier.topic)?;
            }
            continue;
        }
        oldest.push_back(verdict);
        if oldest.len() > many {
            if let Some((id, rows)) = oldest.pop_front() {
                topic.learn(id, decided(&rows))?;
                topic.release();
            }
            writeln!(out, "{}.{}", topic.frontier.number, topic.frontier.topic)?;
        }
    }
    Ok(out.flush()?)
}

fn main() -> ExitCode {
    match run() {
        Ok(()) => ExitCode::SUCCESS,
        Err(error) => {
            eprintln!("group_baseline: {error}");
            ExitCode::from(2)
        }
    }
}
