//! The job of `bench/measured/locks_main.txt` in plain Rust, with the standard library alone: threads that commit transactions,
//! each of one SEND to so many topics, each topic behind a `Mutex`, with its parts in a tree by their keys and in a map by
//! their ids, and two bounded queues. One thread turns the topics, and one takes what comes. It keeps no trace. It ends
//! with status 2 at a refusal.

use std::collections::{BTreeMap, HashMap};
use std::env;
use std::error::Error;
use std::io::{self, BufWriter, Write};
use std::process::ExitCode;
use std::sync::atomic::{AtomicBool, AtomicU64, Ordering};
use std::sync::mpsc::{self, Receiver, SyncSender};
use std::sync::{Arc, Mutex, OnceLock};
use std::thread;

/// How many places a queue has, and how many transactions of one thread may wait to be taken.
const CAPACITY: usize = 4_096;
const WINDOW: u64 = 256;

/// How many subscriptions each topic has.
const TAKERS: u64 = 2;

/// The topic's limit of parts and rows.
const LIMIT: usize = 65_536;

/// How many octets a SEND's body has.
const BODY: usize = 64;

/// A number, and the place of the topic that gave it. They are ordered by the number first.
#[derive(Clone, Copy, PartialEq, Eq, PartialOrd, Ord)]
struct Stamp {
    number: u64,
    topic: u32,
}

const ZERO: Stamp = Stamp { number: 0, topic: 0 };

/// A sender, and which of its transactions.
#[derive(Clone, Copy, PartialEq, Eq, Hash)]
struct Id {
    sender: u64,
    seq: u64,
}

/// The SENDs of a transaction to one topic, each with its place in the transaction, and the cell of its stamp.
struct Part {
    id: Id,
    topics: Arc<[u32]>,
    sends: Vec<(usize, Vec<u8>)>,
    cell: Arc<OnceLock<Stamp>>,
}

struct Pending {
    part: Arc<Part>,
    learnt: bool,
}

#[allow(dead_code)] // Nobody reads the log here.
struct Row {
    id: Id,
    topics: Arc<[u32]>,
    stamp: Stamp,
}

/// What a subscription gets.
struct Item {
    part: Arc<Part>,
    stamp: Stamp,
}

/// A topic: its clock, its pending parts by key, their keys by id, its log, and its subscriptions' queues, each until it is
/// full.
struct Topic {
    number: u32,
    clock: u64,
    pending: BTreeMap<Stamp, Pending>,
    keys: HashMap<Id, Stamp>,
    rows: Vec<Row>,
    queues: Vec<Option<SyncSender<Item>>>,
}

impl Topic {
    fn propose(&mut self, floor: Stamp, part: Arc<Part>) -> Result<u64, &'static str> {
        if self.keys.contains_key(&part.id) {
            return Err("49 Twice");
        }
        let last = self.clock.max(floor.number);
        let number = last.checked_add(1).ok_or("40 ClockFull")?;
        if self.pending.len() + self.rows.len() >= LIMIT {
            return Err("41 LogFull");
        }
        let key = Stamp { number, topic: self.number };
        self.keys.insert(part.id, key);
        self.pending.insert(key, Pending { part, learnt: false });
        self.clock = number;
        Ok(number)
    }

    fn cancel(&mut self, id: Id) {
        if let Some(key) = self.keys.remove(&id) {
            self.pending.remove(&key);
        }
    }

    fn learn(&mut self, key: Stamp, stamp: Stamp) {
        if key != stamp && self.pending.contains_key(&stamp) {
            return;
        }
        if let Some(mut pending) = self.pending.remove(&key) {
            pending.learnt = true;
            self.keys.insert(pending.part.id, stamp);
            self.pending.insert(stamp, pending);
            self.clock = self.clock.max(stamp.number);
        }
    }

    /// Releases the part of least key, if it has learnt its stamp; whether it was.
    fn release(&mut self) -> bool {
        let Some(least) = self.pending.first_entry().filter(|least| least.get().learnt) else {
            return false;
        };
        let (stamp, Pending { part, .. }) = least.remove_entry();
        self.keys.remove(&part.id);
        for queue in &mut self.queues {
            let full = match queue {
                Some(sender) => sender.try_send(Item { part: part.clone(), stamp }).is_err(),
                None => false,
            };
            if full {
                *queue = None;
            }
        }
        self.rows.push(Row {
            id: part.id,
            topics: part.topics.clone(),
            stamp,
        });
        true
    }

    /// Each pending part whose cell is set learns its stamp, what is due is released, and the log is drained; how many
    /// were released.
    fn turn(&mut self) -> u64 {
        let found: Vec<(Stamp, Stamp)> = self
            .pending
            .iter()
            .filter_map(|(key, pending)| Some((*key, *pending.part.cell.get()?)))
            .collect();
        for (key, stamp) in found {
            self.learn(key, stamp);
        }
        let mut count = 0;
        while self.release() {
            count += 1;
        }
        self.rows.clear();
        count
    }
}

/// What is run: whether each thread that commits has topics of its own, how many topics each transaction has, how many
/// threads there are, and how many transactions each commits.
#[derive(Clone, Copy)]
struct Plan {
    own: bool,
    topics: u32,
    threads: u32,
    commits: u64,
}

impl Plan {
    fn all_topics(self) -> u32 {
        if self.own { self.topics * self.threads } else { self.topics }
    }

    fn first_topic(self, thread: u32) -> u32 {
        if self.own { self.topics * thread } else { 0 }
    }

    fn parts(self) -> u64 {
        self.commits * u64::from(self.threads) * u64::from(self.topics)
    }

    fn items(self) -> u64 {
        u64::from(self.topics) * TAKERS
    }
}

/// What the threads share.
struct Shared {
    plan: Plan,
    topics: Vec<Mutex<Topic>>,
    taken: [AtomicU64; 4],
    failed: AtomicBool,
}

impl Shared {
    fn has_failed(&self) -> bool {
        self.failed.load(Ordering::SeqCst)
    }

    /// How many transactions of the thread were taken, once fewer than the window wait.
    fn wait(&self, thread: u32, made: u64) -> Result<u64, &'static str> {
        loop {
            let taken = self.taken[thread as usize].load(Ordering::SeqCst);
            if made - taken < WINDOW {
                return Ok(taken);
            }
            if self.has_failed() {
                return Err("another thread failed");
            }
            thread::yield_now();
        }
    }

    /// Enters each part at its topic, and decides by the greatest of their keys.
    fn commit(&self, floor: Stamp, parts: Vec<Arc<Part>>) -> Result<Stamp, &'static str> {
        let cell = parts[0].cell.clone();
        let mut stamp = ZERO;
        let topics = parts[0].topics.clone();
        let id = parts[0].id;
        for (k, part) in parts.into_iter().enumerate() {
            let topic = topics[k];
            let entered = self.topics[topic as usize].lock().unwrap().propose(floor, part);
            match entered {
                Ok(number) => stamp = stamp.max(Stamp { number, topic }),
                Err(fault) => {
                    for other in &topics[..k] {
                        self.topics[*other as usize].lock().unwrap().cancel(id);
                    }
                    return Err(fault);
                }
            }
        }
        cell.set(stamp).map_err(|_| "32 AlreadySet")?;
        Ok(stamp)
    }

    /// Says of each thread how many of its transactions were taken: the least of its queues says.
    fn show(&self, lines: &[Line]) {
        let each = self.plan.items() as usize;
        for (thread, counter) in self.taken.iter().enumerate() {
            let first = if self.plan.own { each * thread } else { 0 };
            let lines = lines.get(first..first + each).unwrap_or_default();
            if let Some(least) = lines.iter().map(|line| line.counts[thread]).min() {
                counter.store(least, Ordering::SeqCst);
            }
        }
    }

    /// Commits all transactions of a thread.
    fn commit_all(&self, thread: u32) -> Result<u64, &'static str> {
        let body = [b'a' + thread as u8; BODY];
        let first = self.plan.first_topic(thread);
        let (mut floor, mut taken, mut seq) = (ZERO, 0, 0);
        for k in 0..self.plan.commits {
            if k - taken >= WINDOW {
                taken = self.wait(thread, k)?;
            }
            let mut sends: BTreeMap<u32, Vec<(usize, Vec<u8>)>> = BTreeMap::new();
            for place in 0..self.plan.topics {
                sends
                    .entry(first + place)
                    .or_default()
                    .push((place as usize, body.to_vec()));
            }
            seq += 1;
            let topics: Arc<[u32]> = sends.keys().copied().collect();
            let cell = Arc::new(OnceLock::new());
            let id = Id { sender: u64::from(thread), seq };
            let parts = sends
                .into_values()
                .map(|sends| {
                    let (topics, cell) = (topics.clone(), cell.clone());
                    Arc::new(Part { id, topics, sends, cell })
                })
                .collect();
            floor = self.commit(floor, parts)?;
        }
        Ok(seq)
    }

    /// Turns all topics until all parts were released.
    fn turn_all(&self) -> Result<u64, &'static str> {
        let mut released = 0;
        loop {
            let mut more = 0;
            for topic in &self.topics {
                more += topic.lock().unwrap().turn();
            }
            released += more;
            if released >= self.plan.parts() {
                return Ok(released);
            }
            if self.has_failed() {
                return Err("another thread failed");
            }
            if more == 0 {
                thread::yield_now();
            }
        }
    }

    /// Takes all items.
    fn take_all(&self, lines: &mut [Line]) -> Result<(), &'static str> {
        let mut taken = 0;
        loop {
            let mut more = 0;
            for line in lines.iter_mut() {
                more += line.take_some();
            }
            self.show(lines);
            taken += more;
            if taken >= self.plan.parts() * TAKERS {
                return Ok(());
            }
            if self.has_failed() {
                return Err("another thread failed");
            }
            if more == 0 {
                thread::yield_now();
            }
        }
    }
}

/// A subscription, and what was taken of it: how many items of each thread, their sum, a digest of their list, the last stamp, and
/// whether the stamps rose.
struct Line {
    topic: u32,
    queue: Receiver<Item>,
    counts: [u64; 4],
    sum: u64,
    digest: u64,
    last: Stamp,
    rose: bool,
}

impl Line {
    /// Adds an item to what was taken.
    fn note(&mut self, item: &Item) {
        let (id, stamp) = (item.part.id, item.stamp);
        let octets = match item.part.sends.first().map(|send| send.1.as_slice()) {
            Some(body @ [first, .., last]) => {
                u64::from(*first) * 256 + u64::from(*last) + body.len() as u64
            }
            Some(_) => 1,
            None => 0,
        };
        let who = id.sender.wrapping_mul(1_000_003).wrapping_add(id.seq);
        let mark = who.wrapping_mul(0x9E37_79B9_7F4A_7C15).wrapping_add(octets);
        let place = stamp.number.wrapping_mul(1_000_003).wrapping_add(u64::from(stamp.topic));
        self.counts[id.sender as usize] += 1;
        self.sum = self.sum.wrapping_add(mark ^ (mark >> 29));
        self.digest = self.digest.wrapping_mul(0x0000_0100_0000_01B3).wrapping_add(mark ^ place);
        self.rose = self.rose && self.last < stamp;
        self.last = stamp;
    }

    /// Takes what is there; how many items.
    fn take_some(&mut self) -> u64 {
        for count in 0..CAPACITY as u64 {
            let Ok(item) = self.queue.try_recv() else {
                return count;
            };
            self.note(&item);
        }
        CAPACITY as u64
    }

    /// How many items were taken.
    fn count(&self) -> u64 {
        self.counts.iter().sum()
    }
}

/// The topics of the plan, and two subscriptions at each.
fn topics_of(plan: Plan) -> (Vec<Mutex<Topic>>, Vec<Line>) {
    let (mut topics, mut lines) = (Vec::new(), Vec::new());
    for number in 0..plan.all_topics() {
        let mut queues = Vec::new();
        for _ in 0..TAKERS {
            let (sender, queue) = mpsc::sync_channel(CAPACITY);
            queues.push(Some(sender));
            lines.push(Line {
                topic: number,
                queue,
                counts: [0; 4],
                sum: 0,
                digest: 0,
                last: ZERO,
                rose: true,
            });
        }
        topics.push(Mutex::new(Topic {
            number,
            clock: 0,
            pending: BTreeMap::new(),
            keys: HashMap::new(),
            rows: Vec::new(),
            queues,
        }));
    }
    (topics, lines)
}

/// What was taken, and whether the lists of topics that are named together are one.
fn put_lines(plan: Plan, lines: &[Line], out: &mut impl Write) -> io::Result<()> {
    let mut first = 0;
    for (k, line) in lines.iter().enumerate() {
        if k as u64 % plan.items() == 0 {
            first = line.digest;
        }
        let (topic, count, sum) = (line.topic, line.count(), line.sum);
        let (rose, one) = (line.rose, line.digest == first);
        write!(out, "topic {topic} items {count} sum {sum} rose {rose} one {one}")?;
        if plan.own || plan.threads == 1 {
            write!(out, " list {first}")?;
        }
        writeln!(out)?;
    }
    Ok(())
}

fn run() -> Result<(), Box<dyn Error>> {
    let words: Vec<String> = env::args().skip(1).collect();
    let [kind, topics, threads, commits] = words.as_slice() else {
        return Err("own|same TOPICS THREADS COMMITS".into());
    };
    let threads: u32 = threads.parse()?;
    let plan = Plan {
        own: kind == "own",
        topics: topics.parse()?,
        threads,
        commits: commits.parse::<u64>()?.checked_div(u64::from(threads)).unwrap_or(0),
    };
    if !(1..=8).contains(&plan.topics) || !(1..=4).contains(&plan.threads) {
        return Err("1 to 8 topics, and 1 to 4 threads".into());
    }
    let (topics, mut lines) = topics_of(plan);
    let shared = Shared {
        plan,
        topics,
        taken: [0; 4].map(AtomicU64::new),
        failed: AtomicBool::new(false),
    };
    let shared = &shared;
    let guarded = |done: Result<u64, &'static str>| {
        done.inspect_err(|_| shared.failed.store(true, Ordering::SeqCst))
    };
    let (turned, took, committed) = thread::scope(|scope| {
        let head = scope.spawn(move || guarded(shared.turn_all()));
        let taker = scope.spawn(|| guarded(shared.take_all(&mut lines).map(|()| 0)));
        let threads: Vec<_> = (0..plan.threads)
            .map(|thread| scope.spawn(move || guarded(shared.commit_all(thread))))
            .collect();
        let committed: Vec<_> = threads.into_iter().map(|thread| thread.join().unwrap()).collect();
        (head.join().unwrap(), taker.join().unwrap(), committed)
    });
    took?;
    let mut out = BufWriter::new(io::stdout().lock());
    writeln!(out, "turned {}", turned?)?;
    put_lines(plan, &lines, &mut out)?;
    for count in committed {
        writeln!(out, "committed {}", count?)?;
    }
    Ok(out.flush()?)
}

fn main() -> ExitCode {
    match run() {
        Ok(()) => ExitCode::SUCCESS,
        Err(error) => {
            eprintln!("locks_baseline: {error}");
            ExitCode::from(2)
        }
    }
}
