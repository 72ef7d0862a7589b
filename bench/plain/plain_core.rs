//! A core in plain Rust, with the maps and vectors of the standard library: what `core_baseline.rs` and
//! `script_baseline.rs` share. It keeps each event with what came of it, and fails at a refusal.

use crate::cases::classify;
use crate::stomp::{Command, Frame, Frames, is_carried, write_escaped};
use std::collections::{BTreeMap, HashMap};
use std::error::Error;
use std::io::Write;
use std::rc::Rc;

/// The most parts and rows of a topic, the most items of a queue, and a session's limits.
pub const LOG_LIMIT: usize = 65_536;
pub const CAPACITY: usize = 4_096;
pub const OPEN_LIMIT: usize = 64;
pub const SENDS_LIMIT: usize = 64;
pub const TOPICS_LIMIT: usize = 1_024;
pub const CLIENTS_LIMIT: usize = 65_536;

pub type Refused = Box<dyn Error>;

/// A number, and the topic that gave it. They are ordered by the number first.
#[derive(Clone, Copy, PartialEq, Eq, PartialOrd, Ord)]
pub struct Stamp {
    pub number: u64,
    pub topic: usize,
}

pub const ZERO: Stamp = Stamp {
    number: 0,
    topic: 0,
};

/// A transaction: its sender, and its place among the sender's, from 1.
pub type Id = (usize, usize);

#[allow(dead_code)] // Nobody reads the events that are kept.
pub enum Event {
    Open,
    Piece(usize, Vec<u8>),
    Next(usize),
    Propose(usize, usize),
    Decide(usize),
    Learn(usize, Id),
    Release(usize),
    Turn(usize),
    Take(usize),
    Leave(usize),
    Lost(usize),
}

#[derive(Clone, Copy)]
pub enum Outcome {
    Opened(usize),
    Fed,
    Done,
    Subscribed(usize, Stamp),
    Flying(Id),
    Proposed(u64),
    Decided(Stamp),
    Learnt,
    Released(Id),
    Turned(usize),
    Handed(usize),
    Leaving,
    Gone,
}

/// A SEND: its place in its transaction, its topic, the headers that go on to its MESSAGE, and its body.
pub struct Send {
    index: usize,
    topic: usize,
    headers: Vec<(Vec<u8>, Vec<u8>)>,
    body: Vec<u8>,
}

/// The SENDs of a transaction to one topic.
pub struct Part {
    pub id: Id,
    pub topics: Rc<[usize]>,
    pub sends: Vec<Send>,
}

pub struct Row {
    pub id: Id,
    pub topics: Rc<[usize]>,
    pub stamp: Stamp,
}

pub struct Pending {
    part: Rc<Part>,
    learnt: bool,
}

/// A topic: its clock, its pending parts by key, their keys by id, its log, and the numbers of its
/// subscriptions.
#[derive(Default)]
pub struct Topic {
    pub clock: u64,
    pub pending: BTreeMap<Stamp, Pending>,
    pub keys: HashMap<Id, Stamp>,
    pub rows: Vec<Row>,
    pub subscriptions: Vec<usize>,
}

impl Topic {
    fn frontier(&self) -> Stamp {
        self.rows.last().map_or(ZERO, |row| row.stamp)
    }

    fn propose(&mut self, topic: usize, floor: Stamp, part: Part) -> Result<u64, Refused> {
        if self.keys.contains_key(&part.id) {
            return Err("49 Twice".into());
        }
        let number = self.clock.max(floor.number).checked_add(1).ok_or("40 ClockFull")?;
        if self.pending.len() + self.rows.len() >= LOG_LIMIT {
            return Err("41 LogFull".into());
        }
        let key = Stamp { number, topic };
        self.keys.insert(part.id, key);
        let part = Rc::new(part);
        self.pending.insert(key, Pending { part, learnt: false });
        self.clock = number;
        Ok(number)
    }

    fn learn(&mut self, id: Id, stamp: Stamp) -> Result<(), Refused> {
        let key = self.keys.get_mut(&id).ok_or("43 NotPending")?;
        let mut pending = self.pending.remove(key).ok_or("43 NotPending")?;
        pending.learnt = true;
        self.pending.insert(stamp, pending);
        *key = stamp;
        self.clock = self.clock.max(stamp.number);
        Ok(())
    }

    /// Releases the part of least key to all subscriptions, if it has learnt its stamp.
    fn release(&mut self, queues: &mut [Queue]) -> Option<Id> {
        let least = self.pending.first_entry().filter(|least| least.get().learnt)?;
        let (stamp, pending) = least.remove_entry();
        let part = pending.part;
        self.keys.remove(&part.id);
        for &number in &self.subscriptions {
            let queue = &mut queues[number];
            if !queue.lags && queue.items.len() - queue.taken < CAPACITY {
                queue.items.push((part.clone(), stamp));
            } else {
                queue.lags = true;
            }
        }
        let (id, topics) = (part.id, part.topics.clone());
        self.rows.push(Row { id, topics, stamp });
        Some(id)
    }
}

/// A subscription: its connection, its id there, whether its MESSAGEs say their part, its topic, and what it
/// accepted.
pub struct Queue {
    pub connection: usize,
    pub id: Vec<u8>,
    pub says_part: bool,
    pub topic: usize,
    pub from: Stamp,
    pub items: Vec<(Rc<Part>, Stamp)>,
    pub taken: usize,
    pub lags: bool,
}

/// A transaction on its way: its parts by topic, and the tickets that its topics gave.
pub struct Flight {
    id: Id,
    topics: Rc<[usize]>,
    parts: Vec<Option<Part>>,
    given: Vec<Option<u64>>,
}

/// A sender: its last stamp, its verdicts, and whether a connection speaks for it.
#[derive(Default)]
pub struct Sender {
    pub floor: Option<Stamp>,
    pub verdicts: Vec<Option<Vec<Stamp>>>,
    pub is_in_use: bool,
}

/// A connection: what it was fed and hasn't read, its sender, its session, its transaction on its way, and
/// the octets out.
#[derive(Default)]
pub struct Connection {
    pub fed: Vec<u8>,
    pub read: usize,
    pub is_connected: bool,
    pub is_leaving: bool,
    pub sender: usize,
    pub subscriptions: HashMap<Vec<u8>, usize>,
    pub transactions: HashMap<Vec<u8>, Vec<Send>>,
    pub flight: Option<Flight>,
    pub out: Vec<u8>,
}

impl Connection {
    fn feed(&mut self, octets: &[u8]) {
        self.fed.drain(..self.read);
        self.read = 0;
        self.fed.extend_from_slice(octets);
    }

    fn begin(&mut self, name: &[u8]) -> Result<(), Refused> {
        if self.transactions.contains_key(name) {
            return Err("65 TxnInUse".into());
        }
        if self.transactions.len() == OPEN_LIMIT {
            return Err("70 TooManyTxns".into());
        }
        self.transactions.insert(name.to_vec(), Vec::new());
        Ok(())
    }

    /// Sends the transaction of this id on its way.
    fn commit(&mut self, id: Id, sends: Vec<Send>) -> Outcome {
        let mut topics: Vec<usize> = sends.iter().map(|send| send.topic).collect();
        topics.sort_unstable();
        topics.dedup();
        let topics: Rc<[usize]> = topics.into();
        let mut parts: Vec<Part> = Vec::with_capacity(topics.len());
        parts.extend(topics.iter().map(|_| Part {
            id,
            topics: topics.clone(),
            sends: Vec::new(),
        }));
        for send in sends {
            if let Ok(place) = topics.binary_search(&send.topic) {
                parts[place].sends.push(send);
            }
        }
        self.flight = Some(Flight {
            id,
            given: vec![None; topics.len()],
            topics,
            parts: parts.into_iter().map(Some).collect(),
        });
        Outcome::Flying(id)
    }
}

/// A header that the frame must have.
pub fn header<'f>(frame: &'f Frame, name: &str) -> &'f [u8] {
    frame.first(name.as_bytes()).unwrap_or_default()
}

/// A SEND, with nothing borrowed.
pub fn send_of(topic: usize, index: usize, frame: &Frame) -> Send {
    let mut headers: Vec<(Vec<u8>, Vec<u8>)> = Vec::new();
    for (name, value) in frame.headers() {
        if is_carried(name) && headers.iter().all(|earlier| earlier.0 != name) {
            headers.push((name.to_vec(), value.to_vec()));
        }
    }
    Send {
        index,
        topic,
        headers,
        body: frame.body.to_vec(),
    }
}

pub struct Core {
    pub names: HashMap<Vec<u8>, usize>,
    pub topics: Vec<Topic>,
    pub connections: Vec<Connection>,
    pub senders: Vec<Sender>,
    /// The senders that are kept, by client-id.
    pub clients: HashMap<Vec<u8>, usize>,
    pub queues: Vec<Queue>,
    pub commits: Vec<Row>,
    pub kept: Vec<(Event, Outcome)>,
}

impl Core {
    /// The topic of number n has this name and clock.
    pub fn new(topics: Vec<(Vec<u8>, u64)>) -> Core {
        let clocks: Vec<u64> = topics.iter().map(|topic| topic.1).collect();
        Core {
            names: topics.into_iter().enumerate().map(|(number, topic)| (topic.0, number)).collect(),
            topics: clocks.into_iter().map(|clock| Topic { clock, ..Topic::default() }).collect(),
            connections: Vec::new(),
            senders: Vec::new(),
            clients: HashMap::new(),
            queues: Vec::new(),
            commits: Vec::new(),
            kept: Vec::new(),
        }
    }

    pub fn step(&mut self, event: Event) -> Result<Outcome, Refused> {
        let outcome = match &event {
            Event::Open => {
                self.connections.push(Connection::default());
                Outcome::Opened(self.connections.len() - 1)
            }
            Event::Piece(c, octets) => {
                self.connections.get_mut(*c).ok_or("80 NoConn")?.feed(octets);
                Outcome::Fed
            }
            Event::Next(c) => self.next(*c)?,
            Event::Propose(c, topic) => self.propose(*c, *topic)?,
            Event::Decide(c) => self.decide(*c)?,
            Event::Learn(topic, id) => self.learn(*topic, *id)?,
            Event::Release(topic) => {
                let topic = self.topics.get_mut(*topic).ok_or("84 NotNamed")?;
                Outcome::Released(topic.release(&mut self.queues).ok_or("86 NothingDue")?)
            }
            Event::Turn(topic) => self.turn(*topic)?,
            Event::Take(queue) => self.take(*queue)?,
            Event::Leave(c) => self.leave(*c)?,
            Event::Lost(c) => self.lose(*c)?,
        };
        self.kept.push((event, outcome));
        Ok(outcome)
    }

    /// Reads the connection's next frame, and does what it asks for.
    fn next(&mut self, c: usize) -> Result<Outcome, Refused> {
        let connection = self.connections.get_mut(c).ok_or("80 NoConn")?;
        if connection.flight.is_some() {
            return Err("81 Busy".into());
        }
        // It is put back below: the frame borrows what was fed.
        let fed = std::mem::take(&mut connection.fed);
        let mut frames = Frames::new(&fed[connection.read..]);
        let frame = frames.next().ok_or("82 NoFrame")?.map_err(|fault| fault.message())?;
        connection.read = fed.len() - frames.unread_len();
        classify(&frame)?;
        let outcome = self.accept(c, &frame)?;
        self.connections[c].fed = fed;
        Ok(outcome)
    }

    fn accept(&mut self, c: usize, frame: &Frame) -> Result<Outcome, Refused> {
        let connection = &mut self.connections[c];
        match (connection.is_connected, frame.command) {
            (false, Command::Connect) => {
                let versions = String::from_utf8_lossy(header(frame, "accept-version"));
                if !versions.split(',').any(|version| version.trim_matches(' ') == "1.2") {
                    return Err("62 NoVersion".into());
                }
                connection.is_connected = true;
                let text = b"CONNECTED\nversion:1.2\nheart-beat:0,0\n\n\0";
                connection.out.extend_from_slice(text);
                let sender = self.claim(frame.first(b"client-id"))?;
                self.connections[c].sender = sender;
                return Ok(Outcome::Done);
            }
            (false, _) => return Err("60 NotConnected".into()),
            (true, Command::Begin) => connection.begin(header(frame, "transaction"))?,
            (true, Command::Commit) => {
                let sends = connection.transactions.remove(header(frame, "transaction"));
                let sends = sends.ok_or("66 NoSuchTxn")?;
                if !sends.is_empty() {
                    return Ok(self.commit(c, sends));
                }
            }
            (true, Command::Send) => return self.send(c, frame),
            (true, Command::Subscribe) => return self.subscribe(c, frame),
            (true, _) => return Err("no input has this".into()),
        }
        Ok(Outcome::Done)
    }

    /// The sender that is kept by this client-id, or a new one.
    fn claim(&mut self, client: Option<&[u8]>) -> Result<usize, Refused> {
        let next = self.senders.len();
        let sender = match client {
            Some(client) => match self.clients.get(client) {
                Some(&sender) => sender,
                None if self.clients.len() >= CLIENTS_LIMIT => return Err("78 TooManyClients".into()),
                None => {
                    self.clients.insert(client.to_vec(), next);
                    next
                }
            },
            None => next,
        };
        if sender == next {
            self.senders.push(Sender::default());
        }
        if std::mem::replace(&mut self.senders[sender].is_in_use, true) {
            return Err("77 SenderInUse".into());
        }
        Ok(sender)
    }

    /// Sends the transaction on its way, as the next one of the connection's sender.
    fn commit(&mut self, c: usize, sends: Vec<Send>) -> Outcome {
        let sender = self.connections[c].sender;
        let verdicts = &mut self.senders[sender].verdicts;
        verdicts.push(None);
        let id = (sender, verdicts.len());
        self.connections[c].commit(id, sends)
    }

    /// The topic of the frame's destination, which is made where it isn't there.
    fn topic(&mut self, frame: &Frame) -> Result<usize, Refused> {
        let name = header(frame, "destination");
        if let Some(&topic) = self.names.get(name) {
            return Ok(topic);
        }
        if name.is_empty() || !name.iter().all(u8::is_ascii_graphic) {
            return Err("76 BadDestination".into());
        }
        if self.topics.len() >= TOPICS_LIMIT {
            return Err("75 TooManyTopics".into());
        }
        self.names.insert(name.to_vec(), self.topics.len());
        self.topics.push(Topic::default());
        Ok(self.topics.len() - 1)
    }

    /// A SEND outside a transaction is one of its own.
    fn send(&mut self, c: usize, frame: &Frame) -> Result<Outcome, Refused> {
        let topic = self.topic(frame)?;
        let Some(name) = frame.first(b"transaction") else {
            return Ok(self.commit(c, vec![send_of(topic, 0, frame)]));
        };
        let transactions = &mut self.connections[c].transactions;
        let sends = transactions.get_mut(name).ok_or("66 NoSuchTxn")?;
        if sends.len() == SENDS_LIMIT {
            return Err("71 TooManySends".into());
        }
        sends.push(send_of(topic, sends.len(), frame));
        Ok(Outcome::Done)
    }

    fn subscribe(&mut self, c: usize, frame: &Frame) -> Result<Outcome, Refused> {
        if frame.first(b"ack").is_some_and(|ack| ack != b"auto") {
            return Err("68 AckMode".into());
        }
        let topic = self.topic(frame)?;
        let connection = &mut self.connections[c];
        let id = header(frame, "id");
        if connection.subscriptions.contains_key(id) {
            return Err("63 SubIdInUse".into());
        }
        if connection.subscriptions.len() == OPEN_LIMIT {
            return Err("69 TooManySubs".into());
        }
        let number = self.queues.len();
        connection.subscriptions.insert(id.to_vec(), number);
        let from = self.topics[topic].frontier();
        self.topics[topic].subscriptions.push(number);
        self.queues.push(Queue {
            connection: c,
            id: id.to_vec(),
            says_part: frame.first(b"part") == Some(&b"yes"[..]),
            topic,
            from,
            items: Vec::new(),
            taken: 0,
            lags: false,
        });
        Ok(Outcome::Subscribed(number, from))
    }

    fn propose(&mut self, c: usize, topic: usize) -> Result<Outcome, Refused> {
        let connection = self.connections.get_mut(c).ok_or("80 NoConn")?;
        let flight = connection.flight.as_mut().ok_or("83 NoFlight")?;
        let found = flight.topics.binary_search(&topic);
        let place = found.map_err(|_| "84 NotNamed")?;
        let part = flight.parts[place].take().ok_or("51 Twice")?;
        let floor = self.senders[connection.sender].floor.unwrap_or(ZERO);
        let number = self.topics[topic].propose(topic, floor, part)?;
        flight.given[place] = Some(number);
        Ok(Outcome::Proposed(number))
    }

    fn decide(&mut self, c: usize) -> Result<Outcome, Refused> {
        let connection = self.connections.get_mut(c).ok_or("80 NoConn")?;
        let flight = connection.flight.take().ok_or("83 NoFlight")?;
        let tickets = flight.topics.iter().zip(&flight.given);
        let rows = tickets.map(|(&topic, &given)| given.map(|number| Stamp { number, topic }));
        let rows = rows.collect::<Option<Vec<Stamp>>>().ok_or("52 Incomplete")?;
        let stamp = rows.iter().copied().max().unwrap_or(ZERO);
        let sender = &mut self.senders[connection.sender];
        sender.floor = Some(stamp);
        sender.verdicts[flight.id.1 - 1] = Some(rows);
        self.commits.push(Row {
            id: flight.id,
            topics: flight.topics,
            stamp,
        });
        Ok(Outcome::Decided(stamp))
    }

    /// The stamp of a transaction, if it is decided.
    fn stamp(&self, id: Id) -> Option<Stamp> {
        let rows = self.senders.get(id.0)?.verdicts.get(id.1 - 1)?.as_ref()?;
        rows.iter().copied().max()
    }

    fn learn(&mut self, topic: usize, id: Id) -> Result<Outcome, Refused> {
        let stamp = self.stamp(id).ok_or("85 NotDecided")?;
        self.topics.get_mut(topic).ok_or("84 NotNamed")?.learn(id, stamp)?;
        Ok(Outcome::Learnt)
    }

    /// The topic learns each stamp that is decided, and releases what is due.
    fn turn(&mut self, topic: usize) -> Result<Outcome, Refused> {
        let pending = self.topics.get(topic).ok_or("84 NotNamed")?.pending.values();
        let unlearnt = pending.filter(|pending| !pending.learnt);
        let decided: Vec<(Id, Stamp)> = unlearnt
            .filter_map(|pending| Some((pending.part.id, self.stamp(pending.part.id)?)))
            .collect();
        let topic = &mut self.topics[topic];
        for (id, stamp) in decided {
            topic.learn(id, stamp)?;
        }
        let mut count = 0;
        while topic.release(&mut self.queues).is_some() {
            count += 1;
        }
        Ok(Outcome::Turned(count))
    }

    /// The connection is lost; no input has one with a subscription.
    fn lose(&mut self, c: usize) -> Result<Outcome, Refused> {
        let connection = self.connections.get_mut(c).ok_or("80 NoConn")?;
        if connection.is_leaving {
            return Err("81 Busy".into());
        }
        if !connection.subscriptions.is_empty() {
            return Err("no input has this".into());
        }
        connection.is_leaving = true;
        connection.fed = Vec::new();
        connection.read = 0;
        connection.transactions.clear();
        Ok(Outcome::Leaving)
    }

    /// The connection is gone, and its sender may be claimed again.
    fn leave(&mut self, c: usize) -> Result<Outcome, Refused> {
        let connection = self.connections.get_mut(c).ok_or("80 NoConn")?;
        if !connection.is_leaving {
            return Err("79 NotLeaving".into());
        }
        if connection.flight.is_some() {
            return Err("81 Busy".into());
        }
        if connection.is_connected {
            self.senders[connection.sender].is_in_use = false;
        }
        Ok(Outcome::Gone)
    }

    /// Writes the MESSAGEs of the subscription's next item to its connection.
    fn take(&mut self, number: usize) -> Result<Outcome, Refused> {
        let queue = self.queues.get_mut(number).ok_or("48 NoSub")?;
        let (part, stamp) = queue.items.get(queue.taken).ok_or("86 NothingDue")?;
        let out = &mut self.connections[queue.connection].out;
        for (place, send) in part.sends.iter().enumerate() {
            let says = queue.says_part.then_some((place + 1, part.sends.len()));
            write_message(&queue.id, *stamp, send, says, out)?;
        }
        queue.taken += 1;
        Ok(Outcome::Handed(part.sends.len()))
    }
}

/// The MESSAGE of a SEND; it says, where that is asked, its place and of how many.
pub fn write_message(
    id: &[u8],
    stamp: Stamp,
    send: &Send,
    part: Option<(usize, usize)>,
    out: &mut Vec<u8>,
) -> Result<(), Refused> {
    out.extend_from_slice(b"MESSAGE\nsubscription:");
    write_escaped(id, out)?;
    write!(
        out,
        "\nmessage-id:{}.{}.{}\ndestination:{}\ncontent-length:{}\n",
        stamp.number,
        stamp.topic,
        send.index,
        send.topic,
        send.body.len()
    )?;
    if let Some((place, count)) = part {
        writeln!(out, "part:{place}/{count}")?;
    }
    for (name, value) in &send.headers {
        if part.is_some() && name == b"part" {
            continue;
        }
        write_escaped(name, out)?;
        out.push(b':');
        write_escaped(value, out)?;
        out.push(b'\n');
    }
    out.push(b'\n');
    out.extend_from_slice(&send.body);
    out.push(0);
    Ok(())
}
