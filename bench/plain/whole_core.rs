//! The core in plain Rust, with every event, every refusal and each want of memory that an event may have:
//! docs/PROGRAMS.md, docs/PROTOCOL.md and docs/ORDERING.md, and no line of the crates. `plain_core.rs` beside
//! it is for measuring.

use crate::cases::fault_of;
use crate::reading::{read, Reading, WholeFrame};
use crate::stomp::{is_carried, write_escaped, Command};
use std::collections::{BTreeMap, HashMap, HashSet};
use std::io::Write;
use std::rc::Rc;

pub const LOG_LIMIT: usize = 65_536;
const OPEN_LIMIT: usize = 64;
const SENDS_LIMIT: usize = 64;
const TOPICS_LIMIT: usize = 1_024;
const CLIENTS_LIMIT: usize = 65_536;

/// Numbers and topics, ordered by the number first.
#[derive(Clone, Copy, PartialEq, Eq, PartialOrd, Ord)]
pub struct Stamp {
    pub number: u64,
    pub topic: usize,
}

const ZERO: Stamp = Stamp { number: 0, topic: 0 };

/// A transaction: its sender, and its place among the sender's, from 1.
pub type Id = (u64, u64);

#[derive(Clone)]
pub enum Event {
    Open,
    Piece(u64, Vec<u8>),
    Next(u64),
    Propose(u64, u64),
    Decide(u64),
    Withdraw(u64),
    Cancel(u64, u64),
    Learn(u64, Id),
    Release(u64),
    Turn(u64),
    Take(u64),
    Leave(u64),
    Lost(u64),
}

/// What an event finds no memory for.
#[derive(Clone, Copy, PartialEq, Eq)]
pub enum Lack {
    Nothing,
    /// The event; of a Next, the effect of its frame.
    Effect,
    /// Of a Next: the frame, which isn't read.
    Frame,
    /// The reply.
    Reply,
}

/// Why there is no effect: the text of the outcome.
type Refused = String;

fn refused(why: &str) -> Refused {
    format!("refused {why}")
}

/// A SEND: its index in its transaction, its topic, its headers that go on, and its body.
pub struct Send {
    index: usize,
    topic: usize,
    destination: Vec<u8>,
    headers: Vec<(Vec<u8>, Vec<u8>)>,
    body: Vec<u8>,
}

/// A transaction at one topic.
struct Part {
    id: Id,
    topics: Rc<[usize]>,
    sends: Vec<Rc<Send>>,
}

struct Pending {
    part: Rc<Part>,
    learnt: bool,
}

/// A transaction with its stamp and its topics.
#[derive(Clone)]
pub struct Row {
    pub id: Id,
    pub stamp: Stamp,
    pub topics: Rc<[usize]>,
}

struct Topic {
    name: Vec<u8>,
    clock: u64,
    pending: BTreeMap<Stamp, Pending>,
    keys: HashMap<Id, Stamp>,
    log: Vec<Row>,
    /// The subscriptions that weren't closed.
    open: Vec<usize>,
}

impl Topic {
    fn new(name: &[u8], clock: u64) -> Topic {
        Topic {
            name: name.to_vec(),
            clock,
            pending: BTreeMap::new(),
            keys: HashMap::new(),
            log: Vec::new(),
            open: Vec::new(),
        }
    }

    fn frontier(&self) -> Stamp {
        self.log.last().map_or(ZERO, |row| row.stamp)
    }
}

/// A subscription and its queue.
pub struct Queue {
    connection: usize,
    pub id: Vec<u8>,
    /// Whether each MESSAGE says which of its transaction's at the topic it is.
    says_part: bool,
    pub topic: usize,
    pub from: Stamp,
    pub to: Option<Stamp>,
    pub items: Vec<(Id, Stamp)>,
    parts: Vec<Rc<Part>>,
    pub taken: usize,
    lags: bool,
    closed: bool,
}

/// An undecided transaction.
struct Flight {
    seq: u64,
    topics: Rc<[usize]>,
    sends: Vec<Rc<Send>>,
    tickets: Vec<Option<u64>>,
    /// Why a topic refused it.
    mark: Option<&'static str>,
    receipt: Option<Vec<u8>>,
}

/// A sender: its number, how many transactions it has begun, and the stamp of the last that was decided.
#[derive(Clone, Copy)]
struct Sender {
    number: u64,
    seq: u64,
    floor: Stamp,
}

/// A sender that is kept by its client-id.
struct Kept {
    sender: Sender,
    is_in_use: bool,
}

#[derive(PartialEq, Eq)]
enum Phase {
    Open,
    Leaving,
    Gone,
}

pub struct Connection {
    phase: Phase,
    unread: Vec<u8>,
    is_connected: bool,
    /// The subscriptions of its session, by id.
    subscriptions: HashMap<Vec<u8>, usize>,
    transactions: HashMap<Vec<u8>, Vec<Send>>,
    flight: Option<Flight>,
    /// Whom it speaks for, from its CONNECT on, and the client-id that it said.
    sender: Sender,
    client: Option<Vec<u8>>,
    /// The tickets of its withdrawn transaction that weren't cancelled.
    withdrawn: HashSet<(usize, u64)>,
    /// The receipt of its DISCONNECT.
    last_receipt: Option<Vec<u8>>,
    pub out: Vec<u8>,
}

impl Connection {
    /// It reads nothing more, and its session is closed.
    fn leave(&mut self) {
        self.phase = Phase::Leaving;
        self.unread.clear();
        self.transactions.clear();
    }

    /// The ERROR, which says our version or doesn't, unless it finds no memory; then it leaves.
    fn error(&mut self, message: &str, receipt: Option<&[u8]>, says_version: bool, lack: Lack) {
        if lack != Lack::Reply {
            put(&mut self.out, "ERROR\nmessage:", message.as_bytes());
            if let Some(receipt) = receipt {
                put(&mut self.out, "\nreceipt-id:", receipt);
            }
            if says_version {
                self.out.extend_from_slice(b"\nversion:1.2");
            }
            self.out.extend_from_slice(b"\ncontent-length:0\n\n\0");
        }
        self.leave();
    }

    fn receipt(&mut self, receipt: Option<&[u8]>) {
        if let Some(receipt) = receipt {
            put(&mut self.out, "RECEIPT\nreceipt-id:", receipt);
            self.out.extend_from_slice(b"\n\n\0");
        }
    }
}

/// A text, and a value with its escapes.
fn put(out: &mut Vec<u8>, text: &str, value: &[u8]) {
    out.extend_from_slice(text.as_bytes());
    write_escaped(value, out).expect("a vector takes all");
}

/// What an accepted frame does.
enum Action {
    Nothing,
    Connected(Option<Vec<u8>>),
    /// The id, the topic, and whether its MESSAGEs say their part.
    Subscribe(Vec<u8>, usize, bool),
    Unsubscribe(Vec<u8>),
    Commit(Vec<Send>),
    Disconnect,
}

/// The connection of this number, which isn't gone.
fn there(connections: &mut [Connection], c: u64) -> Result<&mut Connection, Refused> {
    let place = usize::try_from(c).ok();
    let connection = place.and_then(|place| connections.get_mut(place));
    let connection = connection.ok_or_else(|| refused("80 NoConn"))?;
    match connection.phase {
        Phase::Gone => Err(refused("87 Gone")),
        _ => Ok(connection),
    }
}

/// The same, which isn't leaving either.
fn reading(connections: &mut [Connection], c: u64) -> Result<&mut Connection, Refused> {
    let connection = there(connections, c)?;
    match connection.phase {
        Phase::Open => Ok(connection),
        _ => Err(refused("81 Busy")),
    }
}

pub struct Core {
    capacity: usize,
    topics: Vec<Topic>,
    pub connections: Vec<Connection>,
    pub queues: Vec<Queue>,
    pub commits: Vec<Row>,
    stamps: HashMap<Id, Stamp>,
    /// How many senders have begun.
    begun: u64,
    /// By client-id.
    kept: HashMap<Vec<u8>, Kept>,
}

impl Core {
    pub fn new(capacity: usize, topics: &[(Vec<u8>, u64)]) -> Core {
        let topic = |(name, clock): &(Vec<u8>, u64)| Topic::new(name, *clock);
        Core {
            capacity,
            topics: topics.iter().map(topic).collect(),
            connections: Vec::new(),
            queues: Vec::new(),
            commits: Vec::new(),
            stamps: HashMap::new(),
            begun: 0,
            kept: HashMap::new(),
        }
    }

    /// The topics' names.
    #[allow(dead_code)] // Who has a server asks for them.
    pub fn names(&self) -> impl Iterator<Item = &[u8]> {
        self.topics.iter().map(|topic| &topic.name[..])
    }

    /// The logs, by topic.
    pub fn logs(&self) -> impl Iterator<Item = &[Row]> {
        self.topics.iter().map(|topic| &topic.log[..])
    }

    /// The outcome of an event; none where it can't lack that.
    pub fn step(&mut self, event: &Event, lack: Lack) -> Option<String> {
        let told = match event {
            Event::Open => self.open(lack),
            Event::Piece(c, octets) => self.piece(*c, octets, lack),
            Event::Next(c) => self.next(*c, lack),
            Event::Propose(c, t) => self.propose(*c, *t, lack),
            Event::Decide(c) => self.decide(*c, lack),
            Event::Withdraw(c) => self.withdraw(*c, lack),
            Event::Take(s) => self.take(*s, lack),
            Event::Leave(c) => self.step_out(*c, lack),
            _ if lack != Lack::Nothing => return None,
            Event::Cancel(c, t) => self.cancel(*c, *t).map(Some),
            Event::Learn(t, id) => self.learn(*t, *id).map(Some),
            Event::Release(t) => self.release(*t).map(Some),
            Event::Turn(t) => self.turn(*t).map(Some),
            Event::Lost(c) => self.lose(*c).map(Some),
        };
        match told {
            Ok(told) => told,
            Err(_) if lack != Lack::Nothing => None,
            Err(refused) => Some(refused),
        }
    }

    fn topic_at(&self, t: u64) -> Result<usize, Refused> {
        let place = usize::try_from(t).ok().filter(|place| *place < self.topics.len());
        place.ok_or_else(|| refused("84 NotNamed"))
    }

    fn open(&mut self, lack: Lack) -> Result<Option<String>, Refused> {
        match lack {
            Lack::Nothing => {}
            Lack::Effect => return Ok(Some("no memory".into())),
            _ => return Ok(None),
        }
        self.connections.push(Connection {
            phase: Phase::Open,
            unread: Vec::new(),
            is_connected: false,
            subscriptions: HashMap::new(),
            transactions: HashMap::new(),
            flight: None,
            sender: Sender {
                number: 0,
                seq: 0,
                floor: ZERO,
            },
            client: None,
            withdrawn: HashSet::new(),
            last_receipt: None,
            out: Vec::new(),
        });
        Ok(Some(format!("conn {}", self.connections.len() - 1)))
    }

    fn piece(&mut self, c: u64, octets: &[u8], lack: Lack) -> Result<Option<String>, Refused> {
        let connection = reading(&mut self.connections, c)?;
        Ok(match lack {
            Lack::Nothing => {
                connection.unread.extend_from_slice(octets);
                Some("fed".into())
            }
            Lack::Effect => Some("no memory".into()),
            _ => None,
        })
    }

    fn next(&mut self, c: u64, lack: Lack) -> Result<Option<String>, Refused> {
        let connection = reading(&mut self.connections, c)?;
        if connection.flight.is_some() {
            return Err(refused("81 Busy"));
        }
        if lack == Lack::Frame {
            connection.error("72 NoMemory", None, false, Lack::Nothing);
            return Ok(Some("error 72 NoMemory".into()));
        }
        let frame = match read(&connection.unread) {
            Reading::Waits => return Err(refused("82 NoFrame")),
            Reading::Finds(frame, length) => {
                connection.unread.drain(..length);
                frame
            }
            Reading::Fails(_) if lack == Lack::Effect => return Ok(None),
            Reading::Fails(fault) => {
                connection.error(fault.message(), None, false, lack);
                return Ok(Some(format!("error {}", fault.message())));
            }
        };
        let judged = match fault_of(frame.command, !frame.body.is_empty(), |name| {
            frame.first(name).is_some()
        }) {
            Some(fault) => Err(fault.into_owned()),
            None => self.judge(c as usize, &frame).map_err(str::to_string),
        };
        let (action, fault) = match (judged, lack) {
            (Ok(action), Lack::Nothing) => (action, None),
            (Ok(_), Lack::Effect) => (Action::Nothing, Some("72 NoMemory".to_string())),
            (Err(fault), Lack::Nothing | Lack::Reply) => (Action::Nothing, Some(fault)),
            _ => return Ok(None),
        };
        if let Some(fault) = fault {
            let receipt = frame.receipt().map(<[u8]>::to_vec);
            let says_version = match &fault[..] {
                "62 NoVersion" | "22 Missing accept-version" => true,
                "22 Missing host" => !offers_ours(&frame),
                _ => false,
            };
            self.connections[c as usize].error(&fault, receipt.as_deref(), says_version, lack);
            return Ok(Some(format!("error {fault}")));
        }
        if let Some(name) = frame.destination() {
            if self.place(name).is_none() {
                self.topics.push(Topic::new(name, 0));
            }
        }
        Ok(Some(self.act(c as usize, action, frame.receipt())))
    }

    /// Why nobody may now speak for the sender of this client-id.
    fn claim_fault(&self, client: Option<&[u8]>) -> Option<&'static str> {
        let client = client?;
        match self.kept.get(client) {
            Some(kept) => kept.is_in_use.then_some("77 SenderInUse"),
            None => (self.kept.len() >= CLIENTS_LIMIT).then_some("78 TooManyClients"),
        }
    }

    /// The sender that goes on, or a new one.
    fn claim(&mut self, client: Option<&[u8]>) -> Sender {
        if let Some(kept) = client.and_then(|client| self.kept.get_mut(client)) {
            kept.is_in_use = true;
            return kept.sender;
        }
        let sender = Sender {
            number: self.begun,
            seq: 0,
            floor: ZERO,
        };
        self.begun += 1;
        if let Some(client) = client {
            let is_in_use = true;
            self.kept.insert(client.to_vec(), Kept { sender, is_in_use });
        }
        sender
    }

    /// The number of the topic of this name.
    fn place(&self, name: &[u8]) -> Option<usize> {
        self.topics.iter().position(|topic| topic.name == name)
    }

    /// The same, or of a name that has none the number of the topic that is to be made.
    fn place_or_next(&self, name: &[u8]) -> Result<usize, &'static str> {
        match self.place(name) {
            Some(place) => Ok(place),
            None if name.is_empty() || !name.iter().all(u8::is_ascii_graphic) => Err("76 BadDestination"),
            None if self.topics.len() >= TOPICS_LIMIT => Err("75 TooManyTopics"),
            None => Ok(self.topics.len()),
        }
    }

    /// What the session makes of a client's frame, and why it refuses it.
    fn judge(&mut self, c: usize, frame: &WholeFrame) -> Result<Action, &'static str> {
        let header = |name| frame.first(name).unwrap_or_default();
        let topic = self.place_or_next(header("destination"));
        let claim = self.claim_fault(frame.first("client-id"));
        let connection = &mut self.connections[c];
        match (connection.is_connected, frame.command) {
            (true, Command::Connect) => Err("61 AlreadyConnected"),
            (false, Command::Connect) => match offers_ours(frame) {
                true => match claim {
                    None => Ok(Action::Connected(frame.first("client-id").map(<[u8]>::to_vec))),
                    Some(fault) => Err(fault),
                },
                false => Err("62 NoVersion"),
            },
            (false, _) => Err("60 NotConnected"),
            (_, Command::Subscribe) => {
                if frame.first("ack").is_some_and(|ack| ack != b"auto") {
                    return Err("68 AckMode");
                }
                let topic = topic?;
                if connection.subscriptions.contains_key(header("id")) {
                    return Err("63 SubIdInUse");
                }
                match connection.subscriptions.len() {
                    OPEN_LIMIT => Err("69 TooManySubs"),
                    _ => {
                        let says_part = frame.first("part") == Some(&b"yes"[..]);
                        Ok(Action::Subscribe(header("id").to_vec(), topic, says_part))
                    }
                }
            }
            (_, Command::Unsubscribe) => match connection.subscriptions.contains_key(header("id")) {
                true => Ok(Action::Unsubscribe(header("id").to_vec())),
                false => Err("64 NoSuchSub"),
            },
            (_, Command::Begin) => connection.begin(header("transaction")),
            (_, Command::Commit | Command::Abort) => {
                let sends = connection.transactions.get(header("transaction"));
                let sends = sends.ok_or("66 NoSuchTxn")?;
                let is_commit = matches!(frame.command, Command::Commit) && !sends.is_empty();
                let sends = connection
                    .transactions
                    .remove(header("transaction"))
                    .unwrap_or_default();
                Ok(if is_commit {
                    Action::Commit(sends)
                } else {
                    Action::Nothing
                })
            }
            (_, Command::Send) => connection.send(topic?, frame),
            _ => Ok(Action::Disconnect),
        }
    }

    /// Has the action of an accepted frame.
    fn act(&mut self, c: usize, action: Action, receipt: Option<&[u8]>) -> String {
        let told = match action {
            Action::Nothing => "done".into(),
            Action::Connected(client) => {
                let sender = self.claim(client.as_deref());
                let connection = &mut self.connections[c];
                connection.is_connected = true;
                connection.sender = sender;
                connection.client = client;
                connection
                    .out
                    .extend_from_slice(b"CONNECTED\nversion:1.2\nheart-beat:0,0\n\n\0");
                return "done".into();
            }
            Action::Subscribe(id, topic, says_part) => self.subscribe(c, id, topic, says_part),
            Action::Unsubscribe(id) => {
                let number = self.connections[c]
                    .subscriptions
                    .remove(&id)
                    .expect("it was judged");
                self.close(number)
            }
            Action::Commit(sends) => return self.begin(c, sends, receipt),
            Action::Disconnect => {
                let connection = &mut self.connections[c];
                connection.last_receipt = receipt.map(<[u8]>::to_vec);
                connection.leave();
                return "leaving".into();
            }
        };
        self.connections[c].receipt(receipt);
        told
    }

    fn subscribe(&mut self, c: usize, id: Vec<u8>, topic: usize, says_part: bool) -> String {
        let (number, from) = (self.queues.len(), self.topics[topic].frontier());
        self.connections[c].subscriptions.insert(id.clone(), number);
        self.topics[topic].open.push(number);
        self.queues.push(Queue {
            connection: c,
            id,
            says_part,
            topic,
            from,
            to: None,
            items: Vec::new(),
            parts: Vec::new(),
            taken: 0,
            lags: false,
            closed: false,
        });
        format!("sub {number} from {}.{}", from.number, from.topic)
    }

    fn close(&mut self, number: usize) -> String {
        let queue = &mut self.queues[number];
        let topic = &mut self.topics[queue.topic];
        topic.open.retain(|open| *open != number);
        queue.closed = true;
        let to = *queue.to.get_or_insert(topic.frontier());
        format!("unsub {number} to {}.{}", to.number, to.topic)
    }

    /// Sends a transaction on its way, as the next one of its connection's sender.
    fn begin(&mut self, c: usize, sends: Vec<Send>, receipt: Option<&[u8]>) -> String {
        let connection = &mut self.connections[c];
        connection.sender.seq += 1;
        let mut topics: Vec<usize> = sends.iter().map(|send| send.topic).collect();
        topics.sort_unstable();
        topics.dedup();
        connection.flight = Some(Flight {
            seq: connection.sender.seq,
            tickets: vec![None; topics.len()],
            topics: topics.into(),
            sends: sends.into_iter().map(Rc::new).collect(),
            mark: None,
            receipt: receipt.map(<[u8]>::to_vec),
        });
        format!("flight {} {}", connection.sender.number, connection.sender.seq)
    }

    fn propose(&mut self, c: u64, t: u64, lack: Lack) -> Result<Option<String>, Refused> {
        let topic = self.topic_at(t);
        let connection = there(&mut self.connections, c)?;
        let Sender { number: sender, floor, .. } = connection.sender;
        let flight = connection.flight.as_mut().ok_or_else(|| refused("83 NoFlight"))?;
        if flight.mark.is_some() {
            return Err(refused("88 Marked"));
        }
        let topic = topic?;
        let place = flight
            .topics
            .binary_search(&topic)
            .map_err(|_| refused("84 NotNamed"))?;
        if flight.tickets[place].is_some() {
            return Err(refused("51 Twice"));
        }
        let at = &mut self.topics[topic];
        let clock = at.clock.max(floor.number);
        let fault = match lack {
            _ if clock == u64::MAX => Some("40 ClockFull"),
            _ if at.pending.len() + at.log.len() >= LOG_LIMIT => Some("41 LogFull"),
            Lack::Effect => Some("42 NoMemory"),
            _ => None,
        };
        if (lack == Lack::Effect && fault != Some("42 NoMemory"))
            || lack == Lack::Reply
            || lack == Lack::Frame
        {
            return Ok(None);
        }
        if let Some(fault) = fault {
            flight.mark = Some(fault);
            return Ok(Some(format!("failed {fault}")));
        }
        let id = (sender, flight.seq);
        let key = Stamp {
            number: clock + 1,
            topic,
        };
        let own = flight.sends.iter().filter(|send| send.topic == topic);
        let part = Rc::new(Part {
            id,
            topics: flight.topics.clone(),
            sends: own.cloned().collect(),
        });
        at.pending.insert(key, Pending { part, learnt: false });
        at.keys.insert(id, key);
        at.clock = key.number;
        flight.tickets[place] = Some(key.number);
        Ok(Some(format!("ticket {}", key.number)))
    }

    fn decide(&mut self, c: u64, lack: Lack) -> Result<Option<String>, Refused> {
        let connection = there(&mut self.connections, c)?;
        let flight = connection.flight.as_mut().ok_or_else(|| refused("83 NoFlight"))?;
        if flight.mark.is_some() {
            return Err(refused("88 Marked"));
        }
        if flight.tickets.contains(&None) {
            return Err(refused("52 Incomplete"));
        }
        let is_answered = connection.phase == Phase::Open && flight.receipt.is_some();
        if lack != Lack::Nothing && !(lack == Lack::Reply && is_answered) {
            return Ok(None);
        }
        let flight = connection.flight.take().expect("it is there");
        let rows = flight.topics.iter().zip(&flight.tickets);
        let rows = rows.map(|(&topic, ticket)| Stamp {
            number: ticket.unwrap_or(0),
            topic,
        });
        let stamp = rows.max().expect("it has topics");
        connection.sender.floor = stamp;
        match lack {
            Lack::Reply => connection.leave(),
            _ if is_answered => connection.receipt(flight.receipt.as_deref()),
            _ => {}
        }
        let id = (connection.sender.number, flight.seq);
        self.stamps.insert(id, stamp);
        let topics = flight.topics;
        self.commits.push(Row { id, stamp, topics });
        Ok(Some(format!("stamp {}.{}", stamp.number, stamp.topic)))
    }

    fn withdraw(&mut self, c: u64, lack: Lack) -> Result<Option<String>, Refused> {
        let connection = there(&mut self.connections, c)?;
        let flight = connection.flight.as_ref().ok_or_else(|| refused("83 NoFlight"))?;
        let mark = flight.mark.ok_or_else(|| refused("89 NotMarked"))?;
        let is_open = connection.phase == Phase::Open;
        if lack != Lack::Nothing && !(lack == Lack::Reply && is_open) {
            return Ok(None);
        }
        let flight = connection.flight.take().expect("it is there");
        let given = flight
            .topics
            .iter()
            .zip(&flight.tickets)
            .filter(|row| row.1.is_some());
        connection.withdrawn = given.map(|row| (*row.0, flight.seq)).collect();
        if is_open {
            connection.error(mark, flight.receipt.as_deref(), false, lack);
        }
        Ok(Some("withdrawn".into()))
    }

    fn cancel(&mut self, c: u64, t: u64) -> Result<String, Refused> {
        let topic = self.topic_at(t);
        let connection = there(&mut self.connections, c)?;
        let topic = topic?;
        let found = connection.withdrawn.iter().copied().find(|row| row.0 == topic);
        let row = found.ok_or_else(|| refused("84 NotNamed"))?;
        connection.withdrawn.remove(&row);
        let sender = connection.sender.number;
        let topic = &mut self.topics[topic];
        let key = topic.keys.remove(&(sender, row.1)).expect("it is pending");
        topic.pending.remove(&key);
        Ok("cancelled".into())
    }

    fn learn(&mut self, t: u64, id: Id) -> Result<String, Refused> {
        let topic = self.topic_at(t)?;
        let stamp = *self.stamps.get(&id).ok_or_else(|| refused("85 NotDecided"))?;
        match self.learn_at(topic, id, stamp) {
            true => Ok("learnt".into()),
            false => Err(refused("43 NotPending")),
        }
    }

    /// Whether the transaction is pending there, and has learnt its stamp.
    fn learn_at(&mut self, topic: usize, id: Id, stamp: Stamp) -> bool {
        let topic = &mut self.topics[topic];
        let Some(key) = topic.keys.get_mut(&id) else {
            return false;
        };
        let mut pending = topic.pending.remove(key).expect("it is pending");
        pending.learnt = true;
        *key = stamp;
        topic.pending.insert(stamp, pending);
        topic.clock = topic.clock.max(stamp.number);
        true
    }

    fn release(&mut self, t: u64) -> Result<String, Refused> {
        let topic = self.topic_at(t)?;
        let id = self.release_at(topic).ok_or_else(|| refused("86 NothingDue"))?;
        Ok(format!("released {} {}", id.0, id.1))
    }

    fn release_at(&mut self, t: usize) -> Option<Id> {
        let topic = &mut self.topics[t];
        let frontier = topic.frontier();
        let least = topic.pending.first_entry().filter(|least| least.get().learnt)?;
        let (stamp, pending) = least.remove_entry();
        let part = pending.part;
        topic.keys.remove(&part.id);
        for &number in &topic.open {
            let queue = &mut self.queues[number];
            if queue.lags {
                continue;
            }
            if queue.items.len() - queue.taken < self.capacity {
                queue.items.push((part.id, stamp));
                queue.parts.push(part.clone());
            } else {
                queue.lags = true;
                queue.to = Some(frontier);
            }
        }
        topic.log.push(Row {
            id: part.id,
            stamp,
            topics: part.topics.clone(),
        });
        Some(part.id)
    }

    fn turn(&mut self, t: u64) -> Result<String, Refused> {
        let topic = self.topic_at(t)?;
        let mut ids: Vec<Id> = self.topics[topic].keys.keys().copied().collect();
        ids.sort_unstable();
        for id in ids {
            if let Some(&stamp) = self.stamps.get(&id) {
                self.learn_at(topic, id, stamp);
            }
        }
        let mut count = 0;
        while self.release_at(topic).is_some() {
            count += 1;
        }
        Ok(format!("turned {count}"))
    }

    fn take(&mut self, s: u64, lack: Lack) -> Result<Option<String>, Refused> {
        let number = usize::try_from(s)
            .ok()
            .filter(|number| *number < self.queues.len());
        let queue = &mut self.queues[number.ok_or_else(|| refused("48 NoSub"))?];
        let connection = &mut self.connections[queue.connection];
        if queue.closed || connection.phase != Phase::Open {
            return Err(refused("87 Gone"));
        }
        let is_empty = queue.taken == queue.items.len();
        if is_empty && !queue.lags {
            return Err(refused("86 NothingDue"));
        }
        match lack {
            Lack::Nothing => {}
            Lack::Effect => return Ok(Some("no memory".into())),
            _ => return Ok(None),
        }
        if is_empty {
            connection.error("74 Lagged", None, false, lack);
            return Ok(Some("error 74 Lagged".into()));
        }
        let (_, stamp) = queue.items[queue.taken];
        let part = queue.parts[queue.taken].clone();
        queue.taken += 1;
        for (place, send) in part.sends.iter().enumerate() {
            let says = queue.says_part.then_some((place + 1, part.sends.len()));
            put_message(&queue.id, stamp, send, says, &mut connection.out);
        }
        Ok(Some(format!("handed {}", part.sends.len())))
    }

    fn step_out(&mut self, c: u64, lack: Lack) -> Result<Option<String>, Refused> {
        let connection = there(&mut self.connections, c)?;
        if connection.phase == Phase::Open {
            return Err(refused("79 NotLeaving"));
        }
        let own = |queue: &Queue| queue.connection as u64 == c && !queue.closed;
        if let Some(number) = self.queues.iter().position(own) {
            return Ok((lack == Lack::Nothing).then(|| self.close(number)));
        }
        let connection = &mut self.connections[c as usize];
        if connection.flight.is_some() || !connection.withdrawn.is_empty() {
            return Err(refused("81 Busy"));
        }
        let receipt = connection.last_receipt.take();
        match lack {
            Lack::Nothing => connection.receipt(receipt.as_deref()),
            Lack::Reply if receipt.is_some() => {}
            _ => return Ok(None),
        }
        connection.phase = Phase::Gone;
        let client = connection.client.take();
        if let Some(kept) = client.and_then(|client| self.kept.get_mut(&client)) {
            kept.sender = connection.sender;
            kept.is_in_use = false;
        }
        Ok(Some("gone".into()))
    }

    fn lose(&mut self, c: u64) -> Result<String, Refused> {
        reading(&mut self.connections, c)?.leave();
        Ok("leaving".into())
    }
}

impl Connection {
    fn begin(&mut self, name: &[u8]) -> Result<Action, &'static str> {
        if self.transactions.contains_key(name) {
            return Err("65 TxnInUse");
        }
        if self.transactions.len() == OPEN_LIMIT {
            return Err("70 TooManyTxns");
        }
        self.transactions.insert(name.to_vec(), Vec::new());
        Ok(Action::Nothing)
    }

    /// A SEND outside a transaction is one of its own.
    fn send(&mut self, topic: usize, frame: &WholeFrame) -> Result<Action, &'static str> {
        let Some(name) = frame.first("transaction") else {
            return Ok(Action::Commit(vec![send_of(topic, 0, frame)]));
        };
        let sends = self.transactions.get_mut(name).ok_or("66 NoSuchTxn")?;
        if sends.len() == SENDS_LIMIT {
            return Err("71 TooManySends");
        }
        sends.push(send_of(topic, sends.len(), frame));
        Ok(Action::Nothing)
    }
}

fn send_of(topic: usize, index: usize, frame: &WholeFrame) -> Send {
    let mut headers: Vec<(Vec<u8>, Vec<u8>)> = Vec::new();
    for (name, value) in &frame.headers {
        if is_carried(name) && headers.iter().all(|earlier| earlier.0 != *name) {
            headers.push((name.clone(), value.clone()));
        }
    }
    Send {
        index,
        topic,
        destination: frame.first("destination").unwrap_or_default().to_vec(),
        headers,
        body: frame.body.clone(),
    }
}

/// Whether the client of this CONNECT offers version 1.2.
fn offers_ours(frame: &WholeFrame) -> bool {
    let versions = String::from_utf8_lossy(frame.first("accept-version").unwrap_or_default());
    let mut versions = versions.split(',');
    versions.any(|version| version.trim_matches(' ') == "1.2")
}

/// The MESSAGE of a SEND; it says, where that is asked, its place and of how many.
fn put_message(id: &[u8], stamp: Stamp, send: &Send, part: Option<(usize, usize)>, out: &mut Vec<u8>) {
    put(out, "MESSAGE\nsubscription:", id);
    let (number, topic, index) = (stamp.number, stamp.topic, send.index);
    write!(out, "\nmessage-id:{number}.{topic}.{index}").expect("a vector takes all");
    put(out, "\ndestination:", &send.destination);
    write!(out, "\ncontent-length:{}\n", send.body.len()).expect("a vector takes all");
    if let Some((place, count)) = part {
        writeln!(out, "part:{place}/{count}").expect("a vector takes all");
    }
    for (name, value) in &send.headers {
        if part.is_some() && name == b"part" {
            continue;
        }
        put(out, "", name);
        put(out, ":", value);
        out.push(b'\n');
    }
    out.push(b'\n');
    out.extend_from_slice(&send.body);
    out.push(0);
}
