//! A connection's session in plain Rust, with maps of the standard library. It shares no code with
//! the crates.

use crate::stomp::{Command, Frame};
use std::collections::HashMap;

const OPEN_LIMIT: usize = 64;
const SENDS_LIMIT: usize = 64;
const TOPICS_LIMIT: usize = 1024;

/// A SEND, and the place of its topic.
pub struct Send<'a> {
    pub topic: usize,
    #[allow(dead_code)] // A subscriber would read it, and there is none here.
    pub frame: Frame<'a>,
}

enum Phase {
    New,
    Connected,
    Closed,
}

/// The topics that there are, by their names: each has its place.
pub struct Topics(HashMap<Vec<u8>, usize>);

impl Topics {
    pub fn new(names: &[&[u8]]) -> Topics {
        let places = names.iter().enumerate();
        Topics(places.map(|(place, name)| (name.to_vec(), place)).collect())
    }

    /// The place of a destination's topic, or that which it gets; and why it gets none.
    fn place(&self, destination: &[u8]) -> Result<usize, &'static str> {
        if let Some(place) = self.0.get(destination) {
            return Ok(*place);
        }
        if destination.is_empty() || destination.iter().any(|octet| !octet.is_ascii_graphic()) {
            return Err("76 BadDestination");
        }
        if self.0.len() == TOPICS_LIMIT {
            return Err("75 TooManyTopics");
        }
        Ok(self.0.len())
    }

    /// Makes the topic of that place, where it isn't there yet.
    fn make(&mut self, place: usize, destination: &[u8]) {
        if place == self.0.len() {
            self.0.insert(destination.to_vec(), place);
        }
    }
}

pub struct Session<'a> {
    phase: Phase,
    subscriptions: HashMap<Vec<u8>, usize>,
    transactions: HashMap<Vec<u8>, Vec<Send<'a>>>,
}

impl<'a> Session<'a> {
    pub fn new() -> Session<'a> {
        Session {
            phase: Phase::New,
            subscriptions: HashMap::new(),
            transactions: HashMap::new(),
        }
    }

    /// Takes a client's frame with its required headers: the transaction to send, if there is one,
    /// or why it is refused. An accepted one makes the topic of a new destination.
    pub fn step(
        &mut self,
        frame: Frame<'a>,
        topics: &mut Topics,
    ) -> Result<Option<Vec<Send<'a>>>, &'static str> {
        match (&self.phase, frame.command) {
            (Phase::Closed, _) => return Err("73 Closed"),
            (Phase::New, Command::Connect) => self.connect(&frame)?,
            (Phase::New, _) => return Err("60 NotConnected"),
            (Phase::Connected, Command::Connect) => return Err("61 AlreadyConnected"),
            (Phase::Connected, Command::Send) => return self.send(frame, topics),
            (Phase::Connected, Command::Commit) => {
                let txn = self.take(&frame)?;
                return Ok(Some(txn).filter(|txn| !txn.is_empty()));
            }
            (Phase::Connected, Command::Abort) => drop(self.take(&frame)?),
            (Phase::Connected, Command::Begin) => self.begin(&frame)?,
            (Phase::Connected, Command::Subscribe) => self.subscribe(&frame, topics)?,
            (Phase::Connected, Command::Unsubscribe) => self.unsubscribe(&frame)?,
            (Phase::Connected, _) => self.phase = Phase::Closed,
        }
        Ok(None)
    }

    fn connect(&mut self, frame: &Frame) -> Result<(), &'static str> {
        let versions = String::from_utf8_lossy(header(frame, "accept-version"));
        let mut versions = versions.split(',').map(|version| version.trim_matches(' '));
        if !versions.any(|version| version == "1.2") {
            return Err("62 NoVersion");
        }
        self.phase = Phase::Connected;
        Ok(())
    }

    fn subscribe(&mut self, frame: &Frame, topics: &mut Topics) -> Result<(), &'static str> {
        if frame.first(b"ack").is_some_and(|ack| ack != b"auto") {
            return Err("68 AckMode");
        }
        let destination = header(frame, "destination");
        let topic = topics.place(destination)?;
        let id = header(frame, "id");
        if self.subscriptions.contains_key(id) {
            return Err("63 SubIdInUse");
        }
        if self.subscriptions.len() == OPEN_LIMIT {
            return Err("69 TooManySubs");
        }
        self.subscriptions.insert(id.to_vec(), topic);
        topics.make(topic, destination);
        Ok(())
    }

    fn unsubscribe(&mut self, frame: &Frame) -> Result<(), &'static str> {
        let ended = self.subscriptions.remove(header(frame, "id"));
        ended.map(|_| ()).ok_or("64 NoSuchSub")
    }

    fn begin(&mut self, frame: &Frame) -> Result<(), &'static str> {
        let name = header(frame, "transaction");
        if self.transactions.contains_key(name) {
            return Err("65 TxnInUse");
        }
        if self.transactions.len() == OPEN_LIMIT {
            return Err("70 TooManyTxns");
        }
        self.transactions.insert(name.to_vec(), Vec::new());
        Ok(())
    }

    fn take(&mut self, frame: &Frame) -> Result<Vec<Send<'a>>, &'static str> {
        let txn = self.transactions.remove(header(frame, "transaction"));
        txn.ok_or("66 NoSuchTxn")
    }

    /// A SEND outside a transaction is one of its own.
    fn send(
        &mut self,
        frame: Frame<'a>,
        topics: &mut Topics,
    ) -> Result<Option<Vec<Send<'a>>>, &'static str> {
        let destination = header(&frame, "destination");
        let topic = topics.place(destination)?;
        let Some(name) = frame.first(b"transaction") else {
            topics.make(topic, destination);
            return Ok(Some(vec![Send { topic, frame }]));
        };
        let sends = self.transactions.get_mut(name).ok_or("66 NoSuchTxn")?;
        if sends.len() == SENDS_LIMIT {
            return Err("71 TooManySends");
        }
        topics.make(topic, destination);
        sends.push(Send { topic, frame });
        Ok(None)
    }
}

/// A header that the frame must have.
fn header<'f>(frame: &'f Frame, name: &str) -> &'f [u8] {
    frame.first(name.as_bytes()).unwrap_or_default()
}
