//! A sender's gate in plain Rust: its transactions one after the other, each with its parts and
//! the tickets of its topics. It shares no code with the crates.

use crate::session::Send;

/// A number, and the place of the topic that gave it. They are ordered by the number first.
#[derive(Clone, Copy, PartialEq, Eq, PartialOrd, Ord)]
pub struct Stamp {
    pub number: u64,
    pub topic: usize,
}

/// The SENDs of a transaction to one topic.
pub struct Part<'a> {
    pub topic: usize,
    pub sends: Vec<Send<'a>>,
}

/// A transaction on its way: its parts by rising topic, and what their topics have given.
pub struct Flight<'a> {
    number: u64,
    floor: Stamp,
    parts: Vec<Part<'a>>,
    given: Vec<Option<u64>>,
}

/// What the tickets decide: each topic with its number, and the greatest of these.
pub struct Verdict {
    pub number: u64,
    pub rows: Vec<Stamp>,
    pub stamp: Stamp,
}

pub struct Gate {
    number: u64,
    floor: Stamp,
}

impl Gate {
    pub fn new() -> Gate {
        Gate {
            number: 0,
            floor: Stamp {
                number: 0,
                topic: 0,
            },
        }
    }

    /// Sends the transaction on its way, as the next one.
    pub fn begin<'a>(&mut self, txn: Vec<Send<'a>>) -> Result<Flight<'a>, &'static str> {
        self.number = self.number.checked_add(1).ok_or("53 SeqFull")?;
        let mut parts: Vec<Part> = Vec::new();
        for send in txn {
            match parts.binary_search_by_key(&send.topic, |part| part.topic) {
                Ok(place) => parts[place].sends.push(send),
                Err(place) => parts.insert(
                    place,
                    Part {
                        topic: send.topic,
                        sends: vec![send],
                    },
                ),
            }
        }
        Ok(Flight {
            number: self.number,
            floor: self.floor,
            given: vec![None; parts.len()],
            parts,
        })
    }

    /// Ends the flight, whose stamp is the new floor.
    pub fn decide(&mut self, flight: Flight) -> Result<Verdict, &'static str> {
        let tickets = flight.parts.iter().zip(flight.given);
        let rows = tickets.map(|(part, given)| {
            Some(Stamp {
                number: given?,
                topic: part.topic,
            })
        });
        let rows: Vec<Stamp> = rows.collect::<Option<_>>().ok_or("52 Incomplete")?;
        self.floor = rows.iter().copied().max().unwrap_or(self.floor);
        Ok(Verdict {
            number: flight.number,
            rows,
            stamp: self.floor,
        })
    }
}

impl<'a> Flight<'a> {
    pub fn parts(&self) -> &[Part<'a>] {
        &self.parts
    }

    pub fn floor(&self) -> Stamp {
        self.floor
    }

    /// Takes the ticket of a topic.
    pub fn put(&mut self, topic: usize, number: u64) -> Result<(), &'static str> {
        let place = self
            .parts
            .binary_search_by_key(&topic, |part| part.topic)
            .map_err(|_| "50 NotNamed")?;
        if self.given[place].is_some() {
            return Err("51 Twice");
        }
        if number <= self.floor.number {
            return Err("54 BelowFloor");
        }
        self.given[place] = Some(number);
        Ok(())
    }
}
