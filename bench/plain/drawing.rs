//! Draws scripts, traces and what clients send, and changes texts, for `fuzz.rs` and `fuzz_serve.rs`.

use crate::streams::Streams;

/// Numbers at the edges of their types, and what is no number.
const NUMBERS: [&str; 12] = [
    "0",
    "1",
    "2",
    "3",
    "00",
    "01",
    "4294967295",
    "4294967296",
    "18446744073709551615",
    "18446744073709551616",
    "-1",
    "",
];

/// The clocks with which topics begin.
const CLOCKS: [&str; 16] = [
    "0",
    "0",
    "0",
    "0",
    "0",
    "0",
    "1",
    "1",
    "2",
    "3",
    "5",
    "9",
    "4294967296",
    "18446744073709551615",
    "18446744073709551614",
    "18446744073709551612",
];

const CONNECT: &str = "CONNECT\naccept-version:1.2\nhost:h\n\n\0";

/// One that claims a sender, in which `#` stands for a small id.
const CLAIM: &str = "CONNECT\naccept-version:1.2\nhost:h\nclient-id:#\n\n\0";

/// Destinations that no opening topic has; the last two can't be a topic's name.
const NEW: [&str; 6] = ["Z", "Y", "a", "new/topic~", "A B", ""];

/// First frames that are refused, or are taken all the same.
const CONNECTS: [&str; 7] = [
    "STOMP\naccept-version:1.0, 1.2\nhost:a\\b\n\n\0",
    "CONNECT\naccept-version:1.1\nhost:h\n\n\0",
    "CONNECT\naccept-version:1.2\n\n\0",
    "CONNECT\naccept-version:1.0,1.1\n\n\0",
    "CONNECT\r\naccept-version:1.2\r\nhost:h\r\nreceipt:no\r\n\r\n\0",
    "SEND\ndestination:A\n\n\0",
    "CONNECT\naccept-version:1.2\nhost:h\ncontent-length:1\n\nx\0",
];

/// Frames of a client, in which `@` stands for a topic, `#` for a small id, and `?` for a receipt's line or nothing.
const FRAMES: [&str; 23] = [
    "SEND\ndestination:@\n?\nm\0",
    "SEND\ndestination:@\n?content-length:3\n\na\0b\0",
    "SEND\ndestination:@\nx:1\nx:2\nk\\c:a\\nb:c\n?\n\0",
    "SUBSCRIBE\nid:#\ndestination:@\n?\n\0",
    "SUBSCRIBE\nid:#\ndestination:@\nack:auto\n?\n\0",
    "SUBSCRIBE\nid:#\ndestination:@\nack:client\n?\n\0",
    "SUBSCRIBE\nid:#\ndestination:@\npart:yes\npart:no\n?\n\0",
    "SUBSCRIBE\nid:#\ndestination:@\npart:no\npart:yes\n?\n\0",
    "SEND\ndestination:@\nk:1\npart:1/1\n?\nm\0",
    "UNSUBSCRIBE\nid:#\n?\n\0",
    "BEGIN\ntransaction:#\n?\n\0",
    "ABORT\ntransaction:#\n?\n\0",
    "COMMIT\ntransaction:#\n?\n\0",
    "SEND\ndestination:@\ntransaction:#\n?\nm\0",
    "SEND\ndestination:@\ntransaction:#\nsubscription:s\n?\n\0",
    "BEGIN\ntransaction:t\n\n\0SEND\ndestination:@\ntransaction:t\n\n1\0SEND\ndestination:@\ntransaction:t\n\n2\0COMMIT\ntransaction:t\n?\n\0",
    "BEGIN\ntransaction:t\n\n\0SEND\ndestination:@\ntransaction:t\n\n1\0SEND\ndestination:@\ntransaction:t\n\n2\0SEND\ndestination:@\ntransaction:t\n\n3\0COMMIT\ntransaction:t\n?\n\0",
    "BEGIN\ntransaction:t\n\n\0COMMIT\ntransaction:t\n?\n\0",
    "DISCONNECT\n?\n\0",
    "ACK\nid:#\n?\n\0",
    "RECEIPT\nreceipt-id:#\n\n\0",
    "UNSUBSCRIBE\nid:#\n?\nbody\0",
    "\r\n\n",
];

/// How often each of the frames is drawn.
const WEIGHTS: [usize; 23] = [24, 8, 8, 12, 4, 1, 6, 1, 4, 5, 6, 2, 4, 6, 2, 24, 16, 4, 2, 1, 1, 1, 4];

/// A script's lines.
struct Lines<'a> {
    streams: &'a mut Streams,
    text: Vec<u8>,
    topics: usize,
    connections: usize,
}

impl Lines<'_> {
    fn put(&mut self, line: &str) {
        self.text.extend(line.bytes());
        self.text.push(b'\n');
    }

    /// A number below the limit, seldom the limit or far from it.
    fn number(&mut self, limit: usize) -> String {
        match self.streams.below(40) {
            0 => limit.to_string(),
            1 => self.streams.pick(&NUMBERS[..10]).to_string(),
            _ => self.streams.below(limit.max(1)).to_string(),
        }
    }

    fn connection(&mut self) -> String {
        self.number(self.connections)
    }

    /// One of the topics, of which a few may be made by first use.
    fn topic(&mut self) -> String {
        self.number(self.seen())
    }

    fn seen(&self) -> usize {
        self.topics + 2
    }

    fn settings(&mut self) {
        if !self.streams.one_in(3) {
            let capacity = self.streams.pick(&["1", "2", "3", "4096"]);
            self.put(&format!("capacity {capacity}"));
        }
        for topic in 0..self.topics {
            let clock = self.streams.pick(&CLOCKS);
            let name = ["A", "B", "C", "D"][topic];
            self.put(&format!("topic {name} {clock}"));
        }
        if self.streams.one_in(100) {
            let few = self.streams.below(3);
            for more in self.topics..1_024 - few {
                self.put(&format!("topic more{more} 0"));
            }
        }
    }

    /// A frame of the table, or seldom one that a stream of the relay has.
    fn frame(&mut self) -> Vec<u8> {
        if self.streams.one_in(30) {
            let mut text = Vec::new();
            self.streams.frame(&mut text);
            return text;
        }
        let mut at = self.streams.below(WEIGHTS.iter().sum());
        let kind = WEIGHTS.iter().position(|weight| match at < *weight {
            true => true,
            false => {
                at -= weight;
                false
            }
        });
        self.frame_of(kind.unwrap_or(0))
    }

    /// The frame, or frames, of this kind.
    fn frame_of(&mut self, kind: usize) -> Vec<u8> {
        let mut text = Vec::new();
        for octet in FRAMES[kind].bytes() {
            match octet {
                b'@' if self.streams.one_in(12) || self.topics == 0 => {
                    let weight = if self.streams.one_in(12) { 6 } else { 4 };
                    text.extend(NEW[self.streams.below(weight)].bytes())
                }
                b'@' => text.push(b'A' + self.streams.below(self.topics.max(1)) as u8),
                b'#' => text.push(b'p' + self.streams.below(3) as u8),
                b'?' if self.streams.one_in(3) => text.extend(b"receipt:r\\c1\n"),
                b'?' => {}
                other => text.push(other),
            }
        }
        text
    }

    /// A frame that is mostly accepted, of which the connection has had so many.
    fn good_frame(&mut self, earlier: usize) -> Vec<u8> {
        match self.streams.below(4) {
            0 => format!("SUBSCRIBE\nid:s{earlier}\ndestination:{}\n\n\0", self.streams.pick(&["A", "B", "C", "D"])).into_bytes(),
            _ => {
                let kind = self.streams.pick(&[0, 1, 2, 12, 13, 14]);
                self.frame_of(kind)
            }
        }
    }

    /// Feeds octets in one or more pieces, with some of the `next` in between.
    fn feed(&mut self, c: &str, octets: &[u8]) {
        let mut rest = octets;
        while !rest.is_empty() {
            let size = if self.streams.one_in(6) {
                1 + self.streams.below(rest.len())
            } else {
                rest.len()
            };
            self.text.extend(format!("piece {c} ").bytes());
            rest[..size].iter().for_each(|octet| self.octet(*octet));
            self.text.push(b'\n');
            rest = &rest[size..];
            if !rest.is_empty() && self.streams.one_in(2) {
                self.put(&format!("next {c}"));
            }
        }
    }

    /// An octet of a TEXT, as itself, by its own escape or by its number.
    fn octet(&mut self, octet: u8) {
        let own: &[u8] = match octet {
            b'\n' => b"\\n",
            b'\r' => b"\\r",
            0 => b"\\0",
            b'\\' => b"\\\\",
            _ if !self.streams.one_in(30) => &[octet],
            _ => b"",
        };
        match own {
            b"" => self.text.extend(format!("\\x{octet:02x}").bytes()),
            own if own.len() == 2 && self.streams.one_in(30) => {
                self.text.extend(format!("\\x{octet:02x}").bytes())
            }
            own => self.text.extend(own),
        }
    }

    /// A first frame.
    fn connect(&mut self) -> String {
        match self.streams.below(25) {
            0 => self.streams.pick(&CONNECTS).to_string(),
            1..=8 => CLAIM.replace('#', self.streams.pick(&["p", "p", "q", ""])),
            _ => CONNECT.to_string(),
        }
    }

    fn open(&mut self) {
        self.put("open");
        let c = self.connections.to_string();
        self.connections += 1;
        let connect = self.connect();
        self.feed(&c, connect.as_bytes());
        self.put(&format!("next {c}"));
    }

    /// Frames of a connection, and so many of the `next`, and then a few.
    fn frames(&mut self) {
        let c = self.connection();
        for _ in 0..=self.streams.below(3) {
            let frame = self.frame();
            let count = frame.iter().filter(|octet| **octet == 0).count();
            self.feed(&c, &frame);
            for _ in 0..count + self.streams.below(2) {
                self.put(&format!("next {c}"));
            }
            if !self.streams.one_in(4) {
                self.commit(&c);
            }
        }
    }

    /// As many subscriptions or transactions as a connection may have open, or SENDs as a transaction may have, and two more.
    fn many(&mut self) {
        let c = self.connection();
        let octets = self.many_frames();
        self.feed(&c, &octets);
        for _ in 0..67 {
            self.put(&format!("next {c}"));
        }
    }

    fn many_frames(&mut self) -> Vec<u8> {
        let kind = self.streams.below(3);
        let mut octets = match kind {
            0 => b"BEGIN\ntransaction:many\n\n\0".to_vec(),
            _ => Vec::new(),
        };
        for i in 0..66 {
            octets.extend(match kind {
                0 => b"SEND\ndestination:A\ntransaction:many\n\n\0".to_vec(),
                1 => format!("BEGIN\ntransaction:many{i}\n\n\0").into_bytes(),
                _ => format!("SUBSCRIBE\nid:many{i}\ndestination:A\n\n\0").into_bytes(),
            });
        }
        octets
    }

    /// Proposes a connection's transaction at some or all topics, and mostly decides it.
    fn commit(&mut self, c: &str) {
        let seen = self.seen();
        let first = self.streams.below(seen);
        for topic in 0..seen {
            if !self.streams.one_in(10) {
                let topic = (topic + first) % seen;
                self.put(&format!("propose {c} {topic}"));
            }
        }
        if !self.streams.one_in(5) {
            self.put(&format!("decide {c}"));
        }
    }

    /// Withdraws a connection's transaction, and cancels its tickets.
    fn withdraw(&mut self) {
        let c = self.connection();
        self.put(&format!("withdraw {c}"));
        for topic in 0..self.seen() {
            if !self.streams.one_in(3) {
                self.put(&format!("cancel {c} {topic}"));
            }
        }
    }

    fn step(&mut self) {
        match self.streams.below(40) {
            0..=12 => self.frames(),
            13..=17 => {
                let c = self.connection();
                self.commit(&c);
            }
            18..=26 => {
                let t = self.topic();
                self.put(&format!("turn {t}"));
            }
            27..=32 => {
                let s = self.number(6);
                self.put(&format!("take {s}"));
            }
            33 => {
                let (t, c, seq) = (self.topic(), self.connection(), self.number(4));
                self.put(&format!("learn {t} {c} {seq}"));
            }
            34 => {
                let t = self.topic();
                self.put(&format!("release {t}"));
            }
            35 => self.withdraw(),
            36 => {
                let c = self.connection();
                for _ in 0..=self.streams.below(3) {
                    self.put(&format!("leave {c}"));
                }
            }
            37 if self.streams.one_in(20) => self.many(),
            37 => {
                let c = self.connection();
                self.put(&format!("lost {c}"));
            }
            38 if self.streams.one_in(4) => {
                let line = self.streams.pick(&["", "# a comment", "#"]);
                self.put(line);
            }
            _ => self.open(),
        }
    }
}

/// A script that is run but for, seldom, a number that is no number.
pub fn script(streams: &mut Streams) -> Vec<u8> {
    let topics = streams.below(5);
    let (connections, steps) = (1 + streams.below(3), streams.below(40));
    let mut lines = Lines {
        streams,
        text: Vec::new(),
        topics,
        connections: 0,
    };
    lines.settings();
    for _ in 0..connections {
        lines.open();
    }
    for _ in 0..steps {
        lines.step();
    }
    lines.text
}

/// What a client of a server with the topics A to D sends: a CONNECT and frames.
#[allow(dead_code)] // Only `fuzz_serve.rs` has a server.
pub fn client(streams: &mut Streams) -> Vec<u8> {
    let mut lines = Lines {
        streams,
        text: Vec::new(),
        topics: 4,
        connections: 0,
    };
    let mut text = lines.connect().into_bytes();
    let is_good = lines.streams.one_in(2);
    for earlier in 0..lines.streams.below(30) {
        text.extend(match is_good {
            true => lines.good_frame(earlier),
            false => lines.frame(),
        });
    }
    if lines.streams.one_in(20) {
        text.extend(lines.many_frames());
    }
    text
}

/// A trace of a few rows, whose numbers are small.
pub fn trace(streams: &mut Streams) -> Vec<u8> {
    let mut text = Vec::new();
    let (topics, stamps) = (1 + streams.below(3), 2 + streams.below(6));
    for _ in 0..streams.below(12) {
        let mut below = |limit: usize| streams.below(limit);
        let (t, s, q) = (below(topics), below(2), 1 + below(4));
        let (n, at, to, k) = (below(stamps), below(topics), below(stamps), below(3));
        let named: Vec<String> = (0..topics)
            .filter(|topic| *topic == t || below(2) == 0)
            .map(|it| it.to_string())
            .collect();
        let line = match below(8) {
            0..=4 => format!("log {t} {s} {q} {n}.{at} {}\n", named.join(",")),
            5 => format!("span {k} {t} {n}.{at} -\n"),
            6 => format!("span {k} {t} {n}.{at} {to}.{at}\n"),
            _ => format!("queue {k} {s} {q} {n}.{at}\n"),
        };
        text.extend(line.bytes());
    }
    text
}

/// A stream for the relay of A: seldom one with a line or a body about the longest.
pub fn stream(streams: &mut Streams) -> Vec<u8> {
    let mut text = streams.next();
    if streams.one_in(60) {
        let length = 4_092 + streams.below(4);
        let end = streams.pick(&["\n\nhi\0", "\r\n\n\0", "\r\r\n\n\0", ""]);
        text.extend(format!("SEND\ndestination:A\nx:{}{end}", "v".repeat(length)).bytes());
    }
    if streams.one_in(400) {
        let length = 1_048_575 + streams.below(4);
        let counted = if streams.one_in(2) {
            format!("content-length:{length}\n")
        } else {
            String::new()
        };
        text.extend(format!("SEND\ndestination:A\n{counted}\n{}\0", "b".repeat(length)).bytes());
    }
    text
}

/// The places of a text's lines: where each begins, and where it ends with its LF.
fn lines_of(text: &[u8]) -> Vec<(usize, usize)> {
    let mut lines = Vec::new();
    let mut begin = 0;
    for line in text.split_inclusive(|octet| *octet == b'\n') {
        lines.push((begin, begin + line.len()));
        begin += line.len();
    }
    lines
}

/// Where a run of digits that is drawn begins and ends.
fn digits_of(streams: &mut Streams, text: &[u8]) -> Option<(usize, usize)> {
    let is_digit = |place: &usize| text[*place].is_ascii_digit();
    let begins: Vec<usize> = (0..text.len())
        .filter(|at| is_digit(at) && (*at == 0 || !is_digit(&(at - 1))))
        .collect();
    if begins.is_empty() {
        return None;
    }
    let begin = streams.pick(&begins);
    let end = (begin..text.len())
        .find(|place| !is_digit(place))
        .unwrap_or(text.len());
    Some((begin, end))
}

fn change_number(streams: &mut Streams, text: &mut Vec<u8>) {
    let Some((begin, end)) = digits_of(streams, text) else {
        return;
    };
    let number: Option<u64> = std::str::from_utf8(&text[begin..end])
        .ok()
        .and_then(|digits| digits.parse().ok());
    let changed = match (streams.below(8), number) {
        (0..=1, Some(number)) => number.wrapping_add(1).to_string(),
        (2..=3, Some(number)) => number.saturating_sub(1).to_string(),
        (4..=6, _) => streams.below(4).to_string(),
        _ => streams.pick(&NUMBERS).to_string(),
    };
    text.splice(begin..end, changed.bytes());
}

fn change_lines(streams: &mut Streams, text: &mut Vec<u8>) {
    let lines = lines_of(text);
    if lines.is_empty() {
        return;
    }
    let (begin, end) = streams.pick(&lines);
    let line = text[begin..end].to_vec();
    let (place, _) = streams.pick(&lines);
    match streams.below(3) {
        0 => drop(text.drain(begin..end)),
        1 => drop(text.splice(place..place, line)),
        _ => {
            text.drain(begin..end);
            let place = place.min(text.len());
            text.splice(place..place, line);
        }
    }
}

/// Puts in, changes or takes out an octet, cuts the text, or repeats a part of it.
fn change_octets(streams: &mut Streams, text: &mut Vec<u8>) {
    let place = streams.below(text.len() + 1);
    let octet = streams.octet();
    match streams.below(5) {
        0 => text.insert(place, octet),
        1 if place < text.len() => text[place] = octet,
        2 if place < text.len() => drop(text.remove(place)),
        3 => text.truncate(place),
        _ => {
            let end = (place + streams.below(40)).min(text.len());
            let part = text[place..end].to_vec();
            text.splice(place..place, part);
        }
    }
}

/// Changes numbers or lines, a few times, and seldom octets.
pub fn change(streams: &mut Streams, text: &mut Vec<u8>) {
    for _ in 0..=streams.below(3) {
        match streams.below(8) {
            0 => change_octets(streams, text),
            1..=3 => change_number(streams, text),
            _ => change_lines(streams, text),
        }
    }
}
