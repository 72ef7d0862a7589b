//! Writes the inputs of the other programs of bench/ into a folder:
//! `generate FOLDER NAME..`. Each is as many of its frames, of its sessions, or of its transactions
//! as fit the relay's 16,777,216 octets of input. Those of `bench/relay` are SENDs to topic A alone.

mod numbers;

use numbers::Numbers;
use std::fmt::Display;
use std::io;
use std::path::Path;
use std::{env, fs, process};

const INPUT_LIMIT: usize = 16_777_216;

/// So many printable octets, with an LF here and there.
fn body(length: usize, numbers: &mut Numbers) -> Vec<u8> {
    (0..length)
        .map(|_| match numbers.next() % 96 {
            95 => b'\n',
            printable => b' ' + printable as u8,
        })
        .collect()
}

/// A SEND with a body of so many octets. Every second one tells its length; the body of the
/// others ends at the NULL.
fn with_body(place: usize, length: usize, numbers: &mut Numbers) -> Vec<u8> {
    let mut frame = b"SEND\ndestination:A\n".to_vec();
    if place % 2 == 0 {
        frame.extend(format!("content-length:{length}\n").bytes());
    }
    frame.push(b'\n');
    frame.extend(body(length, numbers));
    frame.push(0);
    frame
}

/// A SEND with 16 headers. All but the destination have each of the four escapes: the values
/// of twelve of them, the names of three.
fn with_headers(numbers: &mut Numbers) -> Vec<u8> {
    let mut frame = b"SEND\ndestination:A\n".to_vec();
    for header in 0..12 {
        let number = numbers.next() % 1_000_000;
        let line = format!("field-{header}:at\\c{number}\\r\\nin C\\c\\\\queue\\\\{header}\n");
        frame.extend(line.bytes());
    }
    for header in 12..15 {
        let number = numbers.next() % 1_000_000;
        frame.extend(format!("a\\cname\\\\on\\r\\nlines-{header}:{number}\n").bytes());
    }
    frame.push(b'\n');
    frame.extend(body(16, numbers));
    frame.push(0);
    frame
}

/// A SEND with a receipt and a body of 16 octets.
fn with_receipt(place: usize, numbers: &mut Numbers) -> Vec<u8> {
    let mut frame = format!("SEND\ndestination:A\nreceipt:r{place}\n\n").into_bytes();
    frame.extend(body(16, numbers));
    frame.push(0);
    frame
}

const CONNECT: &[u8] = b"CONNECT\naccept-version:1.2\nhost:broker\nheart-beat:0,0\n\n\0";

/// A SEND with a body of 64 octets, in the transaction of that number or in none.
fn with_text(topic: impl Display, transaction: Option<usize>, numbers: &mut Numbers) -> Vec<u8> {
    let mut frame = format!("SEND\ndestination:{topic}\n").into_bytes();
    if let Some(number) = transaction {
        frame.extend(format!("transaction:t{number}\n").bytes());
    }
    frame.extend(b"content-type:text/plain\ncontent-length:64\n\n");
    frame.extend(body(64, numbers));
    frame.push(0);
    frame
}

/// A client's session: a transaction of four SENDs with bodies of 64 octets, and an ACK, which
/// is refused. Three of its eleven frames ask for a receipt.
fn session(place: usize, numbers: &mut Numbers) -> Vec<u8> {
    let mut frames = CONNECT.to_vec();
    let subscribe = format!("SUBSCRIBE\ndestination:A\nid:s\nack:auto\nreceipt:s{place}\n\n\0");
    frames.extend(subscribe.bytes());
    frames.extend(format!("BEGIN\ntransaction:t{place}\n\n\0").bytes());
    for _ in 0..4 {
        frames.extend(with_text('A', Some(place), numbers));
    }
    frames.extend(format!("ACK\nid:{place}\n\n\0").bytes());
    frames.extend(format!("COMMIT\ntransaction:t{place}\nreceipt:c{place}\n\n\0").bytes());
    frames.extend(b"UNSUBSCRIBE\nid:s\n\n\0");
    frames.extend(format!("DISCONNECT\nreceipt:d{place}\n\n\0").bytes());
    frames
}

/// One of the topics A to H.
fn any_topic(numbers: &mut Numbers) -> char {
    char::from(b'A' + (numbers.next() % 8) as u8)
}

/// A transaction of four SENDs, and a SEND outside; in the first place a CONNECT instead.
fn transactions(place: usize, numbers: &mut Numbers) -> Vec<u8> {
    if place == 0 {
        return CONNECT.to_vec();
    }
    let mut frames = format!("BEGIN\ntransaction:t{place}\n\n\0").into_bytes();
    for _ in 0..4 {
        frames.extend(with_text(any_topic(numbers), Some(place), numbers));
    }
    frames.extend(format!("COMMIT\ntransaction:t{place}\n\n\0").bytes());
    frames.extend(with_text(any_topic(numbers), None, numbers));
    frames
}

/// The number of subscriptions, and then bodies of 64 octets, each with a NULL behind it; so many
/// that no input takes more than some seconds and 64 MiB of queues.
fn topic(subscriptions: usize, place: usize, numbers: &mut Numbers) -> Vec<u8> {
    if place == 0 {
        return format!("{subscriptions}\0").into_bytes();
    }
    // Enough of them: more than fits, so the input ends.
    if place > (2_560_000 / subscriptions).min(200_000) {
        return vec![b'\n'; 1 << 24];
    }
    let mut text = body(64, numbers);
    text.push(0);
    text
}

/// The letter of a job, the number of parts that are pending, and then bodies of 64 octets, each with a NULL behind it.
fn group(job: char, pending: usize, place: usize, numbers: &mut Numbers) -> Vec<u8> {
    if place == 0 {
        return format!("{job}{pending}\0").into_bytes();
    }
    topic(1, place, numbers)
}

/// Events of a core, each with the octet 1 behind it.
struct Events(Vec<u8>);

impl Events {
    /// An event of this letter: its number, and what else it names.
    fn add(&mut self, letter: char, number: usize, rest: impl Display) {
        self.0.extend(format!("{letter}{number} {rest}\x01").bytes());
    }

    /// The connection is fed these octets, and reads so many frames of them.
    fn feed(&mut self, connection: usize, octets: &[u8], frames: usize) {
        self.0.extend(format!("P{connection} ").bytes());
        self.0.extend(octets);
        self.0.push(1);
        for _ in 0..frames {
            self.add('N', connection, "");
        }
    }

    /// So many topics, and so many connections that are connected.
    fn open(topics: usize, connections: usize) -> Events {
        let mut events = Events(format!("{topics}\x01").into_bytes());
        for connection in 0..connections {
            events.add('O', 0, "");
            events.feed(connection, CONNECT, 1);
        }
        events
    }

    fn subscribe(&mut self, connection: usize, topic: usize) {
        let frame = format!("SUBSCRIBE\ndestination:{topic}\nid:s{topic}\nack:auto\n\n\0");
        self.feed(connection, frame.as_bytes(), 1);
    }

    /// A transaction of this number of the connection, with SENDs to these topics.
    fn commit(&mut self, connection: usize, place: usize, topics: &[usize], numbers: &mut Numbers) {
        let mut frames = format!("BEGIN\ntransaction:t{place}\n\n\0").into_bytes();
        for topic in topics {
            frames.extend(with_text(topic, Some(place), numbers));
        }
        frames.extend(format!("COMMIT\ntransaction:t{place}\n\n\0").bytes());
        self.feed(connection, &frames, topics.len() + 2);
    }
}

/// More than fits, so the input ends.
fn end() -> Vec<u8> {
    vec![b'\n'; INPUT_LIMIT]
}

/// One connection, with a subscription of each of 2 topics: transactions of 4 SENDs to these.
fn core_one(place: usize, numbers: &mut Numbers) -> Vec<u8> {
    if place == 0 {
        let mut events = Events::open(2, 1);
        events.subscribe(0, 0);
        events.subscribe(0, 1);
        return events.0;
    }
    let mut events = Events(Vec::new());
    events.commit(0, place, &[0, 1, 0, 1], numbers);
    events.add('A', 0, 0);
    events.add('A', 0, 1);
    events.add('D', 0, "");
    for topic in 0..2 {
        events.add('T', topic, "");
        events.add('K', topic, "");
    }
    events.0
}

/// One topic with 16 connections that have subscribed it, and one that sends SENDs of their own to it.
fn core_subscribers(place: usize, numbers: &mut Numbers) -> Vec<u8> {
    const SUBSCRIBERS: usize = 16;
    if place == 0 {
        let mut events = Events::open(1, SUBSCRIBERS + 1);
        for connection in 1..=SUBSCRIBERS {
            events.subscribe(connection, 0);
        }
        return events.0;
    }
    if place > 20_000 {
        return end();
    }
    let mut events = Events(Vec::new());
    events.feed(0, &with_text(0, None, numbers), 1);
    events.add('A', 0, 0);
    events.add('D', 0, "");
    events.add('T', 0, "");
    for subscription in 0..SUBSCRIBERS {
        events.add('K', subscription, "");
    }
    events.0
}

/// 1,000 connections, each with a subscription, and 500 topics. In each round every connection sends a
/// transaction of 2 SENDs to 2 topics, all are proposed before the first is decided, and then each topic
/// has its turn.
fn core_connections(place: usize, numbers: &mut Numbers) -> Vec<u8> {
    const CONNECTIONS: usize = 1_000;
    const TOPICS: usize = 500;
    if place == 0 {
        let mut events = Events::open(TOPICS, CONNECTIONS);
        for connection in 0..CONNECTIONS {
            events.subscribe(connection, connection % TOPICS);
        }
        return events.0;
    }
    if place > 30 {
        return end();
    }
    let named = |connection: usize| {
        let first = connection % TOPICS;
        [first, (first + 1 + (connection * 7 + place) % (TOPICS - 1)) % TOPICS]
    };
    let mut events = Events(Vec::new());
    let mut parts = [0; TOPICS];
    for connection in 0..CONNECTIONS {
        events.commit(connection, place, &named(connection), numbers);
    }
    for topic in 0..2 {
        for connection in 0..CONNECTIONS {
            events.add('A', connection, named(connection)[topic]);
            parts[named(connection)[topic]] += 1;
        }
    }
    for connection in 0..CONNECTIONS {
        events.add('D', connection, "");
    }
    for topic in 0..TOPICS {
        events.add('T', topic, "");
    }
    for connection in 0..CONNECTIONS {
        for _ in 0..parts[connection % TOPICS] {
            events.add('K', connection, "");
        }
    }
    events.0
}

/// One connection that sends SENDs of their own to 1,024 topics, each of which the first SEND to it makes.
fn core_uses(place: usize, numbers: &mut Numbers) -> Vec<u8> {
    const TOPICS: usize = 1_024;
    if place == 0 {
        return Events::open(0, 1).0;
    }
    if place > 64 * TOPICS {
        return end();
    }
    let topic = (place - 1) % TOPICS;
    let mut events = Events(Vec::new());
    events.feed(0, &with_text(topic, None, numbers), 1);
    events.add('A', 0, topic);
    events.add('D', 0, "");
    events.add('T', topic, "");
    events.0
}

/// 65,536 client-ids, each claimed by a connection that is then lost and gone, and then once more.
fn core_claims(place: usize) -> Vec<u8> {
    const CLIENTS: usize = 65_536;
    if place == 0 {
        return Events::open(0, 0).0;
    }
    if place > 2 * CLIENTS {
        return end();
    }
    let (connection, client) = (place - 1, (place - 1) % CLIENTS);
    let mut events = Events(Vec::new());
    events.add('O', 0, "");
    let frame = format!("CONNECT\naccept-version:1.2\nhost:h\nclient-id:{client}\n\n\0");
    events.feed(connection, frame.as_bytes(), 1);
    events.add('X', connection, "");
    events.add('V', connection, "");
    events.0
}

/// One topic, at which 10,000 transactions stay undecided, each of another connection: once there are
/// more, the oldest is decided, learnt and released.
fn core_undecided(place: usize, numbers: &mut Numbers) -> Vec<u8> {
    const UNDECIDED: usize = 10_000;
    const CONNECTIONS: usize = UNDECIDED + 1;
    if place == 0 {
        return Events::open(1, CONNECTIONS).0;
    }
    if place > 65_000 {
        return end();
    }
    let connection = (place - 1) % CONNECTIONS;
    let mut events = Events(Vec::new());
    events.feed(connection, &with_text(0, None, numbers), 1);
    events.add('A', connection, 0);
    if let Some(oldest) = (place - 1).checked_sub(UNDECIDED) {
        let connection = oldest % CONNECTIONS;
        let number = oldest / CONNECTIONS + 1;
        events.add('D', connection, "");
        events.add('L', 0, format!("{connection} {number}"));
        events.add('R', 0, "");
    }
    events.0
}

/// The events as lines of a script; before the first one the number of topics stands.
fn script(place: usize, events: &[u8]) -> Vec<u8> {
    let mut lines = Vec::new();
    for (at, event) in events.split(|octet| *octet == 1).enumerate() {
        let (letter, rest) = event.split_first().unwrap_or((&0, b""));
        let name = match letter {
            0 => continue,
            b'O' => {
                lines.extend(b"open\n");
                continue;
            }
            b'P' => "piece ",
            b'N' => "next ",
            b'A' => "propose ",
            b'D' => "decide ",
            b'L' => "learn ",
            b'R' => "release ",
            b'T' => "turn ",
            b'K' => "take ",
            _ if place == 0 && at == 0 => {
                let topics: usize = String::from_utf8_lossy(event).parse().unwrap_or(0);
                lines.extend(b"capacity 4096\n");
                lines.extend((0..topics).flat_map(|topic| format!("topic {topic} 0\n").into_bytes()));
                continue;
            }
            _ => unreachable!("no event has this letter"),
        };
        lines.extend(name.bytes());
        for octet in rest.strip_suffix(b" ").filter(|_| *letter != b'P').unwrap_or(rest) {
            match octet {
                b'\n' => lines.extend(b"\\n"),
                0 => lines.extend(b"\\0"),
                b'\\' => lines.extend(b"\\\\"),
                plain => lines.push(*plain),
            }
        }
        lines.push(b'\n');
    }
    lines
}

/// One connection, with a subscription of the first of 3 topics: transactions of a SEND to each.
fn script_transactions(place: usize, numbers: &mut Numbers) -> Vec<u8> {
    if place == 0 {
        let mut events = Events::open(3, 1);
        events.subscribe(0, 0);
        return script(place, &events.0);
    }
    let mut events = Events(Vec::new());
    events.commit(0, place, &[0, 1, 2], numbers);
    for topic in 0..3 {
        events.add('A', 0, topic);
    }
    events.add('D', 0, "");
    for topic in 0..3 {
        events.add('T', topic, "");
    }
    events.add('K', 0, "");
    script(place, &events.0)
}

/// One connection that has subscribed the only topic: SENDs with bodies of 2^20 octets.
fn script_bodies(place: usize, numbers: &mut Numbers) -> Vec<u8> {
    if place == 0 {
        let mut events = Events::open(1, 1);
        events.subscribe(0, 0);
        return script(place, &events.0);
    }
    let mut frame = b"SEND\ndestination:0\ncontent-length:1048576\n\n".to_vec();
    frame.extend(body(1_048_576, numbers));
    frame.push(0);
    let mut events = Events(Vec::new());
    events.feed(0, &frame, 1);
    events.add('A', 0, 0);
    events.add('D', 0, "");
    events.add('T', 0, "");
    events.add('K', 0, "");
    script(place, &events.0)
}

/// The events of `core_connections`.
fn script_connections(place: usize, numbers: &mut Numbers) -> Vec<u8> {
    let events = core_connections(place, numbers);
    if events.len() == INPUT_LIMIT { events } else { script(place, &events) }
}

/// How many transactions the log of the input `subscriptions` has, and how many subscriptions there are.
const LOGGED: usize = 960;
const SUBSCRIPTIONS: usize = 1_000;

/// A log's row: the sender is one of eight, and each of its transactions has a later stamp.
fn logged(topic: usize, at: usize, named: &[usize]) -> Vec<u8> {
    let mut row = format!("0 {topic} {} {} {} 0 ", at % 8, at / 8 + 1, at + 1);
    for name in named {
        row.push_str(&format!("{name} "));
    }
    row.push('\n');
    row.into_bytes()
}

/// One log with all rows.
fn one_topic(place: usize) -> Vec<u8> {
    logged(0, place, &[0])
}

/// A log, subscriptions from each of its stamps on, and the rows of their queues by turns.
fn subscriptions(place: usize) -> Vec<u8> {
    if place < LOGGED {
        return logged(0, place, &[0]);
    }
    let place = place - LOGGED;
    if place < SUBSCRIPTIONS {
        return format!("1 {place} 0 {} 0 \n", place % LOGGED / 8).into_bytes();
    }
    let place = place - SUBSCRIPTIONS;
    let (at, sub) = (place / SUBSCRIPTIONS, place % SUBSCRIPTIONS);
    if at < sub % LOGGED / 8 {
        return Vec::new();
    }
    // The log has ended: more than fits, so the input ends.
    if at >= LOGGED {
        return vec![b'\n'; 1 << 24];
    }
    format!("2 {sub} {} {} {} 0 \n", at % 8, at / 8 + 1, at + 1).into_bytes()
}

/// Transactions to four of 4,096 topics each, in each of their logs.
fn many_topics(place: usize) -> Vec<u8> {
    let first = place * 37 % 4_093;
    let named = [first, first + 1, first + 2, first + 3];
    named
        .iter()
        .flat_map(|&topic| logged(topic, place, &named))
        .collect()
}

/// The frames of the input of that name, at that place.
fn frames(name: &str, place: usize, numbers: &mut Numbers) -> Option<Vec<u8>> {
    match name {
        "bodies-16" => Some(with_body(place, 16, numbers)),
        "bodies-1K" => Some(with_body(place, 1_024, numbers)),
        "bodies-64K" => Some(with_body(place, 65_536, numbers)),
        "bodies-1M" => Some(with_body(place, 1_048_576, numbers)),
        "headers" => Some(with_headers(numbers)),
        "receipts" => Some(with_receipt(place, numbers)),
        "sessions" => Some(session(place, numbers)),
        "transactions" => Some(transactions(place, numbers)),
        "topic-1" => Some(topic(1, place, numbers)),
        "topic-16" => Some(topic(16, place, numbers)),
        "topic-256" => Some(topic(256, place, numbers)),
        "topic-1000" => Some(topic(1_000, place, numbers)),
        "group-1" => Some(group('o', 1, place, numbers)),
        "group-16" => Some(group('o', 16, place, numbers)),
        "group-256" => Some(group('o', 256, place, numbers)),
        "group-1000" => Some(group('o', 1_000, place, numbers)),
        "group-65000" => Some(group('o', 65_000, place, numbers)),
        "drawn-16" => Some(group('r', 16, place, numbers)),
        "drawn-1000" => Some(group('r', 1_000, place, numbers)),
        "drawn-65000" => Some(group('r', 65_000, place, numbers)),
        "turn-16" => Some(group('t', 16, place, numbers)),
        "turn-1000" => Some(group('t', 1_000, place, numbers)),
        "turn-65000" => Some(group('t', 65_000, place, numbers)),
        "drain-16" => Some(group('d', 16, place, numbers)),
        "drain-1000" => Some(group('d', 1_000, place, numbers)),
        "drain-65000" => Some(group('d', 65_000, place, numbers)),
        "core-one" => Some(core_one(place, numbers)),
        "core-subscribers" => Some(core_subscribers(place, numbers)),
        "core-connections" => Some(core_connections(place, numbers)),
        "core-undecided" => Some(core_undecided(place, numbers)),
        "core-uses" => Some(core_uses(place, numbers)),
        "core-claims" => Some(core_claims(place)),
        "script-transactions" => Some(script_transactions(place, numbers)),
        "script-bodies" => Some(script_bodies(place, numbers)),
        "script-connections" => Some(script_connections(place, numbers)),
        "one-topic" => Some(one_topic(place)),
        "subscriptions" => Some(subscriptions(place)),
        "many-topics" => Some(many_topics(place)),
        _ => None,
    }
}

/// Writes frames for as long as there are next ones, and they fit.
fn write_input(folder: &Path, name: &str) -> io::Result<()> {
    let mut numbers = Numbers::new(0);
    let mut text = Vec::with_capacity(INPUT_LIMIT);
    for place in 0.. {
        let next = frames(name, place, &mut numbers)
            .ok_or_else(|| io::Error::other(format!("no input has the name {name}")))?;
        if text.len() + next.len() > INPUT_LIMIT {
            break;
        }
        text.extend(next);
    }
    fs::write(folder.join(name).with_extension("stomp"), text)
}

fn main() {
    let words: Vec<String> = env::args().skip(1).collect();
    let [folder, names @ ..] = &words[..] else {
        eprintln!("usage: generate FOLDER NAME..");
        process::exit(1);
    };
    for name in names {
        if let Err(error) = write_input(Path::new(folder), name) {
            eprintln!("generate: {error}");
            process::exit(1);
        }
    }
}
