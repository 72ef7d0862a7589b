//! Talks to a running server for `fuzz_serve.rs`: as a client that sends any octets, and as one that has to be served.

use crate::whole_core::{Core, Event, Lack};
use std::collections::BTreeMap;
use std::io::{self, Read, Write};
use std::net::{Shutdown, SocketAddr, TcpStream};
use std::sync::mpsc;
use std::thread;
use std::time::{Duration, Instant};

/// How long an answer may take.
pub const PATIENCE: Duration = Duration::from_secs(15);

/// What stands behind each frame of a server, and what behind those of the core.
pub const OF_SERVER: &[u8] = b"\n";
const OF_CORE: &[u8] = b"";

/// How many items may wait for a subscription.
const CAPACITY: usize = 64;

/// What was told a client: the frames that aren't MESSAGEs, and by subscription the MESSAGEs, without stamps.
#[derive(Default, PartialEq, Eq)]
pub struct Told {
    pub replies: Vec<Vec<u8>>,
    pub messages: BTreeMap<Vec<u8>, Vec<Vec<u8>>>,
    /// What stands behind the last whole frame.
    pub rest: usize,
    /// All of it.
    pub text: Vec<u8>,
}

/// Where a text has these octets.
fn find(text: &[u8], word: &[u8]) -> Option<usize> {
    text.windows(word.len()).position(|part| part == word)
}

/// The length of the frame that the text begins with, once all of it is there, and this behind it.
fn frame_length(text: &[u8], behind: &[u8]) -> Option<usize> {
    let head = find(text, b"\n\n")? + 2;
    let counted = find(&text[..head], b"\ncontent-length:").map_or(0, |at| {
        let digits = text[at + 16..].iter().take_while(|octet| octet.is_ascii_digit());
        digits.fold(0, |number, octet| number * 10 + usize::from(octet - b'0'))
    });
    let length = head + counted + 1;
    text.get(length..)?.starts_with(behind).then_some(length)
}

impl Told {
    /// What these frames told, behind each of which this stands.
    pub fn of(text: &[u8], behind: &[u8]) -> Told {
        let (mut told, mut at) = (Told::default(), 0);
        while let Some(length) = frame_length(&text[at..], behind) {
            let frame = &text[at..at + length];
            match frame.starts_with(b"MESSAGE\n") {
                true => told.put_message(frame),
                false => told.replies.push(frame.to_vec()),
            }
            at += length + behind.len();
        }
        told.rest = text.len() - at;
        told.text = text.to_vec();
        told
    }

    /// Of its message-id the place in its transaction alone is kept.
    fn put_message(&mut self, frame: &[u8]) {
        let mut lines = frame.splitn(4, |octet| *octet == b'\n').skip(1);
        let (id, number) = (lines.next().unwrap_or(b""), lines.next().unwrap_or(b""));
        let place = number.rsplit(|octet| *octet == b'.').next().unwrap_or(b"");
        let message = [place, b"\n", lines.next().unwrap_or(b"")].concat();
        self.messages.entry(id.to_vec()).or_default().push(message);
    }

    /// The last reply's first two lines, as a word for what came.
    pub fn last(&self) -> String {
        let last = self.replies.last().map_or(&b"nothing"[..], |reply| reply);
        let text = String::from_utf8_lossy(last).into_owned();
        let mut lines = text.lines();
        match lines.next() {
            Some("ERROR") => format!(
                "ERROR {}",
                lines.next().unwrap_or("").trim_start_matches("message:")
            ),
            word => word.unwrap_or("").to_string(),
        }
    }

    pub fn is_error(&self, number: &str) -> bool {
        let begin = format!("ERROR\nmessage:{number} ");
        self.replies
            .last()
            .is_some_and(|reply| reply.starts_with(begin.as_bytes()))
    }
}

/// What a client that sends a stream, and then waits, is to be told.
pub struct Wanted {
    pub told: Told,
    /// Whether its connection then ends.
    pub ends: bool,
    /// All that was sent to each topic, and which subscriptions there were: id and topic.
    sent: BTreeMap<Vec<u8>, Vec<Vec<u8>>>,
    subscriptions: Vec<(Vec<u8>, Vec<u8>)>,
    /// The names of all topics then.
    pub names: Vec<Vec<u8>>,
}

/// Plays the connection 0 of a core, and beside it another that subscribes to each topic before anything is sent there.
struct Play {
    core: Core,
    watched: usize,
}

impl Play {
    fn step(&mut self, event: Event) -> String {
        self.core.step(&event, Lack::Nothing).unwrap_or_default()
    }

    /// The other connection subscribes to the topics that are new.
    fn watch(&mut self) {
        let names: Vec<Vec<u8>> = self.core.names().skip(self.watched).map(<[u8]>::to_vec).collect();
        for name in names {
            let destination = String::from_utf8_lossy(&name)
                .replace('\\', "\\\\")
                .replace(':', "\\c");
            let frame = format!("SUBSCRIBE\nid:{}\ndestination:{destination}\n\n\0", self.watched);
            // Of a second such connection, where the first has as many as it may.
            let at = 1 + self.watched as u64 / 64;
            if self.watched % 64 == 0 {
                self.step(Event::Open);
                self.step(Event::Piece(
                    at,
                    b"CONNECT\naccept-version:1.2\nhost:h\n\n\0".to_vec(),
                ));
                self.step(Event::Next(at));
            }
            self.step(Event::Piece(at, frame.into_bytes()));
            self.step(Event::Next(at));
            self.watched += 1;
        }
    }

    /// Commits the connection's transaction, and has it delivered.
    fn commit(&mut self) {
        self.watch();
        for topic in 0..self.watched as u64 {
            self.step(Event::Propose(0, topic));
        }
        self.step(Event::Decide(0));
        for topic in 0..self.watched as u64 {
            self.step(Event::Turn(topic));
        }
        for queue in 0..self.core.queues.len() as u64 {
            self.step(Event::Take(queue));
        }
    }

    /// Has the connection's frames until none is whole; whether it ends.
    fn play(&mut self, text: &[u8]) -> bool {
        self.step(Event::Open);
        self.step(Event::Piece(0, text.to_vec()));
        let ends = loop {
            let came = self.step(Event::Next(0));
            if came.starts_with("flight") {
                self.commit();
            } else if came.starts_with("refused") {
                break false;
            } else if came.starts_with("error") || came == "leaving" {
                break true;
            }
        };
        while ends && self.step(Event::Leave(0)) != "gone" {}
        ends
    }
}

/// What a client that sends this text is to be told.
pub fn wanted(text: &[u8], topics: &[(Vec<u8>, u64)]) -> Wanted {
    let mut play = Play {
        core: Core::new(CAPACITY, topics),
        watched: 0,
    };
    let ends = play.play(text);
    let (first, others) = play.core.connections.split_first().expect("it was opened");
    let mut sent: BTreeMap<Vec<u8>, Vec<Vec<u8>>> = BTreeMap::new();
    for list in others
        .iter()
        .flat_map(|it| Told::of(&it.out, OF_CORE).messages.into_values())
    {
        list.into_iter().for_each(|message| {
            sent.entry(destination_of(&message).to_vec())
                .or_default()
                .push(message)
        });
    }
    let names: Vec<&[u8]> = play.core.names().collect();
    let subscriptions = play
        .core
        .queues
        .iter()
        .map(|queue| (queue.id.clone(), names[queue.topic].to_vec()));
    Wanted {
        told: Told::of(&first.out, OF_CORE),
        ends,
        sent,
        subscriptions: subscriptions.collect(),
        names: names.iter().map(|name| name.to_vec()).collect(),
    }
}

/// The destination of a MESSAGE as it is kept: its second line, without its name.
fn destination_of(message: &[u8]) -> &[u8] {
    let line = message.split(|octet| *octet == b'\n').nth(1).unwrap_or(b"");
    line.strip_prefix(b"destination:").unwrap_or(b"")
}

/// A value with its escapes.
fn escaped(name: &[u8]) -> Vec<u8> {
    String::from_utf8_lossy(name)
        .replace('\\', "\\\\")
        .replace(':', "\\c")
        .into_bytes()
}

impl Wanted {
    /// Whether all that is due came. What was sent before a subscription may come to it, too: its topic may have released
    /// that later.
    pub fn is_all_of(&self, came: &Told) -> bool {
        let has = |(id, due): (&Vec<u8>, &Vec<Vec<u8>>)| {
            came.messages.get(id).is_some_and(|list| list.ends_with(due))
        };
        came.replies.len() >= self.told.replies.len() && self.told.messages.iter().all(has)
    }

    /// Whether every MESSAGE is of its subscription's topic, and they are in the order in which they were sent there.
    pub fn may_come(&self, came: &Told) -> bool {
        came.messages.iter().all(|(line, list)| {
            let id = line.strip_prefix(b"subscription:").unwrap_or(b"");
            let is_its = |message: &Vec<u8>| {
                let named = |row: &(Vec<u8>, Vec<u8>)| {
                    escaped(&row.0) == id && escaped(&row.1) == destination_of(message)
                };
                self.subscriptions.iter().any(named)
            };
            list.iter().all(is_its)
                && self.sent.iter().all(|(topic, sent)| {
                    let mut rest = sent.iter();
                    let mut of_it = list.iter().filter(|message| destination_of(message) == topic);
                    of_it.all(|message| rest.any(|other| other == message))
                })
        })
    }

    /// Whether a subscription may lag.
    pub fn is_much(&self) -> bool {
        self.sent.values().map(Vec::len).sum::<usize>() > CAPACITY
    }
}

/// How a client ends.
#[derive(Clone, Copy)]
pub enum Way<'a> {
    /// It waits until all of this came, or the server has ended the connection.
    Waits(&'a Wanted),
    /// It shuts its side at once, and reads to the end.
    Shuts,
    /// It closes at once, and reads nothing.
    Closes,
}

/// Sends these pieces, and ends so; all octets that came until the server closed.
pub fn talk(address: SocketAddr, pieces: &[&[u8]], way: Way) -> io::Result<Vec<u8>> {
    let mut socket = TcpStream::connect(address)?;
    socket.set_nodelay(true)?;
    socket.set_write_timeout(Some(PATIENCE))?;
    let write = |socket: &mut TcpStream| pieces.iter().try_for_each(|piece| socket.write_all(piece));
    if matches!(way, Way::Closes) {
        // What fails here fails since the server closed first.
        let _ = write(&mut socket);
        return Ok(Vec::new());
    }
    let (tell, told) = mpsc::channel();
    let reader = socket.try_clone()?;
    thread::scope(|scope| {
        let reading = scope.spawn(move || read_all(reader, way, &tell));
        let _ = write(&mut socket);
        if !matches!(way, Way::Shuts) {
            let _ = told.recv_timeout(PATIENCE);
        }
        let _ = socket.shutdown(Shutdown::Write);
        reading.join().expect("a thread that ends")
    })
}

/// Reads until the end, and tells once as many frames came as are waited for.
fn read_all(mut socket: TcpStream, way: Way, tell: &mpsc::Sender<()>) -> io::Result<Vec<u8>> {
    socket.set_read_timeout(Some(2 * PATIENCE))?;
    let (mut came, mut piece) = (Vec::new(), vec![0; 1 << 16]);
    loop {
        let is_all = |wanted: &Wanted| wanted.is_all_of(&Told::of(&came, OF_SERVER));
        if matches!(way, Way::Waits(wanted) if !wanted.ends && is_all(wanted)) {
            let _ = tell.send(());
        }
        match socket.read(&mut piece) {
            Ok(0) => break,
            Ok(count) => came.extend_from_slice(&piece[..count]),
            Err(error) if error.kind() == io::ErrorKind::ConnectionReset => break,
            Err(error) => return Err(error),
        }
    }
    let _ = tell.send(());
    Ok(came)
}

/// Waits until each of these topics has released all that was sent there before: it sends to each, and gets that. So nothing of
/// an earlier connection comes to a later one.
pub fn settle(address: SocketAddr, names: &[Vec<u8>]) -> io::Result<()> {
    for some in names.chunks(64) {
        let mut client = Served::new(address)?;
        for (id, name) in some.iter().enumerate() {
            let line = [b"destination:", &escaped(name)[..], b"\n"].concat();
            client.send(
                &[
                    format!("SUBSCRIBE\nid:{id}\n").as_bytes(),
                    &line,
                    b"\n\0SEND\n",
                    &line,
                    b"\nsettled\0",
                ]
                .concat(),
            )?;
        }
        let mut left = some.len();
        while left > 0 {
            let frame = client.frame()?;
            match frame.starts_with(b"MESSAGE\n") {
                true => left -= usize::from(frame.ends_with(b"\n\nsettled\0")),
                false => {
                    return Err(io::Error::other(format!(
                        "{:?} came",
                        String::from_utf8_lossy(&frame)
                    )))
                }
            }
        }
    }
    Ok(())
}

/// A client that has to be served.
pub struct Served {
    socket: TcpStream,
    came: Vec<u8>,
}

impl Served {
    pub fn new(address: SocketAddr) -> io::Result<Served> {
        let socket = TcpStream::connect(address)?;
        socket.set_nodelay(true)?;
        socket.set_read_timeout(Some(PATIENCE))?;
        socket.set_write_timeout(Some(PATIENCE))?;
        let mut served = Served {
            socket,
            came: Vec::new(),
        };
        served.send(b"CONNECT\naccept-version:1.2\nhost:h\n\n\0")?;
        served.expect(b"CONNECTED\nversion:1.2\nheart-beat:0,0\n\n\0")?;
        Ok(served)
    }

    pub fn send(&mut self, frame: &[u8]) -> io::Result<()> {
        self.socket.write_all(frame)
    }

    /// The next frame has to be this one.
    pub fn expect(&mut self, wanted: &[u8]) -> io::Result<()> {
        let frame = self.frame()?;
        let show = |octets: &[u8]| String::from_utf8_lossy(octets).into_owned();
        match frame == wanted {
            true => Ok(()),
            false => Err(io::Error::other(format!(
                "{:?} came and not {:?}",
                show(&frame),
                show(wanted)
            ))),
        }
    }

    /// The next frame, without what stands behind it.
    pub fn frame(&mut self) -> io::Result<Vec<u8>> {
        let until = Instant::now() + PATIENCE;
        let mut piece = [0; 4096];
        loop {
            if let Some(length) = frame_length(&self.came, OF_SERVER) {
                let behind = self.came.split_off(length + OF_SERVER.len());
                self.came.truncate(length);
                return Ok(std::mem::replace(&mut self.came, behind));
            }
            match self.socket.read(&mut piece)? {
                0 => return Err(io::Error::other("the server closed a client's connection")),
                count => self.came.extend_from_slice(&piece[..count]),
            }
            if Instant::now() > until {
                return Err(io::Error::other("no whole frame came in time"));
            }
        }
    }
}
