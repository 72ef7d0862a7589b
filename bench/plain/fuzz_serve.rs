//! Gives running servers what clients send, drawn and changed, while others are served there:
//! `fuzz_serve STOMPD FOLDER SECONDS SEED THREADS`. Each thread has a server of its own, and one connection after another to
//! it. Where that connection reads, its RECEIPTs and ERRORs have to be those of the plain core (whole_core.rs), in their order,
//! and its MESSAGEs those that are due. What differs is kept in the folder, and then the status is 1.

#[allow(dead_code)] // It takes no frame that borrows.
mod cases;
#[allow(dead_code)] // No script is drawn here.
mod drawing;
mod numbers;
mod reading;
#[allow(dead_code)] // It reads and writes no standard streams.
mod stomp;
mod streams;
mod talking;
#[allow(dead_code)] // Nothing is refused memory here.
mod whole_core;
#[allow(dead_code)] // A script's octets are all that is taken of it.
mod whole_script;

use numbers::Numbers;
use std::collections::BTreeMap;
use std::fs::{self, File};
use std::io::{self, BufRead, BufReader};
use std::net::{SocketAddr, TcpListener};
use std::path::{Path, PathBuf};
use std::process::{Child, Command, ExitCode, Stdio};
use std::sync::atomic::{AtomicBool, AtomicUsize, Ordering};
use std::time::{Duration, Instant};
use std::{env, thread};
use streams::Streams;
use talking::{settle, talk, wanted, Served, Told, Wanted, Way};
use whole_core::Event;
use whole_script::Script;

/// How many connections one server has, so that they don't use up its topics.
const OF_ONE_SERVER: usize = 80;

/// The topic of those that have to be served, which no changed stream names.
const OWN: &str = "own-topic-of-who-is-served";

const NAMES: [&str; 5] = ["A", "B", "C", "D", OWN];

/// How many differences are kept.
const KEPT_LIMIT: usize = 100;

/// What all threads share.
struct Fuzz {
    stompd: String,
    folder: PathBuf,
    end: Instant,
    seed: u64,
    /// What the examples' clients send.
    examples: Vec<Vec<u8>>,
    kept: AtomicUsize,
}

/// What came, and how often.
#[derive(Default)]
struct Seen {
    kinds: BTreeMap<String, usize>,
    streams: usize,
    servers: usize,
    served: usize,
    /// The longest time of one that was served.
    longest: Duration,
}

/// The octets of each connection of the scripts among the examples, and the relay's streams behind a CONNECT.
fn examples() -> io::Result<Vec<Vec<u8>>> {
    let mut found = Vec::new();
    for folder in ["examples", "examples/scripts"] {
        let mut paths: Vec<PathBuf> = fs::read_dir(folder)?
            .map(|it| it.map(|it| it.path()))
            .collect::<Result<_, _>>()?;
        paths.sort();
        for path in paths {
            match path.extension().and_then(|it| it.to_str()) {
                Some("stomp") => found.push(
                    [
                        &b"CONNECT\naccept-version:1.2\nhost:h\n\n\0"[..],
                        &fs::read(path)?,
                    ]
                    .concat(),
                ),
                Some("script") => found.extend(streams_of(&fs::read(path)?)),
                _ => {}
            }
        }
    }
    Ok(found)
}

/// What each connection of a script is fed.
fn streams_of(text: &[u8]) -> Vec<Vec<u8>> {
    let mut found: BTreeMap<u64, Vec<u8>> = BTreeMap::new();
    let script = Script::parse(text).map_or(Vec::new(), |script| script.events);
    for event in script {
        if let Event::Piece(connection, octets) = event {
            found.entry(connection).or_default().extend(octets);
        }
    }
    found.into_values().collect()
}

/// A running server.
struct Server {
    child: Child,
    address: SocketAddr,
    log: PathBuf,
}

impl Server {
    fn new(stompd: &str, log: &Path) -> io::Result<Server> {
        let address = TcpListener::bind("127.0.0.1:0")?.local_addr()?;
        let mut child = Command::new(stompd)
            .args(["serve", &address.to_string()])
            .args(NAMES)
            .stdin(Stdio::null())
            .stdout(Stdio::piped())
            .stderr(File::create(log)?)
            .spawn()?;
        let mut line = String::new();
        BufReader::new(child.stdout.take().expect("it is piped")).read_line(&mut line)?;
        let server = Server {
            child,
            address,
            log: log.to_path_buf(),
        };
        match line.starts_with("listening") {
            true => Ok(server),
            false => Err(io::Error::other("the server doesn't listen")),
        }
    }

    fn threads(&self) -> io::Result<usize> {
        Ok(fs::read_dir(format!("/proc/{}/task", self.child.id()))?.count())
    }

    /// Waits until no more threads are there, or the server has ended, or in vain.
    fn wait_for_threads(&self, threads: usize) -> io::Result<()> {
        let until = Instant::now() + talking::PATIENCE;
        while self.threads().unwrap_or(0) > threads && Instant::now() < until {
            thread::sleep(Duration::from_millis(1));
        }
        Ok(())
    }

    /// Whether no thread is left over, it runs, and its log is lines of its own.
    fn faults(&mut self, threads: usize) -> io::Result<Vec<String>> {
        self.wait_for_threads(threads)?;
        if let Some(status) = self.child.try_wait()? {
            return Ok(vec![format!("the server ended: {status}")]);
        }
        let mut found = Vec::new();
        // One more may be there for a client that comes while it is looked at.
        if self.threads()? > threads + 1 {
            found.push(format!(
                "{} threads are there, and there were {threads}",
                self.threads()?
            ));
        }
        for line in fs::read(&self.log)?.split_inclusive(|octet| *octet == b'\n') {
            if !is_log_line(line) {
                found.push(format!("a line of the log: {:?}", String::from_utf8_lossy(line)));
            }
        }
        Ok(found)
    }
}

impl Drop for Server {
    fn drop(&mut self) {
        let _ = self.child.kill();
        let _ = self.child.wait();
    }
}

/// Whether a line of the log is printable, and of the server. The last may still be written.
fn is_log_line(line: &[u8]) -> bool {
    let Some(text) = line.strip_suffix(b"\n") else {
        return true;
    };
    let begins = [&b"[INFO  serve] "[..], b"[WARN  serve] ", b"[ERROR serve] "];
    text.iter().all(|octet| (32..127).contains(octet)) && begins.iter().any(|begin| text.starts_with(begin))
}

/// Whether a connection may be told this.
fn is_right(came: &Told, wanted: &Wanted, way: Way, text: &[u8]) -> bool {
    if came.rest > 0 || !wanted.may_come(came) {
        return false;
    }
    if came.is_error("74") && wanted.is_much() {
        let count = came.replies.len() - 1;
        return wanted.told.replies.starts_with(&came.replies[..count]);
    }
    let is_cut =
        wanted.ends || matches!(way, Way::Shuts) || text.windows(11).any(|word| word == b"UNSUBSCRIBE");
    came.replies == wanted.told.replies && (is_cut || wanted.is_all_of(came))
}

impl Fuzz {
    /// What a client sends.
    fn stream(&self, streams: &mut Streams) -> Vec<u8> {
        let mut text = match streams.below(8) {
            0..=1 => self.examples[streams.below(self.examples.len())].clone(),
            2 => [
                &b"CONNECT\naccept-version:1.2\nhost:h\n\n\0"[..],
                &drawing::stream(streams),
            ]
            .concat(),
            _ => drawing::client(streams),
        };
        if streams.one_in(2) {
            drawing::change(streams, &mut text);
        }
        text
    }

    /// Has a server have one stream; whether what came is right.
    fn try_stream(
        &self,
        server: &Server,
        threads: usize,
        streams: &mut Streams,
        seen: &mut Seen,
    ) -> io::Result<Option<Vec<u8>>> {
        let text = self.stream(streams);
        let topics: Vec<(Vec<u8>, u64)> = NAMES.iter().map(|name| (name.as_bytes().to_vec(), 0)).collect();
        let wanted = wanted(&text, &topics);
        let way = match streams.below(8) {
            0 => Way::Closes,
            1 => Way::Shuts,
            _ => Way::Waits(&wanted),
        };
        let (mut pieces, mut rest) = (Vec::new(), &text[..]);
        while !rest.is_empty() {
            let (piece, others) = rest.split_at(match streams.one_in(3) {
                true => 1 + streams.below(rest.len()),
                false => rest.len(),
            });
            pieces.push(piece);
            rest = others;
        }
        let came = told_when_free(server.address, &pieces, way)?;
        // One that closed at once may not have been accepted yet; who comes after it is accepted after it.
        drop(Served::new(server.address)?);
        server.wait_for_threads(threads)?;
        let names: Vec<Vec<u8>> = wanted
            .names
            .iter()
            .filter(|name| name[..] != *OWN.as_bytes())
            .cloned()
            .collect();
        settle(server.address, &names)?;
        let kind = match way {
            Way::Closes => "it closes at once".to_string(),
            Way::Shuts => "it shuts its side at once".to_string(),
            _ if wanted.ends => format!("ends by {}", came.last()),
            _ => format!(
                "{} behind it",
                if came.messages.is_empty() {
                    "no MESSAGE"
                } else {
                    "MESSAGEs"
                }
            ),
        };
        *seen.kinds.entry(kind).or_default() += 1;
        let is_right = matches!(way, Way::Closes) || is_right(&came, &wanted, way, &text);
        if !is_right {
            fs::write(self.folder.join("came"), &came.text)?;
        }
        Ok((!is_right).then_some(text))
    }

    fn keep(&self, what: &str, text: &[u8], number: usize) -> io::Result<()> {
        let name = format!("serve-{}-{number}", self.seed);
        eprintln!("fuzz_serve: {what}: {}", self.folder.join(&name).display());
        match self.kept.fetch_add(1, Ordering::SeqCst) < KEPT_LIMIT {
            true => fs::write(self.folder.join(&name), text),
            false => Ok(()),
        }
    }

    /// Has servers have streams until the end, one after the other.
    fn work(&self, thread: usize, threads: usize) -> io::Result<Seen> {
        let mut seen = Seen::default();
        while Instant::now() < self.end {
            self.use_server(thread, threads, &mut seen)?;
        }
        Ok(seen)
    }

    fn use_server(&self, thread: usize, threads: usize, seen: &mut Seen) -> io::Result<()> {
        let log = self.folder.join(format!("log-{thread}"));
        let mut server = Server::new(&self.stompd, &log)?;
        let address = server.address;
        let (both, is_over) = (
            [Served::new(address)?, Served::new(address)?],
            AtomicBool::new(false),
        );
        let before = server.threads()?;
        seen.servers += 1;
        thread::scope(|scope| {
            let serving = scope.spawn(|| serve_on(address, both, &is_over));
            let done = (0..OF_ONE_SERVER).try_for_each(|_| match Instant::now() < self.end {
                true => self.one(&server, before, thread + seen.streams * threads, seen),
                false => Ok(()),
            });
            let left = server.faults(before);
            is_over.store(true, Ordering::SeqCst);
            match serving.join().expect("a thread that ends") {
                Ok((count, longest)) => {
                    seen.served += count;
                    seen.longest = seen.longest.max(longest);
                }
                Err(error) => self.keep(
                    &format!("a client wasn't served: {error}"),
                    &fs::read(&log)?,
                    seen.streams,
                )?,
            }
            for fault in left? {
                self.keep(&fault, &fs::read(&log)?, seen.streams)?;
            }
            done
        })
    }

    fn one(&self, server: &Server, threads: usize, number: usize, seen: &mut Seen) -> io::Result<()> {
        let mixed = self.seed.wrapping_mul(0x9E37_79B9_7F4A_7C15)
            ^ (number as u64).wrapping_mul(0xD134_2543_DE82_EF95);
        let mut streams = Streams {
            numbers: Numbers::new(mixed),
        };
        for _ in 0..8 {
            streams.numbers.next();
        }
        seen.streams += 1;
        match self.try_stream(server, threads, &mut streams, seen)? {
            Some(text) => self.keep("something else came", &text, number),
            None => Ok(()),
        }
    }
}

/// What a connection is told. Where its client-id is still that of a connection whose end the server didn't see yet, it
/// tries again.
fn told_when_free(address: SocketAddr, pieces: &[&[u8]], way: Way) -> io::Result<Told> {
    let until = Instant::now() + talking::PATIENCE;
    loop {
        let told = Told::of(&talk(address, pieces, way)?, talking::OF_SERVER);
        if !told.is_error("77") || Instant::now() > until {
            return Ok(told);
        }
        thread::sleep(Duration::from_millis(5));
    }
}

/// A client sends to another, one message after the other, and now and then a new client comes. How many messages came, and
/// the longest time that one took.
fn serve_on(address: SocketAddr, both: [Served; 2], is_over: &AtomicBool) -> io::Result<(usize, Duration)> {
    let [mut sender, mut receiver] = both;
    receiver.send(format!("SUBSCRIBE\nid:0\ndestination:{OWN}\nreceipt:s\n\n\0").as_bytes())?;
    receiver.expect(b"RECEIPT\nreceipt-id:s\n\n\0")?;
    let (mut count, mut longest) = (0, Duration::ZERO);
    while !is_over.load(Ordering::SeqCst) {
        let begun = Instant::now();
        sender.send(format!("SEND\ndestination:{OWN}\nreceipt:{count}\n\n{count}\0").as_bytes())?;
        sender.expect(format!("RECEIPT\nreceipt-id:{count}\n\n\0").as_bytes())?;
        let message = receiver.frame()?;
        if !message.ends_with(format!("\n\n{count}\0").as_bytes()) {
            return Err(io::Error::other(format!(
                "not message {count}: {:?}",
                String::from_utf8_lossy(&message)
            )));
        }
        if count % 20 == 0 {
            Served::new(address)?;
        }
        longest = longest.max(begun.elapsed());
        count += 1;
        thread::sleep(Duration::from_millis(2));
    }
    Ok((count, longest))
}

fn run(words: &[String]) -> io::Result<bool> {
    let [stompd, folder, seconds, seed, threads] = words else {
        return Err(io::Error::other(
            "usage: fuzz_serve STOMPD FOLDER SECONDS SEED THREADS",
        ));
    };
    let number = |word: &String| {
        word.parse::<u64>()
            .map_err(|_| io::Error::other(format!("{word} is no number")))
    };
    let (seconds, seed, threads) = (number(seconds)?, number(seed)?, number(threads)? as usize);
    let fuzz = Fuzz {
        stompd: stompd.clone(),
        folder: PathBuf::from(folder),
        end: Instant::now() + Duration::from_secs(seconds),
        seed,
        examples: examples()?,
        kept: AtomicUsize::new(0),
    };
    let works: Vec<io::Result<Seen>> = thread::scope(|scope| {
        let fuzz = &fuzz;
        let started: Vec<_> = (0..threads)
            .map(|thread| scope.spawn(move || fuzz.work(thread, threads)))
            .collect();
        started
            .into_iter()
            .map(|work| work.join().expect("a thread that ends"))
            .collect()
    });
    let mut all = Seen::default();
    for work in works {
        let seen = work?;
        seen.kinds
            .into_iter()
            .for_each(|(kind, times)| *all.kinds.entry(kind).or_default() += times);
        all.streams += seen.streams;
        all.servers += seen.servers;
        all.served += seen.served;
        all.longest = all.longest.max(seen.longest);
    }
    all.kinds
        .iter()
        .for_each(|(kind, times)| println!("{times:9} {kind}"));
    let (kept, longest) = (fuzz.kept.load(Ordering::SeqCst), all.longest.as_millis());
    println!(
        "{} messages of those that have to be served; the slowest took {longest} ms",
        all.served
    );
    println!(
        "{} streams of the seed {seed} to {} servers in {seconds} s; {kept} things were otherwise",
        all.streams, all.servers
    );
    Ok(kept == 0)
}

fn main() -> ExitCode {
    let words: Vec<String> = env::args().skip(1).collect();
    match run(&words) {
        Ok(true) => ExitCode::SUCCESS,
        Ok(false) => ExitCode::FAILURE,
        Err(error) => {
            eprintln!("fuzz_serve: {error}");
            ExitCode::FAILURE
        }
    }
}
