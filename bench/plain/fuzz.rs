//! Gives `stompd` and the plain programs of this folder streams, scripts and traces, and compares what they
//! answer: `fuzz STOMPD FOLDER SECONDS SEED THREADS`. The inputs are the examples, changed, and what is drawn,
//! changed or not. `fuzz STOMPD FOLDER each THREADS` draws nothing: each octet of each piece of the scripts among the
//! examples is replaced in turn. Each input whose output or status differs is kept in the folder, and then the status is 1.

mod cases;
mod doing;
mod drawing;
mod numbers;
mod reading;
mod relaying;
#[allow(dead_code)] // It reads and writes no standard streams.
mod stomp;
mod streams;
mod whole_audit;
mod whole_core;
mod whole_script;

use doing::{answer, Job};
use numbers::Numbers;
use std::collections::BTreeMap;
use std::env;
use std::fs::{self, File};
use std::io;
use std::path::{Path, PathBuf};
use std::process::{Command, ExitCode};
use std::sync::atomic::{AtomicUsize, Ordering};
use std::thread;
use std::time::{Duration, Instant};
use streams::Streams;

/// How many differences are kept.
const KEPT_LIMIT: usize = 100;

const JOBS: [Job; 4] = [Job::Relay, Job::Script, Job::Trace, Job::Audit];

/// By what each octet of a piece is replaced, as a script spells it: NULL, CR, LF, colon, backslash, and 255.
const OCTETS: [&[u8]; 6] = [b"\\0", b"\\r", b"\\n", b":", b"\\\\", b"\\xff"];

/// Where the text of a line's piece begins: at its end where it has none.
fn text_at(line: &[u8]) -> usize {
    let mut words = line.splitn(3, |octet| *octet == b' ');
    match (words.next(), words.next(), words.next()) {
        (Some(b"piece"), Some(_), Some(text)) => line.len() - text.len(),
        _ => line.len(),
    }
}

/// The script with each octet of each of its pieces replaced by each of OCTETS.
fn with_each(script: &[u8]) -> Vec<Vec<u8>> {
    let (mut found, mut begin) = (Vec::new(), 0);
    for line in script.split(|octet| *octet == b'\n') {
        let (mut at, end) = (begin + text_at(line), begin + line.len());
        while at < end {
            let size = match &script[at..] {
                [b'\\', b'x', ..] => 4,
                [b'\\', ..] => 2,
                _ => 1,
            };
            found.extend(OCTETS.map(|octet| [&script[..at], octet, &script[at + size..]].concat()));
            at += size;
        }
        begin = end + 1;
    }
    found
}

/// What all threads share.
struct Fuzz {
    stompd: String,
    folder: PathBuf,
    end: Instant,
    seed: u64,
    /// The examples: streams, scripts, traces.
    examples: [Vec<Vec<u8>>; 3],
    kept: AtomicUsize,
}

/// How many answers of each kind came.
type Seen = BTreeMap<String, usize>;

/// The texts of the files in this folder whose names end so.
fn texts(folder: &str, extension: &str) -> io::Result<Vec<Vec<u8>>> {
    let mut paths: Vec<PathBuf> = Vec::new();
    for entry in fs::read_dir(folder)? {
        paths.push(entry?.path());
    }
    paths.retain(|path| path.extension().is_some_and(|found| found == extension));
    paths.sort();
    paths.iter().map(fs::read).collect()
}

/// What it is, in a few words: the program, the status, and the fault where one is told.
fn kind(job: Job, output: &[u8], status: u8) -> String {
    let text = String::from_utf8_lossy(output);
    let error = text.rfind("ERROR\nmessage:").map(|place| &text[place + 14..]);
    let told = match (job, status) {
        (Job::Audit, 0) => text.lines().last().unwrap_or(""),
        (_, 0) => "",
        _ => error.unwrap_or(&text).lines().next().unwrap_or(""),
    };
    let count = if told.starts_with("bad") { 3 } else { usize::MAX };
    let words: Vec<&str> = told.split(' ').take(count).collect();
    format!("{}: status {status} {}", words_of(job)[0], words.join(" "))
}

/// Whether this may be told on standard error beside a status: nothing beside 0, and else one line of octets from 32 to 126.
fn is_told(status: u8, told: &[u8]) -> bool {
    match told.split_last() {
        None => status == 0,
        Some((end, line)) => status != 0 && *end == b'\n' && line.iter().all(|octet| (32..127).contains(octet)),
    }
}

/// The words of the program that does the job.
fn words_of(job: Job) -> &'static [&'static str] {
    match job {
        Job::Relay => &["relay", "A"],
        Job::Script => &["script"],
        Job::Trace => &["trace"],
        Job::Audit => &["audit"],
    }
}

impl Fuzz {
    /// An input of the job.
    fn input(&self, job: Job, streams: &mut Streams) -> Vec<u8> {
        let examples = match job {
            Job::Relay => &self.examples[0],
            Job::Script | Job::Trace => &self.examples[1],
            Job::Audit => &self.examples[2],
        };
        let mut text = match (job, streams.below(8)) {
            (_, 0..=1) => examples[streams.below(examples.len())].clone(),
            (Job::Relay, _) => drawing::stream(streams),
            (Job::Script | Job::Trace, _) => drawing::script(streams),
            (Job::Audit, 2..=4) => drawing::trace(streams),
            (Job::Audit, _) => answer(Job::Trace, b"", &drawing::script(streams)).0,
        };
        if streams.one_in(3) {
            drawing::change(streams, &mut text);
        }
        if streams.one_in(50) {
            let other = &examples[streams.below(examples.len())];
            text.extend(other);
        }
        text
    }

    /// Counts the answer: of a script that was run, what came of each event.
    fn count(job: Job, output: &[u8], status: u8, seen: &mut Seen) {
        *seen.entry(kind(job, output, status)).or_default() += 1;
        if job != Job::Script || status != 0 {
            return;
        }
        for line in String::from_utf8_lossy(output).lines() {
            let words: Vec<&str> = line.split(' ').collect();
            let count = match words[0] {
                "commit" | "log" | "span" | "out" => return,
                "refused" | "failed" | "error" => 3,
                _ => 1,
            };
            let words = &words[..words.len().min(count)];
            *seen
                .entry(format!("of a script's events: {}", words.join(" ")))
                .or_default() += 1;
        }
    }

    /// Gives both the text; whether they answer the same.
    fn compare(&self, job: Job, text: &[u8], place: &Path, seen: &mut Seen) -> io::Result<bool> {
        fs::write(place, text)?;
        let ran = Command::new(&self.stompd)
            .args(words_of(job))
            .stdin(File::open(place)?)
            .output()?;
        let (output, status) = answer(job, b"A", text);
        Fuzz::count(job, &output, status, seen);
        Ok(ran.status.code() == Some(status.into())
            && ran.stdout == output
            && is_told(status, &ran.stderr))
    }

    /// Keeps the input of a difference.
    fn keep(&self, job: Job, text: &[u8], number: usize) -> io::Result<()> {
        let kept = self.kept.fetch_add(1, Ordering::SeqCst);
        let name = format!("{job:?}-{}-{number}", self.seed).to_lowercase();
        if kept < KEPT_LIMIT {
            fs::write(self.folder.join(&name), text)?;
            eprintln!(
                "fuzz: stompd {} differs: {}",
                words_of(job).join(" "),
                self.folder.join(&name).display()
            );
        }
        Ok(())
    }

    /// Has each changed script run, and its trace audited, which has to be a yes.
    fn work_each(&self, thread: usize, threads: usize) -> io::Result<(usize, Seen)> {
        let place = self.folder.join(format!("now-{thread}"));
        let (mut count, mut seen) = (0, Seen::new());
        let scripts = self.examples[1].iter().flat_map(|script| with_each(script));
        for (number, text) in scripts.enumerate().skip(thread).step_by(threads) {
            let (trace, _) = answer(Job::Trace, b"", &text);
            let (_, audited) = answer(Job::Audit, b"", &trace);
            let is_well = audited == 0
                && self.compare(Job::Trace, &text, &place, &mut seen)?
                && self.compare(Job::Audit, &trace, &place, &mut seen)?;
            if !is_well {
                self.keep(Job::Trace, &text, number)?;
            }
            count += 1;
        }
        fs::remove_file(place)?;
        Ok((count, seen))
    }

    /// Draws inputs until the end. The one of a number is the same in each run of this seed.
    fn work(&self, thread: usize, threads: usize) -> io::Result<(usize, Seen)> {
        let place = self.folder.join(format!("now-{thread}"));
        let (mut count, mut seen) = (0, Seen::new());
        while Instant::now() < self.end {
            let number = thread + count * threads;
            let mixed = self.seed.wrapping_mul(0x9E37_79B9_7F4A_7C15)
                ^ (number as u64).wrapping_mul(0xD134_2543_DE82_EF95);
            let mut streams = Streams {
                numbers: Numbers::new(mixed),
            };
            for _ in 0..8 {
                streams.numbers.next();
            }
            let job = JOBS[number % JOBS.len()];
            let text = self.input(job, &mut streams);
            if !self.compare(job, &text, &place, &mut seen)? {
                self.keep(job, &text, number)?;
            }
            count += 1;
        }
        fs::remove_file(place)?;
        Ok((count, seen))
    }
}

fn run(words: &[String]) -> io::Result<bool> {
    let (stompd, folder, drawn, threads) = match words {
        [stompd, folder, each, threads] if each == "each" => (stompd, folder, None, threads),
        [stompd, folder, seconds, seed, threads] => (stompd, folder, Some((seconds, seed)), threads),
        _ => return Err(io::Error::other("usage: fuzz STOMPD FOLDER (SECONDS SEED | each) THREADS")),
    };
    let number = |word: &String| {
        word.parse::<u64>()
            .map_err(|_| io::Error::other(format!("{word} is no number")))
    };
    let threads = number(threads)? as usize;
    let (seconds, seed) = match drawn {
        Some((seconds, seed)) => (number(seconds)?, number(seed)?),
        None => (0, 0),
    };
    let fuzz = Fuzz {
        stompd: stompd.clone(),
        folder: PathBuf::from(folder),
        end: Instant::now() + Duration::from_secs(seconds),
        seed,
        examples: [
            texts("examples", "stomp")?,
            texts("examples/scripts", "script")?,
            texts("examples/traces", "trace")?,
        ],
        kept: AtomicUsize::new(0),
    };
    let works: Vec<io::Result<(usize, Seen)>> = thread::scope(|scope| {
        let started: Vec<_> = (0..threads)
            .map(|thread| {
                scope.spawn({
                    let fuzz = &fuzz;
                    move || match drawn {
                        Some(_) => fuzz.work(thread, threads),
                        None => fuzz.work_each(thread, threads),
                    }
                })
            })
            .collect();
        started
            .into_iter()
            .map(|work| work.join().expect("a thread that ends"))
            .collect()
    });
    let (mut count, mut seen) = (0, Seen::new());
    for work in works {
        let (inputs, kinds) = work?;
        count += inputs;
        kinds
            .into_iter()
            .for_each(|(kind, times)| *seen.entry(kind).or_default() += times);
    }
    for (kind, times) in &seen {
        println!("{times:9} {kind}");
    }
    let kept = fuzz.kept.load(Ordering::SeqCst);
    match drawn {
        Some(_) => println!("{count} inputs of the seed {seed} in {seconds} s; {kept} of them differ"),
        None => println!("{count} scripts of which one octet is another; {kept} of them differ"),
    }
    Ok(kept == 0)
}

fn main() -> ExitCode {
    let words: Vec<String> = env::args().skip(1).collect();
    match run(&words) {
        Ok(true) => ExitCode::SUCCESS,
        Ok(false) => ExitCode::FAILURE,
        Err(error) => {
            eprintln!("fuzz: {error}");
            ExitCode::FAILURE
        }
    }
}
