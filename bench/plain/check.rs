//! Compares `stompd` with the baseline: `check STOMPD BASELINE FOLDER STREAMS SEED`. Both get
//! the examples, each cut of a short stream, the limits, and so many random streams; the
//! first input whose output or status differs is kept in the folder and reported.

mod numbers;
mod streams;

use numbers::Numbers;
use std::collections::BTreeMap;
use std::env;
use std::fs::{self, File};
use std::io;
use std::path::{Path, PathBuf};
use std::process::{Command, ExitCode, Stdio};
use streams::{LENGTHS, Streams};

/// A SEND to A with these further header lines and this body.
fn send(headers: &[u8], body: &[u8]) -> Vec<u8> {
    [b"SEND\ndestination:A\n", headers, b"\n", body, b"\0"].concat()
}

/// Lines about the longest, ended in each way or not at all, then a whole frame.
fn long_lines() -> Vec<Vec<u8>> {
    let mut texts = Vec::new();
    for length in 4_093..=4_100 {
        for end in [&b""[..], b"\n", b"\r", b"\r\n", b"\r\r\n"] {
            let line = [b"x:", &vec![b'v'; length - 2][..], end].concat();
            texts.push([&b"SEND\ndestination:A\n"[..], &line[..]].concat());
            texts.push(send(&line, b"hi"));
            texts.push([vec![b'C'; length], end.to_vec()].concat());
        }
    }
    texts
}

/// Streams about each other limit: headers, lengths told, bodies, the whole input.
fn limits() -> Vec<Vec<u8>> {
    let mut texts = Vec::new();
    for count in 62..=65 {
        texts.push(send(&b"x:1\n".repeat(count), b"hi"));
        texts.push(send(&b"bad\n".repeat(count - 61), b""));
        texts.push(send(
            &[b"x:1\n".repeat(count), b"bad\n".to_vec()].concat(),
            b"",
        ));
        texts.push(send(
            &[b"x:1\n".repeat(count), b"y:\\t\n".to_vec()].concat(),
            b"",
        ));
    }
    for length in LENGTHS {
        texts.push(send(
            format!("content-length:{length}\n").as_bytes(),
            b"a\0b",
        ));
    }
    for length in 1_048_575..=1_048_578 {
        let body = vec![b'b'; length];
        let counted = send(format!("content-length:{length}\n").as_bytes(), &body);
        let uncounted = send(b"", &body);
        for text in [counted, uncounted] {
            texts.push(text[..text.len() - 1].to_vec());
            texts.push([&text[..], b"\n", &send(b"", b"after")[..]].concat());
            texts.push(text);
        }
    }
    let frame = send(b"", &[b'b'; 1_000]);
    for length in [16_777_215, 16_777_216, 16_777_217] {
        let mut text = frame.repeat(length / frame.len());
        text.resize(length, b'\n');
        texts.push(text);
        texts.push([b"CONNECT\n".to_vec(), vec![0; length - 8]].concat());
    }
    texts
}

/// Each beginning of a short stream, and the stream with each octet replaced.
fn cuts_and_flips() -> Vec<Vec<u8>> {
    let first = send(b"receipt:r\r\nk:a\\c\\\\\\n\xc3\xa9\n", b"hi");
    let text = [
        &first[..],
        b"\r\n\n",
        &send(b"content-length:3\n", b"a\0b")[..],
        b"\n",
    ]
    .concat();
    let mut texts: Vec<_> = (0..=text.len()).map(|end| text[..end].to_vec()).collect();
    for place in 0..text.len() {
        for octet in [0, b'\r', b'\n', b':', b'\\', 0xFF] {
            let mut flipped = text.clone();
            flipped[place] = octet;
            texts.push(flipped);
        }
    }
    texts
}

/// What a program answered: its status (none where a signal ended it) and its output.
#[derive(PartialEq)]
struct Answer {
    status: Option<i32>,
    output: Vec<u8>,
}

impl Answer {
    /// The status, and the fault where there is one.
    fn kind(&self) -> String {
        let text = String::from_utf8_lossy(&self.output);
        let error = text
            .rfind("ERROR\nmessage:")
            .map(|place| &text[place + 14..]);
        let fault = match (self.status, error) {
            (Some(2), Some(error)) => error.lines().next().unwrap_or(""),
            (Some(2), None) => text.trim_end(),
            _ => "",
        };
        format!("status {} {fault}", self.status.unwrap_or(-1))
    }
}

struct Check {
    stompd: String,
    baseline: String,
    input: PathBuf,
    seen: BTreeMap<String, usize>,
}

impl Check {
    fn answer(&self, words: &[&str]) -> io::Result<Answer> {
        let mut command = Command::new(words[0]);
        command
            .args(&words[1..])
            .stdin(File::open(&self.input)?)
            .stderr(Stdio::null());
        let output = command.output()?;
        Ok(Answer {
            status: output.status.code(),
            output: output.stdout,
        })
    }

    /// Gives both programs the text; an error where their answers differ.
    fn compare(&mut self, topic: &str, text: &[u8]) -> io::Result<Answer> {
        fs::write(&self.input, text)?;
        let baseline = self.answer(&[&self.baseline, topic])?;
        let stompd = self.answer(&[&self.stompd, "relay", topic])?;
        *self.seen.entry(baseline.kind()).or_default() += 1;
        if stompd == baseline {
            return Ok(stompd);
        }
        let mut told = format!("relay {topic} differs on {}:\n", self.input.display());
        for (name, answer) in [("stompd", &stompd), ("baseline", &baseline)] {
            let start = &answer.output[..answer.output.len().min(2_000)];
            told += &format!("{name}: {}\n{}\n", answer.kind(), start.escape_ascii());
        }
        Err(io::Error::other(told))
    }

    /// The examples, whose outputs stand beside them.
    fn examples(&mut self) -> io::Result<()> {
        for entry in fs::read_dir("examples")? {
            let path = entry?.path();
            if path
                .extension()
                .is_some_and(|extension| extension == "stomp")
            {
                let answer = self.compare("A", &fs::read(&path)?)?;
                if answer.output != fs::read(path.with_extension("out"))? {
                    let told = format!("both answer another output on {}", path.display());
                    return Err(io::Error::other(told));
                }
            }
        }
        Ok(())
    }

    fn run(&mut self, streams: usize, seed: u64) -> io::Result<()> {
        self.examples()?;
        for text in cuts_and_flips()
            .into_iter()
            .chain(long_lines())
            .chain(limits())
        {
            self.compare("A", &text)?;
        }
        let spelled = b"SEND\ndestination:a:b\\\\c\n\n1\0SEND\ndestination:a\\cb\\\\c\n\n2\0";
        self.compare("a:b\\c", spelled)?;
        for topic in ["", "a b", "\u{e9}"] {
            self.compare(topic, spelled)?;
        }
        let mut made = Streams {
            numbers: Numbers::new(seed),
        };
        for _ in 0..streams {
            self.compare("A", &made.next())?;
        }
        Ok(())
    }
}

fn main() -> ExitCode {
    let words: Vec<String> = env::args().skip(1).collect();
    let [stompd, baseline, folder, streams, seed] = &words[..] else {
        eprintln!("usage: check STOMPD BASELINE FOLDER STREAMS SEED");
        return ExitCode::FAILURE;
    };
    let (Ok(streams), Ok(seed)) = (streams.parse(), seed.parse()) else {
        eprintln!("bench/check: the number of streams and the seed are decimal numbers");
        return ExitCode::FAILURE;
    };
    let mut check = Check {
        stompd: stompd.clone(),
        baseline: baseline.clone(),
        input: Path::new(folder).join("check.stomp"),
        seen: BTreeMap::new(),
    };
    let result = check.run(streams, seed);
    for (kind, count) in &check.seen {
        println!("{count:6}  {kind}");
    }
    match result {
        Ok(()) => ExitCode::SUCCESS,
        Err(error) => {
            eprintln!("bench/check: {error}");
            ExitCode::FAILURE
        }
    }
}
