//! A reader of frames in pieces, in plain Rust with the standard library alone, which keeps a state:
//! `pieces_baseline SIZE` does the job of the program of `bench/pieces`. Its frames are owned, as
//! those of the program are.

#[allow(dead_code)] // It writes no frames, and reads them by itself.
mod stomp;

use std::io::{self, Read, Write};
use std::process::ExitCode;
use stomp::{
    content, counted, find, Command, Fault, Header, BODY_LIMIT, HEADERS_LIMIT, LINE_LIMIT,
};

const READ: usize = 65_536;

/// What is due of a frame.
#[derive(Clone, Copy)]
enum Due {
    Command,
    Header(Command),
    Counted(Command, usize),
    Uncounted(Command),
}

/// A frame that is whole.
#[allow(dead_code)] // Nobody reads it here.
struct Whole {
    command: Command,
    headers: Vec<Header<'static>>,
    body: Vec<u8>,
}

struct Reader {
    text: Vec<u8>,
    /// How far the text is taken, and how far behind that it was searched.
    taken: usize,
    searched: usize,
    due: Due,
    headers: Vec<Header<'static>>,
}

impl Reader {
    fn new() -> Reader {
        Reader {
            text: Vec::new(),
            taken: 0,
            searched: 0,
            due: Due::Command,
            headers: Vec::new(),
        }
    }

    fn feed(&mut self, piece: &[u8]) {
        if self.taken > self.text.len() / 2 {
            self.text.drain(..self.taken);
            self.taken = 0;
        }
        self.text.extend_from_slice(piece);
    }

    /// Where the octet stands first behind what is taken, looked for within so many octets.
    fn search(&mut self, octet: u8, limit: usize) -> Option<usize> {
        let unread = &self.text[self.taken..];
        let end = unread.len().min(limit);
        match find(octet, &unread[self.searched..end]) {
            Some(place) => Some(self.searched + place),
            None => {
                self.searched = end;
                None
            }
        }
    }

    fn take(&mut self, count: usize) {
        self.taken += count;
        self.searched = 0;
    }

    /// Where the next line ends, if it is there.
    fn line(&mut self) -> Result<Option<usize>, Fault> {
        let end = self.search(b'\n', LINE_LIMIT + 2);
        if end.is_none() && self.text.len() - self.taken >= LINE_LIMIT + 2 {
            return Err(Fault::LineTooLong);
        }
        Ok(end)
    }

    /// Goes on by one step; whether there was enough text for it. The last step gives the frame.
    fn step(&mut self) -> Result<(bool, Option<Whole>), Fault> {
        match self.due {
            Due::Command => {
                let Some(end) = self.line()? else {
                    return Ok((false, None));
                };
                let line = content(&self.text[self.taken..self.taken + end])?;
                if !line.is_empty() {
                    self.due = Due::Header(Command::from_line(line)?);
                }
                self.take(end + 1);
            }
            Due::Header(command) => {
                let Some(end) = self.line()? else {
                    return Ok((false, None));
                };
                let line = content(&self.text[self.taken..self.taken + end])?;
                if line.is_empty() {
                    let length = stomp::first(&self.headers, b"content-length");
                    self.due = match length {
                        Some(digits) => Due::Counted(command, counted(digits)?),
                        None => Due::Uncounted(command),
                    };
                } else if self.headers.len() == HEADERS_LIMIT {
                    return Err(Fault::TooManyHeaders);
                } else {
                    let header = Header::from_line(line, command.has_escapes())?.into_owned();
                    self.headers.push(header);
                }
                self.take(end + 1);
            }
            Due::Counted(command, length) => {
                let Some(octet) = self.text.get(self.taken + length) else {
                    return Ok((false, None));
                };
                if *octet != 0 {
                    return Err(Fault::BadEnd);
                }
                return Ok((true, Some(self.whole(command, length))));
            }
            Due::Uncounted(command) => match self.search(0, BODY_LIMIT + 1) {
                Some(length) => return Ok((true, Some(self.whole(command, length)))),
                None if self.text.len() - self.taken > BODY_LIMIT => {
                    return Err(Fault::BodyTooLong)
                }
                None => return Ok((false, None)),
            },
        }
        Ok((true, None))
    }

    fn whole(&mut self, command: Command, length: usize) -> Whole {
        let body = self.text[self.taken..self.taken + length].to_vec();
        self.take(length + 1);
        self.due = Due::Command;
        Whole {
            command,
            headers: std::mem::take(&mut self.headers),
            body,
        }
    }

    fn next(&mut self) -> Result<Option<Whole>, Fault> {
        loop {
            match self.step()? {
                (_, Some(frame)) => return Ok(Some(frame)),
                (false, None) => return Ok(None),
                (true, None) => {}
            }
        }
    }
}

/// How many frames are whole after this piece.
fn frames_after(reader: &mut Reader, piece: &[u8]) -> io::Result<u64> {
    reader.feed(piece);
    let mut count = 0;
    loop {
        match reader.next() {
            Ok(Some(_)) => count += 1,
            Ok(None) => return Ok(count),
            Err(fault) => return Err(io::Error::other(fault.message())),
        }
    }
}

fn run(size: usize) -> io::Result<()> {
    let mut input = stomp::input()?;
    let mut reader = Reader::new();
    let mut total = 0;
    if size == 0 {
        let mut text = Vec::new();
        input.read_to_end(&mut text)?;
        total = frames_after(&mut reader, &text)?;
    } else {
        let mut text = vec![0; READ];
        loop {
            let count = input.read(&mut text)?;
            if count == 0 {
                break;
            }
            for piece in text[..count].chunks(size) {
                total += frames_after(&mut reader, piece)?;
            }
        }
    }
    let mut out = stomp::output()?;
    writeln!(out, "{total}")?;
    out.flush()
}

fn main() -> ExitCode {
    let size = std::env::args().nth(1).and_then(|word| word.parse().ok());
    match size.map(run) {
        Some(Ok(())) => ExitCode::SUCCESS,
        Some(Err(error)) => {
            eprintln!("{error}");
            ExitCode::FAILURE
        }
        None => {
            eprintln!("usage: pieces_baseline SIZE");
            ExitCode::FAILURE
        }
    }
}
