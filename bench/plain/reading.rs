//! The next frame of a stream that may go on, in plain Rust, for a core whose connections are fed in pieces. It
//! looks at the whole of what wasn't read yet each time, line by line. It shares no code with the crates.

use crate::stomp::{content, counted, find, Command, Fault, Header, BODY_LIMIT, HEADERS_LIMIT, LINE_LIMIT};

/// A frame, with nothing borrowed.
pub struct WholeFrame {
    pub command: Command,
    pub headers: Vec<(Vec<u8>, Vec<u8>)>,
    pub body: Vec<u8>,
}

impl WholeFrame {
    /// The value of the first header of that name.
    pub fn first(&self, name: &str) -> Option<&[u8]> {
        let found = self.headers.iter().find(|header| header.0 == name.as_bytes());
        found.map(|header| &header.1[..])
    }

    /// The destination of a SEND or a SUBSCRIBE.
    pub fn destination(&self) -> Option<&[u8]> {
        match self.command {
            Command::Send | Command::Subscribe => self.first("destination"),
            _ => None,
        }
    }

    /// The receipt that it asks for; a CONNECT can't ask for one.
    pub fn receipt(&self) -> Option<&[u8]> {
        match self.command {
            Command::Connect => None,
            _ => self.first("receipt"),
        }
    }
}

/// What stands at the beginning of what wasn't read.
pub enum Reading {
    /// More octets are wanted.
    Waits,
    Finds(WholeFrame, usize),
    Fails(Fault),
}

/// Where reading stops short.
enum Stop {
    Waits,
    Fails(Fault),
}

impl From<Fault> for Stop {
    fn from(fault: Fault) -> Stop {
        Stop::Fails(fault)
    }
}

pub fn read(unread: &[u8]) -> Reading {
    let mut place = 0;
    match frame(unread, &mut place) {
        Ok(frame) => Reading::Finds(frame, place),
        Err(Stop::Waits) => Reading::Waits,
        Err(Stop::Fails(fault)) => Reading::Fails(fault),
    }
}

/// The next line from this place on, without its end.
fn line<'a>(unread: &'a [u8], place: &mut usize) -> Result<&'a [u8], Stop> {
    let rest = &unread[*place..];
    let Some(end) = find(b'\n', rest) else {
        return Err(match rest.len() >= LINE_LIMIT + 2 {
            true => Stop::Fails(Fault::LineTooLong),
            false => Stop::Waits,
        });
    };
    *place += end + 1;
    Ok(content(&rest[..end])?)
}

fn command(unread: &[u8], place: &mut usize) -> Result<Command, Stop> {
    loop {
        let line = line(unread, place)?;
        if !line.is_empty() {
            return Ok(Command::from_line(line)?);
        }
    }
}

fn headers(unread: &[u8], place: &mut usize, escapes: bool) -> Result<Vec<(Vec<u8>, Vec<u8>)>, Stop> {
    let mut headers = Vec::new();
    loop {
        let line = line(unread, place)?;
        if line.is_empty() {
            return Ok(headers);
        }
        if headers.len() == HEADERS_LIMIT {
            return Err(Fault::TooManyHeaders.into());
        }
        headers.push(Header::from_line(line, escapes)?.into_parts());
    }
}

fn frame(unread: &[u8], place: &mut usize) -> Result<WholeFrame, Stop> {
    let command = command(unread, place)?;
    let headers = headers(unread, place, command.has_escapes())?;
    let rest = &unread[*place..];
    let length = headers.iter().find(|header| header.0 == b"content-length");
    let length = match length {
        Some((_, digits)) => counted(digits)?,
        None => match find(0, &rest[..rest.len().min(BODY_LIMIT + 1)]) {
            Some(length) => length,
            None if rest.len() > BODY_LIMIT => return Err(Fault::BodyTooLong.into()),
            None => return Err(Stop::Waits),
        },
    };
    match rest.get(length) {
        None => Err(Stop::Waits),
        Some(0) => {
            *place += length + 1;
            let body = rest[..length].to_vec();
            Ok(WholeFrame {
                command,
                headers,
                body,
            })
        }
        Some(_) => Err(Fault::BadEnd.into()),
    }
}
