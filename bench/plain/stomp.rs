//! Frames of STOMP 1.2 in plain Rust, with the standard library alone: a reader, and the frames
//! that a server sends. It follows docs/PROTOCOL.md and shares no code with the crates.

use std::borrow::Cow;
use std::fs::File;
use std::io::{self, BufRead, BufWriter, Write};
use std::os::fd::AsFd;

pub const LINE_LIMIT: usize = 4_096;
pub const HEADERS_LIMIT: usize = 64;
pub const BODY_LIMIT: usize = 1_048_576;

/// The headers of a SEND that don't go on to its MESSAGE, which sets its own.
const NOT_CARRIED: [&[u8]; 7] = [
    b"destination",
    b"transaction",
    b"receipt",
    b"content-length",
    b"subscription",
    b"message-id",
    b"ack",
];

/// What a stream has wrong.
#[derive(Clone, Copy)]
pub enum Fault {
    BadCommand,
    BadLine,
    BadHeader,
    BadEscape,
    BadText,
    BadLength,
    BadEnd,
    LineTooLong,
    TooManyHeaders,
    BodyTooLong,
}

impl Fault {
    /// What the ERROR frame's `message` header says.
    pub fn message(self) -> &'static str {
        match self {
            Fault::BadCommand => "1 BadCommand",
            Fault::BadLine => "2 BadLine",
            Fault::BadHeader => "3 BadHeader",
            Fault::BadEscape => "4 BadEscape",
            Fault::BadText => "5 BadText",
            Fault::BadLength => "6 BadLength",
            Fault::BadEnd => "7 BadEnd",
            Fault::LineTooLong => "8 LineTooLong",
            Fault::TooManyHeaders => "9 TooManyHeaders",
            Fault::BodyTooLong => "10 BodyTooLong",
        }
    }
}

#[derive(Clone, Copy)]
pub enum Command {
    Send,
    Subscribe,
    Unsubscribe,
    Begin,
    Commit,
    Abort,
    Ack,
    Nack,
    Disconnect,
    /// CONNECT, or STOMP, which stands for it.
    Connect,
    Connected,
    Message,
    Receipt,
    Error,
}

impl Command {
    pub fn from_line(line: &[u8]) -> Result<Command, Fault> {
        match line {
            b"SEND" => Ok(Command::Send),
            b"SUBSCRIBE" => Ok(Command::Subscribe),
            b"UNSUBSCRIBE" => Ok(Command::Unsubscribe),
            b"BEGIN" => Ok(Command::Begin),
            b"COMMIT" => Ok(Command::Commit),
            b"ABORT" => Ok(Command::Abort),
            b"ACK" => Ok(Command::Ack),
            b"NACK" => Ok(Command::Nack),
            b"DISCONNECT" => Ok(Command::Disconnect),
            b"CONNECT" | b"STOMP" => Ok(Command::Connect),
            b"CONNECTED" => Ok(Command::Connected),
            b"MESSAGE" => Ok(Command::Message),
            b"RECEIPT" => Ok(Command::Receipt),
            b"ERROR" => Ok(Command::Error),
            _ => Err(Fault::BadCommand),
        }
    }

    /// Whether a backslash in its headers begins an escape.
    pub fn has_escapes(self) -> bool {
        !matches!(self, Command::Connect | Command::Connected)
    }
}

/// A header without its escapes, where it may have some. What had none is borrowed from the text.
pub struct Header<'a> {
    name: Cow<'a, [u8]>,
    value: Cow<'a, [u8]>,
}

impl<'a> Header<'a> {
    /// Parts a line at its first colon.
    pub fn from_line(line: &'a [u8], escapes: bool) -> Result<Header<'a>, Fault> {
        let read = |text| match escapes {
            true => unescape(text),
            false => Ok(Cow::Borrowed(text)),
        };
        match line.iter().position(|octet| *octet == b':') {
            None | Some(0) => Err(Fault::BadHeader),
            Some(colon) => Ok(Header {
                name: read(&line[..colon])?,
                value: read(&line[colon + 1..])?,
            }),
        }
    }

    /// Its name and its value, with nothing borrowed.
    #[allow(dead_code)] // Only a core that is fed in pieces wants it.
    pub fn into_parts(self) -> (Vec<u8>, Vec<u8>) {
        (self.name.into_owned(), self.value.into_owned())
    }

    /// The same, with nothing borrowed.
    #[allow(dead_code)] // Only a reader that keeps a state wants it.
    pub fn into_owned(self) -> Header<'static> {
        Header {
            name: Cow::Owned(self.name.into_owned()),
            value: Cow::Owned(self.value.into_owned()),
        }
    }
}

pub struct Frame<'a> {
    pub command: Command,
    headers: Vec<Header<'a>>,
    pub body: &'a [u8],
}

impl Frame<'_> {
    /// The value of the first header of that name.
    pub fn first(&self, name: &[u8]) -> Option<&[u8]> {
        first(&self.headers, name)
    }

    /// Its headers, each a name and a value, in their order.
    #[allow(dead_code)] // Only the core wants them.
    pub fn headers(&self) -> impl Iterator<Item = (&[u8], &[u8])> {
        self.headers.iter().map(|header| (&*header.name, &*header.value))
    }

    /// The receipt that it asks for; a CONNECT can't ask for one.
    pub fn receipt(&self) -> Option<&[u8]> {
        match self.command {
            Command::Connect => None,
            _ => self.first(b"receipt"),
        }
    }
}

/// The value of the first header of that name.
pub fn first<'h>(headers: &'h [Header], name: &[u8]) -> Option<&'h [u8]> {
    let header = headers.iter().find(|header| *header.name == *name)?;
    Some(&header.value)
}

/// The frames of a whole text, up to its first fault.
pub struct Frames<'a> {
    unread: &'a [u8],
}

impl<'a> Iterator for Frames<'a> {
    type Item = Result<Frame<'a>, Fault>;

    fn next(&mut self) -> Option<Self::Item> {
        self.skip_end_of_lines();
        if self.unread.is_empty() {
            return None;
        }
        Some(self.frame())
    }
}

impl<'a> Frames<'a> {
    pub fn new(text: &'a [u8]) -> Frames<'a> {
        Frames { unread: text }
    }

    /// How many octets weren't read yet.
    #[allow(dead_code)] // Only the core wants it.
    pub fn unread_len(&self) -> usize {
        self.unread.len()
    }

    fn skip_end_of_lines(&mut self) {
        while let [b'\n', rest @ ..] | [b'\r', b'\n', rest @ ..] = self.unread {
            self.unread = rest;
        }
    }

    fn frame(&mut self) -> Result<Frame<'a>, Fault> {
        let command = Command::from_line(self.line()?)?;
        let headers = self.headers(command.has_escapes())?;
        let body = self.body(first(&headers, b"content-length"))?;
        Ok(Frame {
            command,
            headers,
            body,
        })
    }

    fn headers(&mut self, escapes: bool) -> Result<Vec<Header<'a>>, Fault> {
        let mut headers = Vec::new();
        loop {
            let line = self.line()?;
            if line.is_empty() {
                return Ok(headers);
            }
            if headers.len() == HEADERS_LIMIT {
                return Err(Fault::TooManyHeaders);
            }
            headers.push(Header::from_line(line, escapes)?);
        }
    }

    /// The next line, without its LF and one CR before that.
    fn line(&mut self) -> Result<&'a [u8], Fault> {
        let Some(end) = find(b'\n', self.unread) else {
            let too_long = self.unread.len() >= LINE_LIMIT + 2;
            return Err(if too_long {
                Fault::LineTooLong
            } else {
                Fault::BadEnd
            });
        };
        let line = &self.unread[..end];
        self.unread = &self.unread[end + 1..];
        content(line)
    }

    /// The body, counted where there is a content-length, and the NULL behind it.
    fn body(&mut self, content_length: Option<&[u8]>) -> Result<&'a [u8], Fault> {
        let length = match content_length {
            Some(digits) => counted(digits)?,
            None => self.uncounted()?,
        };
        if self.unread.get(length) != Some(&0) {
            return Err(Fault::BadEnd);
        }
        let body = &self.unread[..length];
        self.unread = &self.unread[length + 1..];
        Ok(body)
    }

    /// The length of a body that ends before the first NULL.
    fn uncounted(&self) -> Result<usize, Fault> {
        match find(0, &self.unread[..self.unread.len().min(BODY_LIMIT + 1)]) {
            Some(length) => Ok(length),
            None if self.unread.len() > BODY_LIMIT => Err(Fault::BodyTooLong),
            None => Err(Fault::BadEnd),
        }
    }
}

/// What a line has without the CR before its LF.
pub fn content(line: &[u8]) -> Result<&[u8], Fault> {
    let content = line.strip_suffix(b"\r").unwrap_or(line);
    if content.len() > LINE_LIMIT {
        return Err(Fault::LineTooLong);
    }
    if content.contains(&b'\r') || content.contains(&0) {
        return Err(Fault::BadLine);
    }
    if std::str::from_utf8(content).is_err() {
        return Err(Fault::BadText);
    }
    Ok(content)
}

/// The length that a content-length tells: 1 to 10 digits, and at most the limit.
pub fn counted(digits: &[u8]) -> Result<usize, Fault> {
    if digits.is_empty() || digits.len() > 10 || !digits.iter().all(u8::is_ascii_digit) {
        return Err(Fault::BadLength);
    }
    let value = digits
        .iter()
        .fold(0, |sum, digit| 10 * sum + u64::from(digit - b'0'));
    if value > BODY_LIMIT as u64 {
        return Err(Fault::BodyTooLong);
    }
    Ok(value as usize)
}

/// Where the octet stands first. `skip_until` searches words at a time, and `position` octets.
pub fn find(octet: u8, mut text: &[u8]) -> Option<usize> {
    let whole = text;
    let taken = text.skip_until(octet).expect("a slice can be read");
    (taken > 0 && whole[taken - 1] == octet).then(|| taken - 1)
}

/// The octets that a name or a value stands for.
fn unescape(text: &[u8]) -> Result<Cow<'_, [u8]>, Fault> {
    if !text.contains(&b'\\') {
        return Ok(Cow::Borrowed(text));
    }
    let mut value = Vec::with_capacity(text.len());
    let mut octets = text.iter();
    while let Some(&octet) = octets.next() {
        let meant = match octet {
            b'\\' => match octets.next() {
                Some(b'r') => b'\r',
                Some(b'n') => b'\n',
                Some(b'c') => b':',
                Some(b'\\') => b'\\',
                _ => return Err(Fault::BadEscape),
            },
            _ => octet,
        };
        value.push(meant);
    }
    Ok(Cow::Owned(value))
}

/// How an octet is written in a name or value, where it can't stand as itself.
fn escape_of(octet: u8) -> Option<&'static [u8]> {
    match octet {
        b'\r' => Some(b"\\r"),
        b'\n' => Some(b"\\n"),
        b':' => Some(b"\\c"),
        b'\\' => Some(b"\\\\"),
        _ => None,
    }
}

pub fn write_escaped(value: &[u8], out: &mut impl Write) -> io::Result<()> {
    let mut plain = 0;
    for (place, octet) in value.iter().enumerate() {
        if let Some(escape) = escape_of(*octet) {
            out.write_all(&value[plain..place])?;
            out.write_all(escape)?;
            plain = place + 1;
        }
    }
    out.write_all(&value[plain..])
}

/// Whether a header of this name goes on to a SEND's MESSAGE.
#[allow(dead_code)] // Only the core wants it.
pub fn is_carried(name: &[u8]) -> bool {
    !NOT_CARRIED.contains(&name)
}

/// Writes the MESSAGE of a SEND, the one of that number, for that subscription.
pub fn write_message(
    subscription: &str,
    number: usize,
    send: &Frame,
    out: &mut impl Write,
) -> io::Result<()> {
    write!(
        out,
        "MESSAGE\nsubscription:{subscription}\nmessage-id:{number}.0.0\n"
    )?;
    if let Some(destination) = send.first(b"destination") {
        out.write_all(b"destination:")?;
        write_escaped(destination, out)?;
        out.write_all(b"\n")?;
    }
    writeln!(out, "content-length:{}", send.body.len())?;
    for (place, header) in send.headers.iter().enumerate() {
        let repeated = send.headers[..place]
            .iter()
            .any(|earlier| earlier.name == header.name);
        if !repeated && !NOT_CARRIED.contains(&&*header.name) {
            write_escaped(&header.name, out)?;
            out.write_all(b":")?;
            write_escaped(&header.value, out)?;
            out.write_all(b"\n")?;
        }
    }
    out.write_all(b"\n")?;
    out.write_all(send.body)?;
    out.write_all(&[0])
}

/// Writes an ERROR, with the receipt that the faulty frame asked for.
pub fn write_error(message: &str, receipt: Option<&[u8]>, out: &mut impl Write) -> io::Result<()> {
    write!(out, "ERROR\nmessage:{message}\n")?;
    if let Some(receipt) = receipt {
        out.write_all(b"receipt-id:")?;
        write_escaped(receipt, out)?;
        out.write_all(b"\n")?;
    }
    out.write_all(b"content-length:0\n\n\0")
}

/// Standard input, without a buffer.
pub fn input() -> io::Result<File> {
    Ok(File::from(io::stdin().as_fd().try_clone_to_owned()?))
}

/// Standard output, in pieces of 64 KiB.
pub fn output() -> io::Result<BufWriter<File>> {
    let output = File::from(io::stdout().as_fd().try_clone_to_owned()?);
    Ok(BufWriter::with_capacity(65_536, output))
}
