//! Makes streams of frames for a relay of the topic A, most of them good ones, and changes octets: what
//! `check.rs` and `fuzz.rs` share.

use crate::numbers::Numbers;

/// Header lines of a SEND, without their end; some names come twice, some in two spellings.
const HEADERS: [&str; 24] = [
    "x:1",
    "x:2",
    "y:",
    "y:a:b",
    "y:a\\cb",
    "content-type:text/plain",
    "four:\\r\\n\\c\\\\",
    "a\\cname:1",
    "\\n:2",
    "\\\\:3",
    "\u{e9}t\u{e9}:\u{20ac} \u{1f980}",
    " x: spaces ",
    "destination:B",
    "destination:A",
    "Destination:B",
    "receipt:r\\c1",
    "receipt:",
    "receipt:second",
    "subscription:9",
    "message-id:9",
    "ack:9",
    "message:9",
    "receipt-id:9",
    "transaction:t",
];

/// Commands that the relay doesn't take.
const OTHERS: [&str; 14] = [
    "CONNECT",
    "STOMP",
    "CONNECTED",
    "SUBSCRIBE",
    "UNSUBSCRIBE",
    "BEGIN",
    "COMMIT",
    "ABORT",
    "ACK",
    "NACK",
    "DISCONNECT",
    "MESSAGE",
    "RECEIPT",
    "ERROR",
];

/// What stands for a content-length besides the right one.
pub const LENGTHS: [&str; 14] = [
    "",
    "0",
    "00",
    "3x",
    "+3",
    " 3",
    "3 ",
    "-1",
    "0x3",
    "1048576",
    "1048577",
    "9999999999",
    "00000000003",
    "\u{663}",
];

/// Words that noise is made of.
const WORDS: [&[u8]; 34] = [
    b"SEND",
    b"SEND\n",
    b"SEND\r\n",
    b"MESSAGE\n",
    b"ERROR\n",
    b"CONNECT\n",
    b"STOMP\n",
    b"CONNECTED\n",
    b"SUBSCRIBE\n",
    b"UNSUBSCRIBE\n",
    b"BEGIN\n",
    b"COMMIT\n",
    b"ABORT\n",
    b"ACK\n",
    b"NACK\n",
    b"DISCONNECT\n",
    b"RECEIPT\n",
    b"send\n",
    b"SEND \n",
    b"destination:A\n",
    b"destination:A\r\n",
    b"content-length:2\n",
    b"receipt:r\n",
    b"\n",
    b"\r\n",
    b"\r",
    b"\0",
    b"\n\0",
    b":",
    b"\\",
    b"\\t",
    b"\xff",
    b"\xc3\xa9",
    b"\xed\xa0\x80",
];

/// Octets that a mutation puts in.
const OCTETS: [u8; 14] = [
    0, b'\r', b'\n', b':', b'\\', b't', b'n', b'A', b'0', b' ', 127, 0x80, 0xC3, 0xFF,
];

/// Makes streams.
pub struct Streams {
    pub numbers: Numbers,
}

impl Streams {
    pub fn below(&mut self, limit: usize) -> usize {
        (self.numbers.next() % limit as u64) as usize
    }

    pub fn one_in(&mut self, count: usize) -> bool {
        self.below(count) == 0
    }

    pub fn pick<T: Copy>(&mut self, choices: &[T]) -> T {
        choices[self.below(choices.len())]
    }

    /// One of the octets that matter.
    #[allow(dead_code)] // Only the fuzzer wants it.
    pub fn octet(&mut self) -> u8 {
        self.pick(&OCTETS)
    }

    fn end_of_line(&mut self, text: &mut Vec<u8>) {
        let end: &[u8] = if self.one_in(3) { b"\r\n" } else { b"\n" };
        text.extend(end);
    }

    fn line(&mut self, content: &str, text: &mut Vec<u8>) {
        text.extend(content.bytes());
        self.end_of_line(text);
    }

    /// A frame that the reader takes but for, seldom, its content-length, and that the relay
    /// mostly takes.
    pub fn frame(&mut self, text: &mut Vec<u8>) {
        let command = if self.one_in(16) {
            self.pick(&OTHERS)
        } else {
            "SEND"
        };
        self.line(command, text);
        if ["CONNECT", "STOMP", "CONNECTED"].contains(&command) && self.one_in(2) {
            self.line("host\\:a\\t", text);
        }
        if !self.one_in(16) {
            self.line("destination:A", text);
        }
        let body = self.body();
        let counted = self.one_in(2);
        let right = if self.one_in(4) {
            format!("{:010}", body.len())
        } else {
            body.len().to_string()
        };
        let length = if self.one_in(16) {
            self.pick(&LENGTHS)
        } else {
            &right
        };
        let place = self.below(4);
        for header in 0..self.below(6).max(place + 1) {
            if counted && header == place {
                self.line(&format!("content-length:{length}"), text);
            }
            let kinds = if self.one_in(8) {
                HEADERS.len()
            } else {
                HEADERS.len() - 1
            };
            let line = HEADERS[self.below(kinds)];
            self.line(line, text);
        }
        if self.one_in(8) {
            self.line("content-length:1", text);
        }
        self.end_of_line(text);
        let null_free = body.iter().copied().filter(|octet| counted || *octet != 0);
        text.extend(null_free);
        text.push(0);
    }

    fn body(&mut self) -> Vec<u8> {
        (0..self.below(24)).map(|_| self.pick(&OCTETS)).collect()
    }

    fn frames(&mut self) -> Vec<u8> {
        let mut text = Vec::new();
        for _ in 0..self.below(5) {
            for _ in 0..self.below(3) {
                self.end_of_line(&mut text);
            }
            self.frame(&mut text);
        }
        text
    }

    fn mutated(&mut self) -> Vec<u8> {
        let mut text = self.frames();
        for _ in 0..=self.below(3) {
            let place = self.below(text.len() + 1);
            let octet = self.pick(&OCTETS);
            match self.below(3) {
                0 => text.insert(place, octet),
                1 if place < text.len() => text[place] = octet,
                _ if place < text.len() => drop(text.remove(place)),
                _ => {}
            }
        }
        text
    }

    fn cut(&mut self) -> Vec<u8> {
        let mut text = self.frames();
        text.truncate(self.below(text.len() + 1));
        text
    }

    fn noise(&mut self) -> Vec<u8> {
        let words = self.below(24);
        let start: &[u8] = if self.one_in(2) {
            b"SEND\ndestination:A\n"
        } else {
            b""
        };
        let mut text = start.to_vec();
        for _ in 0..words {
            text.extend(self.pick(&WORDS));
        }
        text
    }

    /// A stream: frames, frames that were changed or cut, or noise.
    pub fn next(&mut self) -> Vec<u8> {
        match self.below(8) {
            0..=2 => self.frames(),
            3..=5 => self.mutated(),
            6 => self.cut(),
            _ => self.noise(),
        }
    }
}
