//! What crates/ox_block_rows does of rows `often` and `hold`, in plain Rust, to be timed beside it (bench/streams.py):
//! heads by `httparse`, their ends by `memchr`, and sessions that copy each body once. `copy TIMES N PART..` copies a
//! stream instead, N bytes at a time, and what was gathered once more.

use std::io::{self, BufRead};
use std::str;

const HEAD_LIMIT: usize = 8192;
const BODY_LIMIT: usize = 4_000_000;

/// A head without a fault.
struct Head {
    len: usize,
    path: Vec<u8>,
    body_len: usize,
    close: bool,
}

struct Request {
    path: Vec<u8>,
    body: Vec<u8>,
    close: bool,
}

/// The length of a body, of which a head's fields tell one text of digits or none.
fn body_length(fields: &[httparse::Header]) -> Result<Option<usize>, u16> {
    let mut told: Option<&[u8]> = None;
    for field in fields.iter().filter(|field| field.name.eq_ignore_ascii_case("content-length")) {
        let digits = !field.value.is_empty() && field.value.len() <= 19 && field.value.iter().all(u8::is_ascii_digit);
        if !digits || told.is_some_and(|text| text != field.value) {
            return Err(400);
        }
        told = Some(field.value);
    }
    Ok(told.map(|text| str::from_utf8(text).unwrap().parse::<u64>().unwrap().min(BODY_LIMIT as u64 + 1) as usize))
}

/// What the front of a stream is, or the status of a fault. The first `looked` bytes hold no end of a head.
fn read_head(bytes: &[u8], looked: usize) -> Result<Option<Head>, u16> {
    let front = &bytes[..bytes.len().min(HEAD_LIMIT)];
    let from = looked.min(front.len()).saturating_sub(3);
    let Some(at) = memchr::memmem::find(&front[from..], b"\r\n\r\n") else {
        return if bytes.len() < HEAD_LIMIT { Ok(None) } else { Err(431) };
    };
    let len = from + at + 4;
    let mut fields = [httparse::EMPTY_HEADER; 64];
    let mut read = httparse::Request::new(&mut fields);
    match read.parse(&bytes[..len]) {
        Ok(httparse::Status::Complete(n)) if n == len => {}
        _ => return Err(400),
    }
    let body_len = body_length(read.headers)?;
    let has = |name: &str| read.headers.iter().any(|field| field.name.eq_ignore_ascii_case(name));
    if has("transfer-encoding") || (read.method == Some("POST") && body_len.is_none()) {
        return Err(411);
    }
    let body_len = body_len.unwrap_or(0);
    if body_len > BODY_LIMIT {
        return Err(413);
    }
    let mut all = read.headers.iter();
    let says = all.any(|field| field.name.eq_ignore_ascii_case("connection") && field.value.eq_ignore_ascii_case(b"close"));
    let path = read.path.unwrap().as_bytes().to_vec();
    Ok(Some(Head { len, path, body_len, close: read.version == Some(0) || says }))
}

fn phrase(status: u16) -> &'static str {
    match status {
        200 => "OK",
        400 => "Bad Request",
        411 => "Length Required",
        413 => "Content Too Large",
        431 => "Request Header Fields Too Large",
        _ => "",
    }
}

/// A reply's bytes.
fn write_reply(status: u16, kind: &str, body: &[u8], close: bool) -> Vec<u8> {
    let mut bytes = Vec::with_capacity(143 + kind.len() + body.len());
    let line = if close { "Connection: close\r\n" } else { "" };
    let head = format!(
        "HTTP/1.1 {status} {}\r\nContent-Type: {kind}\r\nContent-Length: {}\r\n{line}\r\n",
        phrase(status),
        body.len()
    );
    bytes.extend_from_slice(head.as_bytes());
    bytes.extend_from_slice(body);
    bytes
}

/// One link. Its bytes are taken off in front, and moved when more come.
#[derive(Default)]
struct Session {
    bytes: Vec<u8>,
    start: usize,
    looked: usize,
    head: Option<Head>,
    closing: bool,
}

impl Session {
    fn heard(&mut self, bytes: &[u8]) {
        if self.start > 0 {
            self.bytes.drain(..self.start);
            self.start = 0;
        }
        self.bytes.extend_from_slice(bytes);
    }

    /// The next request, if it has wholly come, or the status of a fault.
    fn next(&mut self) -> Result<Option<Request>, u16> {
        let left = &self.bytes[self.start..];
        let head = match self.head.take() {
            Some(head) => head,
            None => match read_head(left, self.looked)? {
                Some(head) => head,
                None => {
                    self.looked = left.len();
                    return Ok(None);
                }
            },
        };
        let whole = head.len + head.body_len;
        if left.len() < whole {
            self.head = Some(head);
            return Ok(None);
        }
        let request = Request { body: left[head.len..whole].to_vec(), path: head.path, close: head.close };
        self.looked = 0;
        self.start += whole;
        if self.start == self.bytes.len() {
            self.bytes.clear();
            self.bytes.shrink_to(65_536);
            self.start = 0;
        }
        Ok(Some(request))
    }

    /// The bytes of the next reply.
    fn reply(&mut self) -> Option<Vec<u8>> {
        if self.closing {
            return None;
        }
        match self.next() {
            Ok(Some(request)) => {
                self.closing = request.close;
                drop(request.body);
                Some(write_reply(200, "a/b", &request.path, request.close))
            }
            Ok(None) => None,
            Err(status) => {
                self.closing = true;
                Some(write_reply(status, "application/json", format!("{{\"error\":{status}}}").as_bytes(), true))
            }
        }
    }
}

fn stream_of(parts: &[&str]) -> Vec<u8> {
    let mut stream = Vec::new();
    for part in parts {
        let (times, digits) = part.split_once('*').unwrap_or(("1", part));
        let bytes: Vec<u8> =
            (0..digits.len() / 2).map(|at| u8::from_str_radix(&digits[2 * at..2 * at + 2], 16).unwrap()).collect();
        for _ in 0..times.parse().unwrap() {
            stream.extend_from_slice(&bytes);
        }
    }
    stream
}

fn read_often(times: usize, stream: &[u8]) {
    let mut read = 0;
    for _ in 0..times {
        if let Ok(Some(head)) = read_head(stream, 0) {
            let whole = head.len + head.body_len;
            if whole <= stream.len() {
                let request = Request { body: stream[head.len..whole].to_vec(), path: head.path, close: head.close };
                read += whole;
                std::hint::black_box(request);
            }
        }
    }
    println!("{read} bytes");
}

fn hold(links: usize, each: usize, stream: &[u8]) {
    let (mut sessions, mut shown) = (Vec::new(), 0);
    for _ in 0..links {
        let mut session = Session::default();
        for piece in stream.chunks(each) {
            session.heard(piece);
            while let Some(due) = session.reply() {
                shown += due.len();
            }
        }
        sessions.push(session);
    }
    println!("{shown} bytes due");
}

fn copy(times: usize, each: usize, stream: &[u8]) {
    for _ in 0..times {
        let mut bytes = Vec::new();
        for piece in stream.chunks(each) {
            bytes.extend_from_slice(piece);
        }
        std::hint::black_box(bytes.clone());
    }
}

fn main() {
    for row in io::stdin().lock().lines() {
        let row = row.unwrap();
        let words: Vec<&str> = row.split(' ').collect();
        let number = |at: usize| words[at].parse().unwrap();
        match words[0] {
            "often" => read_often(number(1), &stream_of(&words[2..])),
            "hold" => hold(number(1), number(2), &stream_of(&words[3..])),
            "copy" => copy(number(1), number(2), &stream_of(&words[3..])),
            _ => panic!("no row"),
        }
    }
}
