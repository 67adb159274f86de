//! A server's desk in plain Rust: the replies to the last 64 paths since the last accepted block, before something that
//! answers.
use lru::LruCache;
use query::{Method, Reply, Request};

const REPLIES_KEPT: usize = 64;

/// The most bytes of a body that is kept.
const BODY_KEPT: usize = 65_536;

pub trait Answers {
    fn reply(&self, request: &Request) -> Reply;
}

pub struct Desk<A> {
    pub asked: A,
    replies: LruCache<Vec<u8>, Reply>,
    requests: u64,
    hits: u64,
}

fn phrase(status: u16) -> &'static str {
    match status {
        200 => "OK",
        403 => "Forbidden",
        404 => "Not Found",
        405 => "Method Not Allowed",
        409 => "Conflict",
        _ => "",
    }
}

/// The bytes of a reply, with which the link ends or doesn't.
fn write_reply(reply: &Reply, close: bool) -> Vec<u8> {
    let mut number = itoa::Buffer::new();
    let mut bytes = Vec::with_capacity(200 + reply.kind.len() + reply.body.len());
    let mut put = |part: &[u8]| bytes.extend_from_slice(part);
    put(b"HTTP/1.1 ");
    put(number.format(reply.status).as_bytes());
    put(b" ");
    put(phrase(reply.status).as_bytes());
    put(b"\r\nContent-Type: ");
    put(&reply.kind);
    if let Some(encoding) = &reply.encoding {
        put(b"\r\nContent-Encoding: ");
        put(encoding);
    }
    put(b"\r\nContent-Length: ");
    put(number.format(reply.body.len()).as_bytes());
    put(if close { b"\r\nConnection: close\r\n\r\n" } else { b"\r\n\r\n" });
    put(&reply.body);
    bytes
}

/// A GET of a path, with which the link goes on.
pub fn get(path: &str) -> Request {
    Request { method: Method::Get, path: path.as_bytes().to_vec(), body: Vec::new(), close: false }
}

impl<A: Answers> Desk<A> {
    pub fn new(asked: A) -> Desk<A> {
        Desk { asked, replies: LruCache::new(REPLIES_KEPT), requests: 0, hits: 0 }
    }

    /// Forgets the replies that are kept, as where a block was accepted.
    pub fn forget(&mut self) {
        self.replies.clear();
    }

    fn look_up(&mut self, request: &Request) -> Vec<u8> {
        if let Some(reply) = self.replies.get(&request.path) {
            self.hits += 1;
            return write_reply(reply, request.close);
        }
        let reply = self.asked.reply(request);
        let bytes = write_reply(&reply, request.close);
        if reply.body.len() <= BODY_KEPT {
            self.replies.put(request.path.clone(), reply);
        }
        bytes
    }

    /// Answers a GET of each path, so many times over, as a desk does that was just opened, and tells what
    /// crates/ox_run_rows tells of it.
    pub fn answer_often(&mut self, paths: &[&str], times: u64) -> String {
        let requests: Vec<Request> = paths.iter().map(|path| get(path)).collect();
        self.forget();
        (self.requests, self.hits) = (0, 0);
        let mut length = 0;
        for _ in 0..times {
            for request in &requests {
                self.requests += 1;
                length += self.look_up(request).len();
            }
        }
        format!("{} requests {} hits {length} bytes", self.requests, self.hits)
    }
}
