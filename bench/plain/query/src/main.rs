//! Replies to queries in plain Rust, as bench/query.py times them. On standard input stand rows, of which it does those that
//! crates/ox_index_rows calls `block` and `GET`, and it shows the same for them. The first argument is how a body is made: by
//! `structs` that are written at once, or as a `tree` of values first. With a second each path is replied so many times, but
//! for the first behind the last row, and it is told how many replies these were, and how many bytes their bodies had.
use fold_blocks::feed::Chain;
use fold_blocks::Shown;
use index::Whole;
use query::{answer, routes, About, Method, Reply, Request, Way};
use std::io::{self, Write};

const ABOUT: About = About { depth: 1, kept: 1 };

/// A body of more bytes is shown by its length and a checksum.
const MOST_SHOWN: usize = 20_000;

/// A sum in which each byte's place counts.
fn checksum(bytes: &[u8]) -> u64 {
    bytes.iter().fold(0, |sum: u64, byte| sum.wrapping_mul(1_000_003).wrapping_add(u64::from(*byte)))
}

/// A reply in a line.
fn show(out: &mut impl Write, reply: &Reply) -> io::Result<()> {
    let kind = String::from_utf8_lossy(&reply.kind);
    write!(out, "{}{} <{kind}>", reply.status, if reply.close { " close" } else { "" })?;
    if let Some(encoding) = &reply.encoding {
        write!(out, " <{}>", String::from_utf8_lossy(encoding))?;
    }
    let body = &reply.body;
    match std::str::from_utf8(body) {
        _ if body.len() > MOST_SHOWN => writeln!(out, " ({} bytes, checksum {})", body.len(), checksum(body)),
        Ok(text) if !text.contains('\n') => writeln!(out, " {text}"),
        _ => writeln!(out, " (hex) {}", hex::encode(body)),
    }
}

fn main() {
    let words: Vec<String> = std::env::args().skip(1).collect();
    let way = if words.first().is_some_and(|word| word == "tree") { Way::Tree } else { Way::Structs };
    let times: u32 = words.get(1).map_or(1, |word| word.parse().unwrap());
    let text = io::read_to_string(io::stdin()).unwrap();
    let (mut whole, routes) = (Whole::new(0), routes());
    let reply = |whole: &Whole, path: &str| {
        let request = Request { method: Method::Get, path: path.as_bytes().to_vec(), body: Vec::new(), close: false };
        answer(&routes, whole, &ABOUT, &request, way)
    };
    let (mut out, mut paths) = (io::BufWriter::new(io::stdout().lock()), Vec::new());
    for row in text.lines() {
        match row.split_once(' ') {
            Some(("block", digits)) => {
                whole.connect(&hex::decode(digits).expect("hex digits")).expect("a block that is accepted");
                let hashes = whole.hashes();
                writeln!(out, "ok {} {}", hashes.len() - 1, Shown(&hashes[hashes.len() - 1])).unwrap();
            }
            Some(("GET", path)) => {
                show(&mut out, &reply(&whole, path)).unwrap();
                paths.push(path);
            }
            _ => (),
        }
    }
    let (mut replies, mut length) = (0, 0);
    for path in (1..times).flat_map(|_| &paths) {
        replies += 1;
        length += reply(&whole, path).body.len();
    }
    if times > 1 {
        writeln!(out, "{replies} replies of {length} bytes").unwrap();
    }
}
