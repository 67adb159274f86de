//! Rows of an index and of a change, read and written in plain Rust, as bench/rows.py times them. On standard input stand
//! the rows `index`, `spell`, `change` and `fronts` of crates/ox_index_rows, and its rows `sound` and `load` of regtest, and
//! it shows the same for them. An argument says how often `index` reads, `spell` spells, `sound` tests and `load` makes.
use rows::live::Live;
use rows::read::{Fault, Reader};
use rows::rows::Index;
use rows::sound::is_sound;
use rows::write;
use std::hint::black_box;
use std::io::{self, BufRead, Write};

/// More bytes than these are told by their number alone.
const MOST_SHOWN: usize = 1_000_000;

fn decode(digits: &str) -> Vec<u8> {
    let digit = |byte: u8| (byte as char).to_digit(16).expect("no hex digit") as u8;
    if digits == "-" {
        return Vec::new();
    }
    digits.as_bytes().chunks_exact(2).map(|pair| digit(pair[0]) << 4 | digit(pair[1])).collect()
}

/// How many bytes the rows took that were read so many times, and these, spelled so many times.
fn again<T>(
    bytes: &[u8],
    [reads, writes]: [u32; 2],
    read: impl for<'a> Fn(&mut Reader<'a>) -> Result<T, Fault>,
    write: impl Fn(&T) -> Vec<u8>,
) -> Result<(usize, Vec<u8>), Fault> {
    for _ in 1..reads {
        drop(black_box(read(&mut Reader(bytes))?));
    }
    let mut reader = Reader(bytes);
    let value = read(&mut reader)?;
    for _ in 1..writes {
        drop(black_box(write(&value)));
    }
    Ok((bytes.len() - reader.0.len(), write(&value)))
}

fn read_again(kind: &str, bytes: &[u8], times: u32) -> Result<(usize, Vec<u8>), Fault> {
    match kind {
        "index" => again(bytes, [times, 1], |reader| reader.index(), write::index),
        "spell" => again(bytes, [1, times], |reader| reader.index(), write::index),
        _ => again(bytes, [1, 1], |reader| reader.change(), write::change),
    }
}

fn index_of(bytes: &[u8]) -> Index {
    Reader(bytes).index().unwrap_or_else(|_| panic!("no index"))
}

/// What is told of an index that is tested so many times.
fn told_of(bytes: &[u8], times: u32) -> &'static str {
    let index = index_of(bytes);
    for _ in 1..times {
        black_box(is_sound(&index));
    }
    if is_sound(&index) { "sound" } else { "not sound" }
}

/// The index in memory that is made from the rows of a sound one.
fn live_of(bytes: &[u8]) -> Option<Live> {
    let index = index_of(bytes);
    is_sound(&index).then(|| Live::of(index))
}

/// What is told of an index in memory that is made so many times.
fn made_of(bytes: &[u8], times: u32) -> String {
    for _ in 1..times {
        drop(black_box(live_of(bytes)));
    }
    match live_of(bytes) {
        Some(live) => format!(
            "{} blocks, {} inscriptions, {} runes",
            live.hashes.len(),
            live.inscriptions.len(),
            live.runes.len()
        ),
        None => "not sound".to_string(),
    }
}

fn main() -> io::Result<()> {
    let times = std::env::args().nth(1).map_or(1, |word| word.parse().expect("no number"));
    let mut shown = io::BufWriter::new(io::stdout().lock());
    for line in io::stdin().lock().lines() {
        let line = line?;
        let (kind, rest) = line.split_once(' ').expect("no row");
        if kind == "fronts" {
            let (kind, digits) = rest.split_once(' ').expect("no row");
            let bytes = decode(digits);
            for len in 0..bytes.len() {
                match read_again(kind, &bytes[..len], 1) {
                    Ok(_) => write!(shown, " none")?,
                    Err(Fault(left)) => write!(shown, " {}", len - left)?,
                }
            }
            writeln!(shown)?;
            continue;
        }
        if kind == "sound" || kind == "load" {
            let bytes = decode(rest.strip_prefix("regtest ").expect("another profile"));
            match kind {
                "sound" => writeln!(shown, "{}", told_of(&bytes, times))?,
                _ => writeln!(shown, "{}", made_of(&bytes, times))?,
            }
            continue;
        }
        let bytes = decode(rest);
        match read_again(kind, &bytes, times) {
            Err(Fault(left)) => writeln!(shown, "not rows {}", bytes.len() - left)?,
            Ok((taken, spelled)) if spelled.len() > MOST_SHOWN => {
                let is_so = bytes.starts_with(&spelled);
                writeln!(shown, "{taken} bytes spelled by {}, as they are: {is_so}", spelled.len())?;
            }
            Ok((taken, spelled)) => {
                write!(shown, "{taken} bytes ")?;
                for byte in &spelled {
                    write!(shown, "{byte:02x}")?;
                }
                writeln!(shown)?;
            }
        }
    }
    Ok(())
}
