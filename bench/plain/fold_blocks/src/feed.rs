//! What stands on standard input: lines of a feed, or blocks with their lengths before them.
use crate::{Hash, Index, Shown};
use std::io::{self, BufRead, Write};

/// The number that a digit stands for; above 15 for what is none.
const DIGITS: [u8; 256] = {
    let mut numbers = [0xff; 256];
    let mut number = 0;
    while number < 16 {
        numbers[b"0123456789abcdef"[number] as usize] = number as u8;
        numbers[b"0123456789ABCDEF"[number] as usize] = number as u8;
        number += 1;
    }
    numbers
};

fn decode(digits: &[u8], bytes: &mut Vec<u8>) -> Option<()> {
    let (pairs, []) = digits.as_chunks::<2>() else {
        return None;
    };
    let mut seen = 0;
    bytes.clear();
    bytes.extend(pairs.iter().map(|[high, low]| {
        let (high, low) = (DIGITS[*high as usize], DIGITS[*low as usize]);
        seen |= high | low;
        high << 4 | low
    }));
    (seen < 16).then_some(())
}

/// What the lines of a feed work on.
pub trait Chain {
    /// Takes in the next block, if it is accepted.
    fn connect(&mut self, block: &[u8]) -> Option<()>;

    /// Takes back the newest block, if it is kept.
    fn disconnect(&mut self) -> Option<()>;

    fn hashes(&self) -> &[Hash];
}

impl Chain for Index {
    fn connect(&mut self, block: &[u8]) -> Option<()> {
        Index::connect(self, block).map(|_| ())
    }

    fn disconnect(&mut self) -> Option<()> {
        Index::disconnect(self)
    }

    fn hashes(&self) -> &[Hash] {
        &self.hashes
    }
}

/// Does what the lines of standard input say, and shows the line that `ox fold` shows for each.
pub fn fold(chain: &mut impl Chain) -> io::Result<()> {
    let (mut input, mut out) = (io::stdin().lock(), io::stdout().lock());
    let (mut line, mut block) = (Vec::new(), Vec::new());
    while input.read_until(b'\n', &mut line)? > 0 {
        if line == b"disconnect\n" {
            chain.disconnect().expect("a block that is kept");
        } else {
            let digits = line.trim_ascii_end().strip_prefix(b"connect ").expect("a connect");
            decode(digits, &mut block).expect("hex digits");
            chain.connect(&block).expect("a block that is accepted");
        }
        line.clear();
        match chain.hashes() {
            [.., hash] => writeln!(out, "ok {} {}", chain.hashes().len() - 1, Shown(hash))?,
            [] => writeln!(out, "ok empty")?,
        }
    }
    Ok(())
}

/// Takes the next block, whose length stands before it, from the front of some.
pub fn next_block<'a>(feed: &mut &'a [u8]) -> Option<&'a [u8]> {
    let (length, behind) = feed.split_first_chunk()?;
    let (block, behind) = behind.split_at_checked(u32::from_le_bytes(*length) as usize)?;
    *feed = behind;
    Some(block)
}
