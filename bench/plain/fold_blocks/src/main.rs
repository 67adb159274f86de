//! The work of `ox fold regtest` in plain Rust: blocks of a feed, and disconnects. It shows the same line for each. With
//! the word `locator` it keeps an ordered map of runs too, by which a satoshi is found, and with a number what so many of
//! the newest blocks changed.
use fold_blocks::{feed, Index};
use std::io;

fn main() -> io::Result<()> {
    let words: Vec<String> = std::env::args().skip(1).collect();
    let depth = words.iter().find_map(|word| word.parse().ok()).unwrap_or(0);
    let mut index = Index::new(words.iter().any(|word| word == "locator"), depth);
    feed::fold(&mut index)?;
    let bytes: usize = index.outputs.values().map(|row| row.script.as_slice().len()).sum();
    let newest = index.outputs.values().map(|row| row.height).max();
    eprintln!("{} outputs up to height {newest:?}, {bytes} bytes of scripts", index.outputs.len());
    Ok(())
}
