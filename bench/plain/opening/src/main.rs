//! The opening of a store in plain Rust, as bench/apply_and_open.py times it: the store of a folder is read and tested, and
//! the tables are made. It shows how many blocks there are and the newest.
use opening::{current, restored};
use rows::live::Live;
use std::io;
use std::path::Path;

fn main() -> io::Result<()> {
    let folder = std::env::args().nth(1).expect("FOLDER");
    let file = current(Path::new(&folder))?;
    let (index, changes) = restored(&file).expect("no store");
    drop(file);
    let live = Live::of(index);
    let tip: String = live.hashes.last().map_or(String::new(), |tip| {
        tip.iter().rev().map(|byte| format!("{byte:02x}")).collect()
    });
    println!("{} {} {}", live.hashes.len(), tip, changes.len());
    std::process::exit(0)
}
