//! The work of `ox apply` in plain Rust over a new store, as bench/checkpoint.py times it: the lines of
//! a feed, each of which is indexed, written and synced, and then answered by the same line.
use drill::store::Store;
use fold_blocks::feed;
use std::io;
use std::path::Path;

fn main() -> io::Result<()> {
    let words: Vec<String> = std::env::args().skip(1).collect();
    let [folder, depth] = words.as_slice() else { panic!("FOLDER DEPTH") };
    let depth = depth.parse().expect("a depth");
    feed::fold(&mut Store::make(Path::new(folder), depth)?)
}
