//! The work of `ox fold regtest` in plain Rust with inscriptions and runes, as bench/index_blocks.py times it: blocks of a
//! feed, and disconnects. It shows the same line for each. What the newest 1,000 blocks changed is kept.
use fold_blocks::{feed, SUBSIDY};
use index::Whole;
use std::io;

const DEPTH: usize = 1000;

fn main() -> io::Result<()> {
    let mut whole = Whole::new(DEPTH);
    feed::fold(&mut whole)?;
    let claimed = whole.index.hashes.len() as u64 * SUBSIDY;
    let (rows, balances) = (whole.shelf.rows.len(), whole.ledger.balances.len());
    let bound = whole.shelf.rows.iter().filter(|row| row.sat.is_some_and(|sat| sat < claimed)).count();
    eprintln!("{} outputs, {rows} inscriptions, {bound} of them bound, {balances} balances", whole.index.outputs.len());
    Ok(())
}
