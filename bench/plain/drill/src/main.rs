//! The work of `ox drill` in plain Rust, as bench/drill.py times it: a chain of made blocks, each
//! of which is indexed, and its change written and synced; the newest ten are taken back and
//! connected again. Each 65th command writes the whole index. It shows the same line, and leaves the
//! same bytes in the same files: docs/FORMATS.md, 'The line of a drill'.
mod made;

use drill::store::Store;
use fold_blocks::feed::Chain;
use fold_blocks::SUBSIDY;
use index::Whole;
use made::Behind;
use std::io;
use std::path::Path;

const DEPTH: u16 = 100;
const NEWEST: u32 = 10;

fn failed() -> io::Error {
    io::Error::other("a command is refused, or isn't written")
}

fn connect_many(store: &mut Store, behind: Behind, count: u32) -> io::Result<Behind> {
    (0..count).try_fold(behind, |behind, _| {
        let (block, next) = made::next(behind);
        store.connect(&block).map(|()| next).ok_or_else(failed)
    })
}

fn tell(whole: &Whole) {
    let Whole { index, shelf, ledger, .. } = whole;
    let count = index.hashes.len();
    let minted: u128 = ledger.runes.iter().map(|rune| rune.all_minted()).sum();
    let burned: u128 = ledger.runes.iter().map(|rune| rune.burned).sum();
    let (claimable, lost) = (count as u64 * SUBSIDY, index.lost());
    let (inscriptions, runes) = (shelf.rows.len(), ledger.runes.len());
    print!("drill {count} claimable {claimable} lost {lost} inscriptions {inscriptions}");
    println!(" runes {runes} minted {minted} burned {burned}");
}

fn main() -> io::Result<()> {
    let words: Vec<String> = std::env::args().skip(1).collect();
    let [folder, count] = words.as_slice() else { panic!("FOLDER BLOCKS") };
    let count: u32 = count.parse().expect("a number of blocks");
    let newest = count.min(NEWEST);
    let mut store = Store::make(Path::new(folder), DEPTH)?;
    let again = connect_many(&mut store, Behind::default(), count - newest)?;
    connect_many(&mut store, again, newest)?;
    (0..newest).try_for_each(|_| store.disconnect().ok_or_else(failed))?;
    connect_many(&mut store, again, newest)?;
    tell(&store.whole);
    Ok(())
}
