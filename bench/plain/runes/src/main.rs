//! The ledger of runes in plain Rust, as bench/runes.py times it. On standard input stand blocks, each with its length
//! before it. All but the last are done once; the last is done and taken back as often as the first argument says. Then
//! the balances of all outputs of the blocks are looked up as often as the second argument says.
use fold_blocks::feed::next_block;
use fold_blocks::{Block, Hash, OutPoint};
use runes::ledger::Ledger;
use std::io::Read;

fn connect(ledger: &mut Ledger, height: u64, block: &Block) {
    ledger.begin();
    for place in 0..block.txs.len() {
        ledger.turn(height, place as u32, block);
    }
    ledger.end();
}

/// How many outputs hold runes, and the sum of the amounts.
fn look(ledger: &Ledger, txs: &[(usize, Hash)]) -> (u64, u128) {
    let (mut count, mut sum) = (0, 0u128);
    for (outputs, txid) in txs {
        for index in 0..*outputs as u32 {
            let held = ledger.balances(&OutPoint { txid: *txid, index });
            count += u64::from(!held.is_empty());
            held.iter().for_each(|(_, amount)| sum = sum.wrapping_add(*amount));
        }
    }
    (count, sum)
}

fn main() {
    let words: Vec<usize> = std::env::args().skip(1).map(|word| word.parse().unwrap()).collect();
    let [times, looks] = words[..] else { panic!("TIMES LOOKS") };
    let mut bytes = Vec::new();
    std::io::stdin().read_to_end(&mut bytes).unwrap();
    let mut rest = bytes.as_slice();
    let (mut ledger, mut height, mut ids) = (Ledger::default(), 0, Vec::new());
    while let Some(bytes) = next_block(&mut rest) {
        let block = Block::read(bytes).expect("a block");
        if rest.is_empty() {
            for _ in 0..times {
                connect(&mut ledger, height, &block);
                ledger.cancel();
            }
        } else {
            ids.extend(block.txs.iter().map(|tx| (tx.outputs.len(), tx.id)));
        }
        connect(&mut ledger, height, &block);
        height += 1;
    }
    let mut found = (0, 0);
    for _ in 0..looks {
        found = look(&ledger, &ids);
    }
    let burned = ledger.runes.iter().fold(0u128, |sum, rune| sum.wrapping_add(rune.burned));
    println!("{} runes, {burned} burned, {} outputs hold {}", ledger.runes.len(), found.0, found.1);
}
