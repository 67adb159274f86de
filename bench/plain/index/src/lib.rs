//! A whole index in plain Rust: outputs and satoshis, inscriptions, and runes.
use fold_blocks::feed::Chain;
use fold_blocks::{tapscript, Block, Hash, Index};
use inscriptions::reveal::{reveal, Spend};
use inscriptions::shelf::Shelf;
use runes::ledger::Ledger;

/// The jubilee of regtest.
const JUBILEE: u32 = 110;

#[derive(Default)]
pub struct Whole {
    pub index: Index,
    pub shelf: Shelf,
    pub ledger: Ledger,
    depth: usize,
}

fn move_runes(ledger: &mut Ledger, block: &Block, height: u64) {
    for (place, tx) in block.txs.iter().enumerate() {
        let (inputs, outputs) = (&block.inputs[tx.inputs.clone()], &block.outputs[tx.outputs.clone()]);
        let has_stone = outputs.iter().any(|output| output.script.starts_with(&[0x6a, 0x5d]));
        if has_stone || inputs.iter().any(|at| ledger.balances.contains_key(at)) {
            ledger.turn(height, place as u32, block);
        }
    }
    ledger.end();
}

impl Whole {
    /// No blocks, of which so many can be taken back.
    pub fn new(depth: usize) -> Whole {
        Whole { index: Index::new(true, depth), shelf: Shelf::new(JUBILEE), depth, ..Whole::default() }
    }
}

impl Chain for Whole {
    fn connect(&mut self, bytes: &[u8]) -> Option<()> {
        let Whole { index, shelf, ledger, depth } = self;
        let height = index.hashes.len() as u32;
        let mut late = Vec::new();
        shelf.begin();
        ledger.begin();
        let block = index.connect_seen(bytes, |block, place, brought, sats| {
            let tx = &block.txs[place];
            let taken = block.outputs[tx.outputs.clone()].iter().map(|output| output.value).sum();
            let spend = Spend { txid: tx.id, height, sats, taken };
            let scripts = tx.inputs.clone().map(|input| tapscript(block.witness(input)));
            reveal(shelf, &mut late, &spend, brought.iter().copied().zip(scripts));
        })?;
        late.into_iter().for_each(|row| shelf.push(row));
        move_runes(ledger, &block, u64::from(height));
        shelf.keep(*depth);
        ledger.keep(*depth);
        Some(())
    }

    fn disconnect(&mut self) -> Option<()> {
        self.index.disconnect()?;
        self.shelf.disconnect()?;
        self.ledger.disconnect()
    }

    fn hashes(&self) -> &[Hash] {
        &self.index.hashes
    }
}
