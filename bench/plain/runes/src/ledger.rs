//! The ledger: which runes there are, and which output holds how much of them, with a mark to go back to.
use crate::stone::{decipher, Edict, Etching, Item, Items, RuneId, Stone};
use fold_blocks::{tapscript, Block, Hash, OutPoint, Output};
use std::collections::{BTreeMap, HashMap, VecDeque};
use std::mem;
use std::ops::Range;

const RESERVED: u128 = 6_402_364_363_415_443_603_228_541_259_936_211_926;

/// Amounts by rising ids, of which one takes no memory of its own.
pub enum Balances {
    One((RuneId, u128)),
    Many(Box<[(RuneId, u128)]>),
}

impl Balances {
    fn new(pool: &Pool) -> Option<Balances> {
        match pool.as_slice() {
            [] => None,
            [balance] => Some(Balances::One(*balance)),
            many => Some(Balances::Many(many.into())),
        }
    }

    pub fn as_slice(&self) -> &[(RuneId, u128)] {
        match self {
            Balances::One(balance) => std::slice::from_ref(balance),
            Balances::Many(many) => many,
        }
    }
}

/// Amounts by rising ids, none of them 0.
type Pool = Vec<(RuneId, u128)>;

fn add(pool: &mut Pool, id: RuneId, amount: u128) {
    if amount > 0 {
        match pool.binary_search_by_key(&id, |held| held.0) {
            Ok(at) => pool[at].1 += amount,
            Err(at) => pool.insert(at, (id, amount)),
        }
    }
}

fn take(pool: &mut Pool, id: RuneId, most: u128) -> u128 {
    let Ok(at) = pool.binary_search_by_key(&id, |held| held.0) else { return 0 };
    let taken = pool[at].1.min(most);
    pool[at].1 -= taken;
    if pool[at].1 == 0 {
        pool.remove(at);
    }
    taken
}

pub struct Rune {
    pub id: RuneId,
    pub name: u128,
    pub etching: Etching,
    pub etched_by: Hash,
    pub mints: u128,
    pub burned: u128,
}

impl Rune {
    /// What a mint gives at a height, if one is open.
    pub fn minted(&self, height: u64) -> Option<u128> {
        let terms = self.etching.terms?;
        let offset = |offset: u64| self.id.block.saturating_add(offset);
        let start = terms.height.0.max(terms.offset.0.map(offset)).unwrap_or(0);
        let ends = [terms.height.1, terms.offset.1.map(offset)];
        let end = ends.into_iter().flatten().min().unwrap_or(u64::MAX);
        let is_open = height >= start && height < end && self.mints < terms.cap.unwrap_or(0);
        is_open.then_some(terms.amount.unwrap_or(0))
    }

    /// What all mints gave.
    pub fn all_minted(&self) -> u128 {
        self.mints * self.etching.terms.and_then(|terms| terms.amount).unwrap_or(0)
    }

    /// What outputs hold, once a block has ended.
    pub fn held(&self) -> u128 {
        self.etching.premine + self.all_minted() - self.burned
    }
}

/// A transaction, by its place in a block.
struct Tx<'a> {
    block: &'a Block<'a>,
    place: usize,
}

impl Tx<'_> {
    fn id(&self) -> Hash {
        self.block.txs[self.place].id
    }

    fn inputs(&self) -> Range<usize> {
        self.block.txs[self.place].inputs.clone()
    }

    fn outputs(&self) -> &[Output<'_>] {
        &self.block.outputs[self.block.txs[self.place].outputs.clone()]
    }
}

/// What stood before something changed: of an output, or mints and what was burned of a rune.
pub enum Change {
    Balance(OutPoint, Option<Balances>),
    Counts(usize, u128, u128),
}

#[derive(Default)]
pub struct Ledger {
    pub balances: HashMap<OutPoint, Balances>,
    pub runes: Vec<Rune>,
    ids: HashMap<RuneId, usize>,
    names: HashMap<u128, usize>,
    due: BTreeMap<u32, Balances>,
    coinbase: Hash,
    /// How many runes there were when the block began, and what it has changed.
    mark: usize,
    changes: Vec<Change>,
    /// The same of blocks that are kept, the newest first.
    kept: VecDeque<(usize, Vec<Change>)>,
}

fn is_burned(script: &[u8]) -> bool {
    script.first() == Some(&0x6a)
}

impl Ledger {
    pub fn begin(&mut self) {
        self.changes.clear();
        self.mark = self.runes.len();
    }

    /// Goes back to where the block began.
    pub fn cancel(&mut self) {
        while let Some(change) = self.changes.pop() {
            match change {
                Change::Balance(at, Some(held)) => drop(self.balances.insert(at, held)),
                Change::Balance(at, None) => drop(self.balances.remove(&at)),
                Change::Counts(at, mints, burned) => (self.runes[at].mints, self.runes[at].burned) = (mints, burned),
            }
        }
        for rune in self.runes.drain(self.mark..) {
            self.ids.remove(&rune.id);
            self.names.remove(&rune.name);
        }
    }

    /// Keeps what the block changed, and so many blocks at most.
    pub fn keep(&mut self, depth: usize) {
        self.kept.truncate(depth.saturating_sub(1));
        if depth > 0 {
            self.kept.push_front((self.mark, mem::take(&mut self.changes)));
        }
    }

    /// Takes back the newest block, if it is kept.
    pub fn disconnect(&mut self) -> Option<()> {
        (self.mark, self.changes) = self.kept.pop_front()?;
        self.cancel();
        Some(())
    }

    /// Of the newest block, if it is kept: how many runes there were before it, and what it changed.
    pub fn newest(&self) -> Option<(usize, &[Change])> {
        self.kept.front().map(|(mark, changes)| (*mark, changes.as_slice()))
    }

    pub fn by_id(&self, id: RuneId) -> Option<usize> {
        self.ids.get(&id).copied()
    }

    pub fn by_name(&self, name: u128) -> Option<usize> {
        self.names.get(&name).copied()
    }

    /// What an output holds.
    pub fn balances(&self, at: &OutPoint) -> &[(RuneId, u128)] {
        self.balances.get(at).map_or(&[], Balances::as_slice)
    }

    fn count(&mut self, at: usize, mints: u128, burned: u128) {
        let rune = &mut self.runes[at];
        let change = Change::Counts(at, rune.mints, rune.burned);
        rune.mints += mints;
        rune.burned += burned;
        self.changes.push(change);
    }

    fn burn(&mut self, id: RuneId, amount: u128) {
        self.count(self.ids[&id], 0, amount);
    }

    fn take_balance(&mut self, at: OutPoint, pool: &mut Pool) {
        if let Some(held) = self.balances.remove(&at) {
            held.as_slice().iter().for_each(|(id, amount)| add(pool, *id, *amount));
            self.changes.push(Change::Balance(at, Some(held)));
        }
    }

    fn burn_all(&mut self, pool: Pool) {
        pool.into_iter().for_each(|(id, amount)| self.burn(id, amount));
    }

    /// Places what an output gets, and burns what it displaces.
    fn place(&mut self, at: OutPoint, held: Option<Balances>) {
        let earlier = match held {
            Some(held) => self.balances.insert(at, held),
            None => self.balances.remove(&at),
        };
        let mut displaced = Pool::new();
        if let Some(earlier) = &earlier {
            earlier.as_slice().iter().for_each(|(id, amount)| add(&mut displaced, *id, *amount));
        }
        self.changes.push(Change::Balance(at, earlier));
        self.burn_all(displaced);
    }

    fn mint(&mut self, id: RuneId, height: u64) -> u128 {
        let Some(&at) = self.ids.get(&id) else { return 0 };
        let Some(amount) = self.runes[at].minted(height) else { return 0 };
        self.count(at, 1, 0);
        amount
    }

    /// Whether an input's tapscript pushes the name, and the output that it spends is old enough. Here each spent output
    /// is pay-to-taproot, from the first block.
    fn is_committed(tx: &Tx, name: u128, height: u64) -> bool {
        let bytes = name.to_le_bytes();
        let commitment = &bytes[..16 - name.leading_zeros() as usize / 8];
        let commits = |item| matches!(item, Some(Item::Push(push)) if push == commitment);
        let pushes = |script| Items(script).any(commits);
        let witness = |input| tx.block.witness(input);
        height + 1 >= 6 && tx.inputs().filter_map(|input| tapscript(witness(input))).any(pushes)
    }

    fn etch(&mut self, etching: Etching, tx: &Tx, id: RuneId) -> bool {
        let name = match etching.name {
            Some(name) => {
                // On regtest any name is long enough from the twelfth interval on: the bench's names have 13 letters.
                if name >= RESERVED || self.names.contains_key(&name) || !Ledger::is_committed(tx, name, id.block) {
                    return false;
                }
                name
            }
            None => RESERVED + (u128::from(id.block) << 32 | u128::from(id.tx)),
        };
        self.ids.insert(id, self.runes.len());
        self.names.insert(name, self.runes.len());
        self.runes.push(Rune { id, name, etching, etched_by: tx.id(), mints: 0, burned: 0 });
        true
    }

    /// Does what the transaction at a place of a block says.
    pub fn turn(&mut self, height: u64, place: u32, block: &Block) {
        let tx = &Tx { block, place: place as usize };
        let mut pool = Pool::new();
        for input in tx.inputs() {
            self.take_balance(block.inputs[input], &mut pool);
        }
        let outputs = tx.outputs().len();
        let stone = tx.outputs().iter().find_map(|output| decipher(output.script, outputs as u32));
        let id = RuneId { block: height, tx: place };
        let mut given: Vec<Pool> = Vec::new();
        let mut pointer = None;
        if let Some(stone) = stone {
            if let Some(mint) = stone.mint {
                let amount = self.mint(mint, height);
                add(&mut pool, mint, amount);
            }
            if stone.is_cenotaph {
                if let Some(Etching { name: Some(name), .. }) = stone.etching {
                    self.etch(Etching { name: Some(name), ..Etching::default() }, tx, id);
                }
                self.burn_all(mem::take(&mut pool));
            } else {
                pointer = stone.pointer;
                let is_etched = stone.etching.is_some_and(|etching| self.etch(etching, tx, id));
                if is_etched {
                    add(&mut pool, id, stone.etching.unwrap().premine);
                }
                given = deal(&mut pool, &stone, is_etched.then_some(id), tx.outputs());
            }
        }
        if !pool.is_empty() {
            let first = || tx.outputs().iter().position(|output| !is_burned(output.script));
            let to = pointer.map(|at| at as usize).or_else(first);
            match to {
                Some(to) => {
                    given.resize_with(outputs.max(given.len()), Pool::new);
                    pool.into_iter().for_each(|(id, amount)| add(&mut given[to], id, amount));
                }
                None => self.burn_all(pool),
            }
        }
        self.place_all(place == 0, tx, given);
    }

    fn place_all(&mut self, is_coinbase: bool, tx: &Tx, given: Vec<Pool>) {
        if is_coinbase {
            self.coinbase = tx.id();
        }
        let mut given = given.into_iter();
        for (index, output) in tx.outputs().iter().enumerate() {
            let pool = given.next().unwrap_or_default();
            let at = OutPoint { txid: tx.id(), index: index as u32 };
            if is_burned(output.script) {
                self.burn_all(pool);
                self.place_nothing(at, is_coinbase);
            } else if is_coinbase {
                if let Some(held) = Balances::new(&pool) {
                    self.due.insert(index as u32, held);
                }
            } else if let Some(held) = Balances::new(&pool) {
                self.place(at, Some(held));
            } else {
                self.place_nothing(at, false);
            }
        }
    }

    fn place_nothing(&mut self, at: OutPoint, is_coinbase: bool) {
        if !is_coinbase && self.balances.contains_key(&at) {
            self.place(at, None);
        }
    }

    pub fn end(&mut self) {
        for (index, held) in mem::take(&mut self.due) {
            self.place(OutPoint { txid: self.coinbase, index }, Some(held));
        }
    }
}

/// Deals a pool by edicts. What is left stays in the pool.
fn deal(pool: &mut Pool, stone: &Stone, etched: Option<RuneId>, outputs: &[Output]) -> Vec<Pool> {
    let mut given = vec![Pool::new(); outputs.len()];
    for Edict { id, amount, output } in &stone.edicts {
        let id = if *id == (RuneId { block: 0, tx: 0 }) { etched } else { Some(*id) };
        let Some(id) = id else { continue };
        if (*output as usize) < outputs.len() {
            let most = if *amount == 0 { u128::MAX } else { *amount };
            let taken = take(pool, id, most);
            add(&mut given[*output as usize], id, taken);
        } else {
            deal_to_all(pool, id, *amount, outputs, &mut given);
        }
    }
    given
}

fn deal_to_all(pool: &mut Pool, id: RuneId, amount: u128, outputs: &[Output], given: &mut [Pool]) {
    let open = outputs.iter().filter(|output| !is_burned(output.script)).count() as u128;
    let left = pool.iter().find(|held| held.0 == id).map_or(0, |held| held.1);
    if open == 0 || left == 0 {
        return;
    }
    let mut remainder = left % open;
    for (pool_there, _) in given.iter_mut().zip(outputs).filter(|(_, output)| !is_burned(output.script)) {
        let share = if amount > 0 { amount } else { left / open + u128::from(remainder > 0) };
        remainder = remainder.saturating_sub(1);
        let taken = take(pool, id, share);
        add(pool_there, id, taken);
    }
}
