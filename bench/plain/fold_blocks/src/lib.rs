//! The work of an index in plain Rust, written for speed: blocks, read, hashed, linked, and their satoshis moved, over a
//! hash map whose rows hold short scripts and single runs themselves. Where it is asked to, it keeps an ordered map of
//! runs beside, by which a satoshi is found, and what the newest blocks changed, so that they can be taken back. It stops
//! at the first block that `ox` would refuse.
pub mod feed;

use sha2::{Digest, Sha256};
use std::collections::hash_map::Entry;
use std::collections::{BTreeMap, HashMap, VecDeque};
use std::fmt;
use std::mem;
use std::ops::Range;

pub type Hash = [u8; 32];
pub type Run = (u64, u64);

pub const SUBSIDY: u64 = 5_000_000_000;
/// As many bytes as an output's script mostly has at most.
const SHORT: usize = 36;
/// A script that commits to witnesses begins so, and has so many bytes at least.
const COMMITMENT: &[u8] = &[0x6a, 0x24, 0xaa, 0x21, 0xa9, 0xed];
const COMMITMENT_SIZE: usize = 38;

#[derive(Clone)]
pub enum Script {
    Short(u8, [u8; SHORT]),
    Long(Box<[u8]>),
}

impl Script {
    fn new(bytes: &[u8]) -> Script {
        if bytes.len() > SHORT {
            return Script::Long(bytes.into());
        }
        let mut held = [0; SHORT];
        held[..bytes.len()].copy_from_slice(bytes);
        Script::Short(bytes.len() as u8, held)
    }

    pub fn as_slice(&self) -> &[u8] {
        match self {
            Script::Short(len, bytes) => &bytes[..*len as usize],
            Script::Long(bytes) => bytes,
        }
    }
}

/// Runs of satoshis, each its first number and how many.
#[derive(Clone)]
pub enum Runs {
    One(Run),
    Many(Box<[Run]>),
}

impl Runs {
    fn new(runs: &[Run]) -> Runs {
        match runs {
            [run] => Runs::One(*run),
            _ => Runs::Many(runs.into()),
        }
    }

    pub fn as_slice(&self) -> &[Run] {
        match self {
            Runs::One(run) => std::slice::from_ref(run),
            Runs::Many(runs) => runs,
        }
    }
}

#[derive(Clone)]
pub struct Row {
    pub script: Script,
    pub height: u32,
    pub sats: Runs,
}

#[derive(Clone, Copy, PartialEq, Eq, PartialOrd, Ord, Hash)]
pub struct OutPoint {
    pub txid: Hash,
    pub index: u32,
}

pub struct Output<'a> {
    pub value: u64,
    pub script: &'a [u8],
}

/// A transaction's id, and where its inputs and outputs stand among those of its block. Where it has witnesses, its bytes
/// stand there in the block's.
pub struct Tx {
    pub id: Hash,
    pub marked: Option<Range<usize>>,
    pub inputs: Range<usize>,
    pub outputs: Range<usize>,
}

#[derive(Default)]
pub struct Block<'a> {
    pub txs: Vec<Tx>,
    pub inputs: Vec<OutPoint>,
    pub outputs: Vec<Output<'a>>,
    /// The items of all witnesses, and where those of each input stand among them.
    pub items: Vec<&'a [u8]>,
    pub stacks: Vec<Range<usize>>,
}

/// Runs of satoshis by their first number: how many each has, the output that holds it, and its place there.
#[derive(Default)]
pub struct Locator(BTreeMap<u64, (u64, OutPoint, u64)>);

impl Locator {
    pub fn add(&mut self, at: OutPoint, row: &Row) {
        let mut place = 0;
        for &(first, count) in row.sats.as_slice() {
            self.0.insert(first, (count, at, place));
            place += count;
        }
    }

    fn remove(&mut self, row: &Row) {
        for (first, _) in row.sats.as_slice() {
            self.0.remove(first);
        }
    }

    /// The output that holds a satoshi, and its place there.
    pub fn find(&self, sat: u64) -> Option<(OutPoint, u64)> {
        let (first, (count, at, place)) = self.0.range(..=sat).next_back()?;
        (sat - first < *count).then_some((*at, place + (sat - first)))
    }
}

/// What a block changed: the rows that are gone and those that came, and the satoshis that it lost.
#[derive(Default)]
pub struct Change {
    pub gone: Vec<(OutPoint, Row)>,
    pub came: Vec<(OutPoint, Row)>,
    pub lost: Vec<Run>,
}

#[derive(Default)]
pub struct Index {
    pub hashes: Vec<Hash>,
    pub outputs: HashMap<OutPoint, Row>,
    lost: Vec<Run>,
    pub locator: Option<Locator>,
    /// So many changes are kept at most.
    depth: usize,
    /// The newest first.
    changes: VecDeque<Change>,
    /// What the block now taken in has made, and what it took or displaced, and lost.
    made: Vec<OutPoint>,
    taken: Vec<(OutPoint, Row)>,
    new_lost: Vec<Run>,
}

/// A hash as it is printed.
pub struct Shown<'h>(pub &'h Hash);

impl fmt::Display for Shown<'_> {
    fn fmt(&self, f: &mut fmt::Formatter) -> fmt::Result {
        let mut digits = [0; 64];
        for (pair, byte) in digits.chunks_exact_mut(2).zip(self.0.iter().rev()) {
            pair[0] = b"0123456789abcdef"[usize::from(byte >> 4)];
            pair[1] = b"0123456789abcdef"[usize::from(byte & 15)];
        }
        f.write_str(std::str::from_utf8(&digits).unwrap())
    }
}

impl fmt::Display for OutPoint {
    fn fmt(&self, f: &mut fmt::Formatter) -> fmt::Result {
        write!(f, "{}:{}", Shown(&self.txid), self.index)
    }
}

/// The script of a witness by which a taproot output may be spent.
pub fn tapscript<'b>(witness: &[&'b [u8]]) -> Option<&'b [u8]> {
    let kept = match witness {
        [front @ .., annex] if !front.is_empty() && annex.first() == Some(&0x50) => front,
        all => all,
    };
    match kept {
        [.., script, _] => Some(script),
        _ => None,
    }
}

fn twice(bytes: &[u8]) -> Hash {
    Sha256::digest(Sha256::digest(bytes)).into()
}

struct Reader<'a> {
    bytes: &'a [u8],
    at: usize,
}

impl<'a> Reader<'a> {
    fn take(&mut self, n: usize) -> Option<&'a [u8]> {
        let taken = self.bytes.get(self.at..self.at.checked_add(n)?)?;
        self.at += n;
        Some(taken)
    }

    fn u32(&mut self) -> Option<u32> {
        Some(u32::from_le_bytes(self.take(4)?.try_into().ok()?))
    }

    fn u64(&mut self) -> Option<u64> {
        Some(u64::from_le_bytes(self.take(8)?.try_into().ok()?))
    }

    fn size(&mut self) -> Option<usize> {
        let n = match self.take(1)?[0] {
            253 => u16::from_le_bytes(self.take(2)?.try_into().ok()?) as usize,
            254 => self.u32()? as usize,
            255 => self.u64()? as usize,
            n => n as usize,
        };
        Some(n)
    }

    fn string(&mut self) -> Option<&'a [u8]> {
        let n = self.size()?;
        self.take(n)
    }

    fn tx(&mut self, block: &mut Block<'a>) -> Option<()> {
        let start = self.at;
        let (inputs, outputs) = (block.inputs.len(), block.outputs.len());
        self.u32()?;
        let is_marked = self.bytes.get(self.at) == Some(&0);
        if is_marked {
            self.take(2)?;
        }
        let body = self.at;
        for _ in 0..self.size()? {
            block.inputs.push(OutPoint { txid: self.take(32)?.try_into().ok()?, index: self.u32()? });
            self.string()?;
            self.u32()?;
        }
        for _ in 0..self.size()? {
            block.outputs.push(Output { value: self.u64()?, script: self.string()? });
        }
        let end = self.at;
        for _ in inputs..block.inputs.len() {
            let first = block.items.len();
            for _ in 0..if is_marked { self.size()? } else { 0 } {
                block.items.push(self.string()?);
            }
            block.stacks.push(first..block.items.len());
        }
        self.u32()?;
        let id = if is_marked {
            let mut hasher = Sha256::new_with_prefix(&self.bytes[start..start + 4]);
            hasher.update(&self.bytes[body..end]);
            hasher.update(&self.bytes[self.at - 4..self.at]);
            Sha256::digest(hasher.finalize()).into()
        } else {
            twice(&self.bytes[start..self.at])
        };
        block.txs.push(Tx {
            id,
            marked: is_marked.then_some(start..self.at),
            inputs: inputs..block.inputs.len(),
            outputs: outputs..block.outputs.len(),
        });
        Some(())
    }
}

impl<'a> Block<'a> {
    pub fn read(bytes: &'a [u8]) -> Option<Block<'a>> {
        let mut reader = Reader { bytes, at: 80 };
        let mut block = Block::default();
        for _ in 0..reader.size()? {
            reader.tx(&mut block)?;
        }
        (reader.at == bytes.len()).then_some(block)
    }

    /// Whether the block of these bytes commits to its witnesses as it has to.
    fn is_committed(&self, bytes: &[u8]) -> bool {
        let coinbase = &self.txs[0];
        let scripts = self.outputs[coinbase.outputs.clone()].iter().map(|output| output.script);
        let mut commits = scripts.filter(|script| script.len() >= COMMITMENT_SIZE && script.starts_with(COMMITMENT));
        let Some(script) = commits.next_back() else {
            return self.txs.iter().all(|tx| tx.marked.is_none());
        };
        let [reserved] = self.witness(coinbase.inputs.start) else {
            return false;
        };
        if coinbase.inputs.len() != 1 || reserved.len() != 32 {
            return false;
        }
        let whole = |tx: &Tx| tx.marked.clone().map_or(tx.id, |place| twice(&bytes[place]));
        let root = root(std::iter::once([0; 32]).chain(self.txs[1..].iter().map(whole)).collect());
        script[COMMITMENT.len()..COMMITMENT_SIZE] == twice(&[&root[..], reserved].concat())
    }

    /// The items of the witness of an input, by its place among all inputs.
    pub fn witness(&self, input: usize) -> &[&'a [u8]] {
        &self.items[self.stacks[input].clone()]
    }
}

fn root(mut row: Vec<Hash>) -> Hash {
    while row.len() > 1 {
        if row.len() % 2 == 1 {
            row.push(*row.last().unwrap());
        }
        for pair in 0..row.len() / 2 {
            row[pair] = twice(row[2 * pair..2 * pair + 2].as_flattened());
        }
        row.truncate(row.len() / 2);
    }
    row[0]
}

/// Puts runs behind others.
fn join(runs: &mut Vec<Run>, more: &[Run]) {
    for &(first, count) in more {
        match runs.last_mut() {
            Some(last) if last.0 + last.1 == first => last.1 += count,
            _ => runs.push((first, count)),
        }
    }
}

impl Index {
    /// No blocks, with or without a locator, and of which so many can be taken back.
    pub fn new(has_locator: bool, depth: usize) -> Index {
        Index { locator: has_locator.then(Locator::default), depth, ..Index::default() }
    }

    /// How many satoshis are lost.
    pub fn lost(&self) -> u64 {
        self.lost.iter().map(|(_, count)| count).sum()
    }

    /// Those, in the order in which they were lost.
    pub fn lost_runs(&self) -> &[Run] {
        &self.lost
    }

    /// What the newest block changed, if it can be taken back.
    pub fn newest_change(&self) -> Option<&Change> {
        self.changes.front()
    }

    fn take(&mut self, at: &OutPoint) -> Option<Row> {
        let row = self.outputs.remove(at)?;
        if let Some(locator) = &mut self.locator {
            locator.remove(&row);
        }
        Some(row)
    }

    fn put(&mut self, at: OutPoint, row: Row) -> Option<Row> {
        let Some(locator) = &mut self.locator else {
            return self.outputs.insert(at, row);
        };
        match self.outputs.entry(at) {
            Entry::Vacant(place) => {
                locator.add(at, &row);
                place.insert(row);
                None
            }
            Entry::Occupied(mut place) => {
                locator.remove(place.get());
                locator.add(at, &row);
                Some(place.insert(row))
            }
        }
    }

    /// Deals satoshis to the outputs of a transaction, each as many as its value says, and leaves what is left over.
    fn deal(&mut self, sats: &mut Vec<Run>, part: &mut Vec<Run>, id: Hash, outputs: &[Output]) -> Option<()> {
        let height = self.hashes.len() as u32;
        let mut at = 0;
        for (index, output) in outputs.iter().enumerate() {
            part.clear();
            let mut wanted = output.value;
            while wanted > 0 {
                let (first, count) = sats.get_mut(at)?;
                let taken = wanted.min(*count);
                part.push((*first, taken));
                *first += taken;
                *count -= taken;
                wanted -= taken;
                at += (*count == 0) as usize;
            }
            let row = Row { script: Script::new(output.script), height, sats: Runs::new(part) };
            let point = OutPoint { txid: id, index: index as u32 };
            let displaced = self.put(point, row);
            if self.depth > 0 {
                self.made.push(point);
            }
            if let Some(displaced) = displaced {
                join(&mut self.new_lost, displaced.sats.as_slice());
                self.note(point, displaced);
            }
        }
        sats.drain(..at);
        Some(())
    }

    /// Keeps a row that the block took or displaced, if blocks can be taken back.
    fn note(&mut self, at: OutPoint, row: Row) {
        // a row of this height wasn't there before the block
        if self.depth > 0 && (row.height as usize) < self.hashes.len() {
            self.taken.push((at, row));
        }
    }

    /// Moves a block's satoshis.
    pub fn transfer(&mut self, block: &Block) -> Option<()> {
        self.transfer_seen(block, |_, _, _| ())
    }

    /// Moves a block's satoshis, and shows of each transaction but the first its place, how many each of its inputs
    /// brings, and these, before they are dealt to its outputs.
    pub fn transfer_seen(&mut self, block: &Block, mut see: impl FnMut(usize, &[u64], &[Run])) -> Option<()> {
        let (mut fees, mut sats, mut part) = (Vec::new(), Vec::new(), Vec::new());
        let mut brought = Vec::new();
        for (place, tx) in block.txs.iter().enumerate().skip(1) {
            sats.clear();
            brought.clear();
            for input in &block.inputs[tx.inputs.clone()] {
                let row = self.take(input)?;
                join(&mut sats, row.sats.as_slice());
                brought.push(row.sats.as_slice().iter().map(|(_, count)| count).sum());
                self.note(*input, row);
            }
            see(place, &brought, &sats);
            self.deal(&mut sats, &mut part, tx.id, &block.outputs[tx.outputs.clone()])?;
            join(&mut fees, &sats);
        }
        // Below the first halving.
        sats.clear();
        sats.push((self.hashes.len() as u64 * SUBSIDY, SUBSIDY));
        join(&mut sats, &fees);
        let coinbase = &block.txs[0];
        self.deal(&mut sats, &mut part, coinbase.id, &block.outputs[coinbase.outputs.clone()])?;
        join(&mut self.new_lost, &sats);
        self.keep();
        Some(())
    }

    /// Notes the lost satoshis of a block, and keeps what it changed.
    fn keep(&mut self) {
        join(&mut self.lost, &self.new_lost);
        if self.depth == 0 {
            self.new_lost.clear();
            return;
        }
        let height = self.hashes.len() as u32;
        let (made, outputs) = (self.made.drain(..), &self.outputs);
        let came = made.filter_map(|at| Some((at, outputs.get(&at).filter(|row| row.height == height)?.clone())));
        let came = came.collect();
        self.changes.truncate(self.depth - 1);
        self.changes.push_front(Change { gone: mem::take(&mut self.taken), came, lost: mem::take(&mut self.new_lost) });
    }

    /// Takes back the newest block.
    pub fn disconnect(&mut self) -> Option<()> {
        let Change { gone, came, lost } = self.changes.pop_front()?;
        for (at, _) in &came {
            self.take(at);
        }
        for (at, row) in gone {
            self.put(at, row);
        }
        let mut left: u64 = lost.iter().map(|(_, count)| count).sum();
        while left > 0 {
            let (_, count) = self.lost.last_mut()?;
            let taken = left.min(*count);
            *count -= taken;
            left -= taken;
            if *count == 0 {
                self.lost.pop();
            }
        }
        self.hashes.pop();
        Some(())
    }

    /// Takes in the next block, and answers its hash.
    pub fn connect(&mut self, bytes: &[u8]) -> Option<Hash> {
        self.connect_seen(bytes, |_, _, _, _| ())?;
        self.hashes.last().copied()
    }

    /// The same, and shows of each transaction but the first what `transfer_seen` does. Answers the block.
    pub fn connect_seen<'b>(
        &mut self,
        bytes: &'b [u8],
        mut see: impl FnMut(&Block, usize, &[u64], &[Run]),
    ) -> Option<Block<'b>> {
        let block = Block::read(bytes)?;
        let tip = self.hashes.last().copied().unwrap_or_default();
        if bytes[4..36] != tip || bytes[36..68] != root(block.txs.iter().map(|tx| tx.id).collect()) {
            return None;
        }
        if !block.is_committed(bytes) {
            return None;
        }
        self.transfer_seen(&block, |place, brought, sats| see(&block, place, brought, sats))?;
        self.hashes.push(twice(&bytes[..80]));
        Some(block)
    }
}
