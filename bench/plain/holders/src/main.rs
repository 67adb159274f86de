//! Outputs by their scripts in plain Rust, as bench/holders.py times it: an ordered set of scripts with outpoints, or with
//! `map` in front a hash map of ordered sets. The arguments are what is done (`spend` or `ask`), how many scripts there are,
//! and how often it is done.
use std::collections::{BTreeSet, HashMap};
use std::env;

const SPENDS: u32 = 500;

type Script = Box<[u8]>;

#[derive(Clone, Copy, PartialEq, Eq, PartialOrd, Ord)]
struct OutPoint {
    txid: [u8; 32],
    index: u32,
}

const LEAST: OutPoint = OutPoint { txid: [0; 32], index: 0 };

trait Holders: Default {
    fn put(&mut self, script: Script, at: OutPoint);
    fn take(&mut self, script: Script, at: OutPoint);
    fn outputs(&self, script: &[u8]) -> Vec<OutPoint>;
}

#[derive(Default)]
struct Ordered(BTreeSet<(Script, OutPoint)>);

impl Holders for Ordered {
    fn put(&mut self, script: Script, at: OutPoint) {
        self.0.insert((script, at));
    }

    fn take(&mut self, script: Script, at: OutPoint) {
        self.0.remove(&(script, at));
    }

    fn outputs(&self, script: &[u8]) -> Vec<OutPoint> {
        let behind = self.0.range((Script::from(script), LEAST)..);
        behind.take_while(|(other, _)| **other == *script).map(|(_, at)| *at).collect()
    }
}

#[derive(Default)]
struct Hashed(HashMap<Script, BTreeSet<OutPoint>>);

impl Holders for Hashed {
    fn put(&mut self, script: Script, at: OutPoint) {
        self.0.entry(script).or_default().insert(at);
    }

    fn take(&mut self, script: Script, at: OutPoint) {
        if let Some(found) = self.0.get_mut(&script) {
            found.remove(&at);
            if found.is_empty() {
                self.0.remove(&script);
            }
        }
    }

    fn outputs(&self, script: &[u8]) -> Vec<OutPoint> {
        self.0.get(script).map_or_else(Vec::new, |found| found.iter().copied().collect())
    }
}

fn script_of(number: u32) -> [u8; 22] {
    let mut script = [0; 22];
    script[1] = 20;
    script[2..6].copy_from_slice(&number.wrapping_mul(0x9e37_79b1).to_be_bytes());
    script
}

fn outpoint(number: u32, index: u32) -> OutPoint {
    let mut txid = [0; 32];
    txid[..4].copy_from_slice(&number.to_be_bytes());
    OutPoint { txid, index }
}

/// Outputs of this index, of the scripts from this number on.
fn rows_from(first: u32, index: u32) -> Vec<(OutPoint, Script)> {
    (first..first + SPENDS).map(|number| (outpoint(number, index), script_of(number).into())).collect()
}

fn step(holders: &mut impl Holders, gone: Vec<(OutPoint, Script)>, came: Vec<(OutPoint, Script)>) {
    gone.into_iter().for_each(|(at, script)| holders.take(script, at));
    came.into_iter().for_each(|(at, script)| holders.put(script, at));
}

fn spend(holders: &mut impl Holders, count: u32, times: u32) {
    let (mut first, mut index) = (0, 0);
    for _ in 0..times {
        step(holders, rows_from(first, index), rows_from(first, index + 1));
        first += SPENDS;
        if first >= count {
            (first, index) = (0, index + 1);
        }
    }
}

/// How many outputs so many scripts have.
fn ask(holders: &impl Holders, count: u32) -> u64 {
    (0..count).map(|number| holders.outputs(&script_of(number)).len() as u64).sum()
}

fn work<H: Holders>(what: &str, count: u32, times: u32) -> u64 {
    let mut holders = H::default();
    (0..count / SPENDS).for_each(|batch| step(&mut holders, Vec::new(), rows_from(batch * SPENDS, 0)));
    match what {
        "spend" => {
            spend(&mut holders, count, times);
            ask(&holders, SPENDS)
        }
        "ask" => (0..times).map(|_| ask(&holders, count)).last().unwrap_or(0),
        _ => panic!("spend or ask"),
    }
}

fn main() {
    let mut words: Vec<String> = env::args().skip(1).collect();
    let is_map = words.first().is_some_and(|word| word == "map");
    if is_map {
        words.remove(0);
    }
    let numbers: Vec<u32> = words[1..].iter().map(|word| word.parse().unwrap()).collect();
    let (count, times) = (numbers[0], numbers[1]);
    let does = if is_map { work::<Hashed> } else { work::<Ordered> };
    println!("{count} scripts, {}", does(&words[0], count, times));
}
