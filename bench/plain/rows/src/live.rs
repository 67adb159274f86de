//! An index in memory, with the tables by which it is asked and connects blocks, made from one that was read.
use crate::rows::{Balances, Hash, Index, Inscription, OutPoint, Output, Rune, RuneId, Runs};
use std::collections::{BTreeMap, HashMap};

/// Nothing here asks most of these tables: what is timed is how they are made.
#[allow(dead_code)]
pub struct Live {
    pub hashes: Vec<Hash>,
    pub outputs: HashMap<OutPoint, Output>,
    /// Of each run its first satoshi, how many it has, and the output that holds it.
    pub places: BTreeMap<u64, (u64, OutPoint)>,
    pub lost: Runs,
    pub inscriptions: Vec<Inscription>,
    pub numbers: HashMap<OutPoint, u32>,
    pub borne: BTreeMap<u64, Vec<u32>>,
    pub children: HashMap<OutPoint, Vec<u32>>,
    pub balances: HashMap<OutPoint, Balances>,
    pub runes: Vec<Rune>,
    pub ids: HashMap<RuneId, usize>,
    pub names: HashMap<u128, usize>,
}

impl Live {
    pub fn of(index: Index) -> Live {
        let mut places = BTreeMap::new();
        let mut outputs = HashMap::new();
        for (at, row) in index.outputs {
            places.extend(row.sats.as_slice().iter().map(|run| (run.0, (run.1, at))));
            outputs.insert(at, row);
        }
        let (mut numbers, mut borne, mut children) = (HashMap::new(), BTreeMap::new(), HashMap::new());
        for (row, number) in index.inscriptions.iter().zip(0..) {
            numbers.entry(row.id).or_insert(number);
            if let Some(sat) = row.sat {
                borne.entry(sat).or_insert_with(Vec::new).push(number);
            }
            for parent in &row.parents {
                children.entry(*parent).or_insert_with(Vec::new).push(number);
            }
        }
        Live {
            hashes: index.hashes,
            outputs,
            places,
            lost: index.lost,
            inscriptions: index.inscriptions,
            numbers,
            borne,
            children,
            balances: index.balances.into_iter().collect(),
            ids: index.runes.iter().enumerate().map(|(place, row)| (row.id, place)).collect(),
            names: index.runes.iter().enumerate().map(|(place, row)| (row.name, place)).collect(),
            runes: index.runes,
        }
    }
}
