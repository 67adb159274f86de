//! Whether an index of regtest is sound, told as crates/ox_sound tells it: all of it, at the cost of its rows and runs.
use crate::rows::{Index, OutPoint, Rune, RuneId, Run, Runs};
use std::collections::{HashMap, HashSet};

pub const HALVING: u64 = 210_000;
pub const SUBSIDY: u64 = 5_000_000_000;
pub const LAST_HEIGHT: usize = 4_000_000_000;
/// The least name that is kept for etchings without one.
const RESERVED: u128 = 6_402_364_363_415_443_603_228_541_259_936_211_926;

/// The first satoshi of a height.
pub fn first(height: u64) -> u64 {
    let whole = (0..(height / HALVING).min(33)).map(|halvings| (SUBSIDY >> halvings) * HALVING).sum::<u64>();
    whole + (height % HALVING) * SUBSIDY.checked_shr((height / HALVING) as u32).unwrap_or(0)
}

/// Whether the runs of all places tile the satoshis below this one.
fn are_sats_sound(index: &Index, end: u64) -> bool {
    let lists = index.outputs.values().map(|row| &row.sats).chain([&index.lost]);
    let mut runs: Vec<Run> = lists.flat_map(Runs::as_slice).copied().collect();
    runs.sort_unstable_by_key(|run| run.0);
    let last = runs.iter().try_fold(0, |next, run| (run.0 == next).then_some(next + run.1));
    last == Some(end)
}

pub fn cap_and_amount(row: &Rune) -> (u128, u128) {
    row.terms.as_ref().map_or((0, 0), |terms| (terms.cap.unwrap_or(0), terms.amount.unwrap_or(0)))
}

/// Whether the numbers of a rune of one of so many blocks are within their bounds.
pub fn is_etched(row: &Rune, blocks: u64) -> bool {
    let (cap, amount) = cap_and_amount(row);
    let supply = cap.checked_mul(amount).and_then(|minted| minted.checked_add(row.premine));
    let place = (u128::from(row.id.0) << 32) + u128::from(row.id.1);
    row.id.0 < blocks
        && row.divisibility <= 38
        && row.spacers < 1 << 27
        && (row.name < RESERVED || row.name == RESERVED + place)
        && supply.is_some()
        && row.mints <= cap
}

/// Adds what an output holds. `false` where that isn't proper, or a sum passes 128 bits.
pub fn add(sums: &mut HashMap<RuneId, u128>, balances: &[(RuneId, u128)]) -> bool {
    let rise = balances.windows(2).all(|pair| pair[0].0 < pair[1].0);
    rise && !balances.is_empty()
        && balances.iter().all(|(id, amount)| match sums.get_mut(id) {
            Some(sum) if *amount > 0 => sum.checked_add(*amount).map(|more| *sum = more).is_some(),
            _ => false,
        })
}

fn are_runes_sound(index: &Index) -> bool {
    let blocks = index.hashes.len() as u64;
    let names: HashSet<u128> = index.runes.iter().map(|row| row.name).collect();
    let mut sums: HashMap<RuneId, u128> = index.runes.iter().map(|row| (row.id, row.burned)).collect();
    let stands = |at: &OutPoint| index.outputs.contains_key(at);
    let made = |row: &Rune| row.premine + row.mints * cap_and_amount(row).1;
    names.len() == index.runes.len()
        && sums.len() == index.runes.len()
        && index.runes.iter().all(|row| is_etched(row, blocks))
        && index.balances.iter().all(|(at, balances)| stands(at) && add(&mut sums, balances))
        && index.runes.iter().all(|row| sums[&row.id] == made(row))
}

pub fn is_sound(index: &Index) -> bool {
    let blocks = index.hashes.len();
    let end = first(blocks as u64);
    let stands = |height: u32| (height as usize) < blocks;
    let is_revealed = |sat: Option<u64>| sat.map_or(true, |sat| sat < end);
    blocks <= LAST_HEIGHT + 1
        && index.outputs.values().all(|row| stands(row.height))
        && index.inscriptions.iter().all(|row| stands(row.height) && is_revealed(row.sat))
        && are_sats_sound(index, end)
        && are_runes_sound(index)
}
