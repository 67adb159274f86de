//! Rules under which a change that begins in a sound index of regtest leaves one: they look at the change, and into the
//! index by keys.
use rows::rows::{Balances, Change, Index, OutPoint, Output, Rune, RuneId, Run};
use rows::sound::{cap_and_amount, first, is_etched, LAST_HEIGHT};
use std::collections::{HashMap, HashSet};

fn sorted(runs: impl Iterator<Item = Run>) -> Vec<Run> {
    let mut runs: Vec<Run> = runs.collect();
    runs.sort_unstable();
    let mut joined: Vec<Run> = Vec::with_capacity(runs.len());
    for run in runs {
        match joined.last_mut() {
            Some(last) if last.0 + last.1 == run.0 => last.1 += run.1,
            _ => joined.push(run),
        }
    }
    joined
}

fn runs_of(rows: &[(OutPoint, Output)]) -> impl Iterator<Item = Run> + '_ {
    rows.iter().flat_map(|(_, row)| row.sats.as_slice()).copied()
}

/// Whether the satoshis that come and are lost are those that are gone and the new height's.
fn do_sats_keep(height: u64, change: &Change) -> bool {
    let (from, to) = (first(height), first(height + 1));
    let new = (to > from).then_some((from, to - from));
    sorted(runs_of(&change.came).chain(change.lost.as_slice().iter().copied()))
        == sorted(runs_of(&change.gone).chain(new))
}

/// Whether balances come at outputs that stand after, and at outputs that go nothing is left.
fn are_balances_placed(before: &Index, change: &Change) -> bool {
    let is_in = |rows: &[(OutPoint, Output)], at: &OutPoint| rows.binary_search_by_key(at, |row| row.0).is_ok();
    let ends = |at: &OutPoint| change.before.binary_search_by_key(at, |row| row.0).is_ok();
    let stands = |at| is_in(&change.came, at) || (before.outputs.contains_key(at) && !is_in(&change.gone, at));
    change.after.iter().all(|(at, _)| stands(at))
        && change.gone.iter().all(|(at, _)| !before.balances.contains_key(at) || ends(at))
}

fn are_new(before: &Index, appended: &[Rune]) -> bool {
    if appended.is_empty() {
        return true;
    }
    let blocks = before.hashes.len() as u64 + 1;
    let mut ids: HashSet<RuneId> = before.runes.iter().map(|row| row.id).collect();
    let mut names: HashSet<u128> = before.runes.iter().map(|row| row.name).collect();
    appended.iter().all(|row| is_etched(row, blocks) && ids.insert(row.id) && names.insert(row.name))
}

/// What is there of each rune that a change names: at the left what it gives, at the right what it takes.
fn add(sums: &mut HashMap<RuneId, [u128; 2]>, id: RuneId, side: usize, amount: u128) -> bool {
    let sum = &mut sums.entry(id).or_default()[side];
    sum.checked_add(amount).map(|more| *sum = more).is_some()
}

fn add_all(sums: &mut HashMap<RuneId, [u128; 2]>, rows: &[(OutPoint, Balances)], side: usize) -> bool {
    rows.iter().flat_map(|row| &row.1).all(|(id, amount)| add(sums, *id, side, *amount))
}

fn do_amounts_keep(before: &Index, change: &Change) -> bool {
    let mut sums = HashMap::new();
    let is_added = add_all(&mut sums, &change.after, 0)
        && add_all(&mut sums, &change.before, 1)
        && change.counts.iter().all(|(place, [mints, minted, burned, burnt])| {
            let Some(row) = before.runes.get(*place as usize) else { return false };
            let (cap, amount) = cap_and_amount(row);
            let given = minted.checked_sub(*mints).and_then(|more| more.checked_mul(amount));
            *minted <= cap
                && given.map_or(false, |given| add(&mut sums, row.id, 1, given))
                && add(&mut sums, row.id, 0, *burnt)
                && add(&mut sums, row.id, 1, *burned)
        })
        && change.appended.iter().all(|row| {
            add(&mut sums, row.id, 0, row.burned)
                && add(&mut sums, row.id, 1, row.premine + row.mints * cap_and_amount(row).1)
        });
    is_added && sums.values().all(|[gives, takes]| gives == takes)
}

pub fn keeps(before: &Index, change: &Change) -> bool {
    let height = before.hashes.len() as u64;
    let end = first(height + 1);
    let is_revealed = |sat: Option<u64>| sat.map_or(true, |sat| sat < end);
    before.hashes.len() <= LAST_HEIGHT
        && change.came.iter().all(|(_, row)| u64::from(row.height) <= height)
        && change.inscriptions.iter().all(|row| u64::from(row.height) <= height && is_revealed(row.sat))
        && do_sats_keep(height, change)
        && are_balances_placed(before, change)
        && are_new(before, &change.appended)
        && do_amounts_keep(before, change)
}
