//! The index at a change's other end, made in place. Where a change has no end in the index the answer is `false`, and
//! the index is to be dropped.
use rows::rows::{Balances, Change, Index, OutPoint, Run, Runs};
use std::collections::BTreeMap;

/// Takes these rows out of a table, in which they have to stand so, and puts others in, of which none may stand.
fn swap<V: PartialEq + Clone>(
    table: &mut BTreeMap<OutPoint, V>,
    gone: &[(OutPoint, V)],
    came: &[(OutPoint, V)],
) -> bool {
    gone.iter().all(|(at, row)| table.remove(at).as_ref() == Some(row))
        && came.iter().all(|(at, row)| table.insert(*at, row.clone()).is_none())
}

/// The same for balances.
fn swap_balances(index: &mut Index, gone: &[(OutPoint, Balances)], came: &[(OutPoint, Balances)]) -> bool {
    swap(&mut index.balances, gone, came)
}

/// Puts items behind others, or takes them from there, where they have to stand.
fn behind<T: PartialEq + Clone>(items: &mut Vec<T>, more: &[T], back: bool) -> bool {
    if !back {
        items.extend_from_slice(more);
        return true;
    }
    let is_there = items.ends_with(more);
    items.truncate(items.len() - if is_there { more.len() } else { 0 });
    is_there
}

fn put_run(runs: &mut Vec<Run>, run: Run) {
    match runs.last_mut() {
        Some(last) if last.0 + last.1 == run.0 => last.1 += run.1,
        _ => runs.push(run),
    }
}

/// Takes a run from the end.
fn take_run(runs: &mut Vec<Run>, run: Run) -> bool {
    let Some(last) = runs.pop() else { return false };
    let fits = last.0 + last.1 == run.0 + run.1 && last.1 >= run.1;
    if fits && last.1 > run.1 {
        runs.push((last.0, last.1 - run.1));
    }
    fits
}

fn step_lost(lost: &mut Runs, runs: &[Run], back: bool) -> bool {
    if runs.is_empty() {
        return true;
    }
    let mut all = lost.as_slice().to_vec();
    let fits = match back {
        true => runs.iter().rev().all(|run| take_run(&mut all, *run)),
        false => {
            runs.iter().for_each(|run| put_run(&mut all, *run));
            true
        }
    };
    *lost = Runs::Many(all);
    fits
}

fn step_counts(index: &mut Index, counts: &[(u32, [u128; 4])], back: bool) -> bool {
    counts.iter().all(|(place, [mints, minted, burned, burnt])| {
        let Some(row) = index.runes.get_mut(*place as usize) else { return false };
        let (here, there) = match back {
            true => ((*minted, *burnt), (*mints, *burned)),
            false => ((*mints, *burned), (*minted, *burnt)),
        };
        let fits = (row.mints, row.burned) == here;
        (row.mints, row.burned) = there;
        fits
    })
}

/// Goes to the change's other end.
pub fn step(index: &mut Index, change: &Change, back: bool) -> bool {
    let (gone, came) = if back { (&change.came, &change.gone) } else { (&change.gone, &change.came) };
    let (before, after) = if back { (&change.after, &change.before) } else { (&change.before, &change.after) };
    behind(&mut index.hashes, std::slice::from_ref(&change.hash), back)
        && swap(&mut index.outputs, gone, came)
        && step_lost(&mut index.lost, change.lost.as_slice(), back)
        && behind(&mut index.inscriptions, &change.inscriptions, back)
        && swap_balances(index, before, after)
        && step_counts(index, &change.counts, back)
        && behind(&mut index.runes, &change.appended, back)
}
