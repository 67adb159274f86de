//! An index before its newest blocks. Each look-up undoes only what it needs.
use crate::store::Store;
use rows::live::Live;
use rows::rows::{Balances, Change, Inscription, OutPoint, Output, Run, Rune};

#[derive(Clone, Copy, PartialEq)]
pub enum Search {
    /// Every undone change is asked.
    Walk,
    /// None is, where the row that stands now is of a block that stands then too.
    Heights,
}

pub struct Past<'s> {
    pub store: &'s Store,
    /// The newest first.
    pub undone: &'s [Change],
    pub blocks: usize,
    pub search: Search,
}

/// Where a satoshi is: at this place of an output, or of those that are lost.
#[derive(Clone, Copy)]
pub enum Place {
    Out(OutPoint, u64),
    Lost(u64),
}

/// What is counted of a rune.
pub struct Counts {
    pub mints: u128,
    pub burned: u128,
}

/// What an outpoint has in a list by rising outpoint.
fn at<'r, T>(rows: &'r [(OutPoint, T)], at: &OutPoint) -> Option<&'r T> {
    let place = rows.binary_search_by(|(other, _)| other.cmp(at)).ok()?;
    Some(&rows[place].1)
}

/// The place of a satoshi among runs.
fn place_in(runs: &[Run], sat: u64) -> Option<u64> {
    let mut before = 0;
    for (first, count) in runs {
        if (*first..first + count).contains(&sat) {
            return Some(before + sat - first);
        }
        before += count;
    }
    None
}

fn place_among(outputs: &[(OutPoint, Output)], sat: u64) -> Option<Place> {
    outputs.iter().find_map(|(at, row)| Some(Place::Out(*at, place_in(row.sats.as_slice(), sat)?)))
}

fn count(runs: &[Run]) -> u64 {
    runs.iter().map(|(_, count)| count).sum()
}

impl<'s> Past<'s> {
    fn live(&self) -> &'s Live {
        &self.store.live
    }

    /// Whether something of this height stood then.
    fn is_old(&self, height: u32) -> bool {
        (height as usize) < self.blocks
    }

    /// The output that stands now, where it stood then.
    fn still(&self, at: &OutPoint) -> Option<&'s Output> {
        self.live().outputs.get(at).filter(|row| self.is_old(row.height))
    }

    /// What stood at an outpoint, by what each change has taken away and put there. The oldest that names it decides.
    fn undo<T>(
        &self,
        outpoint: &OutPoint,
        now: Option<&'s T>,
        lists: impl Fn(&'s Change) -> [&'s [(OutPoint, T)]; 2],
    ) -> Option<&'s T> {
        for change in self.undone.iter().rev() {
            let [gone, came] = lists(change);
            if let Some(row) = at(gone, outpoint) {
                return Some(row);
            }
            if at(came, outpoint).is_some() {
                return None;
            }
        }
        now
    }

    pub fn output(&self, at: &OutPoint) -> Option<&'s Output> {
        if self.search == Search::Heights {
            if let Some(row) = self.still(at) {
                return Some(row);
            }
        }
        self.undo(at, self.live().outputs.get(at), |change| [&change.gone, &change.came])
    }

    pub fn balances(&self, at: &OutPoint) -> &'s [((u64, u32), u128)] {
        let now = self.live().balances.get(at);
        let found: Option<&Balances> = match self.search {
            Search::Heights if self.still(at).is_some() => now,
            _ => self.undo(at, now, |change| [&change.before, &change.after]),
        };
        found.map_or(&[], Vec::as_slice)
    }

    fn place_now(&self, sat: u64) -> Option<Place> {
        let live = self.live();
        if let Some((first, (count, at))) = live.places.range(..=sat).next_back() {
            if sat - first < *count {
                return Some(Place::Out(*at, place_in(live.outputs[at].sats.as_slice(), sat)?));
            }
        }
        place_in(live.lost.as_slice(), sat).map(Place::Lost)
    }

    pub fn place(&self, sat: u64) -> Option<Place> {
        let mut place = self.place_now(sat)?;
        if let (Search::Heights, Place::Out(at, _)) = (self.search, place) {
            if self.still(&at).is_some() {
                return Some(place);
            }
        }
        let mut lost = self.store.lost;
        for change in self.undone {
            lost -= count(change.lost.as_slice());
            let is_new = match place {
                Place::Out(outpoint, _) => at(&change.came, &outpoint).is_some(),
                Place::Lost(offset) => offset >= lost,
            };
            if is_new {
                place = place_among(&change.gone, sat)?;
            }
        }
        Some(place)
    }

    pub fn lost(&self) -> u64 {
        self.store.lost - self.undone.iter().map(|change| count(change.lost.as_slice())).sum::<u64>()
    }

    /// Those of rising numbers whose inscriptions were there.
    pub fn old(&self, numbers: &'s [u32]) -> &'s [u32] {
        let rows = &self.live().inscriptions;
        let end = numbers.iter().rposition(|number| self.is_old(rows[*number as usize].height));
        &numbers[..end.map_or(0, |last| last + 1)]
    }

    pub fn inscription(&self, id: &OutPoint) -> Option<(u32, &'s Inscription)> {
        let number = *self.live().numbers.get(id)?;
        let row = &self.live().inscriptions[number as usize];
        self.is_old(row.height).then_some((number, row))
    }

    pub fn rune(&self, number: usize) -> Option<&'s Rune> {
        let rune = &self.live().runes[number];
        ((rune.id.0 as usize) < self.blocks).then_some(rune)
    }

    /// What was counted of a rune: the oldest change that names it decides.
    pub fn counts(&self, number: usize) -> Counts {
        for change in self.undone.iter().rev() {
            if let Ok(place) = change.counts.binary_search_by_key(&(number as u32), |(rune, _)| *rune) {
                let [mints, _, burned, _] = change.counts[place].1;
                return Counts { mints, burned };
            }
        }
        let Rune { mints, burned, .. } = self.live().runes[number];
        Counts { mints, burned }
    }

    /// The runes that were there, and what was counted of each.
    pub fn counted(&self) -> Vec<(&'s Rune, Counts)> {
        let runes = (0..self.live().runes.len()).map_while(|number| self.rune(number));
        let mut rows: Vec<_> = runes.map(|rune| (rune, Counts { mints: rune.mints, burned: rune.burned })).collect();
        let (mut left, mut is_done) = (rows.len(), vec![false; rows.len()]);
        for change in self.undone.iter().rev() {
            for (rune, [mints, _, burned, _]) in &change.counts {
                let place = *rune as usize;
                if place < rows.len() && !is_done[place] {
                    is_done[place] = true;
                    rows[place].1 = Counts { mints: *mints, burned: *burned };
                    left -= 1;
                }
            }
            if left == 0 {
                break;
            }
        }
        rows
    }
}
