//! What a transaction reveals.
use crate::envelope;
use crate::shelf::{Id, Row, Shelf};
use std::collections::HashSet;

/// A run of satoshis: the first, and how many.
pub type Run = (u64, u64);

const IS_UNBOUND: u16 = 1;
const LATER_INPUT: u16 = 8;
const LATER_ENVELOPE: u16 = 16;
const BORE_ONE: u16 = 128;

/// A transaction: the runs of its inputs, joined, and how many satoshis its outputs take.
pub struct Spend<'a> {
    pub txid: [u8; 32],
    pub height: u32,
    pub sats: &'a [Run],
    pub taken: u64,
}

/// So many runs at most are looked at one by one.
const FEW: usize = 8;

/// Joined satoshis, found by their place and by their number.
enum Joined<'a> {
    Few(&'a [Run]),
    Many {
        /// The place of each run's first satoshi, and the run.
        places: Vec<(u64, u64)>,
        /// The runs by their first number, with the greatest end so far.
        numbers: Vec<(u64, u64)>,
    },
}

impl Joined<'_> {
    fn new(sats: &[Run]) -> Joined<'_> {
        if sats.len() <= FEW {
            return Joined::Few(sats);
        }
        let (mut places, mut before) = (Vec::with_capacity(sats.len()), 0);
        for (first, count) in sats {
            places.push((before, *first));
            before += count;
        }
        let mut numbers: Vec<(u64, u64)> = sats.iter().map(|(first, count)| (*first, first + count)).collect();
        numbers.sort_unstable();
        let mut greatest = 0;
        for (_, end) in &mut numbers {
            greatest = greatest.max(*end);
            *end = greatest;
        }
        Joined::Many { places, numbers }
    }

    /// The satoshi at a place that is there.
    fn get(&self, mut place: u64) -> u64 {
        match self {
            Joined::Few(runs) => {
                for (first, count) in *runs {
                    if place < *count {
                        return first + place;
                    }
                    place -= count;
                }
                unreachable!("a place past the end")
            }
            Joined::Many { places, .. } => {
                let (before, first) = places[places.partition_point(|(before, _)| *before <= place) - 1];
                first + place - before
            }
        }
    }

    fn contains(&self, sat: u64) -> bool {
        match self {
            Joined::Few(runs) => runs.iter().any(|(first, count)| (*first..first + count).contains(&sat)),
            Joined::Many { numbers, .. } => {
                let below = numbers.partition_point(|(first, _)| *first <= sat);
                below > 0 && sat < numbers[below - 1].1
            }
        }
    }
}

/// Leaves of the parents that a row names those that are there and on these satoshis, each once.
fn keep_parents(shelf: &Shelf, joined: &Joined, row: &mut Row) {
    if row.parents.is_empty() {
        return;
    }
    let mut met = HashSet::new();
    row.parents.retain(|id| {
        let sat = || shelf.rows[shelf.find(id)? as usize].sat;
        met.insert(*id) && sat().is_some_and(|sat| joined.contains(sat))
    });
}

/// Puts what a transaction reveals behind the rows of a shelf, but for rows whose satoshi goes to the fees, which come
/// late. Of each input it is told how many satoshis it brings, and its tapscript. It answers how many rows there are.
pub fn reveal<'s>(
    shelf: &mut Shelf,
    late: &mut Vec<Row>,
    spend: &Spend,
    inputs: impl Iterator<Item = (u64, Option<&'s [u8]>)>,
) -> u32 {
    let (mut joined, mut kept, mut born) = (None, Vec::new(), HashSet::new());
    let (mut before, mut index) = (0, 0);
    for (place, (brought, script)) in inputs.enumerate() {
        for (at, pushes) in script.map(envelope::find).unwrap_or_default().iter().enumerate() {
            let joined = joined.get_or_insert_with(|| Joined::new(spend.sats));
            let mut row = envelope::parse(pushes);
            row.id = Id { txid: spend.txid, index };
            row.height = spend.height;
            index += 1;
            keep_parents(shelf, joined, &mut row);
            row.marks |= if place > 0 { LATER_INPUT } else { 0 } | if at > 0 { LATER_ENVELOPE } else { 0 };
            let mut is_late = false;
            if row.marks & IS_UNBOUND == 0 && brought > 0 {
                let point = row.pointer.as_deref().and_then(envelope::number).filter(|point| *point < spend.taken);
                let point = point.unwrap_or(before);
                let sat = joined.get(point);
                is_late = spend.taken <= point;
                let bore_one = !shelf.on(sat).is_empty() || !born.insert(sat);
                row.marks |= if bore_one { BORE_ONE } else { 0 };
                row.sat = Some(sat);
            }
            if is_late { late.push(row) } else { kept.push(row) }
        }
        before += brought;
    }
    kept.into_iter().for_each(|row| shelf.push(row));
    index
}
