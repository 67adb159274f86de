//! `mark` with ordered maps by id and by parent, as the proved program has them, in place of hash maps.
use crate::{id_of, row_of, BATCH};
use inscriptions::shelf::{Id, Numbers, Row};
use std::collections::btree_map::{BTreeMap, Entry};

#[derive(Default)]
struct Shelf {
    rows: Vec<Row>,
    ids: BTreeMap<Id, u32>,
    sats: BTreeMap<u64, Numbers>,
    parents: BTreeMap<Id, Numbers>,
}

fn push<K: Ord>(map: &mut BTreeMap<K, Numbers>, key: K, number: u32) {
    map.entry(key).and_modify(|held| held.push(number)).or_insert(Numbers::One(number));
}

fn pop<K: Ord>(map: &mut BTreeMap<K, Numbers>, key: K, number: u32) {
    if let Entry::Occupied(mut held) = map.entry(key) {
        if held.get_mut().pop(number) {
            held.remove();
        }
    }
}

impl Shelf {
    fn append_from(&mut self, first: u32) {
        let rows: Vec<Row> = (first..first + BATCH).map(row_of).collect();
        self.rows.reserve(rows.len());
        for row in &rows {
            let number = self.rows.len() as u32;
            self.ids.entry(row.id).or_insert(number);
            row.sat.into_iter().for_each(|sat| push(&mut self.sats, sat, number));
            row.parents.iter().for_each(|parent| push(&mut self.parents, *parent, number));
            self.rows.push(row.clone());
        }
    }

    fn shorten(&mut self, count: usize) {
        while self.rows.len() > count {
            let row = self.rows.pop().unwrap();
            let number = self.rows.len() as u32;
            if self.ids.get(&row.id) == Some(&number) {
                self.ids.remove(&row.id);
            }
            row.sat.into_iter().for_each(|sat| pop(&mut self.sats, sat, number));
            row.parents.iter().for_each(|parent| pop(&mut self.parents, *parent, number));
        }
    }
}

/// Puts a batch of rows behind so many, and takes them away again, so often. How many rows, and the first one's number.
pub fn work(count: u32, times: u32) -> String {
    let mut shelf = Shelf::default();
    for batch in 0..count / BATCH {
        shelf.append_from(batch * BATCH);
    }
    for _ in 0..times {
        shelf.append_from(count);
        shelf.shorten(count as usize);
    }
    format!("{} rows, {}", shelf.rows.len(), shelf.ids.get(&id_of(0)).map_or(0, |_| shelf.rows.len()))
}
