//! The inscriptions, with maps by id, by satoshi and by parent.
use std::collections::hash_map::{Entry, HashMap};
use std::collections::{btree_map, BTreeMap, VecDeque};
use std::hash;

#[derive(Clone, Copy, Default, PartialEq, Eq, PartialOrd, Ord, Hash)]
pub struct Id {
    pub txid: [u8; 32],
    pub index: u32,
}

#[derive(Clone, Default)]
pub struct Row {
    pub id: Id,
    pub height: u32,
    pub content_type: Option<Box<[u8]>>,
    pub body: Option<Box<[u8]>>,
    pub metadata: Option<Box<[u8]>>,
    pub metaprotocol: Option<Box<[u8]>>,
    pub encoding: Option<Box<[u8]>>,
    pub pointer: Option<Box<[u8]>>,
    pub delegate: Option<Id>,
    pub parents: Vec<Id>,
    pub marks: u16,
    pub sat: Option<u64>,
    /// How many rows before it are cursed, once it is on the shelf.
    pub cursed_before: u32,
}

/// Rising numbers, of which one takes no memory of its own.
pub enum Numbers {
    One(u32),
    Many(Vec<u32>),
}

impl Numbers {
    pub fn as_slice(&self) -> &[u32] {
        match self {
            Numbers::One(number) => std::slice::from_ref(number),
            Numbers::Many(numbers) => numbers,
        }
    }

    pub fn push(&mut self, number: u32) {
        match self {
            Numbers::One(first) if *first != number => *self = Numbers::Many(vec![*first, number]),
            Numbers::Many(numbers) if numbers.last() != Some(&number) => numbers.push(number),
            _ => (),
        }
    }

    /// Takes a number away if it is the last, and answers whether none is left.
    pub fn pop(&mut self, number: u32) -> bool {
        match self {
            Numbers::One(only) => *only == number,
            Numbers::Many(numbers) => {
                if numbers.last() == Some(&number) {
                    numbers.pop();
                }
                numbers.is_empty()
            }
        }
    }
}

#[derive(Default)]
pub struct Shelf {
    pub rows: Vec<Row>,
    /// Marked rows below this height are cursed.
    jubilee: u32,
    ids: HashMap<Id, u32>,
    sats: BTreeMap<u64, Numbers>,
    parents: HashMap<Id, Numbers>,
    mark: usize,
    /// How many rows there were before each block that is kept, the newest first.
    kept: VecDeque<usize>,
}

fn pop_hashed<K: Eq + hash::Hash>(map: &mut HashMap<K, Numbers>, key: K, number: u32) {
    if let Entry::Occupied(mut held) = map.entry(key) {
        if held.get_mut().pop(number) {
            held.remove();
        }
    }
}

impl Shelf {
    pub fn new(jubilee: u32) -> Shelf {
        Shelf { jubilee, ..Shelf::default() }
    }

    pub fn is_cursed(&self, row: &Row) -> bool {
        row.height < self.jubilee && row.marks != 0
    }

    /// The signed number of a row.
    pub fn number(&self, sequence: u32) -> i64 {
        let row = &self.rows[sequence as usize];
        match self.is_cursed(row) {
            true => -1 - i64::from(row.cursed_before),
            false => i64::from(sequence - row.cursed_before),
        }
    }

    pub fn push(&mut self, mut row: Row) {
        let number = self.rows.len() as u32;
        row.cursed_before = self.rows.last().map_or(0, |last| last.cursed_before + u32::from(self.is_cursed(last)));
        self.ids.entry(row.id).or_insert(number);
        if let Some(sat) = row.sat {
            self.sats.entry(sat).and_modify(|held| held.push(number)).or_insert(Numbers::One(number));
        }
        for parent in &row.parents {
            self.parents.entry(*parent).and_modify(|held| held.push(number)).or_insert(Numbers::One(number));
        }
        self.rows.push(row);
    }

    /// Takes the last row away.
    pub fn pop(&mut self) {
        let row = self.rows.pop().unwrap();
        let number = self.rows.len() as u32;
        if self.ids.get(&row.id) == Some(&number) {
            self.ids.remove(&row.id);
        }
        if let Some(btree_map::Entry::Occupied(mut held)) = row.sat.map(|sat| self.sats.entry(sat)) {
            if held.get_mut().pop(number) {
                held.remove();
            }
        }
        for parent in row.parents {
            pop_hashed(&mut self.parents, parent, number);
        }
    }

    pub fn begin(&mut self) {
        self.mark = self.rows.len();
    }

    /// Goes back to where the block began.
    pub fn cancel(&mut self) {
        while self.rows.len() > self.mark {
            self.pop();
        }
    }

    /// Keeps where the block began, and so many blocks at most.
    pub fn keep(&mut self, depth: usize) {
        self.kept.truncate(depth.saturating_sub(1));
        if depth > 0 {
            self.kept.push_front(self.mark);
        }
    }

    /// Takes back the newest block, if it is kept.
    pub fn disconnect(&mut self) -> Option<()> {
        self.mark = self.kept.pop_front()?;
        self.cancel();
        Some(())
    }

    /// The rows of the newest block, if it is kept.
    pub fn newest(&self) -> &[Row] {
        self.kept.front().map_or(&[], |first| &self.rows[*first..])
    }

    pub fn find(&self, id: &Id) -> Option<u32> {
        self.ids.get(id).copied()
    }

    pub fn on(&self, sat: u64) -> &[u32] {
        self.sats.get(&sat).map_or(&[], Numbers::as_slice)
    }

    /// The first satoshi from one on that bears some, and these.
    pub fn next_on(&self, sat: u64) -> Option<(u64, &[u32])> {
        self.sats.range(sat..).next().map(|(sat, numbers)| (*sat, numbers.as_slice()))
    }

    /// Those on the satoshis from one on, before another.
    pub fn on_between(&self, first: u64, end: u64) -> impl Iterator<Item = u32> + '_ {
        self.sats.range(first..end).flat_map(|(_, numbers)| numbers.as_slice().iter().copied())
    }

    pub fn children(&self, number: u32) -> &[u32] {
        self.parents.get(&self.rows[number as usize].id).map_or(&[], Numbers::as_slice)
    }
}
