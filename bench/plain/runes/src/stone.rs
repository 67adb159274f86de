//! Runestones: what an output's script says.
use std::collections::HashMap;
use std::fmt;

#[derive(Clone, Copy, PartialEq, Eq, Hash, PartialOrd, Ord, Debug)]
pub struct RuneId {
    pub block: u64,
    pub tx: u32,
}

#[derive(Clone, Copy, Default)]
pub struct Terms {
    pub amount: Option<u128>,
    pub cap: Option<u128>,
    pub height: (Option<u64>, Option<u64>),
    pub offset: (Option<u64>, Option<u64>),
}

#[derive(Clone, Copy, Default)]
pub struct Etching {
    pub divisibility: u8,
    pub spacers: u32,
    pub symbol: Option<char>,
    pub name: Option<u128>,
    pub premine: u128,
    pub terms: Option<Terms>,
}

pub struct Edict {
    pub id: RuneId,
    pub amount: u128,
    pub output: u32,
}

pub struct Stone {
    pub etching: Option<Etching>,
    pub mint: Option<RuneId>,
    pub pointer: Option<u32>,
    pub edicts: Vec<Edict>,
    pub is_cenotaph: bool,
}

const CENOTAPH: Stone = Stone { etching: None, mint: None, pointer: None, edicts: Vec::new(), is_cenotaph: true };

impl fmt::Display for RuneId {
    fn fmt(&self, f: &mut fmt::Formatter) -> fmt::Result {
        write!(f, "{}:{}", self.block, self.tx)
    }
}

/// A script's items: a push or an opcode. The last is `None` where a push is cut.
pub enum Item<'s> {
    Push(&'s [u8]),
    Opcode,
}

pub struct Items<'s>(pub &'s [u8]);

impl<'s> Items<'s> {
    fn push(&mut self, length: usize) -> Option<Option<Item<'s>>> {
        let Some((push, rest)) = self.0.split_at_checked(length) else {
            self.0 = &[];
            return Some(None);
        };
        self.0 = rest;
        Some(Some(Item::Push(push)))
    }
}

impl<'s> Iterator for Items<'s> {
    type Item = Option<Item<'s>>;

    fn next(&mut self) -> Option<Option<Item<'s>>> {
        let (&opcode, rest) = self.0.split_first()?;
        self.0 = rest;
        let width = match opcode {
            0..=0x4b => return self.push(opcode as usize),
            0x4c => 1,
            0x4d => 2,
            0x4e => 4,
            _ => return Some(Some(Item::Opcode)),
        };
        let Some((head, rest)) = rest.split_at_checked(width) else {
            self.0 = &[];
            return Some(None);
        };
        self.0 = rest;
        self.push(head.iter().rev().fold(0, |length, byte| length << 8 | *byte as usize))
    }
}

/// The integers of a payload, if each is one.
fn integers(payload: &[u8]) -> Option<Vec<u128>> {
    let mut found = Vec::new();
    let (mut number, mut shift) = (0u128, 0);
    for &byte in payload {
        if shift == 126 && byte > 3 {
            return None;
        }
        number |= u128::from(byte & 127) << shift;
        shift += 7;
        if byte < 128 {
            found.push(number);
            (number, shift) = (0, 0);
        }
    }
    (shift == 0).then_some(found)
}

fn is_valid(id: RuneId) -> bool {
    id.block > 0 || id.tx == 0
}

fn id_after(id: RuneId, block: u128, tx: u128) -> Option<RuneId> {
    let (block, tx) = (u64::try_from(block).ok()?, u32::try_from(tx).ok()?);
    let next = if block == 0 {
        RuneId { block: id.block, tx: id.tx.checked_add(tx)? }
    } else {
        RuneId { block: id.block.checked_add(block)?, tx }
    };
    is_valid(next).then_some(next)
}

/// Values by tag. What is taken is gone.
struct Fields(HashMap<u128, Vec<u128>>);

impl Fields {
    fn take<T>(&mut self, tag: u128, read: impl Fn(u128) -> Option<T>) -> Option<T> {
        let value = read(*self.0.get(&tag)?.first()?)?;
        self.drop_first(tag, 1);
        Some(value)
    }

    fn take_id(&mut self, tag: u128) -> Option<RuneId> {
        let [block, tx, ..] = self.0.get(&tag)?.as_slice() else { return None };
        let id = RuneId { block: u64::try_from(*block).ok()?, tx: u32::try_from(*tx).ok()? };
        is_valid(id).then_some(())?;
        self.drop_first(tag, 2);
        Some(id)
    }

    fn drop_first(&mut self, tag: u128, count: usize) {
        let values = self.0.get_mut(&tag).unwrap();
        values.drain(..count);
        if values.is_empty() {
            self.0.remove(&tag);
        }
    }
}

fn terms_of(fields: &mut Fields) -> Terms {
    let wide = |value: u128| u64::try_from(value).ok();
    Terms {
        cap: fields.take(8, Some),
        amount: fields.take(10, Some),
        height: (fields.take(12, wide), fields.take(14, wide)),
        offset: (fields.take(16, wide), fields.take(18, wide)),
    }
}

fn etching_of(fields: &mut Fields, has_terms: bool) -> Etching {
    Etching {
        divisibility: fields.take(1, |value| (value <= 38).then_some(value as u8)).unwrap_or(0),
        spacers: fields.take(3, |value| (value < 1 << 27).then_some(value as u32)).unwrap_or(0),
        symbol: fields.take(5, |value| char::from_u32(u32::try_from(value).ok()?)),
        name: fields.take(4, Some),
        premine: fields.take(6, Some).unwrap_or(0),
        terms: has_terms.then(|| terms_of(fields)),
    }
}

fn supply_fits(etching: &Etching) -> bool {
    let terms = etching.terms.unwrap_or_default();
    let minted = terms.cap.unwrap_or(0).checked_mul(terms.amount.unwrap_or(0));
    minted.and_then(|minted| minted.checked_add(etching.premine)).is_some()
}

/// The edicts behind the tag 0, if they are ones.
fn edicts_of(integers: &[u128], outputs: u32) -> Option<Vec<Edict>> {
    let mut id = RuneId { block: 0, tx: 0 };
    let mut edicts = Vec::with_capacity(integers.len() / 4);
    for four in integers.chunks(4) {
        let &[block, tx, amount, output] = four else { return None };
        id = id_after(id, block, tx)?;
        let output = u32::try_from(output).ok().filter(|output| *output <= outputs)?;
        edicts.push(Edict { id, amount, output });
    }
    Some(edicts)
}

fn stone_of(integers: &[u128], outputs: u32) -> Stone {
    let mut fields = Fields(HashMap::new());
    let (mut rest, mut edicts, mut is_cenotaph) = (integers, Some(Vec::new()), false);
    while let Some((&tag, behind)) = rest.split_first() {
        if tag == 0 {
            edicts = edicts_of(behind, outputs);
            break;
        }
        let Some((&value, behind)) = behind.split_first() else {
            is_cenotaph = true;
            break;
        };
        fields.0.entry(tag).or_default().push(value);
        rest = behind;
    }
    let flags = fields.take(2, Some).unwrap_or(0);
    let etching = (flags & 1 == 1).then(|| etching_of(&mut fields, flags & 2 == 2));
    let left = if flags & 1 == 1 { flags & !7 } else { flags };
    let mint = fields.take_id(20);
    let pointer = fields.take(22, |value| u32::try_from(value).ok().filter(|output| *output < outputs));
    is_cenotaph |= left != 0 || edicts.is_none() || fields.0.keys().any(|tag| tag % 2 == 0);
    is_cenotaph |= etching.as_ref().is_some_and(|etching| !supply_fits(etching));
    Stone { etching, mint, pointer, edicts: edicts.unwrap_or_default(), is_cenotaph }
}

/// The runestone that a script is, for a transaction of so many outputs.
pub fn decipher(script: &[u8], outputs: u32) -> Option<Stone> {
    let body = script.strip_prefix(&[0x6a, 0x5d])?;
    let mut payload = Vec::new();
    for item in Items(body) {
        match item {
            Some(Item::Push(push)) => payload.extend_from_slice(push),
            _ => return Some(CENOTAPH),
        }
    }
    Some(integers(&payload).map_or(CENOTAPH, |integers| stone_of(&integers, outputs)))
}
