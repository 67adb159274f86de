//! Envelopes in a tapscript, and what they say.
use crate::shelf::{Id, Row};
use std::collections::HashSet;

enum Item<'s> {
    Push(&'s [u8]),
    Opcode(u8),
}

/// The next item; `Err` where a push is cut.
fn next<'s>(script: &mut &'s [u8]) -> Result<Option<Item<'s>>, ()> {
    let Some((&opcode, rest)) = script.split_first() else { return Ok(None) };
    let (length, rest) = match opcode {
        0..=0x4b => (opcode as usize, rest),
        0x4c..=0x4e => {
            let (head, rest) = rest.split_at_checked(1 << (opcode - 0x4c)).ok_or(())?;
            (head.iter().rev().fold(0, |length, byte| length << 8 | *byte as usize), rest)
        }
        _ => {
            *script = rest;
            return Ok(Some(Item::Opcode(opcode)));
        }
    };
    let (push, rest) = rest.split_at_checked(length).ok_or(())?;
    *script = rest;
    Ok(Some(Item::Push(push)))
}

/// The pushes of an envelope, and whether one is by an opcode.
#[derive(Default)]
pub struct Pushes<'s> {
    items: Vec<&'s [u8]>,
    has_number: bool,
}

const NUMBERS: [u8; 17] = [0x81, 1, 2, 3, 4, 5, 6, 7, 8, 9, 10, 11, 12, 13, 14, 15, 16];

fn number_pushed(opcode: u8) -> Option<&'static [u8]> {
    let at = match opcode {
        0x4f => 0,
        0x51..=0x60 => opcode as usize - 0x50,
        _ => return None,
    };
    Some(&NUMBERS[at..=at])
}

fn read<'s>(script: &mut &'s [u8]) -> Result<Option<Pushes<'s>>, ()> {
    let mut pushes = Pushes::default();
    while let Some(item) = next(script)? {
        match item {
            Item::Push(push) => pushes.items.push(push),
            Item::Opcode(opcode) => match number_pushed(opcode) {
                Some(number) => {
                    pushes.items.push(number);
                    pushes.has_number = true;
                }
                None => return Ok((opcode == 0x68).then_some(pushes)),
            },
        }
    }
    Ok(None)
}

/// The envelopes of a script; none where it ends in a push that is cut.
pub fn find(script: &[u8]) -> Vec<Pushes<'_>> {
    let (mut rest, mut found, mut opened) = (script, Vec::new(), 0);
    loop {
        match next(&mut rest) {
            Err(()) => return Vec::new(),
            Ok(None) => return found,
            Ok(Some(Item::Push([]))) => opened = 1,
            Ok(Some(Item::Opcode(0x63))) if opened == 1 => opened = 2,
            Ok(Some(Item::Push(b"ord"))) if opened == 2 => {
                opened = 0;
                match read(&mut rest) {
                    Err(()) => return Vec::new(),
                    Ok(envelope) => found.extend(envelope),
                }
            }
            Ok(Some(_)) => opened = 0,
        }
    }
}

/// A number of any length, the lowest byte first, that has 64 bits.
pub fn number(bytes: &[u8]) -> Option<u64> {
    let (low, high) = bytes.split_at(bytes.len().min(8));
    high.iter().all(|byte| *byte == 0).then(|| low.iter().rev().fold(0, |number, byte| number << 8 | u64::from(*byte)))
}

fn id(value: &[u8]) -> Option<Id> {
    let (txid, index) = value.split_first_chunk()?;
    if index.len() > 4 || (index.len() < 4 && index.last() == Some(&0)) {
        return None;
    }
    Some(Id { txid: *txid, index: number(index)? as u32 })
}

const UNKNOWN_EVEN: u16 = 1;
const REPEAT: u16 = 2;
const INCOMPLETE: u16 = 4;
const POINTER: u16 = 32;
const NUMBER: u16 = 64;

/// The tags of an envelope.
#[derive(Default)]
struct Tags<'s> {
    short: [u64; 4],
    long: HashSet<&'s [u8]>,
}

impl<'s> Tags<'s> {
    /// Whether a tag is a new one.
    fn insert(&mut self, tag: &'s [u8]) -> bool {
        let [byte] = tag else { return self.long.insert(tag) };
        let (word, bit) = (&mut self.short[usize::from(byte >> 6)], 1 << (byte & 63));
        let is_new = *word & bit == 0;
        *word |= bit;
        is_new
    }
}

/// What an envelope says, as a row that isn't on a satoshi yet and names its parents.
pub fn parse(pushes: &Pushes) -> Row {
    let items = &pushes.items;
    let body = (0..items.len()).step_by(2).find(|at| items[*at].is_empty());
    let fields = items[..body.unwrap_or(items.len())].chunks(2);
    let mut says = Row { body: body.map(|at| items[at + 1..].concat().into()), ..Row::default() };
    let (mut known, mut metadata) = (Tags::default(), None::<Vec<u8>>);
    for field in fields {
        let [tag, value] = *field else {
            says.marks |= INCOMPLETE;
            break;
        };
        let is_new = known.insert(tag);
        says.marks |= if is_new || matches!(tag, [3 | 5]) { 0 } else { REPEAT };
        let value_once = || is_new.then(|| Box::from(value));
        match tag {
            [1] => says.content_type = says.content_type.or_else(value_once),
            [2] => {
                says.marks |= POINTER | if is_new { 0 } else { UNKNOWN_EVEN };
                says.pointer = says.pointer.or_else(value_once);
            }
            [3] => says.parents.extend(id(value)),
            [5] => metadata.get_or_insert_default().extend(value),
            [7] => says.metaprotocol = says.metaprotocol.or_else(value_once),
            [9] => says.encoding = says.encoding.or_else(value_once),
            [11] if is_new => says.delegate = id(value),
            [11] => (),
            [first, ..] => says.marks |= u16::from(first % 2 == 0) * UNKNOWN_EVEN,
            [] => (),
        }
    }
    says.metadata = metadata.map(Into::into);
    says.marks |= u16::from(pushes.has_number) * NUMBER;
    says
}
