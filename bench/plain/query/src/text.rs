//! How hashes, ids and bytes are read from a path and written into a body.
use fold_blocks::{Hash, OutPoint, Shown};
use inscriptions::shelf::Id;
use runes::stone::RuneId;
use serde::{Serialize, Serializer};
use std::fmt;

/// A text, written into the body as it is shown.
pub struct Text<T>(pub T);

impl<T: fmt::Display> Serialize for Text<T> {
    fn serialize<S: Serializer>(&self, serializer: S) -> Result<S::Ok, S::Error> {
        serializer.collect_str(&self.0)
    }
}

/// An inscription's id.
pub struct ShownId<'i>(pub &'i Id);

impl fmt::Display for ShownId<'_> {
    fn fmt(&self, f: &mut fmt::Formatter) -> fmt::Result {
        write!(f, "{}i{}", Shown(&self.0.txid), self.0.index)
    }
}

/// Bytes in hexadecimal digits.
pub struct Hex<'b>(pub &'b [u8]);

impl fmt::Display for Hex<'_> {
    fn fmt(&self, f: &mut fmt::Formatter) -> fmt::Result {
        let mut digits = [0; 128];
        for part in self.0.chunks(64) {
            let digits = &mut digits[..2 * part.len()];
            hex::encode_to_slice(part, digits).map_err(|_| fmt::Error)?;
            f.write_str(std::str::from_utf8(digits).map_err(|_| fmt::Error)?)?;
        }
        Ok(())
    }
}

pub fn number(text: &str) -> Option<u64> {
    let is_plain = text.bytes().all(|c| c.is_ascii_digit()) && (text == "0" || !text.starts_with('0'));
    text.parse().ok().filter(|_| is_plain)
}

fn short_number(text: &str) -> Option<u32> {
    u32::try_from(number(text)?).ok()
}

/// A hash as it is printed, whose digits are small letters.
pub fn hash(digits: &str) -> Option<Hash> {
    let mut hash = [0; 32];
    hex::decode_to_slice(digits, &mut hash).ok()?;
    hash.reverse();
    digits.bytes().all(|digit| !digit.is_ascii_uppercase()).then_some(hash)
}

pub fn outpoint(text: &str) -> Option<OutPoint> {
    let (txid, index) = text.split_once(':')?;
    Some(OutPoint { txid: hash(txid)?, index: short_number(index)? })
}

pub fn inscription_id(text: &str) -> Option<Id> {
    let (txid, index) = text.split_once('i')?;
    Some(Id { txid: hash(txid)?, index: short_number(index)? })
}

pub fn rune_id(text: &str) -> Option<RuneId> {
    let (block, tx) = text.split_once(':')?;
    Some(RuneId { block: number(block)?, tx: short_number(tx)? })
}
