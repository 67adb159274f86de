//! The blocks of a made chain: docs/RULES.md, 'Made blocks'.
use fold_blocks::{Hash, SUBSIDY};
use sha2::{Digest, Sha256};

const HALVING: u32 = 210_000;
const OPEN: &[u8] = &[0x51];
/// Reserved value, and what a coinbase spends.
const ZEROS: Hash = [0; 32];
const COMMITS: &[u8] = &[0x6a, 0x24, 0xaa, 0x21, 0xa9, 0xed];
const ENVELOPE: &[u8] = b"\x00\x63\x03ord\x01\x01\x0atext/plain\x00";
const ETCHES: &[u8] = b"\x6a\x5d\x0a\x02\x03\x06\x64\x08\xc0\x84\x3d\x0a\x07";
const BURNS: &[u8] = b"\x6a\x5d\x06\x14\x01\x14\x01\x7e\x00";
const MINTS: &[u8] = b"\x6a\x5d\x04\x14\x01\x14\x01";

/// What a block stands behind: its height, the hash of the block before, and the id of that one's
/// coinbase.
#[derive(Clone, Copy, Default)]
pub struct Behind {
    pub height: u32,
    tip: Hash,
    paid: Hash,
}

/// A transaction without its witness and with it.
struct Tx {
    bare: Vec<u8>,
    whole: Vec<u8>,
}

fn twice(bytes: &[u8]) -> Hash {
    Sha256::digest(Sha256::digest(bytes)).into()
}

fn parent(left: &Hash, right: &Hash) -> Hash {
    twice(&[*left, *right].concat())
}

/// What a coinbase claims: all that its block mints but for one satoshi.
fn claim(height: u32) -> u64 {
    (SUBSIDY >> (height / HALVING)).saturating_sub(1)
}

/// Bytes of fewer than 253 behind their length.
fn put(into: &mut Vec<u8>, bytes: &[u8]) {
    into.push(bytes.len() as u8);
    into.extend_from_slice(bytes);
}

/// A transaction that spends one output, by a script or by the items of a witness.
fn transaction(
    (txid, index): (&Hash, u32),
    script: &[u8],
    outputs: [(u64, &[u8]); 2],
    items: &[&[u8]],
) -> Tx {
    let mut body = vec![1];
    body.extend_from_slice(txid);
    body.extend_from_slice(&index.to_le_bytes());
    put(&mut body, script);
    body.extend_from_slice(&[0; 4]);
    body.push(outputs.len() as u8);
    for (value, script) in outputs {
        body.extend_from_slice(&value.to_le_bytes());
        put(&mut body, script);
    }
    let mut witness = vec![items.len() as u8];
    items.iter().for_each(|item| put(&mut witness, item));
    let (version, lock_time) = (2u32.to_le_bytes(), [0; 4]);
    Tx {
        bare: [&version[..], &body, &lock_time].concat(),
        whole: [&version[..], &[0, 1], &body, &witness, &lock_time].concat(),
    }
}

fn coinbase(height: u32, commitment: &[u8]) -> Tx {
    let script = [&[4], &height.to_le_bytes()[..]].concat();
    let outputs = [(claim(height), OPEN), (0, commitment)];
    transaction((&ZEROS, u32::MAX), &script, outputs, &[&ZEROS])
}

/// The transaction that spends the coinbase before: it inscribes the height, and etches, burns or
/// mints.
fn spend(height: u32, paid: &Hash) -> Tx {
    let mut tapscript = ENVELOPE.to_vec();
    put(&mut tapscript, height.to_string().as_bytes());
    tapscript.push(0x68);
    let runestone = match height {
        1 => ETCHES,
        _ if height.is_multiple_of(10) => BURNS,
        _ => MINTS,
    };
    let control = [&[0xc0], &ZEROS[..]].concat();
    let outputs = [(claim(height - 1), OPEN), (0, runestone)];
    transaction((paid, 0), &[], outputs, &[&tapscript, &control])
}

fn commitment(root: &Hash) -> Vec<u8> {
    [COMMITS, &parent(root, &ZEROS)].concat()
}

/// The bytes of the block behind that, and what the next one stands behind.
pub fn next(behind: Behind) -> (Vec<u8>, Behind) {
    let Behind { height, tip, paid } = behind;
    let spend = (height > 0).then(|| spend(height, &paid));
    let witnesses = spend.as_ref().map_or(ZEROS, |spend| parent(&ZEROS, &twice(&spend.whole)));
    let coinbase = coinbase(height, &commitment(&witnesses));
    let id = twice(&coinbase.bare);
    let root = spend.as_ref().map_or(id, |spend| parent(&id, &twice(&spend.bare)));
    let mut bytes = [&1u32.to_le_bytes()[..], &tip, &root, &height.to_le_bytes(), &[0; 8]].concat();
    let tip = twice(&bytes);
    bytes.push(1 + spend.is_some() as u8);
    bytes.extend_from_slice(&coinbase.whole);
    if let Some(spend) = &spend {
        bytes.extend_from_slice(&spend.whole);
    }
    (bytes, Behind { height: height + 1, tip, paid: id })
}
