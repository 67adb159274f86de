//! An index and what a block changes in it. Rows hold short scripts and single runs themselves.
use std::collections::BTreeMap;

pub type Hash = [u8; 32];
/// A first satoshi, and how many follow each other from it on.
pub type Run = (u64, u64);
/// The height of an etching's block, and the transaction's place in it.
pub type RuneId = (u64, u32);

/// As many bytes as an output's script mostly has at most.
const SHORT: usize = 36;

#[derive(Clone, Copy, PartialEq, Eq, PartialOrd, Ord, Hash)]
pub struct OutPoint {
    pub txid: Hash,
    pub index: u32,
}

#[derive(Clone, PartialEq)]
pub enum Script {
    Short(u8, [u8; SHORT]),
    Long(Box<[u8]>),
}

impl Script {
    pub fn new(bytes: &[u8]) -> Script {
        if bytes.len() > SHORT {
            return Script::Long(bytes.into());
        }
        let mut held = [0; SHORT];
        held[..bytes.len()].copy_from_slice(bytes);
        Script::Short(bytes.len() as u8, held)
    }

    pub fn as_slice(&self) -> &[u8] {
        match self {
            Script::Short(len, bytes) => &bytes[..*len as usize],
            Script::Long(bytes) => bytes,
        }
    }
}

#[derive(Clone, PartialEq)]
pub enum Runs {
    One(Run),
    Many(Vec<Run>),
}

impl Runs {
    pub fn as_slice(&self) -> &[Run] {
        match self {
            Runs::One(run) => std::slice::from_ref(run),
            Runs::Many(runs) => runs,
        }
    }
}

#[derive(Clone, PartialEq)]
pub struct Output {
    pub script: Script,
    pub height: u32,
    pub sats: Runs,
}

pub type Text = Option<Box<[u8]>>;

#[derive(Clone, PartialEq)]
pub struct Inscription {
    pub id: OutPoint,
    pub height: u32,
    /// Content type, body, metadata, metaprotocol and encoding.
    pub texts: [Text; 5],
    pub delegate: Option<OutPoint>,
    pub pointer: Text,
    pub parents: Vec<OutPoint>,
    pub marks: u16,
    pub sat: Option<u64>,
}

#[derive(Clone, PartialEq)]
pub struct Terms {
    pub amount: Option<u128>,
    pub cap: Option<u128>,
    /// First and closed height, and the same from the etching on.
    pub bounds: [Option<u64>; 4],
}

#[derive(Clone, PartialEq)]
pub struct Rune {
    pub id: RuneId,
    pub name: u128,
    pub spacers: u32,
    pub divisibility: u8,
    pub symbol: Option<char>,
    pub premine: u128,
    pub terms: Option<Terms>,
    pub mints: u128,
    pub burned: u128,
    pub etching: Hash,
}

pub type Balances = Vec<(RuneId, u128)>;

pub struct Index {
    pub hashes: Vec<Hash>,
    pub outputs: BTreeMap<OutPoint, Output>,
    pub lost: Runs,
    pub inscriptions: Vec<Inscription>,
    pub balances: BTreeMap<OutPoint, Balances>,
    pub runes: Vec<Rune>,
}

pub struct Change {
    pub hash: Hash,
    pub gone: Vec<(OutPoint, Output)>,
    pub came: Vec<(OutPoint, Output)>,
    pub lost: Runs,
    pub inscriptions: Vec<Inscription>,
    pub before: Vec<(OutPoint, Balances)>,
    pub after: Vec<(OutPoint, Balances)>,
    /// The place of a rune; its mints before and after, and what was burned before and after.
    pub counts: Vec<(u32, [u128; 4])>,
    pub appended: Vec<Rune>,
}
