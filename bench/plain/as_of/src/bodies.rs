//! What a body says, as structs that `serde_json` writes.
use crate::past::{Counts, Past, Place as Found};
use fold_blocks::{Shown, SUBSIDY};
use query::sat::{Decimal, Degree, Name as SatName, Sat};
use query::text::{self, Hex, Text};
use rows::rows::{Inscription as Row, OutPoint, Run, Rune};
use runes::name::{self, Amount, Name};
use runes::stone::RuneId;
use serde::{Serialize, Serializer};
use std::fmt;

/// The texts of marks, from bit 0 on.
const MARKS: [&str; 8] = ["even", "repeated", "incomplete", "input", "offset", "pointer", "pushnum", "reinscription"];

/// Below this height an inscription with a mark is cursed.
const JUBILEE: u32 = 110;

struct ShownOutPoint(OutPoint);

struct ShownId<'s>(&'s OutPoint);

#[derive(Serialize)]
#[serde(untagged)]
enum Place {
    Out { offset: u64, outpoint: Text<ShownOutPoint> },
    Lost { lost: u64 },
}

#[derive(Serialize)]
pub struct SatBody<'p> {
    decimal: Text<Decimal>,
    degree: Text<Degree>,
    inscriptions: Ids<'p>,
    name: Text<SatName>,
    number: u64,
    place: Option<Place>,
    rarity: &'static str,
}

#[derive(Serialize)]
struct Balance {
    amount: Text<u128>,
    id: Text<RuneId>,
    name: Text<Name>,
    shown: Text<Amount>,
}

#[derive(Serialize)]
pub struct Output<'p> {
    height: u32,
    inscriptions: OnRuns<'p>,
    ranges: Ranges<'p>,
    runes: Balances<'p>,
    script: Text<Hex<'p>>,
    value: u64,
}

#[derive(Serialize)]
pub struct Inscription<'p> {
    children: Ids<'p>,
    content_length: Option<usize>,
    content_type: Option<&'p str>,
    cursed: bool,
    delegate: Option<Text<ShownId<'p>>>,
    encoding: Option<&'p str>,
    height: u32,
    id: Text<ShownId<'p>>,
    marks: Marks,
    metadata: Option<Text<Hex<'p>>>,
    metaprotocol: Option<&'p str>,
    number: i64,
    parents: Parents<'p>,
    place: Option<Place>,
    sat: Option<u64>,
    sequence: u32,
    vindicated: bool,
}

#[derive(Serialize)]
pub struct RuneBody<'p> {
    amount: Option<Text<u128>>,
    burned: Text<u128>,
    cap: Option<Text<u128>>,
    divisibility: u8,
    etching: Text<Shown<'p>>,
    height: Option<[Option<u64>; 2]>,
    held: Text<u128>,
    id: Text<RuneId>,
    mintable: bool,
    mints: Text<u128>,
    name: Text<Name>,
    number: usize,
    offset: Option<[Option<u64>; 2]>,
    premine: Text<u128>,
    symbol: Option<char>,
}

#[derive(Serialize)]
struct RuneAudit {
    burned: Text<u128>,
    held: Text<u128>,
    id: Text<RuneId>,
    minted: Text<u128>,
    premine: Text<u128>,
}

#[derive(Serialize)]
pub struct Audit {
    claimable: u64,
    lost: u64,
    outputs: u64,
    runes: Vec<RuneAudit>,
}

/// The ids of the inscriptions with these numbers.
struct Ids<'p>(&'p Past<'p>, &'p [u32]);

/// The ids of the inscriptions on these satoshis.
struct OnRuns<'p>(&'p Past<'p>, &'p [Run]);

/// Pairs of the first satoshi of a run and the one past the last.
struct Ranges<'p>(&'p [Run]);

struct Balances<'p>(&'p Past<'p>, &'p [((u64, u32), u128)]);

struct Parents<'p>(&'p [OutPoint]);

/// The texts of the bits that are set.
struct Marks(u16);

impl fmt::Display for ShownOutPoint {
    fn fmt(&self, f: &mut fmt::Formatter) -> fmt::Result {
        write!(f, "{}:{}", Shown(&self.0.txid), self.0.index)
    }
}

impl fmt::Display for ShownId<'_> {
    fn fmt(&self, f: &mut fmt::Formatter) -> fmt::Result {
        write!(f, "{}i{}", Shown(&self.0.txid), self.0.index)
    }
}

impl Serialize for Ids<'_> {
    fn serialize<S: Serializer>(&self, serializer: S) -> Result<S::Ok, S::Error> {
        serializer.collect_seq(self.1.iter().map(|number| id_of(self.0, *number)))
    }
}

impl Serialize for OnRuns<'_> {
    fn serialize<S: Serializer>(&self, serializer: S) -> Result<S::Ok, S::Error> {
        let borne = &self.0.store.live.borne;
        let rows = self.1.iter().flat_map(|(first, count)| borne.range(*first..first + count));
        let numbers = rows.flat_map(|(_, numbers)| self.0.old(numbers));
        serializer.collect_seq(numbers.map(|number| id_of(self.0, *number)))
    }
}

impl Serialize for Ranges<'_> {
    fn serialize<S: Serializer>(&self, serializer: S) -> Result<S::Ok, S::Error> {
        serializer.collect_seq(self.0.iter().map(|(first, count)| (first, first + count)))
    }
}

impl Serialize for Balances<'_> {
    fn serialize<S: Serializer>(&self, serializer: S) -> Result<S::Ok, S::Error> {
        serializer.collect_seq(self.1.iter().map(|(id, amount)| balance(self.0, *id, *amount)))
    }
}

impl Serialize for Parents<'_> {
    fn serialize<S: Serializer>(&self, serializer: S) -> Result<S::Ok, S::Error> {
        serializer.collect_seq(self.0.iter().map(|id| Text(ShownId(id))))
    }
}

impl Serialize for Marks {
    fn serialize<S: Serializer>(&self, serializer: S) -> Result<S::Ok, S::Error> {
        let texts = MARKS.iter().enumerate();
        serializer.collect_seq(texts.filter(|(bit, _)| self.0 >> bit & 1 == 1).map(|(_, text)| text))
    }
}

fn id_of<'p>(past: &'p Past, number: u32) -> Text<ShownId<'p>> {
    Text(ShownId(&past.store.live.inscriptions[number as usize].id))
}

fn rune_id((block, tx): (u64, u32)) -> Text<RuneId> {
    Text(RuneId { block, tx })
}

fn name_of(rune: &Rune) -> Text<Name> {
    Text(Name { number: rune.name, spacers: rune.spacers })
}

fn balance(past: &Past, id: (u64, u32), amount: u128) -> Balance {
    let rune = &past.store.live.runes[past.store.live.ids[&id]];
    let shown = Amount { amount, divisibility: rune.divisibility };
    Balance { amount: Text(amount), id: rune_id(id), name: name_of(rune), shown: Text(shown) }
}

fn utf8(bytes: &Option<Box<[u8]>>) -> Option<&str> {
    std::str::from_utf8(bytes.as_deref()?).ok()
}

fn place(past: &Past, sat: u64) -> Option<Place> {
    Some(match past.place(sat)? {
        Found::Out(at, offset) => Place::Out { offset, outpoint: Text(ShownOutPoint(at)) },
        Found::Lost(lost) => Place::Lost { lost },
    })
}

fn is_cursed(row: &Row) -> bool {
    row.marks != 0 && row.height < JUBILEE
}

fn minted(rune: &Rune, counts: &Counts) -> u128 {
    counts.mints * rune.terms.as_ref().and_then(|terms| terms.amount).unwrap_or(0)
}

fn held(rune: &Rune, counts: &Counts) -> u128 {
    rune.premine + minted(rune, counts) - counts.burned
}

/// Whether the next block may mint.
fn is_mintable(past: &Past, rune: &Rune, counts: &Counts) -> bool {
    let Some(terms) = &rune.terms else { return false };
    let [start, end, first, last] = terms.bounds;
    let offset = |offset: Option<u64>| offset.map(|offset| rune.id.0.saturating_add(offset));
    let start = start.max(offset(first)).unwrap_or(0);
    let end = [end, offset(last)].into_iter().flatten().min().unwrap_or(u64::MAX);
    (start..end).contains(&(past.blocks as u64)) && counts.mints < terms.cap.unwrap_or(0)
}

pub fn sat<'p>(past: &'p Past, part: &str) -> Option<SatBody<'p>> {
    let number = text::number(part)?;
    let sat = Sat::new(number)?;
    let on = past.store.live.borne.get(&number).map_or(&[][..], Vec::as_slice);
    Some(SatBody {
        decimal: Text(Decimal(sat)),
        degree: Text(Degree(sat)),
        inscriptions: Ids(past, past.old(on)),
        name: Text(SatName(sat)),
        number,
        place: place(past, number),
        rarity: sat.rarity(),
    })
}

pub fn output<'p>(past: &'p Past, part: &str) -> Option<Output<'p>> {
    let at = text::outpoint(part)?;
    let at = OutPoint { txid: at.txid, index: at.index };
    let row = past.output(&at)?;
    let runs = row.sats.as_slice();
    Some(Output {
        height: row.height,
        inscriptions: OnRuns(past, runs),
        ranges: Ranges(runs),
        runes: Balances(past, past.balances(&at)),
        script: Text(Hex(row.script.as_slice())),
        value: runs.iter().map(|(_, count)| count).sum(),
    })
}

pub fn inscription<'p>(past: &'p Past, part: &str) -> Option<Inscription<'p>> {
    let id = text::inscription_id(part)?;
    let (sequence, row) = past.inscription(&OutPoint { txid: id.txid, index: id.index })?;
    let cursed = is_cursed(row);
    let [content_type, body, metadata, metaprotocol, encoding] = &row.texts;
    let children = past.store.live.children.get(&row.id).map_or(&[][..], Vec::as_slice);
    Some(Inscription {
        children: Ids(past, past.old(children)),
        content_length: body.as_ref().map(|body| body.len()),
        content_type: utf8(content_type),
        cursed,
        delegate: row.delegate.as_ref().map(|id| Text(ShownId(id))),
        encoding: utf8(encoding),
        height: row.height,
        id: Text(ShownId(&row.id)),
        marks: Marks(row.marks),
        metadata: metadata.as_ref().map(|metadata| Text(Hex(metadata))),
        metaprotocol: utf8(metaprotocol),
        number: past.store.numbers[sequence as usize],
        parents: Parents(&row.parents),
        place: row.sat.and_then(|sat| place(past, sat)),
        sat: row.sat,
        sequence,
        vindicated: row.marks != 0 && !cursed,
    })
}

/// The number of each inscription: those that are cursed count downwards from -1.
pub fn numbers(rows: &[Row]) -> Vec<i64> {
    let (mut next, mut next_cursed) = (0, -1);
    let number = |row: &Row| {
        if is_cursed(row) {
            next_cursed -= 1;
            next_cursed + 1
        } else {
            next += 1;
            next - 1
        }
    };
    rows.iter().map(number).collect()
}

fn rune_named(past: &Past, part: &str) -> Option<usize> {
    let live = &past.store.live;
    match text::rune_id(part) {
        Some(id) => live.ids.get(&(id.block, id.tx)).copied(),
        None => live.names.get(&name::read(part)?).copied(),
    }
}

pub fn rune<'p>(past: &'p Past, part: &str) -> Option<RuneBody<'p>> {
    let number = rune_named(past, part)?;
    let rune = past.rune(number)?;
    let counts = past.counts(number);
    let terms = rune.terms.as_ref();
    Some(RuneBody {
        amount: terms.and_then(|terms| terms.amount).map(Text),
        burned: Text(counts.burned),
        cap: terms.and_then(|terms| terms.cap).map(Text),
        divisibility: rune.divisibility,
        etching: Text(Shown(&rune.etching)),
        height: terms.map(|terms| [terms.bounds[0], terms.bounds[1]]),
        held: Text(held(rune, &counts)),
        id: rune_id(rune.id),
        mintable: is_mintable(past, rune, &counts),
        mints: Text(counts.mints),
        name: name_of(rune),
        number,
        offset: terms.map(|terms| [terms.bounds[2], terms.bounds[3]]),
        premine: Text(rune.premine),
        symbol: rune.symbol,
    })
}

fn rune_audit((rune, counts): (&Rune, Counts)) -> RuneAudit {
    RuneAudit {
        burned: Text(counts.burned),
        held: Text(held(rune, &counts)),
        id: rune_id(rune.id),
        minted: Text(minted(rune, &counts)),
        premine: Text(rune.premine),
    }
}

pub fn audit(past: &Past) -> Audit {
    let claimable = past.blocks as u64 * SUBSIDY;
    let lost = past.lost();
    let runes = past.counted().into_iter().map(rune_audit).collect();
    Audit { claimable, lost, outputs: claimable - lost, runes }
}
