//! What a body says, as structs that `serde_json` writes.
use crate::sat::{Decimal, Degree, Name as SatName, Sat};
use crate::text::{Hex, ShownId, Text};
use fold_blocks::{Hash, OutPoint, Row as OutRow, Run, Shown};
use index::Whole;
use inscriptions::shelf::{Id, Row};
use runes::ledger::Rune;
use runes::name::{Amount, Name};
use runes::stone::{RuneId, Terms};
use serde::{Serialize, Serializer};

/// As many entries as a page has.
const PAGE: usize = 100;

/// The texts of marks, from bit 0 on.
const MARKS: [&str; 8] = ["even", "repeated", "incomplete", "input", "offset", "pointer", "pushnum", "reinscription"];

#[derive(Serialize)]
pub struct Error {
    pub error: u16,
}

#[derive(Serialize)]
pub struct Status<'w> {
    blocks: usize,
    depth: u16,
    kept: u16,
    profile: &'static str,
    tip: Option<Text<Shown<'w>>>,
}

#[derive(Serialize)]
pub struct BlockHash<'w> {
    hash: Text<Shown<'w>>,
    height: u64,
}

#[derive(Serialize)]
struct Place {
    offset: u64,
    outpoint: Text<OutPoint>,
}

#[derive(Serialize)]
pub struct SatBody<'w> {
    decimal: Text<Decimal>,
    degree: Text<Degree>,
    inscriptions: Ids<'w>,
    name: Text<SatName>,
    number: u64,
    place: Option<Place>,
    rarity: &'static str,
}

#[derive(Serialize)]
struct Balance {
    amount: Text<u128>,
    id: Text<RuneId>,
    name: Text<Name>,
    shown: Text<Amount>,
}

#[derive(Serialize)]
pub struct Output<'w> {
    height: u32,
    inscriptions: OnRuns<'w>,
    ranges: Ranges<'w>,
    runes: Balances<'w>,
    script: Text<Hex<'w>>,
    value: u64,
}

#[derive(Serialize)]
pub struct Inscription<'w> {
    children: Ids<'w>,
    content_length: Option<usize>,
    content_type: Option<&'w str>,
    cursed: bool,
    delegate: Option<Text<ShownId<'w>>>,
    encoding: Option<&'w str>,
    height: u32,
    id: Text<ShownId<'w>>,
    marks: Marks,
    metadata: Option<Text<Hex<'w>>>,
    metaprotocol: Option<&'w str>,
    number: i64,
    parents: Parents<'w>,
    place: Option<Place>,
    sat: Option<u64>,
    sequence: u32,
    vindicated: bool,
}

#[derive(Serialize)]
pub struct Page<I: Serialize> {
    ids: I,
    more: bool,
    page: u64,
}

#[derive(Serialize)]
pub struct RuneBody<'w> {
    amount: Option<Text<u128>>,
    burned: Text<u128>,
    cap: Option<Text<u128>>,
    divisibility: u8,
    etching: Text<Shown<'w>>,
    height: Option<(Option<u64>, Option<u64>)>,
    held: Text<u128>,
    id: Text<RuneId>,
    mintable: bool,
    mints: Text<u128>,
    name: Text<Name>,
    number: usize,
    offset: Option<(Option<u64>, Option<u64>)>,
    premine: Text<u128>,
    symbol: Option<char>,
}

#[derive(Serialize)]
struct RuneAudit {
    burned: Text<u128>,
    held: Text<u128>,
    id: Text<RuneId>,
    minted: Text<u128>,
    premine: Text<u128>,
}

#[derive(Serialize)]
pub struct Audit<'w> {
    claimable: u64,
    lost: u64,
    outputs: u64,
    runes: Audits<'w>,
}

/// The ids of the inscriptions with these numbers.
struct Ids<'w>(&'w Whole, &'w [u32]);

impl Serialize for Ids<'_> {
    fn serialize<S: Serializer>(&self, serializer: S) -> Result<S::Ok, S::Error> {
        serializer.collect_seq(self.1.iter().map(|number| id_of(self.0, *number)))
    }
}

/// The ids of the inscriptions on these satoshis.
struct OnRuns<'w>(&'w Whole, &'w [Run]);

impl Serialize for OnRuns<'_> {
    fn serialize<S: Serializer>(&self, serializer: S) -> Result<S::Ok, S::Error> {
        let shelf = &self.0.shelf;
        let numbers = self.1.iter().flat_map(|(first, count)| shelf.on_between(*first, first + count));
        serializer.collect_seq(numbers.map(|number| id_of(self.0, number)))
    }
}

/// Pairs of the first satoshi of a run and the one past the last.
struct Ranges<'w>(&'w [Run]);

impl Serialize for Ranges<'_> {
    fn serialize<S: Serializer>(&self, serializer: S) -> Result<S::Ok, S::Error> {
        serializer.collect_seq(self.0.iter().map(|(first, count)| (first, first + count)))
    }
}

struct Balances<'w>(&'w Whole, &'w [(RuneId, u128)]);

impl Serialize for Balances<'_> {
    fn serialize<S: Serializer>(&self, serializer: S) -> Result<S::Ok, S::Error> {
        serializer.collect_seq(self.1.iter().filter_map(|(id, amount)| balance(self.0, *id, *amount)))
    }
}

struct Parents<'w>(&'w [Id]);

impl Serialize for Parents<'_> {
    fn serialize<S: Serializer>(&self, serializer: S) -> Result<S::Ok, S::Error> {
        serializer.collect_seq(self.0.iter().map(|id| Text(ShownId(id))))
    }
}

/// The texts of the bits that are set.
struct Marks(u16);

impl Serialize for Marks {
    fn serialize<S: Serializer>(&self, serializer: S) -> Result<S::Ok, S::Error> {
        let texts = MARKS.iter().enumerate();
        serializer.collect_seq(texts.filter(|(bit, _)| self.0 >> bit & 1 == 1).map(|(_, text)| text))
    }
}

/// The ids of rows.
struct RowIds<'w>(&'w [Row]);

impl Serialize for RowIds<'_> {
    fn serialize<S: Serializer>(&self, serializer: S) -> Result<S::Ok, S::Error> {
        serializer.collect_seq(self.0.iter().map(|row| Text(ShownId(&row.id))))
    }
}

struct RuneIds<'w>(&'w [Rune]);

impl Serialize for RuneIds<'_> {
    fn serialize<S: Serializer>(&self, serializer: S) -> Result<S::Ok, S::Error> {
        serializer.collect_seq(self.0.iter().map(|rune| Text(rune.id)))
    }
}

struct Audits<'w>(&'w [Rune]);

impl Serialize for Audits<'_> {
    fn serialize<S: Serializer>(&self, serializer: S) -> Result<S::Ok, S::Error> {
        serializer.collect_seq(self.0.iter().map(|rune| RuneAudit {
            burned: Text(rune.burned),
            held: Text(rune.held()),
            id: Text(rune.id),
            minted: Text(rune.all_minted()),
            premine: Text(rune.etching.premine),
        }))
    }
}

fn id_of(whole: &Whole, number: u32) -> Text<ShownId<'_>> {
    Text(ShownId(&whole.shelf.rows[number as usize].id))
}

fn name_of(rune: &Rune) -> Text<Name> {
    Text(Name { number: rune.name, spacers: rune.etching.spacers })
}

fn balance(whole: &Whole, id: RuneId, amount: u128) -> Option<Balance> {
    let rune = &whole.ledger.runes[whole.ledger.by_id(id)?];
    let shown = Amount { amount, divisibility: rune.etching.divisibility };
    Some(Balance { amount: Text(amount), id: Text(id), name: name_of(rune), shown: Text(shown) })
}

fn text(bytes: &Option<Box<[u8]>>) -> Option<&str> {
    std::str::from_utf8(bytes.as_deref()?).ok()
}

/// Where a satoshi is; none is lost in the chains of bench/query.py.
fn place(whole: &Whole, sat: u64) -> Option<Place> {
    let (at, offset) = whole.index.locator.as_ref()?.find(sat)?;
    Some(Place { offset, outpoint: Text(at) })
}

pub fn status(hashes: &[Hash], depth: u16, kept: u16) -> Status<'_> {
    let tip = hashes.last().map(|hash| Text(Shown(hash)));
    Status { blocks: hashes.len(), depth, kept, profile: "regtest", tip }
}

pub fn block_hash(hashes: &[Hash], height: u64) -> Option<BlockHash<'_>> {
    let hash = hashes.get(usize::try_from(height).ok()?)?;
    Some(BlockHash { hash: Text(Shown(hash)), height })
}

pub fn sat(whole: &Whole, number: u64) -> Option<SatBody<'_>> {
    let sat = Sat::new(number)?;
    Some(SatBody {
        decimal: Text(Decimal(sat)),
        degree: Text(Degree(sat)),
        inscriptions: Ids(whole, whole.shelf.on(number)),
        name: Text(SatName(sat)),
        number,
        place: place(whole, number),
        rarity: sat.rarity(),
    })
}

pub fn output(whole: &Whole, at: OutPoint) -> Option<Output<'_>> {
    let row: &OutRow = whole.index.outputs.get(&at)?;
    let runs = row.sats.as_slice();
    Some(Output {
        height: row.height,
        inscriptions: OnRuns(whole, runs),
        ranges: Ranges(runs),
        runes: Balances(whole, whole.ledger.balances(&at)),
        script: Text(Hex(row.script.as_slice())),
        value: runs.iter().map(|(_, count)| count).sum(),
    })
}

pub fn inscription<'w>(whole: &'w Whole, id: &Id) -> Option<Inscription<'w>> {
    let sequence = whole.shelf.find(id)?;
    let row = &whole.shelf.rows[sequence as usize];
    let cursed = whole.shelf.is_cursed(row);
    Some(Inscription {
        children: Ids(whole, whole.shelf.children(sequence)),
        content_length: row.body.as_ref().map(|body| body.len()),
        content_type: text(&row.content_type),
        cursed,
        delegate: row.delegate.as_ref().map(|id| Text(ShownId(id))),
        encoding: text(&row.encoding),
        height: row.height,
        id: Text(ShownId(&row.id)),
        marks: Marks(row.marks),
        metadata: row.metadata.as_ref().map(|metadata| Text(Hex(metadata))),
        metaprotocol: text(&row.metaprotocol),
        number: whole.shelf.number(sequence),
        parents: Parents(&row.parents),
        place: row.sat.and_then(|sat| place(whole, sat)),
        sat: row.sat,
        sequence,
        vindicated: row.marks != 0 && !cursed,
    })
}

fn page<T>(rows: &[T], page: u64) -> (&[T], bool) {
    let first = usize::try_from(page).unwrap_or(usize::MAX).saturating_mul(PAGE).min(rows.len());
    let (shown, more) = rows[first..].split_at(PAGE.min(rows.len() - first));
    (shown, !more.is_empty())
}

pub fn inscriptions(whole: &Whole, number: u64) -> Page<impl Serialize + '_> {
    let (rows, more) = page(&whole.shelf.rows, number);
    Page { ids: RowIds(rows), more, page: number }
}

pub fn runes(whole: &Whole, number: u64) -> Page<impl Serialize + '_> {
    let (rows, more) = page(&whole.ledger.runes, number);
    Page { ids: RuneIds(rows), more, page: number }
}

pub fn rune(whole: &Whole, number: usize) -> RuneBody<'_> {
    let rune = &whole.ledger.runes[number];
    let terms: Option<Terms> = rune.etching.terms;
    RuneBody {
        amount: terms.and_then(|terms| terms.amount).map(Text),
        burned: Text(rune.burned),
        cap: terms.and_then(|terms| terms.cap).map(Text),
        divisibility: rune.etching.divisibility,
        etching: Text(Shown(&rune.etched_by)),
        height: terms.map(|terms| terms.height),
        held: Text(rune.held()),
        id: Text(rune.id),
        mintable: rune.minted(whole.index.hashes.len() as u64).is_some(),
        mints: Text(rune.mints),
        name: name_of(rune),
        number,
        offset: terms.map(|terms| terms.offset),
        premine: Text(rune.etching.premine),
        symbol: rune.etching.symbol,
    }
}

pub fn audit(whole: &Whole) -> Audit<'_> {
    let claimable = whole.index.hashes.len() as u64 * fold_blocks::SUBSIDY;
    let lost = whole.index.lost();
    Audit { claimable, lost, outputs: claimable - lost, runes: Audits(&whole.ledger.runes) }
}
