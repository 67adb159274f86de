//! Rows of an index and of what its newest block changed, as docs/FORMATS.md, 'Rows', has them.
use fold_blocks::{Hash, OutPoint, Row, Run};
use index::Whole;
use inscriptions::shelf::{Id, Row as Inscription};
use runes::ledger::{Change, Ledger, Rune};
use runes::stone::{RuneId, Terms};
use std::collections::BTreeMap;

type Held<'h> = &'h [(RuneId, u128)];

fn number32(out: &mut Vec<u8>, number: usize) {
    out.extend_from_slice(&u32::try_from(number).expect("too many").to_le_bytes());
}

fn list<T>(out: &mut Vec<u8>, items: &[T], put: impl Fn(&mut Vec<u8>, &T)) {
    number32(out, items.len());
    items.iter().for_each(|item| put(out, item));
}

fn text(out: &mut Vec<u8>, bytes: &[u8]) {
    number32(out, bytes.len());
    out.extend_from_slice(bytes);
}

fn option<T>(out: &mut Vec<u8>, value: Option<T>, put: impl FnOnce(&mut Vec<u8>, T)) {
    out.push(u8::from(value.is_some()));
    if let Some(value) = value {
        put(out, value);
    }
}

fn place(out: &mut Vec<u8>, txid: &Hash, index: u32) {
    out.extend_from_slice(txid);
    out.extend_from_slice(&index.to_le_bytes());
}

fn sats(out: &mut Vec<u8>, runs: &[Run]) {
    list(out, runs, |out, (first, count)| {
        out.extend_from_slice(&first.to_le_bytes());
        out.extend_from_slice(&count.to_le_bytes());
    });
}

fn outputs<'r>(out: &mut Vec<u8>, rows: impl Iterator<Item = (&'r OutPoint, &'r Row)>) {
    let mut rows: Vec<_> = rows.collect();
    rows.sort_unstable_by_key(|row| row.0);
    list(out, &rows, |out, (at, row)| {
        place(out, &at.txid, at.index);
        text(out, row.script.as_slice());
        out.extend_from_slice(&row.height.to_le_bytes());
        sats(out, row.sats.as_slice());
    });
}

fn balances<'h>(out: &mut Vec<u8>, rows: impl Iterator<Item = (&'h OutPoint, Held<'h>)>) {
    let mut rows: Vec<_> = rows.collect();
    rows.sort_unstable_by_key(|row| row.0);
    list(out, &rows, |out, (at, held)| {
        place(out, &at.txid, at.index);
        list(out, held, |out, (id, amount)| {
            rune_id(out, id);
            out.extend_from_slice(&amount.to_le_bytes());
        });
    });
}

fn id(out: &mut Vec<u8>, id: &Id) {
    place(out, &id.txid, id.index);
}

fn inscription(out: &mut Vec<u8>, row: &Inscription) {
    id(out, &row.id);
    out.extend_from_slice(&row.height.to_le_bytes());
    for part in [&row.content_type, &row.body, &row.metadata, &row.metaprotocol, &row.encoding] {
        option(out, part.as_deref(), text);
    }
    option(out, row.delegate.as_ref(), id);
    option(out, row.pointer.as_deref(), text);
    list(out, &row.parents, id);
    out.extend_from_slice(&row.marks.to_le_bytes());
    option(out, row.sat, |out, sat| out.extend_from_slice(&sat.to_le_bytes()));
}

fn rune_id(out: &mut Vec<u8>, id: &RuneId) {
    out.extend_from_slice(&id.block.to_le_bytes());
    out.extend_from_slice(&id.tx.to_le_bytes());
}

fn terms(out: &mut Vec<u8>, terms: Terms) {
    for number in [terms.amount, terms.cap] {
        option(out, number, |out, number| out.extend_from_slice(&number.to_le_bytes()));
    }
    for bound in [terms.height.0, terms.height.1, terms.offset.0, terms.offset.1] {
        option(out, bound, |out, bound| out.extend_from_slice(&bound.to_le_bytes()));
    }
}

fn rune(out: &mut Vec<u8>, row: &Rune) {
    rune_id(out, &row.id);
    out.extend_from_slice(&row.name.to_le_bytes());
    out.extend_from_slice(&row.etching.spacers.to_le_bytes());
    out.push(row.etching.divisibility);
    option(out, row.etching.symbol, |out, symbol| number32(out, symbol as usize));
    out.extend_from_slice(&row.etching.premine.to_le_bytes());
    option(out, row.etching.terms, terms);
    out.extend_from_slice(&row.mints.to_le_bytes());
    out.extend_from_slice(&row.burned.to_le_bytes());
    out.extend_from_slice(&row.etched_by);
}

/// The rows of an index.
pub fn index(whole: &Whole) -> Vec<u8> {
    let Whole { index, shelf, ledger, .. } = whole;
    let mut out = Vec::new();
    list(&mut out, &index.hashes, |out, hash| out.extend_from_slice(hash));
    outputs(&mut out, index.outputs.iter());
    sats(&mut out, index.lost_runs());
    list(&mut out, &shelf.rows, inscription);
    balances(&mut out, ledger.balances.iter().map(|(at, held)| (at, held.as_slice())));
    list(&mut out, &ledger.runes, rune);
    out
}

/// What the newest block changed of balances, of counts and of runes.
fn ledger_change(out: &mut Vec<u8>, ledger: &Ledger) -> Option<()> {
    let (mark, changes) = ledger.newest()?;
    let (mut before, mut counts) = (BTreeMap::new(), BTreeMap::new());
    for change in changes {
        match change {
            Change::Balance(at, held) => {
                before.entry(at).or_insert(held.as_ref().map_or(&[][..], |held| held.as_slice()));
            }
            Change::Counts(at, mints, burned) => {
                counts.entry(*at).or_insert((*mints, *burned));
            }
        }
    }
    before.retain(|at, held| ledger.balances(at) != *held);
    let is_any = |(_, held): &(&OutPoint, Held)| !held.is_empty();
    balances(out, before.iter().map(|(at, held)| (*at, *held)).filter(is_any));
    balances(out, before.keys().map(|at| (*at, ledger.balances(at))).filter(is_any));
    counts.retain(|at, counted| *at < mark && (ledger.runes[*at].mints, ledger.runes[*at].burned) != *counted);
    let counts: Vec<_> = counts.into_iter().collect();
    list(out, &counts, |out, (at, (mints, burned))| {
        let row = &ledger.runes[*at];
        number32(out, *at);
        [*mints, row.mints, *burned, row.burned].iter().for_each(|number| out.extend_from_slice(&number.to_le_bytes()));
    });
    list(out, &ledger.runes[mark..], rune);
    Some(())
}

/// The rows of what the newest block changed.
pub fn newest_change(whole: &Whole) -> Option<Vec<u8>> {
    let Whole { index, shelf, ledger, .. } = whole;
    let change = index.newest_change()?;
    let mut out = index.hashes.last()?.to_vec();
    for rows in [&change.gone, &change.came] {
        outputs(&mut out, rows.iter().map(|(at, row)| (at, row)));
    }
    sats(&mut out, &change.lost);
    list(&mut out, shelf.newest(), inscription);
    ledger_change(&mut out, ledger)?;
    Some(out)
}
