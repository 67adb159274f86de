//! Rows are put behind bytes, the fixed parts of each in one piece.
use crate::rows::{Balances, Change, Index, Inscription, OutPoint, Output, Rune, Run, Runs, Terms, Text};

fn count(out: &mut Vec<u8>, count: usize) {
    out.extend_from_slice(&u32::try_from(count).expect("too many").to_le_bytes());
}

fn text(out: &mut Vec<u8>, bytes: &[u8]) {
    count(out, bytes.len());
    out.extend_from_slice(bytes);
}

fn option<T>(out: &mut Vec<u8>, value: &Option<T>, put: impl FnOnce(&mut Vec<u8>, &T)) {
    match value {
        None => out.push(0),
        Some(value) => {
            out.push(1);
            put(out, value);
        }
    }
}

fn list<'t, T: 't>(out: &mut Vec<u8>, len: usize, values: impl Iterator<Item = T>, put: impl Fn(&mut Vec<u8>, T)) {
    count(out, len);
    for value in values {
        put(out, value);
    }
}

fn outpoint(out: &mut Vec<u8>, at: &OutPoint) {
    let mut piece = [0; 36];
    piece[..32].copy_from_slice(&at.txid);
    piece[32..].copy_from_slice(&at.index.to_le_bytes());
    out.extend_from_slice(&piece);
}

fn run(out: &mut Vec<u8>, run: &Run) {
    let mut piece = [0; 16];
    piece[..8].copy_from_slice(&run.0.to_le_bytes());
    piece[8..].copy_from_slice(&run.1.to_le_bytes());
    out.extend_from_slice(&piece);
}

fn sats(out: &mut Vec<u8>, runs: &Runs) {
    let runs = runs.as_slice();
    list(out, runs.len(), runs.iter(), run);
}

fn output(out: &mut Vec<u8>, (at, row): (&OutPoint, &Output)) {
    outpoint(out, at);
    text(out, row.script.as_slice());
    out.extend_from_slice(&row.height.to_le_bytes());
    sats(out, &row.sats);
}

fn placed(out: &mut Vec<u8>, (at, held): (&OutPoint, &Balances)) {
    outpoint(out, at);
    list(out, held.len(), held.iter(), |out, (id, amount)| {
        let mut piece = [0; 28];
        piece[..8].copy_from_slice(&id.0.to_le_bytes());
        piece[8..12].copy_from_slice(&id.1.to_le_bytes());
        piece[12..].copy_from_slice(&amount.to_le_bytes());
        out.extend_from_slice(&piece);
    });
}

fn owned(out: &mut Vec<u8>, value: &Text) {
    option(out, value, |out, bytes| text(out, bytes));
}

fn inscription(out: &mut Vec<u8>, row: &Inscription) {
    let mut piece = [0; 40];
    piece[..32].copy_from_slice(&row.id.txid);
    piece[32..36].copy_from_slice(&row.id.index.to_le_bytes());
    piece[36..].copy_from_slice(&row.height.to_le_bytes());
    out.extend_from_slice(&piece);
    row.texts.iter().for_each(|value| owned(out, value));
    option(out, &row.delegate, outpoint);
    owned(out, &row.pointer);
    list(out, row.parents.len(), row.parents.iter(), outpoint);
    out.extend_from_slice(&row.marks.to_le_bytes());
    option(out, &row.sat, |out, sat| out.extend_from_slice(&sat.to_le_bytes()));
}

fn terms(out: &mut Vec<u8>, terms: &Terms) {
    option(out, &terms.amount, |out, number| out.extend_from_slice(&number.to_le_bytes()));
    option(out, &terms.cap, |out, number| out.extend_from_slice(&number.to_le_bytes()));
    for bound in &terms.bounds {
        option(out, bound, |out, number| out.extend_from_slice(&number.to_le_bytes()));
    }
}

fn rune(out: &mut Vec<u8>, row: &Rune) {
    let mut piece = [0; 33];
    piece[..8].copy_from_slice(&row.id.0.to_le_bytes());
    piece[8..12].copy_from_slice(&row.id.1.to_le_bytes());
    piece[12..28].copy_from_slice(&row.name.to_le_bytes());
    piece[28..32].copy_from_slice(&row.spacers.to_le_bytes());
    piece[32] = row.divisibility;
    out.extend_from_slice(&piece);
    option(out, &row.symbol, |out, symbol| out.extend_from_slice(&(*symbol as u32).to_le_bytes()));
    out.extend_from_slice(&row.premine.to_le_bytes());
    option(out, &row.terms, terms);
    let mut piece = [0; 64];
    piece[..16].copy_from_slice(&row.mints.to_le_bytes());
    piece[16..32].copy_from_slice(&row.burned.to_le_bytes());
    piece[32..].copy_from_slice(&row.etching);
    out.extend_from_slice(&piece);
}

pub fn index(index: &Index) -> Vec<u8> {
    let mut out = Vec::new();
    list(&mut out, index.hashes.len(), index.hashes.iter(), |out, hash| out.extend_from_slice(hash));
    list(&mut out, index.outputs.len(), index.outputs.iter(), output);
    sats(&mut out, &index.lost);
    list(&mut out, index.inscriptions.len(), index.inscriptions.iter(), inscription);
    list(&mut out, index.balances.len(), index.balances.iter(), placed);
    list(&mut out, index.runes.len(), index.runes.iter(), rune);
    out
}

pub fn change(change: &Change) -> Vec<u8> {
    let mut out = change.hash.to_vec();
    for rows in [&change.gone, &change.came] {
        list(&mut out, rows.len(), rows.iter(), |out, (at, row)| output(out, (at, row)));
    }
    sats(&mut out, &change.lost);
    list(&mut out, change.inscriptions.len(), change.inscriptions.iter(), inscription);
    for rows in [&change.before, &change.after] {
        list(&mut out, rows.len(), rows.iter(), |out, (at, held)| placed(out, (at, held)));
    }
    list(&mut out, change.counts.len(), change.counts.iter(), |out, (place, numbers)| {
        out.extend_from_slice(&place.to_le_bytes());
        numbers.iter().for_each(|number| out.extend_from_slice(&number.to_le_bytes()));
    });
    list(&mut out, change.appended.len(), change.appended.iter(), rune);
    out
}
