//! What a block's transaction reveals, for `pointers` and `parents`.
use crate::id_of;
use inscriptions::reveal::{reveal, Run, Spend};
use inscriptions::shelf::{Row, Shelf};

const SUBSIDY: u64 = 5_000_000_000;

/// A transaction: the run of satoshis that each input spends, and its tapscript.
struct Tx {
    runs: Vec<Run>,
    scripts: Vec<Vec<u8>>,
}

fn scattered(number: u64, end: u64) -> u64 {
    number.wrapping_mul(0x9e37_79b9_7f4a_7c15) % end
}

fn pointers(place: u64) -> Vec<u8> {
    let mut script = Vec::new();
    for number in place * 9 / 2..(place + 1) * 9 / 2 {
        script.extend_from_slice(b"\x00\x63\x03ord\x01\x02\x08");
        script.extend_from_slice(&scattered(number, SUBSIDY).to_le_bytes());
        script.push(0x68);
    }
    script
}

fn parents(count: u32) -> Vec<u8> {
    let mut script = b"\x00\x63\x03ord".to_vec();
    for number in 0..count {
        let id = id_of(number);
        script.extend_from_slice(b"\x01\x03\x24");
        script.extend_from_slice(&id.txid);
        script.extend_from_slice(&id.index.to_le_bytes());
    }
    script.push(0x68);
    script
}

/// The transaction of so many inputs, each of which spends an output of a coinbase, in a scattered order.
fn tx_of(of_pointers: bool, count: u32) -> Tx {
    let value = SUBSIDY / u64::from(count);
    let runs = (0..count).map(|place| (u64::from(place.wrapping_mul(7_919) % count) * value, value));
    let script = |place| match of_pointers {
        true => pointers(u64::from(place)),
        false if place + 1 == count => parents(count / 2 * 5),
        false => Vec::new(),
    };
    Tx { runs: runs.collect(), scripts: (0..count).map(script).collect() }
}

/// Puts what the transaction reveals behind the rows of a shelf: how many rows.
fn reveal_all(shelf: &mut Shelf, tx: &Tx) -> u32 {
    let (mut sats, mut late) = (Vec::new(), Vec::new());
    tx.runs.iter().for_each(|run| join(&mut sats, *run));
    let spend = Spend { txid: [7; 32], height: 0, sats: &sats, taken: SUBSIDY / 2 };
    let inputs = tx.runs.iter().zip(&tx.scripts).map(|((_, count), script)| (*count, Some(script.as_slice())));
    let count = reveal(shelf, &mut late, &spend, inputs);
    late.into_iter().for_each(|row| shelf.push(row));
    count
}

fn join(sats: &mut Vec<Run>, run: Run) {
    match sats.last_mut() {
        Some(last) if last.0 + last.1 == run.0 => last.1 += run.1,
        _ => sats.push(run),
    }
}

/// A shelf of parents, every other one on a satoshi of the transaction's inputs.
fn shelf_of_parents(count: u32) -> Shelf {
    let mut shelf = Shelf::default();
    for number in 0..count {
        let sat = Some(scattered(u64::from(number), 2 * SUBSIDY));
        shelf.push(Row { id: id_of(number), sat, ..Row::default() });
    }
    shelf
}

/// How many rows there are in the end, and what the last ones that were revealed say.
pub fn work(of_pointers: bool, count: u32, times: u32) -> (usize, u64) {
    let tx = tx_of(of_pointers, count);
    let mut shelf = shelf_of_parents(if of_pointers { 0 } else { count / 2 * 5 });
    let mut sum = 0;
    for _ in 0..times {
        let first = shelf.rows.len();
        let count = reveal_all(&mut shelf, &tx);
        sum = shelf.rows[first..].iter().fold(0u64, |sum, row| {
            let weight = u64::from(row.marks).wrapping_add(row.sat.unwrap_or(0)).wrapping_add(row.parents.len() as u64);
            sum.wrapping_mul(3).wrapping_add(weight)
        });
        for _ in 0..count {
            shelf.pop();
        }
    }
    (shelf.rows.len(), sum)
}
