//! A shelf of inscriptions in plain Rust, as bench/inscriptions.py times it. The arguments are what is done (`look`,
//! `number`, `mark`, `pointers` or `parents`; `ordered` is `mark` with ordered maps by id and by parent), how many rows or
//! inputs there are, and how often it is done.
mod made;
mod ordered;

use inscriptions::shelf::{Id, Row, Shelf};
use std::env;

const BATCH: u32 = 1_000;

/// A row of so many has a mark. All rows are revealed below the jubilee.
const MARKED: u32 = 10;
const JUBILEE: u32 = u32::MAX;

fn id_of(number: u32) -> Id {
    let mut txid = [0; 32];
    txid[..4].copy_from_slice(&number.wrapping_mul(0x9e37_79b1).to_be_bytes());
    Id { txid, index: 0 }
}

/// The row with a number, on the satoshi of twice the number, whose parent is the one before.
fn row_of(number: u32) -> Row {
    Row {
        id: id_of(number),
        height: number,
        content_type: Some(vec![b't'; 24].into()),
        body: Some(vec![b'b'; 60].into()),
        parents: if number == 0 { Vec::new() } else { vec![id_of(number - 1)] },
        marks: u16::from(number % MARKED == 0),
        sat: Some(2 * u64::from(number)),
        ..Row::default()
    }
}

fn append_from(shelf: &mut Shelf, first: u32) {
    let rows: Vec<Row> = (first..first + BATCH).map(row_of).collect();
    shelf.rows.reserve(rows.len());
    rows.iter().for_each(|row| shelf.push(row.clone()));
}

/// The sum of the numbers that each row is found to have in four ways.
fn look(shelf: &Shelf, count: u32) -> u64 {
    let mut sum = 0;
    for number in 0..count {
        let sat = 2 * u64::from(number);
        sum += u64::from(shelf.find(&id_of(number)).unwrap_or(0));
        sum += u64::from(shelf.on(sat).first().copied().unwrap_or(0));
        sum += shelf.next_on(sat + 1).map_or(0, |(sat, numbers)| sat + u64::from(numbers[0]));
        sum += u64::from(shelf.children(number).first().copied().unwrap_or(0));
    }
    sum
}

/// The sum of the signed numbers of all rows, each without its sign.
fn number(shelf: &Shelf, count: u32) -> u64 {
    (0..count).map(|sequence| shelf.number(sequence).unsigned_abs()).sum()
}

fn mark(shelf: &mut Shelf, count: u32) -> u64 {
    shelf.begin();
    append_from(shelf, count);
    shelf.cancel();
    shelf.rows.len() as u64
}

fn main() {
    let words: Vec<String> = env::args().skip(1).collect();
    let [kind, count, times] = words.as_slice() else { panic!("KIND COUNT TIMES") };
    let (count, times): (u32, u32) = (count.parse().unwrap(), times.parse().unwrap());
    if kind == "pointers" || kind == "parents" {
        let (rows, sum) = made::work(kind == "pointers", count, times);
        println!("{rows} rows, {sum}");
        return;
    }
    if kind == "ordered" {
        println!("{}", ordered::work(count, times));
        return;
    }
    let mut shelf = Shelf::new(JUBILEE);
    for batch in 0..count / BATCH {
        append_from(&mut shelf, batch * BATCH);
    }
    let mut answer = 0;
    for _ in 0..times {
        answer = match kind.as_str() {
            "mark" => mark(&mut shelf, count),
            "number" => number(&shelf, count),
            _ => look(&shelf, count),
        };
    }
    println!("{} rows, {answer}", shelf.rows.len());
}
