//! Reads as of a kept block in plain Rust, as bench/as_of.py times them: the store of a folder, and a desk over it. The
//! second argument says how the undone changes are searched: by `walk` all of them are asked, and by `heights` none is where
//! a row is there that a block of then or before has made. On standard input stand rows: `often N PATH..` answers a GET of
//! each path, N times over, and shows what crates/ox_run_rows shows for it, and `GET PATH` shows a reply's body.
mod bodies;
mod past;
mod store;

use desk::{get, Answers, Desk};
use past::Search;
use std::io::{self, BufRead, Write};
use std::path::Path;
use store::Store;

fn main() -> io::Result<()> {
    let words: Vec<String> = std::env::args().skip(1).collect();
    let [folder, search] = &words[..] else { panic!("FOLDER walk|heights") };
    let search = if search == "walk" { Search::Walk } else { Search::Heights };
    let file = opening::current(Path::new(folder))?;
    let (index, changes) = opening::restored(&file).expect("no store");
    drop(file);
    let mut desk = Desk::new(Store::new(index, changes, search));
    let mut out = io::BufWriter::new(io::stdout().lock());
    for row in io::stdin().lock().lines() {
        let row = row?;
        let words: Vec<&str> = row.split(' ').collect();
        match words[..] {
            ["often", times, ref paths @ ..] => {
                writeln!(out, "{}", desk.answer_often(paths, times.parse().expect("a number")))?;
            }
            ["GET", path] => {
                out.write_all(&desk.asked.reply(&get(path)).body)?;
                writeln!(out)?;
            }
            _ => panic!("no row"),
        }
    }
    out.flush()?;
    std::process::exit(0)
}
