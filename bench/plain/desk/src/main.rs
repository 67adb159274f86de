//! A desk over a whole index in memory, as bench/desk.py times it. On standard input stand rows: `make regtest DEPTH` begins
//! a chain, `connect HEX` connects a block, and `often N PATH..` answers a GET of each path, N times over, and shows what
//! crates/ox_run_rows shows for it. It keeps no files: `often` forgets what was counted and which replies were kept.
use desk::{Answers, Desk};
use fold_blocks::feed::Chain;
use index::Whole;
use matchit::Router;
use query::{answer, routes, About, Reply, Request, Route, Way};
use std::io::{self, BufRead, Write};

struct Asked {
    whole: Whole,
    depth: u16,
    routes: Router<Route>,
}

impl Answers for Asked {
    fn reply(&self, request: &Request) -> Reply {
        let blocks = self.whole.hashes().len();
        let about = About { depth: self.depth, kept: blocks.min(usize::from(self.depth)) as u16 };
        answer(&self.routes, &self.whole, &about, request, Way::Structs)
    }
}

fn new_desk(depth: u16) -> Desk<Asked> {
    Desk::new(Asked { whole: Whole::new(usize::from(depth)), depth, routes: routes() })
}

/// Connects a block, which has to be accepted.
fn connect(desk: &mut Desk<Asked>, block: &[u8]) {
    desk.asked.whole.connect(block).expect("a block that is accepted");
    desk.forget();
}

fn main() -> io::Result<()> {
    let mut out = io::BufWriter::new(io::stdout().lock());
    let mut desk = new_desk(100);
    for row in io::stdin().lock().lines() {
        let row = row?;
        let words: Vec<&str> = row.split(' ').collect();
        match words[..] {
            ["make", "regtest", depth] => desk = new_desk(depth.parse().expect("a depth")),
            ["connect", digits] => connect(&mut desk, &hex::decode(digits).expect("hex digits")),
            ["often", times, ref paths @ ..] => {
                writeln!(out, "{}", desk.answer_often(paths, times.parse().expect("a number")))?;
            }
            _ => panic!("no row"),
        }
    }
    Ok(())
}
