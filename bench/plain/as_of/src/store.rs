//! An index in memory with its kept changes, and the replies to requests that may name a block.
use crate::bodies;
use crate::past::{Past, Search};
use desk::Answers;
use matchit::Router;
use query::{error_reply, json_reply, routes, text, Reply, Request, Route, Way};
use rows::live::Live;
use rows::rows::{Change, Hash, Index};
use std::collections::VecDeque;

/// What stands between a path and the digits of a hash.
const AT: &str = "?at=";

const DIGITS: usize = 64;

pub struct Store {
    pub live: Live,
    /// The newest first.
    changes: Vec<Change>,
    /// How many satoshis are lost.
    pub lost: u64,
    /// The number of each inscription.
    pub numbers: Vec<i64>,
    search: Search,
    routes: Router<Route>,
}

/// What a path has before a hash that it ends with, and that hash.
fn cut_at(path: &str) -> Option<(&str, Hash)> {
    let (front, ending) = path.split_at_checked(path.len().checked_sub(AT.len() + DIGITS)?)?;
    Some((front, text::hash(ending.strip_prefix(AT)?)?))
}

impl Store {
    pub fn new(index: Index, changes: VecDeque<Change>, search: Search) -> Store {
        let lost = index.lost.as_slice().iter().map(|(_, count)| count).sum();
        let numbers = bodies::numbers(&index.inscriptions);
        Store { live: Live::of(index), changes: changes.into(), lost, numbers, search, routes: routes() }
    }

    /// The index before so many of the newest blocks.
    fn before(&self, back: usize) -> Past<'_> {
        let blocks = self.live.hashes.len() - back;
        Past { store: self, undone: &self.changes[..back], blocks, search: self.search }
    }

    /// How many blocks stand above the one of this hash, which is kept or the one below those.
    fn above(&self, hash: &Hash) -> Option<usize> {
        self.live.hashes.iter().rev().take(self.changes.len() + 1).position(|kept| kept == hash)
    }

    fn body(&self, path: &str) -> Option<Vec<u8>> {
        let (path, past) = match cut_at(path) {
            Some((front, hash)) => (front, self.before(self.above(&hash)?)),
            None => (path, self.before(0)),
        };
        let found = self.routes.at(path).ok()?;
        let part = found.params.iter().next().map_or("", |(_, part)| part);
        match *found.value {
            Route::Audit => Way::Structs.body(&bodies::audit(&past)),
            Route::Inscription => Way::Structs.body(&bodies::inscription(&past, part)?),
            Route::Output => Way::Structs.body(&bodies::output(&past, part)?),
            Route::Rune => Way::Structs.body(&bodies::rune(&past, part)?),
            Route::Sat => Way::Structs.body(&bodies::sat(&past, part)?),
            _ => None,
        }
    }
}

impl Answers for Store {
    fn reply(&self, request: &Request) -> Reply {
        let path = std::str::from_utf8(&request.path).unwrap_or("");
        match self.body(path) {
            Some(body) => json_reply(200, body, request.close),
            None => error_reply(404, request.close, Way::Structs),
        }
    }
}
