//! Replies to queries in plain Rust: a path is routed by `matchit`, a body is made by `serde_json`, and a reply owns its kind
//! and body.
mod bodies;
pub mod sat;
pub mod text;

use fold_blocks::feed::Chain;
use index::Whole;
use inscriptions::shelf::Row;
use matchit::Router;
use serde::Serialize;

#[derive(Clone, Copy, PartialEq, Eq)]
pub enum Method {
    Get,
    Post,
}

pub struct Request {
    pub method: Method,
    pub path: Vec<u8>,
    pub body: Vec<u8>,
    pub close: bool,
}

pub struct Reply {
    pub status: u16,
    pub kind: Vec<u8>,
    pub encoding: Option<Vec<u8>>,
    pub body: Vec<u8>,
    pub close: bool,
}

/// How many blocks may be taken back, and how many can be.
#[derive(Clone, Copy)]
pub struct About {
    pub depth: u16,
    pub kept: u16,
}

#[derive(Clone, Copy)]
pub enum Route {
    Audit,
    BlockHash,
    Connect,
    Content,
    Disconnect,
    Inscription,
    Inscriptions,
    Output,
    Rune,
    Runes,
    Sat,
    Status,
}

impl Route {
    fn method(self) -> Method {
        match self {
            Route::Connect | Route::Disconnect => Method::Post,
            _ => Method::Get,
        }
    }
}

const ROUTES: [(&str, Route); 12] = [
    ("/audit", Route::Audit),
    ("/blockhash/:height", Route::BlockHash),
    ("/connect", Route::Connect),
    ("/content/:id", Route::Content),
    ("/disconnect", Route::Disconnect),
    ("/inscription/:id", Route::Inscription),
    ("/inscriptions/:page", Route::Inscriptions),
    ("/output/:outpoint", Route::Output),
    ("/rune/:rune", Route::Rune),
    ("/runes/:page", Route::Runes),
    ("/sat/:sat", Route::Sat),
    ("/status", Route::Status),
];

pub fn routes() -> Router<Route> {
    let mut router = Router::new();
    for (path, route) in ROUTES {
        router.insert(path, route).unwrap();
    }
    router
}

/// How a body is made of what it says: by structs that are written at once, or as a tree of values first.
#[derive(Clone, Copy)]
pub enum Way {
    Structs,
    Tree,
}

impl Way {
    pub fn body(self, said: &impl Serialize) -> Option<Vec<u8>> {
        match self {
            Way::Structs => serde_json::to_vec(said).ok(),
            Way::Tree => serde_json::to_vec(&serde_json::to_value(said).ok()?).ok(),
        }
    }
}

/// The inscription whose content is shown for another one.
fn shown_for<'w>(whole: &'w Whole, row: &'w Row) -> Option<&'w Row> {
    match &row.delegate {
        Some(id) => whole.shelf.find(id).map(|number| &whole.shelf.rows[number as usize]),
        None => Some(row),
    }
}

fn header(bytes: &Option<Box<[u8]>>) -> Option<Vec<u8>> {
    let bytes = bytes.as_ref().filter(|bytes| !bytes.is_empty())?;
    bytes.iter().all(|byte| (32..=126).contains(byte)).then(|| bytes.to_vec())
}

fn content(whole: &Whole, part: &str, close: bool) -> Option<Reply> {
    let number = whole.shelf.find(&text::inscription_id(part)?)?;
    let row = shown_for(whole, &whole.shelf.rows[number as usize])?;
    Some(Reply {
        status: 200,
        kind: header(&row.content_type).unwrap_or_else(|| b"application/octet-stream".to_vec()),
        encoding: header(&row.encoding),
        body: row.body.as_ref()?.to_vec(),
        close,
    })
}

fn rune_named(whole: &Whole, part: &str) -> Option<usize> {
    let by_name = |part: &str| whole.ledger.by_name(runes::name::read(part)?);
    let with_id = text::rune_id(part).and_then(|id| whole.ledger.by_id(id));
    with_id.or_else(|| match part.contains('%') {
        true => by_name(&part.replace("%E2%80%A2", "\u{2022}")),
        false => by_name(part),
    })
}

/// The body of what a route says of its part, if that names something.
fn body(whole: &Whole, about: &About, route: Route, part: &str, way: Way) -> Option<Vec<u8>> {
    let hashes = whole.hashes();
    match route {
        Route::Audit => way.body(&bodies::audit(whole)),
        Route::BlockHash => way.body(&bodies::block_hash(hashes, text::number(part)?)?),
        Route::Inscription => way.body(&bodies::inscription(whole, &text::inscription_id(part)?)?),
        Route::Inscriptions => way.body(&bodies::inscriptions(whole, text::number(part)?)),
        Route::Output => way.body(&bodies::output(whole, text::outpoint(part)?)?),
        Route::Rune => way.body(&bodies::rune(whole, rune_named(whole, part)?)),
        Route::Runes => way.body(&bodies::runes(whole, text::number(part)?)),
        Route::Sat => way.body(&bodies::sat(whole, text::number(part)?)?),
        Route::Status => way.body(&bodies::status(hashes, about.depth, about.kept)),
        Route::Connect | Route::Content | Route::Disconnect => None,
    }
}

pub fn json_reply(status: u16, body: Vec<u8>, close: bool) -> Reply {
    Reply { status, kind: b"application/json".to_vec(), encoding: None, body, close }
}

pub fn error_reply(status: u16, close: bool, way: Way) -> Reply {
    json_reply(status, way.body(&bodies::Error { error: status }).unwrap_or_default(), close)
}

pub fn answer(routes: &Router<Route>, whole: &Whole, about: &About, request: &Request, way: Way) -> Reply {
    let error = |status: u16| error_reply(status, request.close, way);
    let Some(found) = std::str::from_utf8(&request.path).ok().and_then(|path| routes.at(path).ok()) else {
        return error(404);
    };
    let route = *found.value;
    if request.method != route.method() {
        return error(405);
    }
    if request.method == Method::Post {
        return error(403);
    }
    let part = found.params.iter().next().map_or("", |(_, part)| part);
    let reply = match route {
        Route::Content => content(whole, part, request.close),
        _ => body(whole, about, route, part, way).map(|body| json_reply(200, body, request.close)),
    };
    reply.unwrap_or_else(|| error(404))
}
