"""The rows of crates/ox_run_rows that ask one desk, and what has to be printed for them.

Replies are told by docs/FORMATS.md. The chains and most of what they are asked are those of
index_rows and query_rows. What is kept of replies is reckoned here: 64 of them, by the number of
accepted commands and the path, the last used first, none with a body above 65,536 bytes. A desk is
asked by one link at a time, so that the order of its requests is plain: by the operator's, and over
the same files by a public one.
"""

import json

from chain import GENESIS, envelope
from plain_index import NO_BLOCK
from rows import inscription, plain, reveal
from rows import index_rows, query_rows, store_rows
from rows.query_rows import checksum
from rows.store_rows import block_on

JSON = "application/json"
PHRASES = {
    200: "OK",
    400: "Bad Request",
    403: "Forbidden",
    404: "Not Found",
    405: "Method Not Allowed",
    409: "Conflict",
    411: "Length Required",
    413: "Content Too Large",
    431: "Request Header Fields Too Large",
}
# the most bytes that are printed whole as text, and how many of more
WHOLE, FRONT = 1_024, 200
# the most bytes that are heard at once, and that a body may have
ROOM, BODY = 65_536, 4_000_000


def compact(tree):
    return json.dumps(tree, ensure_ascii=False, sort_keys=True, separators=(",", ":")).encode()


def told(status, tree):
    """A reply of this tree: its status, body, kind and encoding."""
    return status, compact(tree), JSON, None


def error(status):
    return told(status, {"error": status})


def newest(height, block_hash):
    """What is said of an accepted command; a hash is as it is printed, and both are None where no
    block is left."""
    return told(200, {"hash": block_hash, "height": height})


def refused(line):
    """What is said of a refused one, by the line of its refusal."""
    return told(409, {"refused": line.removeprefix("refused ")})


def written(reply, close):
    """The bytes of a reply by its status, body, kind and encoding."""
    status, body, kind, encoding = reply
    lines = [f"HTTP/1.1 {status} {PHRASES[status]}", f"Content-Type: {kind}"]
    lines += [f"Content-Encoding: {encoding}"] if encoding is not None else []
    lines += [f"Content-Length: {len(body)}"] + (["Connection: close"] if close else [])
    return "".join(line + "\r\n" for line in lines).encode() + b"\r\n" + body


def printed(data):
    """Bytes as text, as the program prints them."""
    if len(data) > WHOLE:
        return f"{printed(data[:FRONT])}.. {len(data)} bytes, checksum {checksum(data)}"
    return "".join(
        chr(byte) if 32 <= byte < 127 and byte != ord("\\") else f"\\{byte:02x}" for byte in data
    )


class Counts:
    """What a desk counts, and the keys of the replies that it keeps."""

    def __init__(self):
        self.requests = self.hits = self.accepted = 0
        self.keys = []

    def request(self, method, path, size):
        self.requests += 1
        if method != "GET":
            return
        key = self.accepted, path
        if key in self.keys:
            self.hits += 1
            self.keys.remove(key)
        elif size > 65_536:
            return
        self.keys = ([key] + self.keys)[:64]


# ---- requests


class Body:
    """The bytes of a body, by the hex digits of a head, of a part that stands so many times, and of
    a tail."""

    def __init__(self, head="", times=0, part="", tail=""):
        self.head, self.times, self.part, self.tail = head, times, part, tail

    def __len__(self):
        return (len(self.head) + self.times * len(self.part) + len(self.tail)) // 2

    def word(self, front):
        """The word of a row that says these bytes behind others."""
        many = f"{self.times}*{self.part}" if self.times else ""
        return "+".join(part for part in (front.hex() + self.head, many, self.tail) if part)


class Asked:
    """A request, and the reply that it has to get."""

    def __init__(self, method, path, reply, close=False, body=Body()):
        self.method, self.path, self.reply, self.close = method, path, reply, close
        self.body = body
        self.is_accepted = reply[0] == 200 and path in ("/connect", "/disconnect")

    def front(self):
        """The bytes of its head."""
        lines = [f"{self.method} {self.path} HTTP/1.1"]
        if self.method == "POST" or len(self.body):
            lines.append(f"Content-Length: {len(self.body)}")
        lines += ["Connection: close"] if self.close else []
        return "".join(line + "\r\n" for line in lines).encode() + b"\r\n"

    def turns(self):
        """The most turns that its link takes for it: for each piece that is heard, and for the
        reply."""
        return -(-(len(self.front()) + len(self.body)) // ROOM) + 1


class Desks:
    """The rows so far, and what is printed for them."""

    def __init__(self):
        self.stdin, self.stdout = [], []
        self.told, self.links, self.operators, self.publics = b"", 0, [], []

    def row(self, *words):
        self.stdin.append(" ".join(map(str, words)))

    def heading(self, text):
        self.serve()
        self.row("#", text)
        self.stdout.append(f"# {text}")

    def make(self, profile="regtest", depth=100):
        """A store is made of two fresh files."""
        self.serve()
        self.row("fresh")
        self.row("run", "init", profile, depth)
        self.told, self.links = b"ok empty\n", 0
        self.stdout += ["status 0", printed(self.told)]

    def ask(self, method, path, reply, **how):
        """A request of the operator's link that is replied so."""
        asked = Asked(method, path, reply, **how)
        if asked.is_accepted and self.publics:
            self.serve()
        self.operators.append(asked)

    def ask_publicly(self, method, path, reply, **how):
        """A request of a public link that is replied so, behind those of the operator's."""
        self.publics.append(Asked(method, path, reply, **how))

    def accepts(self, path, reply, **how):
        """An operator's command that is accepted."""
        self.ask("POST", path, reply, **how)

    def refuses(self, path, line, **how):
        self.ask("POST", path, refused(line), **how)

    def serve(self):
        """Serves a link of the operator's with what was asked since, and then a public one."""
        for door, requests in ("operator", self.operators), ("public", self.publics):
            link = []
            for asked in requests:
                link.append(asked)
                if asked.close:
                    self.run((door, link))
                    link = []
            if link:
                self.run((door, link))
        self.operators, self.publics = [], []

    def run(self, *links):
        """Serves these links side by side, where it is one which of them is answered first. What
        the desk has counted then."""
        counts, shown = Counts(), []
        for door, requests in links:
            self.row("link", door, *(asked.body.word(asked.front()) for asked in requests))
            shown.append(b"".join(written(asked.reply, asked.close) for asked in requests))
            for asked in requests:
                counts.request(asked.method, asked.path, len(asked.reply[1]))
                counts.accepted += asked.is_accepted
        turns = sum(asked.turns() for _, requests in links for asked in requests)
        self.row("run", "serve", (2 + len(links)) * (turns + 2))
        self.row("shown", *range(self.links + 1, self.links + 1 + len(links)))
        self.links += len(links)
        self.told += f"requests {counts.requests} hits {counts.hits}\n".encode()
        self.stdout += ["status 0", printed(self.told), *map(printed, shown)]
        return counts

    def query(self, path, reply):
        """A run by itself shows the body of the reply to a GET of this path, which may be bytes."""
        self.serve()
        self.row("run", "query", path if isinstance(path, str) else f"={path.hex()}")
        self.told += reply[1]
        self.stdout += ["status 0", printed(self.told)]

    def often(self, times, asked):
        """One desk answers GETs of these paths, by their replies, so many times over."""
        self.serve()
        self.row("often", times, *asked)
        counts, size = Counts(), 0
        for path, reply in times * list(asked.items()):
            counts.request("GET", path, len(reply[1]))
            size += len(written(reply, False))
        self.stdout.append(f"{counts.requests} requests {counts.hits} hits {size} bytes")


# ---- the chains and requests of the other scripts


def body_of(words):
    """A block's bytes by the words that the other program reads."""
    if not any("*" in word for word in words):
        return Body("".join(words))
    (at,) = (at for at, word in enumerate(words) if "*" in word)
    times, part = words[at].split("*")
    return Body("".join(words[:at]), int(times), part, "".join(words[at + 1 :]))


def answer_of(line):
    """What is said of a command, by the line that the other program answers it by."""
    if line == "ok empty":
        return newest(None, None)
    _, height, block_hash = line.split()
    return newest(int(height), block_hash)


def reply_of(line):
    """A reply as the other program prints it, and whether it closes. None of a long one."""
    head, _, text = line.partition(">")
    status, *close = head.partition(" <")[0].split()
    kind, encoding = head.partition(" <")[2], None
    if text.startswith(" <"):
        encoding, _, text = text[2:].partition(">")
    text = text[1:]
    if text.startswith("(") and "checksum" in text:
        return None
    body = bytes.fromhex(text[6:]) if text.startswith("(hex)") else text.encode()
    return (int(status), body, kind, encoding), close == ["close"]


class Chain:
    """A chain that is replayed, by its blocks' hashes, and what was asked of it."""

    def __init__(self, depth):
        self.depth, self.hashes, self.kept = depth, [], 0
        self.new, self.asked = [], []

    def turns(self, path, reply):
        """An accepted command of this path is replied so."""
        if path == "/disconnect":
            self.hashes.pop()
            self.kept -= 1
        else:
            self.hashes.append(json.loads(reply[1])["hash"])
            self.kept = min(self.kept + 1, self.depth)

    def says(self, path, reply):
        """A GET of a path is replied so now. What has no block, or is no reply as of one, is left
        out, and so is a path that is too long for a head with a hash behind it."""
        if self.hashes and path not in ("/connect", "/disconnect") and len(path) < 8_000:
            self.new.append((path, self.hashes[-1], reply))

    def reply_as_of(self, block_hash, path, reply):
        """What a GET of a path was replied while a block was the newest, as it is replied now as of
        that block."""
        newest_ones = self.hashes[::-1][: self.kept + 1]
        if block_hash not in newest_ones:
            return error(404)
        if path != "/status":
            return reply
        kept = self.kept - newest_ones.index(block_hash)
        return told(200, json.loads(reply[1]) | {"kept": kept})

    def again(self, ask, asked):
        """Asks these once more, as of their blocks."""
        for path, block_hash, reply in asked:
            ask("GET", as_of(path, block_hash), self.reply_as_of(block_hash, path, reply))

    def go_on(self, desks):
        """What was asked before the last command is asked again after it."""
        self.again(desks.ask, self.new)
        self.asked, self.new = self.asked + self.new, []

    def end(self, desks):
        """All that was asked is asked again."""
        self.again(desks.ask_publicly, self.asked + self.new)
        self.asked, self.new = [], []


def as_of(path, block_hash):
    """A path that names a block, by its hash as it is printed."""
    return f"{path}?at={block_hash}"


def command(desks, chain, path, line, body=Body()):
    if len(body) > BODY:
        # no link says so much
        return
    if line.startswith("refused"):
        desks.refuses(path, line, body=body)
    else:
        reply = answer_of(line)
        desks.accepts(path, reply, body=body)
        chain.turns(path, reply)
    chain.go_on(desks)


def asks(desks, chain, row, line):
    """A request of the other program, from either door; a command of the public one alone. No head
    has an empty path."""
    method, path = row.removeprefix("close ").split(" ")
    if reply_of(line) is None or not path or not path.isascii():
        return
    reply, close = reply_of(line)
    desks.ask_publicly(method, path, reply, close=close)
    if reply[0] != 403:
        desks.ask(method, path, reply, close=close)
    if method == "GET":
        chain.says(path, reply)


def replay(desks, rows):
    """What the other program's rows do, through a desk. What looks into an index is left out. Each
    reply to a GET is asked again as of its block, after the next command and at the chain's end."""
    chain = Chain(0)
    for row, lines in rows:
        word, *words = row.split(" ")
        if word == "#":
            chain.end(desks)
            desks.heading(row.removeprefix("# "))
        elif word in ("chain", "live"):
            chain.end(desks)
            depth = int(words[1]) if words[1:] else 100
            desks.make(words[0], depth)
            chain = Chain(depth)
        elif word == "block":
            command(desks, chain, "/connect", lines[0], body_of(words))
        elif word == "disconnect":
            command(desks, chain, "/disconnect", lines[0])
        elif word in ("GET", "POST", "PUT", "close"):
            asks(desks, chain, row, lines[0])
    chain.end(desks)


def routes(desks):
    asking, indexes = query_rows.Queries(), index_rows.Indexes()
    for group in (
        query_rows.chains,
        query_rows.first_block,
        query_rows.methods,
        query_rows.one_inscription,
        query_rows.two_runes,
        query_rows.texts,
        query_rows.keep_blocks,
        query_rows.audits,
        query_rows.edicts,
        query_rows.terms,
        query_rows.names,
        query_rows.parents,
        query_rows.places,
        query_rows.moves,
        query_rows.burn_and_take_back,
        query_rows.equal_coinbases,
    ):
        group(asking)
    replay(desks, asking.rows)
    for group in (index_rows.refusals, index_rows.last_height, index_rows.lone_commitments):
        group(indexes)
    replay(desks, indexes.rows)


# ---- commands


def connected(block):
    """What is said of a chain of this block alone."""
    return newest(0, store_rows.twice(block[:80])[::-1].hex())


def status(blocks, kept, tip, depth=100, profile="regtest"):
    tree = {"blocks": blocks, "depth": depth, "kept": kept, "profile": profile, "tip": tip}
    return told(200, tree)


EMPTY = status(0, 0, None)


def commands(desks):
    genesis = Body(GENESIS.hex())
    desks.heading("a block is connected and taken back; on an empty chain both are null")
    desks.make("mainnet")
    assert query_rows.GENESIS_HASH.encode() in connected(GENESIS)[1]
    desks.accepts("/connect", connected(GENESIS), body=genesis)
    desks.accepts("/disconnect", newest(None, None))
    desks.refuses("/disconnect", "refused 11")
    desks.heading("what a disconnect's body has isn't looked at, and a reply closes as asked")
    desks.make()
    desks.accepts("/connect", connected(GENESIS), body=genesis, close=True)
    desks.accepts("/disconnect", newest(None, None), body=Body("00ff"), close=True)
    desks.refuses("/disconnect", "refused 11", body=Body("00ff"), close=True)
    desks.heading("a command of the public door is forbidden, and changes nothing")
    desks.make()
    desks.ask_publicly("POST", "/connect", error(403), body=genesis)
    desks.ask_publicly("POST", "/disconnect", error(403))
    desks.ask_publicly("GET", "/status", EMPTY)
    for method in ("GET", "PUT"):
        for path in ("/connect", "/disconnect"):
            desks.ask(method, path, error(405), body=genesis)
    for path in ("/connect/", "/connec", "/", "/disconnect?"):
        desks.ask("POST", path, error(404), body=genesis)
    desks.ask("GET", "/status", EMPTY)
    desks.heading("a block that is cut or not on the newest one is refused")
    desks.make()
    desks.refuses("/connect", "refused 3 0")
    # the header takes 80 bytes, and then no transaction is counted
    desks.refuses("/connect", "refused 3 80", body=Body("", BODY, "00"))
    first, tip = block_on(NO_BLOCK, 1)
    unlinked = Body(block_on(tip, 2)[0].hex())
    desks.refuses("/connect", f"refused 5 {tip[::-1].hex()} {64 * '0'}", body=unlinked)
    desks.accepts("/connect", newest(0, tip[::-1].hex()), body=Body(first.hex()))
    again = f"refused 5 {64 * '0'} {tip[::-1].hex()}"
    desks.refuses("/connect", again, body=Body(first.hex()))
    desks.ask("GET", "/status", status(1, 1, tip[::-1].hex()))


# ---- as of a block


def tips_of(count):
    """Blocks of a coinbase each, one on the other, and their hashes as they are printed."""
    blocks, tips, tip = [], [], NO_BLOCK
    for mark in range(count):
        block, tip = block_on(tip, 1 + mark)
        blocks.append(Body(block.hex()))
        tips.append(tip[::-1].hex())
    return blocks, tips


def as_of_blocks(desks):
    blocks, tips = tips_of(101)
    zeros, found = 64 * "0", status(3, 2, tips[2], 2)
    desks.heading("a path may name the newest block, or one that is left by taking kept ones back")
    desks.make("regtest", 2)
    desks.ask("GET", as_of("/status", zeros), error(404))
    for height in range(3):
        desks.accepts("/connect", newest(height, tips[height]), body=blocks[height])
        desks.ask("GET", as_of("/status", zeros), error(404))
    for height in range(3):
        reply = status(height + 1, height, tips[height], 2)
        desks.ask("GET", as_of("/status", tips[height]), reply)
        desks.ask_publicly("GET", as_of("/status", tips[height]), reply, close=True)
    desks.heading("what ends otherwise names no block: letters, digits, what stands behind")
    letters = next(tip for tip in tips[:3] if tip.upper() != tip)
    for path in (
        f"/status?at={letters.upper()}",
        f"/status?at={tips[2][1:]}",
        f"/status?at={tips[2]}0",
        f"/status?at=0{tips[2]}",
        f"/status?at={tips[2]}&",
        f"/status?at={tips[2]}/",
        f"/status?At={tips[2]}",
        f"/status&at={tips[2]}",
        f"/status?at={tips[2]}?at=",
        f"/status?at{tips[2]}",
        f"/status{tips[2]}",
        f"?at={tips[2]}",
        f"/?at={tips[2]}",
        f"/statu?at={tips[2]}",
        f"/connect?at={tips[2]}",
        f"/disconnect?at={tips[2]}",
    ):
        desks.ask("GET", path, error(404))
        desks.ask_publicly("GET", path, error(404))
    desks.heading("of two blocks the last one is named, and the other belongs to the path")
    desks.ask("GET", as_of(as_of("/status", tips[1]), tips[2]), error(404))
    desks.ask("GET", as_of(as_of("/blockhash/0", tips[1]), tips[2]), error(404))
    desks.ask("GET", as_of("/status", tips[2]), found)
    desks.heading("a command's path names no block, and no other method has one")
    for path in ("/connect", "/disconnect"):
        desks.ask("POST", as_of(path, tips[2]), error(404), body=blocks[2])
        desks.ask_publicly("POST", as_of(path, tips[2]), error(404))
        desks.ask("PUT", as_of(path, tips[2]), error(404))
    for method in ("POST", "PUT", "HEAD"):
        desks.ask(method, as_of("/status", tips[2]), error(405))
        desks.ask_publicly(method, as_of("/status", zeros), error(405))
        desks.ask(method, as_of("/statu", tips[2]), error(404))
    desks.ask("GET", "/status", found)
    desks.heading("a block that was taken back, or isn't kept any more, isn't found")
    desks.accepts("/disconnect", newest(1, tips[1]))
    desks.ask("GET", as_of("/status", tips[2]), error(404))
    desks.ask("GET", as_of("/status", tips[1]), status(2, 1, tips[1], 2))
    desks.accepts("/connect", newest(2, tips[2]), body=blocks[2])
    desks.accepts("/connect", newest(3, tips[3]), body=blocks[3])
    desks.ask("GET", as_of("/status", tips[0]), error(404))
    for height in (1, 2, 3):
        reply = status(height + 1, height - 1, tips[height], 2)
        desks.ask("GET", as_of("/status", tips[height]), reply)
    desks.heading("a hundred blocks back")
    desks.make()
    for height, (block, tip) in enumerate(zip(blocks, tips)):
        desks.accepts("/connect", newest(height, tip), body=block)
    for height, tip in enumerate(tips):
        desks.ask("GET", as_of("/status", tip), status(height + 1, height, tip))
        block = {"hash": tips[height // 2], "height": height // 2}
        desks.ask("GET", as_of(f"/blockhash/{height // 2}", tip), told(200, block))
        desks.ask("GET", as_of(f"/blockhash/{height + 1}", tip), error(404))
    desks.heading("a reply as of a block is kept by its whole path")
    desks.make()
    desks.accepts("/connect", newest(0, tips[0]), body=blocks[0])
    desks.serve()
    looks = Asked("GET", "/status", status(1, 1, tips[0]))
    then = Asked("GET", as_of("/status", tips[0]), status(1, 1, tips[0]))
    assert desks.run(("public", [looks, then, then, looks])).hits == 2


# ---- replies that are kept


def kept(desks):
    first, tip = block_on(NO_BLOCK, 1)
    one = status(1, 1, tip[::-1].hex())
    looks = Asked("GET", "/status", EMPTY)
    desks.heading("a path that is asked again is a hit, until a command is accepted")
    desks.make()
    asked = [
        looks,
        looks,
        Asked("POST", "/disconnect", refused("refused 11")),
        looks,
        Asked("POST", "/connect", newest(0, tip[::-1].hex()), body=Body(first.hex())),
        Asked("GET", "/status", one),
        Asked("GET", "/status", one),
        Asked("POST", "/disconnect", newest(None, None)),
        looks,
    ]
    assert desks.run(("operator", asked)).hits == 3
    desks.heading("a reply that one door was given is kept for the other")
    desks.make()
    assert desks.run(("public", [looks]), ("operator", [looks])).hits == 1
    desks.heading("a hit closes as it is asked, whatever the reply did that is kept")
    desks.make()
    closes = Asked("GET", "/status", EMPTY, close=True)
    lacks = [Asked("GET", "/sat/", error(404), close=close) for close in (False, True)]
    links = [looks, closes], [closes], [looks], lacks[1:], lacks[:1]
    assert desks.run(*(("public", link) for link in links)).hits == 4
    desks.heading("64 replies are kept, the last used ones")
    desks.make()
    paths = [f"/blockhash/{height}" for height in range(65)]
    paths += [paths[64], paths[1], paths[0], paths[2], paths[1]]
    asked = [Asked("GET", path, error(404)) for path in paths]
    assert desks.run(("public", asked)).hits == 3
    desks.heading("requests are asked again, and a page is kept too")
    desks.make()
    page = told(200, {"ids": [], "more": False, "page": 0})
    asked = [looks, Asked("GET", "/runes/0", page), Asked("POST", "/audit", error(405))]
    counts = desks.run(("public", 4 * asked))
    assert (counts.requests, counts.hits) == (12, 6)
    desks.often(4, {"/status": EMPTY, "/runes/0": page})
    desks.heading("a post is not kept")
    desks.make()
    asked = Asked("POST", "/status", error(405))
    assert desks.run(("public", [asked, asked, looks])).hits == 0


def long_bodies(desks):
    for size in (65_536, 65_537):
        desks.heading(f"a body of {size} bytes is {'kept' if size == 65_536 else 'not kept'}")
        desks.make("lab")
        rows = query_rows.Queries()
        body = bytes(at % 251 for at in range(520)) * 126
        body += bytes(size - len(body))
        pushes = b"".join(
            b"\x4d" + len(part).to_bytes(2, "little") + part
            for part in (body[at : at + 520] for at in range(0, size, 520))
        )
        rows.plain(6)
        tx = reveal(plain(0), envelope([], b"")[:-1] + pushes + b"\x68")
        block, tip = query_rows.block_on(rows, tx)
        rows.takes(block.hex(), tip)
        replay(desks, rows.rows)
        desks.serve()
        asked = Asked("GET", f"/content/{inscription(tx)}", (200, body, query_rows.OCTETS, None))
        assert desks.run(("public", [asked, asked])).hits == int(size == 65_536)


def desks():
    """The rows, and what has to be printed for them."""
    made = Desks()
    for part in (routes, commands, as_of_blocks, kept, long_bodies):
        part(made)
        made.serve()
    return made
