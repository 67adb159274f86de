"""The rows of crates/ox_run_rows that serve links, and what has to be printed for them.

What a server does is told by serving, over a site of worlds, and both share nothing with the
library.
"""

from chain import DISCONNECT, GENESIS, chain, line, line_of
from rows.desk_rows import printed
from rows.store_rows import ALL
from rows.worlds import CUTS_NOTHING, NONE, PORTIONS, Runs

# the calls of an opening
LOOKS = 8
FILLS = 0x00, 0x07, 0xFF


class Rows(Runs):
    """The rows so far, over a regtest store of depth 100 without a block."""

    def fresh(self):
        super().fresh()
        self.links = self.printed = 0
        self.ends(("init", "regtest", "100"), 0, NONE)

    def link(self, *said, operator=False):
        """A link that says this: bytes at once, a list of bytes each alone, `.` or `$`."""
        words = ["," + bytes(part).hex() if isinstance(part, list) else part for part in said]
        words = [part.hex() if isinstance(part, bytes) else part for part in words]
        door = "operator" if operator else "public"
        self.row("link", door, *words)
        script = []
        for part in said:
            script += [bytes([byte]) for byte in part] if isinstance(part, list) else [part]
        self.world.doors[door].append(script)
        self.links += 1

    def shows(self):
        """What the links were shown that came since."""
        numbers = range(self.printed + 1, self.links + 1)
        if numbers:
            self.row("shown", *numbers)
        self.stdout += [printed(self.world.shown(number)) for number in numbers]
        self.printed = self.links

    def serve(self, turns):
        """Serves, from the store as it stands: its status."""
        status, _ = self.run("serve", str(turns))
        self.shows()
        return status

    def serve_shortly(self, portion, whole_writes, turns):
        """The same over a site of short calls."""
        status, *_ = self.short(portion, whole_writes, "serve", str(turns))
        self.shows()
        return status

    def apply(self, *lines):
        """Applies lines: the status, and what was shown."""
        self.feed(*lines)
        return self.run("apply")

    def restart(self, moment, fill, keep):
        super().restart(moment, fill, keep)
        self.links = self.printed = len(self.world.arrivals)

    def stop(self, moment, fill, keep):
        """What a crash leaves is asked for its status, and opened."""
        self.crash(moment, fill, keep, ("query", "/status"))
        self.reopen(moment, fill, keep)


def get(path, *fields, method="GET"):
    return "".join(part + "\r\n" for part in (f"{method} {path} HTTP/1.1", *fields, "")).encode()


def post(path, body=b""):
    return get(path, f"Content-Length: {len(body)}", method="POST") + body


STATUS = get("/status")
CLOSE = "Connection: close"
BLOCKS = chain(3)[0]


def single_bytes(rows):
    rows.heading("every byte is heard alone: a public link, and a block that the operator posts")
    rows.link([*STATUS], *["."] * 500, [*STATUS], [*post("/connect", GENESIS)])
    rows.link([*post("/connect", GENESIS)], operator=True)
    rows.serve(10_000)
    rows.heading("the turns end before a request is whole")
    rows.link([*STATUS])
    rows.serve(20)


def one_status(rows):
    rows.heading("a request with a host")
    rows.link(get("/status", "Host: a"))
    rows.serve(9)


def refusals(rows):
    for what, said in [
        ("8,192 bytes without a blank line", b"a" * 8192),
        ("a head whose blank line ends at 8,192", STATUS[:-2] + b"a: " + b"b" * 8163 + b"\r\n\r\n"),
        ("a head whose blank line ends at 8,193", STATUS[:-2] + b"a: " + b"b" * 8164 + b"\r\n\r\n"),
        ("a post without a length", get("/connect", method="POST")),
        ("a length of 4,000,001", get("/connect", "Content-Length: 4000001", method="POST")),
        ("a length that is no number", get("/status", "Content-Length: +1")),
        ("two lengths", get("/status", "Content-Length: 1", "Content-Length: 01")),
        ("a body in chunks", get("/status", "Transfer-Encoding: chunked")),
        ("no request", b"GET\r\n\r\n"),
        ("another method", get("/status", method="PUT")),
        ("no route", get("/none")),
        ("nothing of that name", get("/blockhash/7")),
        ("no command", get("/connect")),
        ("an old protocol", STATUS.replace(b"1.1", b"1.0")),
    ]:
        rows.heading(what)
        rows.link(said, STATUS)
        rows.link(said, STATUS, operator=True)
        rows.serve(20)


def commands(rows):
    rows.heading("the operator's commands, and a public link that may not post them")
    said = [
        post("/disconnect"),
        post("/connect", BLOCKS[0]),
        post("/connect", BLOCKS[0]),
        post("/connect", BLOCKS[1]),
        post("/disconnect", b"any"),
        get("/blockhash/0"),
        get("/blockhash/1"),
        post("/connect", b""),
        get("/audit", CLOSE),
    ]
    rows.link(*said, operator=True)
    rows.link(*said)
    rows.serve(200)
    rows.run("query", "/status")


def pipelined(rows):
    rows.heading("two requests at once, in nine turns and in eight")
    for turns in (9, 8):
        rows.fresh()
        rows.link(STATUS + STATUS)
        rows.serve(turns)
    rows.heading("the first of them closes the link")
    rows.link(get("/status", CLOSE) + STATUS)
    rows.serve(9)
    rows.heading("a link that ends behind its requests")
    rows.link(STATUS + STATUS + b"GET", "$")
    rows.link("$")
    rows.link(b"GET", "$")
    rows.serve(30)


def more_than_slots(rows):
    rows.heading("33 links, of which the fifth ends")
    for number in range(33):
        rows.link(*([STATUS, "$"] if number == 4 else [STATUS, ".", ".", STATUS]))
    rows.serve(400)


def counts(rows):
    rows.heading("three times one path and once another, in pieces of any size")
    asked = STATUS * 3 + get("/audit")
    for sizes in ([len(asked)], [1] * len(asked), [7, 30, 2, 1000]):
        rows.fresh()
        pieces, at = [], 0
        for size in sizes:
            pieces.append(asked[at : at + size])
            at += size
        rows.link(*[piece for piece in pieces if piece])
        rows.serve(600)
    rows.heading("a command between them")
    rows.link(STATUS, ".", ".", STATUS, *["."] * 9, STATUS, get("/audit"))
    rows.link(".", ".", ".", ".", ".", post("/connect", BLOCKS[0]), operator=True)
    rows.serve(300)
    rows.heading("64 paths are kept, and the 65th takes the place of the one that rests longest")
    paths = [get(f"/blockhash/{number}") for number in range(65)]
    rows.link(b"".join(paths[:64] + paths[:64] + paths[64:] + paths[:2]))
    rows.serve(600)


def short(rows):
    """A short `serve` with a command, each of whose calls may fail."""
    rows.link(STATUS, ".", STATUS, "$")
    rows.link(post("/connect", BLOCKS[0]) + STATUS, operator=True)


def last_calls(rows, run):
    """The numbers of the calls that a run takes, which is made for it."""
    first = rows.world.site.calls
    run()
    return range(first, rows.world.site.calls)


def fails(rows):
    rows.heading("each call of a short run fails, and what is opened afterwards")
    short(rows)
    calls = last_calls(rows, lambda: rows.serve(24))
    for call in calls:
        rows.fresh()
        short(rows)
        rows.fail(call)
        status = rows.serve(24)
        assert call - calls[0] >= LOOKS or status == 4
        for fill in FILLS:
            rows.stop(rows.world.now(), fill, CUTS_NOTHING)


def stops(rows):
    rows.heading("a stop at each moment of a short run")
    short(rows)
    first = rows.world.now()
    rows.serve(24)
    for moment in range(first, rows.world.now() + 1):
        for fill in FILLS:
            for keep in (0, CUTS_NOTHING):
                rows.stop(moment, fill, keep)


def turns(rows):
    rows.heading("the 65th command turns the files, and a stop at each moment of it and the next")
    posts = [post("/connect", block) for block in chain(66)[0]]
    rows.link(*posts, get("/status", CLOSE), operator=True)
    rows.serve(500)
    assert b'"blocks":66' in rows.world.shown(1) and rows.world.site.files["B"][:1] == b"\1"
    last, begun = rows.world.now(), len(rows.stdout)
    for moment in range(last - 24, last + 1):
        for fill in FILLS:
            for keep in (0, CUTS_NOTHING):
                rows.stop(moment, fill, keep)
    assert any('"blocks":64' in line for line in rows.stdout[begun:])


# ---- runs that follow one another


def begin_apply(rows):
    """A store over which two lines are applied, from the first call and the first moment on."""
    rows.fresh()
    rows.restart(rows.world.now(), 0, CUTS_NOTHING)
    assert rows.apply(line(BLOCKS[0]), line_of(DISCONNECT))[0] == 0


def go_on(rows):
    """The operator connects a block, which is refused where the one before isn't there, and the
    first one otherwise; a public link asks for the status."""
    rows.feed(line(BLOCKS[0]), line(BLOCKS[1]))
    rows.link(STATUS, "$")
    rows.link(post("/connect", BLOCKS[1]), post("/connect", BLOCKS[0]), "$", operator=True)
    assert rows.serve(24) == 0


def runs_in_turn(rows):
    rows.heading("an apply, a serve, a drill and an apply, each over what a stop before left")
    begin_apply(rows)
    for first in range(rows.world.now() + 1):
        for fill in FILLS:
            begin_apply(rows)
            rows.restart(first, fill, CUTS_NOTHING)
            go_on(rows)
            for second in range(rows.world.now() + 1):
                follow(rows, second, fill)


def follow(rows, moment, fill):
    """What a stop of the server leaves is drilled, which is refused, applied and looked at."""
    runs = ("drill", "2"), ("apply",), ("query", "/status")
    drilled, applied, looked = rows.crash(moment, fill, CUTS_NOTHING, *runs)
    assert drilled == (2, b"not empty\n") and applied[0] == 0
    assert looked[0] == 0 and b'"blocks":2' in looked[1]


# ---- links that are no one's friend


def honest(operator):
    """What a link says that asks for what it may."""
    if operator:
        said = [
            post("/connect", BLOCKS[0]),
            post("/connect", BLOCKS[1]),
            STATUS,
            post("/disconnect"),
        ]
    else:
        said = [STATUS, get("/audit"), get("/blockhash/0")]
    return [*said, get("/status", CLOSE)]


def beside(rows, hostile, fails=False):
    """A hostile link beside an honest one at the other door, whose replies and whose files are as
    without it. Where it `fails` it breaks as it is shown something."""
    for operator in (False, True):
        rows.fresh()
        rows.link(*honest(operator), operator=operator)
        rows.serve(200)
        alone, files = rows.world.shown(1), rows.world.site.files
        both(rows, hostile, operator)
        if fails:
            # the public door is asked first
            number = 1 if operator else 2
            call = next(call for call, link in rows.world.showings if link == number)
            both(rows, hostile, operator, call)
            assert rows.world.shown(number) == b""
        assert rows.world.shown(2 if operator else 1) == alone
        assert rows.world.site.files == files


def both(rows, hostile, operator, failing=None):
    rows.fresh()
    rows.link(*honest(operator), operator=operator)
    rows.link(*hostile, operator=not operator)
    if failing is not None:
        rows.fail(failing)
    assert rows.serve(200) == 0


def hostile_links(rows):
    block = post("/connect", BLOCKS[0])
    for what, said, fails in (
        ("ends in a head", [STATUS[:-4], "$"], False),
        ("ends in a body", [block[:-7], "$"], False),
        ("sends 8,192 bytes without a blank line", [8192 * b"a", STATUS], False),
        ("breaks as it is shown a reply", [STATUS, STATUS], True),
    ):
        rows.heading(f"a link that {what}, beside an honest one")
        beside(rows, said, fails)


def short_calls(rows):
    rows.heading("over short calls links are shown what they are over whole ones")
    shown = []
    for portion in (None, *PORTIONS):
        rows.fresh()
        rows.link(*honest(False))
        rows.link(*honest(True), operator=True)
        rows.link(8192 * b"a")
        rows.link(post("/connect", BLOCKS[0])[:-7], "$", operator=True)
        status = rows.serve_shortly(portion, ALL, 30_000) if portion else rows.serve(200)
        shown.append([rows.world.shown(number) for number in range(1, 5)])
        assert status == 0 and shown[-1][1:] == shown[0][1:]
    rows.heading("a write that fails halfway ends the run, and what is opened afterwards")
    # each block is two writes: its record, and its gate
    for portion in PORTIONS:
        for writes in range(4):
            rows.fresh()
            rows.link(*honest(True), operator=True)
            rows.link(STATUS)
            assert rows.serve_shortly(portion, writes, 30_000) == 4
            rows.run("query", "/status")
            for fill in FILLS:
                rows.stop(rows.world.now(), fill, CUTS_NOTHING)


def served():
    """The rows, and what has to be printed for them."""
    rows = Rows()
    for part in (
        single_bytes,
        one_status,
        refusals,
        commands,
        pipelined,
        more_than_slots,
        counts,
        fails,
        stops,
        turns,
        runs_in_turn,
        hostile_links,
        short_calls,
    ):
        part(rows)
    return rows
