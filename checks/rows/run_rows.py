"""The rows of crates/ox_run_rows, and what has to be printed for them.

Its own are runs of each subcommand but `serve`, `lead` and `follow`, whole, with failing calls,
stopped, and over a site of short calls; and lines, hearings, showings and links of a site by
themselves. Those that serve links are those of serve_rows, those that ask one desk those of
desk_rows, of which holder_rows has those that ask for addresses, those that make and open a store
those of store_rows, those over files of version 3 those of summed_rows, and those of a leader or a
follower those of follow_rows. What a run does is told by worlds, which shares nothing with the
library.
"""

import old_files
import store_files
from chain import DISCONNECT, GENESIS, SHORT, line, payload_of
from rows import desk_rows, follow_rows, holder_rows, serve_rows, store_rows, summed_rows
from rows.desk_rows import compact, printed
from rows.store_rows import ALL
from rows.worlds import CUTS_NOTHING, NONE, PORTIONS, SATOSHI, Runs, bytes_of
from store_files import BYTES, CLOSED
from tools import bitcoin
from tools.bitcoin import SUBSIDY, twice

FILLS = 0x00, 0x07, 0xFF

GENESIS_OK = b"ok 0 000000000019d6689c085ae165831e934ff763ae46a2a6c172b3f1b60a8ce26f\n"
# three small blocks, by their hashes
HASHES = [
    "9df1369ffe84c7f9f18795eda8438c9452ca65ebb35668f5a83ab42b94430908",
    "0722e5045444f199ce474c0d06e47da62974b16d17bf01d351665bc1f12e3b4f",
    "7054e587fec28cf6b25c1f9597629789b86bae696e32960fd80b6521aa1c8a2a",
]
OKS = [f"ok {height} {hash_}\n".encode() for height, hash_ in enumerate(HASHES)]

# file A of empty stores: of depth 100, of lab at depth 1 and of mainnet at depth 1,000, whose index
# has a rune from the start: its id 1:0, its name, spacers and symbol, what a mint gives, how many
# there may be and at which heights
EMPTY = bytes.fromhex(store_files.EMPTY)
EMPTY_LAB = bytes.fromhex("016f786964780202010001000000000000001c00000000000000" + 29 * "00")
EMPTY_MAINNET = bytes.fromhex(
    "016f786964780200e8030100000000000000c900000000000000"
    "000000000000000000000000000000000000000001000000"
    "0100000000000000000000005e4521bcc606881c0000000000000000800000000001c9290000"
    "00000000000000000000000000000000010101000000000000000000000000000000"
    "01ffffffffffffffffffffffffffffffff0140d10c00000000000190051000000000000000" + 69 * "00"
)
# what Bitcoin's first block changes: its hash, no output gone, the one that came, and six times
# nothing
GENESIS_CHANGE = bytes.fromhex(
    "6fe28c0ab6f1b372c1a6a246ae63f74f931e8365e15a089c68d61900000000000000000001000000"
    "3ba3edfd7a7b12b27ac72c3e67768f617fc81bc3888a51323a9fb8aa4b1e5e4a0000000043000000"
    "4104678afdb0fe5548271967f1a67130b7105cd6a828e03909a67962e0ea1f61deb649f6bc3f4cef"
    "38c4f35504e51ec112de5c384df7ba0b8d578a4c702b6bf11d5fac"
    "0000000001000000000000000000000000f2052a01000000" + 24 * "00"
)


def small_chain():
    """Three blocks of a coinbase alone, each on the one before."""
    blocks, previous = [], bytes(32)
    for height in range(3):
        tx = bitcoin.coinbase([(SUBSIDY, SHORT)], bytes([1, height]))[0]
        block, previous = bitcoin.block(previous, twice(tx), [tx])
        assert previous[::-1].hex() == HASHES[height]
        blocks.append(block)
    return blocks


BLOCKS = small_chain()
THREE = b"".join(map(line, BLOCKS))
THREE_THEN_BACK = THREE + b"disconnect\n"
THREE_THEN_TWO = b"".join(OKS) + OKS[1]


# ---- rows


class Rows(Runs):
    """The rows so far, of stores with some of the three blocks."""

    def blocks(self, count):
        """A query of the status has to tell so many of them."""
        self.ends(("query", "/status"), 0, status_text(count))


def status_text(count):
    """What a status tells of so many of the three blocks, all of which are kept."""
    tip = HASHES[count - 1] if count else None
    return compact({"blocks": count, "depth": 100, "kept": count, "profile": "regtest", "tip": tip})


# ---- folds


def fold(rows, profile, parts, told):
    rows.fresh()
    rows.feed(*parts)
    rows.ends(("fold", profile), 0, told)


def changed(at, to):
    """The line of Bitcoin's first block with another byte."""
    return line(GENESIS[:at] + bytes([to]) + GENESIS[at + 1 :])


BAD_LINES = b"\nconnect\n" + line(GENESIS) + b"disconnect"
AFTER_BAD_LINES = b"refused 1\nrefused 1\n" + GENESIS_OK + NONE


def folds(rows):
    rows.heading("each line is answered by one")
    first = line(GENESIS)
    unlinked = f"refused 5 {64 * '0'} {GENESIS_OK.split()[2].decode()}\n".encode()
    for said, told in (
        (b"", b""),
        (first, GENESIS_OK),
        (first + first, GENESIS_OK + unlinked),
        (BAD_LINES, AFTER_BAD_LINES),
        (b"disconnect", b"refused 11\n"),
    ):
        fold(rows, "regtest", [said], told)
    rows.heading("a block that isn't taken in has its refusal")
    # the header's root, and that of the transaction whose value has another lowest byte
    roots = (
        b"refused 6 4a5e1e4baab89f3a32518a88c31bc87f618f76673e2cc77ab2127b7afdeda33b"
        b" 77c2c6d62b888ab7a74667ac10d8d9c14b411666e1b42a9188efe4f9ee73171c\n"
    )
    for said, told in (
        (changed(205, 1), roots),
        # the counts of transactions and of inputs
        (changed(80, 2), b"refused 3 285\n"),
        (changed(85, 0), b"refused 3 86\n"),
        (line(GENESIS[:200]), b"refused 3 200\n"),
        # the header with a count that lies, with one that is too long, and alone
        (line(GENESIS[:80] + b"\xfe" + 4 * b"\xff"), b"refused 3 85\n"),
        (line(GENESIS[:80] + b"\xfd\1\0"), b"refused 3 80\n"),
        (line(GENESIS[:80]), b"refused 3 80\n"),
        (b"connect \n", b"refused 3 0\n"),
        (b"connect 0\n", b"refused 1\n"),
    ):
        fold(rows, "regtest", [said], told)
    rows.heading("each profile begins with any first block; the feed has no line feed at its end")
    for profile in BYTES:
        fold(rows, profile, [first[:-1]], GENESIS_OK)
    rows.heading("a line may have as many bytes as the largest block has digits")
    zeros = 8_000, 1000 * b"0"
    parts = [b"connect ", zeros, b"\nconnect ", zeros, b"0\nconnect \n"]
    fold(rows, "regtest", parts, b"refused 3 80\nrefused 2\nrefused 3 0\n")
    rows.heading("each call of a fold of one line fails")
    # it hears the line, shows its answer, and hears the end
    for call, status, told in ((0, 5, b""), (1, 6, b""), (2, 5, GENESIS_OK), (3, 0, GENESIS_OK)):
        rows.fresh()
        rows.feed(first)
        rows.fail(call)
        rows.ends(("fold", "regtest"), status, told)


def usage(rows):
    rows.heading("other words show the usage line, or nothing where showing fails")
    for words in (
        (),
        ("fold",),
        ("fold", "testnet"),
        ("regtest", "fold"),
        ("fold", "regtest", ""),
        ("init", "lab", "0"),
        ("init", "lab", "1001"),
        ("init", "lab", "01"),
        ("init", "lab", "+1"),
        ("init", "regtest"),
        ("apply", "x"),
        ("query",),
        ("lead", "x"),
        ("follow", ""),
        ("grow", "3"),
    ):
        rows.fresh()
        rows.feed(b"connect \n")
        rows.ends(words, 1, b"usage\n")
        rows.files(b"", b"")
        rows.fresh()
        rows.fail(0)
        rows.ends(words, 1, b"")


# ---- stores


def inits(rows):
    rows.heading("two files are made a store, and made once")
    for status, told in ((0, NONE), (2, b"not empty\n")):
        rows.ends(("init", "regtest", "100"), status, told)
        rows.files(EMPTY)
    rows.heading("the least and the greatest depth")
    for profile, depth, a in (("lab", "1", EMPTY_LAB), ("mainnet", "1000", EMPTY_MAINNET)):
        rows.fresh()
        rows.ends(("init", profile, depth), 0, NONE)
        rows.files(a)


def applies(rows):
    rows.heading("a connected block is a record of its change")
    rows.store(line(GENESIS))
    rows.ends(("apply",), 0, GENESIS_OK)
    # behind the head and the body an open gate, the length, the byte of a connect, and the change
    record = bytes.fromhex("01c400000001") + GENESIS_CHANGE
    assert len(EMPTY[:-1] + record + CLOSED) == 256
    rows.files(EMPTY[:-1] + record + CLOSED)
    rows.heading("refused lines leave a store as it is")
    zeros = 8_000, 1000 * b"0"
    lines = line(GENESIS[:200]) + b"connect \nconnect 0\ndisconnect\nconnect "
    rows.store(lines, zeros, b"0\n")
    told = b"refused 3 200\nrefused 3 0\nrefused 1\nrefused 11\nrefused 2\n"
    rows.ends(("apply",), 0, told)
    rows.files(EMPTY)
    rows.heading("files that are no store aren't opened")
    rows.store(b"disconnect\n")
    rows.overwrite("A", 0, b"\0")
    for _ in range(2):
        for words in (("apply",), ("query", "/status")):
            rows.ends(words, 3, b"not a store a 0\n")
        rows.fresh()
    rows.heading("as many blocks are taken back as are kept, by runs that open the store again")
    for depth in (1, 2):
        rows.fresh()
        rows.ends(("init", "regtest", str(depth)), 0, NONE)
        rows.feed(THREE_THEN_BACK)
        rows.ends(("apply",), 0, THREE_THEN_TWO)
        for told in [OKS[0]][: depth - 1] + [b"refused 11\n"]:
            rows.feed(b"disconnect\n")
            rows.ends(("apply",), 0, told)


def queries(rows):
    rows.heading("a status tells of the blocks that were applied")
    rows.store(THREE)
    rows.blocks(0)
    rows.ends(("apply",), 0, b"".join(OKS))
    rows.blocks(3)
    rows.heading("a query of an empty store shows the body of its reply, and what isn't there")
    rows.store()
    rows.blocks(0)
    rows.ends(("query", "/sat/satoshi"), 0, compact(SATOSHI))
    for path in ("", "/x", "/blockhash/0", "/sat/01", b"/sat/\xff", "//status"):
        rows.ends(("query", path), 0, b'{"error":404}')
    rows.ends(("query", "/connect"), 0, b'{"error":405}')
    rows.heading("a query tells of a block that was applied")
    rows.store(line(BLOCKS[0]))
    rows.ends(("apply",), 0, OKS[0])
    told = f'{{"hash":"{HASHES[0]}","height":0}}'.encode()
    rows.ends(("query", "/blockhash/0"), 0, told)
    rows.heading("a query as of a kept block tells of the chain then")
    rows.fresh()
    rows.ends(("init", "regtest", "2"), 0, NONE)
    rows.ends(("query", f"/status?at={64 * '0'}"), 0, b'{"error":404}')
    rows.feed(THREE)
    rows.ends(("apply",), 0, b"".join(OKS))
    for height, block_hash in enumerate(HASHES):
        told = {"blocks": height + 1, "depth": 2, "kept": height}
        told |= {"profile": "regtest", "tip": block_hash}
        rows.ends(("query", f"/status?at={block_hash}"), 0, compact(told))
        told = {"hash": HASHES[0], "height": 0}
        rows.ends(("query", f"/blockhash/0?at={block_hash}"), 0, compact(told))
        lacking = f"/blockhash/{height + 1}?at={block_hash}"
        rows.ends(("query", lacking), 0, b'{"error":404}')
    for path in (f"/status?at={64 * '0'}", f"/status?at={HASHES[0].upper()}", "/status?at="):
        rows.ends(("query", path), 0, b'{"error":404}')
    rows.ends(("query", f"/connect?at={HASHES[2]}"), 0, b'{"error":404}')


# ---- stops and faults


def blocks_after(lines):
    """How many blocks there are after so many lines: three connect one each, and one takes one
    back."""
    return lines if lines < 4 else 2


def stops(rows):
    rows.heading("a stop at any moment keeps what was answered, and the feed leads on from it")
    rows.store(THREE_THEN_BACK)
    rows.ends(("apply",), 0, THREE_THEN_TWO)
    status = "query", "/status"
    for moment in range(len(rows.world.site.steps) + 1):
        for fill in FILLS:
            for keep in (0, 30, 200, CUTS_NOTHING):
                kept, led, last = rows.crash(moment, fill, keep, status, ("apply",), status)
                lines = rows.world.shown(0, moment).count(b"\n") - 1
                allowed = [status_text(blocks_after(lines + more)) for more in (0, 1)]
                assert kept[0] == 0 and kept[1] in allowed
                assert led[0] == 0 and last == (0, status_text(2))
                rows.reopen(moment, fill, keep)


def ended_by(call):
    """How an `apply` of one block and a disconnect ends whose call of this number fails, and what
    it shows. Calls 0 to 7 open the store and 8 hears both lines; 9 to 12 write the block's record
    and its gate and sync each, and 13 shows the answer; 14 to 18 do the same of the disconnect; 19
    hears the end."""
    status = {8: 5, 19: 5, 13: 6, 18: 6}.get(call, 4 if call < 18 else 0)
    return status, b"" if call < 14 else OKS[0] if call < 19 else OKS[0] + NONE


def blocks_left(call, fill):
    """How many blocks a crash leaves then: until a gate's write its record doesn't count, and from
    its sync on it does."""
    if call in (11, 12):
        return int(fill != 0)
    return int(call in (13, 14, 15) or (call in (16, 17) and fill == 0))


def faults(rows):
    rows.heading("each call of an apply fails, and a stop afterwards")
    for call in range(21):
        rows.store(line(BLOCKS[0]) + b"disconnect\n")
        rows.fail(call)
        rows.ends(("apply",), *ended_by(call))
        for fill in FILLS:
            now = len(rows.world.site.steps)
            (left,) = rows.crash(now, fill, CUTS_NOTHING, ("query", "/status"))
            assert left == (0, status_text(blocks_left(call, fill)))


# the calls of an opening and of a making behind which a run goes on
OPENED, MADE = 8, 10


def query_faults(rows):
    rows.heading("each call of a query fails")
    for call in range(OPENED + 2):
        rows.store(line(BLOCKS[0]))
        rows.ends(("apply",), 0, OKS[0])
        rows.restart(rows.world.now(), 0, CUTS_NOTHING)
        rows.fail(call)
        status, told = rows.run("query", "/status")
        assert status == (4 if call < OPENED else 6 if call == OPENED else 0)
        assert told == (b"" if status else status_text(1))
        for fill in FILLS:
            rows.reopen(rows.world.now(), fill, CUTS_NOTHING)


def left(rows, moment, fill, keep):
    """What a stop leaves of files that are made a store: what a query shows, and what is opened."""
    ((status, told),) = rows.crash(moment, fill, keep, ("query", "/status"))
    assert status == 0 or (status, told[:11]) == (3, b"not a store")
    rows.reopen(moment, fill, keep)
    return status


def makings(rows):
    for words, calls in ((("init", "regtest", "100"), 0), (("drill", "2"), 24)):
        rows.heading(f"each call of {' '.join(words)} fails, and a stop afterwards")
        for call in range(MADE + calls + 2):
            rows.fresh()
            rows.fail(call)
            status, told = rows.run(*words)
            assert status == (4 if call < MADE + calls else 6 if call == MADE + calls else 0)
            assert (told == b"") == (status != 0)
            for fill in FILLS:
                # from the gate's sync on the files are a store
                stands = left(rows, rows.world.now(), fill, CUTS_NOTHING) == 0
                assert stands or call < MADE
        rows.heading(f"a stop at each moment of {' '.join(words)}")
        rows.run(*words)
        for moment in range(rows.world.now() + 1):
            for fill in FILLS:
                for keep in (0, CUTS_NOTHING):
                    # the making's calls but for the two lengths are moments
                    assert left(rows, moment, fill, keep) == 0 or moment < MADE - 2


# ---- old stores


def put_old(rows, commands):
    rows.fresh()
    rows.overwrite("A", 0, old_files.old_file_of(commands))
    rows.overwrite("B", 0, CLOSED)


def migrates(rows):
    rows.heading("a store of version 1 is migrated once")
    put_old(rows, [payload_of(BLOCKS[0])])
    rows.ends(("apply",), 3, b"not a store a 6\n")
    rows.ends(("migrate",), 0, b"ok 1\n")
    rows.blocks(1)
    rows.ends(("migrate",), 3, b"not a store b 6\n")
    rows.heading("a command that is refused, and a payload that is none")
    put_old(rows, [DISCONNECT])
    rows.ends(("migrate",), 10, b"old 0 refused 11\n")
    assert len(rows.world.site.files["A"]) == 33
    rows.file("A")
    put_old(rows, [b"\2"])
    rows.ends(("migrate",), 3, b"not a store a 26\n")
    rows.heading("each call of a migration fails, and a further one")
    # calls 0 to 12 open the old store and make the new one's file, and 13 shows the line
    for call in range(15):
        put_old(rows, [payload_of(BLOCKS[0])])
        rows.fail(rows.world.site.calls + call)
        status, _ = rows.run("migrate")
        assert status == (4 if call < 13 else 6 if call == 13 else 0)
        further, _ = rows.run("migrate")
        assert status == 0 or further in (0, 3)
        rows.blocks(1)


# ---- short calls


def short_calls(rows):
    rows.heading("over short calls a fold shows what it shows over whole ones")
    for portion in PORTIONS:
        rows.fresh()
        rows.feed(BAD_LINES)
        assert rows.short(portion, 0, "fold", "regtest") == (0, AFTER_BAD_LINES, 0)
    rows.heading("each byte is heard and shown by a call of its own")
    rows.feed(b"\nconnect\n")
    assert rows.short("byte", 0, "fold", "lab") == (0, 2 * b"refused 1\n", 0)
    assert len(rows.world.site.steps) == 9 + 1 + 20
    rows.now()
    rows.heading("an apply shows and writes what it does over whole calls")
    files = []
    for portion in (None, *PORTIONS):
        rows.store(THREE)
        words = ("apply",)
        ended = rows.short(portion, ALL, *words)[:2] if portion else rows.run(*words)
        assert ended == (0, b"".join(OKS))
        files.append(rows.world.site.files)
        rows.files(files[0]["A"])
    rows.heading("a write that fails halfway leaves the blocks that were answered, or one more")
    # Each block is two writes: its record behind a closed gate, of which a portion is left, and the
    # one byte of its gate, of which the portion is all. So where a gate's write fails the files
    # have the block too, whose answer wasn't shown.
    for portion in PORTIONS:
        for writes in range(6):
            rows.store(THREE)
            shown = b"".join(OKS[: writes // 2])
            assert rows.short(portion, writes, "apply") == (4, shown, 1)
            rows.blocks((writes + 1) // 2)
            rows.feed(THREE)
            rows.run("apply")
            rows.blocks(3)


# ---- a site by itself


def feeds(rows):
    rows.heading("a connect has one space and pairs of digits, and a disconnect stands alone")
    commands = [
        b"connect ",
        b"connect 00ff",
        b"connect aBCd09",
        b"connect 0123456789abcdefABCDEF",
        b"disconnect",
    ]
    others = [
        b"",
        b"connect",
        b"connect 0",
        b"connect  00",
        b"connect 00 ",
        b"connect 0g",
        b"connect 0g00",
        b"connect 000g",
        b"Connect 00",
        b" connect 00",
        b"connect\t00",
        b"connect 00\r",
        b"disconnect ",
    ]
    rows.feed(b"\n".join(commands + others))
    rows.lines(len(commands + others))
    assert [told.endswith("no command") for told in rows.stdout[-18:]] == 5 * [False] + 13 * [True]
    rows.heading("a line feed ends a line, and a last line needs none")
    rows.feed(b"a\n\nbc")
    rows.lines(5)
    told = ["a: no command", ": no command", "bc: no command", "end", "end"]
    assert rows.stdout[-5:] == told
    rows.heading("a line may come in many pieces")
    rows.feed((65_535, b"a"), b"\n", (300, 1000 * b"b"), b"\n")
    rows.feed(b"c")
    rows.lines(4)
    for told, size in zip(rows.stdout[-4:], (65_535, 300_000)):
        assert f".. {size} bytes, " in told
    assert rows.stdout[-2:] == ["c: no command", "end"]


def hearings(rows):
    rows.heading("what channel 0 says comes in pieces and ends")
    rows.feed(b"abcdef")
    rows.hear(4, 4, 4)
    assert rows.stdout[-3:] == ["4: 61626364", "2: 65660000", "end: 00000000"]
    rows.heading("what is shown is kept")
    rows.show(b"ok ")
    rows.show(b"7")
    assert rows.stdout[-1] == "ok 7"
    rows.heading("a hearing, a showing and a door fail in turn")
    for call in range(4):
        rows.fresh()
        rows.fail(call)
        rows.hear(4)
        rows.show(b"x")
        rows.visit("public")
    rows.heading("a record has its length before it and a closed gate behind it")
    rows.frame(b"abc")
    assert rows.stdout[-1] == b"\3\0\0\0abc\0".hex()
    rows.frame((5000, b"\7"))
    rows.heading("large values are taken")
    large = 1000, b"\7"
    rows.feed(large)
    rows.hear(1000)
    rows.show(large)
    rows.overwrite("A", 0, bytes_of(large))
    # a run syncs the file, which is no store's
    rows.ends(("query", "/status"), 3, b"not a store b 0\n")
    rows.restart(len(rows.world.site.steps), 0, 0)
    rows.file("A")
    rows.show(b"x")
    assert rows.world.site.files["A"] == bytes_of(large)
    assert rows.stdout[-1] == printed(bytes_of(large)) + "not a store b 0\\0ax"


def two_links(rows, *, public=(), operator=()):
    rows.fresh()
    rows.link("operator", *operator)
    rows.link("public", *public)


def links(rows):
    rows.heading("a piece that is longer than the room comes in parts")
    rows.link("public", b"abcdefghij")
    rows.visit("public", 4, 1, 4, 4, 4)
    rows.heading("empty bytes are passed over, and behind the script there is nothing yet")
    rows.link("operator", (0, b"x"), ".", b"x", "$")
    rows.visit("operator", 4, 4, 4, 4)
    rows.heading("two doors share the numbers")
    two_links(rows)
    for door in ("public", "public", "operator", "operator"):
        rows.visit(door)
    assert rows.stdout[-4:] == ["link 1", "nobody", "link 2", "nobody"]
    rows.heading("each door gives its own links")
    two_links(rows, public=[b"pub"], operator=[b"op"])
    rows.visit("public", 4)
    rows.visit("operator", 4)
    rows.heading("a link waits on where the door fails")
    two_links(rows)
    rows.fail(0)
    rows.visit("public")
    rows.visit("public")
    assert rows.stdout[-2:] == ["failed", "link 1"]
    rows.heading("new links get new numbers after a crash")
    two_links(rows)
    rows.visit("public")
    rows.restart(len(rows.world.site.steps), 0, 0)
    rows.visit("operator")
    rows.link("operator", b"new")
    rows.visit("operator", 4)
    assert rows.stdout[-1] == "link 2"
    rows.heading("a link comes, is heard, given up and shut, at a moment each")
    rows.link("public", b"ab")
    rows.visit("public", 4)
    rows.now()
    assert rows.stdout[-1] == "moment 4"
    rows.heading("many links come")
    for number in range(1, 301):
        rows.link("public", (1000, b"\7"))
        rows.visit("public")
        assert rows.stdout[-1] == f"link {number}"


def made():
    """Every row, and the lines for them."""
    rows = Rows()
    for part in (folds, usage, inits, applies, queries):
        part(rows)
    for part in (stops, faults, query_faults, makings, migrates, short_calls):
        part(rows)
    for part in (feeds, hearings, links):
        part(rows)
    parts = serve_rows.served, desk_rows.desks, holder_rows.holders, store_rows.stores
    parts += summed_rows.stores, summed_rows.runs, follow_rows.follows
    for others in (part() for part in parts):
        rows.stdin += others.stdin
        rows.stdout += others.stdout
    return rows.stdin, rows.stdout
