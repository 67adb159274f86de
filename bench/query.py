#!/usr/bin/env python3
"""Times replies to queries over an index with inscriptions and runes, beside a plain Rust program
of the same work.

    python3 bench/query.py [OUTPUTS..]

makes blocks, each of which spends the coinbase before it into 20,000 outputs, until there are as
many outputs as each number says (20,000, 200,000 and 2,000,000 without a word): an inscription and
a balance of one of 20 runes stand on every tenth of them. A last block reveals eight inscriptions
of 390,000 bytes. Of each route but `/runes`, whose bodies are only compared, it makes paths that
name something chosen at random; satoshis are the first ones of outputs, so that a tenth of them
bear an inscription. `ox_index_rows` and the plain program run in turn, three times; each shows the
reply to each path once, and then replies to all of them again and again, or doesn't. It prints, of
the runs that took least, replies a second of the processor time that the others took (of contents
megabytes). The plain program routes by `matchit` and makes a body by `serde_json`: as structs that
are written at once, and as a tree of values first. Nothing here is proved. bench/all.py builds both
programs.
"""

import pathlib
import random
import sys
import tempfile

from blocks import SUBSIDY, block, coinbase, key, push, pushes, runestone, tx
from runs import in_another_process, least, report, run
from tools.programs import plain_program, proved_program
from tools.runes import kept_name, name_of
from tools.words import numbers

OX, PLAIN = proved_program("ox_index_rows"), plain_program("query")
PROGRAMS = {"ox": [OX], "structs": [PLAIN, "structs"], "tree": [PLAIN, "tree"]}
EACH = 20_000
TENTH = 10
RUNES = 20
AMOUNT = 1_234_500
CONTENTS, CONTENT = 8, 390_000
CONTENT_ROUTE = "content"
# the paths of a route are replied so often, behind the first time
TIMES = 100
# how many replies of each route are timed: so many that they take longer than the blocks, where
# that can be
REPLIES = {
    "status": 2_000_000,
    "blockhash": 2_000_000,
    "output": 2_000_000,
    "sat": 2_000_000,
    "inscription": 1_000_000,
    "rune": 1_000_000,
    "inscriptions": 100_000,
    "audit": 200_000,
    CONTENT_ROUTE: 50_000,
}
# how fast a route should be replied at least, by plain Rust that writes structs
GOALS = {"inscription": 0.9}
CONTROL = b"\xc0" + bytes(32)


def etch(chance, origin, place):
    """A transaction that etches a rune which says all but its name, and gets the premine."""
    terms = 8, 10**9, 10, AMOUNT * EACH // TENTH, 12, place % 2, 18, 10**6
    stone = runestone(2, 3, 1, place % 10, 3, 37 * place, 5, 0x29C9, 6, 10**30, *terms)
    return tx([origin], [(SUBSIDY // RUNES, key(chance)), (0, stone)])


def envelope_at(place):
    """The envelope of an inscription on the satoshi at a place of the transaction."""
    pointer = place.to_bytes((place.bit_length() + 7) // 8, "little")
    fields = b"\1\1" + push(b"text/plain") + b"\1\2" + push(pointer)
    return b"\0\x63\3ord" + fields + b"\0" + push(b"the place %d" % place) + b"\x68"


def spread(chance, origin, place):
    """A transaction that spends a whole subsidy into the outputs of a block. It mints a rune for
    every tenth, and reveals an inscription on the first satoshi of the same."""
    value, tenths = SUBSIDY // EACH, range(0, EACH, TENTH)
    edicts = [number for at in tenths for number in ((0, 0) if at else (1, place), (AMOUNT, at))]
    stone = runestone(20, 1, 20, place, 0, *(number for pair in edicts for number in pair))
    script = b"".join(envelope_at(value * at) for at in tenths)
    outputs = [(value, key(chance)) for _ in range(EACH)]
    return tx([origin], [*outputs, (0, stone)], witness=[script, CONTROL])


def large(chance, origin):
    """A transaction that reveals large contents."""
    bodies = (chance.randbytes(CONTENT // 2).hex().encode() for _ in range(CONTENTS))
    head = b"\0\x63\3ord\1\1" + push(b"text/plain") + b"\0"
    script = b"".join(head + pushes(body) + b"\x68" for body in bodies)
    return tx([origin], [(SUBSIDY, key(chance))], witness=[script, CONTROL])


def write_blocks(path, count):
    """The rows of a chain's blocks, of which so many have outputs. Answers the ids of their
    transactions, and that of the one with large contents."""
    chance, tip, ids = random.Random(5), bytes(32), []
    with open(path, "wb") as feed:
        feed.write(b"chain regtest 1\n")

        def put_block(height, *txs, parts=1):
            """Puts a block of a coinbase and these transactions. Answers the coinbase's id."""
            nonlocal tip
            outputs = [(SUBSIDY // parts, key(chance)) for _ in range(parts)]
            first = coinbase(height, outputs, txs)
            body, tip = block(tip, height, [first, *txs])
            feed.write(b"block " + body.hex().encode() + b"\n")
            return first[1]

        first = put_block(0, parts=RUNES)
        before = put_block(1, *(etch(chance, (first, at), at) for at in range(RUNES)))
        for place in range(count):
            body = spread(chance, (before, 0), 1 + place % RUNES)
            before = put_block(2 + place, body)
            ids.append(body[1])
        body = large(chance, (before, 0))
        put_block(2 + count, body)
    return ids, body[1]


def paths_of(route, ids, contents, count):
    """Rows that ask for so many paths of a route."""
    chance = random.Random(7)
    blocks = len(ids)

    def txid():
        return chance.choice(ids)[::-1].hex()

    def rune():
        place = 1 + chance.randrange(RUNES)
        number, spacers = kept_name(1, place), 37 * (place - 1)
        names = (name_of(number, spacers, spacer) for spacer in (".", "\u2022", "%E2%80%A2"))
        return chance.choice((f"1:{place}", *names))

    def sat():
        # the block of height 1 is the first whose subsidy is spent into the outputs of a block
        number = (1 + chance.randrange(blocks)) * SUBSIDY
        return number + chance.randrange(EACH) * (SUBSIDY // EACH)

    one = {
        "status": lambda: "/status",
        "blockhash": lambda: f"/blockhash/{chance.randrange(3 + blocks)}",
        "output": lambda: f"/output/{txid()}:{chance.randrange(EACH)}",
        "sat": lambda: f"/sat/{sat()}",
        "inscription": lambda: f"/inscription/{txid()}i{chance.randrange(EACH // TENTH)}",
        "rune": lambda: f"/rune/{rune()}",
        "inscriptions": lambda: "/inscriptions/9",
        "audit": lambda: "/audit",
        "content": lambda: f"/content/{contents[::-1].hex()}i{chance.randrange(CONTENTS)}",
    }[route]
    return "".join(f"GET {one()}\n" for _ in range(count)).encode()


def compare_replies(blocks, ids, contents, folder):
    """Ends where the programs don't say the same."""
    feed = folder / "few"
    counts = {CONTENT_ROUTE: 3}
    few = (paths_of(route, ids, contents, counts.get(route, 50)) for route in REPLIES)
    wrong = "/", "/sat/-1", "/connect", "/output/0", "/rune/99:1", "/inscription/i0"
    wrong += "/runes/0", "/runes/1", "/inscriptions/99999"
    rest = "".join(f"GET {path}\n" for path in wrong).encode()
    feed.write_bytes(b"".join([blocks.read_bytes(), *few, rest]))
    if len({run(words, feed)[2] for words in PROGRAMS.values()}) != 1:
        sys.exit("the replies differ")


def measure(feed, times):
    """The least seconds and memory of each program, which replies so often to each path."""
    return least({name: [*words, str(times)] for name, words in PROGRAMS.items()}, feed)


def tell(route, outputs, replies, base, often):
    seconds = {name: often[name][0] - base[name][0] for name in PROGRAMS}
    unit, each = ("MB", CONTENT / 1e6) if route == CONTENT_ROUTE else ("replies", 1)
    rates = {name: each * replies / it for name, it in seconds.items()}
    told = ", ".join(f"{name} {rate:,.0f}" for name, rate in rates.items())
    plain = ("structs", "tree")
    ratios = ", ".join(f"to {name} {seconds[name] / seconds['ox']:.2f}" for name in plain)
    took = ", ".join(f"{seconds[name]:.2f} of {often[name][0]:.2f} s" for name in PROGRAMS)
    print(
        f"{outputs:9,} outputs, /{route}: {told} {unit} a second; ox {ratios} ({took})",
        flush=True,
    )
    for name, goal in (("structs", GOALS.get(route)), ("tree", None)):
        work = f"/{route}, beside {name}"
        pair = rates["ox"], rates[name]
        report(work, f"{outputs:,} outputs", f"{unit} a second", *pair, goal)


def main():
    counts = numbers(__doc__, "OUTPUTS", [20_000, 200_000, 2_000_000], "unspent outputs")
    with tempfile.TemporaryDirectory() as folder:
        folder = pathlib.Path(folder)
        blocks, feed = folder / "blocks", folder / "feed"
        for outputs in counts:
            ids, contents = in_another_process(write_blocks, blocks, outputs // EACH)
            compare_replies(blocks, ids, contents, folder)
            for route, replies in REPLIES.items():
                paths = paths_of(route, ids, contents, replies // TIMES)
                feed.write_bytes(blocks.read_bytes() + paths)
                tell(route, outputs, replies, measure(feed, 1), measure(feed, 1 + TIMES))


if __name__ == "__main__":
    main()
