#!/usr/bin/env python3
"""Feeds the program lines that chance makes, and looks whether it answers them as the rules do.

    python3 checks/random_feeds.py [SECONDS [SEED [PROGRAM]]]

Each feed has some two hundred lines: blocks that come next, blocks with bytes that were changed,
left out or put in, blocks that came before, disconnects, and bytes that are no command. `fold` and
`apply` have to answer each line as checks/rows/worlds.py does, which shares nothing with the
library, and to end with status 0; and the files have to be those that the accepted lines leave. It
goes on for SECONDS (an hour without a word), and ends with `passed` and status 0. At the first feed
that is answered otherwise it tells which, keeps its folder, and ends with status 1. SEED is 1 and
PROGRAM is crates/ox_main/out/ox_main without a word.
"""

import itertools
import pathlib
import random
import shutil
import subprocess
import sys
import tempfile
import time

import store_files
from chain import SHORT, block_of, coinbase_to, line, transaction
from kills import Failed, demand
from rows.worlds import turned_by
from store_files import Disk
from tools.bitcoin import SUBSIDY
from tools.programs import TOP, proved_program
from tools.words import words_of

PROGRAM = proved_program("ox_main")
LINES = 200
# as many blocks as `fold` keeps
PROFILE, DEPTH = "regtest", 1000
HOUR = 3_600


class Chain:
    """Blocks that come next on a stack, each with a transaction that spends an output."""

    def __init__(self, chance):
        self.chance, self.number = chance, 0

    def next(self, stack):
        self.number += 1
        txs, outputs = [coinbase_to(self.number, [(SUBSIDY, SHORT)])], stack.index.outputs
        if outputs and self.chance.randrange(2):
            (txid, at), row = self.chance.choice(outputs)
            value = sum(many for _, many in row.sats)
            part = self.chance.randrange(value + 1)
            into = [(part, SHORT), (value - part, b"\x6a" + self.chance.randbytes(9))]
            txs.append(transaction([(txid, at, b"")], into))
        return block_of(stack.tip() or bytes(32), txs)[0]


def spoilt(chance, block):
    """A block with some bytes changed, left out or put in."""
    block = bytearray(block)
    for _ in range(chance.choice([1, 1, 1, 2, 8])):
        at = chance.randrange(len(block))
        kind = chance.randrange(4)
        if kind == 0:
            block[at] = chance.randrange(256)
        elif kind == 1:
            del block[at : at + chance.choice([1, 4, 40])]
        elif kind == 2:
            block[at:at] = chance.choice([b"\xfe" + 4 * b"\xff", b"\0", chance.randbytes(3)])
        else:
            block = block[:at] + block[: chance.randrange(2)]
        block = block or bytearray(1)
    return bytes(block)


def noise(chance):
    """Bytes that are hardly a command."""
    text = chance.choice(
        [b"connect ", b"disconnect", b"", b"connect", b"connect 0", b" connect 00"]
    )
    more = chance.choice([b"", chance.randbytes(20), b"0g", b" ", b"00"])
    return (text + more).replace(b"\n", b"") + b"\n"


def feed_of(chance):
    """A feed, the answers to its lines, and the store that it leaves."""
    chain, store = Chain(chance), store_files.make(Disk(), PROFILE, DEPTH)
    feed, answers, old = [], [], []
    for _ in range(LINES):
        block = chain.next(store.stack)
        kind = chance.randrange(10)
        if kind < 5:
            said = line(block)
        elif kind < 7:
            said = line(spoilt(chance, block))
        elif kind == 7:
            said = b"disconnect\n"
        elif kind == 8 and old:
            said = line(chance.choice(old))
        else:
            said = noise(chance)
        old.append(block)
        stack, payload, told = turned_by(store.stack, said[:-1])
        if payload is not None:
            store.commit(stack, payload)
        feed.append(said)
        answers.append(told)
    return b"".join(feed), b"".join(answers), store


def try_feed(program, folder, chance):
    """One feed, by `fold` and by `apply`."""
    feed, answers, store = feed_of(chance)
    (folder / "feed").write_bytes(feed)
    for words in (["init", PROFILE, str(DEPTH)], ["fold", PROFILE], ["apply"]):
        ran = subprocess.run([program, folder, *words], input=feed, stdout=subprocess.PIPE)
        wanted = b"ok empty\n" if words[0] == "init" else answers
        demand(ran.returncode == 0, f"{words[0]} ended with {ran.returncode}")
        pairs = itertools.zip_longest(ran.stdout.splitlines(), wanted.splitlines())
        for number, (got, told) in enumerate(pairs):
            demand(got == told, f"{words[0]} answered line {number} by {got}, not by {told}")
    got = tuple((folder / name).read_bytes() for name in ("a.ox", "b.ox"))
    demand(got == store_files.bytes_in(store), "the files have other bytes")


def main():
    words = words_of(__doc__)
    words.add_argument("seconds", nargs="?", type=int, default=HOUR, help="how long (an hour)")
    words.add_argument("seed", nargs="?", type=int, default=1, help="of all chances (1)")
    words.add_argument("program", nargs="?", type=pathlib.Path, default=PROGRAM)
    said = words.parse_args()
    seconds, program = said.seconds, said.program.resolve()
    if not program.exists():
        sys.exit(f"{program} isn't built")
    out, chance, count = TOP / "checks" / "out", random.Random(said.seed), 0
    out.mkdir(exist_ok=True)
    ends = time.monotonic() + seconds
    while time.monotonic() < ends:
        folder = pathlib.Path(tempfile.mkdtemp(dir=out))
        try:
            try_feed(program, folder, chance)
        except Failed as failed:
            print(f"FAILED: feed {count}: {failed}; it is in {folder}")
            sys.exit(1)
        shutil.rmtree(folder)
        count += 1
    print(f"passed: {count} feeds of {LINES} lines were answered as the rules do")


if __name__ == "__main__":
    main()
