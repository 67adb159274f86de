#!/usr/bin/env python3
"""Times `fold regtest` over blocks that reveal inscriptions and move runes, beside a plain Rust
program of these rules.

    python3 bench/index_blocks.py [BLOCKS]

makes a chain of as many blocks as the number says (4,000 without a word), each of which but the
first two has 100 transactions that reveal an inscription of 60 bytes and 100 that spend an output
with a balance into two, by a runestone with an edict. The programs run in turn, three times, over
the first tenth of it and over all; it prints, of the runs that took least, blocks a second of
processor time. Then each is given the first tenth, what is between, and the last tenth, three times
in turn, and the processor time that it has had is read before and behind each: it prints the least
time of the last tenth beside that of the first. At last it prints the memory that an inscription
and a balance take: a chain of half as many blocks is folded with and without envelopes, and with
and without runestones. The plain program has hash maps, but for the runs of satoshis. Nothing here
is proved. bench/all.py builds both programs.
"""

import pathlib
import random
import tempfile

from blocks import SUBSIDY, block, coinbase, connect, key, push, runestone, tx
from runs import RUNS, in_another_process, least, report, write_part
from tools.programs import plain_program, proved_program
from tools.words import words_of
from undo import Child, lines_of

PROGRAMS = {"ox": proved_program("ox_main"), "plain": plain_program("index")}
EACH = 100
TYPE = b"text/plain;charset=utf-8"


def reveal(chance, origin, value, has_envelope):
    """A transaction whose witness has a script, with an envelope or with as many bytes in a push,
    and a control block."""
    inner = b"\1\1" + push(TYPE) + b"\0" + push(chance.randbytes(60))
    script = b"\0\x63\3ord" + inner + b"\x68" if has_envelope else push(bytes(len(inner) + 6))
    return tx([origin], [(value, key(chance))], witness=[script, b"\xc0" + bytes(32)])


class Blocks:
    """Makes blocks, one on the other."""

    def __init__(self, reveals, runes):
        self.reveals, self.runes = reveals, runes
        self.chance = random.Random(13)
        # outputs to reveal at, and those with a balance: an outpoint, its value and how much of the
        # rune it has
        self.fresh, self.held = [], []

    def etch(self):
        """All outputs that are to have a balance, spent into as many, with a part of a new rune
        each."""
        each = 10**30 // EACH
        outputs = [(value, key(self.chance)) for _, value, _ in self.held]
        stone = runestone(2, 1, 6, 10**30, 0, 0, 0, 0, EACH + 1) if self.runes else b"\x6a"
        body, txid = tx([origin for origin, _, _ in self.held], [*outputs, (0, stone)])
        self.held = [((txid, at), value, each) for at, (value, _) in enumerate(outputs)]
        return body, txid

    def split(self, new):
        """One output with a balance, spent into two."""
        held, chance = self.held, self.chance
        at = chance.randrange(len(held))
        origin, value, amount = held[at]
        held[at] = held[-1]
        held.pop()
        # the rune of block 1, transaction 1
        stone = runestone(0, 1, 1, amount // 2, 1) if self.runes else b"\x6a"
        values = value - value // 2, value // 2
        body, txid = tx([origin], [*((half, key(chance)) for half in values), (0, stone)])
        amounts = amount - amount // 2, amount // 2
        new += [((txid, at), *pair) for at, pair in enumerate(zip(values, amounts))]
        return body, txid

    def txs(self, height):
        """The transactions of the block at this height, with their ids."""
        count = 2 * EACH if height == 0 else EACH
        values = [SUBSIDY // count] * count
        outputs, txs, new = [(value, key(self.chance)) for value in values], [], []
        if height == 1:
            txs.append(self.etch())
        elif height > 1:
            txs += [self.split(new) for _ in range(EACH)]
        txs += [reveal(self.chance, origin, value, self.reveals) for origin, value in self.fresh]
        first = coinbase(height, outputs, txs)
        points = [((first[1], at), value) for at, value in enumerate(values)]
        self.fresh = points[:EACH]
        self.held += new + [(origin, value, 0) for origin, value in points[EACH:]]
        return [first, *txs]


def write_chain(path, count, reveals=True, runes=True):
    """The chain's feed. Answers the end of each line in it."""
    blocks, previous, ends = Blocks(reveals, runes), bytes(32), []
    with open(path, "wb") as feed:
        for height in range(count):
            body, previous = block(previous, height, blocks.txs(height))
            feed.write(connect(body))
            ends.append(feed.tell())
    return ends


def commands(folder):
    return {"ox": [PROGRAMS["ox"], folder, "fold", "regtest"], "plain": [PROGRAMS["plain"]]}


def tell_tenths(folder, whole, ends):
    """What the last tenth of a chain takes beside the first."""
    tenth, most = len(ends) // 10, len(ends)
    taken = {name: [] for name in commands(folder)}
    for _ in range(RUNS):
        for name, words in commands(folder).items():
            child = Child(words)
            first = child.give(lines_of(whole, ends, 0, tenth), tenth)
            child.give(lines_of(whole, ends, tenth, most - tenth), most - 2 * tenth)
            last = child.give(lines_of(whole, ends, most - tenth, most), tenth)
            taken[name].append((first, last))
            child.end()
    for name, pairs in taken.items():
        first, last = (min(column) for column in zip(*pairs))
        print(
            f"{name:5}: the last {tenth} blocks take {last / first:.2f} of the time of the first"
            f" {tenth}",
            flush=True,
        )


def tell_memory(folder, count):
    """What an inscription takes, and a balance."""
    most = {}
    for kind in ((True, True), (False, True), (True, False)):
        feed = folder / "feed"
        in_another_process(write_chain, feed, count, *kind)
        rows = least(commands(folder), feed, runs=1, lines=count)
        most[kind] = {name: memory for name, (_, memory) in rows.items()}
    each = {}
    for name in commands(folder):
        without = most[False, True][name], most[True, False][name]
        each[name] = [(most[True, True][name] - less) / (EACH * (count - 1)) for less in without]
        inscription, balance = each[name]
        print(f"{name:5}: {inscription:.0f} bytes an inscription, {balance:.0f} a balance")
    for work, *pair in zip(("an inscription", "a balance"), each["ox"], each["plain"]):
        report(f"{work} in memory", f"{count:,} blocks", "bytes", *pair)


def main():
    words = words_of(__doc__)
    words.add_argument("blocks", nargs="?", type=int, default=4000, help="of the chain (4,000)")
    most = words.parse_args().blocks
    tenth = most // 10
    with tempfile.TemporaryDirectory() as folder:
        folder = pathlib.Path(folder)
        whole, part = folder / "whole", folder / "part"
        ends = in_another_process(write_chain, whole, most)
        for count in (tenth, most):
            write_part(whole, part, ends[count - 1])
            rows = least(commands(folder), part, lines=count)
            for name, (it, _) in rows.items():
                print(f"{count:6} blocks, {name:5}: {count / it:8.0f} blocks a second")
            rates = [count / rows[name][0] for name in ("ox", "plain")]
            print(f"       ox to plain: {rates[0] / rates[1]:.2f}", flush=True)
            work = "blocks of inscriptions and runes"
            report(work, f"{count:,} blocks", "blocks a second", *rates)
        tell_tenths(folder, whole, ends)
        tell_memory(folder, most // 2)


if __name__ == "__main__":
    main()
