#!/usr/bin/env python3
"""Times what a block does to the ledger of runes, beside a plain Rust program of the same rules.

    python3 bench/runes.py [OUTPUTS..]

makes etchings whose premine goes to 10,000 outputs each until as many outputs hold runes as each
number says (100,000 and 1,000,000 without a word), and then a block of 2,000 transactions that each
spend one of those: all with a runestone that gives a part to another output, all with a cenotaph,
or without either; a block of 2,000 transactions that spend none of them; and one of an etching
whose tapscript has 3,900,000 pushes. Blocks of 1,500 and 15,000 etchings, each of which spends what
the last one left, so that its output holds a rune more, are done over no others. `ox_speed` and the
plain program, which has hash maps and a list of changes to go back by, run in turn, three times;
each does the block and takes it back, as often as it is told. It prints the processor time of a
block and of a look-up, and the memory that an output with runes takes. Nothing here is proved.
bench/all.py builds both programs.
"""

import pathlib
import random
import tempfile

from blocks import coinbase, compact_size, key, put, runestone, tx
from runs import in_another_process, least, report
from tools.programs import plain_program, proved_program
from tools.words import numbers

PROGRAMS = {"ox": [proved_program("ox_speed"), "runes"], "plain": [plain_program("runes")]}
EACH = 10_000
IN_A_BLOCK = 10
LEAST_BLOCKS = 8
SPENDS = 2_000
ETCHINGS = 1_500, 15_000
LOOKS = 5
KINDS = {
    "runestones": 200,
    "cenotaphs": 200,
    "neither": 200,
    "no runes": 1_000,
    "a long tapscript": 20,
}
# 13 letters: above the least name of any height
NAME = sum(26**power for power in range(1, 13)) + 12_345


def worthless(origin, scripts, witness=None):
    """A transaction of one input whose outputs hold no satoshis, and its id."""
    return tx([origin], [(0, script) for script in scripts], witness=witness)


def put_block(feed, chance, txs):
    """A block whose header isn't looked at."""
    first, _ = coinbase(0, [(0, key(chance))])
    put(feed, bytes(80) + compact_size(len(txs) + 1) + first + b"".join(txs))


def fill(path, outputs):
    """Blocks of etchings, and the outputs that hold their premines, each with its rune's id."""
    chance = random.Random(3)
    held, height = [], 0
    with open(path, "wb") as feed:
        while len(held) < outputs or height < LEAST_BLOCKS:
            txs = []
            for place in range(1, IN_A_BLOCK + 1):
                if len(held) < outputs:
                    stone = runestone(2, 1, 6, 1_000_000 * EACH, 0, 0, 0, 0, EACH + 1)
                    scripts = [stone] + [key(chance) for _ in range(EACH)]
                    body, txid = worthless((chance.randbytes(32), 0), scripts)
                    txs.append(body)
                    held += [((txid, index), (height, place)) for index in range(1, EACH + 1)]
            put_block(feed, chance, txs)
            height += 1
    return held


def spend(chance, kind, held):
    """A transaction of a block of this kind."""
    origin, (block, place) = chance.choice(held)
    scripts = [key(chance), key(chance)]
    if kind == "runestones":
        # a block of 0 adds to the transaction of the id before, which is 0:0, so that it names no
        # rune
        scripts.append(runestone(22, 0, 0, block, place, 500, 1) if block else runestone(22, 0))
    elif kind == "cenotaphs":
        scripts.append(runestone(126, 0))
    elif kind == "no runes":
        origin = chance.randbytes(32), 0
    return worthless(origin, scripts)[0]


def put_last(feed, kind, held):
    chance = random.Random(9)
    if kind == "a long tapscript":
        witness = [bytes(3_900_000), b"\xc0" + bytes(32)]
        scripts = [key(chance), runestone(2, 1, 4, NAME)]
        body, _ = worthless((chance.randbytes(32), 0), scripts, witness)
        put_block(feed, chance, [body])
    else:
        put_block(feed, chance, [spend(chance, kind, held) for _ in range(SPENDS)])


def write_feeds(folder, outputs):
    held = fill(folder / "fill", outputs)
    filled = (folder / "fill").read_bytes()
    for kind in KINDS:
        with open(folder / kind, "wb") as feed:
            feed.write(filled)
            put_last(feed, kind, held)
    return len(filled)


def write_etchings(path, count):
    """A block of so many etchings, each of which spends what the last one left."""
    chance = random.Random(5)
    txs, origin = [], (chance.randbytes(32), 0)
    for _ in range(count):
        body, txid = worthless(origin, [key(chance), runestone(2, 1, 6, 1)])
        txs.append(body)
        origin = txid, 0
    with open(path, "wb") as feed:
        put_block(feed, chance, txs)


def measure(feed, times, looks):
    """The seconds and memory of each program."""
    counts = [str(times), str(looks)]
    return least({name: [*words, *counts] for name, words in PROGRAMS.items()}, feed)


def tell(what, size, unit, values):
    ox, plain = (values[name] for name in ("ox", "plain"))
    print(
        f"    {what}: {ox:.2f} {unit}, plain Rust {plain:.2f} {unit}, {ox / plain:.2f} times",
        flush=True,
    )
    report(what, size, unit, ox, plain)


def tell_etchings():
    for count in ETCHINGS:
        with tempfile.TemporaryDirectory() as folder:
            feed = pathlib.Path(folder) / "feed"
            write_etchings(feed, count)
            base, done = measure(feed, 0, 0), measure(feed, 1, 0)
        print(f"{count:,} etchings")
        took = {name: done[name][0] - base[name][0] for name in PROGRAMS}
        tell("a block of runes: etchings in turn", f"{count:,} etchings", "s", took)


def main():
    tell_etchings()
    for outputs in numbers(__doc__, "OUTPUTS", [100_000, 1_000_000], "outputs with runes"):
        with tempfile.TemporaryDirectory() as folder:
            folder = pathlib.Path(folder)
            filled = in_another_process(write_feeds, folder, outputs)
            size = f"{outputs:,} outputs"
            print(f"{size} hold runes")
            for kind, times in KINDS.items():
                base, done = measure(folder / kind, 0, 0), measure(folder / kind, times, 0)
                took = {name: (done[name][0] - base[name][0]) / times * 1e3 for name in PROGRAMS}
                tell(f"a block of runes: {kind}", size, "ms", took)
            looked, base = (measure(folder / "no runes", 0, looks) for looks in (LOOKS, 0))
            each = LOOKS * outputs / 1e6
            took = {name: (looked[name][0] - base[name][0]) / each for name in PROGRAMS}
            tell("a look-up of balances", size, "microseconds", took)
            memory = {name: (base[name][1] - filled) / outputs for name in PROGRAMS}
            tell("the most memory an output with runes", size, "bytes", memory)


if __name__ == "__main__":
    main()
