#!/usr/bin/env python3
"""Times `fold regtest` over blocks of 500 transactions, beside a plain Rust program of the same
work.

    python3 bench/fold_blocks.py [BLOCKS..]

makes a chain of as many blocks as the greatest number says (600, 2,000 and 6,000 without a word,
which leave 300,000, 1,000,000 and 3,000,000 outputs) in a temporary folder: each block but the
first two spends 500 outputs, chosen at random, into two each. It runs the programs in turn, each
three times, over the first so many blocks of it and prints, of the run that took least, blocks and
megabytes of blocks a second of processor time, and the memory that an output takes at the end; and
how many blocks a second the last tenth of the greatest number was connected in. Then it does the
same over a chain where each of these transactions has a signature and a key as its witness, to
which the coinbase commits. The plain program runs with outputs alone, and once more as one that
keeps what ours does: an ordered map of runs, by which satoshis are found, and what the newest 1,000
blocks changed; it tests commitments too. Nothing here is proved. bench/all.py builds both programs.
"""

import pathlib
import random
import tempfile

from blocks import SUBSIDY, block, coinbase, connect, key, tx
from runs import in_another_process, least, report, write_part
from tools.programs import plain_program, proved_program
from tools.words import numbers

OX, PLAIN = proved_program("ox_main"), plain_program("fold_blocks")
PLAIN_WORDS = {"plain": [], "same": ["locator", "1000"]}
SPENDS = 500
# how each form of the plain program is told
NAMES = {"plain": "outputs alone", "same": "what ours keeps"}
# with witnesses the ratio should be 0.9 of that without them at least
PART = 0.9
# the bytes of a signature and of a key
WITNESS = 72, 33


def write_chain(path, count, marked=False):
    """The chain's feed, in which the transactions that spend have witnesses or none. Answers the
    end of each line in it."""
    chance = random.Random(11)
    unspent, previous, ends = [], bytes(32), []
    with open(path, "wb") as feed:
        for height in range(count):
            parts = [SUBSIDY // SPENDS] * SPENDS if height < 2 else [SUBSIDY]
            outputs, txs = [(value, key(chance)) for value in parts], []
            new = [(0, index, value) for index, value in enumerate(parts)]
            for place in range(SPENDS if height >= 2 else 0):
                at = chance.randrange(len(unspent))
                txid, index, value = unspent[at]
                unspent[at] = unspent[-1]
                unspent.pop()
                first = chance.randint(0, value)
                witness = [chance.randbytes(length) for length in WITNESS] if marked else None
                into = [(first, key(chance)), (value - first, key(chance))]
                txs.append(tx([(txid, index)], into, witness=witness))
                new += [(place + 1, 0, first), (place + 1, 1, value - first)]
            txs.insert(0, coinbase(height, outputs, txs))
            unspent += [(txs[place][1], index, value) for place, index, value in new]
            body, previous = block(previous, height, txs)
            feed.write(connect(body))
            ends.append(feed.tell())
    return ends


def commands(folder):
    """The words that each program is run by."""
    plain = {name: [PLAIN, *words] for name, words in PLAIN_WORDS.items()}
    return {"ox": [OX, folder, "fold", "regtest"]} | plain


def tell(count, end, rows, marked, goals):
    # each block takes 500 outputs away, and adds 1,001, and one that commits to its witnesses
    outputs = 1000 + max(count - 2, 0) * (SPENDS + 1 + marked)
    for name, (seconds, memory) in rows.items():
        print(
            f"{count:6} blocks, {outputs:9,} outputs, {name:5}:"
            f" {count / seconds:8.0f} blocks a second, {end / 2e6 / seconds:6.1f} MB a second,"
            f" at most {memory / outputs:6.0f} bytes an output"
        )
    tell_ratios({name: seconds for name, (seconds, _) in rows.items()})
    for name, words in NAMES.items():
        size = f"{count:,} blocks"
        (ours, our_memory), (theirs, their_memory) = rows["ox"], rows[name]
        kind = f"{'with' if marked else 'without'} witnesses, beside {words}"
        goal = goals.get((name, count))
        report(f"blocks {kind}", size, "blocks a second", count / ours, count / theirs, goal)
        goals[name, count] = PART * theirs / ours
        if not marked:
            memories = our_memory / outputs, their_memory / outputs
            report(f"the most memory an output, beside {words}", size, "bytes", *memories)


def tell_ratios(seconds):
    ratios = (f"to {name} {seconds[name] / seconds['ox']:.2f}" for name in PLAIN_WORDS)
    print(f"       ox {', '.join(ratios)}", flush=True)


def time_chain(counts, folder, marked, goals):
    """Times both programs over the first so many blocks of a chain, and over the last tenth of it.
    The goals of a chain with witnesses are set by the one without."""
    most = counts[-1]
    tenth = most // 10
    whole, part = pathlib.Path(folder) / "whole", pathlib.Path(folder) / "part"
    ends = in_another_process(write_chain, whole, most, marked)
    times = {}
    for count in sorted({*counts, most - tenth}):
        write_part(whole, part, ends[count - 1])
        rows = least(commands(folder), part, lines=count)
        times |= {(name, count): seconds for name, (seconds, _) in rows.items()}
        if count in counts:
            tell(count, ends[count - 1], rows, marked, goals)
    last = {name: times[name, most] - times[name, most - tenth] for name in commands(folder)}
    for name, seconds in last.items():
        print(f"{name:5}: the last {tenth} blocks at {tenth / seconds:.0f} blocks a second")
    tell_ratios(last)


def main():
    given = numbers(__doc__, "BLOCKS", [600, 2000, 6000], "how many blocks a chain has")
    counts, goals = sorted(given), {}
    with tempfile.TemporaryDirectory() as folder:
        for marked in (False, True):
            print("with witnesses:" if marked else "without witnesses:")
            time_chain(counts, folder, marked, goals)


if __name__ == "__main__":
    main()
