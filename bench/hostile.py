#!/usr/bin/env python3
"""Times `fold regtest` over blocks that ask for as much work as they can, each beside an honest one
of as many bytes and items.

    python3 bench/hostile.py

The hostile blocks are those of checks/hostile_blocks.py. An honest one has as many bytes, and as
many items of scripts, transactions, edicts, inputs or balances; it may have them in more
transactions, or in other outputs. What a block takes is the processor time of its chain without
that of the chain below it, of each the least of five runs. A hostile block should take at most
twice the time of the honest one, and at ten times the size at most twelve times. bench/all.py
builds the program.
"""

import sys
import tempfile

from runs import least, report
from tools.bitcoin import SUBSIDY
from tools.programs import TOP, proved_program
from tools.words import no_words

sys.path.append(str(TOP / "checks"))

import hostile_blocks
from chain import SHORT, line, transaction
from hostile_blocks import Chain, etched, id_of, runestone, spread, with_script, with_tapscript

OX = proved_program("ox_main")
RUNS = 5
TWICE, TWELVE = 2, 12
# the least ratio wanted of the honest block's time and the hostile one's
HALF = 0.5


def plain_script(size):
    return with_script(b"\x51" * (size + 2))


def plain_tapscript(size):
    return with_tapscript(b"\x51" * size)


def pushes_of_three(size):
    return with_tapscript(size // 6 * b"\0\x51\3ord")


def plain_stones(count):
    """Transactions that each keep what an output holds, by a stone that points to it."""
    chain = Chain()
    chain.add()
    chain.add()
    held, share = spread(chain, count), SUBSIDY // count
    into = [(share, SHORT), (0, runestone(22, 0))]
    chain.add([transaction([(held, at, b"")], into) for at in range(count)])
    return chain.blocks


def many_stones(count, stones=10, outputs=10):
    """As many edicts in ten transactions, each of a part of one rune."""
    chain = Chain()
    chain.add()
    chain.add()
    held = spread(chain, stones)
    height = len(chain.blocks) - 2
    first, then = (height, 1), (0, 0)
    txs = []
    for stone in range(stones):
        deals = [(*(then if at else first), 1, at % outputs) for at in range(count // stones)]
        numbers = (number for deal in deals for number in deal)
        into = [*(outputs - 1) * [(SUBSIDY // 1_000, SHORT)], (0, runestone(0, *numbers))]
        txs.append(transaction([(held, stone, b"")], into))
    chain.add(txs)
    return chain.blocks


def many_spends(count, each=100):
    """As many inputs in transactions of a hundred each."""
    chain = Chain()
    paid, share = chain.parts(count), SUBSIDY // count
    txs = []
    for first in range(0, count, each):
        origins = [(paid, at, b"") for at in reversed(range(first, first + each))]
        txs.append(transaction(origins, [(share * each, SHORT)]))
    chain.add(txs)
    return chain.blocks


def many_holders(count, runes=2_000):
    """As many outputs, each of which holds 2,000 runes and moves once."""
    chain = Chain()
    chain.add()
    chain.add()
    origins = [(txid, 0, b"") for txid in etched(chain, runes)]
    height = len(chain.blocks) - 1
    deals = [(0 if rune else height, 1, 0, count + 1) for rune in range(runes)]
    value = SUBSIDY // runes * runes // count
    stone = runestone(0, *(number for deal in deals for number in deal))
    tx = transaction(origins, [*count * [(value, SHORT)], (0, stone)])
    chain.add([tx])
    chain.add([transaction([(id_of(tx), at, b"")], [(value, SHORT)]) for at in range(count)])
    return chain.blocks


# the work, the hostile block and the honest one by their size, and the greatest size; a tenth of it
# is timed too
WORKS = [
    ("empty pushes of an output", hostile_blocks.empty_pushes, plain_script, 3_990_000),
    (
        "empty pushes of a tapscript",
        hostile_blocks.empty_pushes_of_a_witness,
        plain_tapscript,
        3_990_000,
    ),
    ("one opening, then empty pushes", hostile_blocks.one_opening, plain_tapscript, 3_990_000),
    ("openings that are broken", hostile_blocks.broken_openings, pushes_of_three, 3_990_000),
    ("cenotaphs", hostile_blocks.cenotaphs, plain_stones, 20_000),
    ("edicts of one runestone", hostile_blocks.edicts, many_stones, 100_000),
    ("inputs of one transaction", hostile_blocks.inputs, many_spends, 90_000),
    ("moves of 2,000 runes", hostile_blocks.moves, many_holders, 500),
]


def seconds(blocks, folder):
    """The processor time that the last of these blocks takes."""
    took = []
    for count in (len(blocks) - 1, len(blocks)):
        feed = f"{folder}/feed"
        with open(feed, "wb") as lines:
            lines.write(b"".join(map(line, blocks[:count])))
        rows = least({"ox": [OX, folder, "fold", "regtest"]}, feed, RUNS, count)
        took.append(rows["ox"][0])
    return max(took[1] - took[0], 0.001)


def main():
    no_words(__doc__)
    with tempfile.TemporaryDirectory() as folder:
        for work, hostile, honest, most in WORKS:
            took = {}
            for size in (most // 10, most):
                took[size] = seconds(hostile(size), folder)
                beside = seconds(honest(size), folder)
                times = took[size] / beside
                print(
                    f"{work}, {size:,}: {took[size] * 1e3:.0f} ms, an honest block"
                    f" {beside * 1e3:.0f} ms, {times:.2f} times"
                    f"{'' if times <= TWICE else ', more than twice'}",
                    flush=True,
                )
                report(f"a block: {work}", f"{size:,}", "ms", took[size] * 1e3, beside * 1e3, HALF)
            grown = took[most] / took[most // 10]
            print(
                f"  ten times the size: {grown:.1f} times{'' if grown <= TWELVE else ', too much'}"
            )


if __name__ == "__main__":
    main()
