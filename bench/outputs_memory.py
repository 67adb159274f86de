#!/usr/bin/env python3
"""Measures the memory that unspent outputs and their runs of satoshis take.

    python3 bench/outputs_memory.py [--program PATH] [OUTPUTS..]

has `apply` carry out blocks on a store of depth 1 in a temporary folder, and reads behind each how
much memory the program has. The coinbase of each block makes 18,000 outputs of one run each, with
scripts as pay-to-taproot has them. In further chains the block's other transactions spend all that
the coinbase before made, in an order that chance makes, 4 or 18 of them into one output, which
holds as many runs. It prints, of each chain, what an output takes: the memory behind so many
outputs that the coinbases made (1,080,000 without a word), less that behind a tenth of them, for
each output that came between; and what a run takes beyond the first. Nothing here is proved.
bench/all.py builds the program.
"""

import pathlib
import random
import subprocess
import sys
import tempfile

from blocks import SUBSIDY, block, coinbase, connect, tx
from runs import report
from tools.programs import proved_program
from tools.words import words_of
from undo import Child

OF_A_BLOCK = 18_000
VALUE = SUBSIDY // 2 // OF_A_BLOCK
# how many runs the outputs of a chain hold
RUNS = 1, 4, 18


def taproot(chance):
    return b"\x51\x20" + chance.randbytes(32)


def merged(chance, made, runs):
    """Transactions that spend all of these outputs, so many into one."""
    order = chance.sample(made, len(made))
    for at in range(0, len(order), runs):
        yield tx(order[at : at + runs], [(runs * VALUE, taproot(chance))])


def lines(count, runs):
    """The lines of a chain's blocks."""
    chance, previous, made = random.Random(3), bytes(32), []
    for height in range(count):
        txs = list(merged(chance, made, runs)) if runs > 1 else []
        first = coinbase(height, [(VALUE, taproot(chance)) for _ in range(OF_A_BLOCK)], txs)
        made = [(first[1], place) for place in range(OF_A_BLOCK)]
        body, previous = block(previous, height, [first, *txs])
        yield connect(body)


def outputs_after(blocks, runs):
    """How many outputs stand then."""
    return OF_A_BLOCK + (blocks - 1) * OF_A_BLOCK // runs


def memory(child):
    """The memory that a program has, in bytes."""
    status = pathlib.Path(f"/proc/{child.child.pid}/status").read_text()
    return next(int(line.split()[1]) for line in status.splitlines() if "VmRSS" in line) * 1024


def memories(program, blocks, runs):
    """The memory behind each block of a chain."""
    with tempfile.TemporaryDirectory() as folder:
        for name in ("a.ox", "b.ox"):
            pathlib.Path(folder, name).touch()
        subprocess.run([program, folder, "init", "regtest", "1"], check=True, capture_output=True)
        child, found = Child([program, folder, "apply"]), []
        for line in lines(blocks, runs):
            child.give([line], 1)
            found.append(memory(child))
        if b"refused" in child.end():
            sys.exit("a block was refused")
    return found


def of_an_output(found, first, last, runs):
    """What each output takes that came between two numbers of blocks."""
    more = outputs_after(last, runs) - outputs_after(first, runs)
    return (found[last - 1] - found[first - 1]) / more


def tell(numbers, program):
    plain, found = {}, {}
    for runs in RUNS:
        found[runs] = memories(program, max(numbers) // OF_A_BLOCK, runs)
        for number in sorted(numbers):
            last = number // OF_A_BLOCK
            taken = of_an_output(found[runs], max(last // 10, 2), last, runs)
            plain.setdefault(number, taken)
            further = (taken - plain[number]) / (runs - 1) if runs > 1 else 0
            whole = found[runs][last - 1] / outputs_after(last, runs)
            print(
                f"{number:9,} outputs made, {runs:2} runs each: {taken:6.1f} bytes an output,"
                f" {further:5.1f} a further run, {whole:6.1f} with all else",
                flush=True,
            )
            size = f"{number:,} outputs made"
            if runs == 1:
                report("memory an output of one run", size, "bytes", taken)
            else:
                report(f"memory a further run, of {runs} an output", size, "bytes", further)


def main():
    words = words_of(__doc__)
    words.add_argument("--program", default=proved_program("ox_main"), metavar="PATH")
    words.add_argument("numbers", nargs="*", type=int, default=[1_080_000], metavar="OUTPUTS")
    said = words.parse_args()
    tell(said.numbers, said.program)


if __name__ == "__main__":
    main()
