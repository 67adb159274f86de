#!/usr/bin/env python3
"""Times `fold regtest` over a large feed, beside `cat` of the feed and a plain C program.

    python3 bench/fold_feed.py [MEGABYTES..]

makes a feed of so many megabytes (50 and 500 without a word) in a temporary folder: blocks of one
transaction with scripts of up to a megabyte, each following the one before, blocks that are refused
at their end, and lines that are too long. It runs each program over it five times, prints the least
processor time as megabytes of feed a second, and the ratio of the built program to the plain one,
which finds lines, decodes the hex, hashes headers and what stands behind them, and checks nothing.
Nothing here is proved. bench/all.py builds the program, and this compiles the plain one.
"""

import pathlib
import random
import shutil
import subprocess
import sys
import tempfile

from blocks import SUBSIDY, connect
from runs import report, run
from tools import bitcoin
from tools.bitcoin import string, twice
from tools.programs import TOP, proved_program
from tools.words import numbers

PROGRAM = proved_program("ox_main")
SOURCE = TOP / "bench" / "plain" / "fold_feed.c"
RUNS = 5


def block(previous, script):
    """A block of one transaction, a coinbase whose one output has this script; and its hash."""
    inputs = b"\x01" + bytes(32) + b"\xff" * 4 + b"\x03abc" + b"\xff" * 4
    outputs = b"\x01" + SUBSIDY.to_bytes(8, "little") + string(script)
    tx = (1).to_bytes(4, "little") + inputs + outputs + bytes(4)
    return bitcoin.block(previous, twice(tx), [tx])


def write_feed(path, size):
    """A feed of at least `size` bytes. Answers how many lines it has."""
    chance = random.Random(7)
    previous, lines, written = bytes(32), 0, 0
    with open(path, "wb") as feed:
        while written < size:
            script = chance.randbytes(chance.choice([200, 20_000, 300_000, 1_000_000]))
            bytes_, hash_ = block(previous, script)
            kind = chance.randrange(10)
            if kind == 0:
                shown = connect(bytes_[:-1])
            elif kind == 1 and size >= 50_000_000:
                shown = connect(bytes_ * (8_100_000 // (2 * len(bytes_)) + 1))
            else:
                shown = connect(bytes_)
                previous = hash_
            feed.write(shown)
            written += len(shown)
            lines += 1
    return lines, written


def rate(command, feed, size):
    """The megabytes of feed a second of the run that took least, and what it showed."""
    best, shown = min(run(command, feed)[::2] for _ in range(RUNS))
    return size / 1e6 / best, shown


def compare(plain, folder, megabytes):
    feed = folder / "feed"
    lines, size = write_feed(feed, megabytes * 1_000_000)
    commands = {
        "cat": ["sh", "-c", "exec cat > /dev/null"],
        "plain C": [plain],
        "ox": [PROGRAM, folder, "fold", "regtest"],
    }
    rates, shown = {}, b""
    for name, command in commands.items():
        rates[name], shown = rate(command, feed, size)
        print(f"{name:8} {rates[name]:8.0f} MB of feed a second")
    if shown.count(b"\n") != lines:
        sys.exit("not each line was answered by one")
    ratio = rates["ox"] / rates["plain C"]
    print(f"{lines} lines, {size / 1e6:.0f} MB; ox_main to plain C: {ratio:.2f}", flush=True)
    report("a feed", f"{megabytes} MB", "MB a second", rates["ox"], rates["plain C"])


def main():
    sizes = numbers(__doc__, "MEGABYTES", [50, 500], "of a feed")
    compilers = filter(None, map(shutil.which, ("cc", "gcc", "clang")))
    compiler = next(compilers, "/opt/rattle/toolchain/bin/clang")
    with tempfile.TemporaryDirectory() as folder:
        folder = pathlib.Path(folder)
        plain = folder / "plain"
        subprocess.run([compiler, "-O2", "-o", plain, SOURCE], check=True)
        for megabytes in sizes:
            compare(plain, folder, megabytes)


if __name__ == "__main__":
    main()
