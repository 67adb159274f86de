#!/usr/bin/env python3
"""Times reading and hashing a block of about 1 MB, beside a plain Rust program of the same work.

    python3 bench/read_block.py [TIMES]

has crates/ox_block_rows and bench/plain/read_block read a block of 2,000 transactions with
witnesses so many times (20 without a word), and one of 200, hash each transaction both ways and
make both roots, and prints megabytes a second. What each program takes to do it once isn't counted.
bench/all.py builds both.
"""

import random
import subprocess
import time

from runs import report
from tools.bitcoin import block, transaction
from tools.programs import plain_program, proved_program
from tools.words import words_of


def make(count):
    """A block of so many transactions, whose root isn't looked at."""
    chance, txs = random.Random(1), []
    for _ in range(count):
        inputs = range(chance.choice([2, 3, 4]))
        origins = [(chance.randbytes(32), chance.randrange(4)) for _ in inputs]
        outputs = [(chance.randrange(10**9), b"\0\x14" + chance.randbytes(20)) for _ in range(2)]
        stacks = [(chance.randbytes(72), chance.randbytes(33)) for _ in inputs]
        txs.append(transaction(origins, outputs, b"", stacks, 0xFFFFFFFD)[1])
    return block(bytes(32), bytes(32), txs)[0]


def seconds(program, times, feed):
    """The seconds of a run, and what was shown."""
    start = time.perf_counter()
    done = subprocess.run([program, str(times)], input=feed, stdout=subprocess.PIPE, check=True)
    return time.perf_counter() - start, done.stdout.decode()


def both_roots(shown):
    """The roots that `ox_block_rows` shows, one over the other bit by bit, as the plain program
    shows them."""
    named = (line.rsplit(" ", 1) for line in shown.splitlines())
    roots = ("root", "witness root")
    one, other = (bytes.fromhex(value) for name, value in named if name.strip() in roots)
    return bytes(byte ^ over for byte, over in zip(one, other)).hex()


def compare(count, times):
    data = make(count)
    print(f"a block of {len(data):,} bytes, {count:,} transactions with witnesses, {times} times")
    feeds = {"ox_block_rows": f"block 0 {data.hex()} - -\n".encode(), "plain Rust": data}
    programs = dict(zip(feeds, (proved_program("ox_block_rows"), plain_program("read_block"))))
    answers, rates = {}, []
    for name, program in programs.items():
        once, _ = seconds(program, 1, feeds[name])
        often, answers[name] = seconds(program, 1 + times, feeds[name])
        rates.append(len(data) * times / (often - once) / 1e6)
        print(f"{name}: {rates[-1]:.1f} MB a second")
    same = both_roots(answers["ox_block_rows"]) == answers["plain Rust"].strip()
    print("the same answer" if same else "DIFFERENT ANSWERS")
    report("a block read and hashed", f"{count:,} transactions", "MB a second", *rates)


def main():
    words = words_of(__doc__)
    words.add_argument("times", nargs="?", type=int, default=20, help="how often (20)")
    times = words.parse_args().times
    compare(200, 10 * times)
    compare(2000, times)


if __name__ == "__main__":
    main()
