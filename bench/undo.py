#!/usr/bin/env python3
"""Times disconnects and connects, beside a plain Rust program that keeps the same.

    python3 bench/undo.py [BLOCKS..]

makes a chain as bench/fold_blocks.py does and gives the first so many blocks of it to `fold
regtest` (40, 400 and 3,992 without a word, which leave 20,000, 200,000 and 2,000,000 outputs). Then
the ten newest blocks are taken back and connected again, ten times. Before and behind each ten it
reads the processor time that the program has had, so that nothing else is counted. The programs run
in turn, three times; it prints, of the runs that took least, disconnects and connects a second.
Before that it tells what a row of a kept block takes, gone or come: by the greatest memory of an
`apply` that opens a store of 1,500 blocks of which 1,000 are kept, or one, and of the plain
program, which keeps an ordered map of runs and what 1,000 blocks changed. Nothing here is proved.
bench/all.py builds both programs.
"""

import pathlib
import subprocess
import sys
import tempfile
import threading

from fold_blocks import OX, PLAIN, SPENDS, write_chain
from runs import RUNS, in_another_process, report, run, write_part
from tools.words import numbers

TURNS = 10
OF_A_TURN = 10
DEPTH = 1000
BLOCKS_OF_A_STORE = 1500
# of a block 500 rows are gone after it, and 1,001 come
ROWS = 3 * SPENDS + 1


class Child:
    """A program that answers each line of its feed by a line."""

    def __init__(self, words):
        streams = {"stdin": subprocess.PIPE, "stdout": subprocess.PIPE}
        self.child = subprocess.Popen(words, stderr=subprocess.DEVNULL, **streams)
        self.shown = []

    def seconds(self):
        """The processor time that the program has had."""
        with open(f"/proc/{self.child.pid}/schedstat") as it:
            return int(it.read().split()[0]) / 1e9

    def give(self, lines, count):
        """Gives so many lines and hears their answers. Answers the processor time that this
        took."""
        before = self.seconds()

        def write():
            for line in lines:
                self.child.stdin.write(line)
            self.child.stdin.flush()

        writer = threading.Thread(target=write, daemon=True)
        writer.start()
        for _ in range(count):
            self.shown.append(self.child.stdout.readline())
            if not self.shown[-1]:
                sys.exit(f"{self.child.args[0]} ended early")
        writer.join()
        return self.seconds() - before

    def end(self):
        self.child.stdin.close()
        if self.child.wait():
            sys.exit(f"{self.child.args[0]} ended with {self.child.returncode}")
        return b"".join(self.shown)


def lines_of(chain, ends, first, last):
    """The lines of the blocks from one number on, before another, read as they are given."""
    with open(chain, "rb") as it:
        it.seek(ends[first - 1] if first else 0)
        for end in ends[first:last]:
            yield it.read(end - it.tell())


def measure(words, chain, ends, count):
    """The seconds of disconnects and of connects, and what was shown."""
    child = Child(words)
    child.give(lines_of(chain, ends, 0, count), count)
    newest = list(lines_of(chain, ends, count - OF_A_TURN, count))
    back = again = 0
    for _ in range(TURNS):
        back += child.give([b"disconnect\n"] * OF_A_TURN, OF_A_TURN)
        again += child.give(newest, OF_A_TURN)
    return back, again, child.end()


def tell(chain, ends, count, folder):
    programs = {"ox": [OX, folder, "fold", "regtest"], "plain": [PLAIN, "locator", str(DEPTH)]}
    runs = {name: [] for name in programs}
    for _ in range(RUNS):
        for name, words in programs.items():
            runs[name].append(measure(words, chain, ends, count))
    if len({shown for taken in runs.values() for _, _, shown in taken}) != 1:
        sys.exit("the answers differ")
    columns = {name: list(zip(*taken))[:2] for name, taken in runs.items()}
    least = {name: [min(column) for column in pair] for name, pair in columns.items()}
    outputs = 1000 + max(count - 2, 0) * (SPENDS + 1)
    turns = TURNS * OF_A_TURN
    for name, (back, again) in least.items():
        print(
            f"{outputs:9,} outputs, {name:5}: {turns / back:6.0f} disconnects a second,"
            f" {turns / again:6.0f} connects"
        )
    pairs = list(zip(least["plain"], least["ox"]))
    ratios = [plain / ox for plain, ox in pairs]
    both = sum(least["plain"]) / sum(least["ox"])
    print(
        f"       ox to plain: disconnects {ratios[0]:.2f}, connects {ratios[1]:.2f},"
        f" both {both:.2f}",
        flush=True,
    )
    for work, (plain, ox) in zip(("blocks taken back", "and connected again"), pairs):
        report(work, f"{outputs:,} outputs", "a second", turns / ox, turns / plain)


def memory_of_a_store(depth, feed, folder):
    """The most memory of opening a store of the feed's blocks."""
    store = folder / f"depth{depth}"
    store.mkdir()
    for words in ["init", "regtest", str(depth)], ["apply"]:
        run([OX, store, *words], feed)
    return run([OX, store, "apply"])[1]


def tell_memory(feed, folder):
    taken = {
        "ox": [memory_of_a_store(depth, feed, folder) for depth in (1, DEPTH)],
        "plain": [run([PLAIN, "locator", str(depth)], feed)[1] for depth in (1, DEPTH)],
    }
    each = {name: (most - least) / (DEPTH - 1) / ROWS for name, (least, most) in taken.items()}
    for name, (least, most) in taken.items():
        print(
            f"{name:5}: {each[name]:.0f} bytes a kept row; {least / 1e6:.0f} MB with one block"
            f" kept, {most / 1e6:.0f} with {DEPTH}"
        )
    report("a row of a kept block", f"{DEPTH:,} blocks", "bytes", each["ox"], each["plain"])


def main():
    counts = sorted(numbers(__doc__, "BLOCKS", [40, 400, 3992], "how many blocks a chain has"))
    with tempfile.TemporaryDirectory() as folder:
        folder = pathlib.Path(folder)
        chain, part = folder / "chain", folder / "part"
        ends = in_another_process(write_chain, chain, max(*counts, BLOCKS_OF_A_STORE))
        write_part(chain, part, ends[BLOCKS_OF_A_STORE - 1])
        tell_memory(part, folder)
        for count in counts:
            tell(chain, ends, count, folder)


if __name__ == "__main__":
    main()
