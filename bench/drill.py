#!/usr/bin/env python3
"""Times `drill` over a folder in memory and one on a disk, beside a plain Rust program that makes,
indexes, writes and syncs the same blocks.

    python3 bench/drill.py [--disk FOLDER] [BLOCKS..]

drills so many blocks (1,000, 10,000 and 100,000 without a word), each time in a new folder below
/dev/shm, and below FOLDER, which is bench/out/ without a word. The programs run in turn, three
times. They have to show the same line and to leave the same bytes. It prints, of the runs that took
least by the clock, blocks a second, the bytes of both files, and the most memory. Each block is
written by two writes and two waits, and each 65th command writes the whole index, so on a disk
little else counts; in memory it is the work itself. The plain program is given no word of `ox`: it
makes the blocks by docs/RULES.md, and keeps hash maps. Nothing here is proved. bench/all.py builds
both programs.
"""

import hashlib
import pathlib
import sys
import tempfile
import time

from runs import RUNS, report, run
from tools.programs import TOP, plain_program, proved_program
from tools.words import words_of

MEMORY = pathlib.Path("/dev/shm")
COUNTS = 1_000, 10_000, 100_000
# of the speed of the plain program, where the folder is in memory
GOAL = 0.8
WHERE = {"memory": "in memory", "disk": "on a disk"}


def commands(folder, count):
    return {
        "ox": [proved_program("ox_main"), folder, "drill", str(count)],
        "plain": [plain_program("drill"), folder, str(count)],
    }


def drill(place, name, count):
    """A drill in a new folder: seconds by the clock, the most memory, what was shown, and how many
    bytes the two files have, with their hash."""
    with tempfile.TemporaryDirectory(dir=place) as folder:
        begun = time.monotonic()
        _, memory, shown = run(commands(folder, count)[name])
        seconds = time.monotonic() - begun
        files = [(pathlib.Path(folder) / name).read_bytes() for name in ("a.ox", "b.ox")]
        digests = [hashlib.sha256(data).digest() for data in files]
        return seconds, memory, shown, sum(map(len, files)), *digests


def tell(kind, place, count):
    """What drills of so many blocks take at a place."""
    taken, left = {}, set()
    for _ in range(RUNS):
        for name in commands(place, count):
            seconds, memory, *end = drill(place, name, count)
            taken.setdefault(name, []).append((seconds, memory))
            left.add(tuple(end))
    if len(left) != 1:
        sys.exit("the lines or the files differ")
    ((_, size, *_),) = left
    least = {name: min(rows) for name, rows in taken.items()}
    for name, (seconds, memory) in least.items():
        print(
            f"{kind}, {count:7,} blocks, {name:5}: {count / seconds:8.0f} blocks a second,"
            f" {size:,} bytes of files, {memory:,} of memory",
            flush=True,
        )
    blocks, goal = f"{count:,} blocks", GOAL if kind == "memory" else None
    rates, bytes_ = zip(*((count / seconds, memory) for seconds, memory in least.values()))
    report(f"a drill, files {WHERE[kind]}", blocks, "blocks a second", *rates, goal)
    report(f"the memory of a drill, files {WHERE[kind]}", blocks, "bytes", *bytes_)


def main():
    words = words_of(__doc__)
    words.add_argument(
        "--disk", type=pathlib.Path, default=TOP / "bench" / "out", help="a folder on a disk"
    )
    words.add_argument("blocks", nargs="*", type=int, default=COUNTS, help="made blocks")
    said = words.parse_args()
    said.disk.mkdir(exist_ok=True)
    for count in said.blocks:
        for kind, place in (("memory", MEMORY), ("disk", said.disk)):
            tell(kind, place, count)


if __name__ == "__main__":
    main()
