#!/usr/bin/env python3
"""Times `migrate` of a store of version 1, beside `fold` of the lines that it was fed with.

    python3 bench/migrate.py [BLOCKS..]

makes an old store of so many made blocks (10,000 without a word) in a temporary folder, and a feed
of the same blocks. It runs both three times in turn, and prints the blocks a second of processor
time of the runs that took least, and the ratio. What a migration leaves has to have all blocks.
Nothing here is proved. bench/all.py builds the program.
"""

import json
import pathlib
import sys
import tempfile

from runs import RUNS, report, run
from tools.programs import TOP, proved_program
from tools.words import numbers

sys.path.append(str(TOP / "checks"))

import made_blocks  # noqa: E402
from chain import line, payload_of  # noqa: E402
from old_files import old_file_of  # noqa: E402

PROGRAM = proved_program("ox_main")
GOAL = 0.8


def migration(folder, old, count):
    """The processor seconds of a migration."""
    (folder / "a.ox").write_bytes(old)
    (folder / "b.ox").write_bytes(b"\0")
    seconds, _, shown = run([PROGRAM, folder, "migrate"])
    _, _, status = run([PROGRAM, folder, "query", "/status"])
    if shown != f"ok {count}\n".encode() or json.loads(status)["blocks"] != count:
        sys.exit(f"`migrate` showed {shown}, and there is {status}")
    return seconds


def compare(folder, count):
    blocks = [block for block, _, _ in made_blocks.chain(count)]
    old, feed = old_file_of(map(payload_of, blocks)), folder / "feed"
    feed.write_bytes(b"".join(map(line, blocks)))
    migrated, folded = [], []
    for _ in range(RUNS):
        migrated.append(migration(folder, old, count))
        folded.append(run([PROGRAM, folder, "fold", "regtest"], feed)[0])
    rates = [count / min(times) for times in (migrated, folded)]
    print(
        f"{count:,} blocks: migrate {rates[0]:.0f} a second, fold {rates[1]:.0f}:"
        f" {rates[0] / rates[1]:.2f}",
        flush=True,
    )
    report("a migration", f"{count:,} blocks", "blocks a second", *rates, GOAL)


def main():
    counts = numbers(__doc__, "BLOCKS", [10_000], "blocks of an old store")
    with tempfile.TemporaryDirectory() as folder:
        for count in counts:
            compare(pathlib.Path(folder), count)


if __name__ == "__main__":
    main()
