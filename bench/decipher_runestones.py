#!/usr/bin/env python3
"""Times the deciphering of large runestones, in millions of integers a second.

    python3 bench/decipher_runestones.py

has crates/ox_speed decipher many edicts and many tags, each also at ten times the size, so that
growth shows. bench/all.py builds it.
"""

import struct
import subprocess
import time

from runs import report
from tools.bitcoin import varint
from tools.programs import proved_program
from tools.words import no_words

PROGRAM = proved_program("ox_speed")


def script(integers):
    payload = b"".join(varint(n) for n in integers)
    return b"\x6a\x5d\x4e" + struct.pack("<I", len(payload)) + payload


def edicts(count):
    """Edicts of rune 1:1, 1:2 and so on, behind the tag 0."""
    return [0, 1, 1, 1000, 0] + [n for _ in range(count - 1) for n in (0, 1, 1000, 0)]


def tags(count):
    """Odd tags of two bytes, which have no field, with their values."""
    return [n for tag in range(count) for n in (2 * (tag % 4096) + 129, 5)]


def seconds(data, times):
    """The seconds of a run, and what was shown."""
    start = time.perf_counter()
    command = [PROGRAM, "stone", str(times)]
    shown = subprocess.run(command, input=data, stdout=subprocess.PIPE, check=True).stdout
    return time.perf_counter() - start, shown.decode().strip()


def main():
    no_words(__doc__)
    for name, make, counts in (
        ("edicts", edicts, (10_000, 100_000)),
        ("tags", tags, (50_000, 500_000)),
    ):
        for count in counts:
            integers = make(count)
            data = script(integers)
            (once, _), (often, answer) = seconds(data, 0), seconds(data, 10)
            rate = 10 * len(integers) / (often - once) / 1e6
            print(
                f"{count:,} {name}, {len(data):,} bytes: {rate:.1f} million integers a second;"
                f" {answer}"
            )
            report(f"a runestone of {name}", f"{count:,}", "million integers a second", rate)


if __name__ == "__main__":
    main()
