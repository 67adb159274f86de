#!/usr/bin/env python3
"""Times the search for envelopes in the largest scripts, beside a scan over their items.

    python3 bench/find_envelopes.py

has crates/ox_block_rows go over scripts of 3,990,000 bytes, and over a tenth of each, so that
growth shows. bench/all.py builds it.
"""

import subprocess
import time

from runs import report
from tools.programs import proved_program
from tools.words import no_words

PROGRAM = proved_program("ox_block_rows")
TIMES = 10


def seconds(word, script):
    """Seconds of one time over a script that is spelled so, and the line that was shown."""
    took = {}
    for times in (1, 1 + TIMES):
        start = time.perf_counter()
        row = f"{word} {script}\n".encode()
        ran = subprocess.run([PROGRAM, str(times)], input=row, stdout=subprocess.PIPE, check=True)
        took[times] = time.perf_counter() - start
    return (took[1 + TIMES] - took[1]) / TIMES, ran.stdout.decode().strip()


def main():
    no_words(__doc__)
    opening = b"\0\x63\x03ord"
    for name, head, part in (
        ("empty pushes", b"", b"\0"),
        ("`0063` repeated", b"", b"\0\x63"),
        ("openings", b"", opening),
        ("envelopes", b"", opening + b"\x68"),
        ("one opening, then empty pushes", opening, b"\0"),
    ):
        for size in (399_000, 3_990_000):
            count = (size - len(head)) // len(part)
            script = f"{count} {head.hex() or '-'} {part.hex()} -"
            scan, items = seconds("items", script)
            search, found = seconds("envelopes", script)
            length = len(head) + count * len(part)
            print(
                f"{name}, {length:,} bytes: {items}, scan {scan * 1e3:.1f} ms; {found},"
                f" search {search * 1e3:.1f} ms"
            )
            report(f"a search: {name}", f"{size:,} bytes", "ms", search * 1e3, scan * 1e3)


if __name__ == "__main__":
    main()
