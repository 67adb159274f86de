#!/usr/bin/env python3
"""Times how a pool of runes is gathered and dealt by edicts, beside a plain Rust program of the
same work.

    python3 bench/allocation.py

has crates/ox_speed deal a pool of 1,000 runes to 10 outputs, by edicts to one output and to all,
and gather pools in a scattered order, each also at ten times the size, so that growth shows. A
block of 320 KB, with 20,000 edicts of one rune to each of 20,000 outputs, is also dealt with twice
the edicts, and with twice the outputs. The plain program has a map for each output too, and owes
all outputs what edicts give to each. bench/all.py builds both.
"""

from runs import processor_time, report
from tools.programs import plain_program, proved_program
from tools.words import no_words

PROVED, PLAIN = proved_program("ox_speed"), plain_program("allocation")
TIMES = 20
LOADS = {
    "one": ("edicts to one output", (10_000, 100_000)),
    "all": ("edicts to all outputs", (10_000, 100_000)),
    "each": ("edicts to each of 20,000 outputs", (20_000, 40_000)),
    "outputs": ("20,000 edicts to each output", (20_000, 40_000)),
    "pool": ("a pool gathered", (1_000, 10_000)),
}


def milliseconds(program, kind, count):
    """One turn's processor time, the least of three runs, and what the program answered."""
    took = []
    for _ in range(3):
        few, _ = processor_time([program, kind, str(count), "0"])
        many, answer = processor_time([program, kind, str(count), str(TIMES)])
        took.append((many - few) / TIMES * 1000)
    return min(took), answer


def main():
    no_words(__doc__)
    for kind, (work, counts) in LOADS.items():
        for count in counts:
            proved, answer = milliseconds(PROVED, kind, count)
            plain, same = milliseconds(PLAIN, kind, count)
            assert answer == same, (kind, count, answer, same)
            print(
                f"{kind} {count:,}: {proved:.2f} ms, plain Rust {plain:.2f} ms,"
                f" {proved / plain:.2f} times"
            )
            report(work, f"{count:,}", "ms", proved, plain)


if __name__ == "__main__":
    main()
