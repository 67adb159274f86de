#!/usr/bin/env python3
"""Times which outputs scripts have, beside plain Rust programs of the same work.

    python3 bench/holders.py

has crates/ox_speed keep an output of each of 200,000 and of 2,000,000 scripts of 22 bytes, which is
once what the first request for an address has done; spend 500 of them and pay as many, which is
done by a command; and look up what each script has. The plain program has an ordered set of scripts
with outpoints, each script in memory of its own, and as a second one a hash map of ordered sets. It
prints the processor time of the runs that took least of three, and the memory that a script takes.
bench/all.py builds both programs.
"""

from runs import least, report
from tools.programs import plain_program, proved_program
from tools.words import no_words

PLAIN = str(plain_program("holders"))
PROGRAMS = {
    "proved": [str(proved_program("ox_speed"))],
    "plain": [PLAIN],
    "map": [PLAIN, "map"],
}
STEPS, LOOKS = 1_000, 3
# how fast each should be at least, by plain Rust with an ordered set
GOAL = 0.7


def measure(kind, count, times):
    """The seconds and the memory of each program."""
    return least({name: [*words, kind, str(count), str(times)] for name, words in PROGRAMS.items()})


def tell(what, size, unit, took):
    proved, plain, hashed = (took[name] for name in PROGRAMS)
    print(
        f"{what}, {size}: {proved:.2f} {unit}, plain Rust {plain:.2f} {unit},"
        f" {proved / plain:.2f} times; with a hash map {hashed:.2f} {unit}",
        flush=True,
    )
    report(what, size, unit, proved, plain, GOAL)


def tell_scripts(count):
    filled, size = measure("ask", count, 0), f"{count:,} scripts"

    def each(kind, times, scale):
        """What one time of some work takes each program, behind what fills it."""
        done = measure(kind, count, times)
        return {name: (done[name][0] - filled[name][0]) / times * scale for name in PROGRAMS}

    put = {name: filled[name][0] / count * 1e6 for name in PROGRAMS}
    tell("an output put by its script", size, "microseconds", put)
    tell("500 outputs spent and 500 paid, by their scripts", size, "ms", each("spend", STEPS, 1e3))
    tell("the outputs of a script", size, "microseconds", each("ask", LOOKS, 1e6 / count))
    memory = {name: filled[name][1] / count for name in PROGRAMS}
    tell("the most memory a script", size, "bytes", memory)


def main():
    no_words(__doc__)
    for count in (200_000, 2_000_000):
        tell_scripts(count)


if __name__ == "__main__":
    main()
