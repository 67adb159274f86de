#!/usr/bin/env python3
"""Times how segwit addresses are written and read, beside a plain Rust program of the same work.

    python3 bench/address.py

has crates/ox_block_rows write a script of 22 bytes and one of 34 a million times each, and write
each and read its address again, and prints calls a second. bench/all.py builds both.
"""

from runs import processor_time, report
from tools.programs import plain_program, proved_program
from tools.words import no_words

PROVED, PLAIN = proved_program("ox_block_rows"), plain_program("address")
TIMES = 1_000_000
SCRIPTS = {
    "22 bytes": "0014751e76e8199196d454941c45d1b3a323f1433bd6",
    "34 bytes": "512079be667ef9dcbbac55a06295ce870b07029bfcdb2dce28d959f2815b16f81798",
}


def run(program, work, script, times):
    return processor_time([program], f"repeat {work} bc {script} {times}\n".encode())


def seconds(program, work, script):
    """The processor time of all calls, the least of nine runs, and what the program answered."""
    took = []
    for _ in range(9):
        few, _ = run(program, work, script, 0)
        many, answer = run(program, work, script, TIMES)
        took.append(many - few)
    return min(took), answer


def main():
    no_words(__doc__)
    for name, script in SCRIPTS.items():
        times = {}
        for program in (PROVED, PLAIN):
            written, first = seconds(program, "only", script)
            both, second = seconds(program, "both", script)
            times[program] = written, both - written, (first, second)
        assert times[PROVED][2] == times[PLAIN][2], name
        for at, work in enumerate(("written", "read")):
            proved, plain = (TIMES / times[program][at] for program in (PROVED, PLAIN))
            print(
                f"{name}, {work}: {proved / 1e6:.2f} million a second, plain Rust"
                f" {plain / 1e6:.2f}, {proved / plain:.2f} of its speed"
            )
            report(f"an address {work}", name, "a second", proved, plain)


if __name__ == "__main__":
    main()
