#!/usr/bin/env python3
"""Times the rows of an index, read and written, and an index that is tested and made live, beside a
plain Rust program of the same work.

    python3 bench/rows.py [OUTPUTS..]

makes the rows of a sound index of so many outputs (100,000 and 1,000,000 without a word), each with
a script of 34 bytes and one run of satoshis, with an inscription of a hundred bytes and a balance
for every tenth of them. crates/ox_index_rows and the plain program run in turn, three times: each
reads the rows and spells the index once, or does one of both five times more; it tests the index
once or five times more; and it reads, tests and makes it live once or five times more. Of 100,000
outputs it is fifty times, so that as many rows are read. It prints how many bytes of the rows a
second of the processor time that the further times took, of the runs that took least, and how much
more time ten times the rows take. The plain program makes each table of a list that it read and
that rises, at once. bench/all.py builds both programs.
"""

import pathlib
import random
import struct
import tempfile

from runs import in_another_process, least, report
from tools.programs import plain_program, proved_program
from tools.words import numbers

PROGRAMS = {"ox": [proved_program("ox_index_rows")], "plain": [plain_program("rows")]}
TENTH = 10
# how much more often a work is done, of this many outputs or more
MORE, MANY = 5, 1_000_000
SATS, SUBSIDY = 1_000_000, 5_000_000_000
RUNES = 20
# how fast each should be at least, by plain Rust
GOALS = {"read": 0.6, "written": 0.7, "tested": 0.6, "read, tested and made live": 0.5}
# the row of each, which is done as often as the argument says
WORKS = {
    "read": "index",
    "written": "spell",
    "tested": "sound regtest",
    "read, tested and made live": "load regtest",
}
# how much more time ten times the rows may take
MOST_GROWTH = 12


def text(data):
    return struct.pack("<I", len(data)) + data


def height_of(place):
    """The height whose satoshis the output at this place holds."""
    return place * SATS // SUBSIDY


def output_row(chance, place):
    row = text(b"\x51\x20" + chance.randbytes(32)) + struct.pack("<I", height_of(place))
    return row + struct.pack("<IQQ", 1, place * SATS, SATS)


def inscription_row(chance, place):
    head = chance.randbytes(32) + struct.pack("<II", 0, height_of(place))
    some = b"\1" + text(b"text/plain"), b"\1" + text(chance.randbytes(48))
    return head + b"".join(some) + bytes(5) + struct.pack("<IHBQ", 0, 0, 1, place * SATS)


def rune_row(number, premine):
    """A rune without terms that the first block etched, named by its number."""
    named = struct.pack("<QI", 0, number) + number.to_bytes(16, "little")
    return named + bytes(6) + premine.to_bytes(16, "little") + bytes(1 + 16 + 16 + 32)


def index_rows(outputs):
    """The rows of an index, part by part."""
    chance = random.Random(3)
    ids = sorted(chance.randbytes(32) for _ in range(outputs))
    tenths = range(0, outputs, TENTH)
    blocks = -(-outputs * SATS // SUBSIDY)
    yield struct.pack("<I", blocks)
    yield from (chance.randbytes(32) for _ in range(blocks))
    yield struct.pack("<I", outputs)
    for place, txid in enumerate(ids):
        yield txid + struct.pack("<I", 0) + output_row(chance, place)
    # the last blocks' satoshis that no output holds are lost
    lost = outputs * SATS, blocks * SUBSIDY - outputs * SATS
    yield struct.pack("<IQQ", 1, *lost) if lost[1] else struct.pack("<I", 0)
    yield struct.pack("<I", len(tenths))
    yield from (inscription_row(chance, place) for place in tenths)
    yield struct.pack("<I", len(tenths))
    premines = RUNES * [0]
    for place, txid in enumerate(ids[::TENTH]):
        premines[place % RUNES] += 1 + place
        held = struct.pack("<IQI", 1, 0, place % RUNES) + (1 + place).to_bytes(16, "little")
        yield txid + struct.pack("<I", 0) + held
    yield struct.pack("<I", RUNES)
    yield from (rune_row(number, premine) for number, premine in enumerate(premines))


def write_rows(folder, outputs):
    """The rows of an index, in a file for each kind of row for the programs. How many bytes these
    are."""
    digits = b"".join(part.hex().encode() for part in index_rows(outputs))
    for row in WORKS.values():
        (folder / row).write_bytes(row.encode() + b" " + digits + b"\n")
    return len(digits) // 2


def seconds(folder, outputs):
    """The least seconds that each program took for each work."""
    more = MORE * max(1, MANY // outputs)

    def taken(row, times):
        commands = {name: [*program, str(times)] for name, program in PROGRAMS.items()}
        return least(commands, folder / row)

    once = {work: taken(row, 1) for work, row in WORKS.items()}
    often = {work: taken(row, 1 + more) for work, row in WORKS.items()}
    return {
        work: {name: (often[work][name][0] - once[work][name][0]) / more for name in PROGRAMS}
        for work in WORKS
    }


def tell(outputs, size, took):
    for work, each in took.items():
        rates = {name: size / 1e6 / it for name, it in each.items()}
        told = ", ".join(f"{name} {rate:,.0f}" for name, rate in rates.items())
        ratio = each["plain"] / each["ox"]
        print(
            f"{outputs:9,} outputs, {work}: {told} MB a second; ratio {ratio:.2f}"
            f" ({each['ox']:.3f} and {each['plain']:.3f} s)",
            flush=True,
        )
        name = f"rows of an index {work}"
        pair = rates["ox"], rates["plain"]
        report(name, f"{outputs:,} outputs", "MB a second", *pair, GOALS[work])


def main():
    before = None
    for outputs in numbers(__doc__, "OUTPUTS", [100_000, 1_000_000], "unspent outputs"):
        with tempfile.TemporaryDirectory() as folder:
            folder = pathlib.Path(folder)
            size = in_another_process(write_rows, folder, outputs)
            took = seconds(folder, outputs)
        tell(outputs, size, took)
        for work in before or ():
            growth = took[work]["ox"] / before[work]["ox"]
            print(f"  {work}: {growth:.1f} times the time, at most {MOST_GROWTH} for ten times")
        before = took


if __name__ == "__main__":
    main()
