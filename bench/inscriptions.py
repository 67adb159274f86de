#!/usr/bin/env python3
"""Times inscriptions that are kept in memory, beside a plain Rust program of the same work.

    python3 bench/inscriptions.py

has crates/ox_speed append 100,000 and 1,000,000 rows, of which a tenth are cursed, look each up by
its id, its satoshi, the next one and its children, give each its signed number, and, over as many
rows, set a mark, append 1,000 rows and go back. The plain program has hash maps by id and by parent
and an ordered map by satoshi; it does the last with ordered maps too, and keeps in each row how
many before it are cursed. Then it has a block reveal what one transaction of 2,000 and of 20,000
inputs has: nine envelopes with pointers for each two inputs, or five parents for each two; the
plain program makes this transaction itself. It prints the processor time of the runs that took
least of three, and the memory that a row takes. bench/all.py builds both programs.
"""

import pathlib
import struct
import tempfile

from blocks import SUBSIDY, coinbase, compact_size, put, tx
from runs import in_another_process, least, report
from tools.bitcoin import string
from tools.programs import plain_program, proved_program
from tools.words import no_words

PROGRAMS = {"proved": proved_program("ox_speed"), "plain": plain_program("inscriptions")}
LOOKS = 1
MARKS = 500
NUMBERS = 20
REVEALS = 10
# how fast signed numbers should be told at least, by plain Rust
SIGNED_GOAL = 0.7
# an output of any kind, and an envelope's opening and end
SCRIPT = b"\x51"
OPENING, END = b"\0\x63\3ord", b"\x68"


def scattered(number, end):
    """A number below an end in a scattered order."""
    return number * 0x9E3779B97F4A7C15 % 2**64 % end


def pointers(place):
    """The envelopes of the input at a place: nine for each two inputs, each with a pointer of eight
    bytes."""
    numbers = range(place * 9 // 2, (place + 1) * 9 // 2)
    places = (struct.pack("<Q", scattered(number, SUBSIDY)) for number in numbers)
    return b"".join(OPENING + b"\1\2\x08" + place + END for place in places)


def parents(count):
    """An envelope that names so many earlier inscriptions, whose ids come in a scattered order."""
    ids = (struct.pack(">I", number * 0x9E3779B1 % 2**32) + bytes(32) for number in range(count))
    return OPENING + b"".join(b"\1\3\x24" + id_ for id_ in ids) + END


def scripts_of(kind, inputs):
    """The tapscripts of the inputs: with pointers, or with the last one's parents alone."""
    if kind == "pointers":
        return [pointers(place) for place in range(inputs)]
    return [b""] * (inputs - 1) + [parents(inputs // 2 * 5)]


def block_of(txs):
    """A block whose header isn't looked at."""
    return bytes(80) + compact_size(len(txs)) + b"".join(txs)


def write_blocks(path, kind, inputs):
    """A block whose coinbase has so many outputs, and one whose transaction spends them in a
    scattered order, reveals what this kind has, and keeps half of the satoshis. Each stands behind
    its length."""
    minted, txid = coinbase(0, [(SUBSIDY // inputs, SCRIPT)] * inputs)
    origins = [(txid, place * 7_919 % inputs) for place in range(inputs)]
    bare, _ = tx(origins, [(SUBSIDY // 2, SCRIPT)])
    stacks = (b"\2" + string(script) + b"\1\xc0" for script in scripts_of(kind, inputs))
    whole = bare[:4] + b"\0\1" + bare[4:-4] + b"".join(stacks) + bare[-4:]
    with open(path, "wb") as feed:
        put(feed, block_of([minted]))
        put(feed, block_of([coinbase(1, [(0, SCRIPT)])[0], whole]))


def measure(kind, count, times, programs=PROGRAMS):
    """The seconds and the memory of each program."""
    words = [kind, str(count), str(times)]
    return least({name: [program, *words] for name, program in programs.items()})


def measure_reveals(kind, inputs, feed, times):
    """The same over blocks. The plain program makes its transaction itself."""
    earlier = 0 if kind == "pointers" else inputs // 2 * 5
    words = {"proved": ["reveal", str(earlier)], "plain": [kind, str(inputs)]}
    programs = PROGRAMS.items()
    return least({name: [program, *words[name], str(times)] for name, program in programs}, feed)


def tell(what, size, unit, proved, plain, goal=None):
    print(
        f"{what}, {size}: {proved:.2f} {unit}, plain Rust {plain:.2f} {unit},"
        f" {proved / plain:.2f} times",
        flush=True,
    )
    report(what, size, unit, proved, plain, goal)


def time_ordered_maps(count):
    """The milliseconds of a mark, 1,000 rows more and back in plain Rust with ordered maps."""
    plain = {"plain": PROGRAMS["plain"]}
    filled, marked = (measure("ordered", count, times, plain)["plain"][0] for times in (0, MARKS))
    return (marked - filled) / MARKS * 1e3


def reveals(kind, what, each):
    for inputs in (2_000, 20_000):
        with tempfile.TemporaryDirectory() as folder:
            feed = pathlib.Path(folder) / "blocks"
            in_another_process(write_blocks, feed, kind, inputs)
            made, revealed = (measure_reveals(kind, inputs, feed, times) for times in (0, REVEALS))
        took = ((revealed[name][0] - made[name][0]) / REVEALS * 1e3 for name in PROGRAMS)
        tell(f"{what} revealed by a block", f"{inputs // 2 * each:,}", "ms", *took)


def tell_rows(count):
    filled = measure("look", count, 0)
    size = f"{count:,} rows"

    def each(kind, times, scale):
        """What one time of some work over the rows takes each program."""
        done = measure(kind, count, times)
        return [(done[name][0] - filled[name][0]) / times * scale for name in PROGRAMS]

    appended = (filled[name][0] / count * 1e6 for name in PROGRAMS)
    tell("a row appended", size, "microseconds", *appended)
    tell("a row looked up in four ways", size, "microseconds", *each("look", LOOKS, 1e6 / count))
    numbered = each("number", NUMBERS, 1e9 / count)
    tell("a signed number", size, "nanoseconds", *numbered, SIGNED_GOAL)
    marked = each("mark", MARKS, 1e3)
    tell("a mark, 1,000 rows more and back", size, "ms", *marked)
    ordered = time_ordered_maps(count)
    print(f"the same in plain Rust with ordered maps: {ordered:.2f} ms", flush=True)
    report("the same, beside ordered maps", size, "ms", marked[0], ordered)
    memory = (filled[name][1] / count for name in PROGRAMS)
    tell("the most memory a row", size, "bytes", *memory)


def main():
    no_words(__doc__)
    for count in (100_000, 1_000_000):
        tell_rows(count)
    reveals("pointers", "pointers", 9)
    reveals("parents", "parents", 5)


if __name__ == "__main__":
    main()
