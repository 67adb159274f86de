#!/usr/bin/env python3
"""Times the desk of a server, from a request to the bytes of its reply, beside a plain Rust program
of the same work.

    python3 bench/desk.py

has a desk over a chain of 80,000 outputs and 8,000 inscriptions answer GETs again and again: of
`/status`, whose reply is kept after the first time; of 65 paths in turn, which is one more than
replies are kept, so that each is made anew (block hashes, and pages of inscriptions); and of one
page, whose reply is kept. Then it has one connect blocks of 4 MB, each with ten large inscriptions.
`ox_run_rows`, whose word `often` asks one desk, and the plain program run three times, with the
work that is timed and without it; both have to count the same, and as many bytes. It prints, of the
runs that took least, answers and blocks a second of the processor time that the work took, and how
fast `ox_main` applies the same blocks as lines of a feed, from reading their digits to the bytes in
its files. The plain program keeps replies by `lru`, and makes them as that of bench/query.py does.
Nothing here is proved. bench/all.py builds the programs.
"""

import pathlib
import random
import subprocess
import sys
import tempfile

from blocks import SUBSIDY, block, coinbase, connect, key, push, pushes, tx
from query import CONTENT, CONTROL, write_blocks
from runs import RUNS, in_another_process, least, report, run
from tools.bitcoin import twice
from tools.programs import plain_program, proved_program
from tools.words import no_words

OX, MAIN = proved_program("ox_run_rows"), proved_program("ox_main")
PROGRAMS = {"ox": [OX], "plain": [plain_program("desk")]}
# the most bytes that are heard at once
ROOM = 65_536
# the chain that is asked has so many blocks of 20,000 outputs and 2,000 inscriptions, with three
# more, and then so many of a coinbase alone
ASKED, EMPTY = 4, 60
# one more path than replies are kept
TURN = 65
# of each kind of answers the paths, how often they are asked, and the ratio that is wanted
GOAL = 0.7
ANSWERS = {
    "a kept reply, /status": (["/status"], 5_000_000),
    "a reply made anew, /blockhash": ([f"/blockhash/{height}" for height in range(TURN)], 40_000),
    "a kept page": (["/inscriptions/9"], 2_000_000),
    "a page made anew": ([f"/inscriptions/{at}" for at in range(TURN)], 500),
}
# how many large inscriptions a large block has, and how many such blocks are connected
CONTENTS = 10
LARGE = 8


def lengthened(blocks):
    """The lines of a chain's blocks with more behind them, of a coinbase alone."""
    chance, tip = random.Random(4), twice(bytes.fromhex(blocks[-1].split()[1].decode())[:80])
    for height in range(len(blocks), len(blocks) + EMPTY):
        body, tip = block(tip, height, [coinbase(height, [(SUBSIDY, key(chance))])])
        blocks = [*blocks, connect(body)]
    return blocks


def write_large(path):
    """The feed of a chain of blocks of 4 MB behind a small one."""
    chance, tip, origin = random.Random(3), bytes(32), None
    head = b"\0\x63\3ord\1\1" + push(b"text/plain") + b"\0"
    with open(path, "wb") as feed:
        for height in range(1 + LARGE):
            txs = []
            if origin:
                bodies = (chance.randbytes(CONTENT // 2).hex().encode() for _ in range(CONTENTS))
                script = b"".join(head + pushes(body) + b"\x68" for body in bodies)
                txs = [tx([(origin, 0)], [(SUBSIDY, key(chance))], witness=[script, CONTROL])]
            first = coinbase(height, [(SUBSIDY, key(chance))], txs)
            body, tip = block(tip, height, [first, *txs])
            origin = first[1]
            feed.write(connect(body))


def posted(line):
    """The head of the request that posts the block of a feed's line, and the block's digits."""
    digits = line.split()[1].decode()
    head = f"POST /connect HTTP/1.1\r\nContent-Length: {len(digits) // 2}\r\n\r\n"
    return head.encode().hex(), digits


def served(lines, door):
    """Rows that make a store and have it serve a link that posts these blocks at a door."""
    words = ["".join(posted(line)) for line in lines]
    # a link takes a turn of three, one for each piece that is heard, and one for each reply
    turns = sum(len(word) // 2 // ROOM + 2 for word in words)
    rows = ["run init regtest 100", f"link {door} {' '.join(words)}", f"run serve {3 * turns + 9}"]
    return "".join(row + "\n" for row in rows).encode()


def chains(lines):
    """The rows by which each program gets a chain of these blocks."""
    plain = b"".join(b"connect " + line.split()[1] + b"\n" for line in lines)
    return {"ox": served(lines, "operator"), "plain": b"make regtest 100\n" + plain}


def often(paths, times):
    """A row that has a desk that was just opened asked for paths so many times."""
    return f"often {times} {' '.join(paths)}\n".encode()


def compare_answers(chain, feed):
    """Ends where the programs don't count the same."""
    rows, shown = b"".join(often(paths, 2) for paths, _ in ANSWERS.values()), set()
    for name, words in PROGRAMS.items():
        feed.write_bytes(chain[name] + rows)
        shown.add(b"".join(run(words, feed)[2].splitlines(keepends=True)[-len(ANSWERS) :]))
    if len(shown) != 1:
        sys.exit("the answers differ")


def seconds_of(name, base, work, feed):
    """The processor seconds that a program takes longer for the second rows than for the first."""
    taken = []
    for rows in base, work:
        feed.write_bytes(rows)
        taken.append(least({name: PROGRAMS[name]}, feed)[name][0])
    return taken[1] - taken[0]


def tell(work, size, count, unit, seconds, goal=None):
    ours, theirs = count / seconds["ox"], count / seconds["plain"]
    print(
        f"{work}, {size}: ox {ours:,.1f} {unit} a second ({1e6 / ours:,.2f} microseconds), plain"
        f" {theirs:,.1f}, ratio {ours / theirs:.2f}",
        flush=True,
    )
    report(work, size, f"{unit} a second", ours, theirs, goal)


def time_answers(chain, feed):
    for work, (paths, times) in ANSWERS.items():
        seconds = {}
        for name, rows in chain.items():
            base, more = (rows + often(paths, many) for many in (1, 1 + times))
            seconds[name] = seconds_of(name, base, more, feed)
        size = f"{len(paths)} {'path' if len(paths) == 1 else 'paths'}"
        tell(work, size, times * len(paths), "answers", seconds, GOAL)


def apply_seconds(feed, folder):
    """The least processor seconds in which a new store takes a feed in."""
    taken = []
    for _ in range(RUNS):
        with tempfile.TemporaryDirectory(dir=folder) as store:
            words = [MAIN, store, "init", "regtest", "100"]
            subprocess.run(words, stdout=subprocess.DEVNULL, check=True)
            taken.append(run([MAIN, store, "apply"], feed)[0])
    return min(taken)


def time_connects(folder, feed):
    """Posts the large blocks at the public door, where they are only read, and at the other."""
    lines = feed.with_name("lines")
    in_another_process(write_large, lines)
    first, *blocks = lines.read_bytes().splitlines(keepends=True)
    size = f"{len(blocks[0]) // 2:,} bytes"
    base, work = (served([first, *blocks], door) for door in ("public", "operator"))
    seconds = {"ox": seconds_of("ox", base, work, feed), "plain": apply_seconds(lines, folder)}
    tell("a block posted, beside `apply`", size, LARGE, "blocks", seconds)


def main():
    no_words(__doc__)
    with tempfile.TemporaryDirectory() as folder:
        folder = pathlib.Path(folder)
        rows, feed = folder / "rows", folder / "feed"
        in_another_process(write_blocks, rows, ASKED)
        blocks = lengthened(rows.read_bytes().splitlines(keepends=True)[1:])
        chain = chains(blocks)
        compare_answers(chain, feed)
        time_answers(chain, feed)
        time_connects(folder, feed)


if __name__ == "__main__":
    main()
