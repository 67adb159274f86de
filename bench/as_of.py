#!/usr/bin/env python3
"""Times replies as of a kept block, beside a plain Rust program of the same work.

    python3 bench/as_of.py [--program PROGRAM] [OUTPUTS..]

writes a store of as many outputs as each number says (200,000 and 2,000,000 without a word), each
50,000 of one block, with 1,000 kept blocks on them: of 600 runes each mints 300, and gives them
to 60 outputs that it makes of older ones, of which some bear inscriptions; it moves 10 outputs with
balances, and reveals 5 inscriptions. Now and as of 1, 10, 100 and 1,000 blocks back 65 paths are
asked again and again, which is one more than replies are kept, so that each is made anew: of
outputs, satoshis, inscriptions and runes 16 each, of which kept blocks touched one half, and the
audit. And so are 68 that tell of no rune, of satoshis and inscriptions. `ox_run_rows`, whose word
`often` asks one desk, and the plain program run three times, with the work that is timed and with
one round of it; all have to count the same, and as many bytes. It prints, of the runs that took
least, replies a second of the processor time that the work took. The plain program reads the same
file, and undoes of each change only what a reply needs: by `walk` it asks all changes above the
block, and by `heights` none where the row that stands was made before them. Nothing here is proved.
bench/all.py builds both programs.
"""

import pathlib
import sys
import tempfile

from kept_blocks import write_store
from runs import RUNS, in_another_process, least, report, run
from tools.programs import plain_program, proved_program
from tools.words import words_of

OUTPUTS = [200_000, 2_000_000]
GOAL = 0.7
# how many blocks back is asked
BACK = [0, 1, 10, 100, 1_000]
# the work that is timed takes so many processor seconds at the least
LEAST_SECONDS = 2
SEARCHES = ["walk", "heights"]
# as kept_blocks.py tells the paths
KINDS = ["replies", "replies without runes"]


def often(paths, times):
    """A row that has a desk that was just opened asked for paths so many times."""
    return f"often {times} {' '.join(paths)}\n".encode()


class Store:
    """A store, and the programs over it."""

    def __init__(self, folder, program, outputs):
        self.folder, self.feed = folder, folder / "feed"
        self.asked = in_another_process(write_store, folder / "a.ox", outputs, BACK)
        (folder / "b.ox").write_bytes(b"\0")
        self.words = {"ox": [program]}
        for search in SEARCHES:
            self.words[search] = [plain_program("as_of"), folder, search]

    def give(self, name, rows):
        """Writes what a program hears: these rows, and before them ours has to be told the files,
        which it holds in memory."""
        with open(self.feed, "wb") as feed:
            if name == "ox":
                whole = (self.folder / "a.ox").read_bytes().hex().encode()
                feed.write(b"overwrite A 0 " + whole + b"\noverwrite B 0 00\n")
            feed.write(rows)

    def compare(self):
        """Ends where the programs don't count the same."""
        shown = set()
        rows = b"".join(often(paths, 2) for kinds in self.asked for paths in kinds)
        for name, words in self.words.items():
            self.give(name, rows)
            shown.add(run(words, self.feed)[2])
        if len(shown) != 1:
            sys.exit("the replies differ")

    def seconds(self, name, paths, rounds, runs=RUNS):
        """The processor seconds of so many rounds of paths, and all that comes before them."""
        self.give(name, often(paths, rounds))
        return least({name: self.words[name]}, self.feed, runs)[name][0]

    def rate(self, name, paths):
        """Replies a second."""
        one, more = self.seconds(name, paths, 1), 4
        while self.seconds(name, paths, 1 + more, runs=1) - one < LEAST_SECONDS:
            more *= 5
        return more * len(paths) / (self.seconds(name, paths, 1 + more) - one)


def asked_at(back, kind):
    """What is asked so many blocks back, in words."""
    if not back:
        return f"{kind} now"
    return f"{kind} as of {back:,} block{'' if back == 1 else 's'} back"


def time_kind(store, size, what, paths):
    rates = {name: store.rate(name, paths) for name in store.words}
    for search in SEARCHES:
        work, ours, plain = f"{what}, beside `{search}`", rates["ox"], rates[search]
        print(
            f"{work}, {size}: ox {ours:,.0f} a second ({1e6 / ours:,.2f} microseconds each),"
            f" plain {plain:,.0f}, ratio {ours / plain:.3f}",
            flush=True,
        )
        report(work, size, "replies a second", ours, plain, GOAL)


def time_replies(store, size):
    for back, kinds in zip(BACK, store.asked):
        for kind, paths in zip(KINDS, kinds):
            time_kind(store, size, asked_at(back, kind), paths)


def main():
    words = words_of(__doc__)
    words.add_argument(
        "--program",
        type=pathlib.Path,
        default=proved_program("ox_run_rows"),
        help="crates/ox_run_rows/out/ox_run_rows without a word",
    )
    words.add_argument(
        "outputs", nargs="*", type=int, default=OUTPUTS, help="outputs (200,000, 2,000,000)"
    )
    said = words.parse_args()
    for outputs in said.outputs:
        with tempfile.TemporaryDirectory() as folder:
            store = Store(pathlib.Path(folder), said.program.resolve(), outputs)
            store.compare()
            time_replies(store, f"{outputs:,} outputs")


if __name__ == "__main__":
    main()
