#!/usr/bin/env python3
"""Makes the rows that a program reads, and the lines that it has to print for them.

    python3 checks/make_rows.py [--compare] [PROGRAM..]

They are `stdin` and `stdout` in the program's crate, and are written anew for the programs that are
named, or for all. With --compare nothing is written: it tells each file that differs from what is
made, and the last line counts them.
"""

import sys

from rows import block_rows, index_rows, run_rows
from tools.programs import CRATES
from tools.words import words_of

# for each program what makes its rows and lines
MAKERS = {
    "ox_block_rows": block_rows.made,
    "ox_index_rows": index_rows.made,
    "ox_run_rows": run_rows.made,
}


def files_of(program):
    """The files of a program, and what has to be in them."""
    for name, lines in zip(("stdin", "stdout"), MAKERS[program]()):
        yield CRATES / program / name, "".join(line + "\n" for line in lines)


def differing(programs):
    """The files of these programs that aren't what is made."""
    for program in programs:
        for path, text in files_of(program):
            if path.read_text() != text:
                yield path.relative_to(CRATES.parent)


def main():
    words = words_of(__doc__)
    words.add_argument("--compare", action="store_true", help="write nothing, tell what differs")
    words.add_argument(
        "programs", nargs="*", metavar="PROGRAM", help=f"of {', '.join(MAKERS)} (all of them)"
    )
    said = words.parse_args()
    if not set(said.programs) <= set(MAKERS):
        words.error(f"there are {', '.join(MAKERS)}")
    programs = said.programs or list(MAKERS)
    if said.compare:
        wrong = list(differing(programs))
        for path in wrong:
            print(f"{path} isn't what checks/make_rows.py makes")
        print(f"{2 * len(programs) - len(wrong)} passed, {len(wrong)} failed")
        sys.exit(bool(wrong))
    for program in programs:
        for path, text in files_of(program):
            path.write_text(text)


if __name__ == "__main__":
    main()
