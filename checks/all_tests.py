#!/usr/bin/env python3
"""Runs the tests of every crate at once, unproved.

It builds the program of a crate's tests as a try would, but optimised and all at once, leaves it in
build/, and runs each test in a process of its own; so it does for the crates that are named, or for
all that have tests. A test stops at an index out of bounds, a sum that wraps, a bad access, or a
failed assertion. What a test that failed said is shown. The last line says how many passed and how
many failed, and the status is 1 where one failed. Nothing is proved, and a call that breaks a
`requires` isn't seen.
"""

import sys

from tools import children, kit, tests
from tools.words import words_of


def main():
    words = words_of(__doc__)
    words.add_argument(
        "crates", nargs="*", metavar="CRATE", help=f"of {', '.join(tests.of_tests())} (all of them)"
    )
    said = words.parse_args()
    if not set(said.crates) <= set(tests.of_tests()):
        words.error(f"tests are in {', '.join(tests.of_tests())}")
    children.leave_at_signals()
    try:
        sys.exit(tests.run_tests(said.crates))
    except kit.NoKit as cause:
        sys.exit(str(cause))
    finally:
        children.end_all()


if __name__ == "__main__":
    main()
