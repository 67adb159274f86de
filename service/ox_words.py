#!/usr/bin/env python3
"""Runs the program by its own words, and tells on standard error what its silence means.

    ox FOLDER init PROFILE DEPTH       makes the folder's files a store without a block
    ox FOLDER apply < FEED             carries out each line of a feed, and answers it
    ox FOLDER query PATH               shows the reply to a GET of /status, /sat/0 and so on
    ox FOLDER serve [TURNS PUBLIC OPERATOR] [--turns N] [--public ADDRESS] [--operator ADDRESS]
                                       serves HTTP at two addresses
    ox FOLDER drill BLOCKS             makes a store of so many made blocks
    ox FOLDER lead, follow             a store hands its pieces to another one, by two pipes
    ox FOLDER migrate                  makes a store of version 1 one of version 2
    ox FOLDER grow                     makes a store of version 2 one of version 3, with sums
    ox FOLDER fold PROFILE < FEED      answers a feed with an index that is gone at the end

A profile is mainnet, regtest or lab. `serve` makes 18,446,744,073,709,551,615 turns at
127.0.0.1:8080 and, for the operator, at 127.0.0.1:8081 where nothing else is said; a signal ends
it, and nothing that was answered is lost. The words go to the program as they are, and its status
is this one's. Where that is above 0, a line on standard error says what it means and what to do.
docs/OPERATING.md says more.
"""

import argparse
import pathlib
import signal
import subprocess
import sys
from types import FrameType

import ox_ended

TURNS = str(2**64 - 1)
PUBLIC, OPERATOR = "127.0.0.1:8080", "127.0.0.1:8081"
# where the package has the program
PROGRAM = pathlib.Path("/usr/lib/ox/ox")
# what a shell says of a program that a signal has ended
BY_SIGNAL = 128


def serve_words(words: list[str]) -> list[str]:
    """The words of `serve`, those that aren't said among them."""
    known = argparse.ArgumentParser(prog="ox FOLDER serve", description="Serves HTTP.")
    known.add_argument(
        "given", nargs="*", metavar="TURNS PUBLIC OPERATOR", help="all three, or none"
    )
    known.add_argument("--turns", default=TURNS, metavar="N", help="so many turns (%(default)s)")
    known.add_argument(
        "--public", default=PUBLIC, metavar="ADDRESS", help="everybody's address (%(default)s)"
    )
    known.add_argument(
        "--operator", default=OPERATOR, metavar="ADDRESS", help="yours alone (%(default)s)"
    )
    said = known.parse_args(words)
    given: list[str] = said.given
    return given or [said.turns, said.public, said.operator]


def run(program: pathlib.Path, words: list[str]) -> int:
    """Runs the program to its end by these words, the folder first; its status."""
    if words[1:2] == ["serve"]:
        words = [*words[:2], *serve_words(words[2:])]
    child = subprocess.Popen([str(program), *words])

    def hand_on(number: int, _: FrameType | None) -> None:
        child.send_signal(number)

    # a terminal sends SIGINT to both
    signal.signal(signal.SIGINT, signal.SIG_IGN)
    for number in (signal.SIGTERM, signal.SIGHUP):
        signal.signal(number, hand_on)
    status = child.wait()
    if status < 0:
        print(f"ox: {ox_ended.of_signal(signal.Signals(-status).name)}", file=sys.stderr)
        return BY_SIGNAL - status
    if status:
        print(f"ox: status {status}: {ox_ended.of_status(status)}", file=sys.stderr)
    return status


def main() -> None:
    form = argparse.RawDescriptionHelpFormatter
    known = argparse.ArgumentParser(prog="ox", description=__doc__, formatter_class=form)
    known.add_argument("folder", metavar="FOLDER", help="of the store")
    known.add_argument("words", nargs=argparse.REMAINDER, metavar="WORD", help="a subcommand's")
    said = known.parse_args()
    sys.exit(run(PROGRAM, [said.folder, *said.words]))


if __name__ == "__main__":
    main()
