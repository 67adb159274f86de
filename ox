#!/usr/bin/env python3
"""Builds, shows, tests and runs ox, an index server for ordinals, inscriptions and runes.

    ./ox demo        shows what it does: a store of made blocks, served over HTTP, and asked
    ./ox test        tries documents, rows, tests, files, sockets and crashes; proves nothing
    ./ox build       builds the program in some minutes: optimised, and unproved
    ./ox prove       the gate: proves everything, which takes hours
    ./ox --version   of which commit and kit the program is, and whether it is the proved one

Every other first word is a store's folder, and the words behind it are the program's own:

    ./ox FOLDER init PROFILE DEPTH       makes the folder's files a store without a block
    ./ox FOLDER apply < FEED             carries out each line of a feed, and answers it
    ./ox FOLDER query PATH               shows the reply to a GET of /status, /sat/0 and so on
    ./ox FOLDER serve [--turns N] [--public ADDRESS] [--operator ADDRESS]
                                         serves HTTP: 127.0.0.1:8080, and 8081 for you alone
    ./ox FOLDER drill BLOCKS             makes a store of so many made blocks
    ./ox FOLDER lead, follow             a store hands its pieces to another one, by two pipes
    ./ox FOLDER migrate                  makes a store of version 1 one of version 2
    ./ox FOLDER grow                     makes a store of version 2 one of version 3, with sums
    ./ox FOLDER fold PROFILE < FEED      answers a feed with an index that is gone at the end

A profile is mainnet, regtest or lab. A folder of the name of a command is written ./demo. The
program that runs is the proved one, crates/ox_main/out/ox_main, where it is newer than every
source, and else build/ox, as `./ox build` leaves it.
"""

import argparse
import os
import pathlib
import sys

TOP = pathlib.Path(__file__).resolve().parent
sys.path[:0] = [str(TOP), str(TOP / "service")]

import ox_words  # noqa: E402
from tools import children, demo, kit, programs, tests  # noqa: E402
from tools.build import Unbuilt, build  # noqa: E402
from tools.steps import Steps  # noqa: E402

PROVED = programs.proved_program("ox_main")
UNPROVED = programs.quick_program("ox_main")


def short(path: pathlib.Path) -> str:
    """A path from the top of the repository."""
    return str(path.relative_to(TOP))


def built(any_kit: bool = False) -> pathlib.Path:
    """The program, which is built where it isn't there; says on standard error which it is."""
    if programs.is_proved("ox_main"):
        print(f"the program: {short(PROVED)}, which is proved", file=sys.stderr)
        return PROVED
    with Steps() as steps:
        fresh = build("ox_main", steps, any_kit)
    how = "built just now" if fresh else "built before of these sources"
    print(f"the program: {short(UNPROVED)}, optimised and unproved, {how}", file=sys.stderr)
    return UNPROVED


def found() -> pathlib.Path:
    """The program that is there."""
    if programs.is_proved("ox_main"):
        return PROVED
    if programs.stamp_of("ox_main") is None:
        sys.exit("ox: the program isn't built: `./ox build` does that in some minutes")
    return UNPROVED


def version() -> str:
    """What `--version` says."""
    if programs.is_proved("ox_main"):
        return f"ox {programs.commit()}, {kit.identity()}: proved, {short(PROVED)}"
    stamp = programs.stamp_of("ox_main")
    if stamp is None:
        return f"ox {programs.commit()}: not built"
    return f"ox {stamp.commit}, {stamp.kit}: unproved, {short(UNPROVED)}"


def run_build(said: argparse.Namespace) -> int:
    built(said.any_kit)
    return 0


def run_demo(said: argparse.Namespace) -> int:
    if said.proved and not programs.is_proved("ox_main"):
        print(f"ox: {short(PROVED)} isn't there, or older than a source", file=sys.stderr)
        return 1
    return demo.run(built(), said.end)


def run_test(_: argparse.Namespace) -> int:
    return tests.run(built())


def run_prove(_: argparse.Namespace) -> int:
    os.execv(TOP / ".ci" / "run", [".ci/run"])


def parser() -> argparse.ArgumentParser:
    """The commands of this repository."""
    form = argparse.RawDescriptionHelpFormatter
    known = argparse.ArgumentParser(
        prog="./ox", usage="./ox COMMAND | FOLDER WORD..", description=__doc__, formatter_class=form
    )
    known.add_argument("--version", action="store_true", help="say of what the program is built")
    commands = known.add_subparsers(metavar="COMMAND")

    def command(name: str, what: str, run: object) -> argparse.ArgumentParser:
        one = commands.add_parser(name, help=what, description=f"{what[0].upper()}{what[1:]}.")
        one.set_defaults(run=run)
        return one

    one = command("demo", "show what it does, and serve on until Ctrl-C", run_demo)
    one.add_argument("--end", action="store_true", help="end where it would serve on")
    one.add_argument("--proved", action="store_true", help="build nothing: take the proved program")
    command("test", "try documents, rows, tests, files and sockets: nothing is proved", run_test)
    one = command("build", "build the optimised, unproved program as build/ox", run_build)
    one.add_argument("--any-kit", action="store_true", help="try it with another kit, too")
    command("prove", "prove everything, by .ci/run: hours", run_prove)
    return known


def main() -> int:
    children.leave_at_signals()
    words, known = sys.argv[1:], parser()
    commands = "demo", "test", "build", "prove"
    if words and words[0] not in commands and not words[0].startswith("-"):
        return ox_words.run(found(), words)
    said = known.parse_args(words)
    if said.version:
        print(version())
        return 0
    if "run" not in said:
        known.print_help()
        return 1
    status: int = said.run(said)
    return status


if __name__ == "__main__":
    try:
        sys.exit(main())
    except (kit.NoKit, Unbuilt) as cause:
        sys.exit(f"ox: {cause}")
    except KeyboardInterrupt:
        sys.exit(130)
    finally:
        children.end_all()
