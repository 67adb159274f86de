#!/usr/bin/env python3
"""Tells what the end of a run of the program means and what to do, since the program says nothing
but its status.

systemd runs this (`ExecStopPost=` of ox.service), and names the end in the environment:
SERVICE_RESULT, EXIT_CODE (`exited`, `killed` or `dumped`) and EXIT_STATUS (the status, or the
signal's name). One line goes to standard output. docs/OPERATING.md, 'Statuses', says more.
"""

import argparse
import os
from typing import NamedTuple


class Meaning(NamedTuple):
    """What a status means, what to do, and what the service does."""

    what: str
    then: str
    service: str

    def line(self) -> str:
        return f"{self.what}: {self.then}"


STOPS, GOES_ON = "it isn't started again", "it is started again"

# by status
MEANINGS = {
    0: Meaning("it has ended as it was asked to", "nothing is to be done", ""),
    1: Meaning(
        "its words are no subcommand", "mend them (`--help` has them all)", f"ExecStart; {STOPS}"
    ),
    2: Meaning(
        "the store's files aren't empty",
        "the store is there already, or the files are something else's; take another folder",
        "`serve` doesn't end so",
    ),
    3: Meaning(
        "its files are no store",
        "take the newest copy of both files, or make a store and feed it anew",
        STOPS,
    ),
    4: Meaning(
        "a file couldn't be opened, read, written or synced, or another program has the store",
        "where none has, start nothing on these files: find the cause, mend it, and have the disk"
        " forget what it couldn't write (OPERATING, 'A failed sync')",
        STOPS,
    ),
    5: Meaning(
        "its standard input couldn't be read",
        "mend what gives it, and feed on behind the newest block that `query /status` tells",
        "`serve` doesn't read it; look at ExecStart",
    ),
    6: Meaning(
        "its last line couldn't be shown", "nothing is lost; mend what takes it", "the journal"
    ),
    7: Meaning(
        "it couldn't listen, or a door failed",
        "look whether the two addresses are this machine's and free",
        GOES_ON,
    ),
    8: Meaning(
        "it ran out of memory",
        "nothing is lost but the command under way; give it more, or let others have less",
        GOES_ON,
    ),
    9: Meaning("it has heard all that a run can hear", "begin a new run", GOES_ON),
    10: Meaning(
        "the rules refuse a command of an old store",
        "make a new store, and feed it the blocks again",
        "`serve` doesn't end so",
    ),
    11: Meaning(
        "it heard what is no frame for it, or a piece that doesn't fit its store",
        "see that both stores have one profile and one depth",
        "`serve` doesn't end so",
    ),
    12: Meaning(
        "the follower stands further on than the leader",
        "see that the two aren't the wrong way round",
        "`serve` doesn't end so",
    ),
    13: Meaning(
        "the frames ended before the follower stood where the leader does",
        "begin both again: what was taken is kept",
        "`serve` doesn't end so",
    ),
    75: Meaning("another program has the store", "end that one, or leave it alone", STOPS),
}


def of_status(status: int) -> str:
    """What a status means and what to do."""
    known = MEANINGS.get(status)
    return known.line() if known else "no run ends so"


def of_signal(name: str, asked: bool = False) -> str:
    """What it means that a signal ended a run."""
    how = ", as it was asked to" if asked else ""
    return f"signal {name} has ended it{how}: every command that was answered is kept"


def of_service(result: str, code: str, status: str) -> str:
    """The line about an end that systemd tells so."""
    if result == "oom-kill":
        return "the system was out of memory and ended it: nothing is lost; give it more"
    if code in ("killed", "dumped"):
        return of_signal(status, result == "success")
    if code == "exited" and status.isdigit() and int(status) in MEANINGS:
        known = MEANINGS[int(status)]
        service = f" ({known.service})" if known.service else ""
        return f"status {status}: {known.line()}{service}"
    return f"it has ended in a way that isn't known here: {result}, {code}, {status}"


def main() -> None:
    form = argparse.RawDescriptionHelpFormatter
    argparse.ArgumentParser(description=__doc__, formatter_class=form).parse_args()
    names = "SERVICE_RESULT", "EXIT_CODE", "EXIT_STATUS"
    result, code, status = (os.environ.get(name, "") for name in names)
    print(f"ox: {of_service(result, code, status)}", flush=True)


if __name__ == "__main__":
    main()
