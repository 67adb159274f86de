#!/usr/bin/env python3
"""Says which crate the gate's processor time goes to, and writes bench/gate.tsv.

    python3 bench/gate.py [--scale FACTOR] [--write] COMMAND..
    python3 bench/gate.py [--scale FACTOR] [--write] --pid PID

runs a command, as `rt ci --anew`, or takes one that runs, until that ends or Ctrl-C, and looks
twice a second at the processes below it. The log of `rt ci` tells no times, but each of its checks
names its crate, a check of tests says so, and one of a wrong body runs in a folder `rt-edit-..` of
its own. At the end it prints the minutes of processor time of each crate's proof, tests and wrong
bodies, each times FACTOR (1 without a word), the sums, and how much of all that the command took
was seen: what a process takes behind the last look at it is lost. With --write the rows of these
crates take the place of those in bench/gate.tsv, as far as they were seen; `rt ci` proves only what
changed.
"""

import argparse
import contextlib
import os
import pathlib
import re
import resource
import subprocess
import sys
import time
from typing import NamedTuple

from tools.programs import CRATES, TOP, stands_on
from tools.words import words_of

TABLE = TOP / "bench" / "gate.tsv"
COLUMNS = ["crate", "proof", "tests", "wrong bodies", "how many"]
PARTS = COLUMNS[1:4]
TICK = os.sysconf("SC_CLK_TCK")
MINUTE = 60
# how many seconds stand between two looks
PAUSE = 0.5


class Work(NamedTuple):
    """What a process works at."""

    crate: str
    part: str


class Process(NamedTuple):
    """A process as it is seen: when it began, its parent, and the seconds that it took itself."""

    begun: int
    parent: int
    seconds: float


def look(pid: int) -> Process | None:
    """A process, if it is still there."""
    try:
        fields = pathlib.Path(f"/proc/{pid}/stat").read_text().rpartition(")")[2].split()
    except OSError:
        return None
    return Process(int(fields[19]), int(fields[1]), (int(fields[11]) + int(fields[12])) / TICK)


def look_at_all() -> dict[int, Process]:
    """Every process of the machine."""
    found = ((pid, look(pid)) for pid in map(int, filter(str.isdigit, os.listdir("/proc"))))
    return {pid: process for pid, process in found if process is not None}


def work_of(pid: int) -> Work | None:
    """What a process works at, where its words name a crate."""
    place = pathlib.Path(f"/proc/{pid}")
    try:
        words = (place / "cmdline").read_bytes().decode(errors="replace").split("\0")
        folder = (place / "cwd").readlink()
    except OSError:
        return None
    if "--crate-name" not in words:
        return None
    part = "tests" if "--test" in words else "proof"
    if re.match(r"/.*/rt-edit-", f"{folder}/"):
        part = "wrong bodies"
    return Work(words[words.index("--crate-name") + 1], part)


class Watch:
    """The processes that were seen below one, with what each works at and took so far."""

    def __init__(self, root: int) -> None:
        self.root = root
        self.works: dict[tuple[int, int], Work | None] = {}
        self.taken: dict[tuple[int, int], float] = {}

    def look(self) -> None:
        every = look_at_all()
        below: dict[int, list[int]] = {}
        for pid, process in every.items():
            below.setdefault(process.parent, []).append(pid)
        rest: list[tuple[int, Work | None]] = [(pid, None) for pid in below.get(self.root, [])]
        while rest:
            pid, of_parent = rest.pop()
            key = pid, every[pid].begun
            # a process has its parent's words until it has its own
            if self.works.get(key) is None or self.works[key] == of_parent:
                self.works[key] = work_of(pid) or of_parent
            self.taken[key] = every[pid].seconds
            rest += [(child, self.works[key]) for child in below.get(pid, [])]

    def sums(self) -> dict[Work | None, float]:
        """The seconds of each work, and what none is known of."""
        found: dict[Work | None, float] = {}
        for key, seconds in self.taken.items():
            found[self.works[key]] = found.get(self.works[key], 0) + seconds
        return found


def watch(said: argparse.Namespace) -> tuple[Watch, float | None, int]:
    """Looks until the command ended: what was seen, all seconds that it took where it was begun
    here, and its status."""
    if said.pid:
        seen = Watch(said.pid)
        begun = look(said.pid)
        with contextlib.suppress(KeyboardInterrupt):
            while begun is not None and (now := look(said.pid)) and now.begun == begun.begun:
                seen.look()
                time.sleep(PAUSE)
        return seen, None, 0
    child = subprocess.Popen(said.command)
    seen = Watch(child.pid)
    while child.poll() is None:
        seen.look()
        time.sleep(PAUSE)
    used = resource.getrusage(resource.RUSAGE_CHILDREN)
    return seen, used.ru_utime + used.ru_stime, child.returncode


def wrong_bodies(crate: str) -> int:
    return len(list((CRATES / crate / "must-fail").glob("*.edit")))


def rows_of(sums: dict[Work | None, float], scale: float) -> dict[str, list[str]]:
    """A row of each crate that was seen; what is below a tenth of a minute is none."""
    rows: dict[str, list[str]] = {}
    for crate in stands_on():
        minutes = [sums.get(Work(crate, part), 0.0) * scale / MINUTE for part in PARTS]
        if any(minutes):
            many = wrong_bodies(crate)
            cells = [f"{each:.1f}" if each >= 0.05 else "" for each in minutes]
            rows[crate] = [*cells, str(many) if many else ""]
    return rows


def total(row: list[str]) -> float:
    return sum(float(cell) for cell in row[:3] if cell)


def in_table() -> dict[str, list[str]]:
    lines = TABLE.read_text().splitlines()
    if lines[0].split("\t") != COLUMNS:
        sys.exit(f"{TABLE} has other columns")
    return {cells[0]: cells[1:] for cells in (line.split("\t") for line in lines[1:])}


def write(rows: dict[str, list[str]]) -> None:
    """Puts what was seen in the place of what stands there, the dearest crate first. Where a part
    of a crate wasn't seen, its figure stays."""
    every = in_table()
    for crate, row in rows.items():
        old = every.get(crate, [""] * 4)
        every[crate] = [new or before for new, before in zip(row[:3], old)] + row[3:]
    known = [(crate, row) for crate, row in every.items() if crate in stands_on()]
    known.sort(key=lambda pair: -total(pair[1]))
    lines = ["\t".join([crate, *row]) for crate, row in known]
    TABLE.write_text("\n".join(["\t".join(COLUMNS), *lines]) + "\n")


def show(rows: dict[str, list[str]]) -> None:
    for crate, row in sorted(rows.items(), key=lambda pair: -total(pair[1])):
        print("\t".join([crate, *row]))
    sums = [sum(float(row[part] or 0) for row in rows.values()) for part in range(3)]
    told = ", ".join(f"{part} {minutes:.1f}" for part, minutes in zip(PARTS, sums))
    print(f"{told}: {sum(sums):.1f} minutes in all")


def main() -> None:
    words = words_of(__doc__)
    words.add_argument("--scale", type=float, default=1, metavar="FACTOR", help="(1)")
    words.add_argument("--write", action="store_true", help="write bench/gate.tsv")
    words.add_argument("--pid", type=int, metavar="PID", help="a command that runs")
    words.add_argument("command", nargs=argparse.REMAINDER, metavar="COMMAND")
    said = words.parse_args()
    if bool(said.pid) == bool(said.command):
        words.error("a command, or the number of one that runs")
    seen, all_seconds, status = watch(said)
    sums = seen.sums()
    rows = rows_of(sums, said.scale)
    show(rows)
    unknown = sums.get(None, 0.0)
    print(f"of no crate: {unknown / MINUTE:.1f} minutes (runs of programs, and rt itself)")
    if all_seconds:
        print(f"seen: {sum(sums.values()) / all_seconds:.0%} of {all_seconds / MINUTE:.1f} minutes")
    if said.write:
        write(rows)
        print("in bench/gate.tsv:")
        show(in_table())
    sys.exit(status)


if __name__ == "__main__":
    main()
