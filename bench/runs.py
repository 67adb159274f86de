"""Runs of programs beside each other: what they show, the processor time and the most memory that
they take; and the rows of bench/results.tsv."""

import concurrent.futures
import os
import pathlib
import subprocess
import sys
import tempfile

RUNS = 3
# where bench/all.py names a file in the environment, rows are written into it
RESULTS = "OX_RESULTS"


def report(work, size, unit, ox, plain=None, goal=None):
    """A row of bench/results.tsv: of this work at this size the program came to so much, and the
    plain program beside it. The ratio says how much faster, or smaller, the program is: what is
    counted a second should be much, and all else little. The goal is the least ratio wanted. Where
    nothing was taken, as of memory that was there before, there is no ratio."""
    if RESULTS not in os.environ:
        return
    above, below = (ox, plain) if unit.endswith("a second") else (plain, ox)
    ratio = above / below if plain is not None and below else None
    ratios = ("" if number is None else f"{number:.2f}" for number in (ratio, goal))
    row = [pathlib.Path(sys.argv[0]).stem, work, size, unit, figure(ox), figure(plain), *ratios]
    with open(os.environ[RESULTS], "a") as rows:
        rows.write("\t".join(row) + "\n")


def figure(number):
    """A number of three digits, or all of them before the point."""
    if number is None:
        return ""
    return f"{number:.0f}" if number >= 100 else f"{number:.3g}"


def processor_time(command, given=b""):
    """The processor time of a run that is given these bytes, and what was shown."""
    with tempfile.TemporaryFile() as feed:
        feed.write(given)
        feed.seek(0)
        seconds, _, shown = run(command, feed)
    return seconds, shown


def run(command, feed=os.devnull):
    """Processor seconds, the most memory in bytes, and what was shown. The feed is a path, or a
    file that is open."""
    if not hasattr(feed, "read"):
        with open(feed, "rb") as given:
            return run(command, given)
    with tempfile.TemporaryFile() as shown:
        child = subprocess.Popen(command, stdin=feed, stdout=shown, stderr=subprocess.DEVNULL)
        _, status, usage = os.wait4(child.pid, 0)
        child.returncode = os.waitstatus_to_exitcode(status)
        if child.returncode:
            sys.exit(f"{command[0]} ended with {child.returncode}")
        shown.seek(0)
        return usage.ru_utime + usage.ru_stime, usage.ru_maxrss * 1024, shown.read()


def least(commands, feed=os.devnull, runs=RUNS, lines=None):
    """The seconds and the memory of the run that took least, of each program. All have to show the
    same, and just so many lines, if it is said."""
    taken, answers = {name: [] for name in commands}, set()
    for _ in range(runs):
        for name, command in commands.items():
            seconds, memory, shown = run(command, feed)
            taken[name].append((seconds, memory))
            answers.add(shown)
    if len(answers) != 1 or lines not in (None, answers.pop().count(b"\n")):
        sys.exit("the answers differ")
    return {name: min(rows) for name, rows in taken.items()}


def in_another_process(call, *given):
    """Answers what a call answers in a process of its own, since a child's greatest memory is never
    below that of its parent."""
    with concurrent.futures.ProcessPoolExecutor(1) as other:
        return other.submit(call, *given).result()


def write_part(whole, part, left):
    """The first bytes of a file, so many as are left."""
    with open(whole, "rb") as given, open(part, "wb") as taken:
        while left:
            left -= taken.write(given.read(min(left, 1 << 20)))
