"""Tries what stands: documents, types, rows, tests, files, sockets, crashes. Nothing is proved."""

import concurrent.futures
import functools
import os
import pathlib
import re
import resource
import shutil
import signal
import subprocess
import sys
import tempfile
from collections.abc import Callable
from typing import Any, NamedTuple

from tools import children, kit
from tools.build import Unbuilt, build
from tools.programs import CRATES, TOP, quick_program, sources, stands_on
from tools.steps import Steps

# how much memory one build may take, in bytes
OF_A_BUILD = 2 << 30
# how much of the processor one program may take over its rows, in seconds, and how long it and a
# test may be at it where others work beside it
SECONDS, CLOCK = 120, 900
# what a try says to the address sanitizer: an index that `fold` leaves to its end is no fault
SANITIZER = "detect_leaks=0:abort_on_error=1:allocator_may_return_null=1"
# what `mypy --strict` looks at
TYPED = ["ox", "tools", "service"]


class Count(NamedTuple):
    """How many checks passed, and how many failed."""

    passed: int
    failed: int

    def __str__(self) -> str:
        return f"{self.passed} passed, {self.failed} failed"


# tries something, and counts it
Work = Callable[[], Count]


def total(counts: list[Count]) -> Count:
    return Count(sum(one.passed for one in counts), sum(one.failed for one in counts))


def at_once() -> int:
    """How many programs are built at once, by the memory that is free or can be freed."""
    told = pathlib.Path("/proc/meminfo").read_text()
    free = re.search(r"^MemAvailable: +(\d+) kB$", told, re.M)
    builds = int(free[1]) * 1024 // OF_A_BUILD if free else 1
    return max(1, min(os.cpu_count() or 1, builds))


def counted(told: str, status: int) -> Count:
    """What the last line of a script counts; one failure where it counts none."""
    lines = told.strip().splitlines()
    last = lines[-1] if lines else ""
    found = re.search(r"(\d+) passed, (\d+) failed(?:, \d+ skipped)?$", last)
    if found and (status == 0) == (int(found[2]) == 0):
        return Count(int(found[1]), int(found[2]))
    return Count(1, 0) if status == 0 and not found else Count(0, 1)


def script(steps: Steps, what: str, *words: str) -> Count:
    """Runs a script, and shows what it told where something failed."""
    with steps.step(what):
        status, told = children.run([sys.executable, *words], cwd=TOP)
    count = counted(told, status)
    steps.tell(told.rstrip() if count.failed else f"{what}: {count}")
    return count


def types(steps: Steps) -> Count:
    """Looks at the types, where there is `mypy`."""
    mypy = shutil.which("mypy")
    if mypy is None:
        steps.tell("types: not looked at (apt-get install mypy)")
        return Count(0, 0)
    with steps.step("types"):
        status, told = children.run([mypy, "--strict", *TYPED], cwd=TOP)
    if status:
        steps.tell(told.rstrip())
    return Count(int(status == 0), int(status != 0))


def of_rows() -> list[str]:
    """The programs that have to print what stands beside them."""
    return [name for name in stands_on() if (CRATES / name / "stdout").exists()]


def of_tests() -> list[str]:
    """The crates that have tests."""
    return [name for name in stands_on() if has_tests(CRATES / name / "src")]


def has_tests(folder: pathlib.Path) -> bool:
    return any("#[test]" in path.read_text() for path in folder.rglob("*.rt"))


def first_difference(got: bytes, wanted: bytes) -> str:
    """What is told where a program prints something else."""
    left, right = got.split(b"\n"), wanted.split(b"\n")
    for at, (one, other) in enumerate(zip(left, right), 1):
        if one != other:
            return f"line {at} is {one[:200]!r}, and has to be {other[:200]!r}"
    return f"there are {len(left)} lines, and have to be {len(right)}"


def limit() -> None:
    """What a program over rows may take (`preexec_fn`)."""
    resource.setrlimit(resource.RLIMIT_CPU, (SECONDS, SECONDS + 1))


def fault_of_rows(name: str, program: pathlib.Path) -> str:
    """Why a program's rows fail; nothing where they pass."""
    crate = CRATES / name
    args = (crate / "args").read_text().split() if (crate / "args").exists() else []
    feed = str(crate / "stdin") if (crate / "stdin").exists() else os.devnull
    how: dict[str, Any] = {"stdout": subprocess.PIPE, "timeout": CLOCK, "preexec_fn": limit}
    with tempfile.TemporaryDirectory() as folder, open(feed, "rb") as given:
        try:
            ran = subprocess.run(
                [program, *args], cwd=folder, stdin=given, env={"ASAN_OPTIONS": SANITIZER}, **how
            )
        except subprocess.TimeoutExpired:
            return f"it took more than {CLOCK} seconds"
    if ran.returncode == -signal.SIGXCPU:
        return f"it took more than {SECONDS} seconds of the processor"
    if ran.returncode:
        return f"it ended with {ran.returncode}"
    wanted = (crate / "stdout").read_bytes()
    return "" if ran.stdout == wanted else first_difference(ran.stdout, wanted)


def rows_of(name: str, program: pathlib.Path, steps: Steps) -> Count:
    """Builds a program over rows, where it is another than this one, and runs it."""
    try:
        if name != "ox_main":
            build(name, steps, level="-O1", checked=True)
            program = quick_program(name)
        fault = fault_of_rows(name, program)
    except Unbuilt as cause:
        fault = str(cause)
    steps.tell(f"rows of {name}: {fault or 'passed'}")
    return Count(int(not fault), int(bool(fault)))


def tests_of(name: str, steps: Steps) -> Count:
    """Builds the program of a crate's tests, and runs each test in a process of its own."""
    try:
        build(name, steps, level="-O1", checked=True)
    except Unbuilt as cause:
        steps.tell(f"tests of {name}: {cause}")
        return Count(0, 1)
    runner = str(kit.place() / "bin" / "rattle-test")
    words = [runner, "--seconds", str(CLOCK), str(quick_program(name))]
    status, told = children.run(words, env={**os.environ, "ASAN_OPTIONS": SANITIZER})
    found = re.search(r"^test result: .*?(\d+) passed; (\d+) failed;", told, re.M)
    count = Count(int(found[1]), int(found[2])) if found else Count(0, 1)
    if status and not count.failed:
        count = Count(count.passed, 1)
    steps.tell(f"tests of {name}: {count}" + (f"\n{told.rstrip()}" if count.failed else ""))
    return count


def of_programs(names: list[str], program: pathlib.Path, steps: Steps) -> list[Work]:
    """What tries each of these programs, the largest first, since they take longest."""
    with_tests = of_tests()
    works: list[Work] = []
    for name in sorted(names, key=weight, reverse=True):
        if name in with_tests:
            works.append(functools.partial(tests_of, name, steps))
        else:
            works.append(functools.partial(rows_of, name, program, steps))
    return works


def weight(name: str) -> int:
    """How many bytes of sources a program is built of."""
    return sum(path.stat().st_size for path in sources(name, "src"))


def beside_each_other(works: list[Work]) -> list[Count]:
    """What these count, several at once."""
    with concurrent.futures.ThreadPoolExecutor(at_once()) as pool:
        begun = [pool.submit(work) for work in works]
        try:
            return [one.result() for one in begun]
        except BaseException:
            # a signal, say: what is under way ends, and nothing else begins
            pool.shutdown(wait=False, cancel_futures=True)
            children.end_all()
            raise


def run(program: pathlib.Path) -> int:
    """Runs all, with the last line 'N passed, M failed'; the status."""
    with Steps() as steps:

        def later(what: str, *words: str) -> Work:
            return functools.partial(script, steps, what, *words)

        works = of_programs([*of_rows(), *of_tests()], program, steps)
        works += [
            later("rows as they are made", "checks/make_rows.py", "--compare"),
            functools.partial(types, steps),
            later("documents", "checks/documents.py"),
            later("their commands", "checks/documents.py", "--commands", str(program)),
        ]
        counts = beside_each_other(works)
        # one after the other: they look at times, and begin several processes themselves
        for what in "files", "sockets", "crashes":
            counts.append(script(steps, f"real {what}", f"checks/real_{what}.py", str(program)))
    count = total(counts)
    print(count)
    return int(count.failed != 0)


def run_tests(chosen: list[str]) -> int:
    """Runs the tests of these crates, or of all; the status."""
    with Steps() as steps:
        names = chosen or of_tests()
        works: list[Work] = [functools.partial(tests_of, name, steps) for name in names]
        count = total(beside_each_other(works))
    print(count)
    return int(count.failed != 0)
