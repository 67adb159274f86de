"""Checks of a built program: each has a folder of its own, that is gone where it passed."""

import argparse
import concurrent.futures
import contextlib
import os
import pathlib
import shutil
import signal
import sys
import tempfile
import time
import traceback
from collections.abc import Callable, Iterator
from types import FrameType
from typing import Generic, NamedTuple, TypeVar

from tools.programs import proved_program

# what a check is given: the program over a folder, say
Given = TypeVar("Given")


class Failed(Exception):
    """What a check found otherwise than it has to be."""


class Skipped(Exception):
    """What a check lacks here."""


def demand(holds: object, what: str) -> None:
    """Fails, and tells why, where something doesn't hold."""
    if not holds:
        raise Failed(what)


class Check(NamedTuple, Generic[Given]):
    """What a check looks at, and what it calls; it is chosen by the name of that."""

    what: str
    function: Callable[[Given], None]
    # whether it may run beside the others, since it waits long
    beside: bool

    @property
    def name(self) -> str:
        return self.function.__name__


@contextlib.contextmanager
def within(seconds: int) -> Iterator[None]:
    """Fails where what stands in it takes longer; 0 for ever. For one check at a time."""

    def too_long(_: int, __: FrameType | None) -> None:
        raise Failed(f"it took over {seconds} seconds")

    if seconds:
        signal.signal(signal.SIGALRM, too_long)
        signal.alarm(seconds)
    try:
        yield
    finally:
        if seconds:
            signal.alarm(0)


class Checks(Generic[Given]):
    """The checks of a script, in their order. Each is given what `make` makes of the program and
    the folder, which `clear` clears in the end."""

    def __init__(
        self,
        make: Callable[[pathlib.Path, pathlib.Path], Given],
        clear: Callable[[Given], None] = lambda given: None,
        at_once: int = 1,
        seconds: int = 0,
    ) -> None:
        self.make, self.clear, self.at_once, self.seconds = make, clear, at_once, seconds
        self.every: list[Check[Given]] = []

    def check(
        self, what: str, beside: bool = False
    ) -> Callable[[Callable[[Given], None]], Callable[[Given], None]]:
        """Has the function below looked at, and tells it as `what` where it fails. A long one may
        run beside the others."""

        def keep(function: Callable[[Given], None]) -> Callable[[Given], None]:
            self.every.append(Check(what, function, beside))
            return function

        return keep

    def try_one(self, one: Check[Given], program: pathlib.Path, folder: pathlib.Path) -> str:
        """Why a check fails, with the place of its files; nothing where it passes."""
        try:
            with within(self.seconds):
                given = self.make(program, folder)
                try:
                    one.function(given)
                finally:
                    self.clear(given)
        except Failed as failed:
            return f"{failed}; the files are in {folder}"
        except Skipped:
            raise
        except Exception:
            return f"the files are in {folder}\n{traceback.format_exc()}"
        return ""

    def passes(self, one: Check[Given], program: pathlib.Path, out: pathlib.Path) -> str:
        """How a check ended: `passed`, `failed` or `skipped`."""
        folder, begun = pathlib.Path(tempfile.mkdtemp(dir=out)), time.monotonic()
        result, line = "passed", ""
        try:
            cause = self.try_one(one, program, folder)
            if cause:
                result, line = "failed", f"FAILED: {one.what} ({one.name}): {cause}"
        except Skipped as lacking:
            result, line = "skipped", f"SKIPPED: {one.what}: {lacking}"
        if result != "failed":
            shutil.rmtree(folder)
        if os.environ.get("OX_CHECK_TIMES"):
            print(f"{time.monotonic() - begun:5.1f} s {one.name}", flush=True)
        if line:
            print(line, flush=True)
        return result

    def parser(self, about: str) -> argparse.ArgumentParser:
        """The words of a script of checks, which it may add to."""
        form = argparse.RawDescriptionHelpFormatter
        words = argparse.ArgumentParser(description=about, formatter_class=form)
        words.add_argument(
            "program",
            nargs="?",
            type=pathlib.Path,
            default=proved_program("ox_main"),
            metavar="PROGRAM",
            help="crates/ox_main/out/ox_main without a word",
        )
        words.add_argument(
            "--only",
            nargs="+",
            metavar="NAME",
            choices=[one.name for one in self.every],
            help="these checks alone, by their names",
        )
        words.add_argument("--list", action="store_true", help="tell the names, and try nothing")
        return words

    def run(self, said: argparse.Namespace, out: pathlib.Path) -> int:
        """Tries what was asked for, with the counts in the last line; the status."""
        if said.list:
            for one in self.every:
                print(f"{one.name}: {one.what}")
            return 0
        program = said.program.resolve()
        if not program.exists():
            print(f"{program} isn't built\n0 passed, 1 failed")
            return 1
        chosen = [one for one in self.every if not said.only or one.name in said.only]
        out.mkdir(exist_ok=True)
        results = self.try_all(chosen, program, out)
        passed, failed, skipped = map(results.count, ("passed", "failed", "skipped"))
        print(f"{passed} passed, {failed} failed" + (f", {skipped} skipped" if skipped else ""))
        return int(failed != 0)

    def try_all(
        self, chosen: list[Check[Given]], program: pathlib.Path, out: pathlib.Path
    ) -> list[str]:
        """How each check ended: in turn, or so many at once; and beside them those that may be."""
        beside, others = [one for one in chosen if one.beside], [*chosen]
        if self.at_once == 1:
            others = [one for one in chosen if not one.beside]
        with concurrent.futures.ThreadPoolExecutor(max(self.at_once, len(beside) or 1)) as pool:
            if self.at_once > 1:
                return list(pool.map(lambda one: self.passes(one, program, out), others))
            waiting = [pool.submit(self.passes, one, program, out) for one in beside]
            results = [self.passes(one, program, out) for one in others]
            return results + [one.result() for one in waiting]

    def main(self, about: str | None, out: pathlib.Path) -> None:
        """A whole script, which has these words alone."""
        sys.exit(self.run(self.parser(about or "").parse_args(), out))
