"""Tells on standard error what is under way and for how long: in one line that moves, where that is
a terminal, and else by a line where a step begins and one where it ends."""

import contextlib
import sys
import threading
import time
from collections.abc import Iterator
from typing import TextIO

# how often the moving line is written anew, in seconds
TICK = 0.5


class Steps:
    """The steps that are under way; several may be at once."""

    def __init__(self, out: TextIO = sys.stderr) -> None:
        self.out, self.moves = out, out.isatty()
        self.running: dict[str, float] = {}
        self.lock = threading.Lock()
        self.ended = threading.Event()

    def __enter__(self) -> "Steps":
        if self.moves:
            threading.Thread(target=self.tick, daemon=True).start()
        return self

    def __exit__(self, *_: object) -> None:
        self.ended.set()
        with self.lock:
            self.clear()

    def tick(self) -> None:
        while not self.ended.wait(TICK):
            with self.lock:
                self.clear()
                now = time.monotonic()
                parts = [f"{what}, {now - begun:.0f} s" for what, begun in self.running.items()]
                self.out.write(" · ".join(parts)[:120])
                self.out.flush()

    def clear(self) -> None:
        if self.moves:
            self.out.write("\r\033[K")
            self.out.flush()

    def tell(self, line: str) -> None:
        """Shows a line of its own."""
        with self.lock:
            self.clear()
            print(line, file=self.out, flush=True)

    @contextlib.contextmanager
    def step(self, what: str) -> Iterator[None]:
        """Tells of a step as long as it takes, and then how long that was."""
        begun = time.monotonic()
        if not self.moves:
            self.tell(f"{what} ..")
        self.running[what] = begun
        how = "not done"
        try:
            yield
            how = "done"
        finally:
            del self.running[what]
            self.tell(f"{what}: {how} in {time.monotonic() - begun:.1f} s")
