"""Processes that end with the one that started them, by their own ids."""

import ctypes
import signal
import subprocess
from types import FrameType
from typing import Any

# the call of `prctl` that names the signal which comes where the parent ends
SIGNAL_AT_PARENTS_END = 1
C_LIBRARY = ctypes.CDLL(None)

Child = subprocess.Popen[bytes]

started: list[Child] = []


def end_with_parent() -> None:
    """What a new process calls (`preexec_fn`), so that it gets SIGTERM where its parent ends, in
    whatever way."""
    C_LIBRARY.prctl(SIGNAL_AT_PARENTS_END, signal.SIGTERM)


def start(words: list[str], **how: Any) -> Child:
    """Starts a process that `end_all` ends."""
    child = subprocess.Popen(words, **how)
    started.append(child)
    return child


def run(words: list[str], **how: Any) -> tuple[int, str]:
    """Runs a process to its end: its status, and what it told on both streams."""
    how = {"stdout": subprocess.PIPE, "stderr": subprocess.STDOUT, **how}
    child = start(words, stdin=subprocess.DEVNULL, **how)
    told, _ = child.communicate()
    started.remove(child)
    return child.returncode, (told or b"").decode(errors="replace")


def end(child: Child) -> None:
    """Ends a process, and waits until it has."""
    if child.poll() is None:
        child.terminate()
        try:
            child.wait(10)
        except subprocess.TimeoutExpired:
            child.kill()
            child.wait()


def end_all() -> None:
    """Ends all that are still running."""
    while started:
        end(started.pop())


def leave(number: int, _: FrameType | None) -> None:
    raise SystemExit(128 + number)


def leave_at_signals() -> None:
    """SIGTERM and SIGHUP end this program by an exception, so that what it began is cleared."""
    for number in (signal.SIGTERM, signal.SIGHUP):
        signal.signal(number, leave)
