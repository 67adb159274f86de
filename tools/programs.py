"""Where programs are, and what they are made of."""

import hashlib
import json
import pathlib
import subprocess
from collections.abc import Iterator
from typing import NamedTuple

TOP = pathlib.Path(__file__).resolve().parents[1]
CRATES = TOP / "crates"
BUILD = TOP / "build"


def proved_program(name: str) -> pathlib.Path:
    """Where `rt run` leaves a program."""
    return CRATES / name / "out" / name


def quick_program(name: str) -> pathlib.Path:
    """Where `./ox build` leaves a program: `ox_main` is `ox` there."""
    return BUILD / ("ox" if name == "ox_main" else name)


def plain_program(name: str) -> pathlib.Path:
    """Where cargo leaves a plain program."""
    return TOP / "bench" / "plain" / name / "target" / "release" / name


def stands_on() -> dict[str, list[str]]:
    """Each crate, and what it stands on, by crates.txt; the kit's crates stand among these."""
    found = {}
    for line in (TOP / "crates.txt").read_text().splitlines():
        if line.strip() and not line.startswith("#"):
            name, _, below = line.partition(":")
            found[name.split()[0]] = below.split()
    return found


def below(name: str) -> list[str]:
    """The crates of the repository that one stands on, the lowest first, and itself behind them."""
    uses, found = stands_on(), list[str]()

    def walk(one: str) -> None:
        for other in uses[one]:
            if other in uses and other not in found:
                walk(other)
        found.append(one)

    walk(name)
    return found


def sources(name: str, *folders: str) -> Iterator[pathlib.Path]:
    """The sources of a program: what stands in these folders of its crates."""
    for crate in below(name):
        for folder in folders:
            for path in sorted((CRATES / crate / folder).rglob("*")):
                if path.suffix in (".rt", ".antt"):
                    yield path


def digest(name: str, recipe: str) -> str:
    """A sum over all that a program is built of: its sources, and how it is built."""
    uses = stands_on()
    told = hashlib.sha256(recipe.encode())
    for crate in below(name):
        told.update(f"\n{crate}: {' '.join(uses[crate])}".encode())
    for path in sources(name, "src", "specs"):
        told.update(f"\n{path.relative_to(TOP)}\n".encode() + path.read_bytes())
    return told.hexdigest()


def is_proved(name: str) -> bool:
    """Whether the proved program is there and newer than every source."""
    program = proved_program(name)
    if not program.exists():
        return False
    made = program.stat().st_mtime
    every = [TOP / "crates.txt", *sources(name, "src", "specs", "proofs")]
    return all(path.stat().st_mtime < made for path in every)


class Stamp(NamedTuple):
    """What is known of a program that `./ox build` left."""

    digest: str
    commit: str
    kit: str


def stamp_of(name: str) -> Stamp | None:
    """What stands beside an unproved program, where both are there whole."""
    program = quick_program(name)
    try:
        told = json.loads(program.with_suffix(".json").read_text())
        return Stamp(**told) if program.exists() else None
    except (OSError, ValueError, TypeError):
        return None


def commit() -> str:
    """The commit of the sources, with a word where they differ from it."""
    words = ["git", "-C", str(TOP), "describe", "--always", "--dirty=, changed", "--abbrev=12"]
    ran = subprocess.run(words, stdout=subprocess.PIPE, stderr=subprocess.DEVNULL, text=True)
    return ran.stdout.strip() or "no commit"
