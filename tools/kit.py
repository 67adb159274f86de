"""Rattle's kit, as far as builds need to know it."""

import os
import pathlib
import shutil

# the kits that the recipe of tools/build.py was tried with
TRIED = "rattle-kit-13b", "rattle-kit-13f"


class NoKit(Exception):
    """Why nothing can be built here, and what to do, in one line."""


def place() -> pathlib.Path:
    """The folder of the kit whose `rt` is found."""
    found = shutil.which("rt")
    if found is None:
        raise NoKit(
            f"there is no `rt` here: install Rattle's kit ({TRIED[-1]}), put its folder bin/ into"
            " PATH, and begin again"
        )
    return pathlib.Path(os.path.realpath(found)).parents[1]


def identity() -> str:
    """The line that `rt version` says: the kit's name and the sum of its logic."""
    return (place() / "KIT-ID").read_text().strip()


def usable(any_kit: bool) -> pathlib.Path:
    """The kit's folder, where it is one that the recipe was tried with, or any will do."""
    folder, name = place(), identity().split()[0]
    if name not in TRIED and not any_kit:
        raise NoKit(
            f"`rt` is of {name}, and this build was tried with {' and '.join(TRIED)}: install one"
            " of these, or try `./ox build --any-kit`, or make the proved program by `./ox prove`"
        )
    return folder
