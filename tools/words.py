"""The words of scripts, which `--help` tells by their own texts."""

import argparse
from collections.abc import Sequence


def words_of(about: str | None) -> argparse.ArgumentParser:
    """A parser of a script's words."""
    form = argparse.RawDescriptionHelpFormatter
    return argparse.ArgumentParser(description=about, formatter_class=form)


def no_words(about: str | None) -> None:
    """Has a script take no words, and run nothing where it is asked by `--help`."""
    words_of(about).parse_args()


def numbers(about: str | None, name: str, default: Sequence[int], what: str) -> list[int]:
    """The numbers that a script is given, or these."""
    words, usual = words_of(about), ", ".join(f"{number:,}" for number in default)
    words.add_argument(
        "numbers", nargs="*", type=int, default=default, metavar=name, help=f"{what} ({usual})"
    )
    return list(words.parse_args().numbers)
