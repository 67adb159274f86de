#!/usr/bin/env python3
"""Looks which public functions of the libraries nothing calls.

    python3 checks/surface.py

reads the Rust code of crates/*/src. Of each public function of a library that answers a `Result` it
looks for a call, in any crate's code but that of the function itself. Running out of memory is free
in every contract, so a body that always answers it is proved: what nothing calls would pass with
that. It tells each function that nothing calls, and how many functions it looked at; the status is
1 where it told one. It reads words and no types, so of several functions of one name a call of any
counts.
"""

import collections
import pathlib
import re
import sys

from tools.words import no_words

TOP = pathlib.Path(__file__).resolve().parents[1]
FUNCTION = re.compile(r"\b(pub )?(?:const )?fn (\w+)")


class Function:
    """A function of a file: its name, the number of its line, and whether it is public and answers
    a `Result`."""

    def __init__(self, file, line, name, is_public, head):
        self.file, self.line, self.name = file, line, name
        self.is_looked_for = is_public and re.search(r"->\s*(?:\w+::)*Result\b", head) is not None


def file_text(file):
    return (TOP / file).read_text()


def code_in(text):
    """The code of a file without its comments, attributes and ghost lines, of as many lines."""
    return re.sub(r"//.*|^ *#!?\[.*|^ *ghost .*", "", text, flags=re.M)


def head_of(text, at):
    """The head of the function that begins there: all up to its clauses or its body."""
    return re.split(r"\n\s*(?:requires|ensures)\b|\{|;", text[at:], maxsplit=1)[0]


def functions_in(file, text):
    for found in FUNCTION.finditer(text):
        line = text.count("\n", 0, found.start()) + 1
        head = head_of(text, found.start())
        yield Function(file, line, found[2], bool(found[1]), head)


def calls_in(text):
    """The names that are called, each as often: a function's own head is none."""
    heads = FUNCTION.sub("", text)
    called = collections.Counter(re.findall(r"\b([a-z_]\w*)\s*(?:::<[^()]*>)?\(", heads))
    # by its path, as an argument of another call
    called.update(re.findall(r"(?:::|\()([a-z_]\w*)\b(?=[,)])", heads))
    return called


def surface(text_of=file_text):
    """The functions that are looked for, and those of them that nothing calls; the text of a file
    is told by its name."""
    functions, called = [], collections.Counter()
    for path in sorted((TOP / "crates").glob("*/src/**/*.rt")):
        file = str(path.relative_to(TOP))
        text = code_in(text_of(file))
        crate = TOP / "crates" / file.split("/")[1]
        called.update(calls_in(text))
        if (crate / "src" / "lib.rt").exists():
            functions += [one for one in functions_in(file, text) if one.is_looked_for]
    return functions, [one for one in functions if not called[one.name]]


def told(text_of=file_text):
    """All that the script tells: the file, the line and the cause."""
    for one in surface(text_of)[1]:
        yield one.file, one.line, f"nothing calls `{one.name}`"


def main():
    no_words(__doc__)
    functions, lacking = surface()
    for one in lacking:
        print(f"{one.file}:{one.line}: nothing calls `{one.name}`")
    print(f"{len(functions)} functions, {len(lacking)} without a call")
    sys.exit(1 if lacking else 0)


if __name__ == "__main__":
    main()
