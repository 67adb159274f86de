#!/usr/bin/env python3
"""Looks which definitions somebody has to read who believes the headline.

    python3 checks/review.py [--write]

follows the words of the definitions in crates/*/specs from those that the clause `survives` of
`run` names, into every definition and every type of the Rust code that they stand on, and tells
how many there are. What two files stand for (`stands`) is left closed, and so are the texts of
answers and the parts of an index: `made`, `migrated`, `survives` and `queries` speak of one
function `stands`, so that what a query shows after a crash is the reply of the kept lines' machine
whatever that function is. Of the trait `Site` only what `apply` calls counts, without the clauses
on counts.

docs/REVIEW.md has two parts between markers: the core, which is the clause and these definitions
but for fresh indexing (`index_of`), as code in reading order, with the text of `Site` behind it;
and the names of all of them, a line a file. The script tells each line that is missing there or
says something else, and each definition that the table above them names and that isn't in the file
named beside it. The status is 1 where it told something. With --write it writes both parts anew.

It reads words and no types: a definition whose name another one uses for something of its own is
followed too, so that the list may be too long, but not too short.
"""

import pathlib
import re
import sys
from tools.words import words_of

TOP = pathlib.Path(__file__).resolve().parents[1]
REVIEW = "docs/REVIEW.md"
BEGIN, END = "<!-- checks/review.py writes from here -->", "<!-- to here -->"
CORE_BEGIN, CORE_END = "<!-- checks/review.py writes the core from here -->", "<!-- to there -->"

HEADLINE = "Rattle.ox_app.specs.Headline"
STARTS = [
    ("Rattle.ox_app.specs.Subcommands", "apply_words"),
    (HEADLINE, "StandsFor"),
    (HEADLINE, "SurvivesCrash"),
    ("Rattle.ox_model.specs.Machine", "stack_of"),
]
# where the rules begin
RULES = [
    ("Rattle.ox_feed.specs.Feed", "lines_of"),
    ("Rattle.ox_feed.specs.Command", "command_of"),
    ("Rattle.ox_model.specs.Step", "step"),
]
# what is left closed besides
STANDS = [("Rattle.ox_files.specs.Stands", "stands")]
PARTS = [
    ("Rattle.ox_model.specs.Index", "Index"),
    ("Rattle.ox_model.specs.Index", "no_blocks"),
    ("Rattle.ox_rules.specs.Text", "ok_text"),
    ("Rattle.ox_rules.specs.Text", "refusal_line"),
]
CLOSED = [*RULES, *STANDS, *PARTS]
RUN = "ox_app/src/program.rt"
SITE = "ox_outside/src/site.rt"
TRAIT = ("Rattle.ox_outside.specs.declared.site.Site", "Ghosts")
# what the core leaves closed too
CORE = [
    *CLOSED,
    ("Rattle.ox_model.specs.Chain", "index_of"),
    ("Rattle.ox_rules.specs.declared.refusal.Refusal", "Refusal"),
    TRAIT,
]
# what `apply` calls of the trait
CALLED = {"len", "read", "write", "sync", "hear", "show"}

BEGINS = re.compile(r"(?:abbrev |unfoldable |pub |record |data |mutual )+([^\s:({]+)")
NAME = re.compile(r"[^\s(){}\[\],;.:λ→]+")


class Definition:
    """A definition or a type: its file below crates/, its name, its lines, its module, and the
    comment before it."""

    def __init__(self, file, name, module, comment=()):
        self.file, self.name, self.module = file, name, module
        self.lines, self.comment = [], list(comment)


def called_part(trait):
    """What `apply` calls of the trait `Site`, without the clauses on counts."""
    parts = re.split(r"(?m)^(?=    (?:fn|ghost) )", trait)
    called = [
        part for part in parts if (re.match(r"    fn (\w+)", part) or [0, "len"])[1] in CALLED
    ]
    clauses = (re.split(r"(?m)^(?=        (?:requires|ensures) )", part) for part in called)
    kept = (part for parts in clauses for part in parts if "counts self." not in part)
    return "".join(kept)


class Definitions:
    """All definitions and types, and what each module takes from others."""

    def __init__(self):
        self.found, self.taken, self.renamed, self.types = {}, {}, {}, {}
        for path in sorted((TOP / "crates").glob("*/specs/**/*.antt")):
            self.add_definitions(path)
        for path in sorted((TOP / "crates").glob("*/src/**/*.rt")):
            self.add_types(path)

    def add_uses(self, module, text):
        """What a module takes from others, by the names that it gives them."""
        self.taken[module] = taken = {}
        uses = r"^ *(?:pub |ghost )?use ([\w.-]+?)\.\{([^}]*)\}"
        for source, names in re.findall(uses, text, re.M):
            for word in filter(None, map(str.strip, names.split(","))):
                name, _, alias = word.partition(" as ")
                taken[(alias or name).strip()] = source, name.strip()
        renamed = re.findall(r"^ *(?:pub |ghost )?use ([\w.-]+) as (\w+)", text, re.M)
        self.renamed[module] = {alias: source for source, alias in renamed}

    def add_definitions(self, path):
        crate, _, rest = str(path.relative_to(TOP / "crates")).partition("/specs/")
        module = f"Rattle.{crate}.specs.{rest.removesuffix('.antt').replace('/', '.')}"
        text, now, comment = path.read_text(), None, []
        self.add_uses(module, text)
        for line in text.split("\n"):
            begins = BEGINS.match(line)
            if begins:
                now = Definition(f"{crate}/specs/{rest}", begins[1], module, comment)
                self.found.setdefault((module, begins[1]), now)
            elif line.startswith(("--", "use ", "pub use ")):
                now = None
            elif line[:1].strip():
                # an equation, which may stand behind another definition's type
                now = self.found.get((module, line.split()[0]), now)
            if now and line.strip():
                now.lines.append(line)
            constructor = re.match(r"  (?:pub )?([A-Z]\w*) :", line)
            if constructor and now and "data" in now.lines[0].split():
                self.found.setdefault((module, constructor[1]), now)
            is_comment = line.startswith("-- ") and not line.startswith("-- ----")
            comment = [*comment, line] if is_comment else []

    def add_types(self, path):
        """The types and traits of a file of Rust code, which is a module of its own here."""
        file = str(path.relative_to(TOP / "crates"))
        text = re.sub(r" *//.*", "", path.read_text())
        self.add_uses(file, text)
        for begins in re.finditer(r"^pub (?:struct|enum|trait) (\w+)", text, re.M):
            rest = text[begins.start() :]
            end = r"^\}" if "{" in rest.split("\n")[0] else r";$"
            item = rest[: re.search(end, rest, re.M).end()]
            if file == SITE and begins[1] == "Site":
                item = called_part(item)
            found = Definition(file, begins[1], file)
            found.lines = [line for line in item.split("\n") if line.strip()]
            self.types.setdefault(begins[1], []).append(found)

    def type_in(self, crate, name):
        """The type that a crate means by a name: its own, or that of the only one that has it."""
        types = self.types.get(name, [])
        own = [one for one in types if one.file.startswith(f"{crate}/")]
        return (own or types)[0] if own or len(types) == 1 else None

    def one(self, module, name):
        """The definition that a module means by a name, if it's one of the repository."""
        if (module, name) in self.found:
            return self.found[module, name]
        if ".specs.declared." in module:
            crate, _, rest = module.removeprefix("Rattle.").partition(".specs.declared.")
            owner = rest.removesuffix(".TheVariants").split(".")[-1]
            return self.type_in(crate, owner if owner[:1].isupper() else name)
        if name in self.taken.get(module, {}):
            return self.one(*self.taken[module][name])
        return self.type_in(module.split("/")[0], name) if module.endswith(".rt") else None

    def named_by(self, definition):
        """What a definition names, some of it by way of a module that has another name there."""
        renamed = self.renamed[definition.module]
        for line in definition.lines:
            yield from (self.one(definition.module, word) for word in NAME.findall(line))
            for alias, word in re.findall(r"(\w+)\.(\w+)", line):
                if alias in renamed:
                    yield self.one(renamed[alias], word)

    def below(self, but=()):
        """The definitions of the clause and all that they stand on but some, each behind the first
        that names it."""
        seen, rest = {}, [self.one(*start) for start in reversed(STARTS)]
        but = {self.one(*closed) for closed in but}
        while rest:
            definition = rest.pop()
            if definition is not None and definition not in seen and definition not in but:
                seen[definition] = True
                rest += reversed(list(self.named_by(definition)))
        return list(seen)


def by_file(definitions):
    """The names of each file, in the order of the alphabet."""
    files = {}
    for file, name in sorted((one.file, one.name) for one in definitions):
        files.setdefault(file, []).append(name)
    return files


def list_of(definitions):
    """The lines of the list."""
    lines = ["| File | Definitions |", "|---|---|"]
    for file, names in by_file(definitions).items():
        lines.append(f"| `{file}` | {', '.join(f'`{name}`' for name in names)} |")
    return lines


def code_of(definitions):
    """The lines of definitions as code, each behind the comment before it and, where the one before
    stands in another one, its file."""
    lines, file = ["```"], None
    for one in definitions:
        lines += [] if file is None else [""]
        lines += [] if file == one.file else [f"-- ---- {one.file}"]
        lines += [*one.comment, *one.lines]
        file = one.file
    return [*lines, "```"]


def clause():
    """The lines of the clause itself."""
    text = (TOP / "crates" / RUN).read_text()
    return re.search(r"^    ensures survives .*?(?=\n *\n|\n    \S)", text, re.M | re.S)[0].split(
        "\n"
    )


def core_of(every):
    """The lines of the clause, of the core, and of what `apply` calls of a site."""
    core, site = code_of(every.below(CORE)), code_of([every.one(*TRAIT)])
    return ["```", f"-- ---- {RUN}", *clause(), "", *core[1:], "", "And of `Site`:", "", *site]


def parts_of(every):
    """The two parts that are written: the markers around each, and its lines."""
    yield CORE_BEGIN, CORE_END, core_of(every)
    yield BEGIN, END, list_of(every.below(CLOSED))


def between(lines, begin, end):
    """The numbers of the lines of both markers, counted from 0."""
    return lines.index(begin), lines.index(end)


def lacking(text, begin, end, wanted):
    """What a part of docs/REVIEW.md lacks, each with the number of a line."""
    lines = text.split("\n")
    if begin not in lines or end not in lines:
        yield 1, f"the markers of checks/review.py aren't there: {begin}"
        return
    first, last = between(lines, begin, end)
    there = lines[first + 1 : last]
    for line in wanted:
        if line not in there:
            yield first + 1, f"this is missing: {line}"
    for at, line in enumerate(there, first + 2):
        if line not in wanted:
            yield at, "checks/review.py finds no such line"
    if sorted(there) == sorted(wanted) and there != wanted:
        yield first + 1, "checks/review.py writes these lines in another order"


def misplaced(text):
    """The definitions of the numbered table that none of the files beside them has."""
    for at, line in enumerate(text.split("\n"), 1):
        cells = [cell.strip() for cell in line.split("|")[1:-1]]
        if len(cells) != 4 or not cells[0].isdigit():
            continue
        files, folder = [], None
        for word in re.findall(r"`([\w/]+\.(?:antt|rt))`", cells[2]):
            folder = word.rpartition("/")[0] or folder
            files.append(f"{folder}/{word.rpartition('/')[2]}")
        texts = [TOP / "crates" / file for file in files]
        words = set(re.findall(r"\w+", " ".join(it.read_text() for it in texts if it.exists())))
        for name in re.findall(r"`(\w+)`", cells[1]):
            if name not in words:
                yield at, f"`{name}` isn't in {' or '.join(files)}"


def told(text, every=None):
    """All that the script tells of docs/REVIEW.md."""
    every = every or Definitions()
    for part in parts_of(every):
        yield from lacking(text, *part)
    yield from misplaced(text)


def tell(what, definitions):
    count = sum(len(one.lines) for one in definitions)
    files = len(by_file(definitions))
    print(f"{what}: {len(definitions)} definitions, {count:,} lines, {files} files")


def tell_all(every):
    tell("the core, but for `Site`", every.below(CORE))
    tell("`Site`, what `apply` calls of it", [every.one(*TRAIT)])
    tell("below the clause, but for the rules, `stands` and the texts", every.below(CLOSED))
    tell("with `stands` and the texts", every.below(RULES))
    tell("with the rules", every.below())


def written(text, every):
    """The text with both parts written anew."""
    for begin, end, part in parts_of(every):
        lines = text.split("\n")
        first, last = between(lines, begin, end)
        text = "\n".join([*lines[: first + 1], *part, *lines[last:]])
    return text


def main():
    words = words_of(__doc__)
    words.add_argument("--write", action="store_true", help="write the list anew")
    said = words.parse_args()
    every, review = Definitions(), TOP / REVIEW
    tell_all(every)
    text = review.read_text()
    if said.write:
        text = written(text, every)
        review.write_text(text)
    wrong = list(told(text, every))
    for at, cause in wrong:
        print(f"{REVIEW}:{at}: {cause}")
    sys.exit(1 if wrong else 0)


if __name__ == "__main__":
    main()
