#!/usr/bin/env python3
"""Looks whether what the documents say is there.

It reads the documents (README.md, CONTRIBUTING.md, docs/, bench/, service/ and each crate's page)
and tells each line

1. whose path in backquotes isn't there: from the top, below crates/, on a page below its crate, or
   beside the path before it;
2. that names a crate which crates.txt doesn't, and each crate without a page, or whose page begins
   with another sentence than its root;
3. of a table with a column 'Carried by', that has a word which stands nowhere in the crate or in
   one below it, or a clause that isn't in the contract of the function that is named, and in
   docs/PROMISES.md a clause that neither `run` has nor a record of `ox_app`'s Promises or Headline;
4. with a command whose folder, script, verb of rt, subcommand or profile isn't there, or with a
   route or a status that isn't;
5. with a link that leads nowhere, or a quoted section that isn't in the document;
6. with a number that restates a constant and differs, of docs/FORMATS.md, 'Limits', too, and each
   document that is over its size;
7. with a sum of the kit's logic that isn't that of `rt version` (another name of the kit is noted);
8. of Python that passes 100 columns;
9. of docs/REVIEW.md that checks/review.py tells: a definition below the headline is missing;
10. of docs/ARCHITECTURE.md that has a crate under another heading than crates.txt, or lacks one;
11. of a library that checks/surface.py tells: nothing calls a public function.

The last line says how many lines were told. The status is 1 where there are any. With --selftest it
puts one wrong line for each of these rules into a copy in memory, and says whether each is told.
It reads files alone, but for `rt help` and `rt version`, and takes seconds. With --commands it runs
the indented commands of README, OPERATING and service/README, as they are written, but for those
that NOT_RUN names, each with its reason.
"""

import contextlib
import pathlib
import re
import shutil
import socket
import subprocess
import sys
import tempfile
import time

import chain
import review
from old_files import old_file_of
import surface
from tools.words import words_of

TOP = pathlib.Path(__file__).resolve().parents[1]

# the records that clauses of `run` give, and those that these name
RECORDS = "crates/ox_app/specs/Promises.antt", "crates/ox_app/specs/Headline.antt"

# how many bytes a document may have
SIZES = {
    "README.md": 9_000,
    "docs/PROMISES.md": 6_000,
    "docs/DECISIONS.md": 24_000,
    "bench/README.md": 5_000,
}
PAGE_SIZE = 6_000

# files that are somebody else's, or that a store or a build makes
OTHERS = {"src/script/script.cpp", "chainparams.cpp", "crates/ox_main/out/ox_main"}
FOLDERS = ("crates", "docs", "checks", "bench", "feeds", ".ci", "tools", "service")
KINDS = (".rt", ".antt", ".py", ".md", ".c", ".edit", ".feed", ".txt", ".cpp", ".tsv")
KINDS += (".sh", ".service", ".cfg", ".yml", ".json")

# Numbers that restate a constant: where it stands in the code, and how documents say it.
CONSTANTS = [
    ("ox_bytes/src/limits.rt", "BLOCK_LIMIT: usize =", r"at most ([\d,]+) bytes in all"),
    ("ox_bytes/src/limits.rt", "BLOCK_LIMIT: usize =", r"largest block, ([\d,]+) bytes"),
    ("ox_feed/src/held.rt", "LINE_LIMIT: usize =", r"line (?:of|has) more than ([\d,]+) bytes"),
    ("ox_app/src/subcommand.rt", "DEPTH_LIMIT: u64 =", r"taken back, from 1 to ([\d,]+)"),
    ("ox_app/src/fold.rt", "DEPTH: u16 =", r"`fold` keeps ([\d,]+)"),
    ("ox_gated/src/layout.rt", "const BODY_AT: usize =", r"`body_at` ([\d,]+)"),
    ("ox_gated/src/layout.rt", "const BODY_AT: usize =", r"([\d,]+) bytes of head\b"),
    ("ox_gated/src/layout.rt", "SUMMED_BODY_AT: usize =", r"`summed_body_at` ([\d,]+)"),
    ("ox_gated/src/layout.rt", "HEAD_SUM_AT: usize =", r"`head_sum_at` ([\d,]+)"),
    ("ox_app/src/subcommand.rt", "DEPTH_LIMIT: u64 =", r"\bdepth from 1 to ([\d,]+)"),
    ("ox_http/src/reader.rt", "HEAD_LIMIT: usize =", r"first ([\d,]+) bytes hold no whole"),
    ("ox_http/src/reader.rt", "BODY_LIMIT: usize =", r"where the length is above ([\d,]+)"),
]

# folders of a system, which no route is
OF_SYSTEM = ("/dev/", "/etc/", "/usr/", "/var/")

# commands of `./ox`; every other first word of it is a folder
COMMANDS = {"demo", "test", "build", "prove", "COMMAND"}

# verbs of rt, where there is no kit to ask
VERBS = {"ci", "check", "doc", "fmt", "help", "must-fail", "plant", "run", "test", "tidy", "try"}
VERBS |= {"all", "expand", "lemma", "lib", "new", "verdict", "version"}


class Repository:
    """What is read: the files, with some of them changed where a test wants that."""

    def __init__(self, changed=None):
        self.changed = changed or {}
        self.kept = {}

    def text(self, name):
        if name in self.changed:
            return self.changed[name]
        if name not in self.kept:
            self.kept[name] = (TOP / name).read_text()
        return self.kept[name]

    def there(self, name):
        return name in self.changed or (TOP / name).exists()

    def lines(self, name):
        return list(enumerate(self.text(name).split("\n"), 1))

    def crates(self):
        """Each crate with the crates of the repository that it names."""
        found = {}
        for line in self.text("crates.txt").splitlines():
            if line.strip() and not line.startswith("#"):
                name, below = line.split(":", 1)
                found[name.split()[0]] = [word for word in below.split() if word.startswith("ox_")]
        return found

    def pages(self):
        names = [f"crates/{crate}/README.md" for crate in self.crates()]
        return [name for name in names if self.there(name)]

    def documents(self):
        docs = sorted(f"docs/{path.name}" for path in (TOP / "docs").glob("*.md"))
        pages = ["bench/README.md", "service/README.md", *self.pages()]
        return ["README.md", "CONTRIBUTING.md", *docs, *pages]

    def sources(self, crate, *folders):
        kept = ("sources", crate, folders)
        if kept not in self.kept:
            paths = [
                path
                for folder in folders
                for kind in ("*.rt", "*.antt")
                for path in sorted((TOP / "crates" / crate / folder).rglob(kind))
            ]
            self.kept[kept] = [path.read_text() for path in paths]
        return self.kept[kept]

    def below(self, crate):
        """A crate and all that it stands on."""
        crates, found, rest = self.crates(), [], [crate]
        while rest:
            name = rest.pop()
            if name not in found:
                found.append(name)
                rest += crates.get(name, [])
        return found

    def words(self, crate):
        """Every word of a crate's sources."""
        kept = ("words", crate)
        if kept not in self.kept:
            texts = self.sources(crate, "src", "specs", "proofs")
            self.kept[kept] = {word for text in texts for word in re.findall(r"[A-Za-z_]\w*", text)}
        return self.kept[kept]

    def contracts(self, crate):
        """The clauses of each function of a crate, those of functions of one name together."""
        kept = ("contracts", crate)
        if kept not in self.kept:
            found = {}
            for text in self.sources(crate, "src"):
                for part in re.split(r"(?=\bfn [a-z_]\w*)", text)[1:]:
                    name = re.match(r"fn (\w+)", part)[1]
                    contract = re.split(r"\n\s*\{\}?\s*\n|;\n\n", part, maxsplit=1)[0]
                    names = re.findall(r"(?:ensures|requires) (\w+) *\{", contract)
                    found.setdefault(name, set()).update(names)
            self.kept[kept] = found
        return self.kept[kept]


def quoted(line):
    """What stands in backquotes."""
    return re.findall(r"`([^`]+)`", line)


def crate_of(name):
    """The crate whose page this is."""
    parts = name.split("/")
    return parts[1] if parts[0] == "crates" else None


def is_path(word):
    if not re.fullmatch(r"\.?[\w-]+(?:[./][\w*-]+)*/?", word) or word in OTHERS:
        return False
    if re.search(r"NAME|FOLDER|X_", word) or word in ("src/", "specs/", "proofs/", "must-fail/"):
        return False
    first = word.split("/")[0]
    inside = first in FOLDERS + ("src", "specs", "proofs", "must-fail") or first.startswith("ox_")
    return word.endswith(KINDS) or ("/" in word and inside)


def paths(repository):
    """Rule 1."""
    for name in repository.documents():
        crate, beside = crate_of(name), None
        for number, line in repository.lines(name):
            plain = re.findall(r"\b(?:docs|checks|bench|tools|crates)(?:/\w+)+\.\w+\b", line)
            for word in filter(is_path, [*quoted(line), *plain]):
                places = [word, f"crates/{word}", str(pathlib.PurePath(name).parent / word)]
                places += [f"crates/{crate}/{word}"] if crate else []
                places += [f"{beside}/{word}"] if beside and "/" not in word else []
                place = next((place for place in places if any(TOP.glob(place.strip("/")))), None)
                if place is None:
                    yield name, number, f"there is no `{word}`"
                elif not (TOP / place).is_dir():
                    beside = place.rpartition("/")[0]


def root_sentence(repository, crate):
    """The first paragraph of a crate's root."""
    root = f"crates/{crate}/src/lib.rt"
    if not repository.there(root):
        root = f"crates/{crate}/src/main.rt"
    lines = []
    for line in repository.text(root).split("\n"):
        if not line.startswith("//! "):
            break
        lines.append(line[4:])
    return " ".join(lines)


def crates(repository):
    """Rule 2."""
    known = repository.crates()
    scripts = {path.stem for path in (TOP / "service").glob("ox_*.py")}
    for name in repository.documents():
        for number, line in repository.lines(name):
            for word in re.findall(r"\box_[a-z]\w*", line):
                if word not in known and word not in scripts:
                    yield name, number, f"crates.txt has no {word}"
    for crate in known:
        page = f"crates/{crate}/README.md"
        if not repository.there(page):
            yield page, 1, "the crate has no page"
        elif repository.text(page).split("\n")[0] != root_sentence(repository, crate):
            yield page, 1, "the page doesn't begin as the crate's root"


def carried_by(repository, name):
    """The cells of a page's columns 'Carried by'."""
    column = None
    for number, line in repository.lines(name):
        cells = [cell.strip() for cell in re.split(r"(?<!\\)\|", line)[1:-1]]
        if "Carried by" in cells:
            column = cells.index("Carried by")
        elif not cells:
            column = None
        elif column is not None and column < len(cells) and not cells[column].startswith("---"):
            yield number, cells[column]


def named_clauses(part):
    """The functions or types, and the clauses of theirs, that a part of a cell names."""
    part = re.sub(r"\([^)]*\)", "", part)
    split = re.split(r":(?![^`]*`(?:[^`]*`[^`]*`)*[^`]*$)|, clauses? ", part, maxsplit=1)
    if len(split) == 1:
        return [], []
    owners = [word.split("::")[-1] for word in quoted(split[0])]
    return owners, [word for word in quoted(split[1]) if re.fullmatch(r"[a-z_]\w*", word)]


def run_clauses(repository):
    """The words of PROMISES' column of clauses that `run` hasn't, nor a record that it gives."""
    records = "".join(map(repository.text, RECORDS))
    fields = re.findall(r"^  pub (\w+) :", records, re.M)
    known = repository.contracts("ox_app")["run"] | set(fields)
    for number, line in repository.lines("docs/PROMISES.md"):
        if line.startswith("**Runs.**"):
            named = quoted(line)
        else:
            cells = line.split("|")
            named = quoted(cells[2]) if len(cells) == 5 and "[" in cells[3] else []
        for clause in named:
            if clause not in known:
                yield "docs/PROMISES.md", number, f"`run` has no clause `{clause}`"


def clauses(repository):
    """Rule 3."""
    yield from run_clauses(repository)
    for name in repository.pages():
        crate = crate_of(name)
        below = repository.below(crate)
        words = set().union(*(repository.words(lower) for lower in below))
        for number, cell in carried_by(repository, name):
            for word in quoted(cell):
                if not is_path(word):
                    for part in re.findall(r"[A-Za-z_]\w*", word):
                        if part not in words:
                            yield name, number, f"`{part}` stands nowhere in {crate} or below"
            for part in cell.split(";"):
                owners, named = named_clauses(part)
                for owner in owners:
                    for clause in named:
                        if not has_clause(repository, below, owner, clause):
                            yield name, number, f"`{owner}` has no clause `{clause}`"


def has_clause(repository, below, owner, clause):
    """Whether a function, or a type, trait or record, has a clause, fact or field of this name."""
    found = [repository.contracts(crate).get(owner) for crate in below]
    if any(names is not None for names in found):
        return any(names and clause in names for names in found)
    for crate in below:
        for text in repository.sources(crate, "src", "specs", "proofs"):
            if re.search(rf"\b(?:struct|trait|enum|record|for) {owner}\b", text):
                if re.search(rf"\b{clause}\b", text):
                    return True
    return not owner[:1].isupper() and any(clause in repository.words(crate) for crate in below[:1])


def verbs():
    """The verbs of rt."""
    if shutil.which("rt") is None:
        return VERBS
    out = {"stdout": subprocess.PIPE, "stderr": subprocess.STDOUT, "text": True}
    told = subprocess.run(["rt", "help"], **out).stdout
    named = re.findall(r"^(?:usage:)? *rt ([a-z|-]+)", told, re.M)
    found = {verb for words in named for verb in words.split("|")}
    return found | VERBS if found else VERBS


def commands_in(repository, name):
    """The commands of a document: those in backquotes and those of indented lines."""
    for number, line in repository.lines(name):
        found = quoted(line) + ([line.strip()] if line.startswith("    ") else [])
        for command in found:
            for part in re.split(r"&&|[()]|;", command):
                if re.match(r"(?:rt|cd|python3|ox_main|\./ox) ", part.strip()):
                    yield number, part.strip()


def commands(repository):
    """Rule 4."""
    known, program = verbs(), repository.text("crates/ox_app/src/subcommand.rt")
    subcommands = set(re.findall(r'b"([a-z]+)"', program))
    profiles = set(re.findall(r'=> "([a-z]+)"', repository.text("crates/ox_sat/src/profiles.rt")))
    routes = set(re.findall(r'=> "(/[a-z]+/?)"', repository.text("crates/ox_routes/src/route.rt")))
    routes |= set(re.findall(r'b"(/[a-z]+/)"', repository.text("crates/ox_held/src/paths.rt")))
    codes = set(re.findall(r"Status::\w+ => (\d+)", repository.text("crates/ox_app/src/status.rt")))
    for name in repository.documents():
        for number, command in commands_in(repository, name):
            for wrong in wrong_words(repository, command.split(), known, subcommands, profiles):
                yield name, number, wrong
        for number, line in repository.lines(name):
            for word in quoted(line):
                route = re.match(r"/[a-z]+(?:/(?=.)|$)", word)
                if route and route[0] not in routes and route[0] + "/" not in routes:
                    if not (TOP / word.strip("/")).exists() and not word.startswith(OF_SYSTEM):
                        yield name, number, f"there is no route {route[0]}"
            for code in re.findall(r"\bstatus (\d{1,2})\b", line):
                if code not in codes:
                    yield name, number, f"no run ends with status {code}"
    rows = re.findall(r"^\| (\d+) \|(?! kept for)", repository.text("docs/OPERATING.md"), re.M)
    if sorted(rows) != sorted(codes):
        yield "docs/OPERATING.md", 1, "the table of statuses hasn't those of status.rt"


def wrong_words(repository, words, known, subcommands, profiles):
    """What of a command isn't there."""
    if words[0] == "cd" and not repository.there(words[1]):
        yield f"there is no folder {words[1]}"
    if words[0] == "python3" and not repository.there(words[1]):
        if not re.search(r"NAME|^-", words[1]):
            yield f"there is no script {words[1]}"
    if words[0] == "rt" and re.fullmatch(r"[a-z-]+", words[1]) and words[1] not in known:
        yield f"rt has no {words[1]}"
    if words[0] == "./ox" and (words[1] in COMMANDS or words[1].startswith("-")):
        return
    runs = re.search(
        r"(?:-- |ox_main |\./ox )(?:\.|[a-z]+|FOLDER) (\w+)(?: (\w+))?", " ".join(words)
    )
    if runs and runs[1] not in subcommands:
        yield f"there is no subcommand {runs[1]}"
    if runs and runs[1] in ("fold", "init") and runs[2] not in profiles | {"PROFILE"}:
        yield f"there is no profile {runs[2]}"


def anchors(repository, name):
    """The fragments by which the headings of a document are linked."""
    words = (re.sub(r"[^\w\s-]", "", title.lower()) for title in headings(repository, name))
    return {title.replace(" ", "-") for title in words}


def headings(repository, name):
    return {line.lstrip("#").strip() for _, line in repository.lines(name) if line.startswith("#")}


def bold(repository, name):
    return set(re.findall(r"\*\*([^*]+?)\.?\*\*", repository.text(name)))


# a document, and what is said of it up to the end of the sentence or to another document
NAMED = r"\b((?:README|CONTRIBUTING|docs/\w+|bench/README)\.md)((?:(?!\. |\w\.md).)*)"
QUOTED = r"'([A-Z](?:[^'\n]|'s )+)'"


def links(repository):
    """Rule 5."""
    for name in repository.documents():
        here = pathlib.PurePosixPath(name).parent
        for number, line in repository.lines(name):
            for target, anchor in re.findall(r"\]\(([^)#]*)(?:#([^)]*))?\)", line):
                place = (TOP / here / target).resolve() if target else TOP / name
                if not target.startswith("http") and not place.exists():
                    yield name, number, f"the link to {target} leads nowhere"
                elif anchor and anchor not in anchors(repository, str(place.relative_to(TOP))):
                    yield name, number, f"the link to {target} has no #{anchor}"
            for target, said in re.findall(NAMED, line):
                if not repository.there(target):
                    yield name, number, f"there is no {target}"
                    continue
                for section in re.findall(QUOTED, said):
                    if section not in headings(repository, target) | bold(repository, target):
                        yield name, number, f"{target} has no section '{section}'"
            own = re.findall(r"\('([A-Z][^'()]+)'\)|\b(?:in|to) '([A-Z][^'()]+)'", line)
            for section in map("".join, own):
                if section not in headings(repository, name) | bold(repository, name):
                    yield name, number, f"there is no section '{section}' here"


def number_of(repository, source, constant):
    """The number behind these words of a file of a crate, or None."""
    there = repository.text(f"crates/{source}")
    found = re.search(r"(?<!\w)" + re.escape(constant) + r"(?:: \w+ =)? ([^;,\]\n]+)", there)
    return found and reckoned(repository, source.split("/")[0], found[1])


def reckoned(repository, crate, text):
    """A sum of products of numbers, and of constants of the crate or of one below it."""
    total = 0
    for term in text.split("+"):
        product = 1
        for factor in map(str.strip, term.split("*")):
            if factor[:1].isdigit():
                product *= int(factor, 0)
            else:
                product *= constant_of(repository, crate, factor)
        total += product
    return total


def constant_of(repository, crate, name):
    """The constant of this name, of the crate or of one below it."""
    for lower in repository.below(crate):
        for text in repository.sources(lower, "src"):
            found = re.search(rf"\bconst {name}: \w+ = ([^;]+);", text)
            if found:
                return reckoned(repository, lower, found[1])
    raise SystemExit(f"{crate} has no constant {name}")


def sizes(repository):
    """Rule 6."""
    for name in repository.documents():
        most = PAGE_SIZE if crate_of(name) else SIZES.get(name)
        size = len(repository.text(name).encode())
        if most is not None and size > most:
            yield name, 1, f"it has {size} bytes, of at most {most}"
    for source, constant, said in CONSTANTS:
        value = number_of(repository, source, constant)
        source = f"crates/{source}"
        if value is None:
            yield source, 1, f"there is no `{constant}`"
            continue
        for name in repository.documents():
            for number, line in repository.lines(name):
                for text in re.findall(said, line):
                    if int(text.replace(",", "")) != value:
                        yield name, number, f"{text} is {value} in {source}"


def section(repository, name, title):
    """The lines of a section of a document, with their numbers."""
    inside = False
    for number, line in repository.lines(name):
        if line.startswith("#"):
            inside = line.lstrip("#").strip() == title
        elif inside:
            yield number, line


def limits(repository):
    """Rule 6: the table of limits, with the constants that it names."""
    name = "docs/FORMATS.md"
    for number, line in section(repository, name, "Limits"):
        cells = line.split("|")
        if len(cells) != 5 or not cells[2].strip()[:1].isdigit():
            continue
        said = int(cells[2].replace(",", ""))
        for constant, source in re.findall(r"`([^`]+)` of `([^`]+)`", cells[3]):
            value = number_of(repository, source, constant)
            if value is None:
                yield name, number, f"{source} has no `{constant}`"
            elif value != said:
                yield name, number, f"{said} is {value} in {source}"


def groups(repository):
    """Rule 10: the headings of crates.txt, and those of docs/ARCHITECTURE.md, with their crates."""
    name, heading, listed = "docs/ARCHITECTURE.md", "", {}
    for number, line in repository.lines("crates.txt"):
        if line.startswith("# "):
            heading = line[2:]
        elif line.strip():
            listed[line.split(":")[0].split()[0]] = heading, number
    told, heading = {}, ""
    for number, line in repository.lines(name):
        if line.startswith("#"):
            heading = line.lstrip("# ")
        for crate in re.findall(r"^\| `(ox_\w+)` \|", line):
            told.setdefault(crate, (heading, number))
    for crate, (heading, number) in listed.items():
        if crate not in told:
            yield name, 1, f"no heading has {crate}, which stands under '{heading}' in crates.txt"
        elif told[crate][0] != heading:
            yield name, told[crate][1], f"{crate} stands under '{heading}' in crates.txt"


def logic(repository):
    """Rule 7."""
    if shutil.which("rt") is None:
        return
    told = subprocess.run(["rt", "version"], stdout=subprocess.PIPE, text=True).stdout.split()
    kit, there = told[0], told[-1]
    for number, line in repository.lines("README.md"):
        for said in re.findall(r"logic `([0-9a-f]+)`", line):
            if said != there:
                yield "README.md", number, f"the kit's logic is {there}, and no {said}"
        named = re.findall(r"`(rattle-kit-\w+)`", line)
        if named and kit not in named:
            print(f"note: README.md names {' and '.join(named)}, and {kit} is here")


def columns(repository):
    """Rule 8."""
    folders = "bench", "checks", "service", "tools"
    paths_ = (path for folder in folders for path in (TOP / folder).rglob("*.py"))
    for name in ["ox", *sorted(str(path.relative_to(TOP)) for path in paths_)]:
        for number, line in repository.lines(name):
            if len(line) > 100:
                yield name, number, "the line passes 100 columns"


def definitions(repository):
    """Rule 9."""
    for number, cause in review.told(repository.text(review.REVIEW)):
        yield review.REVIEW, number, cause


def calls(repository):
    """Rule 11."""
    yield from surface.told(repository.text)


RULES = [
    paths,
    crates,
    clauses,
    commands,
    links,
    sizes,
    limits,
    logic,
    columns,
    groups,
    definitions,
    calls,
]

# for each rule a document and a wrong line
WRONG = {
    paths: ("docs/RULES.md", "See `ox_sat/src/nowhere.rt`."),
    crates: ("docs/ARCHITECTURE.md", "See `ox_nothing`."),
    clauses: (
        "crates/ox_sat/README.md",
        "\n| Promise | Carried by |\n|---|---|\n| a | `first`: `minted` |",
    ),
    commands: ("docs/OPERATING.md", "Try `rt run -- out obey regtest`."),
    links: ("docs/OPERATING.md", "See docs/FORMATS.md, 'Nothing of the kind'."),
    limits: (
        "docs/FORMATS.md",
        "## Limits\n\n| a | 31 | `LINKS` of `ox_links/src/rotation.rt` |",
    ),
    sizes: ("docs/RULES.md", "A block has at most 4,000,001 bytes in all."),
    logic: ("README.md", "It is logic `0123456789abcdef`."),
    columns: ("checks/documents.py", "#" * 101),
    groups: ("crates.txt", "# Nowhere\nox_varint:"),
    calls: ("crates/ox_varint/src/lib.rt", "pub fn nobody_calls() -> Result<(), NotNumber> {"),
    definitions: ("docs/REVIEW.md", "| 16 | `nothing` | `ox_sat/src/profiles.rt` | nothing |"),
}


def selftest():
    failed = 0
    for rule in RULES:
        name, line = WRONG[rule]
        before = len(list(rule(Repository())))
        changed = Repository({name: (TOP / name).read_text() + line + "\n"})
        told = len(list(rule(changed))) == before + 1
        failed += not told
        print(f"{rule.__name__}: {'told' if told else 'not told: ' + line}")
    print(f"{len(RULES) - failed} passed, {failed} failed")
    return failed


# Commands of the pages, run as they are written.

PAGES = ["README.md", "docs/OPERATING.md", "service/README.md"]
# the first words of lines that aren't run, and why
NOT_RUN = [
    ("git clone ", "it wants an address"),
    ("./ox demo", "the gate runs it"),
    ("./ox test", "it runs this"),
    ("python3 service/ox_feed.py ", "it wants a node"),
    ("service/install.sh", "it changes the system: service/check.py runs it below a folder"),
    ("adduser |install |ln |runuser |systemctl |journalctl |apt-get ", "it changes the system"),
    ("bitcoin-cli ", "it wants a node"),
    (r"curl -H|curl --data", "it wants a block of a node"),
    (r"\w+=|scrape_configs:|rule_files:", "it is a line of a file"),
    (r"blocks of|connect 01|disconnect|\(a feed|a\.ox", "it is a picture's"),
]


def page_commands():
    """The indented lines of the pages that are commands, in their order."""
    repository = Repository()
    for name in PAGES:
        for number, line in repository.lines(name):
            if re.match(r" {4}\S", line):
                reason = next(
                    (why for words, why in NOT_RUN if re.match(words, line.strip())), None
                )
                if reason is None:
                    yield name, number, line.strip()


def old_store(folder):
    """A store of version 1, for `migrate`."""
    blocks, _ = chain.chain(3)
    (folder / "a.ox").write_bytes(old_file_of(map(chain.payload_of, blocks)))
    (folder / "b.ox").write_bytes(b"\0")


def folder_for(word, command, program, room):
    """A folder that stands for a word of a command, with such a store as the command wants."""
    folder = room / (word + re.sub(r"\W", "", command))
    folder.mkdir()
    if "migrate" in command:
        old_store(folder)
    elif "drill" not in command:
        subprocess.run([program, folder, "init", "mainnet", "100"], check=True, stdout=QUIET)
    return str(folder)


def run_command(command, program, room):
    """The status of a command in this folder; `serve` is left running, and is given back."""

    def meant(word):
        """What stands for a word: the program, or a folder."""
        return str(program) if word == "ox_main" else folder_for(word, command, program, room)

    words = re.sub(r"\b(?:ox_main|FOLDER|LEADER|FOLLOWER)\b", lambda it: meant(it[0]), command)
    if command == "service/package.py":
        words += f" --program {program} --into ."
    if " serve " in words:
        return 0, subprocess.Popen(words.split(), stdout=QUIET)
    shell = ["bash", "-o", "pipefail", "-c", words]
    ran = subprocess.run(shell, cwd=room, stdout=QUIET, stdin=QUIET, timeout=120)
    return ran.returncode, None


QUIET = subprocess.DEVNULL


def listens(port):
    """Whether somebody listens there; waits a little for that."""
    for _ in range(100):
        with contextlib.suppress(OSError), socket.create_connection(("127.0.0.1", port), 1):
            return True
        time.sleep(0.1)
    return False


def run_commands(program):
    """Runs the commands of the pages; how many failed."""
    passed = failed = 0
    server = None
    with tempfile.TemporaryDirectory() as folder:
        room = pathlib.Path(folder)
        for path in TOP.iterdir():
            (room / path.name).symlink_to(path)
        try:
            for name, number, command in page_commands():
                if command.startswith("curl ") and server and not listens(8080):
                    status = "no reply, since `serve` doesn't listen"
                else:
                    status, started = run_command(command, program, room)
                    server = started or server
                passed, failed = passed + (status == 0), failed + (status != 0)
                if status:
                    print(f"{name}:{number}: `{command}` ended with {status}")
        finally:
            if server:
                server.terminate()
                server.wait()
    print(f"{passed} passed, {failed} failed")
    return failed


def main():
    words = words_of(__doc__)
    words.add_argument("--selftest", action="store_true", help="try the rules themselves")
    words.add_argument(
        "--commands",
        type=pathlib.Path,
        metavar="PROGRAM",
        help="run the commands of three pages by this program, in a copy of what they name",
    )
    said = words.parse_args()
    if said.selftest:
        sys.exit(selftest() != 0)
    if said.commands:
        sys.exit(run_commands(said.commands.resolve()) != 0)
    repository, told = Repository(), 0
    for rule in RULES:
        for name, number, cause in rule(repository):
            print(f"{name}:{number}: {cause}")
            told += 1
    print(f"{told} told")
    sys.exit(told != 0)


if __name__ == "__main__":
    main()
