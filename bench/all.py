#!/usr/bin/env python3
"""Builds the programs that are timed, runs the scripts of this folder, and writes what they
measured.

    python3 bench/all.py [--debian] [--table] [NAME..]

NAME is a script's name without `.py`; without one all are run, which takes hours. Each row that a
script reports goes to the end of bench/results.tsv, with the machine, the date and the commit. The
table of bench/README.md, between its two markers, is then written anew from the newest rows of the
works that it has (PAGE), each at the least and at the greatest size that was measured. With --table
nothing else is done.

The proved programs are built by `rt run`, which proves them first, and the plain ones by cargo as
their Cargo.lock says. Where crates.io can't be reached, --debian builds them from Debian 12's
packages (`apt-get install librust-sha2-dev librust-serde-json-dev librust-serde-derive-dev
librust-hex-dev librust-httparse-dev librust-memchr-dev librust-lru-dev`), in a copy without the
locks, whose checksums those files lack. Debian 12 lacks `matchit`: the package librust-matchit-dev
of Debian 13, 0.7.3, needs nothing else of it.
"""

import datetime
import os
import pathlib
import platform
import shutil
import subprocess
import sys
import tempfile

from runs import RESULTS
from tools.programs import CRATES, TOP, plain_program
from tools.words import words_of

BENCH = TOP / "bench"
ROWS, PAGE_FILE = BENCH / "results.tsv", BENCH / "README.md"
BEGIN, END = "<!-- bench/all.py writes from here -->", "<!-- to here -->"
DEBIAN = [
    "--config",
    'source.crates-io.replace-with="debian"',
    "--config",
    'source.debian.directory="/usr/share/cargo/registry"',
]

# what each script needs: proved programs, and plain ones
NEEDS = {
    "address": (["ox_block_rows"], ["address"]),
    "allocation": (["ox_speed"], ["allocation"]),
    "apply_and_open": (["ox_main"], ["opening"]),
    "as_of": (["ox_run_rows"], ["as_of"]),
    "checkpoint": (["ox_main"], ["checkpoint"]),
    "decipher_runestones": (["ox_speed"], []),
    "desk": (["ox_run_rows", "ox_main"], ["desk"]),
    "find_envelopes": (["ox_block_rows"], []),
    "drill": (["ox_main"], ["drill"]),
    "fold_blocks": (["ox_main"], ["fold_blocks"]),
    "fold_feed": (["ox_main"], []),
    "follow": (["ox_main"], []),
    "holders": (["ox_speed"], ["holders"]),
    "hostile": (["ox_main"], []),
    "index_blocks": (["ox_main"], ["index"]),
    "inscriptions": (["ox_speed"], ["inscriptions"]),
    "migrate": (["ox_main"], []),
    "outputs_memory": (["ox_main"], []),
    "query": (["ox_index_rows"], ["query"]),
    "read_block": (["ox_block_rows"], ["read_block"]),
    "rows": (["ox_index_rows"], ["rows"]),
    "runes": (["ox_speed"], ["runes"]),
    "serve": (["ox_main"], ["serve"]),
    "streams": (["ox_block_rows"], ["http"]),
    "undo": (["ox_main"], ["fold_blocks"]),
}
# the words and the feed of the run by which `rt run` builds a program
BUILDS = {
    "ox_main": (["out", "fold", "regtest"], "../../feeds/genesis.feed"),
    "ox_speed": (["look", "3000", "1"], os.devnull),
}
# the works that the page shows, in its order
PAGE = [
    "a feed",
    "blocks without witnesses, beside what ours keeps",
    "blocks with witnesses, beside what ours keeps",
    "blocks taken back",
    "blocks of inscriptions and runes",
    "a small block applied",
    "the whole index written",
    "a migration",
    "a large store opened",
    "a large store opened, memory",
    "rows of an index read",
    "rows of an index written",
    "a drill, files in memory",
    "a drill, files on a disk",
    "a block read and hashed",
    "a signed number",
    "/inscription, beside structs",
    "a body heard in pieces",
    "a kept reply, /status",
    "a reply made anew, /blockhash",
    "replies as of 100 blocks back, beside `walk`",
    "replies without runes as of 100 blocks back, beside `walk`",
    "a block posted, beside `apply`",
    "/status served, 1,000 blocks, processor time",
]
COLUMNS = "script work size unit ox plain ratio goal machine date commit note".split()


def build_proved(name):
    words, feed = BUILDS.get(name, ([], "stdin"))
    crate = CRATES / name
    with open(crate / feed, "rb") as given:
        command = ["rt", "run", *(["--", *words] if words else [])]
        subprocess.run(command, cwd=crate, stdin=given, stdout=subprocess.DEVNULL, check=True)


def build_plain(name, debian):
    folder = BENCH / "plain" / name
    command = ["cargo", "build", "--release"]
    if not debian:
        command += ["--locked"] if (folder / "Cargo.lock").exists() else []
        subprocess.run(command, cwd=folder, check=True)
        return
    with tempfile.TemporaryDirectory() as copy:
        copy = pathlib.Path(copy) / "plain"
        ignored = shutil.ignore_patterns("Cargo.lock", "target")
        shutil.copytree(BENCH / "plain", copy, ignore=ignored)
        place = {**os.environ, "CARGO_TARGET_DIR": str(plain_program(name).parents[1])}
        command = ["cargo", *DEBIAN, *command[1:], "--offline"]
        subprocess.run(command, cwd=copy / name, env=place, check=True)


def machine():
    """The processor, and how many there are."""
    lines = pathlib.Path("/proc/cpuinfo").read_text().splitlines()
    names = [line.split(":", 1)[1].strip() for line in lines if line.startswith("model name")]
    flags = next((line for line in lines if line.startswith("flags")), "")
    sha = "with" if " sha_ni" in flags else "without"
    name = names[0] if names else platform.machine()
    return f"{name}, {os.cpu_count()} processors, {sha} SHA instructions"


def measure(name):
    """Runs a script, and puts the rows that it reported behind the others."""
    with tempfile.NamedTemporaryFile("r") as told:
        where = {**os.environ, RESULTS: told.name}
        subprocess.run([sys.executable, BENCH / f"{name}.py"], env=where, check=True)
        commit = ["git", "-C", TOP, "rev-parse", "--short", "HEAD"]
        ran = subprocess.run(commit, stdout=subprocess.PIPE, text=True, check=True)
        end = [machine(), datetime.date.today().isoformat(), ran.stdout.strip(), ""]
        with open(ROWS, "a") as rows:
            for line in told:
                rows.write("\t".join([line.rstrip("\n"), *end]) + "\n")


def newest_rows():
    """The newest row of each work and size."""
    lines = ROWS.read_text().splitlines()
    if lines[0].split("\t") != COLUMNS:
        sys.exit(f"{ROWS} has other columns")
    rows = [dict(zip(COLUMNS, line.split("\t"))) for line in lines[1:]]
    return {(row["work"], row["size"]): row for row in rows}


def amount(size):
    """The number that a size begins with."""
    return int(size.split()[0].replace(",", ""))


def shown(rows):
    """The rows of the page: of each work the least and the greatest size."""
    for work in PAGE:
        sizes = [row for row in rows if row["work"] == work]
        sizes.sort(key=lambda row: amount(row["size"]))
        yield from sizes[:: max(len(sizes) - 1, 1)]


def digits(text):
    """A figure with a comma behind each thousand."""
    return f"{int(text):,}" if text.isdigit() else text


def table(rows):
    """What stands between the markers."""
    places = {}
    for row in rows:
        places.setdefault(row["machine"], set()).add(row["date"])
    for place, dates in places.items():
        yield f"{place}: {' to '.join(sorted({min(dates), max(dates)}))}."
    yield from ("", "| Work | Size | ox | Plain | Ratio | Goal |", "|---|---|--:|--:|--:|--:|")
    before = None
    for row in rows:
        work = "" if row["work"] == before else f"{row['work']}, {row['unit']}"
        before = row["work"]
        size = row["size"] + ("\\*" if row["note"] else "")
        figures = (digits(row[column]) for column in ("ox", "plain", "ratio", "goal"))
        yield f"| {' | '.join([work, size, *figures])} |"


def write_page():
    lines = PAGE_FILE.read_text().split("\n")
    begin, end = lines.index(BEGIN), lines.index(END)
    rows = list(shown(list(newest_rows().values())))
    PAGE_FILE.write_text("\n".join([*lines[: begin + 1], *table(rows), *lines[end:]]))


def main():
    words = words_of(__doc__)
    words.add_argument("--debian", action="store_true", help="build plain programs of its packages")
    words.add_argument("--table", action="store_true", help="write the table alone")
    words.add_argument("names", nargs="*", metavar="NAME", help="scripts, without .py (all)")
    said = words.parse_args()
    names = said.names or list(NEEDS)
    if not set(names) <= set(NEEDS):
        words.error(f"there are {', '.join(NEEDS)}")
    if not said.table:
        for program in sorted({one for name in names for one in NEEDS[name][0]}):
            build_proved(program)
        for program in sorted({one for name in names for one in NEEDS[name][1]}):
            build_plain(program, said.debian)
        for name in names:
            print(f"== {name}", flush=True)
            measure(name)
    write_page()


if __name__ == "__main__":
    main()
