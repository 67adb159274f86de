#!/usr/bin/env python3
"""Kills a running `apply` again and again, and looks at what the store has then.

It applies a feed of 300 regtest blocks, most of them small and some of up to two million bytes, and
of disconnects, one to about six blocks, to a store of depth 5 below out/ beside this script, and
kills the program (SIGKILL, by the number of its own process): while it starts and opens the store,
a random time after a random number of lines was shown, in the command that turns the files, or as
soon as a file grows by a large block or by a whole index. Then it tests that

- `query /status` opens the store, which is as the lines shown left it, or as one line more did: its
  number of blocks, how many of them are kept, and its newest block, which is the one that `fold
  regtest` shows after that many lines;
- the lines that were shown, the last of them maybe in part, are those that `fold` shows;
- the two files have the bytes that docs/FORMATS.md says: those that the store's lines leave, with
  none, a part or all of what the next line writes before its last gate.

The next `apply` goes on with the line behind. At the feed's end a new store is begun. With all
kills done it tells what they met and ends with `passed` and status 0. At the first test that fails
it tells which, keeps the store, and ends with status 1. What was written outlives a killed program
even where the disk hasn't got it, so this tries no loss of power.
"""

import collections
import json
import pathlib
import random
import shutil
import subprocess
import sys
import tempfile
import time

from chain import DISCONNECT, SHORT, block_on, line_of, payload_of
from store_files import MOST_RECORDS, Disk, Store, make
from tools.checks import Failed, demand
from tools.programs import TOP, proved_program
from tools.words import words_of

PROGRAM = proved_program("ox_main")
LINES = 300
DEPTH = 5
# how many seconds a file may take to grow by what a line writes
LONGEST_GROWTH = 1


# What a store tells of itself: how many blocks it has and keeps, and the newest one's hash as it is
# shown, or None.
State = collections.namedtuple("State", "blocks kept tip")


class Feed:
    """A feed, where each line of it begins, what the store is before each, and what `fold` answers
    to it."""

    def __init__(self, program, top, chance):
        self.commands, self.states = commands(chance)
        self.path = top / "feed"
        self.places = [0]
        with open(self.path, "wb") as feed:
            for command in self.commands:
                feed.write(line_of(command))
                self.places.append(feed.tell())
        with open(self.path, "rb") as given:
            shown = subprocess.run(
                [program, top, "fold", "regtest"], check=True, stdin=given, stdout=subprocess.PIPE
            )
        self.answers = shown.stdout.splitlines(keepends=True)
        demand(len(self.answers) == LINES, "`fold` doesn't answer each line")
        for number, (answer, state) in enumerate(zip(self.answers, self.states[1:])):
            demand(answer == answer_of(state), f"`fold` answers line {number} otherwise")


def commands(chance):
    """The commands of the feed's lines, none of which is refused, and the states before each and
    after the last."""
    told, hashes, kept, states = [], [], 0, [State(0, 0, None)]
    while len(told) < LINES:
        if kept and chance.randrange(7) == 0:
            told.append(DISCONNECT)
            hashes.pop()
            kept -= 1
        else:
            previous = hashes[-1] if hashes else bytes(32)
            block, hash_ = block_on(previous, len(told), script_of(chance))
            told.append(payload_of(block))
            hashes.append(hash_)
            kept = min(kept + 1, DEPTH)
        states.append(State(len(hashes), kept, hashes[-1][::-1].hex() if hashes else None))
    return told, states


def answer_of(state):
    return f"ok {state.blocks - 1} {state.tip}\n".encode() if state.blocks else b"ok empty\n"


def script_of(chance):
    """A script of one byte, or of as many as a write can be torn in."""
    if chance.randrange(30):
        return SHORT
    return chance.randbytes(chance.choice([20_000, 200_000, 2_000_000]))


def begin(program, folder):
    """An empty store in a folder that is made anew."""
    shutil.rmtree(folder, ignore_errors=True)
    folder.mkdir()
    subprocess.run(
        [program, folder, "init", "regtest", str(DEPTH)], check=True, stdout=subprocess.DEVNULL
    )


def size_of(folder):
    return sum((folder / name).stat().st_size for name in ("a.ox", "b.ox"))


def wait_for(child, folder, when):
    """Waits for the moment, or until the program has ended; for a file that grows not for long,
    since it may have grown before."""
    shown = folder / "shown"
    while child.poll() is None and shown.read_bytes().count(b"\n") < when.lines:
        time.sleep(0.0002)
    size, last = size_of(folder), time.monotonic() + LONGEST_GROWTH
    while when.grows and child.poll() is None and size_of(folder) <= size:
        if time.monotonic() > last:
            break
    time.sleep(when.seconds)


def apply_and_kill(program, folder, given, when):
    """Applies the feed on this stream, waits for the moment and kills the program. Answers what it
    showed, and whether it was still running."""
    shown = folder / "shown"
    with open(shown, "wb") as taken:
        child = subprocess.Popen(
            [program, folder, "apply"], stdin=given, stdout=taken, stderr=subprocess.DEVNULL
        )
        wait_for(child, folder, when)
        child.kill()
        status = child.wait()
    demand(status in (0, -9), f"`apply` ended with {status}")
    return shown.read_bytes(), status == -9


def look(program, folder):
    """What the store tells of itself by `query`, and how long it took."""
    begun = time.perf_counter()
    asked = subprocess.run(
        [program, folder, "query", "/status"], stdout=subprocess.PIPE, stderr=subprocess.PIPE
    )
    seconds = time.perf_counter() - begun
    demand(
        asked.returncode == 0, f"`query` ended with {asked.returncode} and showed {asked.stdout}"
    )
    body = json.loads(asked.stdout)
    state = State(body.pop("blocks"), body.pop("kept"), body.pop("tip"))
    demand(body == {"depth": DEPTH, "profile": "regtest"}, f"`query` shows {body} besides {state}")
    return state, seconds


class Writes:
    """A disk that keeps what is written."""

    def __init__(self):
        self.writes = []

    def write(self, file, at, data):
        self.writes.append((file, at, data))

    def sync(self, file):
        pass


def writes_of(store, command):
    """What a command writes into the files of a store."""
    disk = Writes()
    Store(disk, store.stack, store.tail).carry_out(command)
    return disk.writes


def begins_with(got, old, at, data):
    """Whether a file is the old one with a front of these bytes over it at a place."""
    new = got[at : at + len(data)]
    same = next((n for n, pair in enumerate(zip(new, data)) if pair[0] != pair[1]), len(new))
    return got[:at] == old[:at] and got[at + same :] == old[at + same :]


def look_at_files(folder, store, command):
    """What stands there of the next command, if there is one: nothing, or a part of what it
    writes before its last gate."""
    got = {"A": (folder / "a.ox").read_bytes(), "B": (folder / "b.ox").read_bytes()}
    files = Disk()
    files.files = {file: bytearray(data) for file, data in store.disk.files.items()}
    if files.files == got:
        return "nothing of the next command"
    *writes, _ = writes_of(store, command) if command else [None]
    what = "turn" if store.tail.must_turn() else "record"
    for number, (file, at, data) in enumerate(writes, 1):
        others = all(files.files[other] == got[other] for other in "AB" if other != file)
        if others and begins_with(got[file], bytes(files.files[file]), at, data):
            whole = number == len(writes) and got[file][at : at + len(data)] == data
            return f"a {what} but for its gate" if whole else f"a part of a {what}"
        files.write(file, at, data)
    raise Failed("the files have other bytes")


# So many lines are shown, a file has grown where `grows`, and so many seconds have passed.
Moment = collections.namedtuple("Moment", "lines grows seconds")


def moment(chance, feed, first, store, opening):
    """When to kill an `apply` from this line on. Starting and opening took so long last."""
    kind = chance.randrange(6)
    if kind == 0:
        return Moment(0, False, chance.uniform(0, opening))
    if kind < 3:
        return in_turn(chance, max(MOST_RECORDS - store.tail.records, 0), opening)
    large = [
        n for n, command in enumerate(feed.commands[first : first + 50]) if len(command) > 100_000
    ]
    if kind == 3 and large:
        return Moment(large[0], True, 0)
    return Moment(
        chance.randint(1, 20), False, chance.uniform(0, chance.choice([0.0002, 0.001, 0.005]))
    )


def in_turn(chance, lines, opening):
    """When to kill in the command that turns the files, so many lines from here."""
    if chance.randrange(3) == 0:
        return Moment(lines, True, 0)
    begun = 0 if lines else chance.uniform(0.5, 1.5) * opening
    return Moment(lines, False, begun + chance.uniform(0, chance.choice([0.001, 0.004])))


def kill_once(program, folder, feed, before, store, when, met):
    """Applies and kills once, and tests what is left: the store has heard so many lines. Answers
    how many it has then, and how long it took to open it."""
    with open(feed.path, "rb", buffering=0) as given:
        given.seek(feed.places[before])
        shown, was_killed = apply_and_kill(program, folder, given, when)
    answers = b"".join(feed.answers[before:])
    demand(answers.startswith(shown), "other lines were shown than `fold` shows")
    lines = shown.count(b"\n")
    state, opening = look(program, folder)
    # two states that follow each other differ in their number of blocks
    count = before + lines
    unshown = state != feed.states[count]
    count += unshown
    demand(
        count <= LINES and state == feed.states[count],
        f"{lines} lines were shown behind {before}, and there is {state}",
    )
    for command in feed.commands[before:count]:
        met["turns"] += store.tail.must_turn()
        store.carry_out(command)
    behind = look_at_files(folder, store, next(iter(feed.commands[count:]), None))
    met["killed while it ran"] += was_killed
    met["killed before a line was shown"] += was_killed and not shown
    met["a command more than lines"] += unshown
    met[f"{behind} behind what stands"] += 1
    met["commands"] += count - before
    met["disconnects"] += feed.commands[before:count].count(DISCONNECT)
    return count, opening


def kill_often(program, top, kills, chance, met):
    feed = Feed(program, top, chance)
    folder = top / "store"
    count, opening, store = LINES, 0, None
    for _ in range(kills):
        if count == LINES:
            begin(program, folder)
            state, opening = look(program, folder)
            demand(state == feed.states[0], f"a new store has {state}")
            count, store = 0, make(Disk(), depth=DEPTH)
            met["stores"] += 1
        when = moment(chance, feed, count, store, opening)
        count, opening = kill_once(program, folder, feed, count, store, when, met)


def main():
    words = words_of(__doc__)
    words.add_argument("kills", nargs="?", type=int, default=300, help="how many (300)")
    words.add_argument("seed", nargs="?", type=int, default=1, help="of all chances (1)")
    words.add_argument(
        "program", nargs="?", type=pathlib.Path, default=PROGRAM, help="the built program"
    )
    said = words.parse_args()
    program = said.program.resolve()
    if not program.exists():
        sys.exit(f"{program} isn't built")
    met = collections.Counter()
    out = TOP / "checks" / "out"
    out.mkdir(exist_ok=True)
    top = pathlib.Path(tempfile.mkdtemp(dir=out))
    try:
        kill_often(program, top, said.kills, random.Random(said.seed), met)
    except Failed as failed:
        print(f"FAILED: {failed}; the store is in {top}")
        sys.exit(1)
    shutil.rmtree(top)
    for what, times in sorted(met.items()):
        print(f"{times:7,} {what}")
    print(f"passed: after {said.kills} kills no command was lost whose line was shown")


if __name__ == "__main__":
    main()
