#!/usr/bin/env python3
"""Records the calls that the built program makes on its two files, builds what a loss of power may
leave of them at each moment, and has the program open it.

The headline is proved of sites that keep a model of a disk. That the real site makes the calls that
the model speaks of, in that order, on those files, no proof says. So this records, by strace, the
calls of an `init`, an `apply`, also where the files turn or have version 3, a `migrate`, a `grow`,
a `drill` and a `serve`, and looks whether they keep the order that the proof is about
(`faults_in`). Then it builds states of both files by docs/FORMATS.md, 'What a crash leaves of a
file' (`Disk`), opens each, and compares what `/status` and `/audit` tell with the plain index
(plain_index) of the lines that were answered, or of one more; some take a disconnect and a connect
besides. Each sync and write of an `apply` fails once, by strace too, or is cut short. And records
are altered: a sync is left out, a gate and its record are one write, an answer comes first, the
other file is written or synced. Each has to be found, by its order and by its states.

No real disk is tried, no sectors and no cache of a controller: what a disk does beyond the model
isn't seen. strace is Debian's package, which is installed where it is missing; where that can't be
done, or calls can't be recorded, a line says so, and nothing is tried. A check that fails is told
with its cause, and a state that fails stays below out/ beside this script. The last line says how
many checks passed and how many failed, and the status is 1 where one failed. It takes a quarter of
a minute on four processors that do nothing else.
"""

import concurrent.futures
import copy
import itertools
import json
import os
import pathlib
import random
import re
import resource
import shutil
import signal
import socket
import subprocess
import sys
import tempfile
import threading
import time
import zlib
from typing import NamedTuple

import made_blocks
import old_files
import store_files
from chain import DISCONNECT, line_of, payload_of
from store_files import MOST_RECORDS, files_of
from tools.bitcoin import SUBSIDY
from tools.checks import Checks, Failed, Skipped, demand

OUT = pathlib.Path(__file__).resolve().parent / "out"
DEPTH = 5
SECONDS = 60
SEED = 1
NAMES = {"a.ox": "A", "b.ox": "B"}
# the fewest states that a run has to open
STATES = 1_000
# the most states of a moment, of one at which a file is written anew, of one of an altered record
FEW, MORE, ALTERED = 12, 120, 40
# how many lines of a feed are recorded
LINES = 12
# how many states of a hundred are fed on, too
FED_ON = 10
# what may stand where nothing was written
FILLS = b"\0", b"\7", b"\xff"
CLOSED = b"\0"


# ---- the calls


class Call(NamedTuple):
    """A call: `open`, `lock`, `read`, `write`, `sync`, `show`, or another one's name; on a file,
    the folder or a channel; and of a write the place and the bytes."""

    what: str
    on: str = ""
    at: int = 0
    data: bytes = b""


LINE = re.compile(r"(\w+)\((.*)\) += (-?\d+)")
TRACED = "trace=%file,%desc,%network"
HARMLESS = {"close", "statx", "newfstatat", "fstat", "lseek", "fcntl", "epoll_ctl", "read"}
HARMLESS |= {"recvfrom", "ioctl", "setsockopt", "getsockopt", "shutdown", "accept4"}
# calls by a path that would change the folder
CHANGES = {"rename", "renameat", "renameat2", "unlink", "unlinkat", "link", "linkat", "truncate"}
# of these calls other arguments than the first are descriptors, too
OTHERS = {"mmap": [4], "copy_file_range": [0, 2], "splice": [0, 2], "sendfile": [0, 1]}


def bytes_in(word):
    """The bytes of an argument that strace spells."""
    return bytes.fromhex(word.strip('"').replace("\\x", ""))


def calls_in(told, folder):
    """The calls in the lines of strace that are about the folder's files or show something."""
    held = {0: "input", 1: "output", 2: "errors"}
    for line in told.splitlines():
        found = LINE.match(line)
        if not found:
            continue
        name, given, result = found[1], found[2].split(", "), int(found[3])
        if name in ("openat", "open", "creat"):
            path = os.fsdecode(bytes_in(given[1] if name == "openat" else given[0]))
            on = "folder" if path == str(folder) else NAMES.get(os.path.basename(path))
            if on and result >= 0:
                held[result] = on
                yield Call("truncate" if "O_TRUNC" in line else "open", on)
            continue
        if name in CHANGES:
            yield Call(name, "folder")
        if name == "accept4" and result >= 0:
            held[result] = "link"
            continue
        for place in OTHERS.get(name, [0]):
            on = held.get(int(given[place])) if given[place].isdigit() else None
            if on:
                yield from call_of(name, on, given, result)
        if name == "close" and given[0].isdigit():
            held.pop(int(given[0]), None)


def call_of(name, on, given, result):
    """The call of this name on a file or channel."""
    if on in ("input", "errors") or result < 0 and name not in ("pwrite64", "fsync", "fdatasync"):
        return
    if on in ("output", "link"):
        if name in ("write", "sendto"):
            yield Call("show", on, 0, bytes_in(given[1])[:result])
        elif name not in HARMLESS:
            yield Call(name, on)
    elif name in ("fsync", "fdatasync"):
        yield Call("sync" if result == 0 else "failed", on)
    elif name == "pwrite64":
        what, data = ("write", bytes_in(given[1])[:result]) if result >= 0 else ("failed", b"")
        yield Call(what, on, int(given[3]), data)
    elif name == "flock":
        yield Call("lock", on)
    elif name in ("pread64", "read"):
        yield Call("read", on)
    elif name not in HARMLESS:
        yield Call(name, on)


class Recorder:
    """The program over a folder of its own, whose calls are recorded."""

    def __init__(self, program, folder):
        self.program, self.folder = program, folder
        folder.mkdir()

    def words(self, *words, inject=()):
        told = ["-e", TRACED, *itertools.chain(*(("-e", f"inject={one}") for one in inject))]
        strace = ["strace", "-D", "-o", self.folder / "told", "-xx", "-s", "100000000", *told]
        return [*strace, self.program, self.folder, *words]

    def calls(self):
        """The calls of the run that has ended."""
        until = time.monotonic() + SECONDS
        told = self.folder / "told"
        while not (text := told.read_text() if told.exists() else "").rstrip().endswith("+++"):
            demand(time.monotonic() < until, "strace doesn't end")
            time.sleep(0.005)
        told.unlink()
        return list(calls_in(text, self.folder))

    def run(self, *words, feed=b"", inject=(), **how):
        """The status, what was shown, and the calls."""
        ran = subprocess.run(
            self.words(*words, inject=inject),
            input=feed,
            stdout=subprocess.PIPE,
            stderr=subprocess.DEVNULL,
            timeout=SECONDS,
            **how,
        )
        return ran.returncode, ran.stdout, self.calls()

    def serve(self, blocks):
        """The calls of a server to which these blocks are posted, and then a disconnect."""
        ports = []
        with socket.socket() as one, socket.socket() as two:
            for door in (one, two):
                door.bind(("127.0.0.1", 0))
                ports.append(door.getsockname()[1])
        doors = [f"127.0.0.1:{port}" for port in ports]
        child = subprocess.Popen(
            self.words("serve", str(2**64 - 1), *doors),
            stdin=subprocess.DEVNULL,
            stdout=subprocess.DEVNULL,
            stderr=subprocess.DEVNULL,
        )
        try:
            with link_to(ports[1]) as link:
                for path, body in [*(("connect", block) for block in blocks), ("disconnect", b"")]:
                    head = f"POST /{path} HTTP/1.1\r\nContent-Length: {len(body)}\r\n\r\n"
                    link.sendall(head.encode() + body)
                    got = link.recv(1 << 16)
                    demand(got.startswith(b"HTTP/1.1 200 "), f"{got} was shown")
        finally:
            child.terminate()
            child.wait(SECONDS)
        return self.calls()


def link_to(port):
    """A link to a server that may be yet to listen."""
    until = time.monotonic() + SECONDS
    while True:
        try:
            return socket.create_connection(("127.0.0.1", port), SECONDS)
        except ConnectionRefusedError:
            demand(time.monotonic() < until, "nobody listens")
            time.sleep(0.01)


# ---- the model


class Disk:
    """What a crash leaves of a file, by docs/FORMATS.md. Between two syncs each range that was
    written may hold any bytes, and so may all that lies past the length at the last sync; here a
    range holds nothing, all, a front, an end or a middle of what was written, or one byte all
    over, and what lies past the length one byte all over. The other bytes stay. The length is any
    number from that at the last sync to the greatest since. The two files are independent."""

    def __init__(self, data=b""):
        self.synced, self.writes = data, []

    def write(self, at, data):
        self.writes.append((at, data))

    def sync(self):
        self.synced, self.writes = self.now(), []

    def now(self):
        """What a read gives."""
        return self.with_parts(self.writes, CLOSED, self.greatest())

    def greatest(self):
        return max([len(self.synced), *(at + len(data) for at, data in self.writes)])

    def with_parts(self, parts, fill, length):
        """The file where these parts of what was written got to the disk."""
        file = bytearray(self.synced + fill * (self.greatest() - len(self.synced)))
        for at, data in parts:
            file[at : at + len(data)] = data
        return bytes(file[:length])

    def left(self, chance, most):
        """What a crash may leave: all of it where it is little, else some of it."""
        if not self.writes:
            return [self.synced]
        lengths = range(len(self.synced), self.greatest() + 1)
        ways = [list(parts_of(at, data, chance)) for at, data in self.writes]
        count = len(lengths) * len(FILLS)
        for way in ways:
            count *= len(way)
        if count <= 4 * most:
            picks = itertools.product(itertools.product(*ways), FILLS, lengths)
        else:
            ends = [lengths[0], lengths[-1], lengths[-1]]
            picks = (
                (
                    [chance.choice(way) for way in ways],
                    chance.choice(FILLS),
                    chance.choice([*ends, chance.choice(lengths)]),
                )
                for _ in range(4 * most)
            )
        states = list(
            dict.fromkeys(
                self.with_parts([part for part in parts if part], fill, length)
                for parts, fill, length in picks
            )
        )
        return states if len(states) <= most else chance.sample(states, most)


def parts_of(at, data, chance):
    """What may have got to the disk of one write: a place and bytes, or nothing."""
    yield None
    yield at, data
    for fill in FILLS:
        yield at, fill * len(data)
    # cuts at sectors, at pages, and anywhere
    cuts = {chance.randrange(1, len(data)) for _ in range(3)} if len(data) > 1 else set()
    for size in (512, 4096):
        first = (at // size + 1) * size - at
        cuts |= set(range(first, len(data), size)[:3])
    for cut in sorted(cuts):
        yield at, data[:cut]
        yield at + cut, data[cut:]
    for low, high in itertools.combinations(sorted(cuts), 2):
        yield at + low, data[low:high]


def opens_gate(disk, on, at, data):
    """Whether a write opens a gate: one byte over one that is closed on the disk."""
    return len(data) == 1 and data != CLOSED and disk[on].synced[at : at + 1] == CLOSED


def is_behind(synced, at):
    """Whether a place is right behind the last gate of an open file, where an older one's bytes may
    still be."""
    _, end = store_files.body_of_file(synced)
    return store_files.records(synced, end)[1] == at - 1


# ---- what a record has to keep to


def faults_in(calls, before=(b"", b""), gates=1):
    """What is wrong with the order of calls, over the files that were there before. `gates` is how
    many gates are opened for each line that isn't a refusal, where that is a number."""
    disk = {"A": Disk(before[0]), "B": Disk(before[1])}
    locked, folder, opens, over = set(), False, 0, {}
    for what, on, at, data in calls:
        if what == "lock":
            locked.add(on)
        elif what == "sync":
            folder = folder or on == "folder"
            if on in disk:
                disk[on].sync()
                over.pop(on, None)
        elif what in ("read", "write") and locked != {"A", "B"}:
            yield f"a {what} of {on} before both files are locked"
        if what == "write":
            if on not in disk:
                yield f"a write into {on}"
                continue
            synced = disk[on].synced
            if on in over:
                yield f"a write into {on} before the sync of its gate"
            # behind a file's closed gate nothing is read, so no byte of it is a gate
            is_read = at == 0 or synced[:1] != CLOSED
            if at < len(synced) and len(data) != 1 and is_read and not is_behind(synced, at):
                yield f"a write over a synced byte of {on}, at {at}"
            if at < len(synced) and len(data) == 1 and is_read:
                over[on] = at
                if disk[on].writes:
                    yield f"a gate of {on}, at {at}, before the sync of what it opens"
                # a turn of version 3 opens its file behind the gate of the line's own record
                turns_on = at == 0 and opens and synced[6] == store_files.SUMMED
                opens += opens_gate(disk, on, at, data) and not turns_on
            disk[on].write(at, data)
        elif what == "show":
            if not folder:
                yield "an answer before the sync of the folder"
            if any(one.writes for one in disk.values()):
                yield "an answer before the sync of its gate"
            wanted = data.startswith((b"ok", b"HTTP/1.1 200")) * (gates or 0)
            if gates is not None and opens != wanted:
                yield f"{opens} gates were opened for an answer, not {wanted}"
            opens = 0
        elif what not in ("open", "lock", "read", "sync", "failed"):
            yield f"a call of {what} on {on}"


# ---- what is told of an index


def text_of(tree):
    return json.dumps(tree, ensure_ascii=False, sort_keys=True, separators=(",", ":")).encode()


def told_of(stack):
    """The replies to `/status` and to `/audit` of a stack of the plain index."""
    index, blocks = stack.index, len(stack.index.hashes)
    status = {
        "blocks": blocks,
        "depth": stack.depth,
        "kept": len(stack.kept),
        "profile": stack.profile,
        "tip": index.hashes[-1][::-1].hex() if blocks else None,
    }
    lost = sum(many for _, many in index.lost)
    runes = [
        {
            "burned": str(rune.burned),
            "held": str(held_of(index, rune.id)),
            "id": f"{rune.id[0]}:{rune.id[1]}",
            "minted": str(rune.mints * ((rune.terms and rune.terms.amount) or 0)),
            "premine": str(rune.premine),
        }
        for rune in index.runes
    ]
    audit = {
        "claimable": blocks * SUBSIDY,
        "lost": lost,
        "outputs": blocks * SUBSIDY - lost,
        "runes": runes,
    }
    return text_of(status), text_of(audit)


def held_of(index, rune):
    return sum(many for _, held in index.balances for id_, many in held if id_ == rune)


def answer_of(stack):
    """The line of a command that leads to this stack."""
    hashes = stack.index.hashes
    return f"ok {len(hashes) - 1} {hashes[-1][::-1].hex()}\n".encode() if hashes else b"ok empty\n"


# ---- states


class State(NamedTuple):
    """What both files hold, and how many commands had been answered."""

    a: bytes
    b: bytes
    answered: int


def states_of(calls, before, chance, most=FEW):
    """What a crash may leave at each moment of a record. The moments of a turn, in which a file is
    written anew, have more."""
    disk, answered, seen = {"A": Disk(before[0]), "B": Disk(before[1])}, 0, set()
    for what, on, at, data in calls:
        if what == "write":
            disk[on].write(at, data)
        elif what == "sync" and on in disk:
            disk[on].sync()
        elif what == "show":
            answered += data.startswith((b"ok", b"HTTP/1.1 200"))
        else:
            continue
        count = MORE if what == "write" and len(disk[on].writes) > 1 else most
        both = itertools.product(disk["A"].left(chance, count), disk["B"].left(chance, count))
        for a, b in both:
            state = State(a, b, answered)
            if state not in seen:
                seen.add(state)
                yield state


class Opener:
    """Opens states, each in a folder of its own."""

    def __init__(self, program, room):
        self.program, self.room = program, room
        self.own = threading.local()
        self.numbers = itertools.count()
        self.count = 0

    def new_folder(self):
        """A folder that isn't there yet."""
        return self.room / f"recorded{next(self.numbers)}"

    def run(self, folder, *words, feed=b""):
        ran = subprocess.run(
            [self.program, folder, *words],
            input=feed,
            stdout=subprocess.PIPE,
            stderr=subprocess.DEVNULL,
            timeout=SECONDS,
        )
        return ran.returncode, ran.stdout

    def folder(self, state):
        """A folder with these files."""
        if not hasattr(self.own, "folder"):
            self.own.folder = pathlib.Path(tempfile.mkdtemp(dir=self.room))
        (self.own.folder / "a.ox").write_bytes(state.a)
        (self.own.folder / "b.ox").write_bytes(state.b)
        return self.own.folder

    def told(self, folder):
        """What `/status` and `/audit` tell."""
        asked = [self.run(folder, "query", path) for path in ("/status", "/audit")]
        demand(all(code == 0 for code, _ in asked), f"it opens with {asked}")
        return tuple(body for _, body in asked)

    def look(self, state, stacks, feeds_on=False):
        """The state has to open as so many commands left it, or as one more did."""
        folder = self.folder(state)
        told = self.told(folder)
        near = stacks.all[state.answered : state.answered + 2]
        stack = next((one for one in near if told_of(one) == told), None)
        demand(stack, f"it tells {told}, and {state.answered} commands were answered")
        if feeds_on and stack.kept:
            feed = b"disconnect\n" + line_of(payload_of(stacks.blocks[stack.tip()]))
            wanted = answer_of(stack.back()) + answer_of(stack)
            got = self.run(folder, "apply", feed=feed)
            demand(got == (0, wanted), f"it is fed on with {got}")
            demand(self.told(folder) == told, "it is another one then")

    def fault_of(self, state, look):
        """What is wrong with a state, or none."""
        try:
            look(state)
        except (Failed, subprocess.TimeoutExpired) as fault:
            return fault
        return None

    def all(self, states, look):
        """The first state that doesn't pass, with its fault; or none."""
        states = list(states)
        self.count += len(states)
        with concurrent.futures.ThreadPoolExecutor(os.cpu_count()) as pool:
            faults = pool.map(lambda state: self.fault_of(state, look), states)
            return next((one for one in zip(states, faults) if one[1]), None)

    def first_fault(self, states, look):
        """What is wrong with the first state that doesn't pass, or none."""
        return next(filter(None, (self.fault_of(state, look) for state in states)), None)


class Stacks:
    """The stacks before and after each accepted command, and the block of each tip."""

    def __init__(self, commands, blocks, depth=DEPTH):
        self.all = [store_files.empty("regtest", depth)]
        for command in commands:
            self.all.append(self.all[-1].obey(command)[0])
        self.blocks = {hash_: block for block, hash_, _ in blocks}

    def since(self, first):
        """The same without the first ones."""
        later = copy.copy(self)
        later.all = self.all[first:]
        return later


# ---- checks


class Trial:
    """What a check works with: an opener for all of them, and a folder of its own for what fails.
    `whole` says whether all checks are run."""

    def __init__(self, opener, folder, whole):
        self.opener, self.folder, self.whole = opener, folder, whole
        self.program = opener.program
        self.chance = random.Random(SEED)

    def wants(self, states, look):
        """Each state has to pass. The files of one that doesn't are kept."""
        if failed := self.opener.all(states, look):
            state, fault = failed
            (self.folder / "a.ox").write_bytes(state.a)
            (self.folder / "b.ox").write_bytes(state.b)
            raise fault

    def recorder(self, files=None):
        """The program over a new folder, which may have files."""
        recorder = Recorder(self.program, self.opener.new_folder())
        for name, data in zip(NAMES, files or ()):
            (recorder.folder / name).write_bytes(data)
        return recorder

    def looks(self, stacks):
        """How a state is looked at: some are fed on, too."""

        def look(state):
            feeds_on = zlib.crc32(state.a + state.b) % 100 < FED_ON
            self.opener.look(state, stacks, feeds_on)

        return look

    def wants_order(self, calls, before=(b"", b""), gates=1):
        faults = list(faults_in(calls, before, gates))
        demand(not faults, f"{faults[:3]}")


def commands_on(blocks):
    """Commands that connect blocks and now and then take some back."""
    commands = []
    for height, (block, _, _) in enumerate(blocks):
        commands.append(payload_of(block))
        if height % 8 == 4:
            commands += [DISCONNECT, DISCONNECT]
            commands += [payload_of(other) for other, _, _ in blocks[height - 1 : height + 1]]
    return commands


# `main` has each check given its trial
every = Checks(Trial)


@every.check("an `init` keeps the order, and what its line told opens")
def making(trial):
    recorder = trial.recorder()
    code, told, calls = recorder.run("init", "regtest", str(DEPTH))
    demand((code, told) == (0, b"ok empty\n"), f"it ended with {code}")
    trial.wants_order(calls)
    behind = [state for state in states_of(calls, (b"", b""), trial.chance) if state.answered]
    demand(len(behind) == 1, f"a crash leaves {len(behind)} states behind the line")
    empty = Stacks([], [])
    trial.wants([behind[0]._replace(answered=0)], lambda it: trial.opener.look(it, empty))


def wants_applied(trial, stacks, commands, first, before):
    """An `apply` of the commands behind so many first ones, over these files, keeps the order and
    answers, and each state opens. How many whole files it writes."""
    lines = commands[first : first + LINES]
    # one that is refused
    lines[3:3] = commands[:1]
    code, told, calls = trial.recorder(before).run("apply", feed=b"".join(map(line_of, lines)))
    wanted = b"".join(map(answer_of, stacks.all[first + 1 : first + LINES + 1]))
    told = b"".join(line for line in told.splitlines(True) if line.startswith(b"ok"))
    demand((code, told) == (0, wanted), f"it ended with {code} and {told}")
    trial.wants_order(calls, before)
    trial.wants(states_of(calls, before, trial.chance), trial.looks(stacks.since(first)))
    return sum(call.what == "write" and call.at == 1 for call in calls)


@every.check("an `apply` keeps the order, also where the files turn, and each state opens")
def applying(trial):
    blocks = made_blocks.chain(110)
    commands = commands_on(blocks)
    stacks, turns = Stacks(commands, blocks), 0
    # from an empty store on, past the 65th command, and past the 130th, which fills the first file
    for first in (0, MOST_RECORDS - 4, 2 * MOST_RECORDS - 3):
        before = files_of(commands[:first], "regtest", DEPTH)
        turns += wants_applied(trial, stacks, commands, first, before)
    demand(turns == 2, f"the files turned {turns} times")


@every.check("an `apply` of version 3 keeps the order, also where the files turn; each state opens")
def turning(trial):
    blocks = made_blocks.chain(110)
    commands = commands_on(blocks)
    stacks = Stacks(commands, blocks)
    # beside a closed file, and beside one that is open
    for first in (MOST_RECORDS - 4, 2 * MOST_RECORDS - 4):
        store = store_files.summed_store_of(commands[:first], "regtest", DEPTH)
        before = store_files.bytes_in(store)
        heads = wants_applied(trial, stacks, commands, first, before)
        # the head's place is filled with zeros, and then with the head
        demand(heads == 2, f"{heads} heads were written")


@every.check("a `migrate` keeps the order, and each state is the old store or the new one")
def migrating(trial):
    blocks = made_blocks.chain(12)
    commands = [payload_of(block) for block, _, _ in blocks] + [DISCONNECT]
    stacks = Stacks(commands, blocks)
    before = old_files.old_file_of(commands, "regtest", DEPTH), CLOSED
    code, told, calls = trial.recorder(before).run("migrate")
    line = f"ok {len(commands)}\n".encode()
    demand((code, told) == (0, line), f"it ended with {code} and {told}")
    trial.wants_order(calls, before)

    def look(state):
        folder = trial.opener.folder(state)
        got = trial.opener.run(folder, "migrate")
        done = got in ((3, b"not a store a 6\n"), (3, b"not a store b 6\n"))
        demand(done or got == (0, line) and not state.answered, f"`migrate` ended with {got}")
        demand(trial.opener.told(folder) == told_of(stacks.all[-1]), "it is another store")

    trial.wants(states_of(calls, before, trial.chance, 40), look)


@every.check("a `grow` keeps the order, and each state is the store at one version or the other")
def growing(trial):
    blocks = made_blocks.chain(12)
    commands = [payload_of(block) for block, _, _ in blocks] + [DISCONNECT]
    stacks = Stacks(commands, blocks)
    before = files_of(commands, "regtest", DEPTH)
    code, told, calls = trial.recorder(before).run("grow")
    demand((code, told) == (0, b"ok grown\n"), f"it ended with {code} and {told}")
    trial.wants_order(calls, before)

    def look(state):
        folder = trial.opener.folder(state)
        demand(trial.opener.told(folder) == told_of(stacks.all[-1]), "it is another store")
        got = trial.opener.run(folder, "grow")
        done = got == (3, b"not a store b 6\n")
        demand(done or got == (0, told) and not state.answered, f"`grow` ended with {got}")
        demand(trial.opener.told(folder) == told_of(stacks.all[-1]), "it is another store then")

    trial.wants(states_of(calls, before, trial.chance, 40), look)


@every.check("a `drill` keeps the order, and each state opens from its first command on")
def drilling(trial):
    blocks = made_blocks.chain(3)
    commands = [payload_of(block) for block, _, _ in blocks]
    commands = [*commands, *3 * [DISCONNECT], *commands]
    code, told, calls = trial.recorder().run("drill", "3")
    demand(code == 0 and told.startswith(b"drill 3 "), f"it ended with {code} and {told}")
    trial.wants_order(calls, gates=None)
    depth = store_files.number_in(next(c.data for c in calls if len(c.data) == 25), 7, 2)
    stacks = Stacks(commands, blocks, depth)
    # a drill shows no line for a command: each is known by the sync of its gate
    numbered, opens, disk = [], 0, {"A": Disk(), "B": Disk()}
    for call in calls:
        numbered.append(call)
        if call.what == "write":
            opens += opens_gate(disk, call.on, call.at, call.data)
            disk[call.on].write(call.at, call.data)
        elif call.what == "sync" and call.on in disk:
            disk[call.on].sync()
            if opens:
                numbered.append(Call("show", "output", 0, b"ok"))
            opens = 0
    made = (state for state in states_of(numbered, (b"", b""), trial.chance) if state.answered)
    # the first gate is that of `init`
    states = [state._replace(answered=state.answered - 1) for state in made]
    trial.wants(states, trial.looks(stacks))


@every.check("a `serve` keeps the order, and each state opens")
def serving(trial):
    blocks = made_blocks.chain(6)
    commands = [payload_of(block) for block, _, _ in blocks] + [DISCONNECT]
    before = files_of([], "regtest", DEPTH)
    calls = trial.recorder(before).serve([block for block, _, _ in blocks])
    trial.wants_order(calls, before)
    states = states_of(calls, before, trial.chance, 20)
    trial.wants(states, trial.looks(Stacks(commands, blocks)))


@every.check("a `query` writes nothing")
def asking(trial):
    commands = [payload_of(block) for block, _, _ in made_blocks.chain(3)]
    code, _, calls = trial.recorder(files_of(commands, "regtest", DEPTH)).run("query", "/audit")
    demand(code == 0, f"it ended with {code}")
    demand(not any(call.what == "write" for call in calls), "it writes")


# An `apply` of two lines over a store of two blocks.


class Short:
    def __init__(self):
        self.blocks = made_blocks.chain(4)
        self.commands = [payload_of(block) for block, _, _ in self.blocks]
        self.stacks = Stacks(self.commands, self.blocks)
        self.before = files_of(self.commands[:2], "regtest", DEPTH)
        self.feed = b"".join(map(line_of, self.commands[2:]))
        self.answers = b"".join(map(answer_of, self.stacks.all[3:]))

    def looks(self, trial):
        """How a state is looked at."""
        return trial.looks(self.stacks.since(2))


@every.check("each sync and each write that fails ends the run, and what it told is there")
def failing(trial):
    short = Short()
    _, _, calls = trial.recorder(short.before).run("apply", feed=short.feed)
    counts = {
        name: sum(call.what == what for call in calls)
        for name, what in (("fsync", "sync"), ("pwrite64", "write"))
    }
    demand(counts["fsync"] >= 7 and counts["pwrite64"] == 4, f"it makes {counts} calls")
    for name, error in itertools.product(counts, ("EIO", "ENOSPC", "EINTR")):
        for number in range(1, counts[name] + 1):
            what = f"{name} {number} of {error}"
            fails(trial, short, what, inject=[f"{name}:error={error}:when={number}"])


@every.check("a write that is cut short ends the run, and what it told is there")
def cut_short(trial):
    short = Short()
    whole = len(files_of(short.commands, "regtest", DEPTH)[0])
    for most in range(len(short.before[0]) + 1, whole, (whole - len(short.before[0])) // 12):

        def limit():
            signal.signal(signal.SIGXFSZ, signal.SIG_IGN)
            resource.setrlimit(resource.RLIMIT_FSIZE, (most, most))

        recorder = trial.recorder(short.before)
        ran = subprocess.run(
            [trial.program, recorder.folder, "apply"],
            input=short.feed,
            stdout=subprocess.PIPE,
            preexec_fn=limit,
        )
        demand(ran.returncode == 4, f"cut at {most} it ended with {ran.returncode}")
        keeps(trial, short, recorder, ran.stdout, f"cut at {most}")


def fails(trial, short, what, inject):
    """A run in which a call fails: it ends with 4, makes no call on a file from then on and shows
    nothing; or, where it was only interrupted, it may go on to the end."""
    recorder = trial.recorder(short.before)
    code, told, calls = recorder.run("apply", feed=short.feed, inject=inject)
    if "EINTR" in what and code == 0:
        demand(told == short.answers, f"{what}: it showed {told}")
    else:
        demand(code == 4, f"{what}: it ended with {code}")
        at = next(place for place, call in enumerate(calls) if call.what == "failed")
        later = [call for call in calls[at + 1 :] if call.what != "read"]
        demand(not later, f"{what}: {[call.what for call in later]} came then")
    keeps(trial, short, recorder, told, what)


def keeps(trial, short, recorder, told, what):
    """What is opened then."""
    demand(short.answers.startswith(told), f"{what}: it showed {told}")
    files = [(recorder.folder / name).read_bytes() for name in NAMES]
    state = State(*files, told.count(b"\n"))
    trial.opener.count += 1
    fault = trial.opener.fault_of(state, short.looks(trial))
    demand(not fault, f"{what}: {fault}")


# Records that are altered.


def without_sync(calls, record):
    """The sync between a record and its gate is left out."""
    return [*calls[: record + 1], *calls[record + 2 :]]


def in_one_write(calls, record):
    """A gate and its record are one write."""
    call, gate = calls[record], calls[record + 2]
    both = call._replace(at=gate.at, data=gate.data + call.data)
    return [*calls[:record], both, *calls[record + 3 :]]


def answer_first(calls, record):
    """The answer comes before the sync of the gate."""
    return [*calls[: record + 3], calls[record + 4], calls[record + 3], *calls[record + 5 :]]


def other_written(calls, record):
    """The other file is written."""
    return [*calls[:record], calls[record]._replace(on="B"), *calls[record + 1 :]]


def other_synced(calls, record):
    """The other file is synced."""
    return [*calls[: record + 1], calls[record + 1]._replace(on="B"), *calls[record + 2 :]]


@every.check("a record that is altered is found, by its order and by its states")
def altered(trial):
    short = Short()
    _, _, calls = trial.recorder(short.before).run("apply", feed=short.feed)
    calls = [call for call in calls if call.what in ("lock", "write", "sync", "show")]
    trial.wants_order(calls, short.before)
    record = next(place for place, call in enumerate(calls) if call.what == "write")
    wanted = ["write", "sync", "write", "sync", "show"]
    got = [call.what for call in calls[record : record + 5]]
    demand(got == wanted, f"a line is carried out by {got}")
    for alter in (without_sync, in_one_write, answer_first, other_written, other_synced):
        spoiled = alter(calls, record)
        demand(list(faults_in(spoiled, short.before)), f"not found: {alter.__doc__}")
        states = list(states_of(spoiled, short.before, trial.chance, ALTERED))
        trial.chance.shuffle(states)
        fault = trial.opener.first_fault(states, short.looks(trial))
        demand(fault, f"no state tells it: {alter.__doc__}")


# ---- a run


def can_record():
    """Whether calls can be recorded, where need be by what Debian has."""
    if not shutil.which("strace") and shutil.which("apt-get"):
        install = ["apt-get", "install", "--yes", "--no-install-recommends", "strace"]
        subprocess.run(install, stdout=subprocess.DEVNULL, stderr=subprocess.DEVNULL)
    if not shutil.which("strace"):
        return False
    with tempfile.NamedTemporaryFile() as told:
        ran = subprocess.run(["strace", "-D", "-o", told.name, "true"], stderr=subprocess.DEVNULL)
        until = time.monotonic() + 10
        while ran.returncode == 0 and time.monotonic() < until:
            if b"+++ exited with 0 +++" in pathlib.Path(told.name).read_bytes():
                return True
            time.sleep(0.01)
    return False


@every.check(f"a run opens {STATES} states at least")
def enough(trial):
    if not trial.whole:
        raise Skipped("not all checks are run")
    print(f"{trial.opener.count} states were opened")
    demand(trial.opener.count >= STATES, f"{trial.opener.count} states were opened")


def main():
    said = every.parser(__doc__).parse_args()
    if not said.list and not can_record():
        print("SKIPPED: strace can't be had or can't record calls")
        print(f"0 passed, 0 failed, {len(every.every)} skipped")
        return 0
    # memory where there is such a folder: each start syncs
    shared = pathlib.Path("/dev/shm")
    OUT.mkdir(exist_ok=True)
    with tempfile.TemporaryDirectory(dir=shared if os.access(shared, os.W_OK) else OUT) as room:
        opener = Opener(said.program.resolve(), pathlib.Path(room))
        every.make = lambda program, folder: Trial(opener, folder, not said.only)
        return every.run(said, OUT)


if __name__ == "__main__":
    sys.exit(main())
