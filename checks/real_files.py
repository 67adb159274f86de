#!/usr/bin/env python3
"""Runs the built program over real files and streams, and looks at its status, at what it shows and
at the files' bytes.

No proof says which bytes a real file gives or takes, so this tries it: each subcommand, each status
but 9, which would take 4,611,686,018,427,387,904 bytes, the bytes of both files after each line
(checks/store_files.py), a content of 3,900,000 bytes, blocks that ask for as much work as they can
and blocks whose counts lie (checks/hostile_blocks.py), satoshis among 500,000 outputs
(checks/table.py), fifty kills of a running `apply` (checks/kills.py), and twenty of a `follow` that
pipes join to a `lead`. Each check has a new folder, below out/ beside this script, that is gone
where it passed. A check that fails is told with its cause, and its folder stays. The last line says
how many passed and how many failed, and the status is 1 where one failed. It takes one to two
minutes.
"""

import collections
import contextlib
import fcntl
import json
import os
import pathlib
import random
import resource
import shutil
import signal
import subprocess
import tempfile
import time

import hostile_blocks
import made_blocks
import old_files
import store_faults
import store_files
from chain import DISCONNECT, SHORT, block_of, block_with, chain, coinbase, commitment, committing
from chain import envelope, id_value, line, line_of, payload_of, reveal_into
from kills import Moment, apply_and_kill, begins_with, kill_often, writes_of
from old_files import old_file_of
from rows.frame_rows import have, level
from store_files import MOST_RECORDS, bytes_in, file_a, files_of, payload_on, store_of
from table import BLOCKS, Table, outpoint, satoshi
from tools.bitcoin import SUBSIDY, twice
from tools.checks import Checks, demand
from tools.programs import TOP
from tools.runes import kept_name, name_of

GENESIS = (TOP / "feeds" / "genesis.feed").read_bytes()
GENESIS_ANSWER = b"ok 0 000000000019d6689c085ae165831e934ff763ae46a2a6c172b3f1b60a8ce26f\n"
KILLS = 50
SEED = 1
# how long a run may take, and a check
SECONDS, CHECK_SECONDS = 60, 300
NOBODY = 65534
MEMORY = 24_000_000
LITTLE = 64_000_000

# the bytes of a regtest store of depth 100 without a block, written out
EMPTY_A = bytes.fromhex("016f786964780201640001000000000000001c00000000000000" + 29 * "00")
EMPTY_B = bytes.fromhex("00")
# the same of version 3
EMPTY_SUMMED = bytes.fromhex(store_files.EMPTY_SUMMED)


class Ox:
    """The program over a folder of its own."""

    def __init__(self, program, folder):
        self.program, self.folder = program, folder

    def run(self, *words, feed=b"", **how):
        """The status, and what was shown. The feed is bytes, or what `stdin` may be."""
        given = {"input": feed} if isinstance(feed, bytes) else {"stdin": feed}
        how = {
            "stdout": subprocess.PIPE,
            "stderr": subprocess.DEVNULL,
            "timeout": SECONDS,
            **given,
            **how,
        }
        ran = subprocess.run([self.program, self.folder, *words], **how)
        return ran.returncode, ran.stdout

    def wants(self, wanted, *words, **how):
        """Runs the program, which has to end with this status and show just this."""
        got = self.run(*words, **how)
        demand(
            got == wanted,
            f"{value_text(words)} ended with {value_text(got)}, not with {value_text(wanted)}",
        )

    def init(self):
        self.wants((0, b"ok empty\n"), "init", "regtest", "100")

    def files(self):
        return tuple((self.folder / name).read_bytes() for name in ("a.ox", "b.ox"))

    def write(self, a, b):
        (self.folder / "a.ox").write_bytes(a)
        (self.folder / "b.ox").write_bytes(b)

    def has(self, a, b):
        """The files have to be these."""
        for name, got, wanted in zip("AB", self.files(), (a, b)):
            demand(
                got == wanted,
                f"file {name} has {value_text(got)}, and {value_text(wanted)} was wanted",
            )

    def has_blocks(self, blocks):
        self.has(*files_of(map(payload_of, blocks)))

    def says(self, path, tree):
        """The reply to a query has to be this tree, compact and with sorted keys; bytes are the
        body itself."""
        body = (
            tree
            if isinstance(tree, bytes)
            else json.dumps(
                tree, ensure_ascii=False, sort_keys=True, separators=(",", ":")
            ).encode()
        )
        self.wants((0, body), "query", path)

    def status_is(self, count, tip, kept=None):
        """The reply to a query has to be this. As many blocks are kept as may be, where it isn't
        said."""
        tip = f'"{tip}"' if tip else "null"
        kept = min(count, 100) if kept is None else kept
        body = f'{{"blocks":{count},"depth":100,"kept":{kept},"profile":"regtest","tip":{tip}}}'
        self.wants((0, body.encode()), "query", "/status")


every = Checks(Ox, seconds=CHECK_SECONDS)


def value_text(value):
    """A value as it is told, cut where it is long."""
    text = value.hex() if isinstance(value, bytes) and len(value) > 80 else repr(value)
    return text if len(text) < 300 else f"{text[:300]}.."


def answer(height, tips):
    return f"ok {height} {tips[height]}\n".encode()


def full():
    """A stream that takes no byte."""
    return open("/dev/full", "wb")


# What the subcommands show and write.


@every.check("a store that is made has the bytes of the format")
def empty_store(ox):
    ox.init()
    ox.has(EMPTY_A, EMPTY_B)
    ox.status_is(0, None)


@every.check("a store is made of empty files that are there already")
def empty_files(ox):
    ox.write(b"", b"")
    ox.init()
    ox.has(EMPTY_A, EMPTY_B)


@every.check("a profile and a depth stand in the head")
def heads(ox):
    for code, profile in enumerate(["mainnet", "regtest", "lab"]):
        ox.write(b"", b"")
        ox.wants((0, b"ok empty\n"), "init", profile, "1000")
        a, b = files_of([], profile, 1000)
        demand(a[7:10] == bytes([code]) + b"\xe8\3", "the head is another one")
        ox.has(a, b)


@every.check("Bitcoin's first block is answered, and what it changes is kept as one record")
def first_block(ox):
    ox.init()
    ox.wants((0, GENESIS_ANSWER), "apply", feed=GENESIS)
    a, b = ox.files()
    demand(len(a) == 256 and b == EMPTY_B, f"file A has {len(a)} bytes, and file B {value_text(b)}")
    demand(a[:54] == EMPTY_A[:54], "file A begins otherwise")
    demand(a[54:60].hex() == "01c400000001", f"the record begins with {a[54:60].hex()}")
    demand(a[255] == 0, "no closed gate is behind the record")
    ox.has_blocks([bytes.fromhex(GENESIS.split()[1].decode())])
    ox.status_is(1, GENESIS_ANSWER.split()[2].decode())


@every.check("a later run goes on where the files stand")
def runs(ox):
    blocks, tips = chain(20)
    ox.init()
    for first, last in ((0, 7), (7, 7), (7, 20)):
        wanted = b"".join(answer(height, tips) for height in range(first, last))
        ox.wants((0, wanted), "apply", feed=b"".join(map(line, blocks[first:last])))
        ox.has_blocks(blocks[:last])
        ox.status_is(last, tips[last - 1])


@every.check("an answer is shown once its record is in the file, and before the next line is heard")
def line_by_line(ox):
    blocks, tips = chain(12)
    ox.init()
    command = [ox.program, ox.folder, "apply"]
    with subprocess.Popen(
        command, stdin=subprocess.PIPE, stdout=subprocess.PIPE, bufsize=0
    ) as child:
        for height, block in enumerate(blocks):
            bytes_ = line(block)
            for at in range(0, len(bytes_), 50):
                child.stdin.write(bytes_[at : at + 50])
            got = child.stdout.readline()
            demand(got == answer(height, tips), f"{value_text(got)} was shown for block {height}")
            ox.has_blocks(blocks[: height + 1])
        child.stdin.close()
        demand(
            child.stdout.read() == b"" and child.wait(SECONDS) == 0,
            "the end of the feed doesn't end the program",
        )


def walk(chance, depth, count=200, odds=5, blocks=None):
    """So many commands: made blocks, at most so many, and disconnects of one in five, or
    by other odds."""
    blocks, height, kept = made_blocks.chain(blocks or count), 0, 0
    for _ in range(count):
        if kept and chance.randrange(odds) == 0:
            yield DISCONNECT
            height, kept = height - 1, kept - 1
        else:
            yield payload_of(blocks[height][0])
            height, kept = height + 1, min(kept + 1, depth)


@every.check(
    "both files have the bytes of the format after each of 200 lines, of which three turn them"
)
def bytes_after_each(ox):
    for depth in (3, 100):
        commands = list(walk(random.Random(SEED), depth))
        wanted = store_files.files_after_each(commands, depth=depth)
        ox.write(b"", b"")
        ox.wants((0, b"ok empty\n"), "init", "regtest", str(depth))
        ox.has(*next(wanted))
        command = [ox.program, ox.folder, "apply"]
        with subprocess.Popen(
            command, stdin=subprocess.PIPE, stdout=subprocess.PIPE, bufsize=0
        ) as child:
            for told, files in zip(commands, wanted):
                child.stdin.write(line_of(told))
                got = child.stdout.readline()
                demand(got.startswith(b"ok "), f"{value_text(got)} was shown")
                ox.has(*files)
            child.stdin.close()
            demand(child.wait(SECONDS) == 0, "the end of the feed doesn't end the program")


@every.check(
    "the 65th block makes file B current, and without its first byte the 64th is the newest"
)
def turned(ox):
    blocks, tips = chain(MOST_RECORDS + 1)
    ox.init()
    wanted = b"".join(answer(height, tips) for height in range(len(blocks)))
    ox.wants((0, wanted), "apply", feed=b"".join(map(line, blocks)))
    ox.has_blocks(blocks)
    a, b = ox.files()
    demand(a == file_a(blocks[:MOST_RECORDS]), "file A hasn't 64 records")
    demand(b[10:18] == (2).to_bytes(8, "little"), "file B has another generation")
    demand(b[26:30] == (65).to_bytes(4, "little"), "file B has other hashes")
    ox.status_is(65, tips[64])
    ox.write(a, b"\0" + b[1:])
    ox.status_is(64, tips[63])


@every.check("files of version 3 get records, turn at 64, and one changed byte is no store")
def summed(ox):
    blocks, tips = chain(70)
    ox.write(EMPTY_SUMMED, EMPTY_B)
    for first, last in ((0, 3), (3, 63), (63, 64), (64, 70)):
        wanted = b"".join(answer(height, tips) for height in range(first, last))
        ox.wants((0, wanted), "apply", feed=b"".join(map(line, blocks[first:last])))
        ox.has(*bytes_in(store_files.summed_store_of(map(payload_of, blocks[:last]))))
        ox.status_is(last, tips[last - 1])
        if last == 63:
            changed_bytes(ox)


def changed_bytes(ox):
    """One changed byte of file A of version 3 is told where it is, or where what has it begins."""
    a, b = ox.files()
    first = len(EMPTY_SUMMED) - 1
    places = (1, 1), (6, 1), (10, 1), (25, 1), (26, 1), (58, 1), (89, 1), (90, 90), (first - 1, 90)
    places += tuple((first + behind, first) for behind in (1, 8, 9, 40, 41, 100))
    for at, told in places:
        ox.write(a[:at] + bytes([a[at] ^ 4]) + a[at + 1 :], b)
        for words in (("apply",), ("query", "/status")):
            ox.wants((3, f"not a store a {told}\n".encode()), *words)
    ox.write(a, b)
    for word in ("lead", "follow"):
        ox.wants((3, b""), word, feed=have(1, 0))
    for word in ("migrate", "grow"):
        ox.wants((3, b"not a store a 6\n"), word)
    ox.has(a, b)


TURNS, TURN_KILLS = 10, 20
# how many seconds a kill waits at most behind the line before the one that turns the files
LONGEST_WAIT = 0.001
TURN_BLOCKS = 1000
# so many commands are enough where one kill of ten comes before the last line's answer
TURN_COMMANDS = 10 * TURN_KILLS * (MOST_RECORDS + 3)


@every.check(
    f"a store of version 3 turns {TURNS} times, is killed {TURN_KILLS} times in and around that,"
    " and loses no line that was answered"
)
def killed_turns(ox):
    chance = random.Random(SEED)
    commands = list(walk(chance, 100, TURN_COMMANDS, odds=2, blocks=TURN_BLOCKS))
    store = store_files.summed_store_of([])
    ox.write(*bytes_in(store))
    heard = kills = 0
    longest = LONGEST_WAIT
    while store.tail.generation <= TURNS or kills < TURN_KILLS:
        demand(heard < len(commands), f"the commands have ended behind {kills} kills")
        lines = lines_to_turn(store, commands[heard:]) - 1
        # the line that turns the files, and two behind it
        feed = [*map(line_of, commands[heard : heard + lines + 3])]
        when = Moment(lines, chance.random() < 0.3, chance.uniform(0, longest))
        with endless(b"".join(feed)) as given:
            shown, was_killed = apply_and_kill(ox.program, ox.folder, given, when)
        demand(was_killed, "it has ended, though its feed hasn't")
        answered = shown.count(b"\n")
        # a kill behind the last answer tells nothing, and the next one comes earlier
        is_late = answered == len(feed)
        kills += not is_late
        longest = longest / 2 if is_late else LONGEST_WAIT
        made = made_of(store, commands[heard:], answered, ox.files())
        demand(made is not None, f"the files have other bytes behind {heard + answered} lines")
        heard += made
        store = opened(*ox.files())
        status = json.loads(ox.run("query", "/status")[1])
        told = status["blocks"], status["kept"], status["tip"]
        tip = store.stack.tip()[::-1].hex() if store.stack.hashes() else None
        demand(told == (len(store.stack.hashes()), len(store.stack.kept), tip), f"it told {told}")


@contextlib.contextmanager
def endless(front):
    """A stream that begins with these bytes, and on which more could come: whoever reads them waits
    behind them."""
    read, write = os.pipe()
    try:
        fcntl.fcntl(write, fcntl.F_SETPIPE_SZ, len(front))
        demand(os.write(write, front) == len(front), "the pipe doesn't take all bytes")
        yield read
    finally:
        os.close(read)
        os.close(write)


def opened(a, b):
    """The store that two files are."""
    disk = store_files.Disk()
    disk.files = {"A": bytearray(a), "B": bytearray(b)}
    return store_files.Store(disk, *store_files.stands(disk.files))


def lines_to_turn(store, commands):
    """How many commands it is until the files turn, that one among them."""
    trial = opened(*bytes_in(store))
    for count, command in enumerate(commands, 1):
        trial.carry_out(command)
        if trial.tail.generation != store.tail.generation:
            return count
    return len(commands)


def made_of(store, commands, answered, files):
    """How many of these commands the files have, where each write of those that were answered is
    there, and of the next one's the first ones, the last of them maybe in part; or None."""
    got, disk = dict(zip("AB", files)), store.disk
    for command in commands[:answered]:
        store.carry_out(command)
    if disk.files == got:
        return answered
    for file, at, data in writes_of(store, commands[answered]):
        same = all(disk.files[other] == got[other] for other in "AB" if other != file)
        if same and begins_with(got[file], bytes(disk.files[file]), at, data):
            stack, _ = store_files.stands(got)
            return answered + (stack.body() != store.stack.body())
        disk.write(file, at, data)
    return answered + 1 if disk.files == got else None


@every.check("a block of nearly four million bytes is kept")
def large_block(ox):
    blocks, tips = chain(3, lambda height: bytes(3_999_800))
    ox.init()
    wanted = b"".join(answer(height, tips) for height in range(3))
    ox.wants((0, wanted), "apply", feed=b"".join(map(line, blocks)))
    ox.has_blocks(blocks)
    ox.status_is(3, tips[2])


@every.check("refused lines are told with their values, and change no byte of the files")
def refused_lines(ox):
    blocks, tips = chain(4)
    ox.init()
    ox.wants(
        (0, answer(0, tips) + answer(1, tips)), "apply", feed=line(blocks[0]) + line(blocks[1])
    )
    root = bytearray(blocks[2])
    root[36] ^= 1
    lines = [
        (b"connect " + b"0" * 8_000_001, b"refused 2"),
        (b"connect  00", b"refused 1"),
        (b"connect ", b"refused 3 0"),
        (line(blocks[2][:90]).rstrip(), b"refused 3 86"),
        (line(blocks[3]).rstrip(), f"refused 5 {tips[2]} {tips[1]}".encode()),
        (
            line(bytes(root)).rstrip(),
            f"refused 6 {root[36:68][::-1].hex()} {blocks[2][36:68][::-1].hex()}".encode(),
        ),
    ]
    feed, wanted = (b"".join(part + b"\n" for part in parts) for parts in zip(*lines))
    ox.wants((0, wanted), "apply", feed=feed)
    ox.has_blocks(blocks[:2])


@every.check(
    "a block that isn't committed to its witnesses is refused, and changes no byte of the files"
)
def witness_commitments(ox):
    right, wrong = commitment(), commitment()[:-1] + bytes([commitment()[-1] ^ 1])
    block, tip = block_of(bytes(32), [committing(0, right)])
    other, _ = block_of(tip, [committing(1, wrong)])
    ox.init()
    ok = f"ok 0 {tip[::-1].hex()}\n".encode()
    ox.wants((0, ok + b"refused 12\n"), "apply", feed=line(block) + line(other))
    ox.has_blocks([block])


@every.check("a disconnect where no block is kept is refused, and changes no byte of the files")
def nothing_kept(ox):
    ox.init()
    ox.wants((0, b"refused 11\n"), "fold", "regtest", feed=b"disconnect\n")
    ox.wants((0, b"refused 11\n"), "apply", feed=b"disconnect\n")
    ox.has(EMPTY_A, EMPTY_B)


@every.check("the newest blocks are taken back, as many as are kept, by a later run too")
def blocks_taken_back(ox):
    blocks, tips = chain(3)
    for depth in (1, 2):
        ox.write(b"", b"")
        ox.wants((0, b"ok empty\n"), "init", "regtest", str(depth))
        wanted = b"".join(answer(height, tips) for height in (0, 1, 2, 1))
        ox.wants((0, wanted), "apply", feed=b"".join(map(line, blocks)) + b"disconnect\n")
        wanted = b"".join([answer(0, tips)] * (depth - 1) + [b"refused 11\n"])
        ox.wants((0, wanted), "apply", feed=b"disconnect\n" * depth)
        commands = [payload_of(block) for block in blocks] + [DISCONNECT] * depth
        ox.has(*files_of(commands, "regtest", depth))


@every.check("blocks are replaced by others, and a fold of the new chain shows the same")
def replaced_blocks(ox):
    old, _ = chain(3)
    new, tips = chain(4, lambda height: b"\x52")
    lines = b"".join(map(line, old)) + b"disconnect\n" * 3 + b"".join(map(line, new))
    ox.init()
    status, got = ox.run("apply", feed=lines)
    wanted = b"ok empty\n" + b"".join(answer(height, tips) for height in range(4))
    demand(
        status == 0 and got.endswith(wanted),
        f"`apply` ended with {status} and showed {value_text(got)}",
    )
    ox.wants((0, got), "fold", "regtest", feed=lines)
    ox.has(*files_of([*map(payload_of, old), *[DISCONNECT] * 3, *map(payload_of, new)]))
    ox.status_is(4, tips[3])


# The least reserved name, by the Runes specification.
@every.check(
    "inscriptions and runes are told of a store that is opened again, and taken back with their"
    " block"
)
def inscriptions_and_runes(ox):
    blocks, _ = chain(3)
    spent = twice(coinbase(0, SHORT))
    previous = twice(blocks[2][:80])
    # an etching with premine 7, cap 10 and amount 5
    stone = bytes.fromhex("6a5d0802030607080a0a05")
    outputs = [(SUBSIDY, SHORT), (0, stone)]
    hash = twice(reveal_into(spent, b"", outputs)[0])
    txid, at, name = hash[::-1].hex(), f"{hash[::-1].hex()}:0", name_of(kept_name(3, 1))
    ids = [f"{txid}i{index}" for index in range(3)]
    # the first has a content, the second delegates to it, and the third to the second, which has a
    # body of its own
    script = envelope([(1, b"text/plain"), (5, b"\0\xff"), (7, b"m"), (9, b"br")], b"hi")
    script += envelope([(11, id_value(hash, 0))], b"two") + envelope(
        [(11, id_value(hash, 1))], b"three"
    )
    block, tip = block_with(previous, 3, reveal_into(spent, script, outputs))
    ox.wants((0, b"ok empty\n"), "init", "lab", "100")
    ox.run("apply", feed=b"".join(map(line, blocks)))
    ox.wants((0, f"ok 3 {tip[::-1].hex()}\n".encode()), "apply", feed=line(block))
    ox.says("/inscriptions/0", {"ids": ids, "more": False, "page": 0})
    for id, content in zip(ids, (b"hi", b"hi", b"two")):
        ox.says(f"/content/{id}", content)
    place = {"offset": 0, "outpoint": at}
    inscription = {
        "content_length": 2,
        "content_type": "text/plain",
        "delegate": None,
        "encoding": "br",
        "height": 3,
        "id": ids[0],
    }
    inscription |= {
        "metadata": "00ff",
        "metaprotocol": "m",
        "number": 0,
        "parents": [],
        "place": place,
        "sat": 0,
    }
    inscription |= {
        "children": [],
        "cursed": False,
        "marks": [],
        "sequence": 0,
        "vindicated": False,
    }
    ox.says(f"/inscription/{ids[0]}", inscription)
    third = {
        "content_length": 5,
        "content_type": None,
        "delegate": ids[1],
        "encoding": None,
        "id": ids[2],
        "metadata": None,
    }
    third |= {
        "cursed": True,
        "marks": ["offset", "reinscription"],
        "metaprotocol": None,
        "number": -2,
        "sequence": 2,
    }
    ox.says(f"/inscription/{ids[2]}", inscription | third)
    satoshi = {
        "decimal": "0.0",
        "degree": "0°0′0″0‴",
        "inscriptions": ids,
        "name": "lkrmvqwx",
        "number": 0,
        "place": place,
    }
    ox.says("/sat/0", satoshi | {"rarity": "mythic"})
    rune = {
        "amount": "5",
        "burned": "0",
        "cap": "10",
        "divisibility": 0,
        "etching": txid,
        "height": [None, None],
        "held": "7",
    }
    rune |= {
        "id": "3:1",
        "mintable": True,
        "mints": "0",
        "name": name,
        "number": 0,
        "offset": [None, None],
        "premine": "7",
        "symbol": None,
    }
    for part in ("3:1", name, name[:5] + "%E2%80%A2" + name[5:]):
        ox.says(f"/rune/{part}", rune)
    balance = {"amount": "7", "id": "3:1", "name": name, "shown": "7"}
    output = {
        "height": 3,
        "inscriptions": ids,
        "ranges": [[0, SUBSIDY]],
        "runes": [balance],
        "script": SHORT.hex(),
        "value": SUBSIDY,
    }
    ox.says(f"/output/{at}", output)
    audited = {"burned": "0", "held": "7", "id": "3:1", "minted": "0", "premine": "7"}
    ox.says(
        "/audit", {"claimable": 4 * SUBSIDY, "lost": 0, "outputs": 4 * SUBSIDY, "runes": [audited]}
    )
    ox.run("apply", feed=b"disconnect\n")
    ox.says("/audit", {"claimable": 3 * SUBSIDY, "lost": 0, "outputs": 3 * SUBSIDY, "runes": []})
    ox.says("/inscriptions/0", {"ids": [], "more": False, "page": 0})
    ox.says("/runes/0", {"ids": [], "more": False, "page": 0})
    for path in (f"/inscription/{ids[0]}", f"/content/{ids[0]}", "/rune/3:1", f"/output/{at}"):
        ox.says(path, {"error": 404})


@every.check("a content of nearly four million bytes is given whole")
def long_content(ox):
    blocks, tips = chain(3)
    # each four bytes of it tell where they stand
    content = b"".join(at.to_bytes(4, "little") for at in range(975_000))
    pushes = (b"\x4d\x08\x02" + content[at : at + 520] for at in range(0, len(content), 520))
    script = b"".join([envelope([], b"")[:-1], *pushes, b"\x68"])
    tx = reveal_into(twice(coinbase(0, SHORT)), script, [(SUBSIDY, SHORT)])
    block, tip = block_with(twice(blocks[2][:80]), 3, tx)
    id = f"{twice(tx[0])[::-1].hex()}i0"
    ox.wants((0, b"ok empty\n"), "init", "lab", "100")
    wanted = b"".join(answer(height, tips) for height in range(3))
    wanted += f"ok 3 {tip[::-1].hex()}\n".encode()
    ox.wants((0, wanted), "apply", feed=b"".join(map(line, [*blocks, block])))
    ox.says(f"/content/{id}", content)
    _, shown = ox.run("query", f"/inscription/{id}")
    demand(
        json.loads(shown)["content_length"] == 3_900_000,
        f"the inscription was told as {value_text(shown)}",
    )


@every.check("what a cenotaph minted and burned is taken back with its block, by a later run too")
def burns_taken_back(ox):
    blocks, _ = chain(3)
    etches = reveal_into(
        twice(coinbase(0, SHORT)),
        b"",
        [(SUBSIDY, SHORT), (0, bytes.fromhex("6a5d0802030607080a0a05"))],
    )
    burns = reveal_into(
        twice(etches[0]), b"", [(SUBSIDY, SHORT), (0, bytes.fromhex("6a5d06140314017e00"))]
    )
    for height, tx in ((3, etches), (4, burns)):
        blocks.append(block_with(twice(blocks[-1][:80]), height, tx)[0])
    ox.wants((0, b"ok empty\n"), "init", "lab", "100")
    ox.run("apply", feed=b"".join(map(line, blocks)))
    for count, burned, held, minted, mints in ((5, "12", "0", "5", "1"), (4, "0", "7", "0", "0")):
        audited = {"burned": burned, "held": held, "id": "3:1", "minted": minted, "premine": "7"}
        ox.says(
            "/audit",
            {
                "claimable": count * SUBSIDY,
                "lost": 0,
                "outputs": count * SUBSIDY,
                "runes": [audited],
            },
        )
        rune = {
            "amount": "5",
            "burned": burned,
            "cap": "10",
            "divisibility": 0,
            "etching": twice(etches[0])[::-1].hex(),
        }
        rune |= {
            "height": [None, None],
            "held": held,
            "id": "3:1",
            "mintable": True,
            "mints": mints,
            "number": 0,
        }
        rune |= {
            "name": name_of(kept_name(3, 1)),
            "offset": [None, None],
            "premine": "7",
            "symbol": None,
        }
        ox.says("/rune/3:1", rune)
        ox.run("apply", feed=b"disconnect\n")


@every.check(
    "empty stores and one of Bitcoin's first block tell of a rune, a page and the first satoshi"
)
def first_replies(ox):
    ox.init()
    ox.says("/inscriptions/7", b'{"ids":[],"more":false,"page":7}')
    ox.says("/blockhash/0", {"error": 404})
    ox.says("/sat/01", {"error": 404})
    ox.write(b"", b"")
    ox.wants((0, b"ok empty\n"), "init", "mainnet", "100")
    goods = (
        '{"amount":"1","burned":"0","cap":"340282366920938463463374607431768211455",'
        '"divisibility":0,"etching":"'
        + 64 * "0"
        + '","height":[840000,1050000],"held":"0","id":"1:0","mintable":false,"mints":"0",'
        '"name":"UNCOMMON•GOODS","number":0,"offset":[null,null],"premine":"0","symbol":"⧉"}'
    )
    ox.says("/rune/UNCOMMON.GOODS", goods.encode())
    ox.wants((0, GENESIS_ANSWER), "apply", feed=GENESIS)
    place = {
        "offset": 0,
        "outpoint": "4a5e1e4baab89f3a32518a88c31bc87f618f76673e2cc77ab2127b7afdeda33b:0",
    }
    told = {
        "decimal": "0.0",
        "degree": "0°0′0″0‴",
        "inscriptions": [],
        "name": "nvtdijuwxlp",
        "number": 0,
    }
    ox.says("/sat/0", told | {"place": place, "rarity": "mythic"})


# Blocks that mean no good.


def takes_in(make):
    """A check that the blocks which are made so are taken in by lab."""

    def function(ox):
        blocks = make()
        ox.wants((0, b"ok empty\n"), "init", "lab", "100")
        tips = [twice(block[:80])[::-1].hex() for block in blocks]
        wanted = b"".join(answer(height, tips) for height in range(len(blocks)))
        ox.wants((0, wanted), "apply", feed=b"".join(map(line, blocks)))
        ox.has(*files_of(map(payload_of, blocks), "lab", 100))

    return function


for what, make in hostile_blocks.HOSTILE.items():
    taken_in = takes_in(make)
    taken_in.__name__ = f"takes_{make.__name__}"
    every.check(f"{what} are taken in within {SECONDS} seconds")(taken_in)


def little():
    resource.setrlimit(resource.RLIMIT_AS, (LITTLE, LITTLE))


@every.check(
    "a block whose count or length lies is refused at its place, in little memory, and not by 8"
)
def lying_counts(ox):
    ox.init()
    for what, block, place in hostile_blocks.lying_blocks():
        told = f"refused 3 {place}\n".encode()
        for words in (("fold", "regtest"), ("apply",)):
            got = ox.run(*words, feed=line(block), preexec_fn=little)
            demand(got == (0, told), f"{what}: {words} ended with {value_text(got)}, not {told}")
    ox.has(EMPTY_A, EMPTY_B)


def asked_satoshis(table):
    """Satoshis at both ends of runs of one output, one that is lost, and one that isn't mined."""
    runs = max((row[1] for row in table.rows.values()), key=len)
    return [runs[0][0], sum(runs[-1]) - 1, sum(table.lost[-1]) - 1, BLOCKS * SUBSIDY]


@every.check(
    "among 500,000 outputs satoshis are found where they have to be, or nowhere, within"
    f" {SECONDS} seconds"
)
def many_outputs(ox):
    table = Table(SEED)
    demand(len(table.rows) == 500_000, f"there are {len(table.rows)} outputs")
    tips = [tip[::-1].hex() for tip in table.tips]
    ox.init()
    wanted = b"".join(answer(height, tips) for height in range(BLOCKS))
    ox.wants((0, wanted), "apply", feed=b"".join(map(line, table.blocks)))
    for sat in asked_satoshis(table):
        ox.says(f"/sat/{sat}", satoshi(sat, table.place(sat)))
    at, (height, runs) = max(table.rows.items(), key=lambda row: len(row[1][1]))
    ranges = [[first, first + count] for first, count in runs]
    output = {
        "height": height,
        "inscriptions": [],
        "ranges": ranges,
        "runes": [],
        "script": SHORT.hex(),
    }
    ox.says(f"/output/{outpoint(*at)}", output | {"value": sum(count for _, count in runs)})
    ox.says(f"/output/{outpoint(*table.spent)}", {"error": 404})


@every.check("`fold` and `query` change no byte of the files")
def only_apply_writes(ox):
    blocks, tips = chain(3)
    ox.init()
    ox.run("apply", feed=line(blocks[0]))
    ox.wants(
        (0, answer(0, tips) + answer(1, tips)),
        "fold",
        "regtest",
        feed=line(blocks[0]) + line(blocks[1]),
    )
    ox.wants((0, b'{"error":404}'), "query", "/nothing")
    ox.has_blocks(blocks[:1])


@every.check("the open file of the greater generation is read, and gets the next record")
def greater_generation(ox):
    blocks, tips = chain(3)
    newer = lambda file: file[:10] + (2).to_bytes(8, "little") + file[18:]
    ox.write(EMPTY_A, newer(file_a(blocks[:1])))
    ox.status_is(1, tips[0])
    ox.wants((0, answer(1, tips)), "apply", feed=line(blocks[1]))
    ox.has(EMPTY_A, newer(file_a(blocks[:2])))
    ox.status_is(2, tips[1])


@every.check(
    "a record whose gate is closed doesn't count, and one whose gate is any other byte does"
)
def gates(ox):
    blocks, tips = chain(2)
    one, two = file_a(blocks[:1]), file_a(blocks)
    gate = len(one) - 1
    ox.write(two[:gate] + b"\0" + two[gate + 1 :], EMPTY_B)
    ox.status_is(1, tips[0])
    ox.write(two[:gate] + b"\7" + two[gate + 1 :], EMPTY_B)
    ox.status_is(2, tips[1])


# Drills: docs/FORMATS.md, 'The line of a drill'; the blocks by docs/RULES.md, 'Made blocks'.
DRILLED = {
    1: "claimable 5000000000 lost 1 inscriptions 0 runes 0 minted 0 burned 0",
    12: "claimable 60000000000 lost 12 inscriptions 11 runes 1 minted 70 burned 7",
    100: "claimable 500000000000 lost 100 inscriptions 99 runes 1 minted 686 burned 63",
    1000: "claimable 5000000000000 lost 1000 inscriptions 999 runes 1 minted 6986 burned 693",
}


def has_drilled(ox, count):
    """A drill of so many blocks has to show its line, and to leave what its commands leave."""
    blocks = made_blocks.chain(count)
    ox.wants((0, f"drill {count} {DRILLED[count]}\n".encode()), "drill", str(count))
    commands = [payload_of(data) for data, _, _ in blocks]
    newest = commands[-10:]
    ox.has(*files_of([*commands, *[DISCONNECT] * len(newest), *newest]))
    ox.status_is(count, blocks[-1][1][::-1].hex())


@every.check("drills of 1, 12 and 100 blocks tell what they count, and leave a store that goes on")
def drills(ox):
    for count in (1, 12, 100):
        ox.write(b"", b"")
        has_drilled(ox, count)
    tip = made_blocks.chain(99)[-1][1][::-1].hex()
    ox.wants((0, f"ok 98 {tip}\n".encode()), "apply", feed=b"disconnect\n")


@every.check("a drill of 1,000 blocks in two folders shows the same line and leaves the same bytes")
def same_drills(ox):
    for name in ("one", "other"):
        (ox.folder / name).mkdir()
        has_drilled(Ox(ox.program, ox.folder / name), 1000)


@every.check("a drill where there is a store is refused, and changes no byte of the files")
def second_drill(ox):
    ox.run("drill", "2")
    a, b = ox.files()
    demand(len(a) > len(EMPTY_A), f"file A has {value_text(a)} after a drill")
    ox.wants((2, b"not empty\n"), "drill", "2")
    ox.wants((2, b"not empty\n"), "init", "regtest", "100")
    ox.has(a, b)


# Stores of version 1, which `migrate` takes.

MIGRATED = 300
PATHS = ["/status", "/audit", "/inscriptions/0", "/inscriptions/1", "/runes/0", "/rune/1:1"]


def old_store():
    """The commands of an old store, its file A, and the file B that a migration makes."""
    commands = list(walk(random.Random(SEED), 100, MIGRATED))
    disk = store_files.Disk()
    a = old_file_of(commands)
    disk.files = {"A": bytearray(a), "B": bytearray(EMPTY_B)}
    old_files.migrate(disk)
    return commands, a, bytes(disk.files["B"])


def asked_paths(ox):
    """Paths of all that an index has: each block, inscription, output and satoshi that is named."""
    status = json.loads(ox.run("query", "/status")[1])
    yield from PATHS
    yield from (f"/blockhash/{height}" for height in range(0, status["blocks"] + 1, 20))
    for page in (0, 1):
        for id in json.loads(ox.run("query", f"/inscriptions/{page}")[1])["ids"][::20]:
            yield from (f"/inscription/{id}", f"/content/{id}", f"/output/{id[:64]}:0")
    yield from (f"/sat/{SUBSIDY * height}" for height in range(0, status["blocks"] + 1, 20))


@every.check(
    f"an old store of {MIGRATED} lines becomes one that replies as a new one of the same lines"
)
def migrated(ox):
    commands, a, b = old_store()
    ox.write(a, EMPTY_B)
    ox.wants((0, f"ok {MIGRATED}\n".encode()), "migrate")
    ox.has(a, b)
    ox.wants((3, b"not a store b 6\n"), "migrate")
    ox.has(a, b)
    (ox.folder / "new").mkdir()
    new = Ox(ox.program, ox.folder / "new")
    new.init()
    new.run("apply", feed=b"".join(map(line_of, commands)))
    for path in asked_paths(new):
        ox.wants(new.run("query", path), "query", path)
    back = 101 * b"disconnect\n"
    ox.wants(new.run("apply", feed=back), "apply", feed=back)


@every.check("kills of a `migrate` leave the old store or the new one")
def killed_migrations(ox):
    commands, a, b = old_store()
    chance, took = random.Random(SEED), 1.0
    for kill in range(21):
        ox.write(a, EMPTY_B)
        begun = time.perf_counter()
        child = subprocess.Popen([ox.program, ox.folder, "migrate"], stdout=subprocess.DEVNULL)
        try:
            child.wait(took * chance.uniform(0.2, 1.1) if kill else SECONDS)
        except subprocess.TimeoutExpired:
            child.kill()
            child.wait()
        # the first isn't killed, and tells how long one takes
        took = took if kill else time.perf_counter() - begun
        demand(ox.files()[0] == a, "file A was changed")
        got = ox.run("migrate")
        wanted = (0, f"ok {MIGRATED}\n".encode()), (3, b"not a store b 6\n")
        demand(got in wanted, f"`migrate` ended with {value_text(got)} then")
        ox.has(a, b)


@every.check("a `migrate` for which there is no memory changes no byte of the files")
def no_memory_to_migrate(ox):
    blocks, _ = chain(3, lambda height: bytes(3_999_800))
    a = old_file_of(map(payload_of, blocks))
    ox.write(a, EMPTY_B)

    def limit():
        resource.setrlimit(resource.RLIMIT_AS, (MEMORY, MEMORY))

    ox.wants((8, b""), "migrate", preexec_fn=limit)
    ox.has(a, EMPTY_B)
    ox.wants((0, b"ok 3\n"), "migrate")


@every.check(
    "status 10: a command of an old store that the rules refuse, and the files are as they were"
)
def old_commands(ox):
    right, wrong = commitment(), commitment()[:-1] + bytes([commitment()[-1] ^ 1])
    block, tip = block_of(bytes(32), [committing(0, right)])
    other, _ = block_of(tip, [committing(1, wrong)])
    for commands, told in (
        ([payload_of(block), payload_of(other)], b"old 1 refused 12\n"),
        ([DISCONNECT], b"old 0 refused 11\n"),
        ([payload_of(block), payload_of(b"")], b"old 1 refused 3 0\n"),
    ):
        a = old_file_of(commands)
        ox.write(a, EMPTY_B)
        ox.wants((10, told), "migrate")
        ox.has(a, EMPTY_B)


# Stores of version 2, which `grow` takes.

GROWN = 200


def store_to_grow():
    """The files of a store that heard made blocks, and those that a growing leaves of them."""
    store = store_of(walk(random.Random(SEED), 100, GROWN))
    before = bytes_in(store)
    store_files.grown(store.disk)
    return before, bytes_in(store)


@every.check(f"a store of {GROWN} lines grows to version 3, and replies and goes back as before")
def grown(ox):
    before, after = store_to_grow()
    ox.write(*before)
    replies = [(path, ox.run("query", path)) for path in asked_paths(ox)]
    back = 101 * b"disconnect\n"
    told = ox.run("apply", feed=back)
    ox.write(*before)
    ox.wants((0, b"ok grown\n"), "grow")
    ox.has(*after)
    letter = "ab"[after[0][0] == 0]
    ox.wants((3, f"not a store {letter} 6\n".encode()), "grow")
    ox.has(*after)
    for path, reply in replies:
        ox.wants(reply, "query", path)
    ox.wants(told, "apply", feed=back)


@every.check("kills of a `grow` leave the store at one version or the other")
def killed_growings(ox):
    before, after = store_to_grow()
    letter = "ab"[after[0][0] == 0]
    back = 101 * b"disconnect\n"
    ox.write(*before)
    status, told = ox.run("query", "/status"), ox.run("apply", feed=back)
    chance, took = random.Random(SEED), 1.0
    for kill in range(21):
        ox.write(*before)
        begun = time.perf_counter()
        child = subprocess.Popen([ox.program, ox.folder, "grow"], stdout=subprocess.DEVNULL)
        try:
            child.wait(took * chance.uniform(0.2, 1.1) if kill else SECONDS)
        except subprocess.TimeoutExpired:
            child.kill()
            child.wait()
        # the first isn't killed, and tells how long one takes
        took = took if kill else time.perf_counter() - begun
        ox.wants(status, "query", "/status")
        got = ox.run("grow")
        wanted = (0, b"ok grown\n"), (3, f"not a store {letter} 6\n".encode())
        demand(got in wanted, f"`grow` ended with {value_text(got)} then")
        ox.wants(status, "query", "/status")
        # a stop may leave the older file open; what is appended goes behind the newer one
        ox.wants(told, "apply", feed=back)


# A leader and a follower.

FOLLOWED = 200
FOLLOWER_KILLS = 20


def join(leader, follower, seconds):
    """Joins a leader and a follower by two pipes, and kills the follower after so many seconds: how
    the two ended."""
    haves, frames = os.pipe(), os.pipe()
    lead = subprocess.Popen(
        [leader.program, leader.folder, "lead"], stdin=haves[0], stdout=frames[1]
    )
    follow = subprocess.Popen(
        [follower.program, follower.folder, "follow"], stdin=frames[0], stdout=haves[1]
    )
    for end in (*haves, *frames):
        os.close(end)
    try:
        follow.wait(seconds)
    except subprocess.TimeoutExpired:
        follow.kill()
        follow.wait()
    return lead.wait(SECONDS), follow.returncode


def current_of(files):
    """Where a store stands, and the bytes of its current file up to its last gate."""
    _, tail = store_files.stands(files)
    return (tail.generation, tail.records), bytes(files[tail.file][: tail.gate + 1])


@every.check(
    f"a follower of {FOLLOWED} lines that is killed {FOLLOWER_KILLS} times has what its leader had,"
    " and in the end what it has"
)
def followed(ox):
    chance, commands = random.Random(SEED), list(walk(random.Random(SEED), 100, FOLLOWED))
    leader, follower = (Ox(ox.program, ox.folder / name) for name in ("leader", "follower"))
    for one in (leader, follower):
        one.folder.mkdir()
        one.init()
    told, took = store_files.make(store_files.Disk()), 0
    had = dict([current_of(told.disk.files)])
    for first in range(0, FOLLOWED, FOLLOWED // FOLLOWER_KILLS):
        lines = commands[first : first + FOLLOWED // FOLLOWER_KILLS]
        leader.run("apply", feed=b"".join(map(line_of, lines)))
        for command in lines:
            told.carry_out(command)
            had |= [current_of(told.disk.files)]
        leader.has(*bytes_in(told))
        if not took:
            # one that isn't killed tells how long it takes
            begun = time.perf_counter()
            demand(join(leader, follower, SECONDS) == (0, 0), "the first run ended otherwise")
            took = time.perf_counter() - begun
        join(leader, follower, took * chance.uniform(0.1, 1))
        at, held = current_of(dict(zip("AB", follower.files())))
        demand(had[at] == held, f"the follower holds otherwise what its leader had at {at}")
    demand(told.tail.generation == 4, "the leader's files didn't turn three times")
    demand(join(leader, follower, SECONDS) == (0, 0), "the last run ended otherwise")
    ends = [current_of(dict(zip("AB", one.files()))) for one in (leader, follower)]
    demand(ends[0] == ends[1], "the current files of the two differ in the end")


# The statuses, by what brings each about.


@every.check("status 1: words that aren't a subcommand")
def usage(ox):
    rows = [
        (),
        ("init",),
        ("init", "lab", "0"),
        ("init", "lab", "1001"),
        ("init", "test", "1"),
        ("init", "lab", "1", "2"),
    ]
    rows += [("drill",), ("drill", "0"), ("drill", "100001"), ("drill", "01"), ("drill", "1", "1")]
    rows += [("apply", "regtest"), ("fold",), ("fold", "Lab"), ("query",), ("served",), (b"\xff",)]
    rows += [("lead", "regtest"), ("follow", ".")]
    for words in rows:
        ox.wants((1, b"usage\n"), *words, feed=GENESIS)
    ox.has(b"", b"")
    ran = subprocess.run(
        [ox.program], stdin=subprocess.DEVNULL, stdout=subprocess.PIPE, timeout=SECONDS
    )
    demand((ran.returncode, ran.stdout) == (1, b""), "without a word the program ends otherwise")


@every.check("status 2: a store isn't made of files that aren't empty")
def not_empty(ox):
    for a, b in ((EMPTY_A, EMPTY_B), (b"", b"\0"), (b"\0", b""), (b"other", b"")):
        for words in (("init", "regtest", "100"), ("drill", "1")):
            ox.write(a, b)
            ox.wants((2, b"not empty\n"), *words)
            ox.has(a, b)


def not_stores():
    """Files A and B that are no store, and the file and place that are told."""
    (block,), _ = chain(1)
    whole, again = file_a([block]), files_of([payload_of(block), DISCONNECT])[0]
    change = payload_on(store_of([payload_of(block)]).stack.kept[0].change)
    empty = store_files.empty().body()
    with_records = lambda *payloads: store_files.file_of("regtest", 100, empty, payloads)
    front = EMPTY_A[:18]
    yield b"", b"", "a 0"
    yield b"\0" + EMPTY_A[1:], EMPTY_B, "a 0"
    yield EMPTY_A, b"", "b 0"
    yield b"", EMPTY_A, "a 0"
    yield EMPTY_A[:25], EMPTY_B, "a 1"
    yield b"\1oxidy" + EMPTY_A[6:], EMPTY_B, "a 1"
    yield EMPTY_A, b"\1", "b 1"
    yield EMPTY_A, EMPTY_A, "b 10"
    # one of version 1, without a block and with one
    yield old_file_of([]), EMPTY_B, "a 6"
    yield old_file_of([payload_of(block)]), EMPTY_B, "a 6"
    yield EMPTY_A, old_file_of([], generation=2), "b 6"
    yield front + b"\x1d" + EMPTY_A[19:] + b"\0", EMPTY_B, "a 26"
    yield front + b"\x1b" + EMPTY_A[19:], EMPTY_B, "a 26"
    yield front + 8 * b"\xff" + EMPTY_A[26:], EMPTY_B, "a 26"
    yield EMPTY_A[:53], EMPTY_B, "a 26"
    yield EMPTY_A[:54], EMPTY_B, "a 54"
    yield whole[:70], EMPTY_B, "a 54"
    yield whole[:55] + 4 * b"\xff" + whole[59:], EMPTY_B, "a 54"
    yield whole[:-1], EMPTY_B, f"a {len(whole) - 1}"
    yield with_records(change[:-1]), EMPTY_B, "a 54"
    yield with_records(payload_of(block)), EMPTY_B, "a 54"
    yield with_records(change, change), EMPTY_B, f"a {len(whole) - 1}"
    yield with_records(DISCONNECT), EMPTY_B, "a 54"
    yield with_records(change, DISCONNECT + b"\0"), EMPTY_B, f"a {len(whole) - 1}"
    yield with_records(change, DISCONNECT, DISCONNECT), EMPTY_B, f"a {len(again) - 1}"
    for _, a in store_faults.wrong_bodies():
        yield a, EMPTY_B, "a 26"


@every.check("status 3: files that are no store are told by the first test that fails")
def not_store(ox):
    for a, b, told in not_stores():
        ox.write(a, b)
        line = f"not a store {told}\n".encode()
        ox.wants((3, line), "apply", feed=GENESIS)
        ox.wants((3, line), "query", "/status")
        for word in ("lead", "follow"):
            ox.wants((3, b""), word, feed=have(1, 0))
        ox.has(a, b)


# the words that open a store, but for `query`
OPENING = "apply", "grow", "migrate", "lead", "follow"


def lying_files():
    """Files A whose counts and lengths lie, and the place that is told."""
    (block,), _ = chain(1)
    whole = file_a([block])
    for a in store_faults.lying_bodies():
        yield a, 26
    for length in (8 * b"\xff", 7 * b"\xff" + b"\x7f", 4 * b"\xff" + 4 * b"\0"):
        yield EMPTY_A[:18] + length + EMPTY_A[26:], 26
    for length in (4 * b"\xff", 3 * b"\xff" + b"\x7f"):
        yield whole[:55] + length + whole[59:], 54


@every.check(
    "status 3, and not 8: files whose counts and lengths tell four billion, in little memory"
)
def lying_in_files(ox):
    for a, place in lying_files():
        ox.write(a, EMPTY_B)
        for words in (("query", "/status"), *((word,) for word in OPENING)):
            if words == ("migrate",):
                wanted = (3, b"not a store a 6\n")
            elif words in (("lead",), ("follow",)):
                wanted = (3, b"")
            else:
                wanted = (3, f"not a store a {place}\n".encode())
            ox.wants(wanted, *words, preexec_fn=little)


def lying_summed():
    """The same of version 3, for lengths from 4 GiB on: sums are of what is told."""
    (block,), _ = chain(1)
    payload = payload_on(store_of([payload_of(block)]).stack.kept[0].change)
    layout = store_files.LAYOUTS[store_files.SUMMED]
    body_at, gate = layout.body_at, len(EMPTY_SUMMED) - 1
    body, generation = EMPTY_SUMMED[body_at:gate], EMPTY_SUMMED[10:18]
    place = store_files.number(gate, 8)
    for length in (1 << 32, (1 << 32) + len(body), 1 << 40, (1 << 63) - 1, (1 << 64) - 1):
        told = store_files.number(length, 8)
        front = EMPTY_SUMMED[1:18] + told
        yield b"\1" + front + layout.sums(front, body) + EMPTY_SUMMED[body_at:], body_at
        record = told + layout.record_sum(generation, place, told, payload) + payload
        yield EMPTY_SUMMED[:gate] + b"\1" + record + b"\0", gate


@every.check(
    "status 3, and not 8: files of version 3 whose lengths tell 4 GiB and more, in little memory"
)
def lying_in_summed(ox):
    for a, place in lying_summed():
        demand(store_faults.place_of(a) == f"A at {place}", f"docs/FORMATS.md says not {place}")
        ox.write(a, EMPTY_B)
        for words in (("query", "/status"), *((word,) for word in OPENING)):
            told = 6 if words in (("grow",), ("migrate",)) else place
            is_silent = words in (("lead",), ("follow",))
            wanted = b"" if is_silent else f"not a store a {told}\n".encode()
            ox.wants((3, wanted), *words, preexec_fn=little)
        ox.has(a, EMPTY_B)


@every.check("status 4: a folder or a file that can't be opened")
def cannot_open(ox):
    (ox.folder / "a.ox").mkdir()
    ox.wants((4, b""), "init", "regtest", "100")
    for name in ("absent", b"\xff"):
        folder = os.path.join(os.fsencode(ox.folder), os.fsencode(name))
        if name != "absent":
            os.mkdir(folder)
        Ox(ox.program, folder).wants((4, b""), "init", "regtest", "100")


@every.check("status 4: a folder that can't be synced, since it can't be read")
def cannot_sync_folder(ox):
    # in a place that another user may enter
    top = pathlib.Path(tempfile.mkdtemp())
    try:
        top.chmod(0o711)
        program, folder = top / "program", top / "store"
        shutil.copy(ox.program, program)
        program.chmod(0o755)
        folder.mkdir()
        folder.chmod(0o333)
        drop = {"user": NOBODY, "group": NOBODY, "extra_groups": []} if os.geteuid() == 0 else {}
        Ox(program, folder).wants((4, b""), "init", "regtest", "100", **drop)
        folder.chmod(0o777)
        Ox(program, folder).wants((0, b"ok empty\n"), "init", "regtest", "100", **drop)
    finally:
        shutil.rmtree(top)


@every.check("status 4: a sync that fails, and nothing is shown")
def cannot_sync_file(ox):
    for name in ("a.ox", "b.ox"):
        (ox.folder / name).symlink_to("/dev/null")
        ox.wants((4, b""), "init", "regtest", "100")
        for made in ("a.ox", "b.ox"):
            (ox.folder / made).unlink()


@every.check("status 4: a write that fails, and the store has the blocks that were shown")
def cannot_write(ox):
    blocks, tips = chain(6)
    ox.init()
    most = len(file_a(blocks[:3])) + 10

    def limit():
        signal.signal(signal.SIGXFSZ, signal.SIG_IGN)
        resource.setrlimit(resource.RLIMIT_FSIZE, (most, most))

    wanted = b"".join(answer(height, tips) for height in range(3))
    ox.wants((4, wanted), "apply", feed=b"".join(map(line, blocks)), preexec_fn=limit)
    ox.status_is(3, tips[2])
    ox.wants((0, answer(3, tips)), "apply", feed=line(blocks[3]))
    ox.has_blocks(blocks[:4])


@every.check("status 4: a standard stream that is closed, and no file takes its place")
def closed_streams(ox):
    ox.init()
    for stream in range(3):
        ran = subprocess.run(
            ["sh", "-c", f'"$0" "$@" {stream}>&-', ox.program, ox.folder, "apply"],
            stdin=subprocess.DEVNULL,
            stdout=subprocess.PIPE,
            stderr=subprocess.DEVNULL,
            timeout=SECONDS,
        )
        demand(
            (ran.returncode, ran.stdout) == (4, b""),
            f"with stream {stream} closed it ended with {ran.returncode}",
        )
        ox.has(EMPTY_A, EMPTY_B)


@every.check("status 5: a feed that can't be read")
def cannot_hear(ox):
    ox.init()
    feed = os.open(ox.folder, os.O_RDONLY)
    try:
        ox.wants((5, b""), "fold", "regtest", feed=feed)
        ox.wants((5, b""), "apply", feed=feed)
    finally:
        os.close(feed)
    ox.has(EMPTY_A, EMPTY_B)


@every.check("status 6: an answer that can't be shown is of a block that is kept")
def cannot_show(ox):
    with full() as stdout:
        ox.wants((6, None), "init", "regtest", "100", stdout=stdout)
        ox.has(EMPTY_A, EMPTY_B)
        ox.wants((6, None), "apply", feed=GENESIS + b"disconnect\n", stdout=stdout)
        ox.wants((6, None), "fold", "regtest", feed=GENESIS, stdout=stdout)
        ox.wants((6, None), "query", "/status", stdout=stdout)
    ox.status_is(1, GENESIS_ANSWER.split()[2].decode())


@every.check("status 6: nobody reads any more what is shown")
def cut_pipe(ox):
    ox.init()
    ours, theirs = os.pipe()
    os.close(ours)
    try:
        ox.wants((6, None), "apply", feed=GENESIS, stdout=theirs)
    finally:
        os.close(theirs)
    ox.status_is(1, GENESIS_ANSWER.split()[2].decode())


@every.check("statuses 11, 12 and 13: frames or the channel's end end a leader or a follower")
def ended_talks(ox):
    ox.init()
    for status, heard in ((0, level(1, 0)), (11, have(1, 0)), (11, bytes(8)), (13, b"")):
        ox.wants((status, have(1, 0)), "follow", feed=heard)
    for status, heard, told in (
        (0, b"", b""),
        (0, have(1, 0), level(1, 0)),
        (11, level(1, 0), b""),
        (11, have(1, 0) + have(1, 0)[:24], level(1, 0)),
        (12, have(1, 1), b""),
        (12, have(2, 0), b""),
    ):
        ox.wants((status, told), "lead", feed=heard)
    ox.has(EMPTY_A, EMPTY_B)


@every.check("statuses 1, 2 and 3 stay where their line can't be shown")
def statuses_stay(ox):
    with full() as stdout:
        ox.wants((1, None), "served", stdout=stdout)
        ox.wants((3, None), "query", "/status", stdout=stdout)
        ox.write(EMPTY_A, EMPTY_B)
        ox.wants((2, None), "init", "regtest", "100", stdout=stdout)


@every.check(
    "status 8: a block for which there is no memory, and the store has the blocks that were shown"
)
def no_memory(ox):
    blocks, tips = chain(3, lambda height: bytes(3_999_800) if height == 2 else b"\x51")
    ox.init()

    def limit():
        resource.setrlimit(resource.RLIMIT_AS, (MEMORY, MEMORY))

    wanted = answer(0, tips) + answer(1, tips)
    ox.wants((8, wanted), "apply", feed=b"".join(map(line, blocks)), preexec_fn=limit)
    ox.has_blocks(blocks[:2])
    ox.wants((0, answer(2, tips)), "apply", feed=line(blocks[2]))


@every.check(f"{KILLS} kills of a running `apply` lose no command whose line was shown")
def killed_runs(ox):
    kill_often(ox.program, ox.folder, KILLS, random.Random(SEED), collections.Counter())


if __name__ == "__main__":
    every.main(__doc__, TOP / "checks" / "out")
