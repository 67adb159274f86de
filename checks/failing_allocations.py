#!/usr/bin/env python3
"""Lets each allocation of a run fail in turn, and looks at what is left.

    python3 checks/failing_allocations.py [PROGRAM]

No contract says that there is memory, and each says what is left where there is none: so this tries
it over built programs. checks/failing_allocation.c, which `cc` compiles, stands before libc's
`malloc` and `realloc` and refuses the call of one number. Build both programs first: `rt run` in
crates/ox_main, and `rt run < stdin` in crates/ox_index_rows.

- `apply` of PROGRAM (crates/ox_main/out/ox_main without a word) over a lab chain whose blocks
  reveal inscriptions, etch, mint and burn runes, and are taken back; and over the last of 70 lines,
  of which one turns the files: one run for each allocation, which fails. The run has to end with
  status 8, or 0 where nothing was lacking, or 4 where the folder couldn't be opened for it and
  nothing was shown, and to have shown whole lines in front of those of an undisturbed run. The
  lines behind them are then applied with all memory, and have to be answered by the others and to
  leave the files as they should be.
- `apply` of a line that turns files of version 3: where the turn lacks memory the line is answered
  with status 0, and the files stand for what they should; the 64th line behind it turns them.
- `grow`: the run has to end with 0, or with 8 or 4 and nothing shown; and the files stand for what
  they stood for, until with all memory they grow.
- `init`, `query` at both versions, `drill 2` and `migrate` of the same program: each has to end so
  too, and to show its line whole or nothing. After 8 the files are as before, but of a drill, which
  leaves those of some of its first commands; and with all memory each is carried out then.
- `serve` of two links, of which the operator's posts a block: the run has to end with 8 before
  anybody is served, or each link gets its replies, but for one, which is 503 and shuts its link.
  The files are as before where that is the block's, and those that the block leaves elsewhere.
- `serve` of a link that asks for an address, connects a block that pays it, asks again, takes the
  block back and asks once more: each gets its reply, but for one, which is 503 and gets it when it
  is asked again. Holders that found no memory for a command are so made anew.
- crates/ox_index_rows/out/ox_index_rows over rows that connect blocks, take them back and lead both
  ways, each followed by a dump of the whole index: one run for each allocation, which fails. Where
  a row finds no memory it has to say so, and the index has to be as before; the same row then has
  to do as it does with all memory. Only where the rows can't be read, or the routes of requests not
  made, the run may end at once, and has to print nothing.

The last line says how many runs there were. The status is 1 at the first that isn't as it should
be.
"""

import collections
import functools
import os
import pathlib
import shutil
import subprocess
import sys
import tempfile

import made_blocks
import old_files
from chain import DISCONNECT, SHORT, block_of, block_with, chain, coinbase, commitment, committing
from chain import envelope, line, payload_of, reveal_into
from kills import Failed, demand
from plain_index import after_block, empty
from real_sockets import SECONDS, Server, exactly, get, newest, post, reply, status_of
from rows import address_rows, hash_text, plain, reveal
from rows.holder_rows import FIRST, address_tree
from rows.index_rows import Full, Held, Indexes, runes_of_mainnet
from rows.scenarios import ETCHES, MINTS_AND_BURNS
from store_files import CLOSED, MOST_RECORDS, SUMMED, bytes_in, files_after_each, files_of
from store_files import stands, summed_store_of
from tools.bitcoin import SUBSIDY, twice
from tools.programs import TOP, proved_program
from tools.words import words_of

PROGRAM, INDEXES = proved_program("ox_main"), proved_program("ox_index_rows")
SHIM = TOP / "checks" / "failing_allocation.c"
NONE = ["no memory"]
COUNT_TO = 3
UNAVAILABLE = b"HTTP/1.1 503 Service Unavailable\r\nContent-Length: 0\r\nConnection: close\r\n\r\n"


def shim(folder):
    """The library that refuses an allocation."""
    made = folder / "failing_allocation.so"
    subprocess.run(["cc", "-O2", "-shared", "-fPIC", "-o", made, SHIM], check=True)
    return made


class Memory:
    """Runs programs that lack one allocation."""

    def __init__(self, library, folder):
        self.library, self.count, self.runs = library, folder / "count", 0
        self.counting = None

    def run(self, words, fails, feed=b""):
        """The status, what was shown and told, and how many allocations there were."""
        self.runs += 1
        self.count.write_bytes(b"")
        with open(self.count, "wb") as count:
            os.dup2(count.fileno(), COUNT_TO)
            ran = subprocess.run(
                words,
                input=feed,
                stdout=subprocess.PIPE,
                stderr=subprocess.PIPE,
                pass_fds=(COUNT_TO,),
                env={**os.environ, "LD_PRELOAD": str(self.library), "FAIL_AT": str(fails)},
            )
        return ran, int(self.count.read_bytes().split(b"\n")[-2] or 0)

    def how(self, fails):
        """How a program is started that lacks one allocation, and whose end isn't waited for."""
        self.runs += 1
        # it stays open until the next one
        self.counting = open(self.count, "wb")
        os.dup2(self.counting.fileno(), COUNT_TO)
        env = {**os.environ, "LD_PRELOAD": str(self.library), "FAIL_AT": str(fails)}
        return {"pass_fds": (COUNT_TO,), "env": env}

    def has_refused(self):
        """Whether the allocation came that fails."""
        return self.count.read_bytes().startswith(b"refused")


def lab_chain():
    """Lines that connect three plain blocks, one that reveals and etches, one that reveals, mints
    and burns, and take the last back and connect it again."""
    blocks, _ = chain(3)
    etching, cenotaph = bytes.fromhex(ETCHES), bytes.fromhex(MINTS_AND_BURNS)
    first = reveal_into(
        twice(coinbase(0, SHORT)),
        envelope([(1, b"text/plain")], b"hi"),
        [(SUBSIDY, SHORT), (0, etching)],
    )
    block, tip = block_with(twice(blocks[2][:80]), 3, first)
    second = reveal_into(twice(first[0]), envelope([], b"on"), [(SUBSIDY, SHORT), (0, cenotaph)])
    last, _ = block_with(tip, 4, second)
    return [*map(line, blocks), line(block), line(last), b"disconnect\n", line(last)]


def long_chain():
    """70 lines: those, and the last block taken back and connected again and again."""
    lines = lab_chain()
    more = 70 - len(lines)
    return lines + ((more // 2 + 1) * [b"disconnect\n", lines[-1]])[:more]


def files(folder):
    return tuple((folder / name).read_bytes() for name in ("a.ox", "b.ox"))


def made(program, folder, lines):
    """A store that heard these lines, in a new folder."""
    folder.mkdir()
    for words, feed in ((["init", "lab", "100"], b""), (["apply"], b"".join(lines))):
        ran = subprocess.run([program, folder, *words], input=feed, stdout=subprocess.PIPE)
        demand(ran.returncode == 0, f"{words[0]} ended with {ran.returncode}")
    return folder


def apply_in_turn(program, memory, top, heard, lines):
    """Each allocation of an `apply` of these lines fails in turn, behind those that were heard."""
    first = made(program, top / "first", heard)
    whole = pathlib.Path(shutil.copytree(first, top / "whole"))
    ran, count = memory.run([program, whole, "apply"], 0, b"".join(lines))
    answers = ran.stdout.splitlines(keepends=True)
    demand(ran.returncode == 0 and len(answers) == len(lines), f"{ran.returncode}: {ran.stdout}")
    demand(all(answer.startswith(b"ok ") for answer in answers), f"refused: {ran.stdout}")
    for fails in range(1, count + 1):
        folder = pathlib.Path(shutil.copytree(first, top / str(fails)))
        ran, _ = memory.run([program, folder, "apply"], fails, b"".join(lines))
        shown = ran.stdout.splitlines(keepends=True)
        demand(
            ran.returncode in (0, 8) or (ran.returncode, shown) == (4, []),
            f"allocation {fails}: status {ran.returncode}",
        )
        demand(shown == answers[: len(shown)], f"allocation {fails}: {ran.stdout} was shown")
        demand(
            ran.returncode != 0 or shown == answers,
            f"allocation {fails}: status 0 and {ran.stdout}",
        )
        rest = subprocess.run(
            [program, folder, "apply"], input=b"".join(lines[len(shown) :]), stdout=subprocess.PIPE
        )
        demand(rest.returncode == 0, f"after allocation {fails}: status {rest.returncode}")
        demand(
            rest.stdout == b"".join(answers[len(shown) :]),
            f"after allocation {fails}: {rest.stdout} was shown",
        )
        demand(files(folder) == files(whole), f"after allocation {fails}: the files are others")
        shutil.rmtree(folder)
    shutil.rmtree(first)
    shutil.rmtree(whole)
    print(f"apply of {len(lines)} lines behind {len(heard)}: {count} allocations")


def turn_in_turn(program, memory, top):
    """Each allocation of an `apply` fails in turn whose line turns files of version 3."""
    blocks, tips = chain(2 * MOST_RECORDS)
    last, commands = MOST_RECORDS - 1, [*map(payload_of, blocks[:MOST_RECORDS])]
    before, after = (summed_store_of(commands[:count]) for count in (last, None))
    first = top / "first"
    first.mkdir()
    for name, data in zip(("a.ox", "b.ox"), bytes_in(before)):
        (first / name).write_bytes(data)
    whole = copy(first, top / "whole")
    feed, told = line(blocks[last]), f"ok {last} {tips[last]}\n".encode()
    ran, count = memory.run([program, whole, "apply"], 0, feed)
    demand((ran.returncode, ran.stdout) == (0, told), f"{ran.returncode}: {ran.stdout}")
    demand(files(whole) == bytes_in(after), "the files didn't turn")
    lacked = 0
    for fails in range(1, count + 1):
        folder, what = copy(first, top / str(fails)), f"a turn, allocation {fails}"
        ran, _ = memory.run([program, folder, "apply"], fails, feed)
        ended, left = (ran.returncode, ran.stdout), files(folder)
        if ran.returncode == 0:
            demand(ran.stdout == told, f"{what}: {ended}")
            stack, _ = stands(dict(zip("AB", left)))
            demand(stack.body() == after.stack.body(), f"{what}: the files stand for another stack")
            if left != bytes_in(after):
                lacked += 1
                tries_again(program, folder, blocks[MOST_RECORDS:])
        else:
            demand(ended in ((8, b""), (4, b"")), f"{what}: {ended}")
            demand(left == bytes_in(before), f"{what}: the files are others")
        shutil.rmtree(folder)
    demand(lacked, "no turn lacked memory")
    shutil.rmtree(first)
    shutil.rmtree(whole)
    print(f"a turn of version 3: {count} allocations; of these the turn lacked {lacked}")


def tries_again(program, folder, blocks):
    """Behind a turn that lacked memory the last of so many records turns the files."""
    for some, turns in ((blocks[:-1], False), (blocks[-1:], True)):
        feed = b"".join(map(line, some))
        ran = subprocess.run([program, folder, "apply"], input=feed, stdout=subprocess.PIPE)
        demand(ran.returncode == 0, f"{folder}: status {ran.returncode}")
        _, tail = stands(dict(zip("AB", files(folder))))
        demand((tail.records == 0) == turns, f"{folder}: {tail} behind {len(some)} lines")


def grow_in_turn(program, memory, top):
    """Each allocation of a `grow` fails in turn."""
    first = made(program, top / "first", lab_chain())
    stack, _ = stands(dict(zip("AB", files(first))))
    whole = copy(first, top / "whole")
    ran, count = memory.run([program, whole, "grow"], 0)
    demand((ran.returncode, ran.stdout) == (0, b"ok grown\n"), f"{ran.returncode}: {ran.stdout}")
    for fails in range(1, count + 1):
        folder, what = copy(first, top / str(fails)), f"grow, allocation {fails}"
        ran, _ = memory.run([program, folder, "grow"], fails)
        ended = ran.returncode, ran.stdout
        demand(ended in ((0, b"ok grown\n"), (8, b""), (4, b"")), f"{what}: {ended}")
        left, _ = stands(dict(zip("AB", files(folder))))
        demand(left.body() == stack.body(), f"{what}: the files stand for another stack")
        if ran.returncode:
            ran = subprocess.run([program, folder, "grow"], stdout=subprocess.PIPE)
            demand((ran.returncode, ran.stdout) == (0, b"ok grown\n"), f"after {what}: {ran}")
        demand(files(folder) == files(whole), f"after {what}: the files are others")
        shutil.rmtree(folder)
    shutil.rmtree(first)
    shutil.rmtree(whole)
    print(f"grow: {count} allocations")


# ---- other subcommands


def copy(first, folder):
    return pathlib.Path(shutil.copytree(first, folder))


def others_in_turn(program, memory, top):
    """Each allocation of the other subcommands fails in turn."""
    empty, old = top / "empty", top / "old"
    empty.mkdir()
    old.mkdir()
    (old / "a.ox").write_bytes(old_files.old_file_of(map(payload_of, chain(3)[0])))
    (old / "b.ox").write_bytes(CLOSED)
    filled = made(program, top / "filled", lab_chain())
    summed = grown(program, copy(filled, top / "summed"), lab_chain()[-2:])
    drill = list(files_after_each(made_blocks.drill_commands(2)))
    for words, first, may_leave in (
        (["init", "lab", "100"], empty, []),
        (["query", "/audit"], filled, []),
        (["query", "/audit"], summed, []),
        (["drill", "2"], empty, drill),
        (["migrate"], old, []),
    ):
        in_turn(program, memory, top, words, first, may_leave)
    for folder in (empty, old, filled, summed):
        shutil.rmtree(folder)


def grown(program, folder, lines):
    """The store in a folder at version 3, with records of these lines."""
    for words, feed in ((["grow"], b""), (["apply"], b"".join(lines))):
        ran = subprocess.run([program, folder, *words], input=feed, stdout=subprocess.PIPE)
        demand(ran.returncode == 0, f"{words[0]} ended with {ran.returncode}")
    _, tail = stands(dict(zip("AB", files(folder))))
    demand((tail.version, tail.records) == (SUMMED, len(lines)), f"{folder}: {tail}")
    return folder


def files_if_any(folder):
    """The bytes of both files, none of one that isn't there."""
    paths = (folder / name for name in ("a.ox", "b.ox"))
    return tuple(path.read_bytes() if path.exists() else b"" for path in paths)


def in_turn(program, memory, top, words, first, may_leave):
    """Each allocation of a subcommand fails in turn, over a copy of a folder. With 8 it leaves the
    files as they were, or such ones."""
    whole = copy(first, top / "whole")
    ran, count = memory.run([program, whole, *words], 0)
    told = ran.stdout
    demand(ran.returncode == 0, f"{words} ended with {ran.returncode}")
    before = files_if_any(first)
    for fails in range(1, count + 1):
        folder, what = copy(first, top / str(fails)), f"{words}, allocation {fails}"
        ran, _ = memory.run([program, folder, *words], fails)
        ended = ran.returncode, ran.stdout
        demand(ended in ((0, told), (8, b""), (4, b"")), f"{what}: {ended}")
        left = files_if_any(folder)
        if ran.returncode == 0:
            demand(left == files(whole), f"{what}: the files are others")
        elif left != before:
            demand(ran.returncode == 8 and left in may_leave, f"{what}: the files are others")
        elif words[0] != "query":
            ran = subprocess.run([program, folder, *words], stdout=subprocess.PIPE)
            demand((ran.returncode, ran.stdout) == (0, told), f"after {what}: {ran}")
            demand(files(folder) == files(whole), f"after {what}: the files are others")
        shutil.rmtree(folder)
    shutil.rmtree(whole)
    print(f"{' '.join(words)}: {count} allocations")


# ---- a server


def served(program, folder, block):
    """A store of this block, in a new folder."""
    folder.mkdir()
    for words in (["init", "regtest", "100"], ["apply"]):
        subprocess.run([program, folder, *words], input=line(block), stdout=subprocess.DEVNULL)
    return folder


def each_of_a_server(program, memory, first, top, talks):
    """Each allocation of a server fails in turn, until none is left: who lacked memory, and the
    folder then."""
    fails = 0
    while fails == 0 or memory.has_refused():
        fails += 1
        folder = copy(first, top / str(fails))
        yield serve_once(program, memory, folder, fails, talks), folder
        shutil.rmtree(folder)
    shutil.rmtree(first)


def serve_in_turn(program, memory, top):
    """Each allocation of a server of two links and a command fails in turn."""
    blocks, tips = chain(2)
    first = served(program, top / "first", blocks[0])
    before, after = (files_of(map(payload_of, blocks[:count])) for count in (1, 2))
    met = collections.Counter()
    talks = functools.partial(talk, block=blocks[1], tips=tips)
    for was, folder in each_of_a_server(program, memory, first, top, talks):
        met[was] += 1
        demand(
            files(folder) == (before if was in ("the start", "the block") else after),
            f"serve, allocation {folder.name}: {was} lacked memory, and the files are others",
        )
    print(f"serve: {met.total() - 1} allocations; of these lacked memory: {dict(met)}")


def addresses_in_turn(program, memory, top):
    """Each allocation of a server fails in turn that is asked for an address, before and behind
    commands."""
    blocks, tips = chain(2, lambda height: FIRST)
    first = served(program, top / "first", blocks[0])
    one = after_block("regtest", empty("regtest"), blocks[0])
    asks = get(f"/address/{address_rows.written('bcrt', FIRST)}")
    held = [
        reply(200, address_tree(index, "bcrt", FIRST))
        for index in (one, after_block("regtest", one, blocks[1]))
    ]
    asked = [
        ("the first address", asks, held[0]),
        ("the block", post("/connect", blocks[1]), newest(tips, 1)),
        ("the address behind it", asks, held[1]),
        ("the disconnect", post("/disconnect", b""), newest(tips, 0)),
        ("the last address", asks, held[0]),
    ]
    commands = [*map(payload_of, blocks), DISCONNECT]
    met = collections.Counter()
    talks = functools.partial(talk_of_all, asked=asked)
    for was, folder in each_of_a_server(program, memory, first, top, talks):
        met[was] += 1
        demand(
            files(folder) == files_of(commands[:1] if was == "the start" else commands),
            f"addresses, allocation {folder.name}: {was} lacked memory, and the files are others",
        )
    print(f"addresses: {met.total() - 1} allocations; of these lacked memory: {dict(met)}")


def serve_once(program, memory, folder, fails, talks):
    """Serves what talks to it: who lacked memory."""
    server = Server(program, folder)
    try:
        with server.serving(**memory.how(fails)):
            try:
                return talks(server)
            except OSError:
                server.child.wait(SECONDS)
                raise
    except (Failed, OSError) as fault:
        # it has ended before it served anybody, though the doors may have been open
        demand(
            server.child.returncode in (4, 7, 8),
            f"serve, allocation {fails}: {server.child.returncode}, {fault}",
        )
        return "the start"


def talk(server, block, tips):
    """Two links, side by side, of which each asks twice: who lacked memory."""
    last = get("/blockhash/0", "Connection: close")
    asked = (get("/status"), last), (post("/connect", block), last)
    told = reply(200, {"hash": tips[0], "height": 0}, True)
    wanted = (status_of(1, tips[0]), told), (newest(tips, 1), told)
    with server.link() as public, server.link(server.operator) as operator:
        links, got = (public, operator), ([], [])
        for turn in (0, 1):
            for n in (0, 1):
                if got[n] == list(wanted[n][:turn]):
                    links[n].sendall(asked[n][turn])
                    got[n].append(exactly(links[n], len(wanted[n][turn])))
    lacking = [n for n in (0, 1) if got[n] != list(wanted[n])]
    demand(len(lacking) < 2, f"both links were shown something else: {got}")
    for n in lacking:
        demand(got[n].pop() == UNAVAILABLE, f"a link was shown {got[n]}")
    if not lacking:
        return "nothing"
    if lacking == [0]:
        return "the public link"
    return "the operator's second request" if got[1] else "the block"


def talk_of_all(server, asked):
    """An operator's link asks all this in turn; where it is shown 503, another one goes on with the
    same request: what lacked memory."""
    lacking, link = "nothing", server.link(server.operator)
    for what, said, wanted in asked:
        got = answer_to(link, said, wanted)
        if got != wanted:
            demand(got == UNAVAILABLE and lacking == "nothing", f"{what}: {got}")
            link.close()
            lacking, link = what, server.link(server.operator)
            again = answer_to(link, said, wanted)
            demand(again == wanted, f"{what}, behind 503: {again}")
    link.close()
    return lacking


def answer_to(link, said, wanted):
    link.sendall(said)
    return exactly(link, len(wanted))


class Scarce(Indexes):
    """Rows, in steps: the rows of each, what they print, and what else they may print where an
    allocation fails in them."""

    def __init__(self):
        super().__init__()
        self.steps = []

    def step(self, rows, others=()):
        """Rows, each with its lines, and what they may print instead."""
        printed = [lines for _, lines in rows]
        others = list(others)
        # a dump lacks its first line or its audit
        for place, (row, lines) in enumerate(rows):
            if row.startswith("dump"):
                others += [
                    printed[:place] + [lacks] + printed[place + 1 :]
                    for lacks in dumps_without_memory(lines)
                ]
        self.steps.append(([row for row, _ in rows], printed, others))

    def dump_of(self, side, kept=None):
        """The row that dumps an index, and its lines."""
        held, looks = side
        self.rows = []
        self.dump(held, *looks, kept=kept)
        return self.rows[0]

    def takes(self, before, after, *txs, kept=None):
        """A block is connected, and once more, which is refused; each is followed by a dump."""
        block, tip = block_of(self.tip(), txs)
        row = f"block {block.hex()}"
        dump, was = self.dump_of(before, kept and kept[0])
        unlinked = [f"refused 5 {hash_text(self.tip())} {hash_text(tip)}"]
        self.tips.append(tip)
        ok, is_now = [self.ok()], self.dump_of(after, kept and kept[1])[1]
        others = [[NONE, was, ok, is_now]]
        others += [
            [ok, is_now, lacks, is_now] for lacks in (NONE, ["refused, and no memory to say why"])
        ]
        self.step([(row, ok), (dump, is_now), (row, unlinked), (dump, is_now)], others)

    def takes_back(self, before, after, kept):
        """The newest block is taken back."""
        dump, was = self.dump_of(before, kept[0])
        self.tips.pop()
        is_now = self.dump_of(after, kept[1])[1]
        self.step([("disconnect", [self.ok()]), (dump, is_now)], [[NONE, was]])

    def leads_both_ways(self, before, after, *txs):
        """A block is taken in, back, in again and back."""
        self.rows = []
        self.both(before, after, *txs)
        row, lines = self.rows[0]
        dump, was = self.dump_of(before)
        size = len(was)
        ends = [
            place
            for place, line in enumerate(lines)
            if line in ("connected", "back", "again", "cancelled")
        ]
        parts = [lines[place + 1 : end] for place, end in zip(ends, [*ends[1:], len(lines)])]
        there = parts[0]
        assert parts == [there, was, there, was] and size == len(was)
        # no memory to connect, to go back, to go on again, and for the dumps of each step
        others = [
            [NONE, was],
            [["connected", *there, *NONE, *there], there],
            [["connected", *there, "back", *was, *NONE, *was], was],
        ]
        for place, part in zip(ends, parts):
            others += [
                [lines[: place + 1] + lacks + lines[place + 1 + len(part) :], was]
                for lacks in dumps_without_memory(part)
            ]
        self.step([(row, lines), (dump, was)], others)


def dumps_without_memory(lines):
    """The lines of a dump that lacks memory for its first line or its audit."""
    first = next(place for place, line in enumerate(lines) if line.startswith("ok "))
    audit = next(place for place, line in enumerate(lines) if line.startswith("audit "))
    end = next(
        (place for place, line in enumerate(lines) if place > audit and not line.startswith("  ")),
        len(lines),
    )
    return [lines[:first] + NONE + lines[first + 1 :], lines[:audit] + NONE + lines[end:]]


def scarce():
    """Blocks that are connected, by themselves and in a chain of which two are kept, that are taken
    back, and that lead both ways; one that commits to its witnesses; and the rune with which
    mainnet begins."""
    rows = Scarce()
    four = Full(Indexes())
    nothing = Held(), []
    for begin, depth in (("live lab", None), ("chain lab 2", 2), ("live lab", None)):
        rows.tips, rows.halving, rows.depth = [], 10, depth
        rows.step([(begin, [])])
        count_kept = functools.partial(min, depth) if depth else lambda count: None
        for height in range(3):
            rows.takes(
                nothing,
                nothing,
                plain(height),
                kept=depth and (count_kept(height), count_kept(height + 1)),
            )
        rows.takes(nothing, (four.before()[0], []), plain(3), four.tx, kept=depth and (2, 2))
        if begin == "live lab" and len(rows.steps) > 10:
            rows.leads_both_ways(four.before(), four.after(), plain(4), four.all)
            continue
        rows.takes(four.before(), four.after(), plain(4), four.all, kept=depth and (2, 2))
        if depth:
            rows.takes_back(four.after(), four.before(), (2, 1))
    # two ids over whole forms, of which one is hashed anew
    rows.tips, rows.halving, rows.depth = [], 210_000, None
    rows.step([("live regtest", [])])
    tx = reveal(plain(0), SHORT)
    rows.takes(nothing, nothing, plain(0))
    rows.takes(nothing, (Held(1), []), committing(1, commitment(tx)), tx)
    before = rows.dump_of((Held(1), []))
    rows.tips = []
    after = rows.dump_of((Held(0, [], runes_of_mainnet()), []))
    rows.step([("live mainnet", []), after], [[NONE, before[1]]])
    return rows.steps


def text_of(printed):
    return "".join(line + "\n" for lines in printed for line in lines)


def rows_in_turn(memory):
    """Each allocation of a run over rows fails in turn."""
    steps = scarce()
    feed = "".join(row + "\n" for rows, _, _ in steps for row in rows).encode()
    texts = [text_of(printed) for _, printed, _ in steps]
    whole, may_be = "".join(texts), set()
    for place, (_, _, others) in enumerate(steps):
        before, behind = "".join(texts[:place]), "".join(texts[place + 1 :])
        may_be |= {before + text_of(printed) + behind for printed in others}
    ran, count = memory.run([INDEXES], 0, feed)
    demand(
        ran.returncode == 0 and ran.stdout.decode() == whole,
        f"rows: {ran.returncode}: {ran.stdout} {ran.stderr}",
    )
    unread, lacked = 0, set()
    for fails in range(1, count + 1):
        ran, _ = memory.run([INDEXES], fails, feed)
        shown_ = ran.stdout.decode()
        if ran.returncode != 0:
            unread += 1
            demand(shown_ == "", f"rows, allocation {fails}: status {ran.returncode} and {shown_}")
        elif shown_ != whole:
            lacked.add(shown_)
            demand(shown_ in may_be, f"rows, allocation {fails}: {shown_}")
    demand(len(lacked) > len(may_be) // 2, f"only {len(lacked)} replies say out of memory")
    print(
        f"rows: {count} allocations, {unread} runs end before a row, {len(lacked)} of"
        f" {len(may_be)} replies say out of memory"
    )


def main():
    words = words_of(__doc__)
    words.add_argument("program", nargs="?", type=pathlib.Path, default=PROGRAM)
    program = words.parse_args().program.resolve()
    top = pathlib.Path(tempfile.mkdtemp())
    memory = Memory(shim(top), top)
    try:
        apply_in_turn(program, memory, top, [], lab_chain())
        long = long_chain()
        apply_in_turn(program, memory, top, long[:62], long[62:])
        turn_in_turn(program, memory, top)
        grow_in_turn(program, memory, top)
        others_in_turn(program, memory, top)
        serve_in_turn(program, memory, top)
        addresses_in_turn(program, memory, top)
        rows_in_turn(memory)
    except Failed as failed:
        print(f"FAILED: {failed}; the files are in {top}")
        sys.exit(1)
    shutil.rmtree(top)
    print(f"{memory.runs} runs")


if __name__ == "__main__":
    main()
