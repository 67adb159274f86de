"""The rows of crates/ox_run_rows over files of version 3 and over pairs of which one has it, and
what has to be printed for them: see store_files, store_rows and worlds, which share nothing with
the library. A file of version 3 is put there byte for byte, or `grow` makes it.

What a turn writes docs/FORMATS.md has; what it doesn't say and the rows go by: the body goes in
pieces, as `pieces_of` cuts it."""

import made_blocks
import old_files
import store_faults
import store_files
from chain import DISCONNECT, chain, line, payload_of
from plain_index import NO_BLOCK
from rows.frame_rows import have, level
from rows.serve_rows import post
from rows.store_rows import ALL, APPENDED, FILLS, LOOKS, TURNED, Stores, block_on, each_call
from rows.store_rows import each_moment, looks_at, marks, not_at, reads_behind
from rows.worlds import CUTS_NOTHING, PORTIONS, Runs
from store_files import BODY_AT, CLOSED, GREATEST, OPEN, PIECE, SUMMED, VERSION, bytes_in, number
from store_files import record_at, records, stands, sum_of, summed_store_of

EMPTY = bytes.fromhex(store_files.EMPTY_SUMMED)
BODY = store_files.empty().body()
# where the first gate behind that body stands
GATE = 90 + len(BODY)
BLOCK = block_on(NO_BLOCK, 1)[0]
CONNECTED = store_files.empty().obey(payload_of(BLOCK))[1]


def file_of(version, generation=1, payloads=(), body=BODY):
    return store_files.file_of("regtest", 100, body, payloads, generation, version)


def summed(payloads=(), body=BODY, generation=1):
    return file_of(SUMMED, generation, payloads, body)


def with_head(a, at, data, body_sum=None):
    """The file with other bytes in its head, or another sum of its body; the head's own sum is
    right."""
    head = a[:at] + data + a[at + len(data) : BODY_AT] + (body_sum or a[BODY_AT:58])
    return head + sum_of(head[1:]) + a[90:]


# ---- what is opened, and appended to


def opens(rows):
    rows.heading("a store of version 3 is opened, and records go behind its body")
    rows.put(EMPTY)
    rows.open()
    rows.open([payload_of(BLOCK)])
    rows.file("A")
    assert rows.site.files["A"] == summed([CONNECTED])
    rows.open([payload_of(BLOCK), DISCONNECT, DISCONNECT])
    rows.file("A", GATE)
    for profile, depth in (("mainnet", 1000), ("lab", 1)):
        rows.put(*bytes_in(summed_store_of([], profile, depth, GREATEST)))
        rows.open(marks(1, 2)[0])
        rows.file("A", 90)
    rows.heading("a store of version 3 isn't made anew, and isn't migrated")
    rows.put(EMPTY)
    rows.make()
    assert rows.stdout[-1] == "not empty"
    rows.migrate()
    assert rows.stdout[-1] == "not a store: A at 6"


# ---- bodies in pieces

# how many bytes of a body are read at once
SIZES = 1, 7, 64


def in_pieces(rows):
    rows.heading("stores of both versions, opened in pieces of 1, 7 and 64 bytes")
    commands = made_blocks.drill_commands(12)
    for count in (0, 1, len(commands)):
        stack = summed_store_of(commands[:count]).stack
        for version in (VERSION, SUMMED):
            for payloads in ([], payloads_of(marks(1, 3, stack.tip())[0], stack)):
                rows.put(file_of(version, 1, payloads, stack.body()))
                rows.open()
                for most in SIZES:
                    rows.open_in_pieces(most)
                    assert rows.stdout[-1] == rows.stdout[-2]
    rows.heading("a store of version 3 with two records, cut at each byte")
    block, _ = block_on(NO_BLOCK, 1, target=b"")
    (a, _) = bytes_in(summed_store_of([payload_of(block), DISCONNECT]))
    for size in range(1, len(a)):
        rows.put(a[:size])
        rows.open()
        rows.open_in_pieces(7)
        assert rows.stdout[-1].startswith("not a store: A at")
        assert rows.stdout[-1] == rows.stdout[-2]
    rows.heading("each call of an opening in pieces of 64 bytes fails")
    rows.put(a)
    rows.open()
    rows.settle()
    calls = LOOKS - 2 + reads_behind(rows.site.files, 64)
    for call in range(calls + 1):
        rows.restart(0, 0, ALL)
        rows.fail(call)
        rows.open_in_pieces(64)
        assert (rows.stdout[-1] == "a call failed") == (call < calls)


# ---- turns

# the writes and syncs of a turn beside a closed file, whose body is one piece: zeros in its head's
# place, the piece, the last gate, the head, a sync, the gate and a sync
TURNED_ON = 7


def payloads_of(commands, stack=None):
    """What the records of these commands hold, on an empty chain or from this one on."""
    stack, payloads = stack or store_files.empty(), []
    for command in commands:
        stack, payload = stack.obey(command)
        payloads.append(payload)
    return payloads


def turns_on(rows):
    commands, _ = marks(1, 64)
    payloads = payloads_of(commands)
    older = summed(90 * [DISCONNECT], bytes(9000))
    for beside, a, b, generation in (
        ("a closed file", b"", CLOSED, 1),
        ("a longer open one", older, b"", 2),
    ):
        rows.heading(f"the 64th record of a file of version 3 turns it, beside {beside}")
        current = summed(payloads[:63], generation=generation)
        rows.put(a or current, b or current)
        rows.open()
        calls = APPENDED + TURNED_ON + (2 if a else 0)
        each_call(rows, commands[63], calls, gate=2)
        each_moment(rows, commands[63], calls, gate=2)
        rows.file("A" if a else "B")
        rows.open(3 * [DISCONNECT])
        assert rows.stdout[-1].startswith("61 blocks, 61 of 100 kept")
        rows.file("A" if a else "B", len(current))


def halves(rows):
    rows.heading("64 records, or 128, turn a file where they are half its body's length or longer")
    # of a block that is connected and taken back, and of a body of one block, which isn't kept and
    # whose output has no script
    pair = len(summed(payloads_of([*marks(1, 1)[0], DISCONNECT]))) - len(summed())
    least = len(body_with(0)[1])
    for long, turning in ((64 * pair, 64), (64 * pair + 1, 128), (128 * pair + 1, None)):
        stack, body = body_with(long - least)
        assert len(body) == long
        commands = 65 * [*marks(2, 1, stack.tip())[0], DISCONNECT]
        rows.put(summed([], body))
        for first, last in ((0, 63), (63, 64), (64, 65), (65, 127), (127, 128), (128, 129)):
            if first == 0 or turning != 64 or last < 66:
                rows.open(commands[first:last])
                rows.now()
                assert (rows.site.files["B"] != CLOSED) == (last >= (turning or 999))
        rows.file("A", len(summed([], body)) - 1)
        rows.file("B", 90 + long - 1000 if turning else 0)
    rows.heading("a file of the greatest generation is turned to, and turns no more")
    commands, _ = marks(1, 66)
    payloads = payloads_of(commands)
    for generation in (GREATEST - 1, GREATEST):
        rows.put(summed(payloads[:63], generation=generation))
        rows.open(commands[63:])
        rows.file("B")
    rows.put(summed(), summed(payloads[:63], generation=GREATEST))
    rows.open(commands[63:])
    rows.file("A")


def body_with(size):
    """A chain of one block that isn't kept, whose output has a script of so many bytes, and the
    body of its file."""
    block, _ = block_on(NO_BLOCK, 1, target=size * bytes([0x51]))
    index = store_files.empty().obey(payload_of(block))[0].index
    return store_files.Stack("regtest", 100, index), store_files.body_of(index, [])


def others_turn(rows):
    rows.heading("a disconnect turns a file of version 3 too")
    commands = [*marks(1, 63)[0], DISCONNECT]
    rows.put(summed(payloads_of(commands[:63])))
    rows.open(commands[63:])
    rows.file("B", 90)
    rows.open(62 * [DISCONNECT])
    assert rows.stdout[-1].startswith("0 blocks, 0 of 100 kept")
    rows.heading("made blocks over a turn: inscriptions, runes and what is held of them")
    commands = made_blocks.drill_commands(12)
    commands += 17 * [DISCONNECT, commands[-1]]
    rows.put(EMPTY)
    rows.open(commands[:64])
    rows.file("B")
    rows.open(commands[64:66])
    rows.open(13 * [DISCONNECT])
    assert rows.stdout[-2] == "refused 11"
    rows.heading("a file of depth 1 turns behind each 64 records, one over the other")
    rows.put(*bytes_in(summed_store_of([], "regtest", 1)))
    rows.open(marks(1, 200)[0])
    rows.file("A")
    rows.file("B")
    assert [rows.site.files[file][10] for file in "AB"] == [3, 4]


def long_pieces(rows):
    rows.heading("a body that is written in five pieces turns a file of version 3")
    # two outputs of more than a piece, and the changes with them; the last of these is another one
    long = lambda previous, mark: block_on(previous, mark, target=PIECE * bytes([0x51]))
    first, tip = block_on(NO_BLOCK, 1)
    second, tip = long(tip, 2)
    commands, tip = marks(3, 61, tip)
    commands = [*map(payload_of, (first, second)), *commands, payload_of(long(tip, 64)[0])]
    rows.put(EMPTY)
    rows.open(commands[:63])
    rows.settle()
    # behind the third piece, and whole
    for call in (looks_at(rows.site.files) + APPENDED + 4, ALL):
        rows.restart(0, 0, ALL)
        rows.fail(call)
        rows.open(commands[63:])
        rows.reopen(len(rows.site.steps), 0xFF, ALL)
        assert rows.stdout[-1].startswith("64 blocks, 64 of 100 kept")
    rows.now()
    assert rows.stdout[-1] == f"moment {2 + APPENDED + TURNED_ON + 4}"
    assert len(rows.site.files["B"]) > 4 * PIECE


# ---- pairs


def pairs(rows):
    rows.heading("of two open files, of which one has version 3, the newer is current")
    for older, newer in ((VERSION, SUMMED), (SUMMED, VERSION)):
        for files in (
            (file_of(older, 1, [CONNECTED]), file_of(newer, 2)),
            (file_of(newer, 3, [CONNECTED]), file_of(older, 2)),
        ):
            rows.put(*files)
            rows.open([payload_of(block_on(NO_BLOCK, 2)[0]), DISCONNECT])
            rows.file("A")
            rows.file("B")
        rows.put(file_of(older), file_of(newer))
        not_at(rows, "B at 10")
    rows.heading("the newer one is closed again, and the older one has another byte")
    older, newer = summed([CONNECTED]), file_of(VERSION, 2)
    for files, newest, place in (((newer, older), "A", "B at 1"), ((older, newer), "B", "A at 1")):
        rows.put(*files)
        rows.overwrite(newest, 0, CLOSED)
        rows.open()
        assert rows.stdout[-1].startswith("1 blocks")
        rows.overwrite(newest, 0, OPEN)
        other = store_files.OTHER[newest]
        for at in (1, 6, 10, 18, 57, 89):
            # a healthy store stops at the other file's head, and at nothing else of it
            rows.overwrite(other, at, bytes([older[at] ^ 1]))
            not_at(rows, place)
            rows.overwrite(other, at, older[at : at + 1])
        rows.overwrite(other, 90, bytes([older[90] ^ 1]))
        rows.open()
        rows.overwrite(other, 0, CLOSED)
        rows.overwrite(other, 1, b"\0")
        rows.open()
    rows.heading("an old store beside a file of version 3")
    rows.put(old(2), summed([CONNECTED]))
    not_at(rows, "A at 6")
    rows.migrate()
    rows.file("B")
    rows.put(old(1), summed([CONNECTED], generation=2))
    rows.migrate()
    assert rows.stdout[-1] == "not a store: B at 6"
    rows.open()


def old(generation):
    return old_files.old_file_of([payload_of(BLOCK)], generation=generation)


def turns(rows):
    rows.heading("a file of version 2 with 64 records takes the place of a longer one of version 3")
    stack, commands = store_files.empty(), marks(1, 65)[0]
    payloads = []
    for command in commands[:64]:
        stack, payload = stack.obey(command)
        payloads.append(payload)
    rows.put(file_of(VERSION, 2, payloads), summed(90 * [b"\2"], bytes(9000)))
    rows.open()
    each_moment(rows, commands[64], TURNED + 2)
    assert rows.site.files["B"][6] == VERSION
    rows.file("B")
    rows.open([DISCONNECT])


# ---- what is no store


def not_in_pieces(rows, place):
    """The files are no store, however long the pieces of a body are."""
    not_at(rows, place)
    for most in SIZES:
        rows.open_in_pieces(most)
        assert rows.stdout[-1] == f"not a store: {place}", rows.stdout[-1]


def heads(rows):
    rows.heading("heads of version 3 that are cut or none, all with the sums that they should have")
    a = summed([CONNECTED, DISCONNECT])
    for size in (1, 25, 26, 57, 58, 89):
        rows.put(a[:size])
        not_at(rows, "A at 1")
    for at, data in (
        (1, b"oxidx"),
        (6, b"\1"),
        (6, b"\2"),
        (6, b"\4"),
        (7, b"\3"),
        (8, number(0, 2)),
        (8, number(1001, 2)),
        (10, number(0, 8)),
    ):
        rows.become(with_head(a, at, data))
        not_at(rows, "A at 1")
    for version in (1, 3):
        rows.put(a[:1] + b"oxidx" + bytes([version]) + a[7:BODY_AT] + a[90:])
        not_at(rows, f"A at {6 if version == 1 else 1}")
    rows.heading("bodies of version 3 that are cut, none, or not as their sum says")
    for size in (90, GATE - 1):
        rows.put(a[:size])
        not_in_pieces(rows, "A at 90")
    for size in (0, len(BODY) - 1, len(BODY) + 1, 1 << 63, GREATEST - 90, GREATEST):
        rows.become(with_head(a, 18, number(size, 8), sum_of(a[90 : 90 + size])))
        not_in_pieces(rows, "A at 90")
    for body_sum in (bytes(32), sum_of(), sum_of(BODY[1:])):
        rows.become(with_head(a, 18, a[18:26], body_sum))
        not_in_pieces(rows, "A at 90")
    for body in (BODY + b"\0", b"\1" + BODY[1:]):
        rows.become(summed([], body))
        not_in_pieces(rows, "A at 90")


def places(rows):
    rows.heading("records of version 3 that are cut, none, or not as their sums say")
    a, second = summed([CONNECTED, DISCONNECT]), len(summed([CONNECTED])) - 1
    third = len(a) - 1
    for size, place in (
        (GATE, GATE),
        (GATE + 1, GATE),
        (GATE + 40, GATE),
        (second - 1, GATE),
        (second, second),
        (second + 41, second),
        (third, third),
    ):
        rows.put(a[:size])
        not_in_pieces(rows, f"A at {place}")
    spelled = lambda payload, generation=1, place=third: (
        OPEN + record_at(SUMMED, generation, place, payload)
    )
    for record in (
        # of another place, or generation; none of these rows; and in the form of version 2
        a[second:],
        spelled(CONNECTED, place=third + 1),
        spelled(CONNECTED, generation=2),
        spelled(b""),
        spelled(b"\2"),
        spelled(DISCONNECT),
        OPEN + record_at(VERSION, 1, third, CONNECTED) + bytes(40),
        # lengths beside another sum
        *(
            OPEN + number(size, 8) + spelled(CONNECTED)[9:]
            for size in (0, 1, len(CONNECTED) - 1, len(CONNECTED) + 1, GREATEST - third, GREATEST)
        ),
        spelled(CONNECTED)[:9] + bytes(32) + spelled(CONNECTED)[41:],
    ):
        rows.become(a[:-1] + record + CLOSED)
        not_in_pieces(rows, f"A at {third}")
    rows.heading("the first record that is none counts, be it for its sum or for its rows")
    wrong = OPEN + spelled(CONNECTED)[1:9] + bytes(32) + CONNECTED
    after = third + len(wrong)
    rows.become(a[:-1] + wrong + spelled(b"\2", place=after))
    not_in_pieces(rows, f"A at {third}")
    rows.become(a[:-1] + spelled(b"\2") + wrong)
    not_in_pieces(rows, f"A at {third}")
    rows.become(a[:-1] + spelled(CONNECTED)[:-1] + wrong)
    not_in_pieces(rows, f"A at {after}")
    rows.put(a[:-1] + wrong)
    not_in_pieces(rows, f"A at {third}")
    rows.put(a[:-1] + spelled(CONNECTED)[:-1])
    not_in_pieces(rows, f"A at {after}")
    rows.heading("what an older file left behind the last gate isn't read, nor where that is open")
    left = summed([CONNECTED, DISCONNECT, CONNECTED])[GATE:]
    newer = summed(generation=2)
    rows.put(newer[:-1] + CLOSED + left[1:])
    rows.open()
    assert rows.stdout[-1].startswith("0 blocks")
    rows.overwrite("A", GATE, OPEN)
    not_in_pieces(rows, f"A at {GATE}")
    rows.overwrite("A", GATE, CLOSED)
    rows.open([payload_of(BLOCK), DISCONNECT])
    rows.file("A", GATE)


def wrong_rows(rows):
    rows.heading("bodies that are none, under their sums")
    for _, file in [*store_faults.wrong_bodies()][::6]:
        body = file[slice(*store_files.body_of_file(file))]
        rows.become(summed([], body))
        not_in_pieces(rows, "A at 90")


def changes(rows):
    rows.heading("each byte of a file of version 3 with two records is changed in two ways")
    block, _ = block_on(NO_BLOCK, 1, target=b"")
    (a, _) = bytes_in(summed_store_of([payload_of(block), DISCONNECT]))
    gates = [0, *(place for place, _ in records(a, GATE)[0]), len(a) - 1]
    for way in (0x01, 0xFF):
        rows.put(a)
        for at, byte in enumerate(a):
            # the byte before it is put back
            before = a[max(at - 1, 0) : at]
            rows.overwrite("A", at - len(before), before + bytes([byte ^ way]))
            rows.open()
            assert at in gates or rows.stdout[-1].startswith("not a store: A at")
            rows.open_in_pieces(7)
            assert rows.stdout[-1] == rows.stdout[-2]
        rows.overwrite("A", len(a) - 1, CLOSED)
        rows.open()


# ---- runs


class Rows(Runs):
    """The rows so far, of stores of version 3 and of those that become ones."""

    def store(self, *parts):
        """An empty one and what channel 0 says, whose calls and moments are counted from now."""
        self.put(EMPTY)
        self.feed(*parts)

    def put(self, a, b=CLOSED):
        """Two files, whose calls and moments are counted from now."""
        self.fresh()
        for file, data in zip("AB", (a, b)):
            if data:
                self.overwrite(file, 0, data)
        # a run syncs them
        self.run("query", "")
        self.restart(self.world.now(), 0, CUTS_NOTHING)

    def again(self, *parts):
        """The files that were put, and what channel 0 says."""
        self.restart(0, 0, CUTS_NOTHING)
        self.feed(*parts)

    def blocks(self, count):
        """A query of the status has to tell so many."""
        status, told = self.run("query", "/status")
        assert status == 0 and f'"blocks":{count},'.encode() in told


def applies(rows):
    rows.heading("an apply of seventy commands over version 3, which turns, and queries")
    blocks, tips = chain(67)
    back = 3 * b"disconnect\n"
    rows.store(b"".join(map(line, blocks)), back)
    told = [f"ok {height} {tip}\n".encode() for height, tip in enumerate(tips)]
    rows.ends(("apply",), 0, b"".join([*told, *told[-2:-5:-1]]))
    commands = [*map(payload_of, blocks), *3 * [DISCONNECT]]
    rows.files(*bytes_in(summed_store_of(commands)))
    assert len(records(rows.world.site.files["B"], 90 + 28 + 64 * 226)[0]) == 6
    for path in ("/status", "/blockhash/63", f"/status?at={tips[60]}"):
        rows.ends(("query", path), 0, rows.world.reply(path))
    rows.feed(line(blocks[64]))
    rows.ends(("apply",), 0, told[64])
    rows.heading("each call of an append fails, and a stop afterwards")
    # behind those of the opening, and the hearing
    rows.store()
    heard = looks_at(rows.world.site.files) + 1
    for call in range(heard, heard + APPENDED):
        rows.store(line(blocks[0]))
        rows.fail(call)
        rows.ends(("apply",), 4, b"")
        rows.reopen(rows.world.now(), 0xFF, CUTS_NOTHING)
    rows.heading("a stop at each moment of an apply over version 3")
    rows.store(line(blocks[0]))
    rows.ends(("apply",), 0, told[0])
    for moment in range(rows.world.now() + 1):
        for fill in FILLS:
            led, last = rows.crash(moment, fill, CUTS_NOTHING, ("apply",), ("query", "/status"))
            assert led[0] == last[0] == 0 and b'"blocks":1' in last[1]
    rows.heading("a call of a turn that fails leaves the line unanswered, and its command there")
    full = summed(payloads_of(map(payload_of, blocks[:63])))
    rows.put(full)
    appended = looks_at(rows.world.site.files) + 1 + APPENDED
    for call in range(appended, appended + TURNED_ON + 1):
        rows.again(line(blocks[63]))
        rows.fail(call)
        ended = rows.run("apply")
        # behind the turn the answer is shown
        assert ended == ((4, b"") if call < appended + TURNED_ON else (6, b""))
        rows.blocks(64)
    rows.heading("a write of a turn that fails halfway")
    rows.put(full)
    for portion in PORTIONS:
        for writes in range(2, 7):
            rows.again(line(blocks[63]))
            assert rows.short(portion, writes, "apply") == (4, b"", 1)
            rows.blocks(64)


def others(rows):
    rows.heading("a server posts to a store of version 3")
    rows.store()
    rows.link("operator", post("/connect", BLOCK))
    rows.ends(("serve", "9"), 0, b"requests 1 hits 0\n")
    rows.file("A")
    rows.heading("nothing is made of it, led or followed")
    for words, status, told in (
        (("init", "regtest", "100"), 2, b"not empty\n"),
        (("drill", "2"), 2, b"not empty\n"),
        (("migrate",), 3, b"not a store a 6\n"),
        (("grow",), 3, b"not a store a 6\n"),
        (("lead",), 3, b""),
        (("follow",), 3, b""),
    ):
        rows.store(have(1, 0) if words == ("lead",) else level(1, 0))
        rows.ends(words, status, told)
        rows.files(EMPTY)
    for words in ("lead", "follow"):
        # the first call, the last one and the one that would read the body
        for call, status in ((0, 4), (LOOKS - 3, 4), (LOOKS - 2, 3)):
            rows.store()
            rows.fail(call)
            rows.ends((words,), status, b"")


# ---- stores that become ones of version 3

# the writes and syncs of it beside a closed file: those of a turn, and two of the old file's gate
GROWN = TURNED_ON + 2


def plain(count, generation=2):
    """A file of version 2 with so many records."""
    return file_of(VERSION, generation, payloads_of(marks(1, count)[0]))


def grows(rows):
    rows.heading("stores of 0, 2 and 64 records grow, whichever file is current")
    for count in (0, 2, 64):
        for older in (CLOSED, summed(9 * [CONNECTED])):
            a, b = (plain(count), older) if older == CLOSED else (older, plain(count))
            rows.put(a, b)
            stack, tail = stands(rows.world.site.files)
            rows.ends(("grow",), 0, b"ok grown\n")
            new, grown = store_files.OTHER[tail.file], summed([], stack.body(), 3)
            rows.file(new)
            assert rows.world.site.files[new][: len(grown)] == grown
            if count < 64:
                rows.file(tail.file)
            assert rows.world.site.files[tail.file] == CLOSED + plain(count)[1:]
            rows.blocks(count)
            rows.ends(("grow",), 3, f"not a store {new.lower()} 6\n".encode())
            rows.feed(line(block_on(stack.tip(), 99)[0]) + count * b"disconnect\n")
            assert rows.run("apply")[0] == 0
            rows.blocks(1)
    rows.heading("one that is newer than a file of version 3 grows into the last generation")
    rows.put(plain(1, GREATEST - 1), summed())
    rows.ends(("grow",), 0, b"ok grown\n")
    body = stands(rows.world.site.files)[0].body()
    rows.files(CLOSED + plain(1, GREATEST - 1)[1:], summed([], body, GREATEST))


def grows_not(rows):
    rows.heading("the tests of a store that is to grow come in their order")
    a, last = plain(2), plain(2, GREATEST)
    gate, size = 26 + len(BODY), (len(a) - 1 - 26 - len(BODY)) // 2
    with_size = lambda file, size: file[:18] + number(size, 8) + file[26:]
    broken = a[:gate] + OPEN + record_at(VERSION, 2, gate, b"\2")
    for a, b, place in (
        (CLOSED, CLOSED, "a 0"),
        (CLOSED, b"", "a 0"),
        (a, b"", "b 0"),
        (a[:25], CLOSED, "a 1"),
        (a, a[:1] + b"p" + a[2:], "b 1"),
        (a, plain(1), "b 10"),
        (a, summed(generation=2), "b 10"),
        (old(1), CLOSED, "a 6"),
        (old(GREATEST), CLOSED, "a 6"),
        (EMPTY, CLOSED, "a 6"),
        (summed(generation=GREATEST), CLOSED, "a 6"),
        (a, summed(generation=3), "b 6"),
        (a, old(3), "b 6"),
        (last, CLOSED, "a 10"),
        (summed(), last, "b 10"),
        (with_size(last, 3), CLOSED, "a 10"),
        (with_size(a, len(a)), CLOSED, "a 26"),
        (with_size(broken, len(BODY) - 1), CLOSED, "a 26"),
        (a[:gate], CLOSED, f"a {gate}"),
        (broken, CLOSED, f"a {gate}"),
        (a[:-1], CLOSED, f"a {gate + 2 * size}"),
        (a[:-2], CLOSED, f"a {gate + size}"),
    ):
        rows.put(a, b)
        rows.ends(("grow",), 3, f"not a store {place}\n".encode())
        assert rows.world.site.files == {"A": a, "B": b}


# beside what a store grows, and how many calls that has in all
BESIDE = (CLOSED, LOOKS + GROWN), (summed(9 * [CONNECTED]), LOOKS + GROWN + 2)


def grow_faults(rows):
    rows.heading("each call of a growing fails, and a stop afterwards")
    for older, calls in BESIDE:
        rows.put(plain(2), older)
        for call in range(calls + 1):
            rows.again()
            rows.fail(call)
            status, _ = rows.run("grow")
            assert status == (4 if call < calls else 6 if call == calls else 0)
            for fill in (0x00, 0x07):
                rows.reopen(rows.world.now(), fill, CUTS_NOTHING)
                assert rows.stdout[-1].startswith("2 blocks, 2 of 100 kept")
            # from the gate's write on the new file is current
            further = (3, b"not a store b 6\n") if call > calls - 4 else (0, b"ok grown\n")
            assert rows.run("grow") == further
            rows.blocks(2)
    rows.heading("a write of a growing fails halfway")
    rows.put(plain(2))
    for portion in PORTIONS:
        for writes in range(6):
            rows.again()
            assert rows.short(portion, writes, "grow") == (4, b"", 1)
            rows.file("B")
            rows.blocks(2)


def grow_stops(rows):
    rows.heading("a stop at each moment of a growing")
    for older, _ in BESIDE:
        rows.put(plain(2), older)
        rows.ends(("grow",), 0, b"ok grown\n")
        for moment in range(rows.world.now() + 1):
            for fill in FILLS:
                for keep in (0, CUTS_NOTHING):
                    words = ("grow",), ("query", "/status")
                    grown, asked = rows.crash(moment, fill, keep, *words)
                    assert grown in ((0, b"ok grown\n"), (3, b"not a store b 6\n"))
                    assert asked[0] == 0 and b'"blocks":2,' in asked[1]


def stores():
    """The rows of stores, and what has to be printed for them."""
    rows = Stores()
    for part in (opens, in_pieces, turns_on, halves, others_turn, long_pieces, pairs, turns):
        part(rows)
    for part in (heads, places, wrong_rows, changes):
        part(rows)
    return rows


def runs():
    """The rows of runs, and what has to be printed for them."""
    rows = Rows()
    for part in (applies, others, grows, grows_not, grow_faults, grow_stops):
        part(rows)
    return rows
