"""The rows of crates/ox_run_rows that make and open a store, and what has to be printed for them.

Blocks and what they leave of an index are told by docs/RULES.md, and the two files, what a crash
leaves of them and what they stand for by docs/FORMATS.md, on their own: see plain_index and
store_files. What these don't say and the rows go by: opening syncs A and B, in this order, asks for
the length and the front of each, and reads the body and what is behind it; of version 3 it reads
each piece of the body twice, and then of each record the front and the payload, and the last gate;
making asks for both lengths, writes B, syncs it, writes A's first byte and the others, syncs A,
writes its gate and syncs it.
"""

import functools

import made_blocks
import old_files
import store_faults
import store_files
from chain import DISCONNECT, GENESIS, SHORT, payload_of, record_of
from plain_index import MOST_BYTES as MOST
from plain_index import NO_BLOCK, Refused
from row_ends import count_of
from rows.query_rows import checksum
from store_files import CLOSED, GREATEST, OPEN, NoStore, stands
from table import offset_in
from tools import bitcoin
from tools.bitcoin import SUBSIDY, twice

ALL = 1_000_000_000
# the calls of an opening of version 2: two syncs, of both files the length and the front, the body
# and what is behind it
LOOKS = 8
# how many bytes of a body of version 3 are read at once
READ_AT_ONCE = 1 << 20
# the writes and syncs of a making, of a record, and of a turn beside a closed file
MADE, APPENDED, TURNED = 8, 4, 5

GENESIS_HASH = "6fe28c0ab6f1b372c1a6a246ae63f74f931e8365e15a089c68d6190000000000"

# an empty regtest store of depth 100, file A, as FORMATS has it
EMPTY = bytes.fromhex(store_files.EMPTY)


# ---- blocks


def block_on(previous, mark, claim=SUBSIDY, source=1, target=SHORT):
    """The bytes of a block of a coinbase alone, which has a script of so many bytes, each the mark,
    and an output of this value and script; and its hash."""
    script = source * bytes([mark])
    tx = bitcoin.coinbase([(claim, target)], script, sequence=0xFFFFFFFF, version=1)[0]
    return bitcoin.block(previous, twice(tx), [tx])


def moved_line(stack, command, after):
    """What a command changes, and where it leads to."""
    is_back = command == DISCONNECT
    change = (stack if is_back else after).kept[0].change
    way = "back" if is_back else "on"
    told = f"{way} {change.hash.hex()}, {len(change.gone)} gone, {len(change.came)} came, "
    return told + tip_line(after)


def tip_line(stack):
    blocks = len(stack.hashes())
    return f"tip {blocks - 1} {stack.tip().hex()}" if blocks else "no tip"


def place_line(index, sat):
    for (txid, at), row in index.outputs:
        offset = offset_in(row.sats, sat)
        if offset is not None:
            return f"{txid.hex()}:{at} at {offset}"
    offset = offset_in(index.lost, sat)
    return "nowhere" if offset is None else f"lost at {offset}"


# ---- two files on a disk


class CallFailed(Exception):
    pass


class Site:
    """Two files, what was done to them, and which calls fail."""

    def __init__(self, files=None):
        self.first = files or {"A": b"", "B": b""}
        self.files, self.steps, self.calls, self.failing = dict(self.first), [], 0, set()

    def call(self):
        self.calls += 1
        return self.calls - 1 not in self.failing

    def look(self):
        if not self.call():
            raise CallFailed()

    def write(self, file, at, data):
        goes = self.call()
        self.steps.append((file, at, data if goes else len(data)))
        if not goes:
            raise CallFailed()
        old = self.files[file]
        self.files[file] = old[:at] + data + old[at + len(data) :]

    def sync(self, file):
        self.look()
        self.steps.append((file, None, None))

    def image(self, file, moment, fill, keep):
        """What a crash leaves of a file: bytes that were written since the last sync, and all
        behind the length at it, are filled, and the length is `keep` as far as it may be."""
        seen = synced = self.first[file]
        written, longest = [], len(seen)
        for named, at, data in self.steps[:moment]:
            if named != file:
                continue
            if at is None:
                synced, written, longest = seen, [], len(seen)
                continue
            size = data if isinstance(data, int) else len(data)
            if not isinstance(data, int):
                seen = seen[:at] + data + seen[at + size :]
            written.append((at, at + size))
            longest = max(longest, at + size)
        left = bytearray(synced)
        for at, end in written:
            left[at:end] = bytes([fill]) * len(left[at:end])
        return bytes(left) + bytes([fill]) * (min(keep, longest) - len(left))

    def crash(self, moment, fill, keep):
        """The site that a crash leaves."""
        assert moment <= len(self.steps)
        return Site({file: self.image(file, moment, fill, keep) for file in "AB"})


# ---- rows

# what a body comes to, of which most are opened again and again
body_sum = functools.cache(checksum)


class Store(store_files.Store):
    """A store on a site, and the lines that commands are answered by."""

    def __init__(self, site, stack, tail):
        super().__init__(site, stack, tail)
        self.commands = 0

    def lines(self, commands):
        for command in commands:
            try:
                after, payload = self.stack.obey(command)
            except Refused as refused:
                yield str(refused)
                continue
            yield moved_line(self.stack, command, after)
            self.commit(after, payload)
            self.commands += 1
        yield self.line()

    def line(self):
        stack = self.stack
        kept = f"{len(stack.kept)} of {stack.depth} kept, {len(stack.kept)} changes, "
        told = f"{count_of(stack.index.lost)} lost, {self.commands} commands, "
        told += f"body {body_sum(stack.body())}, {tip_line(stack)}"
        return f"{len(stack.hashes())} blocks, {kept}{told}"


def word_of(payload):
    """The word of a command; a long block is told by what repeats in it."""
    if payload == DISCONNECT:
        return "-"
    block = payload[1:]
    if len(block) < 10_000:
        return "+" + block.hex()
    part = block[1000:2000]
    times = next(n for n in range(len(block)) if block[1000 + 1000 * n : 2000 + 1000 * n] != part)
    assert block == block[:1000] + times * part + block[1000 + 1000 * times :]
    return f"+{block[:1000].hex()}+{times}*{part.hex()}+{block[1000 + 1000 * times:].hex()}"


def until_a_call_fails(lines):
    """These lines, and that a call failed where one did."""
    try:
        yield from lines
    except CallFailed:
        yield "a call failed"


def lines_of_opening(site, payloads=(), most=READ_AT_ONCE):
    """Where the files are no store, the calls behind the fronts aren't counted: then none of
    them may fail, nor of a later one."""
    try:
        site.sync("A")
        site.sync("B")
        for _ in range(LOOKS - 4):
            site.look()
        found = stands(site.files)
    except NoStore as place:
        assert all(call < site.calls for call in site.failing)
        site.calls = ALL
        yield f"not a store: {place}"
        return
    for _ in range(reads_behind(site.files, most)):
        site.look()
    yield from Store(site, *found).lines(payloads)


def reads_behind(files, most=READ_AT_ONCE):
    """How many calls an opening makes behind those on the fronts of a store's files."""
    data = files[store_files.current(files)]
    if data[6] != store_files.SUMMED:
        return 2
    begun, end = store_files.body_of_file(data)
    pieces = -(-(end - begun) // most)
    return 2 * pieces + 2 * len(store_files.records(data, end)[0]) + 1


def looks_at(files):
    """The calls of an opening of these files, which are a store."""
    return LOOKS - 2 + reads_behind(files)


def opened_lines(site):
    """What is printed of files that are opened."""
    return until_a_call_fails(lines_of_opening(site))


class Stores:
    """The rows so far, and what is printed for them."""

    def __init__(self):
        self.stdin, self.stdout, self.site = [], [], Site()

    def row(self, *words):
        self.stdin.append(" ".join(map(str, words)))

    def command_row(self, words, payloads):
        self.row(*words, *map(word_of, payloads))

    def heading(self, text):
        self.row("#", text)
        self.stdout.append(f"# {text}")
        self.fresh()

    def fresh(self):
        self.row("fresh")
        self.site = Site()

    def fail(self, call):
        assert call >= self.site.calls
        self.row("fail", call)
        self.site.failing.add(call)

    def run(self, lines):
        """Prints lines until a call fails."""
        self.stdout += until_a_call_fails(lines)

    def make(self, profile="regtest", depth=100, payloads=()):
        self.command_row(("make", profile, depth), payloads)
        self.run(self.lines_of_making(self.site, profile, depth, payloads))

    def lines_of_making(self, site, profile, depth, payloads):
        site.look()
        site.look()
        if site.files["A"] or site.files["B"]:
            yield "not empty"
            return
        made = store_files.make(site, profile, depth)
        yield from Store(site, made.stack, made.tail).lines(payloads)

    def open(self, payloads=()):
        self.command_row(("open",), payloads)
        self.run(lines_of_opening(self.site, payloads))

    def open_in_pieces(self, most):
        """Bodies of version 3 are read in pieces of at most so many bytes."""
        self.row("pieces", most)
        self.run(lines_of_opening(self.site, (), most))

    def migrate(self, refusals=()):
        self.row("migrate")
        self.run(self.lines_of_migrating(self.site, refusals))

    def lines_of_migrating(self, site, refusals):
        """Files of version 1 become a store: how many commands they had, and the store."""
        site.sync("A")
        site.sync("B")
        for _ in range(LOOKS - 4):
            site.look()
        try:
            stack, count, tail = old_files.old_stands(site.files, refusals)
        except NoStore as place:
            site.calls = ALL
            yield f"not a store: {place}"
            return
        except old_files.Old as old:
            site.look()
            site.look()
            yield f"old {old}"
            return
        site.look()
        site.look()
        store = Store(site, stack, tail)
        store.turn_to(stack)
        yield f"ok {count}"
        yield store.line()

    def reopen(self, moment, fill, keep):
        self.row("reopen", moment, fill, keep)
        after = self.site.crash(moment, fill, keep)
        self.stdout += opened_lines(after)
        return after

    def restart(self, moment, fill, keep):
        self.row("restart", moment, fill, keep)
        self.site = self.site.crash(moment, fill, keep)

    def locate(self, *sats):
        self.row("locate", *sats)
        self.site.sync("A")
        self.site.sync("B")
        self.site.calls += looks_at(self.site.files) - 2
        stack, _ = stands(self.site.files)
        self.stdout += [place_line(stack.index, sat) for sat in sats]

    def now(self):
        self.row("now")
        self.stdout.append(f"moment {len(self.site.steps)}")

    def file(self, file, start=0):
        self.row("file", file, start)
        data = self.site.files[file]
        assert start <= len(data)
        self.stdout.append(f"{len(data)} bytes: {data[start:].hex()}")

    def overwrite(self, file, at, data):
        self.row("overwrite", file, at, data.hex())
        self.site.write(file, at, data)

    def put(self, a, b=CLOSED):
        """Two files of these bytes."""
        self.fresh()
        self.overwrite("A", 0, a)
        self.overwrite("B", 0, b)

    def become(self, a):
        """File A becomes these bytes beside a closed B, as far as a store reads it: what is written
        begins where the two differ, and behind the last gate an older file may go on."""
        old = self.site.files["A"]
        if not old:
            self.put(a)
            return
        same = next((at for at in range(len(a)) if old[at : at + 1] != a[at : at + 1]), len(a))
        self.overwrite("A", same, a[same:])

    def settle(self):
        """The files stay, and their moments and calls are counted from here on."""
        self.restart(len(self.site.steps), 0, ALL)


def marks(first, count, previous=NO_BLOCK):
    """So many blocks on one another, with marks from this one on, and the newest hash."""
    payloads = []
    for mark in range(first, first + count):
        block, previous = block_on(previous, mark)
        payloads.append(payload_of(block))
    return payloads, previous


def makes(rows):
    rows.heading("two empty files are made a store, and no others")
    rows.make()
    rows.file("A")
    rows.file("B")
    assert rows.site.files == {"A": EMPTY, "B": b"\0"}
    rows.now()
    rows.make()
    rows.open()
    for profile, depth in (("mainnet", 1), ("lab", 1000), ("regtest", 2)):
        rows.fresh()
        rows.make(profile, depth)
        rows.file("A")
    for file in "AB":
        rows.fresh()
        rows.overwrite(file, 0, b"\0")
        rows.make()
        rows.file("A")
        rows.file("B")


def commits(rows):
    rows.heading("a block is connected, and then a disconnect takes it back: 256 bytes and 6 more")
    rows.make("regtest", 100, [payload_of(GENESIS)])
    rows.file("A")
    data = rows.site.files["A"]
    assert (len(data), data[54:60].hex(), data[255]) == (256, "01c400000001", 0)
    rows.open()
    rows.open([DISCONNECT])
    assert GENESIS_HASH in rows.stdout[-2]
    rows.file("A", 255)
    assert rows.stdout[-1].endswith(": 01010000000000")
    rows.open()


def refuses(rows):
    rows.heading("a refusal hands the store back")
    rows.make("regtest", 100, [DISCONNECT, payload_of(b""), payload_of(GENESIS)])
    assert rows.stdout[-4:-2] == ["refused 11", "refused 3 0"]
    tip = bytes.fromhex(GENESIS_HASH)
    good, _ = block_on(tip, 1)
    unlinked, _ = block_on(NO_BLOCK, 1)
    greedy, _ = block_on(tip, 1, SUBSIDY + 1)
    bad_root = good[:36] + bytes(32) + good[68:]
    rows.open(
        [payload_of(block) for block in (unlinked, bad_root, greedy, b"", good)] + 3 * [DISCONNECT]
    )
    rows.open()


# ---- what is no store


def not_at(rows, place):
    """The files are no store for what stands there."""
    rows.open()
    assert rows.stdout[-1] == f"not a store: {place}", rows.stdout[-1]


def no_store(rows):
    rows.heading("what is no store is told by its place")
    gate = 255
    rows.open()
    rows.make("regtest", 100, [payload_of(GENESIS)])
    # an open gate with nothing behind it; payloads of no command, 02 and 00 with a byte more; that
    # before a cut gate
    for at, data in (
        (gate, "01"),
        (gate, "01010000000200"),
        (gate, "0102000000000000"),
        (gate + 7, "01"),
    ):
        rows.overwrite("A", at, bytes.fromhex(data))
        not_at(rows, f"A at {gate}")
    # a body of another length, other versions, and a head that is none
    for at, byte, place in ((18, 29, 26), (18, 27, 26), (6, 1, 6), (6, 3, 1), (1, 0, 1), (0, 0, 0)):
        rows.overwrite("A", at, bytes([byte]))
        not_at(rows, f"A at {place}")
    rows.heading("a head is refused at its place, and its greatest depth is 1,000")
    rows.make()
    rows.overwrite("A", 5, b"y")
    not_at(rows, "A at 1")
    rows.overwrite("A", 5, b"x")
    for depth in (1000, 1001):
        rows.overwrite("A", 8, store_files.number(depth, 2))
        rows.open()
    assert rows.stdout[-2].startswith("0 blocks, 0 of 1000 kept")
    assert rows.stdout[-1] == "not a store: A at 1"
    rows.heading("more disconnects than blocks are no store")
    rows.make()
    taken_back = OPEN + record_of(DISCONNECT)
    rows.overwrite("A", 54, taken_back)
    not_at(rows, "A at 54")
    rows.fresh()
    rows.make("regtest", 100, [payload_of(GENESIS)])
    for at in (gate, gate + 6):
        rows.overwrite("A", at, taken_back)
        rows.open()
    assert rows.stdout[-1] == f"not a store: A at {gate + 6}"
    rows.heading("of two open files the newer is current")
    rows.make("regtest", 100, [payload_of(GENESIS)])
    newer = EMPTY[:10] + b"\2" + EMPTY[11:]
    rows.overwrite("B", 0, EMPTY)
    not_at(rows, "B at 10")
    rows.overwrite("B", 0, newer)
    rows.open([payload_of(block_on(NO_BLOCK, 1)[0])])
    rows.file("B")
    rows.file("A", gate)
    rows.open()
    for at, byte, place in ((18, 1, "B at 26"), (6, 1, "B at 6"), (1, 0, "B at 1")):
        rows.overwrite("B", at, bytes([byte]))
        not_at(rows, place)
    rows.overwrite("B", 0, b"\0")
    rows.open()
    assert rows.stdout[-1].startswith("1 blocks")
    block = payload_of(block_on(NO_BLOCK, 1)[0])
    for current, generations in (("B", (1, 2)), ("A", (3, 2))):
        rows.put(*(EMPTY[:10] + bytes([generation]) + EMPTY[11:] for generation in generations))
        rows.open([block])
        assert len(rows.site.files[current]) > len(EMPTY)
        rows.file("A")
        rows.file("B")
    rows.overwrite("B", 10, b"\3")
    not_at(rows, "B at 10")


def faults(rows):
    rows.heading("bodies that are none")
    for _, file in store_faults.wrong_bodies():
        rows.become(file)
        not_at(rows, "A at 26")
    rows.heading("bodies with a list of four billion items")
    for file in store_faults.lying_bodies():
        rows.become(file)
        not_at(rows, "A at 26")
    rows.heading("bodies that are cut in a part, in the file or as their length says")
    for file in store_faults.cut_bodies():
        rows.put(file)
        not_at(rows, "A at 26")
    rows.heading("records behind three blocks that are none, and some that no chain gives")
    for _, file in store_faults.records():
        rows.become(file)
        rows.open()
        assert rows.stdout[-1] == f"not a store: {store_faults.place_of(file)}" or (
            store_faults.place_of(file) is None and rows.stdout[-1].startswith("4 blocks")
        )
    rows.heading("the first record that is none counts, and comes before a gate that is missing")
    body, right, wrong = store_faults.stack_of(2, 1).body(), DISCONNECT, b"\2"
    gate = 26 + len(body)
    for payloads, place in (
        ([right, wrong], gate + 6),
        ([right, right], gate + 6),
        ([wrong, right], gate),
        ([right, wrong, wrong], gate + 6),
    ):
        rows.put(store_faults.with_body(body, payloads, 1))
        not_at(rows, f"A at {place}")
    rows.put(store_faults.with_body(body, [right, wrong], 1)[:-1])
    not_at(rows, f"A at {gate + 6}")
    rows.put(store_faults.with_body(body, [right], 1)[:-1])
    not_at(rows, f"A at {gate + 6}")
    rows.put(store_faults.with_body(body, [right], 1)[:-2])
    not_at(rows, f"A at {gate}")


def fails(rows):
    rows.heading("each call of a make and a connect fails, and a stop afterwards")
    # the lengths; a write and a sync of B; three writes, a sync, a write and a sync of A; and as
    # many as 4 of the block
    for call in range(15):
        rows.fresh()
        rows.fail(call)
        rows.make("regtest", 100, [payload_of(GENESIS)])
        assert (rows.stdout[-1] == "a call failed") == (call < 14)
        for fill in (0x00, 0x07):
            rows.reopen(len(rows.site.steps), fill, 1000)
            # the record's sync is call 11, and the gate's write call 12
            assert call != 11 or rows.stdout[-1].startswith("0 blocks")
        rows.now()
    rows.heading("the first calls of an opening fail")
    for call in range(6):
        rows.fresh()
        rows.make()
        rows.fail(10 + call)
        rows.open([payload_of(GENESIS)])
        assert rows.stdout[-1] == "a call failed"
        rows.open([payload_of(GENESIS)])


def stops(rows):
    rows.heading("a stop leaves the chain before or after")
    rows.make("regtest", 100, [payload_of(GENESIS)])
    rows.now()
    assert rows.stdout[-1] == "moment 12"
    for moment in range(13):
        for fill in (0x00, 0x01, 0x07, 0xFF):
            for keep in (0, 1000):
                rows.reopen(moment, fill, keep)
                said = rows.stdout[-1]
                assert moment < 8 or said.startswith(
                    "1 " if moment > 11 or (moment == 11 and fill) else "0 "
                )


def state(stack):
    return stack.hashes(), len(stack.kept)


def prefixes(rows):
    rows.heading(
        "at every moment of four commands a stop leaves a prefix of them that has each"
        " acknowledged one"
    )
    first, tip = marks(1, 2)
    commands = first + [DISCONNECT, payload_of(block_on(block_on(NO_BLOCK, 1)[1], 3)[0])]
    rows.make()
    stack, ends = store_files.empty(), [len(rows.site.steps)]
    states = [state(stack)]
    for command in commands:
        rows.open([command])
        ends.append(len(rows.site.steps))
        stack, _ = stack.obey(command)
        states.append(state(stack))
    rows.now()
    for moment in range(ends[-1] + 1):
        for fill in (0x00, 0xFF):
            for keep in (0, ALL):
                after = rows.reopen(moment, fill, keep)
                acknowledged = sum(end <= moment for end in ends)
                if acknowledged or rows.stdout[-1].endswith("tip"):
                    allowed = states[max(acknowledged - 1, 0) : acknowledged + 1]
                    assert state(stands(after.files)[0]) in allowed, (moment, fill, keep)
    rows.heading("after a stop in the last of them the store goes on")
    for moment in range(MADE + 3 * APPENDED, MADE + 4 * APPENDED + 1):
        for fill in (0x00, 0xFF):
            rows.fresh()
            rows.make("regtest", 100, commands)
            rows.restart(moment, fill, ALL)
            goes_on(rows)


def goes_on(rows):
    """A block is connected, it and the one below it are taken back, and another one is
    connected."""
    hashes = [NO_BLOCK, *stands(rows.site.files)[0].hashes()]
    on_newest, on_one_below = (block_on(hashes[-depth], 10 * depth)[0] for depth in (1, 2))
    rows.open([payload_of(on_newest), DISCONNECT, DISCONNECT, payload_of(on_one_below)])
    rows.file("A", 26)
    rows.open()


# ---- the turn of the files


FILLS = 0x00, 0x07, 0xFF


def each_call(rows, command, calls, gate=None):
    """Each call of an opening and of a command of so many calls fails, and the store is opened
    again. The command counts from the call that writes its gate, and that is synced by the next
    one: the last two, where it isn't said."""
    rows.settle()
    looks = looks_at(rows.site.files)
    gate = looks + (calls - 2 if gate is None else gate)
    before = len(stands(rows.site.files)[0].hashes())
    for call in range(looks + calls + 1):
        rows.restart(0, 0, ALL)
        rows.fail(call)
        rows.open([command])
        assert (rows.stdout[-1] == "a call failed") == (call < looks + calls)
        for fill in (0x00, 0x07):
            rows.reopen(len(rows.site.steps), fill, ALL)
            blocks = int(rows.stdout[-1].split()[0])
            assert abs(blocks - before) == (call >= gate + (0 if fill else 2))
        if call < looks + calls:
            rows.open()
            blocks = int(rows.stdout[-1].split()[0])
            # what a write that failed was to put isn't read, and what wasn't synced is
            assert abs(blocks - before) == (call > gate)
    rows.restart(0, 0, ALL)


def each_moment(rows, command, calls, gate=None):
    """A stop at each moment of a command of so many calls, from its opening on. The command counts
    by the gate that `each_call` tells of."""
    rows.settle()
    # an opening has two moments
    gate = 2 + (calls - 2 if gate is None else gate)
    before = len(stands(rows.site.files)[0].hashes())
    rows.open([command])
    after = len(stands(rows.site.files)[0].hashes())
    rows.now()
    assert rows.stdout[-1] == f"moment {2 + calls}"
    for moment in range(2 + calls + 1):
        for fill in FILLS:
            for keep in (0, ALL):
                rows.reopen(moment, fill, keep)
                blocks = int(rows.stdout[-1].split()[0])
                assert blocks in (before, after)
                assert moment < gate + 2 or blocks == after
                assert moment > gate or blocks == before


def turns(rows):
    rows.heading("the 65th command puts a whole file in place of one with 64 records")
    commands, _ = marks(1, 131)
    rows.make("regtest", 100, commands[:64])
    rows.file("A")
    assert rows.site.files["B"] == CLOSED
    each_call(rows, commands[64], TURNED)
    variants(rows, commands)
    each_moment(rows, commands[64], TURNED)
    rows.file("B")
    rows.open(commands[65:129])
    assert len(store_files.records(rows.site.files["B"], body_end(rows, "B"))[0]) == 64
    rows.file("B", body_end(rows, "B"))
    each_call(rows, commands[129], TURNED + 2)
    each_moment(rows, commands[129], TURNED + 2)
    rows.file("A")
    rows.open([commands[130], DISCONNECT, DISCONNECT])
    rows.file("A", body_end(rows, "A"))
    rows.open()


def variants(rows, commands):
    """What else may come as the 65th command: each begins with the files of 64 records."""
    rows.open([DISCONNECT])
    assert rows.stdout[-1].startswith("63 blocks, 63 of 100 kept")
    rows.file("B")
    rows.open([DISCONNECT])
    # refused, it turns nothing
    rows.restart(0, 0, ALL)
    rows.open([commands[65]])
    assert rows.stdout[-2].startswith("refused 5 ") and rows.site.files["B"] == CLOSED
    for depth in (1, 2):
        rows.restart(0, 0, ALL)
        rows.overwrite("A", 8, store_files.number(depth, 2))
        rows.open(commands[64:67])
        rows.file("B")
        rows.open((depth + 1) * [DISCONNECT])
        assert rows.stdout[-2] == "refused 11"
    rows.restart(0, 0, ALL)


def body_end(rows, file):
    """The place of the gate behind a file's body."""
    return 26 + store_files.number_in(rows.site.files[file], 18, 8)


def greatest(rows):
    rows.heading("a file of the greatest generation has more than 64 records")
    commands, _ = marks(1, 131)
    rows.make("regtest", 100, commands[:64])
    rows.settle()
    rows.overwrite("A", 10, 8 * b"\xff")
    rows.open(commands[64:66])
    assert len(store_files.records(rows.site.files["A"], 54)[0]) == 66
    assert rows.site.files["B"] == CLOSED
    rows.open([DISCONNECT])
    rows.heading("the greatest generation is made, and then no file turns")
    rows.make("regtest", 100, commands[:64])
    rows.overwrite("A", 10, b"\xfe" + 7 * b"\xff")
    rows.open(commands[64:])
    assert len(store_files.records(rows.site.files["B"], body_end(rows, "B"))[0]) == 66
    rows.file("B", body_end(rows, "B"))
    rows.open()


def shorter(rows):
    rows.heading("a whole file is put over a longer one, and records over what that leaves")
    long, short = (
        payload_of(block_on(NO_BLOCK, mark, target=size * bytes([0x51]))[0])
        for mark, size in ((1, 300), (2, 1))
    )
    commands = [long, *32 * [DISCONNECT, long], *65 * [DISCONNECT, short]]
    rows.make("regtest", 1, commands[:194])
    sizes = [len(rows.site.files[file]) for file in "AB"]
    each_call(rows, commands[194], TURNED + 2)
    each_moment(rows, commands[194], TURNED + 2)
    rows.file("B")
    assert sizes == [len(rows.site.files[file]) for file in "AB"]
    rows.open(commands[193:194])
    rows.file("B")
    rows.open(2 * [DISCONNECT])


def large(rows):
    rows.heading("a whole file of more than two million bytes is put and read back")
    first, tip = block_on(NO_BLOCK, 1, target=2_000_000 * bytes([0x51]))
    rows.make("regtest", 1, [payload_of(first), *marks(2, 64, tip)[0]])
    assert len(rows.site.files["B"]) > 2_000_000
    rows.open([DISCONNECT])
    rows.open()
    assert rows.stdout[-1].startswith("64 blocks, 0 of 1 kept")


def with_inscriptions(rows):
    rows.heading("made blocks over a turn: inscriptions, runes and what is held of them")
    commands = made_blocks.drill_commands(12)
    commands += 17 * [DISCONNECT, commands[-1]]
    rows.make("regtest", 100, commands[:64])
    each_moment(rows, commands[64], TURNED)
    rows.file("B")
    rows.open(commands[65:66])
    rows.open(13 * [DISCONNECT])
    assert rows.stdout[-2] == "refused 11"


# ---- longer chains


def many(rows):
    rows.heading("a hundred blocks and the greatest are opened again")
    rows.make()
    payloads, tip = marks(0, 100)
    for payload in payloads:
        rows.open([payload])
    # the greatest by a coinbase's script, and by an output's; and one byte more
    block, tip = block_on(tip, 100, source=MOST - 146)
    assert len(block) == MOST
    rows.open([payload_of(block)])
    block, _ = block_on(tip, 101, target=bytes([0x51]) * (MOST - 146))
    assert len(block) == MOST
    rows.open([payload_of(block_on(tip, 101, source=MOST - 145)[0]), payload_of(block)])
    rows.open()
    assert rows.stdout[-1].startswith("102 blocks, 100 of 100 kept")
    rows.open(3 * [DISCONNECT])
    rows.locate(0, 99 * SUBSIDY)


def displaces(rows):
    rows.heading("a disconnect brings displaced satoshis back")
    first, tip = block_on(NO_BLOCK, 7)
    second, tip = block_on(tip, 7)
    third, _ = block_on(tip, 7, SUBSIDY - 3)
    rows.make()
    rows.open([payload_of(first)])
    rows.open([payload_of(second)])
    assert f"{SUBSIDY} lost" in rows.stdout[-1]
    rows.locate(0, SUBSIDY, 2 * SUBSIDY)
    rows.open([payload_of(third)])
    rows.locate(0, SUBSIDY, 3 * SUBSIDY - 4, 3 * SUBSIDY - 3, 3 * SUBSIDY - 1, 3 * SUBSIDY)
    rows.open([DISCONNECT])
    rows.open([DISCONNECT])
    assert " 0 lost" in rows.stdout[-1]
    rows.locate(0, SUBSIDY - 1, SUBSIDY)


def replaces(rows):
    rows.heading("blocks that were replaced leave nothing behind")
    places = [height * SUBSIDY for height in range(5)]
    new, _ = marks(10, 4)
    rows.make()
    for payload in marks(1, 3)[0] + 3 * [DISCONNECT] + new:
        rows.open([payload])
    rows.open()
    rows.locate(*places)
    replaced = rows.stdout[-6:]
    rows.heading("the same chain from none on")
    rows.make()
    for payload in new:
        rows.open([payload])
    rows.open()
    rows.locate(*places)
    assert rows.stdout[-6:] == replaced


def keeps(rows):
    rows.heading("no more blocks are taken back than are kept")
    rows.make("regtest", 2)
    rows.open(marks(1, 3)[0] + 3 * [DISCONNECT])
    rows.open([DISCONNECT])
    rows.heading("a lab chain ends at its greatest height")
    rows.make("lab", 1000)
    payloads, tip = [], NO_BLOCK
    for height in range(42):
        block, tip = block_on(tip, height, SUBSIDY >> height // 10)
        payloads.append(payload_of(block))
    rows.open(payloads)
    assert rows.stdout[-2] == "refused 4 41"
    rows.open()


def drills(rows):
    rows.heading("a drill of twelve blocks, and a stop at each moment of its last three commands")
    commands = made_blocks.drill_commands(12)
    rows.make("regtest", 100, commands)
    assert rows.stdout[-1].startswith("12 blocks, 12 of 100 kept, 12 changes, 12 lost, 32 commands")
    rows.now()
    # the making has 8 moments, and each command 4
    first, last = 8 + 4 * (len(commands) - 3), 8 + 4 * len(commands)
    assert rows.stdout[-1] == f"moment {last}"
    for moment in range(first, last + 1):
        for fill in (0x00, 0xFF):
            for keep in (0, ALL):
                rows.reopen(moment, fill, keep)
                done, begun = (moment - 8) // 4, (moment - 8 + 3) // 4
                blocks = int(rows.stdout[-1].split()[0])
                assert done - 20 <= blocks <= begun - 20, (moment, fill, keep)
    rows.heading("each call of a drill of two blocks fails, and a stop afterwards")
    commands = made_blocks.drill_commands(2)
    # 10 calls of the making, and 4 of each command
    for call in range(10 + 4 * len(commands) + 1):
        rows.fresh()
        rows.fail(call)
        rows.make("regtest", 100, commands)
        assert (rows.stdout[-1] == "a call failed") == (call < 10 + 4 * len(commands))
        for fill in (0x00, 0xFF):
            rows.reopen(len(rows.site.steps), fill, ALL)


def keep_what_is_kept(rows):
    rows.heading("an opening keeps how many blocks may be taken back")
    payloads, _ = marks(1, 3)
    rows.make("regtest", 2)
    rows.open(payloads + [DISCONNECT])
    rows.open(2 * [DISCONNECT])
    first, second = (twice(payload[1:81]).hex() for payload in payloads[:2])
    assert rows.stdout[-4].startswith("2 blocks, 1 of 2 kept") and rows.stdout[-4].endswith(
        f"tip 1 {second}"
    )
    assert rows.stdout[-3].endswith(f"tip 0 {first}") and rows.stdout[-2] == "refused 11"


def stop_in_a_second_gate(rows):
    rows.heading("a stop in a second block's gate leaves one block or two")
    payloads, _ = marks(1, 2)
    rows.make("regtest", 100, payloads)
    # the making has 8 moments, and each block 4: a write, a sync, the gate's write and its sync
    for moment, fill, blocks in ((14, 0x07, 1), (15, 0x00, 1), (15, 0x07, 2)):
        rows.reopen(moment, fill, ALL)
        assert rows.stdout[-1].startswith(f"{blocks} blocks")


def spoil_a_first_byte(rows):
    rows.heading("a store whose first byte is 00 is none, nor is one without the other file")
    rows.make()
    rows.overwrite("A", 0, b"\0")
    rows.open()
    assert rows.stdout[-1] == "not a store: A at 0"
    rows.fresh()
    rows.overwrite("A", 0, EMPTY)
    rows.open()
    assert rows.stdout[-1] == "not a store: B at 0"


# ---- old stores


def old(commands, **how):
    return old_files.old_file_of(commands, **how)


def migrates(rows):
    rows.heading("a store of version 1 with a block becomes one, and no other time")
    a = old([payload_of(GENESIS)])
    assert len(a) == 318
    rows.put(a)
    not_at(rows, "A at 6")
    rows.migrate()
    assert rows.stdout[-2] == "ok 1" and rows.site.files["A"] == a
    rows.file("B")
    rows.migrate()
    assert rows.stdout[-1] == "not a store: B at 6"
    rows.open()
    assert rows.stdout[-1].startswith("1 blocks, 1 of 100 kept")
    rows.open(2 * [DISCONNECT])
    assert rows.stdout[-2] == "refused 11"
    for profile in ("mainnet", "lab"):
        rows.put(old([], profile=profile, depth=7, generation=4))
        rows.migrate()
        rows.file("B")
    rows.heading("one below the greatest generation is the last that another file can follow")
    last = old([], generation=GREATEST - 1)
    rows.put(last[:18] + store_files.number(2, 8) + last[26:])
    rows.migrate()
    assert rows.stdout[-1] == "not a store: A at 26"
    rows.overwrite("A", 18, b"\0")
    rows.migrate()
    assert rows.stdout[-2] == "ok 0" and rows.site.files["B"][10:18] == 8 * b"\xff"
    rows.file("B")
    rows.heading("files in the other order, over a longer one")
    rows.put(old([], generation=1) + 600 * b"\xff", old([payload_of(GENESIS)], generation=2))
    rows.migrate()
    rows.file("A")
    rows.open([DISCONNECT])
    rows.heading("a hundred connects and sixty disconnects at depth 50")
    payloads, _ = marks(1, 100)
    chain, rest = payloads[:60], 40 * [DISCONNECT, payloads[59]] + 20 * [DISCONNECT]
    rows.put(old([*chain, *rest], depth=50))
    rows.migrate()
    assert rows.stdout[-2] == "ok 160" and rows.stdout[-1].startswith("40 blocks, 30 of 50 kept")
    rows.open(31 * [DISCONNECT])
    assert rows.stdout[-2] == "refused 11" and rows.stdout[-1].startswith("10 blocks")


def refused_commands():
    """Blocks that the rules refuse behind Bitcoin's first, and the line where the plain index
    doesn't know it."""
    tip = bytes.fromhex(GENESIS_HASH)
    good, _ = block_on(tip, 1)
    yield block_on(NO_BLOCK, 1)[0], None
    yield block_on(tip, 1, SUBSIDY + 1)[0], None
    yield good[:36] + bytes(32) + good[68:], None
    yield b"", None
    yield good[:85], "refused 3 85"


def old_commands(rows):
    rows.heading("commands of an old store that the rules refuse are told by their number")
    first = payload_of(GENESIS)
    rows.put(old([DISCONNECT]))
    rows.migrate()
    assert rows.stdout[-1] == "old 0 refused 11"
    for block, line in refused_commands():
        command = payload_of(block)
        a = old([first, command, DISCONNECT])
        rows.put(a)
        rows.migrate({command: line} if line else {})
        assert rows.stdout[-1].startswith("old 1 refused ")
        assert rows.site.files == {"A": a, "B": CLOSED}
    rows.heading("the first record that fails decides, whatever it is")
    refused, wrong = payload_of(b""), b"\2"
    for commands, cut, line in (
        ([first, refused, wrong], 0, "old 1 refused 3 0"),
        ([first, wrong, refused], 0, "not a store: A at 317"),
        ([first, DISCONNECT, DISCONNECT, wrong], 0, "old 2 refused 11"),
        # a later gate is missing, or a record is cut
        ([first, refused, first], 1, "old 1 refused 3 0"),
        ([first, refused, first], 2, "old 1 refused 3 0"),
        ([first, first], 1, None),
        ([first], 1, "not a store: A at 317"),
        ([first], 2, "not a store: A at 26"),
        ([first, DISCONNECT + b"\0"], 0, "not a store: A at 317"),
    ):
        a = old(commands)
        rows.put(a[: len(a) - cut])
        rows.migrate()
        assert line is None or rows.stdout[-1] == line


def not_old(rows):
    rows.heading("the tests of an old store come in their order")
    a, newest = old([payload_of(GENESIS)]), GREATEST
    body = lambda file, size: file[:18] + store_files.number(size, 8) + file[26:]
    spoilt = old([b"\2"])
    last = old([b"\2"], generation=newest)
    for files, place in (
        ((CLOSED, CLOSED), "A at 0"),
        ((CLOSED, b""), "A at 0"),
        ((a, b""), "B at 0"),
        ((a[:1] + b"p" + a[2:], b""), "B at 0"),
        ((a[:25], CLOSED), "A at 1"),
        ((a[:1] + b"p" + a[2:], a[:1] + b"p" + a[2:]), "A at 1"),
        ((a, a[:1] + b"p" + a[2:]), "B at 1"),
        ((a, a), "B at 10"),
        ((last, last), "B at 10"),
        ((EMPTY, EMPTY), "B at 10"),
        ((EMPTY, CLOSED), "A at 6"),
        ((EMPTY[:10] + 8 * b"\xff" + EMPTY[18:], CLOSED), "A at 6"),
        ((old([], generation=newest), CLOSED), "A at 10"),
        ((body(last, 3), CLOSED), "A at 10"),
        ((old([], generation=3), old([], generation=newest)), "B at 10"),
        ((body(a, 1), CLOSED), "A at 26"),
        ((body(a, len(a)), CLOSED), "A at 26"),
        ((body(spoilt, 1), CLOSED), "A at 26"),
        ((spoilt, CLOSED), "A at 26"),
        ((a[:26], CLOSED), "A at 26"),
        ((a[:-1], CLOSED), "A at 317"),
    ):
        rows.fresh()
        for file, data in zip("AB", files):
            if data:
                rows.overwrite(file, 0, data)
        rows.migrate()
        assert rows.stdout[-1] == f"not a store: {place}", (rows.stdout[-1], place)


def put_synced(rows, a, b):
    """Two files of version 1, all on the disk: no opening takes them, but it syncs them."""
    rows.put(a, b)
    not_at(rows, "A at 6")
    rows.settle()


def migrating(rows, b, turned):
    """Each call of a migration fails, and a stop at each moment of it, over a file B and a file A
    of a greater generation."""
    a = old([payload_of(GENESIS), DISCONNECT, payload_of(GENESIS)], generation=9)
    for call in range(LOOKS + turned + 1):
        put_synced(rows, a, b)
        rows.fail(call)
        rows.migrate()
        assert (rows.stdout[-1] == "a call failed") == (call < LOOKS + turned)
        rows.reopen(len(rows.site.steps), 0x07, ALL)
    for moment in range(2 + turned + 1):
        for fill in FILLS:
            for keep in (0, ALL):
                put_synced(rows, a, b)
                rows.migrate()
                rows.restart(moment, fill, keep)
                rows.migrate()
                assert rows.stdout[-1].startswith("1 blocks") or rows.stdout[-1].endswith("B at 6")
                rows.open()
                assert rows.stdout[-1].startswith("1 blocks, 1 of 100 kept")


def migrations(rows):
    rows.heading("each call of a migration fails, and a stop at each moment, beside a closed file")
    migrating(rows, CLOSED, TURNED)
    rows.heading("the same beside an open one")
    migrating(rows, old([], generation=8), TURNED + 2)


def stores():
    """The rows, and what has to be printed for them."""
    rows = Stores()
    for part in (
        makes,
        commits,
        refuses,
        no_store,
        faults,
        fails,
        stops,
        prefixes,
        many,
        displaces,
        replaces,
        keeps,
    ):
        part(rows)
    for part in (drills, keep_what_is_kept, stop_in_a_second_gate, spoil_a_first_byte):
        part(rows)
    for part in (turns, greatest, shorter, large, with_inscriptions):
        part(rows)
    for part in (migrates, old_commands, not_old, migrations):
        part(rows)
    return rows
