#!/usr/bin/env python3
"""The two files of a store, which bytes each command writes into them, and what they stand for, by
docs/FORMATS.md, 'Files with gates' and 'Rows': over the plain index of plain_index, and nothing of
the library. `files_of` has the files of a store that heard these commands.

    python3 checks/store_files.py

looks whether it writes the bytes of stores that are told here by hand.
"""

import functools
from collections.abc import Callable
from hashlib import sha256
from typing import NamedTuple

import plain_index
from chain import DISCONNECT, GENESIS, chain, payload_of
from plain_index import Refused, after_block
from row_ends import change_between, is_sound, other_end
from row_forms import SPELLED, Change, Fault, Index, Reader, row_by_row

from tools.words import no_words

BYTES = {"mainnet": 0, "regtest": 1, "lab": 2}
# what a store is made in, and the one with sums
VERSION, SUMMED = 2, 3
PRESENT = VERSION, SUMMED
# where a body of version 1 or 2 begins
BODY_AT = 26
# how many records a file has when the other one takes its place: at version 2 at the least, at
# version 3 a multiple of that
MOST_RECORDS = 64
# where the body of a file of version 3 begins
SUMMED_BODY_AT = 90
# a body is written in pieces: what is spelled of it goes once it has so many bytes, and the rest at
# its end
PIECE = 1 << 20
GREATEST = (1 << 64) - 1
CLOSED, OPEN = b"\0", b"\1"
OTHER = {"A": "B", "B": "A"}


def number(value, size):
    return value.to_bytes(size, "little")


def number_in(data, at, size):
    return int.from_bytes(data[at : at + size], "little")


def sum_of(*parts):
    return sha256(b"".join(parts)).digest()


# ---- what differs from version to version


class Layout(NamedTuple):
    """The letters, where the body begins, how many bytes tell a payload's length, and what stands
    before a body, by the front before that and by the body; and before a payload, by generation,
    place, length and payload."""

    letters: bytes
    body_at: int
    size: int
    sums: Callable[[bytes, bytes], bytes]
    record_sum: Callable[..., bytes]

    @property
    def before_payload(self):
        """How many bytes stand before a payload, from its gate on."""
        return 1 + self.size + len(self.record_sum())


def sums(front, body):
    """That of the body, and that of the front with it."""
    return sum_of(body) + sum_of(front, sum_of(body))


def nothing(*_):
    return b""


PLAIN = Layout(b"oxidx", BODY_AT, 4, nothing, nothing)
LAYOUTS = {1: PLAIN, 2: PLAIN, SUMMED: Layout(b"oxid3", SUMMED_BODY_AT, 8, sums, sum_of)}


def layout_in(data):
    """By the version that a file tells."""
    return LAYOUTS[data[6]]


def body_of_file(data):
    """Where a file's body begins and ends."""
    begun = layout_in(data).body_at
    return begun, begun + number_in(data, 18, 8)


def record_at(version, generation, place, payload):
    """A record but for its gate, which stands at this place: its length, its sum and the payload,
    and a closed gate behind it."""
    layout = LAYOUTS[version]
    size = number(len(payload), layout.size)
    told = layout.record_sum(number(generation, 8), number(place, 8), size, payload)
    return size + told + payload + CLOSED


# ---- what files stand for


class Kept(NamedTuple):
    """A block that can be taken back: what it changed, and the index before it."""

    change: Change
    before: Index


class Stack:
    """An index, and its kept blocks, the newest first. It doesn't change."""

    def __init__(self, profile, depth, index, kept=()):
        self.profile, self.depth, self.index, self.kept = profile, depth, index, list(kept)

    def hashes(self):
        return self.index.hashes

    def tip(self):
        return self.index.hashes[-1] if self.index.hashes else plain_index.NO_BLOCK

    def on(self, change, index):
        """With this newest block."""
        kept = [Kept(change, self.index), *self.kept]
        return Stack(self.profile, self.depth, index, kept[: self.depth])

    def back(self):
        """Without the newest block."""
        return Stack(self.profile, self.depth, self.kept[0].before, self.kept[1:])

    def obey(self, command):
        """The stack after a command, and the payload of its record."""
        if command == DISCONNECT:
            if not self.kept:
                raise Refused("refused 11")
            return self.back(), DISCONNECT
        index = after_block(self.profile, self.index, command[1:])
        change = change_between(self.index, index)
        return self.on(change, index), payload_on(change)

    def changes(self):
        return [kept.change for kept in self.kept]

    def body(self):
        return body_of(self.index, self.changes())

    def pieces(self):
        """The body as a file of version 3 gets it, piece by piece."""
        return pieces_of(row_by_row(self.index, self.changes()))


def body_of(index, changes):
    """The body of a file with this index and these kept changes."""
    spelled = b"".join(map(SPELLED["change"], changes))
    return SPELLED["index"](index) + number(len(changes), 4) + spelled


def pieces_of(rows):
    """Rows in pieces: each ends with the row by which it has so many bytes, and the last one, which
    may have none, where the rows do."""
    piece = b""
    for row in rows:
        piece += row
        if len(piece) >= PIECE:
            yield piece
            piece = b""
    yield piece


def empty(profile="regtest", depth=100):
    return Stack(profile, depth, plain_index.empty(profile))


def payload_on(change):
    """What the record of a connect holds."""
    return b"\1" + SPELLED["change"](change)


@functools.cache
def with_payload(stack, payload):
    """The stack with one record more, or none where the record doesn't fit it."""
    if payload == DISCONNECT:
        return stack.back() if stack.kept else None
    reader = Reader(payload[1:])
    try:
        change = reader.change()
    except Fault:
        return None
    if payload[:1] != b"\1" or reader.at != len(payload) - 1:
        return None
    index = other_end(stack.index, change, False)
    is_next = index is not None and is_sound(stack.profile, index)
    return stack.on(change, index) if is_next else None


@functools.cache
def read_body(profile, depth, body):
    """The stack that a body spells, or none."""
    reader = Reader(body)
    try:
        index = reader.index()
        changes = reader.listed(reader.change)
    except Fault:
        return None
    if reader.at != len(body) or len(changes) > depth or not is_sound(profile, index):
        return None
    kept, newer = [], index
    for change in changes:
        before = other_end(newer, change, True)
        if before is None or not is_sound(profile, before):
            return None
        kept.append(Kept(change, before))
        newer = before
    return Stack(profile, depth, index, kept)


class NoStore(Exception):
    """The file and the place."""


def is_lawful(data):
    """Whether the head of a file keeps to the form."""
    depth, generation = number_in(data, 8, 2), number_in(data, 10, 8)
    if len(data) < BODY_AT or data[6] not in LAYOUTS:
        return False
    layout = layout_in(data)
    return (
        len(data) >= layout.body_at
        and data[1:6] == layout.letters
        and data[7] in BYTES.values()
        and 1 <= depth <= 1000
        and generation != 0
        and (layout is PLAIN or data[58:90] == sum_of(data[1:58]))
    )


def is_as_summed(data, body):
    """Whether a body is as the sum in its file's head says."""
    return layout_in(data) is PLAIN or data[BODY_AT:58] == sum_of(body)


def is_shut(data):
    return data[:1] in (b"", CLOSED)


def current(files):
    """Which of two files is current."""
    closed = [file for file in "AB" if is_shut(files[file])]
    if len(closed) == 2:
        raise NoStore("A at 0")
    for file in closed:
        if not files[file]:
            raise NoStore(f"{file} at 0")
    still_open = [file for file in "AB" if file not in closed]
    for file in still_open:
        if not is_lawful(bytes(files[file])):
            raise NoStore(f"{file} at 1")
    generations = [number_in(files[file], 10, 8) for file in still_open]
    if len(generations) == 2 and generations[0] == generations[1]:
        raise NoStore("B at 10")
    return still_open[generations.index(max(generations))]


def records(data, place):
    """The records from a place on, each with its place; the place of the gate behind them; and
    whether it is there and closed, or else is missing or has a record that is cut or not as its sum
    says."""
    data, layout, found = bytes(data), layout_in(data), []
    while place < len(data) and data[place]:
        begun = place + layout.before_payload
        end = begun + number_in(data, place + 1, layout.size)
        payload = data[begun:end]
        told = record_at(data[6], number_in(data, 10, 8), place, payload)
        if len(data) < end or data[place + 1 : end] != told[:-1]:
            return found, place, False
        found.append((place, payload))
        place = end
    return found, place, place < len(data)


def stands(files, reads=PRESENT, grows=False):
    """The stack that two files stand for where these versions are read, and the tail of their
    records; where they are to grow, as a store that another file can follow."""
    file = current(files)
    data = bytes(files[file])
    if data[6] not in reads:
        raise NoStore(f"{file} at 6")
    if grows and number_in(data, 10, 8) == GREATEST:
        raise NoStore(f"{file} at 10")
    begun, end = body_of_file(data)
    body = data[begun:end]
    (profile,) = [name for name, byte in BYTES.items() if byte == data[7]]
    is_whole = len(data) >= end and is_as_summed(data, body)
    stack = read_body(profile, number_in(data, 8, 2), body) if is_whole else None
    if stack is None:
        raise NoStore(f"{file} at {begun}")
    found, gate, ends = records(data, end)
    for place, payload in found:
        stack = with_payload(stack, payload)
        if stack is None:
            raise NoStore(f"{file} at {place}")
    if not ends:
        raise NoStore(f"{file} at {gate}")
    return stack, tail_of(files, file, len(found), gate)


def tail_of(files, file, count, gate):
    """The tail of a current file with so many records and this last gate."""
    data = files[file]
    is_other_shut = is_shut(files[OTHER[file]])
    _, first = body_of_file(data)
    return Tail(file, number_in(data, 10, 8), count, gate, is_other_shut, data[6], first)


# ---- what is written


def front_of(profile, depth, generation, body, version=VERSION):
    """What stands before a body, but for the gate before that."""
    layout = LAYOUTS[version]
    numbers = number(depth, 2) + number(generation, 8) + number(len(body), 8)
    front = layout.letters + bytes([version, BYTES[profile]]) + numbers
    return front + layout.sums(front, body)


def file_of(profile, depth, body, payloads=(), generation=1, version=VERSION):
    """An open file of this body, with records of these payloads behind it."""
    whole = OPEN + front_of(profile, depth, generation, body, version) + body
    for payload in payloads:
        whole += OPEN + record_at(version, generation, len(whole), payload)[:-1]
    return whole + CLOSED


class Tail(NamedTuple):
    """Where the next record comes: the current file, its generation, how many records it has, and
    the place of its last gate; whether the other file is closed; the version; and the place of the
    first record's gate."""

    file: str
    generation: int
    records: int
    gate: int
    is_other_shut: bool
    version: int
    first: int

    def must_turn(self):
        """Whether the next record has to come into the other file, at version 2."""
        is_full = self.records >= MOST_RECORDS and self.generation != GREATEST
        return is_full and self.version == VERSION

    def is_turn_due(self):
        """Whether behind its newest record the other file takes its place, at version 3."""
        is_full = self.records and self.records % MOST_RECORDS == 0
        is_long = 2 * (self.gate - self.first) >= self.first - SUMMED_BODY_AT
        return is_full and is_long and self.generation != GREATEST and self.version == SUMMED


def fill(disk, file, stack, generation):
    """Writes a file but for its gate, and answers the place of its last one."""
    body = stack.body()
    front = OPEN + front_of(stack.profile, stack.depth, generation, body)
    disk.write(file, 1, front[1:])
    disk.write(file, len(front), body + CLOSED)
    disk.sync(file)
    return len(front) + len(body)


def fill_summed(disk, file, stack, generation):
    """The same of version 3: zeros where the head and the sums come, the body piece by piece, the
    last gate and then the head."""
    disk.write(file, 1, bytes(SUMMED_BODY_AT - 1))
    gate = SUMMED_BODY_AT
    for piece in stack.pieces():
        disk.write(file, gate, piece)
        gate += len(piece)
    disk.write(file, gate, CLOSED)
    disk.write(file, 1, front_of(stack.profile, stack.depth, generation, stack.body(), SUMMED))
    disk.sync(file)
    return gate


def set_gate(disk, file, gate, at=0):
    disk.write(file, at, gate)
    disk.sync(file)


class Store:
    """A store on a disk that writes and syncs: see `Disk`."""

    def __init__(self, disk, stack, tail):
        self.disk, self.stack, self.tail = disk, stack, tail

    def carry_out(self, command):
        """Carries out a command that is accepted."""
        self.commit(*self.stack.obey(command))

    def commit(self, stack, payload):
        """Writes a command, of which this stack comes and whose record has this payload."""
        if self.tail.must_turn():
            self.turn_to(stack)
        else:
            self.append(payload)
            if self.tail.is_turn_due():
                self.turn_summed(stack)
        self.stack = stack

    def append(self, payload):
        file, generation, gate = self.tail.file, self.tail.generation, self.tail.gate
        record = record_at(self.tail.version, generation, gate, payload)
        self.disk.write(file, gate + 1, record)
        self.disk.sync(file)
        set_gate(self.disk, file, OPEN, gate)
        self.tail = self.tail._replace(records=self.tail.records + 1, gate=gate + len(record))

    def turn_to(self, stack, generation=None):
        """Puts a whole file of version 2 in place of the current one, of this generation or the
        next one."""
        file, generation = self.shut_other(), generation or self.tail.generation + 1
        gate = fill(self.disk, file, stack, generation)
        self.open_other(Tail(file, generation, 0, gate, False, VERSION, gate))

    def turn_summed(self, stack):
        """The same of version 3, whose body is written piece by piece."""
        file, generation = self.shut_other(), self.tail.generation + 1
        gate = fill_summed(self.disk, file, stack, generation)
        self.open_other(Tail(file, generation, 0, gate, False, SUMMED, gate))

    def shut_other(self):
        """The other file, which is shut from then on."""
        file = OTHER[self.tail.file]
        if not self.tail.is_other_shut:
            set_gate(self.disk, file, CLOSED)
        return file

    def open_other(self, tail):
        """Opens the other file, in which this tail is, and is current."""
        set_gate(self.disk, tail.file, OPEN)
        self.tail = tail

    def grow(self):
        """Becomes one of version 3, and shuts the file of version 2."""
        self.turn_summed(self.stack)
        self.shut_other()
        self.tail = self.tail._replace(is_other_shut=True)


def make(disk, profile="regtest", depth=100):
    """Makes two empty files a store."""
    stack = empty(profile, depth)
    set_gate(disk, "B", CLOSED)
    disk.write("A", 0, CLOSED)
    gate = fill(disk, "A", stack, 1)
    set_gate(disk, "A", OPEN)
    return Store(disk, stack, Tail("A", 1, 0, gate, True, VERSION, gate))


def grown(disk):
    """Makes a disk's store of version 2 one of version 3; answers it."""
    store = Store(disk, *stands(disk.files, (VERSION,), grows=True))
    store.grow()
    return store


class Disk:
    """Two files, of which each call succeeds."""

    def __init__(self):
        self.files = {"A": bytearray(), "B": bytearray()}

    def write(self, file, at, data):
        self.files[file][at : at + len(data)] = data

    def sync(self, file):
        pass


def store_of(commands, profile="regtest", depth=100):
    """A store that heard these commands."""
    store = make(Disk(), profile, depth)
    for command in commands:
        store.carry_out(command)
    return store


def summed_store_of(commands, profile="regtest", depth=100, generation=1):
    """The same of version 3, whose body has no block."""
    body = empty(profile, depth).body()
    disk = Disk()
    disk.write("A", 0, file_of(profile, depth, body, (), generation, SUMMED))
    disk.write("B", 0, CLOSED)
    store = Store(disk, *stands(disk.files))
    for command in commands:
        store.carry_out(command)
    return store


def bytes_in(store):
    """The bytes of its two files."""
    return tuple(bytes(store.disk.files[file]) for file in "AB")


def files_of(commands, profile="regtest", depth=100):
    """The files of a store that heard these commands."""
    return bytes_in(store_of(commands, profile, depth))


def files_after_each(commands, profile="regtest", depth=100):
    """The files of a store before and after each of these commands."""
    store = make(Disk(), profile, depth)
    yield bytes_in(store)
    for command in commands:
        store.carry_out(command)
        yield bytes_in(store)


def file_a(blocks):
    """File A of a regtest store of depth 100 that connected these blocks, at most 64."""
    assert len(blocks) <= MOST_RECORDS
    return files_of(map(payload_of, blocks))[0]


# ---- by hand


EMPTY = "016f786964780201640001000000000000001c00000000000000" + 29 * "00"
# of version 3, with the sums that the body of 28 bytes and the 57 bytes behind the gate have by
# `sha256sum`; the same of generation 2; and the sum of the record of a disconnect behind the first
EMPTY_SUMMED = (
    "016f786964330301640001000000000000001c00000000000000"
    "3addfb141cd7c9c4c6543a82191a3707ac29c7a041217782e61d4d91c691aee8"
    "2ab056ae49ff10f2ec6fb11efc096fc45235e9de78d41ea7055a7b8d86b8b6c4" + 29 * "00"
)
GROWN = (
    "016f786964330301640002000000000000001c00000000000000"
    "3addfb141cd7c9c4c6543a82191a3707ac29c7a041217782e61d4d91c691aee8"
    "e74bd24f6d6565c6cc2c64752f27ba376b84df82135efe7176b6479d2b366f48" + 29 * "00"
)
BACK_SUM = "55eb3594414e75ea026edc376e241ba93316168e5042460344838055e1ee8e75"


def test_summed():
    """The bytes of an empty store of version 3, and of a record behind it."""
    empty_file = bytes.fromhex(EMPTY_SUMMED)
    assert bytes_in(summed_store_of([])) == (empty_file, b"\0") and len(empty_file) == 119
    back = "010100000000000000" + BACK_SUM + "0000"
    file = file_of("regtest", 100, bytes(28), [DISCONNECT], version=SUMMED)
    assert file == empty_file[:-1] + bytes.fromhex(back)
    assert records(file, 118) == ([(118, DISCONNECT)], 160, True)
    # with another place, generation, length or payload, or a byte too few
    for place, other in (
        (117, file[:90] + file[91:]),
        (118, file[:10] + b"\2" + file[11:]),
        (118, file[:119] + b"\0" + file[120:]),
        (118, file[:159] + b"\1" + file[160:]),
        (118, file[:159]),
    ):
        assert records(other, place) == ([], place, False)


def test_turns():
    """Which records turn a store of version 3, the bytes of one that grew, and a body's pieces."""
    commands = [payload_of(block) for block in chain(66)[0]]
    a, b = bytes_in(summed_store_of(commands[:63]))
    assert (len(records(a, 118)[0]), b) == (63, CLOSED)
    a, b = bytes_in(summed_store_of(commands[:64]))
    assert (len(records(a, 118)[0]), a[0], b[0], b[10:18]) == (64, 1, 1, number(2, 8))
    stack, tail = stands({"A": a, "B": b})
    assert tail == Tail("B", 2, 0, len(b) - 1, False, SUMMED, len(b) - 1)
    # of each block a hash, an output of 65 bytes and a change, beside the counts of seven lists
    assert len(b) == 90 + 28 + 64 * (32 + 65 + 32 + 65 + 32) + 1
    assert file_of("regtest", 100, stack.body(), (), 2, SUMMED) == b
    # 64 records of half the body's bytes are due, one byte below that they aren't
    for size, is_due in ((2000, True), (2001, False)):
        due = tail._replace(records=64, first=90 + size, gate=90 + size + 1000)
        assert due.is_turn_due() == is_due and due._replace(records=128).is_turn_due() == is_due
        for count in (0, 63, 65):
            assert not due._replace(records=count).is_turn_due()
        for other in (due._replace(generation=GREATEST), due._replace(version=VERSION)):
            assert not other.is_turn_due()
    store = store_of([])
    grown(store.disk)
    assert bytes_in(store) == (CLOSED + bytes.fromhex(EMPTY)[1:], bytes.fromhex(GROWN))
    for sizes, pieces in (
        ([], [0]),
        ([PIECE - 1], [PIECE - 1]),
        ([PIECE], [PIECE, 0]),
        ([PIECE - 1, 5, 3, PIECE, 1], [PIECE + 4, PIECE + 3, 1]),
    ):
        assert [*map(len, pieces_of(map(bytes, sizes)))] == pieces
    assert b"".join(row_by_row(stack.index, stack.changes())) == stack.body()


def test():
    """The bytes of an empty store, of one with Bitcoin's first block, and of one that turned."""
    assert files_of([]) == (bytes.fromhex(EMPTY), b"\0") and len(bytes.fromhex(EMPTY)) == 55
    a, b = files_of([payload_of(GENESIS)])
    assert (len(a), a[54], a[55:59].hex(), a[59], a[255], b) == (256, 1, "c4000000", 1, 0, b"\0")
    commands = [payload_of(block) for block in chain(66)[0]]
    a, b = files_of(commands[:65])
    assert (a[0], a[10:18], b[0], b[10:18]) == (1, number(1, 8), 1, number(2, 8))
    assert (len(records(a, 54)[0]), number_in(b, BODY_AT, 4)) == (64, 65)
    stack, tail = stands({"A": a, "B": b})
    assert (len(stack.hashes()), len(stack.kept), tail.file, tail.records) == (65, 65, "B", 0)
    # the same with a stop before B's first byte becomes 01
    stack, tail = stands({"A": a, "B": CLOSED + b[1:]})
    assert (len(stack.hashes()), len(stack.kept), tail.file, tail.records) == (64, 64, "A", 64)
    a, more = files_of(commands)
    assert more == b[:-1] + OPEN + more[len(b) :] and len(records(more, len(b) - 1)[0]) == 1


if __name__ == "__main__":
    no_words(__doc__)
    test()
    test_summed()
    test_turns()
    print("passed")
