"""An index and a change, spelled as docs/FORMATS.md has their rows, and read.

Rows are named tuples. A satoshi list is a list of runs, each a first number and a count; a table is
a list of pairs, each an outpoint and what is there.
"""

from typing import NamedTuple

MOST_SATS = 21_000_000 * 10**8
ID = 32


class Fault(Exception):
    """The place of the first byte of the first field that doesn't fit."""


class Output(NamedTuple):
    script: bytes
    height: int
    sats: list


class Inscription(NamedTuple):
    id: tuple
    height: int
    content_type: bytes | None = None
    body: bytes | None = None
    metadata: bytes | None = None
    metaprotocol: bytes | None = None
    encoding: bytes | None = None
    delegate: tuple | None = None
    pointer: bytes | None = None
    parents: list = []
    marks: int = 0
    sat: int | None = None


class Terms(NamedTuple):
    amount: int | None = None
    cap: int | None = None
    height_start: int | None = None
    height_end: int | None = None
    offset_start: int | None = None
    offset_end: int | None = None


class Rune(NamedTuple):
    id: tuple
    name: int
    spacers: int = 0
    divisibility: int = 0
    symbol: int | None = None
    premine: int = 0
    terms: Terms | None = None
    mints: int = 0
    burned: int = 0
    etching: bytes = bytes(ID)


class Count(NamedTuple):
    """What is counted of the rune at a place, before a change and after it."""

    place: int
    mints_before: int
    mints_after: int
    burned_before: int
    burned_after: int


class Index(NamedTuple):
    hashes: list = []
    outputs: list = []
    lost: list = []
    inscriptions: list = []
    balances: list = []
    runes: list = []


class Change(NamedTuple):
    hash: bytes = bytes(ID)
    gone: list = []
    came: list = []
    lost: list = []
    inscriptions: list = []
    before: list = []
    after: list = []
    counts: list = []
    appended: list = []


def other_value(row):
    """A row that differs in one value."""
    match row:
        case (at, Output() as there):
            return at, there._replace(height=there.height + 1)
        case (at, [(rune, amount), *rest]) if isinstance(at, tuple):
            return at, [(rune, amount + 1), *rest]
        case Inscription():
            return row._replace(marks=row.marks + 1)
        case Rune():
            return row._replace(spacers=row.spacers + 1)
        case Count():
            return row._replace(burned_before=row.burned_before + 1)
    return row[0], row[1] + 1


# ---- spelled


def number(width):
    return lambda value: value.to_bytes(width, "little")


def text(data):
    return number(4)(len(data)) + data


def listed(item):
    return lambda items: number(4)(len(items)) + b"".join(map(item, items))


def optional(item):
    return lambda value: b"\0" if value is None else b"\1" + item(value)


def pair(first, second):
    return lambda both: first(both[0]) + second(both[1])


def fields(*writers):
    return lambda row: b"".join(write(value) for write, value in zip(writers, row, strict=True))


outpoint = inscription_id = pair(bytes, number(4))
rune_id = pair(number(8), number(4))
run = pair(number(8), number(8))
sats = listed(run)
output = fields(text, number(4), sats)
inscription = fields(
    inscription_id,
    number(4),
    *5 * [optional(text)],
    optional(inscription_id),
    optional(text),
    listed(inscription_id),
    number(2),
    optional(number(8)),
)
terms = fields(*2 * [optional(number(16))], *4 * [optional(number(8))])
rune = fields(
    rune_id,
    number(16),
    number(4),
    number(1),
    optional(number(4)),
    number(16),
    optional(terms),
    number(16),
    number(16),
    bytes,
)
count = fields(number(4), *4 * [number(16)])
output_row = pair(outpoint, output)
outputs = listed(output_row)
balances_row = pair(outpoint, listed(pair(rune_id, number(16))))
balances = listed(balances_row)

SPELLED = {
    "index": fields(listed(bytes), outputs, sats, listed(inscription), balances, listed(rune)),
    "change": fields(
        bytes,
        outputs,
        outputs,
        sats,
        listed(inscription),
        balances,
        balances,
        listed(count),
        listed(rune),
    ),
}


def counted(item, items):
    """A list, its count and each of its items by itself."""
    yield number(4)(len(items))
    yield from map(item, items)


def row_by_row(index, changes):
    """The rows of an index and of the list of these changes, one by one, and the count of each list
    before those of it."""
    yield from counted(bytes, index.hashes)
    yield from counted(output_row, index.outputs)
    yield from counted(run, index.lost)
    yield from counted(inscription, index.inscriptions)
    yield from counted(balances_row, index.balances)
    yield from counted(rune, index.runes)
    yield from counted(SPELLED["change"], changes)


# ---- read


class Reader:
    """Takes fields from the left. Where one doesn't fit, its place is told."""

    def __init__(self, data):
        self.data, self.at = data, 0

    def take(self, size):
        if len(self.data) - self.at < size:
            raise Fault(self.at)
        self.at += size
        return self.data[self.at - size : self.at]

    def number(self, width, fits=lambda value: True):
        at = self.at
        value = int.from_bytes(self.take(width), "little")
        if not fits(value):
            raise Fault(at)
        return value

    def text(self):
        return self.take(self.number(4))

    def listed(self, item):
        return [item() for _ in range(self.number(4))]

    def optional(self, item):
        return item() if self.number(1, lambda flag: flag < 2) else None

    def place_in(self):
        """An outpoint, or an inscription's id."""
        return self.take(ID), self.number(4)

    def rune_id(self):
        return self.number(8), self.number(4)

    def rising(self, many, key, value):
        """So many values behind their keys, which rise."""
        rows, last = [], None
        for _ in range(many):
            at = self.at
            here = key()
            if last is not None and here <= last:
                raise Fault(at)
            rows.append((here, value()))
            last = here
        return rows

    def sats(self):
        runs, left, end = [], MOST_SATS, None
        for _ in range(self.number(4)):
            first = self.number(8, lambda first: first != end)
            many = self.number(8, lambda many: 0 < many <= left and first + many <= MOST_SATS)
            runs.append((first, many))
            left, end = left - many, first + many
        return runs

    def output(self):
        return Output(self.text(), self.number(4), self.sats())

    def outputs(self):
        return self.rising(self.number(4), self.place_in, self.output)

    def held(self):
        amount = lambda: self.number(16, lambda amount: amount > 0)
        return self.rising(self.number(4, lambda many: many > 0), self.rune_id, amount)

    def balances(self):
        return self.rising(self.number(4), self.place_in, self.held)

    def inscription(self):
        head = self.place_in(), self.number(4)
        texts = [self.optional(self.text) for _ in range(5)]
        delegate, pointer = self.optional(self.place_in), self.optional(self.text)
        parents, marks = self.listed(self.place_in), self.number(2)
        sat = self.optional(lambda: self.number(8))
        return Inscription(*head, *texts, delegate, pointer, parents, marks, sat)

    def terms(self):
        widths = 16, 16, 8, 8, 8, 8
        return Terms(*(self.optional(lambda: self.number(width)) for width in widths))

    def rune(self):
        head = self.rune_id(), self.number(16), self.number(4), self.number(1)
        symbol = self.optional(lambda: self.number(4, is_character))
        premine, told = self.number(16), self.optional(self.terms)
        mints, burned = self.number(16), self.number(16)
        return Rune(*head, symbol, premine, told, mints, burned, self.take(ID))

    def counts(self):
        four = lambda: tuple(self.number(16) for _ in range(4))
        rows = self.rising(self.number(4), lambda: self.number(4), four)
        return [Count(place, *numbers) for place, numbers in rows]

    def index(self):
        hashes, tables = self.listed(lambda: self.take(ID)), self.outputs()
        lost, shelf = self.sats(), self.listed(self.inscription)
        return Index(hashes, tables, lost, shelf, self.balances(), self.listed(self.rune))

    def change(self):
        head, gone, came = self.take(ID), self.outputs(), self.outputs()
        lost, shelf = self.sats(), self.listed(self.inscription)
        before, after, counts = self.balances(), self.balances(), self.counts()
        appended = self.listed(self.rune)
        return Change(head, gone, came, lost, shelf, before, after, counts, appended)


def is_character(value):
    """Whether a number is that of a Unicode character that isn't a surrogate."""
    return value < 0x110000 and not 0xD800 <= value < 0xE000


def read(kind, data):
    """The index or the change whose rows the bytes begin with, and how many bytes these take."""
    reader = Reader(data)
    value = getattr(reader, kind)()
    return value, reader.at
