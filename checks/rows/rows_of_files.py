"""The rows of crates/ox_index_rows about the rows of an index and of a change, and what has to be
printed for them.

Indexes and changes are spelled and read by docs/FORMATS.md (row_forms), with Python's standard
library alone. Of each broken row the place is told beside it, and the reader has to find it there.
"""

import re

from row_forms import MOST_SATS, SPELLED, Change, Count, Fault, Index, Inscription, Output
from row_forms import Rune, Terms, inscription, inscription_id, listed, number, optional, output
from row_forms import outpoint, read, rune, sats, terms, text
from row_forms import count as spelled_count
from rows import row_chains, row_keeps
from tools.programs import TOP

KINDS = ("index", "change")
U32, U64, U128 = (1 << 32) - 1, (1 << 64) - 1, (1 << 128) - 1
FOUR_BILLION = number(4)(U32)
NONE = number(4)(0)


def hash_of(byte):
    return bytes([byte]) * 32


def answer(kind, data):
    """What a row of this kind prints."""
    try:
        value, taken = read(kind, data)
    except Fault as fault:
        return f"not rows {fault.args[0]}"
    spelled = SPELLED[kind](value)
    assert spelled == data[:taken]
    return f"{taken} bytes {spelled.hex()}"


# ---- an index and a change with every field


SHELF = [
    Inscription((hash_of(0x41), 0), 7),
    Inscription(
        (hash_of(0x42), 5),
        8,
        b"text/plain;charset=utf-8",
        b"body",
        b"\xa1\x61m\x01",
        b"protocol",
        b"br",
        (hash_of(0x43), 6),
        b"\x09\x01",
        [(hash_of(0x44), 0), (hash_of(0x41), 0), (hash_of(0x44), 0)],
        0x1F5,
        MOST_SATS - 1,
    ),
    Inscription((hash_of(0x42), U32), U32, b"", b"", b"", b"", b"", None, b"", [], 0xFFFF, U64),
]
TERMS = [
    Terms(),
    Terms(100, 9, 840_000, 1_050_000, 1, 2),
    Terms(U128, U128, U64, U64, U64, U64),
    Terms(cap=3, height_end=4, offset_start=5),
]
RUNES = [
    Rune((1, 0), 2055900680524219742, 128, 0, 0x29C9, 0, TERMS[1], 4, 5, hash_of(0)),
    Rune((840_000, 3), 27, etching=hash_of(0x51)),
    Rune((U64, U32), U128, U32, 255, 0x10FFFF, U128, TERMS[2], U128, U128, hash_of(0xFF)),
    Rune((2, 7), 0, 1, 38, 0xD7FF, 1, TERMS[0], 0, 0, hash_of(0x52)),
    Rune((2, 6), 1, 2, 3, 0xE000, 4, TERMS[3], 2, 6, hash_of(0x53)),
    Rune((2, 6), 1, symbol=0, etching=hash_of(0x53)),
]
TABLE = [
    ((hash_of(0x00), 0), Output(b"", 0, [])),
    ((hash_of(0x11), 2), Output(b"\x51", 3, [(0, 5)])),
    ((hash_of(0x11), 256), Output(bytes(range(40)), U32, [(100, 7), (99, 1), (101, 1), (5, 1)])),
    ((hash_of(0x12), 0), Output(b"\x6a", 1, [(MOST_SATS - 1, 1), (0, 1)])),
    ((hash_of(0xFF), U32), Output(b"\x00\x14" + bytes(20), 2, [(1, 1), (3, 1)])),
]
HELD = [
    ((hash_of(0x11), 2), [((1, 0), 1)]),
    ((hash_of(0x11), 256), [((1, 0), U128), ((1, 1), 256), ((2, 0), 1), ((U64, U32), 2)]),
    ((hash_of(0x12), 0), [((0, 0), 3)]),
]
COUNTS = [
    Count(0, 0, 1, 2, 3),
    Count(1, 4, 4, 5, 5),
    Count(256, U128, 0, U128, U128),
    Count(U32, 0, 0, 0, U128),
]
SAMPLES = {
    "index": Index(
        [hash_of(1), hash_of(2), hash_of(1)], TABLE, [(9, 1), (8, 1), (3, 4)], SHELF, HELD, RUNES
    ),
    "change": Change(
        hash_of(0xAB),
        TABLE[1:3],
        TABLE[::2],
        [(5_000_000_000, 5_000_000_000)],
        SHELF[1:2],
        HELD[:1],
        HELD[1:],
        COUNTS,
        RUNES[4:5],
    ),
}

# what of an index or of a change has which form, in order
FIELDS = {
    "index": {
        "hashes": "hashes",
        "outputs": "outputs",
        "lost": "sats",
        "inscriptions": "inscriptions",
        "balances": "balances",
        "runes": "runes",
    },
    "change": {
        "hash": "hash",
        "gone": "outputs",
        "came": "outputs",
        "lost": "sats",
        "inscriptions": "inscriptions",
        "before": "balances",
        "after": "balances",
        "counts": "counts",
        "appended": "runes",
    },
}


# ---- what breaks the form: bytes of a field, and the place of the fault in them


def place_faults():
    """An outpoint or an inscription's id is two fields, of which the cut one counts."""
    yield hash_of(1)[:31], 0
    yield hash_of(1), 32
    yield hash_of(1) + b"\0\0\0", 32


def sats_faults():
    run, few = lambda first, many: number(8)(first) + number(8)(many), number(4)
    one, two = few(1), few(2)
    yield b"\0\0\0", 0
    yield FOUR_BILLION, 4
    yield one + bytes(7), 4
    yield one + bytes(8), 12
    yield one + bytes(15), 12
    # a run that goes on, whatever its count
    for behind in (run(10, 0), run(10, 3), run(10, 3)[:8], run(10, U64)):
        yield two + run(3, 7) + behind, 20
    yield few(3) + run(3, 7) + run(0, 3) + run(3, 1), 36
    # no number, one too great, and more than there are
    for first, many in (
        (5, 0),
        (MOST_SATS, 0),
        (MOST_SATS, 1),
        (MOST_SATS + 1, 1),
        (1, MOST_SATS),
        (0, MOST_SATS + 1),
        (U64, 1),
        (U64, U64),
        (2, U64),
        (1 << 63, 1 << 63),
    ):
        yield one + run(first, many), 12
    yield two + run(0, MOST_SATS) + run(0, 1), 28
    yield few(3) + run(1, MOST_SATS - 1) + run(0, 1) + run(7, 1), 44
    yield two + run(0, MOST_SATS - 1) + run(0, 2), 28


def text_faults():
    yield b"\0\0\0", 0
    yield number(4)(3) + b"ab", 4
    yield FOUR_BILLION + b"ab", 4


def option_faults(value_faults):
    """No value and none: an option begins with 0 or 1."""
    yield b"", 0
    yield b"\2", 0
    yield b"\xff\0", 0
    for data, at in value_faults:
        yield b"\1" + data, 1 + at


def number_faults(width):
    yield b"\0" * (width - 1), 0


def list_faults(item, item_faults):
    yield b"\0\0\0", 0
    yield FOUR_BILLION, 4
    yield number(4)(2) + item, 4 + len(item)
    for data, at in item_faults:
        yield number(4)(2) + item + data, 4 + len(item) + at


def behind(front, faults):
    """The same faults behind bytes that are in order."""
    for data, at in faults:
        yield front + data, len(front) + at


def row_faults(*parts):
    """The faults of a row: of each field its bytes where it is in order, and what breaks it."""
    front = b""
    for fits, faults in parts:
        yield from behind(front, faults)
        front += fits


def rising_faults(key, lower, equal_is, value, key_faults, value_faults):
    """A count, and items by rising keys. A key that doesn't rise is told before its value."""
    item = key + value
    yield from list_faults(item, key_faults)
    for wrong in (key, *lower):
        for tail in (value, b"", value[:1]):
            yield number(4)(2) + item + wrong + tail, 4 + len(item)
    yield from behind(number(4)(2) + item + equal_is, value_faults)


def outputs_faults():
    row = lambda one: output(one[1])
    value = row_faults(
        (text(b"\x51"), text_faults()),
        (number(4)(9), number_faults(4)),
        (b"", sats_faults()),
    )
    lower = [outpoint((hash_of(0x11), 255)), outpoint((hash_of(0x10), U32))]
    lower.append(outpoint((bytes([0x10]) + hash_of(0xFF)[1:], 0)))
    higher = outpoint((hash_of(0x11), 257))
    key = outpoint((hash_of(0x11), 256))
    yield from rising_faults(key, lower, higher, row(TABLE[1]), place_faults(), value)


def held_faults():
    id_of = lambda block, tx: number(8)(block) + number(4)(tx)
    amount = [*number_faults(16), (bytes(16), 0), (bytes(15), 0)]
    # none: its count
    yield NONE, 0
    key_faults = [(bytes(7), 0), (bytes(8), 8), (bytes(11), 8)]
    lower = [id_of(256, 255), id_of(255, U32), id_of(1, 0)]
    one = number(16)(1)
    yield from rising_faults(id_of(256, 256), lower, id_of(257, 0), one, key_faults, amount)


def balances_faults():
    key, higher = outpoint((hash_of(0x11), 3)), outpoint((hash_of(0x11), 4))
    lower = [outpoint((hash_of(0x11), 2)), outpoint((hash_of(0x0F), 9))]
    value = listed(lambda one: number(8)(one[0][0]) + number(4)(one[0][1]) + number(16)(one[1]))
    yield from rising_faults(key, lower, higher, value(HELD[1][1]), place_faults(), held_faults())


def counts_faults():
    key, rest = number(4)(256), spelled_count(COUNTS[2])[4:]
    cut = [(rest[: 16 * at + size], 16 * at) for at in range(4) for size in (0, 15)]
    lower = [number(4)(255), number(4)(0)]
    yield from rising_faults(key, lower, number(4)(257), rest, number_faults(4), cut)


def inscription_faults():
    none, some = optional(text)(None), optional(text)(b"some")
    ids = listed(inscription_id)
    one = inscription_id((hash_of(3), 4))
    yield from row_faults(
        (one, place_faults()),
        (number(4)(1), number_faults(4)),
        *((fits, option_faults(text_faults())) for fits in (some, none, some, none, some)),
        (b"\1" + one, option_faults(place_faults())),
        (some, option_faults(text_faults())),
        (ids([(hash_of(3), 4)]), list_faults(one, place_faults())),
        (number(2)(5), number_faults(2)),
        (b"", option_faults(number_faults(8))),
    )


def rune_faults():
    sixteen, eight = option_faults(number_faults(16)), option_faults(number_faults(8))
    sixteen, eight = list(sixteen), list(eight)
    told = [optional(number(16))(1), optional(number(16))(None)]
    told += [optional(number(8))(value) for value in (2, None, 3)]
    term_faults = row_faults(*zip(told, (sixteen, sixteen, eight, eight, eight)), (b"", eight))
    character = [*number_faults(4)]
    character += [(number(4)(code), 0) for code in (0xD800, 0xDC00, 0xDFFF, 0x110000, U32)]
    yield from row_faults(
        (number(8)(2), number_faults(8)),
        (number(4)(3), number_faults(4)),
        (number(16)(4), number_faults(16)),
        (number(4)(5), number_faults(4)),
        (number(1)(6), number_faults(1)),
        (optional(number(4))(0x29C9), option_faults(character)),
        (number(16)(7), number_faults(16)),
        (optional(terms)(TERMS[1]), option_faults(term_faults)),
        (number(16)(8), number_faults(16)),
        (number(16)(9), number_faults(16)),
        (b"", [(bytes(31), 0)]),
    )


FAULTS = {
    "hash": lambda: [(bytes(31), 0), (b"", 0)],
    "hashes": lambda: list_faults(hash_of(5), [(bytes(31), 0)]),
    "outputs": outputs_faults,
    "sats": sats_faults,
    "inscriptions": lambda: list_faults(inscription(SHELF[1]), inscription_faults()),
    "balances": balances_faults,
    "counts": counts_faults,
    "runes": lambda: list_faults(rune(RUNES[0]), rune_faults()),
}


def broken():
    """Rows with one fault, and its place. Each form is broken in the first field that has it; in
    the others only its first fault and four billion items are."""
    seen = set()
    for kind, forms in FIELDS.items():
        front = b""
        for form in forms.values():
            for data, at in FAULTS[form]():
                if form not in seen or (data, at) == (FOUR_BILLION, 4) or at == 0:
                    yield kind, front + data, len(front) + at
            seen.add(form)
            front += hash_of(0xEE) if form == "hash" else NONE


# ---- what keeps to the form


def lawful():
    """Rows at the bounds, and with bytes behind them."""
    for kind in KINDS:
        sample, empty = (SPELLED[kind](value) for value in (SAMPLES[kind], EMPTY[kind]))
        yield from ((kind, data) for data in (empty, sample, sample + b"\0", empty + sample))
    for runs in (
        [(0, MOST_SATS)],
        [(MOST_SATS - 1, 1)],
        [(1, MOST_SATS - 1), (0, 1)],
        [(5, 1), (4, 1), (6, 1), (5, 1), (8 << 40, 1)],
    ):
        yield "index", NONE + NONE + sats(runs) + 3 * NONE
    yield "change", genesis_change()


EMPTY = {"index": Index(), "change": Change()}


def genesis_change():
    """What Bitcoin's first block changes, of 195 bytes, with the row that FORMATS writes out."""
    page = (TOP / "docs" / "FORMATS.md").read_text()
    told = re.search(r"The output of Bitcoin's first block[^`]*```\n(.*?)```", page, re.S)[1]
    row = bytes.fromhex("".join(re.findall(r"^((?:[0-9a-f]{2} ?)+)", told, re.M)))
    head = bytes.fromhex("6fe28c0ab6f1b372c1a6a246ae63f74f931e8365e15a089c68d6190000000000")
    change = head + NONE + number(4)(1) + row + 6 * NONE
    assert len(change) == 195
    return change


# ---- the rows


def forms():
    """Each row that says what bytes read as, and what has to be printed for it."""
    for kind, data in lawful():
        line = answer(kind, data)
        assert not line.startswith("not"), (kind, data.hex(), line)
        yield f"{kind} {data.hex()}", line
        if kind == "index":
            yield f"spell {data.hex()}", line
    for kind, data, at in broken():
        line = answer(kind, data)
        assert line == f"not rows {at}", (kind, data.hex(), line, at)
        yield f"{kind} {data.hex() or '-'}", line
    for kind in KINDS:
        data = SPELLED[kind](SAMPLES[kind])
        places = [answer(kind, data[:size]).removeprefix("not rows") for size in range(len(data))]
        yield f"fronts {kind} {data.hex()}", "".join(places)


def rows():
    """Each row, and what has to be printed for it."""
    yield from forms()
    yield from row_chains.rows()
    yield from row_keeps.rows()
