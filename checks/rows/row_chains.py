"""Rows that ask whether an index is sound and where a change leads, and what has to be printed for
them: by docs/RULES.md, over row_forms and row_ends. `rows` has all of them, for rows_of_files."""

from row_ends import change_between, first_of, is_sound, other_end
from row_forms import SPELLED, Change, Count, Index, Inscription, Output, Rune, Terms, other_value
from tools.runes import LEAST_KEPT, kept_name

SUBSIDY = 5_000_000_000
MOST_AMOUNT = (1 << 128) - 1


def txid(byte):
    return bytes([byte]) * 32


def hashes(many):
    return [number.to_bytes(32, "little") for number in range(1, many + 1)]


# ---- a sound index of three blocks of regtest

FIRST, SECOND, THIRD = (txid(1), 0), (txid(1), 256), (txid(2), 0)
MINTED = Rune((1, 3), 27, premine=100, terms=Terms(7, 5), mints=2, burned=4, etching=txid(3))
KEPT = Rune((2, 0), kept_name(2, 0), etching=txid(4))
BOUND = Rune((0, 1), LEAST_KEPT - 1, (1 << 27) - 1, 38, premine=5, terms=Terms(), burned=5)
ALONE = Rune((1, 4), 5, premine=9)
SOUND = Index(
    hashes(3),
    [
        (FIRST, Output(b"\x51", 0, [(0, SUBSIDY - 7)])),
        (SECOND, Output(b"\x52", 2, [(2 * SUBSIDY, 100), (SUBSIDY, 3)])),
        (THIRD, Output(b"", 1, [])),
    ],
    [(2 * SUBSIDY + 100, SUBSIDY - 100), (SUBSIDY + 3, SUBSIDY - 3), (SUBSIDY - 7, 7)],
    [
        Inscription((txid(5), 0), 2, sat=3 * SUBSIDY - 1),
        Inscription((txid(5), 1), 0, body=b"body", marks=0x80),
    ],
    [(FIRST, [((1, 3), 10)]), (THIRD, [((1, 3), 100), ((1, 4), 9)])],
    [MINTED, KEPT, BOUND, ALONE],
)


def with_output(at, **changed):
    """The sound index with another row at an outpoint."""
    rows = [(key, row._replace(**changed) if key == at else row) for key, row in SOUND.outputs]
    return SOUND._replace(outputs=rows)


def with_rune(old, held=None, **changed):
    """The sound index with a rune changed, and with so much of it at the third outpoint."""
    new = old._replace(**changed)
    runes = [new if row == old else row for row in SOUND.runes]
    if held is None:
        return SOUND._replace(runes=runes)
    amounts = {((1, 3)): 100, (1, 4): 9, new.id: held}
    balances = [SOUND.balances[0], (THIRD, sorted(amounts.items()))]
    return SOUND._replace(runes=runes, balances=balances)


def with_rows(*rows):
    """The sound index with these inscriptions behind the others."""
    return SOUND._replace(inscriptions=SOUND.inscriptions + list(rows))


def chain(many, profile, **changed):
    """An index of so many blocks, whose satoshis are lost, one run for all."""
    end = first_of(profile, many)
    return Index(hashes(many), lost=[(0, end)] if end else [], **changed)


def sats_cases():
    """A satoshi that isn't there, or is there twice, and one of the next block."""
    lost = SOUND.lost
    yield "regtest", SOUND._replace(lost=lost[::-1]), True
    yield "regtest", SOUND._replace(lost=lost[:2]), False
    yield "regtest", SOUND._replace(lost=[*lost[:2], (SUBSIDY - 7, 6)]), False
    yield "regtest", SOUND._replace(lost=[*lost[:2], (SUBSIDY - 8, 8)]), False
    yield "regtest", SOUND._replace(lost=[*lost, (0, 1)]), False
    yield "regtest", SOUND._replace(lost=[(3 * SUBSIDY, 1), *lost]), False
    yield "regtest", with_output(SECOND, sats=[(2 * SUBSIDY, 100), (SUBSIDY, 2)]), False
    yield "regtest", with_output(SECOND, sats=[(2 * SUBSIDY, 100), (SUBSIDY, 4)]), False
    yield "regtest", with_output(THIRD, sats=[(SUBSIDY, 3)]), False
    yield "regtest", with_output(FIRST, sats=[(1, SUBSIDY - 8)]), False
    yield "regtest", SOUND._replace(hashes=hashes(4)), False
    yield "lab", SOUND, True
    yield "lab", chain(11, "lab"), True
    yield "regtest", chain(11, "lab"), False
    yield "lab", chain(11, "regtest"), False
    yield "regtest", Index(lost=[(0, 1)]), False


def height_cases():
    yield "lab", chain(40, "lab"), True
    yield "lab", chain(41, "lab"), True
    yield "lab", chain(42, "lab"), False
    yield "regtest", chain(42, "regtest"), True
    yield "regtest", with_output(THIRD, height=2), True
    yield "regtest", with_output(THIRD, height=3), False
    for height, sat, is_right in (
        (2, 3 * SUBSIDY - 1, True),
        (3, None, False),
        (2, 3 * SUBSIDY, False),
        (0, 0, True),
    ):
        yield "regtest", with_rows(Inscription((txid(6), 0), height, sat=sat)), is_right


def rune_cases():
    spacers, most = 1 << 27, MOST_AMOUNT
    yield "regtest", SOUND._replace(runes=[*SOUND.runes, ALONE._replace(name=6)]), False
    other = ALONE._replace(id=(1, 5), premine=0)
    yield "regtest", SOUND._replace(runes=[*SOUND.runes, other]), False
    yield "regtest", SOUND._replace(runes=[*SOUND.runes, other._replace(name=6)]), True
    far = other._replace(id=(3, 0), name=6)
    yield "regtest", SOUND._replace(runes=[*SOUND.runes, far]), False
    yield "regtest", SOUND._replace(runes=[*SOUND.runes, far._replace(id=(2, 1))]), True
    for name, is_right in (
        (kept_name(2, 1), False),
        (kept_name(1, 0), False),
        (LEAST_KEPT, False),
        (LEAST_KEPT - 2, True),
        (most, False),
        (0, True),
    ):
        yield "regtest", with_rune(KEPT, name=name), is_right
    yield "regtest", with_rune(BOUND, name=LEAST_KEPT), False
    yield "regtest", with_rune(BOUND, name=LEAST_KEPT + 1), True
    yield "regtest", with_rune(BOUND, divisibility=39), False
    yield "regtest", with_rune(BOUND, spacers=spacers), False


def amount_cases():
    most = MOST_AMOUNT
    yield "regtest", with_rune(KEPT, mints=1), False
    yield "regtest", with_rune(KEPT, terms=Terms(0, 1), mints=1), True
    yield "regtest", with_rune(KEPT, terms=Terms(0, None), mints=1), False
    yield "regtest", with_rune(KEPT, terms=Terms(None, 9), mints=9), True
    yield "regtest", with_rune(KEPT, terms=Terms(None, 9), mints=10), False
    # more and less than the etching and the mints gave
    for changed in ({"burned": 3}, {"burned": 5}, {"mints": 1}, {"mints": 3}, {"premine": 101}):
        yield "regtest", with_rune(MINTED, **changed), False
    yield "regtest", with_rune(MINTED, mints=5, burned=25), True
    yield "regtest", with_rune(MINTED, mints=6, burned=32), False
    yield "regtest", with_rune(ALONE, held=8), False
    yield "regtest", with_rune(ALONE, held=10), False
    yield "regtest", with_rune(ALONE, held=8, burned=1), True
    yield "regtest", with_rune(ALONE, held=most, premine=most), True
    yield "regtest", with_rune(ALONE, held=most, premine=most, terms=Terms(1, 1)), False
    yield "regtest", with_rune(ALONE, held=most - 1, premine=most - 1, terms=Terms(1, 1)), True
    huge = Terms(most, most)
    yield "regtest", with_rune(KEPT, terms=huge), False
    yield "regtest", with_rune(KEPT, terms=Terms(1 << 64, 1 << 64)), False
    # sums that come back to what they should be after 128 bits
    yield "regtest", with_rune(ALONE, held=most, premine=most - 1, burned=most), False
    twice = [(FIRST, [((1, 4), most)]), (THIRD, [((1, 4), most)])]
    runes = [ALONE._replace(premine=most - 1)]
    yield "regtest", SOUND._replace(balances=twice, runes=runes), False
    once = [(FIRST, [((1, 4), most - 9)]), (THIRD, [((1, 4), 8)])]
    yield "regtest", SOUND._replace(balances=once, runes=runes), True


def placed_cases():
    """Balances at no output, and of no rune."""
    rows = SOUND.balances
    nowhere = [*rows, ((txid(9), 0), [((1, 4), 1)])]
    runes = [MINTED, KEPT, BOUND, ALONE._replace(premine=10)]
    yield "regtest", SOUND._replace(balances=nowhere, runes=runes), False
    yield "regtest", SOUND._replace(balances=rows, runes=SOUND.runes[:3]), False
    elsewhere = [rows[0], (SECOND, [((1, 4), 1)]), rows[1]]
    yield "regtest", SOUND._replace(balances=elsewhere, runes=runes), True
    yield "regtest", SOUND._replace(balances=[]), False


def first_rune_cases():
    """The rune that is there from the start on mainnet alone."""
    first = Rune((1, 0), 2055900680524219742, 128, 0, 0x29C9, 0, Terms(1, MOST_AMOUNT))
    for profile, is_right in (("mainnet", True), ("regtest", False), ("lab", False)):
        yield profile, Index(runes=[first]), is_right
        yield profile, chain(1, profile, runes=[first]), is_right
        yield profile, chain(2, profile, runes=[first]), True
        yield profile, chain(1, profile, runes=[first._replace(id=(1, 1))]), False
        yield profile, Index(), True


def sound_rows():
    """Each row `sound PROFILE HEX`, and `sound` or `not sound`."""
    yield from sound_row("regtest", SOUND, True)
    cases = sats_cases, height_cases, rune_cases, amount_cases, placed_cases, first_rune_cases
    for case in cases:
        for profile, index, is_right in case():
            yield from sound_row(profile, index, is_right)


def sound_row(profile, index, is_right):
    assert is_sound(profile, index) == is_right, (profile, index)
    row = f"sound {profile} {SPELLED['index'](index).hex()}"
    yield row, "sound" if is_right else "not sound"


def load_rows():
    """Each row `load PROFILE HEX`, and how much the index in memory has, or `not sound`."""
    empty = Index()
    for profile, index in (
        ("regtest", SOUND),
        ("regtest", SOUND._replace(balances=[])),
        ("lab", SOUND),
        ("lab", chain(41, "lab")),
        ("lab", chain(42, "lab")),
        ("regtest", empty),
        ("mainnet", empty),
    ):
        made = f"{len(index.hashes)} blocks, {len(index.inscriptions)} inscriptions"
        line = f"{made}, {len(index.runes)} runes" if is_sound(profile, index) else "not sound"
        yield f"load {profile} {SPELLED['index'](index).hex()}", line


# ---- a change between two indexes

BEFORE = SOUND._replace(runes=[MINTED, ALONE])
CAME = (txid(7), 0)
AFTER = Index(
    [*BEFORE.hashes, txid(0xBB)],
    [
        (FIRST, Output(b"\x51", 3, [(3 * SUBSIDY, 5)])),
        BEFORE.outputs[2],
        (CAME, Output(b"\x53", 3, [(2 * SUBSIDY, 90)])),
    ],
    # the first lost run goes on where the last one before it ends
    [*BEFORE.lost[:2], (SUBSIDY - 7, 10), (7, 1), (7, 1)],
    [*BEFORE.inscriptions, *2 * [Inscription((txid(8), 0), 3)], Inscription((txid(8), 1), 3)],
    [(FIRST, [((1, 3), 11)]), (CAME, [((3, 1), 4)])],
    [MINTED._replace(mints=3, burned=9), ALONE, KEPT, BOUND],
)
CHANGE = change_between(BEFORE, AFTER)
EXTRA = {
    "gone": ((txid(0x0F), 1), Output(b"", 0, [])),
    "came": ((txid(0x0F), 1), Output(b"", 0, [])),
    "lost": (9 * SUBSIDY, 2),
    "inscriptions": Inscription((txid(8), 2), 3),
    "before": ((txid(0x0F), 1), [((1, 3), 1)]),
    "after": ((txid(0x0F), 1), [((1, 3), 1)]),
    "counts": Count(1, 0, 1, 0, 0),
    "appended": Rune((3, 9), 99),
}


def altered_lists(rows, extra):
    """A list with one row too few, too many, other, or all of them twice."""
    yield rows[1:]
    yield rows[:-1]
    yield [*rows, extra]
    yield [other_value(rows[0]), *rows[1:]]
    yield [*rows[:-1], other_value(rows[-1])]
    yield []


def altered_changes():
    """The change, and others that differ from it in one field, which keep to the form of rows."""
    yield CHANGE
    yield CHANGE._replace(hash=txid(0xBC))
    for name, extra in EXTRA.items():
        for rows in altered_lists(getattr(CHANGE, name), extra):
            yield CHANGE._replace(**{name: rows})
    for count in (Count(0, 2, 2, 4, 4), Count(2, 0, 1, 0, 0), Count(4, 0, 1, 0, 0)):
        yield CHANGE._replace(counts=[count])
    yield CHANGE._replace(counts=[*CHANGE.counts, Count(1, 0, 0, 0, 0)])
    # an output that is gone and stands as before
    still = BEFORE.outputs[2]
    yield CHANGE._replace(gone=BEFORE.outputs, came=sorted([*CHANGE.came, still]))
    yield CHANGE._replace(lost=[(0, 2_000_000_000_000_000)])


def altered_indexes(index):
    """Indexes that differ in one part."""
    yield index._replace(hashes=[])
    yield index._replace(hashes=index.hashes[:-1])
    for name in ("outputs", "lost", "inscriptions", "balances", "runes"):
        rows = getattr(index, name)
        for few in (rows[1:], rows[:-1], [], [*rows[:-1], other_value(rows[-1])]):
            yield index._replace(**{name: few})


def end_rows():
    """Each row `on INDEX CHANGE` or `back INDEX CHANGE`, and the index at the change's other end,
    or `no end`."""
    assert other_end(BEFORE, CHANGE, False) == AFTER and other_end(AFTER, CHANGE, True) == BEFORE
    for index, back in ((BEFORE, False), (AFTER, True)):
        for change in altered_changes():
            yield end_row(index, change, back)
        for other in altered_indexes(index):
            yield end_row(other, CHANGE, back)
        yield end_row(index, CHANGE, not back)
    empty = Index()
    for index, back in ((empty, False), (empty, True)):
        yield end_row(index, Change(), back)
    yield end_row(Index(hashes(1)), Change(hashes(1)[0]), True)


def end_row(index, change, back):
    other = other_end(index, change, back)
    word = "back" if back else "on"
    row = f"{word} {SPELLED['index'](index).hex()} {SPELLED['change'](change).hex()}"
    return row, "no end" if other is None else SPELLED["index"](other).hex()


def rows():
    """All of them."""
    yield from sound_rows()
    yield from load_rows()
    yield from end_rows()
