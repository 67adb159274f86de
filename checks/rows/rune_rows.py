"""The rows of crates/ox_index_rows about how runes are dealt, minted and etched. What each case
comes to is told beside it, and has to be what plain_index reckons.
"""

from chain import SHORT, coinbase_to, commitment, committing, transaction
from plain_index import U64, U128, least_name
from rows import carry, etch, id_of, outpoint, plain, spend
from rows.scenarios import TAPROOT
from tools import bitcoin
from tools.bitcoin import SUBSIDY, varint
from tools.runes import LEAST_KEPT, kept_name

NO_RUNE, RUNE, OTHER, LOWER = (0, 0), (3, 1), (3, 2), (2, 1)
RETURN = b"\x6a"
# a field that no runestone has
CENOTAPH = {126: 0}
# flags of an etching, with terms of minting, and with turbo
ETCHING, TERMS, TURBO = 1, 3, 7
# its number is committed to by the bytes 4e a4 2d 85 16
LABTESTS = 96_723_641_422
PUSHES_IT, CONTROL, ANNEX = bytes.fromhex("054ea42d8516"), b"\xc0\1", b"\x50\0"
PROGRAM = b"\x00\x20" + 32 * b"\7"
SHORT_PROGRAM = b"\x51\x1f" + 31 * b"\7"


def stone_of(values):
    """The script of a runestone that has these numbers."""
    data = b"".join(map(varint, values))
    assert len(data) < 76
    return b"\x6a\x5d" + (bytes([len(data)]) + data if data else b"")


def stone(fields=None, edicts=()):
    """The script of a runestone of these fields by their tags, and of edicts by rising ids: the id,
    the amount and the output of each."""
    values = [number for pair in (fields or {}).items() for number in pair]
    block = tx = 0
    for place, (id_, amount, output) in enumerate(edicts):
        here = (id_[0] - block, id_[1] - tx if id_[0] == block else id_[1])
        values += [*([] if place else [0]), *here, amount, output]
        block, tx = id_
    return stone_of(values)


def etching(name=None, flags=ETCHING, **more):
    """The fields of an etching, by the names of their tags."""
    tags = {"premine": 6, "cap": 8, "amount": 10, "start": 12, "end": 14, "after": 16, "until": 18}
    tags |= {"divisibility": 1, "spacers": 3, "symbol": 5}
    named = {} if name is None else {4: name}
    return {2: flags, **named, **{tags[tag]: value for tag, value in more.items()}}


def minting(id_):
    """The script of a runestone that mints."""
    block, tx = id_
    return stone_of([20, block, 20, tx])


# ---- how runes are dealt


def amounts_at(rows, tx):
    """What each output of a transaction has of runes."""
    held = dict(rows.index().balances)
    return [held.get((id_of(tx), index), []) for index in range(4)]


def deals(rows, tx, amounts, burned, rune=RUNE):
    """A transaction gives its four outputs so much of a rune, and burns so much. Its block is
    taken back."""
    rows.extend(tx)
    assert amounts_at(rows, tx) == [[(rune, amount)] if amount else [] for amount in amounts]
    assert sum(row.burned for row in rows.index().runes if row.id == rune) == burned
    rows.dump(*(f"at={outpoint(tx, index)}" for index in range(4)))
    rows.disconnects()


def four(script, others=SHORT):
    """Three outputs with one script each, and a fourth with another."""
    return [(1, others)] * 3 + [(0, script)]


def etched(rows, what, premine):
    """A premine of the rune, behind three blocks."""
    rows.chain(what)
    return etch(rows, stone({2: 1, 6: premine}).hex())


def splits(rows):
    tx = etched(rows, "a premine of ten is dealt to four outputs, of which the last burns", 10)
    for edicts, amounts, burned in (
        # to all outputs
        ([(RUNE, 0, 4)], (4, 3, 3, 0), 0),
        ([(RUNE, 4, 4)], (4, 4, 2, 0), 0),
        ([(RUNE, 11, 4)], (10, 0, 0, 0), 0),
        # to one
        ([(RUNE, 3, 1), (RUNE, 3, 1)], (4, 6, 0, 0), 0),
        ([(RUNE, 0, 2)], (0, 0, 10, 0), 0),
        ([(RUNE, 11, 1)], (0, 10, 0, 0), 0),
        ([], (10, 0, 0, 0), 0),
        # to the one with OP_RETURN
        ([(RUNE, 4, 3)], (6, 0, 0, 0), 4),
        ([(RUNE, 0, 3)], (0, 0, 0, 0), 10),
        # of a rune that isn't there
        ([(OTHER, 4, 1)], (10, 0, 0, 0), 0),
        ([(NO_RUNE, 4, 1)], (10, 0, 0, 0), 0),
    ):
        deals(rows, transaction([spend(tx)], four(stone(edicts=edicts))), amounts, burned)
    # without a runestone
    deals(rows, transaction([spend(tx)], four(RETURN)), (10, 0, 0, 0), 0)
    # a cenotaph burns all
    deals(rows, transaction([spend(tx)], four(stone(CENOTAPH))), (0, 0, 0, 0), 10)
    tx = etched(rows, "a premine of two is split over three outputs", 2)
    spends = transaction([spend(tx)], four(stone(edicts=[(RUNE, 0, 4)])))
    deals(rows, spends, (1, 1, 0, 0), 0)


def pointers(rows):
    """The rest goes to the output that is pointed to. An edict deals what its runestone etches."""
    given = [(NO_RUNE, 4, 1)]
    tx = etched(rows, "the rest of ten goes to the pointer, or to the first that can hold it", 10)
    rows.plain(4)
    for fields, others, amounts, burned in (
        ({22: 2}, SHORT, (0, 0, 10, 0), 0),
        ({22: 3}, SHORT, (0, 0, 0, 0), 10),
        ({}, RETURN, (0, 0, 0, 0), 10),
    ):
        deals(rows, transaction([spend(tx)], four(stone(fields, given), others)), amounts, burned)
    rows.chain("the rest of what is etched goes to the pointer, or to the first that can hold it")
    rows.plain(3)
    for fields, others, amounts, burned in (
        ({22: 2}, SHORT, (0, 4, 6, 0), 0),
        ({}, SHORT, (6, 4, 0, 0), 0),
        ({}, RETURN, (0, 0, 0, 0), 10),
    ):
        script = stone({2: 1, 6: 10, **fields}, given)
        deals(rows, transaction([spend(plain(0))], four(script, others)), amounts, burned)


def greatest_amount(rows):
    tx, third = etched(rows, "the greatest amount is dealt", U128), U128 // 3
    for edict, amounts in (
        ((RUNE, 0, 4), (third, third, third, 0)),
        ((RUNE, U128, 2), (0, 0, U128, 0)),
    ):
        deals(rows, transaction([spend(tx)], four(stone(edicts=[edict]))), amounts, 0)


def second_rune(rows):
    """One rune comes from two outputs, and then a second with a lower id."""
    rows.chain("a second rune comes from a third output, and goes by its own edict")
    rows.plain(2)
    lower = carry(plain(0), stone({2: 1, 6: 5}).hex())
    rows.extend(lower)
    script = stone({2: 1, 6: 10}, [(NO_RUNE, 3, 1)])
    both = transaction([spend(plain(1))], [(1, SHORT), (SUBSIDY - 1, SHORT), (0, script)])
    rows.extend(both)
    script = stone(edicts=[(LOWER, 0, 1), (RUNE, 2, 1), (RUNE, 4, 3)])
    tx = transaction([spend(both), spend(both, 1), spend(lower)], four(script))
    rows.extend(tx)
    assert amounts_at(rows, tx) == [[(RUNE, 4)], [(LOWER, 5), (RUNE, 2)], [], []]
    assert [row.burned for row in rows.index().runes] == [0, 4]
    rows.dump(*(f"at={outpoint(tx, index)}" for index in range(4)))
    rows.plainly(*(f"at={outpoint(tx, index)}" for index in range(4)))


def hundred_runes(rows):
    """A hundred runes come from the last to the first, and again from the first to the last."""
    rows.chain("a hundred runes, each from two outputs, are held by one, and burned by a cenotaph")
    rows.plain(2)
    split = transaction([spend(plain(0))], [(1_000, SHORT)] * 100)
    rows.extend(split)
    etches = []
    for number in range(1, 101):
        script = stone({2: 1, 6: 2 * number}, [(NO_RUNE, number, 1)])
        outputs = [(500, SHORT), (500, SHORT), (0, script)]
        etches.append(transaction([spend(split, number - 1)], outputs))
    rows.extend(*etches)
    inputs = [*(spend(tx) for tx in reversed(etches)), *(spend(tx, 1) for tx in etches)]
    tx = transaction(inputs, four(RETURN))
    rows.extend(tx)
    all_of_them = [((3, number), 2 * number) for number in range(1, 101)]
    assert amounts_at(rows, tx) == [all_of_them, [], [], []]
    rows.looks(*(f"at={outpoint(tx, index)}" for index in range(4)))
    rows.disconnects()
    tx = transaction(inputs, four(stone(CENOTAPH)))
    rows.extend(tx)
    assert amounts_at(rows, tx) == [[], [], [], []]
    assert [row.burned for row in rows.index().runes] == [many for _, many in all_of_them]
    rows.dump()


# ---- what mints give


def etch_each(rows, shapes):
    """Runes of these fields, by the transactions of the block of height 3; the transactions."""
    rows.plain(2)
    split = transaction([spend(plain(0))], [(1_000, SHORT)] * len(shapes))
    rows.extend(split)
    etches = [
        transaction([spend(split, place)], [(1_000, SHORT), (0, stone(etching(**shape)))])
        for place, shape in enumerate(shapes)
    ]
    rows.extend(*etches)
    return etches


def mint_each(rows, last):
    """A block that mints each rune behind what was minted last; its transactions."""
    outputs = [[(1_000, SHORT), (0, minting((3, place)))] for place in range(1, len(last) + 1)]
    txs = [transaction([spend(tx)], made) for tx, made in zip(last, outputs)]
    rows.extend(*txs)
    return txs


def held_at(rows, txs):
    """How much the first output of each transaction has of its own rune."""
    held = dict(rows.index().balances)
    return [sum(amount for _, amount in held.get((id_of(tx), 0), [])) for tx in txs]


def caps(rows):
    rows.chain("a rune is minted by its terms, up to their cap, and by no amount gives nothing")
    open_ = {"flags": TERMS, "amount": 7, "cap": 2}
    no_amount, no_cap = {"flags": TERMS, "cap": 2}, {"flags": TERMS, "amount": 7}
    last = etch_each(rows, [{}, open_, no_amount, no_cap])
    for held, mints in (
        ([0, 7, 0, 0], [0, 1, 1, 0]),
        ([0, 14, 0, 0], [0, 2, 2, 0]),
        ([0, 14, 0, 0], [0, 2, 2, 0]),
    ):
        last = mint_each(rows, last)
        assert held_at(rows, last) == held
        assert [row.mints for row in rows.index().runes] == mints
        rows.dump(*(f"at={outpoint(tx)}" for tx in last))


# the bounds of terms, and the heights at which mints are open. The runes are etched at height 3.
BOUNDS = [
    ({"start": 6}, range(6, 10)),
    ({"after": 3}, range(6, 10)),
    # the later of two starts
    ({"start": 6, "after": 5}, range(8, 10)),
    ({"start": 6, "after": 1}, range(6, 10)),
    ({"end": 6}, range(4, 6)),
    ({"until": 3}, range(4, 6)),
    # the earlier of two ends
    ({"end": 6, "until": 2}, range(4, 5)),
    ({"end": 6, "until": 5}, range(4, 6)),
    # offsets stop at the greatest number
    ({"until": U64}, range(4, 10)),
    ({"after": U64}, range(0)),
]


def bounds(rows):
    rows.chain("starts of minting count and ends don't, and offsets stop at the greatest number")
    shapes = [{"flags": TERMS, "amount": 7, "cap": 100, **bound} for bound, _ in BOUNDS]
    last = etch_each(rows, shapes)
    for height in range(4, 10):
        last = mint_each(rows, last)
        opened = [sum(open_ <= height for open_ in heights) for _, heights in BOUNDS]
        assert held_at(rows, last) == [7 * count for count in opened]
        rows.looks(*(f"at={outpoint(tx)}" for tx in last))
    rows.dump()


# ---- which names stand


def taproots(rows):
    """Blocks up to height 4, whose coinbase has outputs of a thousand satoshis, two of taproot."""
    rows.plain(4)
    scripts = TAPROOT, TAPROOT, PROGRAM, SHORT_PROGRAM
    paid = coinbase_to(4, [*((1_000, script) for script in scripts), (SUBSIDY - 4_000, SHORT)])
    rows.connects(paid)
    return paid


def etch_by(paid, script, stack=(PUSHES_IT, CONTROL), index=1):
    """A transaction with this runestone that spends the first output without a witness, and another
    one by this."""
    origins = [(id_of(paid), at) for at in (0, index)]
    return bitcoin.transaction(origins, [(1_000, SHORT), (0, script)], stacks=[[], list(stack)])


def extend(rows, *txs):
    """A block of these transactions, whose coinbase claims all that a block of lab mints."""
    height = len(rows.tips)
    rows.connects(coinbase_to(height, [(SUBSIDY >> height // 10, SHORT)]), *txs)


def names_it(rows, tx, name, stands):
    """A transaction etches the rune of a name, or none. Its block is taken back."""
    height = len(rows.tips)
    extend(rows, tx)
    made = [(row.id, row.name) for row in rows.index().runes]
    assert made == ([((height, 1), name)] if stands else [])
    rows.looks(f"name={name}", f"rune={height}:1", f"at={outpoint(tx)}")
    rows.disconnects()


def pushes(rows):
    rows.chain("a tapscript commits to a name that it pushes")
    paid = taproots(rows)
    rows.plain(9)
    script = stone(etching(LABTESTS))
    for digits, stands in (
        ("054ea42d8516", True),
        ("6a4c054ea42d851651", True),
        # a byte longer, and a byte shorter
        ("064ea42d851600", False),
        ("044ea42d85", False),
        # before a cut, and behind one
        ("054ea42d85164c", True),
        ("4cff054ea42d8516", False),
    ):
        tx = etch_by(paid, script, (bytes.fromhex(digits), CONTROL))
        names_it(rows, tx, LABTESTS, stands)
    names_it(rows, etch_by(paid, stone(etching(LABTESTS + 1))), LABTESTS + 1, False)
    for _ in range(9, 14):
        extend(rows)
    # an empty push, no push, and a zero
    for digits, stands in (("00", True), ("", False), ("0100", False)):
        tx = etch_by(paid, stone(etching(0)), (bytes.fromhex(digits), CONTROL))
        names_it(rows, tx, 0, stands)


def places(rows):
    rows.chain("a tapscript commits by its place in a witness of taproot")
    paid = taproots(rows)
    rows.plain(9)
    script = stone(etching(LABTESTS))
    for stack, index, stands in (
        ((PUSHES_IT, CONTROL, ANNEX), 1, True),
        ((PUSHES_IT, ANNEX), 1, False),
        ((PUSHES_IT, CONTROL, CONTROL), 1, False),
        # a key path
        ((PUSHES_IT,), 1, False),
        # other programs
        ((PUSHES_IT, CONTROL), 2, False),
        ((PUSHES_IT, CONTROL), 3, False),
        ((PUSHES_IT, CONTROL), 1, True),
    ):
        names_it(rows, etch_by(paid, script, stack, index), LABTESTS, stands)
    stack = [PUSHES_IT, CONTROL]
    alone = bitcoin.coinbase([(SUBSIDY, SHORT), (0, script)], b"\x09\0\0\0", stack)
    rows.connects(alone)
    assert rows.index().runes == []
    rows.looks(f"name={LABTESTS}", "rune=9:0", f"at={outpoint(alone)}")


def one_rune(rows, tx, expected):
    """A transaction etches a rune whose row has these values and else none, or no rune. Its block
    is taken back."""
    rows.extend(tx)
    made = rows.index().runes
    if expected is None:
        assert made == []
    else:
        bare = {"spacers": 0, "divisibility": 0, "symbol": None, "premine": 0, "terms": None}
        bare |= {"mints": 0, "burned": 0, "etching": id_of(tx), "id": (9, 1), **expected}
        assert [row._asdict() for row in made] == [bare]
    rows.dump(f"at={outpoint(tx)}")
    rows.disconnects()


def etchings(rows):
    rows.chain("an etching makes a rune of its fields, and a cenotaph one of its name alone")
    paid = taproots(rows)
    rows.plain(8)
    named = stone(etching(LABTESTS))
    # five blocks, and six
    one_rune(rows, etch_by(paid, named), None)
    rows.plain(9)
    one_rune(rows, etch_by(paid, named), {"name": LABTESTS})
    # without a name
    kept = 6_402_364_363_415_443_603_228_541_298_590_917_591
    assert kept == kept_name(9, 1)
    one_rune(rows, etch_by(paid, stone(etching())), {"name": kept})
    told = {"divisibility": 38, "spacers": 4, "symbol": 0x29C9, "premine": 11}
    full = etching(LABTESTS, TURBO, **told, amount=7, cap=2)
    told |= {"name": LABTESTS, "terms": (7, 2, *4 * [None])}
    one_rune(rows, etch_by(paid, stone(full)), told)
    cenotaph = stone({**full, **CENOTAPH})
    one_rune(rows, etch_by(paid, cenotaph), {"name": LABTESTS})
    one_rune(rows, etch_by(paid, stone({**etching(), **CENOTAPH})), None)
    # the greatest supply, and one more, which is that of a cenotaph
    once = {"flags": TERMS, "cap": 1, "amount": 1}
    most = etch_by(paid, stone(etching(premine=U128 - 1, **once)))
    told = {"name": kept, "premine": U128 - 1, "terms": (1, 1, *4 * [None])}
    one_rune(rows, most, told)
    one_rune(rows, etch_by(paid, stone(etching(premine=U128, **once))), None)


def taken_names(rows):
    rows.chain("a name is taken, for an etching and for a cenotaph")
    paid = taproots(rows)
    rows.plain(9)
    first = bitcoin.transaction(
        [(id_of(paid), 0)],
        [(1_000, SHORT), (0, stone(etching(LABTESTS)))],
        stacks=[[PUSHES_IT, CONTROL]],
    )
    rows.extend(first)
    for fields in (etching(LABTESTS), {**etching(LABTESTS), **CENOTAPH}):
        tx = bitcoin.transaction(
            [(id_of(paid), 1)],
            [(1_000, SHORT), (0, stone(fields))],
            stacks=[[PUSHES_IT, CONTROL]],
        )
        extend(rows, tx)
        assert [row.id for row in rows.index().runes] == [(9, 1)]
        rows.looks(f"name={LABTESTS}", "rune=9:1", "rune=10:1", f"at={outpoint(tx)}")
        rows.disconnects()


def bounds_of_names(rows):
    """By the intervals of regtest, which are mainnet's from height 840,000 on."""
    rows.chain("names begin at the least one, and end before those that are kept", "regtest")
    assert least_name("mainnet", 840_000) == 99_240_661_844_911_652
    assert least_name("mainnet", 840_005) == (least := least_name("regtest", 5))
    assert LEAST_KEPT == 6_402_364_363_415_443_603_228_541_259_936_211_926
    paid = coinbase_to(0, [(1_000, TAPROOT)] * 2)
    rows.connects(paid)
    rows.plain(5)
    for name, stands in (
        (least, True),
        (least - 1, False),
        (LEAST_KEPT - 1, True),
        (LEAST_KEPT, False),
    ):
        push = name.to_bytes(16, "little").rstrip(b"\0")
        script = stone({**etching(name), **CENOTAPH})
        tx = etch_by(paid, script, (bitcoin.string(push), CONTROL))
        rows.connects(committing(5, commitment(tx)), tx)
        made = [(row.id, row.name) for row in rows.index().runes]
        assert made == ([((5, 1), name)] if stands else [])
        rows.looks(f"name={name}", "rune=5:1", f"at={outpoint(tx)}")
        rows.disconnects()


GROUPS = [splits, pointers, greatest_amount, second_rune, hundred_runes, caps, bounds]
GROUPS += [pushes, places, etchings, taken_names, bounds_of_names]
