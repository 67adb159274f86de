"""The rows of crates/ox_index_rows, and what has to be printed for them.

It makes blocks by docs/RULES.md and writes down what indexes have to hold after them, with Python's
standard library alone. What is looked up of inscriptions and runes, as the first with an id, it
looks up in these lists by itself. The rows that ask a chain, as requests do, are those of
query_rows; those whose indexes plain_index reckons are those of rune_rows and shelf_rows; those
that spell the rows of an index or of a change are those of rows_of_files.
"""

import made_blocks
from chain import SHORT, block_of, coinbase_to, commitment, committing, envelope, id_value
from chain import transaction
from rows import Rows, carry, etch, hash_text, id_of, inscription, outpoint, plain, reveal, spend
from rows import query_rows, rows_of_files, rune_rows, scenarios, shelf_rows
from rows.reckoned import Reckoned
from rows.scenarios import ETCHES, MINTS_AND_BURNS, POINTERS, TEN
from tools.bitcoin import COMMITS, RESERVED, SUBSIDY, root, twice
from tools.runes import kept_name

HALVINGS = {"mainnet": 210_000, "regtest": 210_000, "lab": 10}


class Inscription:
    """An inscription of a transaction: its height, its satoshi if it has one, its marks, fields as
    they are printed, and the ids of its parents."""

    def __init__(self, tx, height, sat, marks=0, index=0, fields="", parents=()):
        self.id, self.height, self.sat, self.marks = inscription(tx, index), height, sat, marks
        self.fields, self.parents = fields, list(parents)

    def line(self, number, all_of_them):
        children = [
            f" {child}" for child, other in enumerate(all_of_them) if self.id in other.parents
        ]
        fields = [f" {field}" for field in self.fields.split()] + [
            f" parent={parent}" for parent in self.parents
        ]
        sat = "none" if self.sat is None else self.sat
        found = [other.id for other in all_of_them].index(self.id)
        head = (
            f"  {number}: {self.id} height {self.height} marks {self.marks} sat {sat} found {found}"
        )
        return head + " children" + "".join(children + fields)


class Rune:
    """A rune by its id, the transaction that etched it and its premine. One without a name has the
    reserved one."""

    def __init__(
        self,
        block,
        tx,
        etching,
        premine=0,
        name=None,
        held=None,
        burned=0,
        mints=0,
        gives=0,
        terms="",
    ):
        self.id, self.etching, self.premine = f"{block}:{tx}", etching, premine
        self.name = kept_name(block, tx) if name is None else name
        self.minted = mints * gives
        self.held = premine + self.minted - burned if held is None else held
        self.burned, self.mints, self.terms, self.shape = (
            burned,
            mints,
            terms,
            "spacers 0 divisibility 0",
        )

    def line(self, number):
        head = (
            f"  {number}: {self.id} name {self.name} found {number} found {number} held"
            f" {self.held} burned {self.burned}"
        )
        by = f"by {hash_text(self.etching)}" + (f" terms {self.terms}" if self.terms else "")
        return f"{head} mints {self.mints} premine {self.premine} {self.shape} {by}"

    def audit(self):
        return (
            f"  {self.id} premine {self.premine} minted {self.minted} held {self.held} burned"
            f" {self.burned}"
        )


class Held:
    """What an index holds beside its blocks and outputs."""

    def __init__(self, lost=0, inscriptions=(), runes=()):
        self.lost, self.inscriptions, self.runes = lost, list(inscriptions), list(runes)

    def on(self, sat):
        return [number for number, row in enumerate(self.inscriptions) if row.sat == sat]

    def inscribed_satoshis(self):
        return sorted({row.sat for row in self.inscriptions if row.sat is not None})


def terms(amount, cap, start="none", end="none"):
    return f"amount {amount} cap {cap} from {start} to {end} after none until none"


def join_numbers(numbers):
    return "".join(f" {number}" for number in numbers)


# What a word looks up: the word, and the line that is printed for it by what an index holds.


def at(tx, index, tail):
    """The output of a transaction, as it is printed."""
    where = outpoint(tx, index)
    return f"at={where}", lambda held: f"at {where} {tail}"


def runs(height, *parts, script=SHORT, runes=""):
    """An output's height, its script, the first number and the count of each of its runs, and its
    runes."""
    ranges = "".join(f" {first}+{count}" for first, count in parts)
    return f"height {height} script {script.hex()}{ranges}" + (f" {runes}" if runes else "")


def sat(number, place):
    """Where a satoshi is."""

    def line(held):
        later = [other for other in held.inscribed_satoshis() if other >= number]
        after = f" {later[0]}:{join_numbers(held.on(later[0]))}" if later else " none"
        return f"satoshi {number} {place}:{join_numbers(held.on(number))}, next{after}"

    return f"sat={number}", line


def place(tx, offset, index=0):
    return f"at {offset} of {outpoint(tx, index)}"


def lost_place(offset):
    return f"at {offset} of the lost ones"


def look_up(word, number):
    """What an id or a name leads to."""
    return word, lambda held: f"{word} found {'none' if number is None else number}"


class Indexes(Rows):
    """The rows of indexes, and what these hold."""

    def live(self, what, profile="lab"):
        self.begin(what, f"live {profile}")
        self.halving, self.depth = HALVINGS[profile], None

    def chain(self, what, depth, profile="lab"):
        self.begin(what, f"chain {profile} {depth}")
        self.halving, self.depth = HALVINGS[profile], depth

    def lines(self, held, looks, tips):
        """A whole index."""
        line = f"ok {len(tips) - 1} {hash_text(tips[-1])}" if tips else "ok empty"
        yield from (line, f"{len(tips)} blocks, {held.lost} satoshis are lost")
        yield from (f"  height {height}: {hash_text(tip)}" for height, tip in enumerate(tips))
        yield f"  height {len(tips)}: none"
        yield f"{len(held.inscriptions)} inscriptions"
        yield from (
            row.line(number, held.inscriptions) for number, row in enumerate(held.inscriptions)
        )
        yield from (
            f"  satoshi {sat}:{join_numbers(held.on(sat))}" for sat in held.inscribed_satoshis()
        )
        yield f"{len(held.runes)} runes"
        yield from (rune.line(number) for number, rune in enumerate(held.runes))
        claimable = sum(SUBSIDY >> height // self.halving for height in range(len(tips)))
        yield f"audit claimable {claimable} lost {held.lost} outputs {claimable - held.lost}"
        yield from (rune.audit() for rune in held.runes)
        yield from (line(held) for _, line in looks)

    def dump(self, held, *looks, kept=None):
        """The whole index has to hold this, and each word to look up its line; and so has the one
        that is made from it as plain data."""
        head = [] if self.depth is None else [f"kept {kept} of {self.depth}, {kept} changes"]
        words = [word for word, _ in looks]
        lines = list(self.lines(held, looks, self.tips))
        self.row(" ".join(["dump", *words]), *head, *lines)
        self.row(" ".join(["plain", *words]), *lines)

    def both(self, before, after, *txs):
        """A block of these transactions leads from what is held and looked up before to what is
        after, and both ways."""
        self.leads(before, after, *block_of(self.tip(), txs))

    def leads(self, before, after, block, tip):
        """The same of a block by its bytes and its hash."""
        words = [word for word, _ in before[1]]
        assert words == [word for word, _ in after[1]]
        there = list(self.lines(*after, [*self.tips, tip]))
        back = list(self.lines(*before, self.tips))
        lines = ["connected", *there, "back", *back, "again", *there, "cancelled", *back]
        self.row(" ".join(["both", block.hex(), *words]), *lines)


# Satoshis.


def with_a_fee(rows, claimed):
    """A transaction that pays a fee of 2,000,000,000, and the coinbase, which claims so much; and
    what is looked up behind them."""
    paid, spends = scenarios.with_a_fee(rows, claimed)
    dealt = [
        at(spends, 0, runs(2, (0, 2_000_000_000))),
        at(spends, 1, runs(2, (2_000_000_000, 1_000_000_000))),
    ]
    return paid, [*dealt, at(plain(0), 0, "none"), at(plain(1), 0, runs(1, (SUBSIDY, SUBSIDY)))]


def satoshis(rows):
    rows.live("a coinbase gets the subsidy and then the fees", "regtest")
    paid, looks = with_a_fee(rows, 7_000_000_000)
    gets = at(paid, 0, runs(2, (10_000_000_000, SUBSIDY), (3_000_000_000, 2_000_000_000)))
    rows.dump(
        Held(),
        gets,
        *looks,
        sat(15_000_000_000, "nowhere"),
        sat(3_000_000_001, place(paid, 5_000_000_001)),
    )
    rows.live("what a coinbase leaves is lost", "regtest")
    paid, looks = with_a_fee(rows, 6_000_000_000)
    gets = at(paid, 0, runs(2, (10_000_000_000, SUBSIDY), (3_000_000_000, 1_000_000_000)))
    where = [sat(3_999_999_999, place(paid, 5_999_999_999)), sat(4_000_000_000, lost_place(0))]
    where.append(sat(4_999_999_999, lost_place(999_999_999)))
    rows.dump(Held(1_000_000_000), gets, *looks, *where, sat(15_000_000_000, "nowhere"))
    rows.live("an equal coinbase displaces the one before", "regtest")
    rows.connects(plain(7))
    rows.connects(plain(7))
    where = [sat(0, lost_place(0)), sat(SUBSIDY + 1, place(plain(7), 1))]
    rows.dump(Held(SUBSIDY), at(plain(7), 0, runs(1, (SUBSIDY, SUBSIDY))), *where)
    rows.live("displaced satoshis are lost before those that a coinbase leaves", "regtest")
    rows.plain(2)
    spends = transaction([spend(plain(1))], [(4_000_000_000, SHORT)])
    rows.connects(plain(0), spends)
    where = [
        sat(0, lost_place(0)),
        sat(SUBSIDY - 1, lost_place(SUBSIDY - 1)),
        sat(9_000_000_000, lost_place(SUBSIDY)),
    ]
    where += [sat(9_999_999_999, lost_place(5_999_999_999)), sat(2 * SUBSIDY, place(plain(0), 0))]
    dealt = [
        at(plain(0), 0, runs(2, (2 * SUBSIDY, SUBSIDY))),
        at(spends, 0, runs(2, (SUBSIDY, 4_000_000_000))),
    ]
    rows.dump(Held(6_000_000_000), *dealt, at(plain(1), 0, "none"), *where)


def refusals(rows):
    rows.live("an output is spent once", "regtest")
    rows.plain(1)
    spends = [transaction([spend(plain(0))], [(SUBSIDY, script)]) for script in (SHORT, b"\x52")]
    rows.refuses(f"refused 8 2 0 {outpoint(plain(0))}", plain(1), *spends)
    looks = [
        at(plain(0), 0, runs(0, (0, SUBSIDY))),
        at(plain(1), 0, "none"),
        at(spends[0], 0, "none"),
    ]
    rows.dump(Held(), *looks, sat(3, place(plain(0), 3)))
    rows.live("a transaction and a coinbase have no more than they may", "regtest")
    rows.plain(1)
    rows.refuses(
        "refused 9 1 5000000000 5000000001",
        plain(1),
        transaction([spend(plain(0))], [(SUBSIDY + 1, SHORT)]),
    )
    rows.refuses("refused 10 5000000000 5000000001", coinbase_to(1, [(SUBSIDY + 1, SHORT)]))
    rows.dump(Held(), *looks, sat(3, place(plain(0), 3)))
    rows.live(
        "an output that isn't there is told before what is spent too much: one named twice, and"
        " one that never was",
        "regtest",
    )
    rows.plain(1)
    for index, left in ((0, [(SUBSIDY, SHORT)]), (1, [(SUBSIDY, SHORT), (1, SHORT)])):
        names_it = transaction([spend(plain(0)), spend(plain(0), index)], [(4 * SUBSIDY, SHORT)])
        behind = transaction([spend(plain(0))], left)
        rows.refuses(f"refused 8 1 1 {outpoint(plain(0), index)}", plain(1), names_it, behind)
        rows.dump(
            Held(),
            at(plain(0), 0, runs(0, (0, SUBSIDY))),
            at(names_it, 0, "none"),
            sat(3, place(plain(0), 3)),
        )
    rows.live(
        "what a transaction has too much is told before what a coinbase has too much", "regtest"
    )
    rows.plain(1)
    greedy = transaction([spend(plain(0))], [(SUBSIDY, SHORT), (1, SHORT)])
    rows.refuses(
        "refused 9 1 5000000000 5000000001", coinbase_to(1, [(4 * SUBSIDY, SHORT)]), greedy
    )
    rows.dump(
        Held(),
        at(plain(0), 0, runs(0, (0, SUBSIDY))),
        at(greedy, 0, "none"),
        sat(3, place(plain(0), 3)),
    )
    rows.live("a coinbase has no more than the subsidy and the fees", "regtest")
    rows.plain(1)
    thrifty = transaction([spend(plain(0))], [(1, SHORT)])
    rows.refuses(
        "refused 10 9999999999 10000000000", coinbase_to(1, [(2 * SUBSIDY, SHORT)]), thrifty
    )
    rows.dump(
        Held(),
        at(plain(0), 0, runs(0, (0, SUBSIDY))),
        at(thrifty, 0, "none"),
        sat(3, place(plain(0), 3)),
    )
    rows.live(
        "coinbases stand first and alone: one with two inputs, a second one, and an index that"
        " isn't the greatest",
        "regtest",
    )
    null, named = (bytes(32), 2**32 - 1, b""), (bytes(32), 0, b"")
    lines = ("refused 7 0", "refused 7 1", f"refused 8 1 0 {64 * '0'}:0")
    for line, first, second in zip(lines, ([null, null], [null], [null]), (named, null, named)):
        rows.refuses(
            line, transaction(first, [(SUBSIDY, SHORT)]), transaction([second], [(1, SHORT)])
        )
    rows.dump(Held(), sat(0, "nowhere"))
    rows.live("a root of other transactions is refused", "regtest")
    _, want = block_of(bytes(32), [plain(0)])
    root = id_of(plain(0))
    block, _ = block_of(bytes(32), [plain(0)], lambda ids: want)
    rows.row(f"block {block.hex()}", f"refused 6 {hash_text(want)} {hash_text(root)}")
    rows.dump(Held(), at(plain(0), 0, "none"))


def last_height(rows):
    rows.live("a chain ends at the last height")
    for height in range(41):
        rows.connects(coinbase_to(height, [(SUBSIDY >> height // 10, SHORT)]))
    rows.refuses("refused 4 41", coinbase_to(41, [(0, SHORT)]))
    newest = coinbase_to(40, [(SUBSIDY >> 4, SHORT)])
    rows.dump(
        Held(),
        at(newest, 0, runs(40, (93_750_000_000, 312_500_000))),
        sat(94_062_500_000, "nowhere"),
    )


# Inscriptions.

# an unknown even tag, the type text/plain and the content hi
UNBOUND = envelope([(0x42, b"x"), (1, b"text/plain")], b"hi")
UNBOUND_FIELDS = f"type={b'text/plain'.hex()} body={b'hi'.hex()}"


def pointers(rows):
    rows.live("pointers choose satoshis")
    tx = scenarios.chosen_by_pointers(rows)
    # bit 4: not the first envelope; bit 5: a pointer; bit 7: on a satoshi that bore one before
    chosen = zip(POINTERS, (2_999, 0, 0, 1_000), (0x20, 0x30, 0xB0, 0x30))
    inscriptions = [
        Inscription(tx, 6, number, marks, at_, f"pointer={value}")
        for at_, (value, number, marks) in enumerate(chosen)
    ]
    looks = [
        sat(0, place(tx, 0)),
        sat(1, place(tx, 1)),
        sat(1_000, place(tx, 0, 1)),
        sat(2_999, place(tx, 1_999, 1)),
    ]
    dealt = [
        at(tx, 0, runs(6, (0, 1_000))),
        at(tx, 1, runs(6, (1_000, 2_000))),
        sat(3_000, lost_place(0)),
    ]
    rows.dump(Held(4_999_997_000, inscriptions), *looks, *dealt)
    rows.live("an unknown even tag leaves an inscription unbound")
    rows.plain(6)
    tx = reveal(plain(0), UNBOUND)
    rows.extend(tx)
    rows.dump(
        Held(0, [Inscription(tx, 6, None, 1, fields=UNBOUND_FIELDS)]),
        sat(0, place(tx, 0)),
        at(tx, 0, runs(6, (0, SUBSIDY))),
    )


def parents(rows):
    rows.live("a parent stood on the inputs before")
    rows.plain(6)
    first = reveal(plain(0), UNBOUND)
    rows.extend(first)
    p, q = scenarios.parents(rows)
    inscriptions = [
        Inscription(first, 6, None, 1, fields=UNBOUND_FIELDS),
        Inscription(p, 7, SUBSIDY),
    ]
    inscriptions.append(Inscription(q, 7, SUBSIDY, 0x80, parents=[inscription(p)]))
    inscriptions.append(Inscription(q, 7, SUBSIDY, 0x90, 1))
    ids = [
        look_up(f"id={inscription(*named)}", number)
        for number, named in enumerate([(first,), (p,), (q,), (q, 1)])
    ]
    rows.dump(Held(0, inscriptions), sat(SUBSIDY, place(q, 0)), at(p, 0, "none"), *ids)


def fees(rows):
    rows.live("an inscription in the fees comes last")
    rows.plain(6)
    paid = coinbase_to(6, [(2 * SUBSIDY, SHORT)])
    one = transaction([spend(plain(0)), spend(plain(1), 0, envelope())], [(SUBSIDY, SHORT)])
    two = reveal(plain(2), envelope())
    rows.connects(paid, one, two)
    inscriptions = [Inscription(two, 6, 2 * SUBSIDY), Inscription(one, 6, SUBSIDY, 8)]
    looks = [
        sat(SUBSIDY, place(paid, SUBSIDY)),
        sat(2 * SUBSIDY, place(two, 0)),
        at(one, 0, runs(6, (0, SUBSIDY))),
    ]
    rows.dump(
        Held(0, inscriptions),
        *looks,
        at(paid, 0, runs(6, (6 * SUBSIDY, SUBSIDY), (SUBSIDY, SUBSIDY))),
    )


def marks(rows):
    rows.live(
        "envelopes are marked: an unknown even tag, not the first one, and on a satoshi that"
        " bore one before"
    )
    rows.plain(3)
    first = reveal(plain(0), 2 * envelope())
    rows.extend(first)
    rows.plain(5)
    even = reveal(plain(1), UNBOUND)
    rows.extend(even)
    last = reveal(plain(2), 2 * envelope())
    rows.extend(last)
    inscriptions = [
        Inscription(first, 3, 0),
        Inscription(first, 3, 0, 0x90, 1),
        Inscription(even, 5, None, 1, fields=UNBOUND_FIELDS),
    ]
    inscriptions += [Inscription(last, 6, 2 * SUBSIDY), Inscription(last, 6, 2 * SUBSIDY, 0x90, 1)]
    rows.dump(
        Held(0, inscriptions),
        sat(0, place(first, 0)),
        sat(1, place(first, 1)),
        sat(2 * SUBSIDY + 1, place(last, 1)),
    )


def moves(rows):
    rows.live("an inscription moves with its satoshi: revealed, moved twice, and lost")
    rows.plain(2)
    first = reveal(plain(1), envelope())
    second = reveal(first)
    third = reveal(second)
    held = [Inscription(first, 2, SUBSIDY)]
    for tx in (first, second, third):
        rows.extend(tx)
        rows.dump(Held(0, held), sat(SUBSIDY, place(tx, 0)))
    rows.extend(transaction([spend(third)], [(0, SHORT)]))
    rows.dump(Held(SUBSIDY, held), sat(SUBSIDY, lost_place(0)), at(third, 0, "none"))


def finds(rows):
    rows.live(
        "the first of a shared id is found: an equal coinbase lets a transaction repeat with"
        " another witness"
    )
    rows.connects(plain(0))
    tx = reveal(plain(0), envelope())
    rows.extend(tx)
    rows.connects(plain(0))
    again = reveal(plain(0), UNBOUND)
    assert id_of(tx) == id_of(again)
    rows.extend(again)
    inscriptions = [Inscription(tx, 1, 0), Inscription(again, 3, None, 1, fields=UNBOUND_FIELDS)]
    looks = [
        look_up(f"id={inscription(tx)}", 0),
        sat(0, lost_place(0)),
        at(tx, 0, runs(3, (2 * SUBSIDY, SUBSIDY))),
    ]
    rows.dump(Held(SUBSIDY, inscriptions), *looks)
    rows.live("each inscription of a transaction is found")
    rows.plain(6)
    tx = reveal(plain(0), 2 * envelope())
    rows.extend(tx)
    ids = [
        look_up(f"id={inscription(tx, index)}", number) for index, number in enumerate((0, 1, None))
    ]
    rows.dump(Held(0, [Inscription(tx, 6, 0), Inscription(tx, 6, 0, 0x90, 1)]), *ids)


# Runes.

FROM_ETCHES = terms(5, 10)


def runes_of_mainnet():
    """The runes of mainnet before its first block."""
    rune = Rune(
        1,
        0,
        bytes(32),
        name=2_055_900_680_524_219_742,
        terms=terms(1, 2**128 - 1, 840_000, 1_050_000),
    )
    rune.shape = "spacers 128 divisibility 0 symbol ⧉"
    return [rune]


def mainnet(rows):
    rows.live("mainnet begins with a rune", "mainnet")
    looks = [
        look_up("rune=1:0", 0),
        look_up("name=2055900680524219742", 0),
        look_up("rune=0:1", None),
    ]
    rows.dump(Held(0, [], runes_of_mainnet()), *looks)
    rows.live("a chain of another profile begins with none", "regtest")
    rows.dump(Held(), look_up("rune=1:0", None), look_up("name=2055900680524219742", None))


def burns(rows):
    rows.live("a cenotaph burns what it mints")
    tx = etch(rows, ETCHES)
    rune = Rune(3, 1, id_of(tx), 7, gives=5, terms=FROM_ETCHES)
    rows.dump(
        Held(0, [], [rune]), at(tx, 0, runs(3, (0, SUBSIDY), runes="3:1=7")), look_up("rune=3:1", 0)
    )
    cenotaph = carry(tx, MINTS_AND_BURNS)
    rows.extend(cenotaph)
    rune = Rune(3, 1, id_of(tx), 7, burned=12, mints=1, gives=5, terms=FROM_ETCHES)
    rows.dump(Held(0, [], [rune]), at(tx, 0, "none"), at(cenotaph, 0, runs(4, (0, SUBSIDY))))
    rows.live("what is held doesn't count what was burned")
    tx = etch(rows, TEN)
    # an edict gives 4 to the output of the runestone itself, where they are burned
    moved = carry(tx, "6a5d050003010401")
    rows.extend(moved)
    rune = Rune(3, 1, id_of(tx), 10, held=6, burned=4)
    stone = runs(4, script=bytes.fromhex("6a5d050003010401"))
    rows.dump(
        Held(0, [], [rune]), at(moved, 0, runs(4, (0, SUBSIDY), runes="3:1=6")), at(moved, 1, stone)
    )


def edicts(rows):
    for stone, amounts in scenarios.SPLITS.items():
        rows.live(
            f"an edict splits a premine of 10 into {amounts[0]}, {amounts[1]} and {amounts[2]}"
        )
        tx, dealt = scenarios.edicts(rows, stone)
        looks = [
            at(dealt, index, runs(4, (index, 1), runes=f"3:1={amount}"))
            for index, amount in enumerate(amounts)
        ]
        rows.dump(Held(SUBSIDY - 3, [], [Rune(3, 1, id_of(tx), 10)]), *looks, sat(3, lost_place(0)))


def names(rows):
    rows.live("a name takes a commitment that counts from its sixth block on")
    name, young, counts = "name=96723641422", "rune=8:1", "rune=9:1"

    def early(tx):
        rows.dump(Held(), look_up(name, None), look_up(young, None))

    def late(tx):
        rune = Rune(9, 1, id_of(tx), name=96_723_641_422)
        rows.dump(Held(0, [], [rune]), look_up(name, 0), look_up(counts, 0), look_up(young, None))

    scenarios.names(rows, early, late)


def coinbases(rows):
    rows.live("displaced balances are burned", "regtest")
    five = coinbase_to(3, [(SUBSIDY, SHORT), (0, bytes.fromhex("6a5d0402010605"))])
    rows.connects(five)
    rows.dump(
        Held(0, [], [Rune(0, 0, id_of(five), 5)]), at(five, 0, runs(0, (0, SUBSIDY), runes="0:0=5"))
    )
    rows.connects(five)
    runes = [Rune(0, 0, id_of(five), 5, burned=5), Rune(1, 0, id_of(five), 5)]
    rows.dump(
        Held(SUBSIDY, [], runes),
        at(five, 0, runs(1, (SUBSIDY, SUBSIDY), runes="1:0=5")),
        sat(0, lost_place(0)),
    )
    rows.live(
        "a coinbase etches what its block mints, and its outputs get theirs at the block's end"
    )
    rows.plain(3)
    mints = carry(plain(0), "6a5d0414031400")
    etches = coinbase_to(3, [(SUBSIDY, SHORT), (0, bytes.fromhex(ETCHES))])
    rows.connects(etches, mints)
    rune = Rune(3, 0, id_of(etches), 7, mints=1, gives=5, terms=FROM_ETCHES)
    looks = [
        at(mints, 0, runs(3, (0, SUBSIDY), runes="3:0=5")),
        at(etches, 0, runs(3, (3 * SUBSIDY, SUBSIDY), runes="3:0=7")),
    ]
    rows.dump(Held(0, [], [rune]), *looks)


# A block that reveals, etches and moves runes, and those on which it stands.


class Full:
    """A chain of four blocks, whose last etches a premine of 10, and a block on it that does all at
    once."""

    def __init__(self, rows):
        self.rows, self.tx = rows, etch(rows, TEN)
        # an envelope, an etching with a premine of 5, and an edict that gives 4 to the first
        # output, which gets the rest too
        self.all = carry(self.tx, "6a5d09020106050003010400", envelope())
        self.rune = Rune(3, 1, id_of(self.tx), 10)
        self.named = [look_up(f"id={inscription(self.all)}", None), look_up("rune=4:1", None)]
        self.named.append(look_up(f"name={kept_name(4, 1)}", None))

    def before(self):
        looks = [
            at(self.tx, 0, runs(3, (0, SUBSIDY), runes="3:1=10")),
            at(self.all, 0, "none"),
            at(plain(4), 0, "none"),
        ]
        return Held(0, [], [self.rune]), [
            *looks,
            sat(0, place(self.tx, 0)),
            sat(4 * SUBSIDY, "nowhere"),
            *self.named,
        ]

    def after(self):
        whole = at(self.all, 0, runs(4, (0, SUBSIDY), runes="3:1=10 4:1=5"))
        looks = [at(self.tx, 0, "none"), whole, at(plain(4), 0, runs(4, (4 * SUBSIDY, SUBSIDY)))]
        held = Held(0, [Inscription(self.all, 4, 0)], [self.rune, Rune(4, 1, id_of(self.all), 5)])
        named = [look_up(word, number) for (word, _), number in zip(self.named, (0, 1, 1))]
        return held, [
            *looks,
            sat(0, place(self.all, 0)),
            sat(4 * SUBSIDY, place(plain(4), 0)),
            *named,
        ]

    def dump(self, side, **kept):
        held, looks = side
        self.rows.dump(held, *looks, **kept)


def refuse_a_full_block(rows):
    rows.live(
        "nothing stays of a refused block: it reveals, etches and moves runes, and its coinbase"
        " claims too much"
    )
    full = Full(rows)
    full.dump(full.before())
    rows.refuses(
        "refused 10 5000000000 5000000001", coinbase_to(4, [(SUBSIDY + 1, SHORT)]), full.all
    )
    full.dump(full.before())
    rows.extend(full.all)
    full.dump(full.after())


# Blocks that are taken back.


def keep_blocks(rows):
    rows.chain("a disconnect brings displaced satoshis back", 100, "regtest")
    rows.connects(plain(7))
    first = [
        at(plain(7), 0, runs(0, (0, SUBSIDY))),
        sat(3, place(plain(7), 3)),
        sat(SUBSIDY, "nowhere"),
    ]
    second = [
        at(plain(7), 0, runs(1, (SUBSIDY, SUBSIDY))),
        sat(3, lost_place(3)),
        sat(SUBSIDY, place(plain(7), 0)),
    ]
    rows.dump(Held(), *first, kept=1)
    for _ in range(2):
        rows.connects(plain(7))
        rows.dump(Held(SUBSIDY), *second, kept=2)
        rows.disconnects()
        rows.dump(Held(), *first, kept=1)
    rows.chain("no more blocks are kept than the depth", 1, "regtest")
    rows.row("disconnect", "refused 11")
    rows.plain(2)
    rows.dump(
        Held(), sat(7, place(plain(0), 7)), at(plain(1), 0, runs(1, (SUBSIDY, SUBSIDY))), kept=1
    )
    rows.disconnects()
    rows.row("disconnect", "refused 11")
    rows.dump(Held(), sat(7, place(plain(0), 7)), at(plain(1), 0, "none"), kept=0)


def all_back(rows):
    rows.chain("a disconnect takes inscriptions and runes back", 100)
    rows.plain(3)
    etches = carry(plain(0), ETCHES, envelope())
    # reveals, and burns by a cenotaph what it spends and mints
    burning = carry(etches, MINTS_AND_BURNS, envelope())
    tail = runs(3, (0, SUBSIDY), runes="3:1=7")
    before = [at(etches, 0, "none"), at(burning, 0, "none"), sat(0, place(plain(0), 0))]
    first = [at(etches, 0, tail), at(burning, 0, "none"), sat(0, place(etches, 0))]
    second = [
        at(etches, 0, "none"),
        at(burning, 0, runs(4, (0, SUBSIDY))),
        sat(0, place(burning, 0)),
    ]
    one = Held(
        0, [Inscription(etches, 3, 0)], [Rune(3, 1, id_of(etches), 7, gives=5, terms=FROM_ETCHES)]
    )
    burned = Rune(3, 1, id_of(etches), 7, burned=12, mints=1, gives=5, terms=FROM_ETCHES)
    two = Held(0, [*one.inscriptions, Inscription(burning, 4, 0, 0x80)], [burned])
    rows.dump(Held(), *before, kept=3)
    rows.extend(etches)
    rows.dump(one, *first, kept=4)
    rows.extend(burning)
    rows.dump(two, *second, kept=5)
    rows.disconnects()
    rows.dump(one, *first, kept=4)
    rows.disconnects()
    rows.dump(Held(), *before, kept=3)


def both_ways(rows):
    rows.live("an equal coinbase is taken in, back, in again and back", "regtest")
    rows.connects(plain(7))
    before = [
        at(plain(7), 0, runs(0, (0, SUBSIDY))),
        sat(0, place(plain(7), 0)),
        sat(SUBSIDY, "nowhere"),
    ]
    after = [
        at(plain(7), 0, runs(1, (SUBSIDY, SUBSIDY))),
        sat(0, lost_place(0)),
        sat(SUBSIDY, place(plain(7), 0)),
    ]
    rows.both((Held(), before), (Held(SUBSIDY), after), plain(7))
    rows.dump(Held(), *before)
    rows.live("inscriptions and runes are taken in, back, in again and back")
    rows.plain(3)
    etches = carry(plain(0), ETCHES, envelope())
    looks = [
        at(plain(0), 0, runs(0, (0, SUBSIDY))),
        at(plain(2), 0, runs(2, (2 * SUBSIDY, SUBSIDY))),
        at(etches, 0, "none"),
    ]
    before = Held(), [*looks, sat(0, place(plain(0), 0)), at(plain(3), 0, "none")]
    one = Held(
        0, [Inscription(etches, 3, 0)], [Rune(3, 1, id_of(etches), 7, gives=5, terms=FROM_ETCHES)]
    )
    looks = [at(plain(0), 0, "none"), looks[1], at(etches, 0, runs(3, (0, SUBSIDY), runes="3:1=7"))]
    after = one, [
        *looks,
        sat(0, place(etches, 0)),
        at(plain(3), 0, runs(3, (3 * SUBSIDY, SUBSIDY))),
    ]
    rows.both(before, after, plain(3), etches)
    rows.dump(before[0], *before[1])
    rows.live("a block that reveals, etches and moves runes is taken in, back, in again and back")
    full = Full(rows)
    rows.both(full.before(), full.after(), plain(4), full.all)
    full.dump(full.before())
    rows.extend(full.all)
    full.dump(full.after())


# the terms of the rune that the made block of height 1 etches
MADE_TERMS = terms(7, 1_000_000)


def made_state(blocks):
    """What the first made blocks leave: what is held, where their newest inscription's satoshi is,
    and what the newest transactions' outputs have."""
    inscriptions, minted, burned = [], 0, 0
    for height, (_, _, txs) in enumerate(blocks[1:], 1):
        fields = f"type={b'text/plain'.hex()} body={str(height).encode().hex()}"
        inscriptions.append(Inscription(txs[1], height, (height - 1) * SUBSIDY, fields=fields))
        minted += height > 1
        burned += 7 * (height % 10 == 0)
    runes = []
    if inscriptions:
        etching = id_of(blocks[1][2][1])
        runes.append(
            Rune(1, 1, etching, 100, burned=burned, mints=minted, gives=7, terms=MADE_TERMS)
        )
    return Held(len(blocks), inscriptions, runes)


def made_looks(blocks, height):
    """What is looked up before the block of a height and after it."""
    paid, (coinbase, spends) = blocks[height - 1][2][0], blocks[height][2]
    first, count = (height - 1) * SUBSIDY, SUBSIDY - 1
    runes = {1: "1:1=100"}.get(height, "" if height % 10 == 0 else "1:1=7")
    stone, commits = made_blocks.runestone(height), made_blocks.commitment([spends[1]])
    looks = [
        at_both(paid, 0, runs(height - 1, (first, count)), "none"),
        at_both(spends, 0, "none", runs(height, (first, count), runes=runes)),
        at_both(spends, 1, "none", runs(height, script=stone)),
        at_both(coinbase, 0, "none", runs(height, (height * SUBSIDY, count))),
        at_both(coinbase, 1, "none", runs(height, script=commits)),
    ]
    lost = height * SUBSIDY + count
    looks.append((sat(lost, "nowhere"), sat(lost, lost_place(height))))
    looks.append((sat(first, place(paid, 0)), sat(first, place(spends, 0))))
    return looks


def made_both_ways(rows):
    blocks = made_blocks.chain(12)
    for height in (1, 10, 11):
        what = f"the made block of height {height} is taken in, back, in again and back"
        rows.live(what, "regtest")
        for data, tip, _ in blocks[:height]:
            rows.takes(data.hex(), tip)
        data, tip, _ = blocks[height]
        held = made_state(blocks[:height]), made_state(blocks[: height + 1])
        rows.leads(*sides(*held, *made_looks(blocks, height)), data, tip)


def cancel_at_full_depth(rows):
    rows.chain(
        "a connect at full depth is cancelled, and the oldest of the kept blocks is kept again",
        2,
        "regtest",
    )
    rows.row("cancel disconnect", "refused 11")
    rows.plain(3)
    three = [at(plain(height), 0, runs(height, (height * SUBSIDY, SUBSIDY))) for height in range(3)]
    for _ in range(2):
        rows.cancels(plain(3))
        rows.dump(Held(), *three, at(plain(3), 0, "none"), sat(3 * SUBSIDY, "nowhere"), kept=2)
    refused = block_of(rows.tip(), [coinbase_to(3, [(SUBSIDY + 1, SHORT)])])[0]
    rows.row(f"cancel block {refused.hex()}", "refused 10 5000000000 5000000001")
    rows.disconnects()
    rows.disconnects()
    rows.row("disconnect", "refused 11")
    rows.dump(Held(), three[0], at(plain(1), 0, "none"), at(plain(2), 0, "none"), kept=0)
    rows.chain(
        "a disconnect is cancelled, and the block that it took back is kept again", 2, "regtest"
    )
    rows.plain(3)
    for _ in range(2):
        rows.cancels_a_disconnect()
        rows.dump(Held(), *three, sat(3 * SUBSIDY - 1, place(plain(2), SUBSIDY - 1)), kept=2)
    rows.disconnects()
    rows.cancels_a_disconnect()
    rows.dump(Held(), *three[:2], at(plain(2), 0, "none"), sat(2 * SUBSIDY, "nowhere"), kept=1)
    rows.disconnects()
    rows.row("cancel disconnect", "refused 11")
    rows.dump(Held(), three[0], at(plain(1), 0, "none"), kept=0)


def cancel_others(rows):
    rows.chain(
        "a connect of an equal coinbase is cancelled, and so is its disconnect", 100, "regtest"
    )
    rows.connects(plain(7))
    first = [
        at(plain(7), 0, runs(0, (0, SUBSIDY))),
        sat(3, place(plain(7), 3)),
        sat(SUBSIDY, "nowhere"),
    ]
    second = [
        at(plain(7), 0, runs(1, (SUBSIDY, SUBSIDY))),
        sat(3, lost_place(3)),
        sat(SUBSIDY, place(plain(7), 0)),
    ]
    rows.cancels(plain(7))
    rows.dump(Held(), *first, kept=1)
    rows.connects(plain(7))
    rows.dump(Held(SUBSIDY), *second, kept=2)
    rows.cancels_a_disconnect()
    rows.dump(Held(SUBSIDY), *second, kept=2)
    rows.disconnects()
    rows.dump(Held(), *first, kept=1)
    rows.chain("a block with an inscription and runes is cancelled both ways, with one kept", 1)
    full = Full(rows)
    rows.cancels(plain(4), full.all)
    full.dump(full.before(), kept=1)
    rows.extend(full.all)
    full.dump(full.after(), kept=1)
    rows.cancels_a_disconnect()
    full.dump(full.after(), kept=1)
    rows.disconnects()
    full.dump(full.before(), kept=0)


def burn_and_take_back(rows):
    rows.chain("a disconnect takes back what a cenotaph minted and burned", 100)
    etches = etch(rows, ETCHES)
    first = Held(0, [], [Rune(3, 1, id_of(etches), 7, gives=5, terms=FROM_ETCHES)])
    looks = [at(etches, 0, runs(3, (0, SUBSIDY), runes="3:1=7")), look_up("rune=3:1", 0)]
    rows.dump(first, *looks, kept=4)
    cenotaph = carry(etches, MINTS_AND_BURNS)
    rows.extend(cenotaph)
    rune = Rune(3, 1, id_of(etches), 7, burned=12, mints=1, gives=5, terms=FROM_ETCHES)
    rows.dump(
        Held(0, [], [rune]), at(etches, 0, "none"), at(cenotaph, 0, runs(4, (0, SUBSIDY))), kept=5
    )
    rows.disconnects()
    rows.dump(first, *looks, at(cenotaph, 0, "none"), kept=4)
    rows.chain("no more blocks are taken back than are kept", 2, "regtest")
    rows.plain(3)
    rows.disconnects()
    rows.disconnects()
    rows.row("disconnect", "refused 11")
    rows.dump(Held(), at(plain(0), 0, runs(0, (0, SUBSIDY))), at(plain(1), 0, "none"), kept=0)


def spend_twice_behind_two(rows):
    rows.live("an output is spent once, behind two blocks", "regtest")
    rows.plain(2)
    spends = [transaction([spend(plain(0))], [(value, SHORT)]) for value in (SUBSIDY, SUBSIDY - 1)]
    rows.refuses(f"refused 8 2 0 {outpoint(plain(0))}", plain(2), *spends)
    rows.dump(
        Held(),
        at(plain(0), 0, runs(0, (0, SUBSIDY))),
        at(plain(1), 0, runs(1, (SUBSIDY, SUBSIDY))),
        at(spends[0], 0, "none"),
    )


def bring_balances_back(rows):
    rows.chain("a disconnect brings displaced balances back", 100, "regtest")
    five = coinbase_to(3, [(SUBSIDY, SHORT), (0, bytes.fromhex("6a5d0402010605"))])
    rows.connects(five)
    first = Held(0, [], [Rune(0, 0, id_of(five), 5)])
    look = at(five, 0, runs(0, (0, SUBSIDY), runes="0:0=5"))
    rows.dump(first, look, kept=1)
    rows.connects(five)
    runes = [Rune(0, 0, id_of(five), 5, burned=5), Rune(1, 0, id_of(five), 5)]
    rows.dump(
        Held(SUBSIDY, [], runes),
        at(five, 0, runs(1, (SUBSIDY, SUBSIDY), runes="1:0=5")),
        look_up("rune=1:0", 1),
        kept=2,
    )
    rows.disconnects()
    rows.dump(first, look, look_up("rune=1:0", None), kept=1)


def runs_that_fall(rows):
    rows.live(
        "an output of 5,000,000,000 satoshis has two runs that fall, each with an inscription"
    )
    rows.plain(6)
    far, near = (place.to_bytes(5, "little") for place in (6_000_000_000, 3_000_000_000))
    half = SUBSIDY // 2
    inputs = [spend(plain(1), 0, envelope([(2, far)]) + envelope([(2, near)])), spend(plain(0))]
    tx = transaction(inputs, [(half, SHORT), (SUBSIDY, SHORT), (half, SHORT)])
    rows.extend(tx)
    # bit 4: not the first envelope of its input; bit 5: a pointer
    inscriptions = [Inscription(tx, 6, 1_000_000_000, 0x20, 0, f"pointer={far.hex()}")]
    inscriptions.append(Inscription(tx, 6, 8_000_000_000, 0x30, 1, f"pointer={near.hex()}"))
    looks = [
        at(tx, 1, runs(6, (7_500_000_000, half), (0, half))),
        sat(1_000_000_000, place(tx, 3_500_000_000, 1)),
    ]
    looks += [
        sat(8_000_000_000, place(tx, 500_000_000, 1)),
        sat(1_000_000_001, place(tx, 3_500_000_001, 1)),
    ]
    rows.dump(Held(0, inscriptions), *looks)


def words_alone(rows):
    rows.live("words are looked up without the rest of the index", "regtest")
    rows.plain(2)
    hashes = [f"  height {height}: {hash_text(tip)}" for height, tip in enumerate(rows.tips)]
    word, line = sat(SUBSIDY, place(plain(1), 0))
    rows.row(f"look height=0 height=1 height=2 {word}", *hashes, "  height 2: none", line(Held()))


# Blocks that lead both ways: by their change, and by a chain that takes them back.


def sides(before, after, *looks):
    """What an index holds and what is looked up in it, before a block and after it. A look is one
    before and one after."""
    return (before, [look for look, _ in looks]), (after, [look for _, look in looks])


def at_both(tx, index, before, after):
    """The output of a transaction, before a block and after it."""
    return at(tx, index, before), at(tx, index, after)


def leads_by_its_change(rows, what, make, profile="lab"):
    """A block is taken in, back, in again and back by its change. `make` puts the blocks before it,
    and answers what there is before it, what there is after it, and its transactions."""
    rows.live(f"{what}: taken in, back, in again and back", profile)
    before, after, txs = make(rows)
    rows.both(before, after, *txs)
    rows.dump(before[0], *before[1])


def leads_in_a_chain(rows, what, make, profile="lab"):
    """A block is connected, taken back, and connected and taken back once more."""
    rows.chain(f"{what}: connected and taken back, twice", 100, profile)
    before, after, txs = make(rows)
    height = len(rows.tips)
    rows.dump(before[0], *before[1], kept=height)
    for _ in range(2):
        rows.connects(*txs)
        rows.dump(after[0], *after[1], kept=height + 1)
        rows.disconnects()
        rows.dump(before[0], *before[1], kept=height)


def leads(rows, what, make, profile="lab"):
    leads_by_its_change(rows, what, make, profile)
    leads_in_a_chain(rows, what, make, profile)


# a mint of 3:1, alone, with what makes a cenotaph, and with an edict that gives 4 of it to output 1
MINTS = "6a5d0414031401"
MINTS_AND_GIVES = "6a5d09140314010003010401"
RETURN = b"\x6a"


def etched_by(tx, **counts):
    """The rune that a transaction etched by ETCHES at 3:1."""
    return Rune(3, 1, id_of(tx), 7, gives=5, terms=FROM_ETCHES, **counts)


def etch_and_mint_at_once(rows):
    rows.live(
        "a rune isn't minted where it is etched, and below the height at which runes start none"
        " is read"
    )
    rows.plain(1)
    # etches as ETCHES does, and mints 3:1
    stone = "6a5d0c02030607080a0a0514031401"
    early = carry(plain(0), stone)
    rows.extend(early)
    rows.dump(
        Held(),
        at(early, 0, runs(1, (0, SUBSIDY))),
        look_up("rune=1:1", None),
        look_up("rune=3:1", None),
    )
    rows.plain(3)
    tx = carry(early, stone)
    rows.extend(tx)
    whole = at(tx, 0, runs(3, (0, SUBSIDY), runes="3:1=7"))
    rows.dump(
        Held(0, [], [etched_by(tx)]), whole, look_up("rune=1:1", None), look_up("rune=3:1", 0)
    )


def return_alone(rows):
    """No output can hold the runes. Before that one behind an OP_RETURN gets them, without a
    runestone."""
    etches = etch(rows, ETCHES)
    passes = transaction([spend(etches)], [(0, RETURN), (SUBSIDY, SHORT)])
    rows.extend(passes)
    burning = transaction([spend(passes, 1)], [(SUBSIDY, RETURN)])
    looks = [at_both(passes, 0, *2 * [runs(4, script=RETURN)])]
    looks.append(at_both(passes, 1, runs(4, (0, SUBSIDY), runes="3:1=7"), "none"))
    looks.append(at_both(burning, 0, "none", runs(5, (0, SUBSIDY), script=RETURN)))
    before, after = sides(
        Held(0, [], [etched_by(etches)]), Held(0, [], [etched_by(etches, burned=7)]), *looks
    )
    return before, after, [plain(5), burning]


def spent_by(etches, outputs, looks, lost=0, **counts):
    """A block of height 4 that spends what ETCHES etched into these outputs, of which these looks
    tell before and after."""
    tx = transaction([spend(etches)], outputs)
    spent = at_both(etches, 0, runs(3, (0, SUBSIDY), runes="3:1=7"), "none")
    made = [at_both(tx, index, "none", after) for index, after in enumerate(looks)]
    held = Held(0, [], [etched_by(etches)]), Held(lost, [], [etched_by(etches, **counts)])
    return *sides(*held, spent, *made, 2 * (look_up("rune=3:1", 0),)), [plain(4), tx]


def two_stones(rows):
    etches = etch(rows, ETCHES)
    stones = [(0, bytes.fromhex(stone)) for stone in (MINTS, MINTS_AND_BURNS)]
    looks = [
        runs(4, (0, SUBSIDY), runes="3:1=12"),
        *(runs(4, script=script) for _, script in stones),
    ]
    return spent_by(etches, [(SUBSIDY, SHORT), *stones], looks, mints=1)


def mint_and_give(rows):
    etches, stone = etch(rows, ETCHES), bytes.fromhex(MINTS_AND_GIVES)
    looks = [
        runs(4, (0, 1), runes="3:1=8"),
        runs(4, (1, SUBSIDY - 1), runes="3:1=4"),
        runs(4, script=stone),
    ]
    return spent_by(etches, [(1, SHORT), (SUBSIDY - 1, SHORT), (0, stone)], looks, mints=1)


def mint_and_burn(rows):
    etches, stone = etch(rows, ETCHES), bytes.fromhex(MINTS_AND_BURNS)
    looks = [runs(4, (0, SUBSIDY)), runs(4, script=stone)]
    return spent_by(etches, [(SUBSIDY, SHORT), (0, stone)], looks, mints=1, burned=12)


def mint_without_inputs(rows):
    """A cenotaph's mint is burned, also where its inputs bring nothing."""
    etches, tx = etch(rows, ETCHES), carry(plain(1), MINTS_AND_BURNS)
    looks = [at_both(etches, 0, *2 * [runs(3, (0, SUBSIDY), runes="3:1=7")])]
    looks += [at_both(tx, 0, "none", runs(4, (SUBSIDY, SUBSIDY)))]
    before, after = sides(
        Held(0, [], [etched_by(etches)]),
        Held(0, [], [etched_by(etches, mints=1, burned=5)]),
        *looks,
    )
    return before, after, [plain(4), tx]


def mint_by_a_coinbase(rows):
    etches = etch(rows, ETCHES)
    paid = coinbase_to(4, [(SUBSIDY, SHORT), (0, bytes.fromhex(MINTS))])
    looks = [at_both(etches, 0, *2 * [runs(3, (0, SUBSIDY), runes="3:1=7")])]
    looks.append(at_both(paid, 0, "none", runs(4, (4 * SUBSIDY, SUBSIDY), runes="3:1=5")))
    before, after = sides(
        Held(0, [], [etched_by(etches)]), Held(0, [], [etched_by(etches, mints=1)]), *looks
    )
    return before, after, [paid]


def etch_by_a_coinbase(rows):
    """The first transaction mints what the coinbase etches."""
    rows.plain(3)
    mints = carry(plain(0), "6a5d0414031400")
    etches = coinbase_to(3, [(SUBSIDY, SHORT), (0, bytes.fromhex(ETCHES))])
    rune = Rune(3, 0, id_of(etches), 7, mints=1, gives=5, terms=FROM_ETCHES)
    looks = [at_both(mints, 0, "none", runs(3, (0, SUBSIDY), runes="3:0=5"))]
    looks.append(at_both(etches, 0, "none", runs(3, (3 * SUBSIDY, SUBSIDY), runes="3:0=7")))
    for word in ("rune=3:0", f"name={kept_name(3, 0)}"):
        looks.append((look_up(word, None), look_up(word, 0)))
    return *sides(Held(), Held(0, [], [rune]), *looks), [etches, mints]


def a_thousand_outputs(rows):
    etches = etch(rows, "6a5d05020106e807")
    # an edict that splits all of 3:1 among the outputs of a transaction of 1,001
    stone = bytes.fromhex("6a5d0600030100e907")
    tx = transaction([spend(etches)], [(1, SHORT)] * 1_000 + [(0, stone)])
    looks = [at_both(etches, 0, runs(3, (0, SUBSIDY), runes="3:1=1000"), "none")]
    for index in (0, 1, 2, 499, 500, 998, 999):
        looks.append(at_both(tx, index, "none", runs(4, (index, 1), runes="3:1=1")))
    looks.append(at_both(tx, 1_000, "none", runs(4, script=stone)))
    rune = Rune(3, 1, id_of(etches), 1_000)
    return *sides(Held(0, [], [rune]), Held(SUBSIDY - 1_000, [], [rune]), *looks), [plain(4), tx]


def five_again(rows):
    """The first block of a regtest chain, a coinbase that etches a premine of 5; and what is looked
    up of it, before and after an equal one."""
    five = coinbase_to(3, [(SUBSIDY, SHORT), (0, bytes.fromhex("6a5d0402010605"))])
    rows.connects(five)
    looks = [
        at_both(
            five,
            0,
            runs(0, (0, SUBSIDY), runes="0:0=5"),
            runs(1, (SUBSIDY, SUBSIDY), runes="1:0=5"),
        )
    ]
    looks.append((look_up("rune=1:0", None), look_up("rune=1:0", 1)))
    return five, looks


def made_again(rows):
    five, looks = five_again(rows)
    runes = [Rune(0, 0, id_of(five), 5, burned=5), Rune(1, 0, id_of(five), 5)]
    return *sides(Held(0, [], [Rune(0, 0, id_of(five), 5)]), Held(SUBSIDY, [], runes), *looks), [
        five
    ]


def spent_and_made_again(rows):
    """A transaction spends the output of the coinbase before, which its block's coinbase makes
    again."""
    five, looks = five_again(rows)
    tx = reveal(five)
    looks.append(at_both(tx, 0, "none", runs(1, (0, SUBSIDY), runes="0:0=5")))
    runes = [Rune(height, 0, id_of(five), 5) for height in (0, 1)]
    return *sides(Held(0, [], runes[:1]), Held(0, [], runes), *looks), [five, tx]


def displaced_by_nothing(rows):
    """A coinbase mints what can be minted once, and an equal one comes after it, which mints
    nothing."""
    etches = etch(rows, "6a5d080203060708010a05")
    paid = coinbase_to(9, [(SUBSIDY, SHORT), (0, bytes.fromhex(MINTS))])
    rows.connects(paid)
    both = (
        Rune(3, 1, id_of(etches), 7, mints=1, gives=5, terms=terms(5, 1), burned=burned)
        for burned in (0, 5)
    )
    before, after = (Held(lost, [], [rune]) for lost, rune in zip((0, SUBSIDY), both))
    of_both = runs(4, (4 * SUBSIDY, SUBSIDY), runes="3:1=5"), runs(5, (5 * SUBSIDY, SUBSIDY))
    looks = [
        at_both(paid, 0, *of_both),
        at_both(etches, 0, *2 * [runs(3, (0, SUBSIDY), runes="3:1=7")]),
    ]
    return *sides(before, after, *looks), [paid]


def etch_and_move(rows):
    full = Full(rows)
    return full.before(), full.after(), [plain(4), full.all]


def runes_both_ways(rows):
    leads(rows, "outputs with OP_RETURN alone burn", return_alone)
    leads(rows, "the first of two runestones counts", two_stones)
    leads(rows, "a mint with an edict", mint_and_give)
    leads(rows, "a cenotaph burns its mint and its inputs' runes", mint_and_burn)
    leads(rows, "a cenotaph burns its mint alone", mint_without_inputs)
    leads(rows, "a coinbase mints", mint_by_a_coinbase)
    leads(rows, "a coinbase etches what its block mints", etch_by_a_coinbase)
    leads(rows, "a thousand outputs hold runes", a_thousand_outputs)
    leads(rows, "an output is made again with other runes", made_again, "regtest")
    leads(
        rows, "an output is spent and made again with other runes", spent_and_made_again, "regtest"
    )
    leads(
        rows,
        "an output that is made again burns what stood there, though nothing comes",
        displaced_by_nothing,
    )
    leads_in_a_chain(rows, "a block reveals, etches and moves runes", etch_and_move)


def etch_in_a_row(rows, count):
    """So many blocks from height 3 on, each of which etches a premine of 10 in the transaction that
    spends the output before. The runes, and the last transaction."""
    tx = etch(rows, TEN)
    runes = [Rune(3, 1, id_of(tx), 10)]
    for height in range(4, 3 + count):
        tx = carry(tx, TEN)
        rows.extend(tx)
        runes.append(Rune(height, 1, id_of(tx), 10))
    return runes, tx


def amounts_of(runes):
    return " ".join(f"{rune.id}=10" for rune in runes)


def third_rune(rows):
    """An output that holds two runes is spent into one that holds three."""
    runes, tx = etch_in_a_row(rows, 2)
    etches = carry(tx, TEN)
    both = [*runes, Rune(5, 1, id_of(etches), 10)]
    looks = [at_both(tx, 0, runs(4, (0, SUBSIDY), runes=amounts_of(runes)), "none")]
    looks.append(at_both(etches, 0, "none", runs(5, (0, SUBSIDY), runes=amounts_of(both))))
    return *sides(Held(0, [], runes), Held(0, [], both), *looks), [plain(5), etches]


def three_runes_burn(rows):
    runes, tx = etch_in_a_row(rows, 3)
    cenotaph = carry(tx, "6a5d027e00")
    burned = [Rune(3 + place, 1, rune.etching, 10, burned=10) for place, rune in enumerate(runes)]
    looks = [at_both(tx, 0, runs(5, (0, SUBSIDY), runes=amounts_of(runes)), "none")]
    looks.append(at_both(cenotaph, 0, "none", runs(6, (0, SUBSIDY))))
    return *sides(Held(0, [], runes), Held(0, [], burned), *looks), [plain(6), cenotaph]


def several_runes(rows):
    leads(rows, "an output that holds two runes is spent into one that holds three", third_rune)
    leads(rows, "a cenotaph burns three runes", three_runes_burn)


def on_one_satoshi(tx, sat, first, count, marks):
    """So many inscriptions of a transaction from this index on, on one satoshi. The first has these
    marks."""
    # bit 4: not the first envelope of its input; bit 7: on a satoshi that bore one before
    return [
        Inscription(tx, 6, sat, marks | (0x90 if at_ else 0), first + at_) for at_ in range(count)
    ]


def many_in_the_fees(rows):
    """Of each of two transactions the first input's inscriptions stay, and the second's go to the
    fees."""
    rows.plain(6)
    counts = (12, 13), (13, 12)
    txs = []
    for place, pair in enumerate(counts):
        inputs = [
            spend(plain(2 * place + at_), 0, count * envelope()) for at_, count in enumerate(pair)
        ]
        txs.append(transaction(inputs, [(SUBSIDY, SHORT)]))
    paid = coinbase_to(6, [(3 * SUBSIDY, SHORT)])
    # bit 3: not the first input
    stay = [
        row
        for place, tx in enumerate(txs)
        for row in on_one_satoshi(tx, 2 * place * SUBSIDY, 0, counts[place][0], 0)
    ]
    late = []
    for place, (tx, (first, second)) in enumerate(zip(txs, counts)):
        late += on_one_satoshi(tx, (2 * place + 1) * SUBSIDY, first, second, 8)
    assert (len(stay), len(late)) == (25, 25)
    gets = runs(6, *((height * SUBSIDY, SUBSIDY) for height in (6, 1, 3)))
    looks = [at_both(paid, 0, "none", gets)]
    looks += [
        at_both(tx, 0, "none", runs(6, (2 * place * SUBSIDY, SUBSIDY)))
        for place, tx in enumerate(txs)
    ]
    return *sides(Held(), Held(0, stay + late), *looks), [paid, *txs]


def fifty_parents(rows):
    """An envelope names 50 ids, the first of them twice: 25 stand on its input, 12 elsewhere, and
    12 nowhere."""
    rows.plain(6)
    first, other = reveal(plain(0), 25 * envelope()), reveal(plain(1), 12 * envelope())
    rows.extend(first, other)
    stand = [(first, 7 * at_ % 25) for at_ in range(25)]
    absent = [(other, at_) for at_ in range(12)] + [(first, 25 + at_) for at_ in range(12)]
    named = [
        pair for at_, one in enumerate(stand) for pair in (one, *absent[at_ : at_ + 1])
    ] + stand[:1]
    assert len(named) == 50
    child = reveal(first, envelope([(3, id_value(id_of(tx), index)) for tx, index in named]))
    there = on_one_satoshi(first, 0, 0, 25, 0) + on_one_satoshi(other, SUBSIDY, 0, 12, 0)
    row = Inscription(child, 7, 0, 0x80, parents=[inscription(tx, index) for tx, index in stand])
    looks = [
        at_both(first, 0, runs(6, (0, SUBSIDY)), "none"),
        at_both(child, 0, "none", runs(7, (0, SUBSIDY))),
    ]
    word = f"id={inscription(child)}"
    looks.append((look_up(word, None), look_up(word, 37)))
    return *sides(Held(0, there), Held(0, [*there, row]), *looks), [plain(7), child]


def behind_an_annex(rows):
    rows.live("an annex is set aside")
    rows.plain(6)
    tx = transaction([spend(plain(0), 0, envelope())], [(SUBSIDY, SHORT)], annex=b"\x50")
    rows.extend(tx)
    rows.dump(
        Held(0, [Inscription(tx, 6, 0)]), sat(0, place(tx, 0)), at(tx, 0, runs(6, (0, SUBSIDY)))
    )


def unbound_past_the_sum(rows):
    """The first envelope's satoshi goes to the fees, which the coinbase leaves. The second has an
    unknown even tag and a pointer past all satoshis, and is on none."""
    rows.plain(6)
    script = envelope() + envelope([(0x42, b"x"), (2, 8 * b"\xff")])
    tx = transaction([spend(plain(0)), spend(plain(1), 0, script)], [(SUBSIDY, SHORT)])
    held = Held(
        SUBSIDY,
        [Inscription(tx, 6, None, 0x39, 1, f"pointer={16 * 'f'}"), Inscription(tx, 6, SUBSIDY, 8)],
    )
    looks = [
        at_both(tx, 0, "none", runs(6, (0, SUBSIDY))),
        (sat(SUBSIDY, place(plain(1), 0)), sat(SUBSIDY, lost_place(0))),
    ]
    return *sides(Held(), held, *looks), [plain(6), tx]


def named_twice(rows):
    """A child names one that stands on its input, an unbound one, and the first again."""
    rows.plain(6)
    first = reveal(plain(0), envelope() + envelope([(0x42, b"x")]))
    rows.extend(first)
    named = [(3, id_value(id_of(first), index)) for index in (0, 1, 0)]
    child = reveal(first, envelope(named))
    there = [Inscription(first, 6, 0), Inscription(first, 6, None, 0x11, 1)]
    row = Inscription(child, 7, 0, 0x80, parents=[inscription(first)])
    words = [f"id={inscription(tx, index)}" for tx, index in ((first, 0), (first, 1), (child, 0))]
    looks = [
        (look_up(word, before), look_up(word, number))
        for number, (word, before) in enumerate(zip(words, (0, 1, None)))
    ]
    looks.append((sat(0, place(first, 0)), sat(0, place(child, 0))))
    return *sides(Held(0, there), Held(0, [*there, row]), *looks), [plain(7), child]


def repeated(rows):
    """An equal coinbase lets a transaction repeat with another witness, which has the pointer 1."""
    first, again = reveal(plain(0), envelope()), reveal(plain(0), envelope([(2, b"\1")]))
    assert id_of(first) == id_of(again)
    for txs in ([plain(0)], [plain(1), first], [plain(0)]):
        rows.connects(*txs)
    one, two = Inscription(first, 1, 0), Inscription(
        again, 3, 2 * SUBSIDY + 1, 0x20, fields="pointer=01"
    )
    looks = [2 * (look_up(f"id={inscription(first)}", 0),)]
    looks.append(at_both(first, 0, runs(1, (0, SUBSIDY)), runs(3, (2 * SUBSIDY, SUBSIDY))))
    looks.append((sat(0, place(first, 0)), sat(0, lost_place(0))))
    return *sides(Held(0, [one]), Held(SUBSIDY, [one, two]), *looks), [plain(3), again]


def inscriptions_both_ways(rows):
    leads(rows, "of fifty inscriptions one half goes to the fees", many_in_the_fees)
    leads(rows, "an envelope names fifty parents", fifty_parents)
    leads(
        rows,
        "an unbound inscription whose pointer passes the sum doesn't go to the fees",
        unbound_past_the_sum,
    )
    leads(rows, "a parent is named twice, and one is unbound", named_twice)
    leads(rows, "a transaction is repeated", repeated)
    # behind the last of these its blocks are taken back as well
    for kept, look, held in (
        (2, 0, Held(0, [Inscription(reveal(plain(0), envelope()), 1, 0)])),
        (1, None, Held()),
    ):
        rows.disconnects()
        rows.dump(held, look_up(f"id={inscription(reveal(plain(0)))}", look), kept=kept)


# Commitments to witnesses.


def lone_commitments(rows):
    """Blocks of a coinbase alone, whose witness root is 32 zero bytes."""
    right, sevens = commitment(), 32 * b"\7"
    wrong = right[:-1] + bytes([right[-1] ^ 1])
    refused = {
        "its last byte is another": committing(0, wrong),
        "the coinbase is marked, and there is none": committing(0),
        "there is no reserved value": committing(0, right, items=()),
        "there are two": committing(0, right, items=(RESERVED, RESERVED)),
        "the reserved value has 31 bytes": committing(0, right, items=(RESERVED[1:],)),
        "it has 33 bytes": committing(0, right, items=(RESERVED + b"\0",)),
        "it is another": committing(0, right, items=(sevens,)),
        "the first of two is right": committing(0, right, wrong),
        "it has 37 bytes": committing(0, right[:-1]),
        "it begins otherwise": committing(0, b"\x6a\x24\xaa\x21\xa9\xee" + right[6:]),
    }
    for what, coinbase in refused.items():
        rows.live(f"a commitment to witnesses fails: {what}", "regtest")
        rows.refuses("refused 12", coinbase)
        rows.dump(Held(), sat(0, "nowhere"))
    taken = {
        "as blocks are made for tests": committing(0, right),
        "the last of two is right": committing(0, wrong, right),
        "it has 45 bytes": committing(0, right + b"\7" * 7),
        "it stands in the output before the last": committing(0, right, SHORT),
        "the reserved value isn't zeros": committing(0, commitment(value=sevens), items=(sevens,)),
        "37 bytes are none, and nothing is marked": committing(0, right[:-1], items=()),
    }
    for what, coinbase in taken.items():
        rows.live(f"a commitment to witnesses holds: {what}", "regtest")
        rows.connects(coinbase)
        rows.dump(Held(1), sat(0, place(coinbase, 0)), sat(SUBSIDY - 1, lost_place(0)))


def commitments_to_others(rows):
    rows.live("a commitment is over the whole forms, and stands in the coinbase", "regtest")
    rows.plain(2)
    others = reveal(plain(0), SHORT), reveal(plain(1))
    sevens, row = 32 * b"\7", root([bytes(32), *(twice(whole) for _, whole in others)])
    stripped = COMMITS + twice(root([bytes(32), *map(id_of, others)]) + RESERVED)
    rows.refuses("refused 12", plain(2), *others)
    rows.refuses("refused 12", committing(2, stripped), *others)
    rows.refuses(
        "refused 12", committing(2, COMMITS + twice(sevens + row), items=(sevens,)), *others
    )
    rows.refuses("refused 12", committing(2, commitment(*others)), *reversed(others))
    elsewhere = transaction([spend(plain(1))], [(SUBSIDY, SHORT), (0, commitment(others[0]))])
    rows.refuses("refused 12", plain(2), others[0], elsewhere)
    coinbase = committing(2, commitment(*others))
    rows.connects(coinbase, *others)
    looks = [
        at(other, 0, runs(2, (number * SUBSIDY, SUBSIDY))) for number, other in enumerate(others)
    ]
    rows.dump(Held(1), *looks, at(coinbase, 0, runs(2, (2 * SUBSIDY, SUBSIDY - 1))))
    rows.extend(
        elsewhere := transaction([spend(others[1])], [(SUBSIDY, SHORT), (0, commitment(others[0]))])
    )
    rows.dump(Held(1), at(elsewhere, 0, runs(3, (SUBSIDY, SUBSIDY))))
    rows.live("every second of 2,000 transactions is marked", "regtest")
    first = coinbase_to(0, 1999 * [(SUBSIDY // 2000, SHORT)])
    rows.connects(first)
    spends = [
        transaction([spend(first, index, SHORT if index % 2 else b"")], [(1, SHORT)])
        for index in range(1999)
    ]
    rows.connects(committing(1, commitment(*spends)), *spends)


def first_commitment(rows):
    """Around the first height of lab that needs commitments."""

    def subsidy(height):
        return SUBSIDY >> height // 10

    def coinbase(height):
        return coinbase_to(height, [(subsidy(height), SHORT)])

    rows.live(
        "commitments are needed from a height on, and tested behind coinbases and before outputs"
    )
    for height in range(29):
        rows.connects(coinbase(height))
    old, new, unknown = (reveal(coinbase(number), SHORT) for number in (0, 1, 40))
    rows.connects(coinbase(29), old)
    rows.refuses("refused 12", coinbase(30), new)
    rows.refuses("refused 12", coinbase(30), unknown)
    rows.refuses("refused 7 2", coinbase(30), new, coinbase(31))
    paid = committing(30, commitment(unknown), value=subsidy(30))
    rows.refuses(f"refused 8 1 0 {outpoint(coinbase(40))}", paid, unknown)
    rows.connects(coinbase(30))
    rows.refuses("refused 12", coinbase(31), new)
    rows.connects(committing(31, commitment(new), value=subsidy(31)), new)
    rows.dump(Held(), at(old, 0, runs(29, (0, SUBSIDY))), at(new, 0, runs(31, (SUBSIDY, SUBSIDY))))


GROUPS = [
    satoshis,
    refusals,
    last_height,
    pointers,
    parents,
    fees,
    marks,
    moves,
    finds,
    mainnet,
    burns,
    edicts,
    names,
]
GROUPS += [
    coinbases,
    refuse_a_full_block,
    keep_blocks,
    all_back,
    both_ways,
    made_both_ways,
    cancel_at_full_depth,
    cancel_others,
]
GROUPS += [
    burn_and_take_back,
    spend_twice_behind_two,
    bring_balances_back,
    runs_that_fall,
    words_alone,
]
GROUPS += [
    etch_and_mint_at_once,
    runes_both_ways,
    several_runes,
    behind_an_annex,
    inscriptions_both_ways,
]
GROUPS += [lone_commitments, commitments_to_others, first_commitment]


def made():
    """Every row, and the lines for them."""
    rows, reckoned, asking = Indexes(), Reckoned(), query_rows.Queries()
    for group in GROUPS:
        group(rows)
    for group in rune_rows.GROUPS + shelf_rows.GROUPS:
        group(reckoned)
    for group in query_rows.GROUPS:
        group(asking)
    rows.rows += reckoned.rows + asking.rows
    for row, line in rows_of_files.rows():
        rows.row(row, line)
    return rows.made()
