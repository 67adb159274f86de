"""What blocks change in an index, over the rows of row_forms: what their transactions do to
satoshis, inscriptions and runes is carried out by docs/RULES.md."""

from typing import NamedTuple

import made_blocks
from row_ends import change_between, count_of, cut, first_of, joined
from row_forms import Index, Inscription, Output, Rune, Terms
from tools.bitcoin import commitment, twice
from tools.runes import kept_name

OPEN = b"\x51"


class Tx(NamedTuple):
    """A transaction: its id; the outpoints that it spends, none for a coinbase; its outputs' values
    and scripts; how many envelopes its first input has, and the fields that they tell; the rune
    that it etches; the id of the one that it mints; and whether it is a cenotaph."""

    id: bytes
    inputs: list = []
    outputs: list = []
    envelopes: int = 0
    fields: dict = {}
    etches: Rune | None = None
    mints: tuple | None = None
    burns: bool = False


class Block:
    """A block behind an index, as far as it is done; the coinbase is its first transaction."""

    def __init__(self, profile, before, txs):
        self.before, self.txs, self.height = before, txs, len(before.hashes)
        first, end = (first_of(profile, self.height + more) for more in (0, 1))
        self.new = [(first, end - first)] if first < end else []
        self.outputs, self.lost = dict(before.outputs), before.lost
        self.shelf, self.runes = list(before.inscriptions), list(before.runes)
        self.balances = {at: dict(held) for at, held in before.balances}

    def after(self, hash_):
        """The index behind the block."""
        held = [self.gather(place, tx) for place, tx in enumerate(self.txs)]
        assert not any(held[1:])
        self.deal(self.txs[0], held[0])
        fees = [self.move(tx, self.take(tx)) for tx in self.txs[1:]]
        unclaimed = self.move(self.txs[0], joined(self.new, *fees))
        self.lost = joined(self.lost, unclaimed)
        balances = {at: sorted(held.items()) for at, held in self.balances.items()}
        return Index(
            [*self.before.hashes, hash_],
            sorted(self.outputs.items()),
            self.lost,
            self.shelf,
            sorted(balances.items()),
            self.runes,
        )

    # ---- satoshis and inscriptions

    def take(self, tx):
        """The satoshis that a transaction spends. The first of its first input bears what it
        reveals."""
        sats = [self.outputs.pop(at).sats for at in tx.inputs]
        for index in range(tx.envelopes):
            self.reveal(tx, index, sats[0][0][0] if sats[0] else None)
        return joined(*sats)

    def reveal(self, tx, index, sat):
        """Reveals an envelope, whose satoshi the outputs take."""
        borne = sat is not None and any(row.sat == sat for row in self.shelf)
        # bit 4: not the first envelope of its input; bit 7: on a satoshi that bore one before
        marks = (0x10 if index else 0) | (0x80 if borne else 0)
        row = Inscription((tx.id, index), self.height, marks=marks, sat=sat)
        self.shelf.append(row._replace(**tx.fields))

    def move(self, tx, sats):
        """Deals satoshis to a transaction's outputs; what still stands at their outpoints is lost.
        It gives what is left over."""
        for index, (value, script) in enumerate(tx.outputs):
            if (tx.id, index) in self.outputs:
                self.lost = joined(self.lost, self.outputs[tx.id, index].sats)
            front, sats = cut(sats, value)
            assert count_of(front) == value
            self.outputs[tx.id, index] = Output(script, self.height, front)
        return sats

    # ---- runes

    def count(self, rune, mints=0, burned=0):
        """Counts mints of a rune and what is burned of it."""
        place = [row.id for row in self.runes].index(rune)
        row = self.runes[place]
        self.runes[place] = row._replace(mints=row.mints + mints, burned=row.burned + burned)

    def burn(self, held):
        for rune, amount in held.items():
            self.count(rune, burned=amount)

    def mint(self, rune):
        """What a mint gives, where there were fewer than the cap."""
        row = next(row for row in self.runes if row.id == rune)
        if row.mints == row.terms.cap:
            return {}
        self.count(rune, mints=1)
        return {rune: row.terms.amount}

    def etch(self, place, tx):
        """The premine of the rune that the transaction at this place etches."""
        rune = self.height, place
        name = kept_name(*rune) if tx.etches.name is None else tx.etches.name
        self.runes.append(tx.etches._replace(id=rune, name=name, etching=tx.id))
        return {rune: tx.etches.premine} if tx.etches.premine else {}

    def gather(self, place, tx):
        """Deals what a transaction has of runes; what the coinbase has is given, to be dealt at the
        end."""
        held = {}
        parts = [self.balances.pop(at, {}) for at in tx.inputs]
        parts.append(self.mint(tx.mints) if tx.mints else {})
        parts.append(self.etch(place, tx) if tx.etches else {})
        for rune, amount in (pair for part in parts for pair in part.items()):
            held[rune] = held.get(rune, 0) + amount
        if tx.burns:
            self.burn(held)
            held = {}
        if not place:
            return held
        self.deal(tx, held)
        return {}

    def deal(self, tx, held):
        """Gives all to a transaction's first output; what still stands at the outpoints of any is
        burned."""
        for index in range(len(tx.outputs)):
            self.burn(self.balances.pop((tx.id, index), {}))
        if held:
            self.balances[tx.id, 0] = held


class Chain:
    """An index to which blocks are put."""

    def __init__(self, profile):
        self.profile, self.index = profile, Index()

    def put(self, hash_, *txs):
        """The index before a block of these transactions, and the change that the block makes."""
        before = self.index
        self.index = Block(self.profile, before, txs).after(hash_)
        return before, change_between(before, self.index)

    def height(self):
        return len(self.index.hashes)

    def subsidy(self):
        """How many satoshis the next block mints."""
        return first_of(self.profile, self.height() + 1) - first_of(self.profile, self.height())


# ---- made blocks


def spend_of(height, paid, tx):
    """The transaction of a made block that spends the coinbase before."""
    outputs = [(made_blocks.claim(height - 1), OPEN), (0, made_blocks.runestone(height))]
    told = {"content_type": b"text/plain", "body": str(height).encode()}
    spends = Tx(twice(tx[0]), [(paid, 0)], outputs, 1, told)
    if height == 1:
        return spends._replace(etches=Rune(None, None, premine=100, terms=Terms(7, 1_000_000)))
    return spends._replace(mints=(1, 1), burns=height % 10 == 0)


def made_changes(many):
    """The index before each of the first made blocks, and the change that the block makes."""
    chain, paid = Chain("regtest"), None
    for height, (_, tip, txs) in enumerate(made_blocks.chain(many)):
        commits = commitment([whole for _, whole in txs[1:]])
        coinbase = Tx(twice(txs[0][0]), [], [(made_blocks.claim(height), OPEN), (0, commits)])
        yield chain.put(tip, coinbase, *(spend_of(height, paid, tx) for tx in txs[1:]))
        paid = coinbase.id


# ---- a whole chain of lab


MINT, OTHER = (3, 1), (4, 1)
# what the first transaction behind the coinbase does at some heights
DONE = {
    3: {"etches": Rune(None, None, premine=100, terms=Terms(7, 6))},
    4: {"etches": Rune(None, 27, terms=Terms(1 << 100, 5))},
    6: {"mints": MINT, "envelopes": 1},
    7: {"envelopes": 2},
    8: {"mints": MINT, "envelopes": 1},
    10: {"mints": MINT, "burns": True},
    11: {"mints": MINT},
    19: {"envelopes": 1, "etches": Rune(None, None, premine=5)},
    23: {"burns": True},
    24: {"etches": Rune(None, 28), "burns": True},
    30: {"mints": MINT},
    31: {"mints": MINT},
    33: {"mints": MINT},
    40: {"envelopes": 1},
}
# equal coinbases, of which each mints until the cap is reached, and displaces the one before
EQUAL = range(12, 18)
# blocks of a coinbase alone, the second of which claims nothing
ALONE = (0, 21)
# blocks whose transaction leaves all to the fees
ALL_PAID = (8, 26)


def id_at(height, place):
    """The id of a block's transaction at this place; coinbases' ids are behind all others."""
    return bytes([place or 9]) + bytes([height]) * 31


class Lab(Chain):
    """A chain of lab. A block spends all outputs, but that of a coinbase which the next equals."""

    def __init__(self):
        super().__init__("lab")

    def others(self):
        """The transactions behind the coinbase, and the fees that they pay."""
        height = self.height()
        if height in ALONE:
            return [], 0
        kept = id_at(EQUAL[0], 0) if height in EQUAL else None
        spent = [(at, row) for at, row in self.index.outputs if at[0] != kept]
        worth = sum(count_of(row.sats) for _, row in spent)
        fees = worth if height in ALL_PAID else height
        half = (worth - fees) // 2
        paid = [(half, OPEN), (worth - fees - half, b"\x52")]
        first = Tx(id_at(height, 1), [at for at, _ in spent], paid)._replace(**DONE.get(height, {}))
        if height != OTHER[0]:
            return [first], fees
        # the rune is minted in the block that etches it
        return [first, Tx(id_at(height, 2), [(first.id, 1)], paid[1:], mints=OTHER)], fees

    def coinbase(self, fees):
        """The coinbase, which leaves three satoshis at each fifth height."""
        height, all_ = self.height(), self.subsidy() + fees
        if height in EQUAL:
            return Tx(id_at(EQUAL[0], 0), [], [(self.subsidy(), OPEN)], mints=OTHER)
        claimed = 0 if height == ALONE[1] else all_ - 3 * (height % 5 == 4)
        return Tx(id_at(height, 0), [], [(claimed, OPEN)])

    def next(self):
        """The index before the next block, and the change that it makes."""
        others, fees = self.others()
        return self.put(id_at(self.height(), 0xFF), self.coinbase(fees), *others)


def lab_changes():
    """The index before each block of a chain of lab up to the last height, and the change that the
    block makes."""
    chain = Lab()
    return [chain.next() for _ in range(41)]
