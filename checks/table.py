"""A regtest chain of many outputs, and where its satoshis are, reckoned without the program."""

import random

from chain import SHORT, block_of, transaction
from tools.bitcoin import NO_OUTPUT, SUBSIDY, twice

BLOCKS = 25
ADDED = 20_000
SPENT = 1_000
# of each coinbase so many satoshis are left, which are lost
LEFT = 1_000
SUPPLY = 2_099_999_997_690_000


def join(runs, more):
    """Puts runs of satoshis, each its first number and how many, behind others."""
    for first, count in more:
        if runs and sum(runs[-1]) == first:
            runs[-1] = runs[-1][0], runs[-1][1] + count
        elif count:
            runs.append((first, count))


def deal(runs, values):
    """What outputs of these values take from the front of some runs, one after another. What is
    left stays there."""
    left, parts = runs[::-1], []
    for value in values:
        part = []
        while value:
            first, count = left.pop()
            taken = min(count, value)
            part.append((first, taken))
            value -= taken
            if taken < count:
                left.append((first + taken, count - taken))
        parts.append(part)
    runs[:] = left[::-1]
    return parts


def split(chance, total, count):
    """So many values that are the total together."""
    cuts = [0, *sorted(chance.choices(range(total + 1), k=count - 1)), total]
    return [end - start for start, end in zip(cuts, cuts[1:])]


class Table:
    """The blocks, the unspent outputs with their heights and runs, one that is spent, and the lost
    satoshis' runs."""

    def __init__(self, seed):
        self.chance = random.Random(seed)
        self.blocks, self.tips = [], []
        self.rows, self.lost, self.spent = {}, [], None
        for _ in range(BLOCKS):
            self.add_block()

    def make(self, origins, runs, values, script=b""):
        """A transaction that spends outputs with these runs into these values. What is left of the
        runs stays there."""
        inputs = [(txid, index, b"") for txid, index in origins]
        tx = transaction(inputs, [(value, SHORT) for value in values], script)
        txid = twice(tx[0])
        for index, part in enumerate(deal(runs, values)):
            self.rows[txid, index] = len(self.blocks), part
        return tx

    def spend(self):
        """A transaction that spends some outputs, and the fees that it leaves."""
        origins = self.chance.sample(list(self.rows), SPENT)
        runs = []
        for self.spent in origins:
            join(runs, self.rows.pop(self.spent)[1])
        held = sum(count for _, count in runs)
        tx = self.make(origins, runs, split(self.chance, held - held // 10, SPENT + ADDED // 2))
        return tx, runs

    def add_block(self):
        """Adds a block that adds so many outputs: the first by its coinbase alone, and each other
        one half of them by a transaction that spends earlier ones."""
        height = len(self.blocks)
        runs, txs = [(height * SUBSIDY, SUBSIDY)], []
        if height:
            tx, fees = self.spend()
            txs.append(tx)
            join(runs, fees)
        claimed = sum(count for _, count in runs) - LEFT
        values = split(self.chance, claimed, ADDED // 2 if height else ADDED)
        first = self.make([NO_OUTPUT], runs, values, height.to_bytes(4, "little"))
        join(self.lost, runs)
        block, tip = block_of(self.tips[-1] if height else bytes(32), [first, *txs])
        self.blocks.append(block)
        self.tips.append(tip)

    def place(self, sat):
        """Where a satoshi is, as a reply tells it."""
        for (txid, index), (_, runs) in self.rows.items():
            offset = offset_in(runs, sat)
            if offset is not None:
                return {"offset": offset, "outpoint": outpoint(txid, index)}
        offset = offset_in(self.lost, sat)
        return None if offset is None else {"lost": offset}


def offset_in(runs, sat):
    """The place of a satoshi in some runs, if it is there."""
    before = 0
    for first, count in runs:
        if first <= sat < first + count:
            return before + sat - first
        before += count
    return None


def outpoint(txid, index):
    return f"{txid[::-1].hex()}:{index}"


def satoshi(number, place):
    """The reply about a satoshi of the first period that bears no inscription."""
    height, offset = divmod(number, SUBSIDY)
    letters, left = "", SUPPLY - number
    while left:
        letters, left = chr(ord("a") + (left - 1) % 26) + letters, (left - 1) // 26
    rarity = "common" if offset else "uncommon" if height else "mythic"
    degree = f"0°{height}′{height}″{offset}‴"
    told = {
        "decimal": f"{height}.{offset}",
        "degree": degree,
        "inscriptions": [],
        "name": letters,
        "number": number,
    }
    return told | {"place": place, "rarity": rarity}
