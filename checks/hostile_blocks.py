"""Lawful blocks that ask for as much work as they can, and blocks whose counts lie.

Those that ask for work are of lab below height 10, and of regtest, whose subsidy is the same there.
Each comes by the blocks that it stands on and itself, and by a size, so that it can be made larger:
checks/real_files.py has each taken in, and bench/hostile.py times it beside an honest one.
"""

from chain import GENESIS, SHORT, block_of, coinbase_to, commitment, committing, transaction
from tools.bitcoin import NO_OUTPUT, SUBSIDY, compact_size, string, twice, varint

# the bytes of a script that nearly fills a block
LONG = 3_990_000
OPENING = bytes.fromhex("0063036f7264")
MOST = 4_000_000
FOUR_BILLION = b"\xfe" + 4 * b"\xff"


class Chain:
    """Blocks on one another of lab, whose subsidy is whole up to height 9."""

    def __init__(self):
        self.blocks, self.tip = [], bytes(32)

    def add(self, txs=(), outputs=((SUBSIDY, SHORT),)):
        """A block of a coinbase of these outputs and such transactions behind it: the coinbase's
        id. It commits to their witnesses where there are any, as it has to on other chains."""
        assert len(self.blocks) < 10
        if any(bare != whole for bare, whole in txs):
            coinbase = committing(len(self.blocks), commitment(*txs))
        else:
            coinbase = coinbase_to(len(self.blocks), outputs)
        block, self.tip = block_of(self.tip, [coinbase, *txs])
        self.blocks.append(block)
        return id_of(coinbase)

    def parts(self, count):
        """A block whose coinbase has so many outputs of as much each: its id."""
        return self.add(outputs=count * [(SUBSIDY // count, SHORT)])


def runestone(*numbers):
    data = b"".join(map(varint, numbers))
    parts = (data[at : at + 520] for at in range(0, len(data), 520))
    return b"\x6a\x5d" + b"".join(
        b"\x4d" + len(part).to_bytes(2, "little") + part for part in parts
    )


def id_of(tx):
    return twice(tx[0])


# ---- scripts


def with_script(script):
    """A block whose coinbase has an output with this script."""
    chain = Chain()
    chain.add()
    chain.add()
    chain.add(outputs=[(SUBSIDY, script)])
    return chain.blocks


def with_tapscript(script):
    """A block of which a transaction spends an output by this tapscript."""
    chain = Chain()
    paid = chain.add()
    chain.add()
    chain.add([transaction([(paid, 0, script)], [(SUBSIDY, SHORT)])])
    return chain.blocks


def empty_pushes(size=LONG):
    """A runestone's script of empty pushes."""
    return with_script(b"\x6a\x5d" + size * b"\0")


def empty_pushes_of_a_witness(size=LONG):
    return with_tapscript(size * b"\0")


def one_opening(size=LONG):
    """An envelope that is opened, and behind it empty pushes without an end."""
    return with_tapscript(OPENING + size * b"\0")


def broken_openings(size=LONG):
    """Openings of envelopes, each of which breaks the one before."""
    return with_tapscript(size // len(OPENING) * OPENING)


# ---- runes


def etching(origin, premine, outputs, mint=()):
    """A transaction that etches a rune without a name, of which it gets so many."""
    stone = runestone(2, 1, 6, premine, *mint)
    return transaction([origin], [*outputs, (0, stone)])


def etched(chain, count):
    """So many runes, each in an output of a transaction of its own of one block: the ids of these
    transactions."""
    paid = chain.parts(count)
    share = SUBSIDY // count
    txs = [etching((paid, at, b""), 1_000_000, [(share, SHORT)]) for at in range(count)]
    chain.add(txs)
    return [id_of(tx) for tx in txs]


def spread(chain, count):
    """One rune, of which each of so many outputs of a transaction holds a part: its id."""
    (whole,) = etched(chain, 1)
    height = len(chain.blocks) - 1
    stone = runestone(0, height, 1, 0, count + 1)
    outputs = count * [(SUBSIDY // count, SHORT)] + [(0, stone)]
    tx = transaction([(whole, 0, b"")], outputs)
    chain.add([tx])
    return id_of(tx)


def cenotaphs(count=2_000):
    """A block of transactions that each burn what an output holds by a cenotaph."""
    chain = Chain()
    chain.add()
    chain.add()
    held, share = spread(chain, count), SUBSIDY // count
    # an even tag that nobody knows
    stone = runestone(126, 0)
    txs = [transaction([(held, at, b"")], [(share, SHORT), (0, stone)]) for at in range(count)]
    chain.add(txs)
    return chain.blocks


def edicts(count=10_000, outputs=10):
    """A runestone of so many edicts of one rune, over the outputs in turn."""
    chain = Chain()
    chain.add()
    chain.add()
    (whole,) = etched(chain, 1)
    height = len(chain.blocks) - 1
    deals = [
        (height if at == 0 else 0, 1 if at == 0 else 0, 1, at % outputs) for at in range(count)
    ]
    stone = runestone(0, *(number for deal in deals for number in deal))
    into = [*(outputs - 1) * [(SUBSIDY // outputs, SHORT)], (0, stone)]
    chain.add([transaction([(whole, 0, b"")], into)])
    return chain.blocks


def joined_runes(chain, count):
    """An output that holds so many runes: its transaction's id."""
    origins = [(txid, 0, b"") for txid in etched(chain, count)]
    tx = transaction(origins, [(SUBSIDY // count * count, SHORT)])
    chain.add([tx])
    return id_of(tx)


def moves(count=500, runes=2_000):
    """An output that holds so many runes moves from transaction to transaction of a block."""
    chain = Chain()
    chain.add()
    chain.add()
    txid, value, txs = joined_runes(chain, runes), SUBSIDY // runes * runes, []
    for _ in range(count):
        txs.append(transaction([(txid, 0, b"")], [(value, SHORT)]))
        txid = id_of(txs[-1])
    chain.add(txs)
    return chain.blocks


# ---- satoshis


def inputs(count=40_000):
    """A transaction of so many inputs, each of an output of its own, the last first, so that no
    runs of satoshis join."""
    chain = Chain()
    paid, share = chain.parts(count), SUBSIDY // count
    origins = [(paid, at, b"") for at in reversed(range(count))]
    chain.add([transaction(origins, [(share * count, SHORT)])])
    return chain.blocks


HOSTILE = {
    "an output's script of 3,990,000 empty pushes": empty_pushes,
    "a tapscript of 3,990,000 empty pushes": empty_pushes_of_a_witness,
    "an envelope that is opened before 3,990,000 empty pushes": one_opening,
    "envelopes that are opened and broken again and again over 3,990,000 bytes": broken_openings,
    "2,000 cenotaphs": cenotaphs,
    "a runestone of 10,000 edicts over 10 outputs": edicts,
    "40,000 inputs of one output each": inputs,
    "an output of 2,000 runes moved 500 times": moves,
}


# ---- counts that lie


def many(head, part):
    """A block that begins so, with as many parts behind as it may have."""
    return head + (MOST - len(head)) // len(part) * part


def lying_blocks():
    """Blocks that are no longer than one may be, with a count or a length of four billion behind
    which as much stands as there is room for: what lies, the block, and the place of its fault,
    which is a length where it stands, and of a list its end."""
    header, version, lie = GENESIS[:80], bytes(4), FOUR_BILLION
    origin = NO_OUTPUT[0] + NO_OUTPUT[1].to_bytes(4, "little")
    spent, output = origin + b"\0" + bytes(4), bytes(8) + b"\0"
    tx = version + b"\1" + spent + b"\1" + output + bytes(4)
    one = header + b"\1" + version + b"\1"
    marked = header + b"\1" + version + b"\0\1\1" + spent + b"\1" + output
    for what, front, part in (
        ("transactions", header, tx),
        ("inputs", header + b"\1" + version, spent),
        ("outputs", one + spent, output),
        ("the items of a stack", marked, b"\0"),
        ("the items of a stack, of a byte each", marked, b"\1\7"),
    ):
        block = many(front + lie, part)
        yield what, block, len(block)
    for what, front in (
        ("an input's script", one + origin),
        ("an output's script", one + spent + b"\1" + bytes(8)),
        ("an item", marked + b"\1"),
    ):
        # the fault is where what has no such length begins
        yield f"the length of {what}", many(front + lie, b"\0"), len(front + lie)
    yield "transactions, of which none stands there", header + lie, len(header + lie)
    # the second byte of the first transaction's marker is none
    yield "transactions, before parts that are none", many(header + lie, b"\xfd\0\0"), 90
    stacks = header + b"\1" + version + b"\0\1" + compact_size(90_000) + 90_000 * spent
    stacks += b"\1" + output + 1_000 * string(b"\0")
    yield "inputs, of which the most have no stack", stacks, len(stacks)
