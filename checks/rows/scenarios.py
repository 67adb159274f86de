"""Chains that both index_rows and query_rows build: the first has the whole index printed behind
them, the second what requests are replied."""

from chain import SHORT, coinbase_to, envelope, transaction
from rows import etch, id_of, plain, reveal, spend
from tools.bitcoin import SUBSIDY

TAPROOT = b"\x51\x20" + 32 * b"\7"
# an etching with a premine of 10, and one with premine 7, cap 10 and amount 5; neither has a name
TEN = "6a5d040201060a"
ETCHES = "6a5d0802030607080a0a05"
# edicts that split such a premine among three outputs, and what each gets
SPLITS = {"6a5d050003010004": (4, 3, 3), "6a5d050003010404": (4, 4, 2)}
# a cenotaph that mints the rune of block 3, transaction 1
MINTS_AND_BURNS = "6a5d06140314017e00"
POINTERS = ("b70b", "b80b", "000000000000000001", "e80300000000000000")


def with_a_fee(rows, claimed):
    """Two plain blocks, and one in which a transaction spends the first into 2,000,000,000 and
    1,000,000,000, and the coinbase claims so much. Both transactions of that."""
    rows.plain(2)
    spends = transaction([spend(plain(0))], [(2_000_000_000, SHORT), (1_000_000_000, SHORT)])
    paid = coinbase_to(2, [(claimed, SHORT)])
    rows.connects(paid, spends)
    return paid, spends


def chosen_by_pointers(rows):
    """A transaction of the block of height 6 that spends the first coinbase, reveals by pointers to
    2,999, past all satoshis, past 64 bits, and to 1,000, and keeps 1,000 and 2,000 satoshis."""
    rows.plain(6)
    script = b"".join(envelope([(2, bytes.fromhex(value))]) for value in POINTERS)
    tx = transaction([spend(plain(0), 0, script)], [(1_000, SHORT), (2_000, SHORT)])
    rows.extend(tx)
    return tx


def parents(rows):
    """A block of two transactions: P, then Q, which spends it, and reveals one that names P and one
    that names Q."""
    p = reveal(plain(1), envelope())
    q_id = id_of(reveal(p))
    q = reveal(p, envelope([(3, id_of(p))]) + envelope([(3, q_id)]))
    rows.extend(p, q)
    return p, q


def edicts(rows, stone):
    """A premine of 10, etched at height 3, and the transaction by which an edict splits it."""
    etches = etch(rows, TEN)
    dealt = transaction([spend(etches)], [(1, SHORT)] * 3 + [(0, bytes.fromhex(stone))])
    rows.extend(dealt)
    return etches, dealt


def names(rows, early, late):
    """LABTESTS is etched at height 8 by a commitment that is a block too young, which etches
    nothing, and at height 9 by one that counts. `early` prints behind the first, and `late` behind
    the second, which it is given."""
    rows.plain(4)
    taproots = coinbase_to(4, [(SUBSIDY // 2, TAPROOT)] * 2)
    rows.connects(taproots)
    rows.plain(8)
    stone = bytes.fromhex("6a5d09020104cec8b6a9e802")
    commits = bytes.fromhex("054ea42d8516")
    for index, tell in enumerate((early, late)):
        outputs = [(SUBSIDY // 2, SHORT), (0, stone)]
        etches = transaction([spend(taproots, index, commits)], outputs)
        rows.extend(etches)
        tell(etches)
