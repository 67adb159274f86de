"""Blocks, their transactions and scripts, as the scripts of this folder make them that time an
index or a part of one."""

import struct

from tools import bitcoin
from tools.bitcoin import NO_OUTPUT, RESERVED, SUBSIDY, compact_size, root, twice, varint

__all__ = ["NO_OUTPUT", "SUBSIDY", "compact_size"]


def push(data):
    """The shortest push of some bytes."""
    count = len(data)
    if count < 76:
        return bytes([count]) + data
    head = b"\x4c" + bytes([count]) if count < 256 else b"\x4d" + struct.pack("<H", count)
    return head + data


def pushes(data):
    """Pushes of at most 520 bytes each."""
    return b"".join(push(data[at : at + 520]) for at in range(0, len(data), 520))


def runestone(*integers):
    return b"\x6a\x5d" + pushes(b"".join(varint(n) for n in integers))


def key(chance):
    """The script of an output that a key may spend."""
    return b"\0\x14" + chance.randbytes(20)


def with_id(tx):
    """The whole form of a transaction, and its id."""
    bare, whole = tx
    return whole, twice(bare)


def tx(origins, outputs, script=b"", witness=None):
    """A transaction that spends these outputs by this script into these values and scripts, and its
    id. Its first input has a witness, if there is one."""
    stacks = None if witness is None else [witness] + [()] * (len(origins) - 1)
    return with_id(bitcoin.transaction(origins, outputs, script, stacks, 0xFFFFFFFF))


def coinbase(height, outputs, others=()):
    """A coinbase of these outputs, before the block's other transactions, each with its id. Where
    one of these has a witness, it commits to the witnesses by a last output."""
    script, items = struct.pack("<I", height), ()
    if any(twice(body) != txid for body, txid in others):
        commitment = bitcoin.commitment([body for body, _ in others])
        outputs, items = [*outputs, (0, commitment)], [RESERVED]
    return with_id(bitcoin.coinbase(outputs, script, items, 0xFFFFFFFF))


def block(previous, height, txs):
    """The block of these transactions, each with its id, and its hash."""
    bodies, ids = zip(*txs)
    return bitcoin.block(previous, root(list(ids)), bodies, height)


def connect(block):
    """The line of a feed that connects a block."""
    return b"connect " + block.hex().encode() + b"\n"


def put(feed, block):
    """Writes a block behind its length."""
    feed.write(struct.pack("<I", len(block)) + block)
