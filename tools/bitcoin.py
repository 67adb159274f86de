"""Bitcoin's hashes, numbers, transactions and blocks, as bytes.

checks/rows/block_rows.py reads blocks by itself, and shares nothing with this.
"""

import hashlib
from collections.abc import Iterable, Sequence

# an output that is spent: the transaction's id, and its place there
Origin = tuple[bytes, int]
# an output that is made: its value and its script
Output = tuple[int, bytes]
# an input's witness
Stack = Sequence[bytes]
# a transaction's bytes without witnesses and with them
Forms = tuple[bytes, bytes]

# what a coinbase spends
NO_OUTPUT = bytes(32), 0xFFFFFFFF
# the reserved value that witnesses are mostly committed to by
RESERVED = bytes(32)
# the front of a script that commits to witnesses
COMMITS = bytes.fromhex("6a24aa21a9ed")
SUBSIDY = 5_000_000_000


def twice(message: bytes) -> bytes:
    """SHA-256 of SHA-256."""
    return hashlib.sha256(hashlib.sha256(message).digest()).digest()


def compact_size(number: int) -> bytes:
    """A length below 2**32 as a transaction has it."""
    if number < 253:
        return bytes([number])
    if number < 1 << 16:
        return b"\xfd" + number.to_bytes(2, "little")
    return b"\xfe" + number.to_bytes(4, "little")


def string(data: bytes) -> bytes:
    """Bytes behind their length."""
    return compact_size(len(data)) + data


def varint(number: int) -> bytes:
    """A number as a runestone has it."""
    out = b""
    while number > 127:
        out += bytes([number & 127 | 128])
        number >>= 7
    return out + bytes([number])


def transaction(
    origins: Iterable[Origin],
    outputs: Iterable[Output],
    script: bytes = b"",
    stacks: Iterable[Stack] | None = None,
    sequence: int = 0,
    version: int = 2,
) -> Forms:
    """A transaction that spends outputs, each a transaction's id and an index, by this script into
    values and scripts: its bytes without witnesses and with them. Each input has a stack of items,
    where there are stacks."""
    end = string(script) + sequence.to_bytes(4, "little")
    inputs = [txid + index.to_bytes(4, "little") + end for txid, index in origins]
    made = [value.to_bytes(8, "little") + string(target) for value, target in outputs]
    body = b"".join([compact_size(len(inputs)), *inputs, compact_size(len(made)), *made])
    head, lock = version.to_bytes(4, "little"), bytes(4)
    bare = head + body + lock
    if stacks is None:
        return bare, bare
    items = (compact_size(len(stack)) + b"".join(map(string, stack)) for stack in stacks)
    return bare, head + b"\0\1" + body + b"".join(items) + lock


def coinbase(
    outputs: Iterable[Output],
    script: bytes,
    items: Stack = (),
    sequence: int = 0,
    version: int = 2,
) -> Forms:
    """A coinbase of these outputs, with this script and this witness, if there is one."""
    stacks = [items] if items else None
    return transaction([NO_OUTPUT], outputs, script, stacks, sequence, version)


def commitment(wholes: Iterable[bytes], value: bytes = RESERVED) -> bytes:
    """The script that commits to the witnesses of a coinbase and the transactions behind it, which
    have these bytes, by a reserved value."""
    return COMMITS + twice(root([bytes(32), *map(twice, wholes)]) + value)


def root(ids: list[bytes]) -> bytes:
    """The root over these ids."""
    while len(ids) > 1:
        ids = ids + ids[-1:] if len(ids) % 2 else ids
        ids = [twice(ids[at] + ids[at + 1]) for at in range(0, len(ids), 2)]
    return ids[0]


def block(
    previous: bytes, root_: bytes, wholes: Sequence[bytes], time: int = 0
) -> tuple[bytes, bytes]:
    """The bytes of a block of these transactions on another one, and its hash."""
    header = (1).to_bytes(4, "little") + previous + root_ + time.to_bytes(4, "little") + bytes(8)
    return header + compact_size(len(wholes)) + b"".join(wholes), twice(header)
