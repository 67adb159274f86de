"""Chains of blocks, and the lines that connect them and take them back."""

from collections.abc import Callable, Iterable, Sequence

from tools import bitcoin
from tools.bitcoin import RESERVED, SUBSIDY, Forms, Output, root, twice
from tools.programs import TOP

# Bitcoin's first block
GENESIS = bytes.fromhex((TOP / "feeds" / "genesis.feed").read_text().split()[1])
HALVING = 210_000
# a transaction's id, an index and a tapscript that is empty for none
Input = tuple[bytes, int, bytes]
SHORT = b"\x51"

# a command as a record of version 1 holds it; a disconnect's is the same at version 2
DISCONNECT = b"\0"


def coinbase(height: int, script: bytes) -> bytes:
    """A coinbase with an id of its own, whose one output claims the whole subsidy and has this
    script."""
    return coinbase_to(height, [(SUBSIDY >> height // HALVING, script)])[0]


def block_on(previous: bytes, height: int, script: bytes) -> tuple[bytes, bytes]:
    """The bytes of a block of a coinbase alone, and its hash."""
    tx = coinbase(height, script)
    return bitcoin.block(previous, twice(tx), [tx])


def chain(
    count: int, script_at: Callable[[int], bytes] = lambda height: SHORT
) -> tuple[list[bytes], list[str]]:
    """The bytes of so many blocks, and their hashes as they are shown."""
    blocks, tips, previous = list[bytes](), list[str](), bytes(32)
    for height in range(count):
        block, previous = block_on(previous, height, script_at(height))
        blocks.append(block)
        tips.append(previous[::-1].hex())
    return blocks, tips


def envelope(fields: Iterable[tuple[int, bytes]] = (), body: bytes | None = None) -> bytes:
    """A part of a tapscript with an inscription of these tags and values and this body, if there is
    one, each of at most 75 bytes."""
    pushes = [b"ord"] + [push for tag, value in fields for push in (bytes([tag]), value)]
    pushes += [] if body is None else [b"", body] if body else [b""]
    return b"\0\x63" + b"".join(bytes([len(push)]) + push for push in pushes) + b"\x68"


def id_value(txid: bytes, index: int) -> bytes:
    """An inscription's id as a field has it."""
    return txid + bytes([index] if index else [])


def transaction(
    inputs: Sequence[Input], outputs: Iterable[Output], script: bytes = b"", annex: bytes = b""
) -> Forms:
    """A transaction of inputs, each a transaction's id, an index and a tapscript that is empty for
    none, and of outputs, each a value and a script: the bytes without witnesses and with them. Each
    input has this script, and behind each tapscript stands this annex, if there is one."""
    origins = [(txid, index) for txid, index, _ in inputs]
    last = [annex] if annex else []
    stacks = [[part, b"\xc0", *last] if part else [] for _, _, part in inputs]
    return bitcoin.transaction(origins, outputs, script, stacks if any(stacks) else None)


def reveal_into(spent: bytes, tapscript: bytes, outputs: Iterable[Output]) -> Forms:
    """A transaction that spends the first output of another one by a tapscript into these values
    and scripts."""
    return transaction([(spent, 0, tapscript)], outputs)


def coinbase_to(mark: int, outputs: Iterable[Output]) -> Forms:
    """A coinbase of these outputs, which this number makes its own."""
    return bitcoin.coinbase(outputs, mark.to_bytes(4, "little"))


def commitment(*others: Forms, value: bytes = RESERVED) -> bytes:
    """The script that commits to the witnesses of a coinbase and these transactions behind it."""
    return bitcoin.commitment([whole for _, whole in others], value)


def committing(
    height: int,
    *scripts: bytes,
    items: Sequence[bytes] = (RESERVED,),
    value: int = SUBSIDY - 1,
) -> Forms:
    """A coinbase whose first output has so many satoshis; behind it are outputs with these scripts.
    Its witness stack has these items."""
    outputs = [(value, SHORT), *((0, script) for script in scripts)]
    return bitcoin.coinbase(outputs, b"\4" + height.to_bytes(4, "little"), items)


def block_of(
    previous: bytes, txs: Sequence[Forms], root_of: Callable[[list[bytes]], bytes] = root
) -> tuple[bytes, bytes]:
    """The bytes of a block of these transactions, and its hash."""
    ids, wholes = [twice(bare) for bare, _ in txs], [whole for _, whole in txs]
    return bitcoin.block(previous, root_of(ids), wholes)


def block_with(previous: bytes, height: int, tx: Forms) -> tuple[bytes, bytes]:
    """The bytes of a block of a plain coinbase and such a transaction, and its hash."""
    tx_of = coinbase(height, SHORT)
    return block_of(previous, [(tx_of, tx_of), tx])


def line(block: bytes) -> bytes:
    """The line that connects a block."""
    return b"connect " + block.hex().encode() + b"\n"


def payload_of(block: bytes) -> bytes:
    """The command that connects a block."""
    return b"\1" + block


def line_of(command: bytes) -> bytes:
    """The line of a command."""
    return b"disconnect\n" if command == DISCONNECT else line(command[1:])


def record_of(payload: bytes) -> bytes:
    """A record but for its gate: the payload's length and the payload, and a closed gate behind
    it."""
    return len(payload).to_bytes(4, "little") + payload + b"\0"
