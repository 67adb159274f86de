"""The blocks of a made chain, by docs/RULES.md, 'Made blocks': their bytes, from a height, the hash
of the block before and the id of its coinbase; and the rows of crates/ox_block_rows about them.
"""

from collections.abc import Iterator

from chain import DISCONNECT, payload_of
from tools.bitcoin import RESERVED, SUBSIDY, Forms, block, coinbase, commitment, root, transaction
from tools.bitcoin import twice

OPEN = b"\x51"
HALVING = 210_000


def claim(height: int) -> int:
    """What a coinbase claims: all that its block mints but for one satoshi."""
    return max((SUBSIDY >> height // HALVING) - 1, 0)


def runestone(height: int) -> bytes:
    """The script that etches, that burns a mint or that mints."""
    if height == 1:
        return bytes.fromhex("6a5d0a0203066408c0843d0a07")
    return bytes.fromhex("6a5d06140114017e00" if height % 10 == 0 else "6a5d0414011401")


def spend(height: int, paid: bytes) -> Forms:
    """The transaction that spends the coinbase before."""
    digits = str(height).encode()
    tapscript = (
        bytes.fromhex("0063036f726401010a746578742f706c61696e00")
        + bytes([len(digits)])
        + digits
        + b"\x68"
    )
    outputs = [(claim(height - 1), OPEN), (0, runestone(height))]
    return transaction([(paid, 0)], outputs, stacks=[[tapscript, b"\xc0" + bytes(32)]])


def txs_of(height: int, paid: bytes) -> list[Forms]:
    """The coinbase, and from height 1 on the transaction that spends the one before."""
    others = [spend(height, paid)] if height else []
    outputs = [(claim(height), OPEN), (0, commitment([whole for _, whole in others]))]
    return [coinbase(outputs, b"\4" + height.to_bytes(4, "little"), [RESERVED]), *others]


def block_of(height: int, tip: bytes, txs: list[Forms]) -> tuple[bytes, bytes, bytes]:
    """The block's bytes, its hash, and its coinbase's id."""
    ids = [twice(bare) for bare, _ in txs]
    return *block(tip, root(ids), [whole for _, whole in txs], height), ids[0]


def made(height: int, tip: bytes, paid: bytes) -> tuple[bytes, bytes, bytes]:
    """The same of a height, behind the hash of the block before and the id of its coinbase."""
    return block_of(height, tip, txs_of(height, paid))


def chain(count: int) -> list[tuple[bytes, bytes, list[Forms]]]:
    """The blocks of the first heights, each by its bytes, its hash and its transactions."""
    blocks, tip, paid = [], bytes(32), bytes(32)
    for height in range(count):
        txs = txs_of(height, paid)
        data, tip, paid = block_of(height, tip, txs)
        blocks.append((data, tip, txs))
    return blocks


def drill_commands(count: int) -> list[bytes]:
    """The commands of a drill of so many blocks."""
    blocks = [payload_of(block) for block, _, _ in chain(count)]
    newest = min(count, 10)
    return blocks + newest * [DISCONNECT] + blocks[count - newest :]


def rows() -> Iterator[tuple[str, str]]:
    """The rows, and what is printed for each: the first 41 blocks of a chain, and some about
    halvings."""
    tip, paid = bytes(32), bytes(32)
    for height in range(41):
        row = f"made {height} {tip.hex()} {paid.hex()}"
        data, tip, paid = made(height, tip, paid)
        if height in (0, 1, 2, 3, 9, 10, 11, 20, 40):
            yield row, data.hex()
    for height in (209_999, 210_000, 210_001, 6_929_999, 6_930_001, 2**32 - 1):
        yield f"made {height} {tip.hex()} {paid.hex()}", made(height, tip, paid)[0].hex()
