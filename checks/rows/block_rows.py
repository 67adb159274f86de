"""The rows of crates/ox_block_rows, and what has to be printed for them.

It reads and hashes blocks by Bitcoin's serialization and BIP 141 and 144 on its own, with Python's
standard library alone, and knows blocks that others made: the genesis block of the main chain, and
two whose bytes, ids and roots were made with Debian's python3-bitcoinlib 0.11.2, which it asserts
first. Whether a block commits to its witnesses goes by BIP 141 alone. The rows about envelopes and
ids are those of envelope_rows, those about items and runestones those of stone_rows, those about
names, numbers and satoshis those of number_rows, those about blocks that are made those of
made_blocks, those about addresses those of address_rows, and those about links those of http_rows.
"""

import hashlib
import struct

import made_blocks
from chain import block_of, commitment, committing, transaction
from rows import address_rows, envelope_rows, http_rows, number_rows, stone_rows

COINS = 21_000_000 * 10**8
MOST = 4_000_000


class Fault(Exception):
    pass


def twice(data):
    return hashlib.sha256(hashlib.sha256(data).digest()).digest()


def root_of(row):
    while len(row) > 1:
        if len(row) % 2:
            row = row + row[-1:]
        row = [twice(row[at] + row[at + 1]) for at in range(0, len(row), 2)]
    return row[0]


class Reader:
    """Takes fields from the left; a field that can't be had is the fault, where it begins."""

    def __init__(self, data):
        self.data, self.at = data, 0

    def take(self, count):
        if self.at + count > len(self.data):
            raise Fault(self.at)
        self.at += count
        return self.data[self.at - count : self.at]

    def compact(self, zero_is_lawful=True):
        begin = self.at
        first = self.data[begin : begin + 1]
        if not first:
            raise Fault(begin)
        width = {253: 2, 254: 4, 255: 8}.get(first[0], 0)
        if begin + 1 + width > len(self.data):
            raise Fault(begin)
        number = (
            int.from_bytes(self.data[begin + 1 : begin + 1 + width], "little")
            if width
            else first[0]
        )
        if number < {0: 0, 2: 253, 4: 1 << 16, 8: 1 << 32}[width] or (
            number == 0 and not zero_is_lawful
        ):
            raise Fault(begin)
        self.at = begin + 1 + width
        return number

    def tx(self):
        """A transaction's bytes, and those without marker, flag and stacks."""
        begin = self.at
        self.take(4)
        marker = self.at
        marked = self.data[marker : marker + 1] == b"\0"
        if marked:
            self.take(1)
            if self.data[self.at : self.at + 1] != b"\1":
                raise Fault(self.at)
            self.take(1)
        body = self.at
        inputs = self.compact(False)
        for _ in range(inputs):
            self.take(32)
            self.take(4)
            self.take(self.compact())
            self.take(4)
        total = 0
        for _ in range(self.compact(False)):
            value = struct.unpack("<Q", self.take(8))[0]
            total += value
            if total > COINS:
                raise Fault(self.at - 8)
            self.take(self.compact())
        end, some = self.at, False
        if marked:
            for _ in range(inputs):
                for _ in range(self.compact()):
                    some = True
                    self.take(self.compact())
            if not some:
                raise Fault(marker)
        lock = self.take(4)
        return self.data[begin : self.at], self.data[begin : begin + 4] + self.data[body:end] + lock

    def block(self):
        header = self.take(80 if len(self.data) >= 80 else self.header_fault())
        txs = [self.tx() for _ in range(self.compact(False))]
        if self.at < len(self.data):
            raise Fault(self.at)
        return header, txs

    def header_fault(self):
        raise Fault(max(place for place in (0, 4, 36, 68, 72, 76) if place <= len(self.data)))


def answer(data):
    if len(data) > MOST:
        return [f"fault at {MOST}"]
    try:
        header, txs = Reader(data).block()
    except Fault as fault:
        return [f"fault at {fault.args[0]}"]
    ids = [(twice(bare), twice(whole)) for whole, bare in txs]
    version, time, bits, nonce = (
        int.from_bytes(header[at : at + 4], "little") for at in (0, 68, 72, 76)
    )
    numbers = f"version {version}, time {time}, bits {bits}, nonce {nonce}, "
    lines = [f"{numbers}{len(txs)} transactions", f"  hash {twice(header).hex()}"]
    if len(txs) <= 5:
        for txid, wtxid in ids:
            lines += [f"  txid {txid.hex()}", f"  wtxid {wtxid.hex()}"]
    root = root_of([txid for txid, _ in ids])
    lines += [
        f"  root {root.hex()}",
        f"  root is the header's: {str(root == header[36:68]).lower()}",
    ]
    return lines + [
        f"  witness root {root_of([bytes(32)] + [wtxid for _, wtxid in ids[1:]]).hex()}",
        "  written so: true",
    ]


KNOWN = {
    "genesis, the main chain's first block": (
        "0100000000000000000000000000000000000000000000000000000000000000000000003ba3edfd7a7b12b"
        "27ac72c3e67768f617fc81bc3888a51323a9fb8aa4b1e5e4a29ab5f49ffff001d1dac2b7c01010000000100"
        "00000000000000000000000000000000000000000000000000000000000000ffffffff4d04ffff001d01044"
        "55468652054696d65732030332f4a616e2f32303039204368616e63656c6c6f72206f6e206272696e6b206f"
        "66207365636f6e64206261696c6f757420666f722062616e6b73ffffffff0100f2052a01000000434104678"
        "afdb0fe5548271967f1a67130b7105cd6a828e03909a67962e0ea1f61deb649f6bc3f4cef38c4f35504e51e"
        "c112de5c384df7ba0b8d578a4c702b6bf11d5fac00000000",
        [
            "version 1, time 1231006505, bits 486604799, nonce 2083236893",
            "hash 6fe28c0ab6f1b372c1a6a246ae63f74f931e8365e15a089c68d6190000000000",
            "root is the header's: true",
        ],
    ),
    "a coinbase with a witness, and a spend of two inputs of which the second has none": (
        "010000005555555555555555555555555555555555555555555555555555555555555555bbdfefe336241d9"
        "2b1949e0ab7059331635ead1c1e90de4ee99e48255bce855129ab5f49ffff001d2a00000002020000000001"
        "010000000000000000000000000000000000000000000000000000000000000000ffffffff0504010000000"
        "000000002fff1052a0100000001510000000000000000266a24aa21a9ed000102030405060708090a0b0c0d"
        "0e0f101112131415161718191a1b1c1d1e1f012000000000000000000000000000000000000000000000000"
        "000000000000000000000000001000000000102111111111111111111111111111111111111111111111111"
        "11111111111111110700000000fdffffff22222222222222222222222222222222222222222222222222222"
        "2222222222200000000020151ffffffff0115cd5b0700000000160014333333333333333333333333333333"
        "33333333330303010203000504040404040020a10700",
        [
            "witness root 1016ba4971ff0871847a7bfe76416cb907a89849f3428ffa6afc834a20905f0d",
            "root is the header's: true",
        ],
    ),
    "the same and a transaction without a marker": (
        "01000000555555555555555555555555555555555555555555555555555555555555555502f3760fd0d3b55"
        "d34ef313dfe47f08cce14143209c6fc9bd528aa8fbb6be1cb29ab5f49ffff001d2a00000003020000000001"
        "010000000000000000000000000000000000000000000000000000000000000000ffffffff0504010000000"
        "000000002fff1052a0100000001510000000000000000266a24aa21a9ed000102030405060708090a0b0c0d"
        "0e0f101112131415161718191a1b1c1d1e1f012000000000000000000000000000000000000000000000000"
        "000000000000000000000000001000000000102111111111111111111111111111111111111111111111111"
        "11111111111111110700000000fdffffff22222222222222222222222222222222222222222222222222222"
        "2222222222200000000020151ffffffff0115cd5b0700000000160014333333333333333333333333333333"
        "33333333330303010203000504040404040020a107000200000001444444444444444444444444444444444"
        "444444444444444444444444444444401000000016a0500000002010000000000000000ff3f075af0750700"
        "010000000000",
        [
            "hash 61fcd4cc510aec766e69d362d80cc78f9a6ffceaa2bec9f1decf432f1e711003",
            "txid da37389d1bf0511cc5f275459ce7c8738e67faf71e11704d758c11ec990e3718",
            "txid 58760e38bbbc4f0880c24a617095ba569297627eb6cef5d5414f74406f2c1afc",
            "txid d6d284d6a287460d076edd59cc87c64cf72d74264debad4925db4f767131b297",
            "wtxid de7ed536fc5788228856a4b4055c613c70a10831b43901759aa010869343b3a9",
            "wtxid 5a0524e31f54d646519ba6b966e12df0566353963d9051483ebf29c163dca67b",
            "wtxid d6d284d6a287460d076edd59cc87c64cf72d74264debad4925db4f767131b297",
            "witness root e6005659285f46de2a8fceb730a02c144f771f4c75417edc90e89ec9ebafd8eb",
            "root is the header's: true",
        ],
    ),
}


def known_blocks():
    for data, facts in KNOWN.values():
        lines = answer(bytes.fromhex(data))
        for fact in facts:
            assert any(fact in line for line in lines), fact
    genesis, two, three = (bytes.fromhex(data) for data, _ in KNOWN.values())
    return genesis, two, three


def size(number):
    return bytes([number]) if number < 253 else b"\xfd" + struct.pack("<H", number)


def script_of(length):
    return size(length) + bytes(at % 251 for at in range(length))


def large_tx(inputs, outputs):
    """A marked transaction with scripts of 300 bytes, and a stack of three byte strings behind
    every second input."""
    data = struct.pack("<I", 2) + b"\0\1" + size(inputs)
    for at in range(inputs):
        data += bytes([at + 1]) * 32 + struct.pack("<I", at) + script_of(300) + b"\xff" * 4
    data += size(outputs)
    for at in range(outputs):
        data += struct.pack("<Q", 1000 + at) + script_of(300)
    for at in range(inputs):
        data += b"\0" if at % 2 else b"\3\1\x51" + script_of(300) + b"\0"
    return data + bytes(4)


def rows():
    """The words of a row: how often the part stands, the head, the part and the tail."""
    genesis, two, three = known_blocks()
    edit = lambda data, at, byte: data[:at] + bytes([byte]) + data[at + 1 :]
    for data in (genesis, two, three, edit(genesis, 205, 1)):
        yield 0, data, b"", b""
    # no transaction; a second one, which is cut; a long count; a bad flag; no output; an output
    # above all satoshis
    for at, byte in ((80, 0), (80, 2), (80, 253), (85, 0), (204, 0), (212, 8)):
        yield 0, edit(genesis, at, byte), b"", b""
    # a flag of 2; no input; a sum above all satoshis; empty stacks; and both, of which the sum
    # stands first
    for at, byte in ((86, 2), (87, 0), (152, 7), (192, 0)):
        yield 0, edit(two, at, byte), b"", b""
    yield 0, edit(edit(two, 152, 7), 192, 0), b"", b""
    # counts that lie, and bytes behind
    for end in (
        b"",
        b"\xfe\xff\xff\xff\xff",
        b"\xfd\1\0",
        b"\xff\0\0\0\0\1\0\0\0",
        b"\xfe\xff\xff\0\0",
        b"\xfd\xfc\0",
    ):
        yield 0, genesis[:80], b"", end
    for end in (b"\0", b"anything"):
        yield 0, genesis, b"", end
    # 300 transactions; one with 5 inputs, 5 outputs and scripts of 300 bytes; as many bytes as may
    # be and one more
    yield 299, genesis[:80] + size(300) + genesis[81:], three[370:], b""
    yield 0, genesis[:80] + size(2) + genesis[81:], b"", large_tx(5, 5)
    yield MOST // 1000, b"", bytes(1000), b""
    yield MOST // 1000, b"\0", bytes(1000), b""


# ---- blocks that commit to their witnesses

FRONT = bytes.fromhex("6a24aa21a9ed")


def outputs_and_stacks(tx):
    """The scripts of a transaction's outputs and the stacks of its inputs, by its whole form."""
    reader = Reader(tx)
    reader.take(4)
    is_marked = reader.data[4] == 0
    reader.take(2 if is_marked else 0)
    inputs = reader.compact()
    for _ in range(inputs):
        reader.take(36)
        reader.take(reader.compact())
        reader.take(4)
    scripts, stacks = [], []
    for _ in range(reader.compact()):
        reader.take(8)
        scripts.append(reader.take(reader.compact()))
    for _ in range(inputs if is_marked else 0):
        stacks.append([reader.take(reader.compact()) for _ in range(reader.compact())])
    return scripts, stacks


def is_committed(txs):
    """Whether these transactions, each by its whole form and its stripped one, are committed to."""
    scripts, stacks = outputs_and_stacks(txs[0][0])
    told = [script for script in scripts if len(script) >= 38 and script[:6] == FRONT]
    if not told:
        return all(whole == bare for whole, bare in txs)
    if len(stacks) != 1 or [len(item) for item in stacks[0]] != [32]:
        return False
    root = root_of([bytes(32)] + [twice(whole) for whole, _ in txs[1:]])
    return told[-1][6:38] == twice(root + stacks[0][0])


def committed_line(data):
    try:
        _, txs = Reader(data).block()
    except Fault:
        return "no row, or no memory"
    return "committed" if is_committed(txs) else "not committed"


def commitment_rows():
    """Blocks, and whether each commits to its witnesses."""
    marked = transaction([(32 * b"\7", 0, b"\x51")], [(5, b"\x51")])
    bare = transaction([(32 * b"\7", 1, b"")], [(6, b"\x51")])
    right, wrong = commitment(marked), commitment(marked, value=32 * b"\1")
    other = 32 * b"\1"
    lies = transaction([(32 * b"\7", 2, b"")], [(0, commitment(marked))])
    for txs, holds in (
        # with the right commitment, another one, and none
        ([committing(0, right), marked], True),
        ([committing(0, wrong), marked], False),
        ([committing(0), marked], False),
        # the reserved value is another one
        ([committing(0, wrong, items=[other]), marked], True),
        ([committing(0, right, items=[other]), marked], False),
        # it has 31 bytes, or stands beside another item, or isn't there
        ([committing(0, right, items=[bytes(31)]), marked], False),
        ([committing(0, right, items=[bytes(32), b""]), marked], False),
        ([committing(0, right, items=()), marked], False),
        # the last commitment counts, and what is too short or begins otherwise is none
        ([committing(0, wrong, right), marked], True),
        ([committing(0, right, wrong), marked], False),
        ([committing(0, right, wrong[:37]), marked], True),
        ([committing(0, right, b"\x6b" + wrong[1:]), marked], True),
        ([committing(0, right + b"more"), marked], True),
        # that of another transaction doesn't count
        ([committing(0, items=()), lies], True),
        ([committing(0), lies], False),
        # nothing is marked: no commitment is needed, and one isn't met
        ([committing(0, items=()), bare], True),
        ([committing(0, commitment(bare), items=()), bare], False),
        # a marked transaction behind one that isn't, and an odd number of them
        ([committing(0, commitment(bare, marked)), bare, marked], True),
        ([committing(0, commitment(marked, bare)), bare, marked], False),
        ([committing(0, commitment())], True),
    ):
        block = block_of(bytes(32), txs)[0]
        assert committed_line(block) == ("committed" if holds else "not committed")
        yield block
    genesis, two, three = known_blocks()
    assert committed_line(genesis) == "committed" and committed_line(two) == "not committed"
    yield from (genesis, two, three, genesis[:200])
    txs = [committing(0, commitment(*1000 * [marked])), *1000 * [marked]]
    yield block_of(bytes(32), txs)[0]


def made():
    """Every row, and the lines for them."""
    word = lambda data: data.hex() or "-"
    stdin, stdout = [], []
    for times, head, part, tail in rows():
        stdin.append(f"block {times} {word(head)} {word(part)} {word(tail)}")
        stdout += answer(head + times * part + tail)
    ones, late, early = 32 * b"\1", 31 * b"\1" + b"\2", b"\2" + 31 * b"\1"
    for first, second in ((ones, late), (late, early), (early, late), (late, late), (early, ones)):
        stdin.append(f"order {first.hex()} {second.hex()}")
        stdout.append("less" if first < second else "greater" if first > second else "equal")
    two = known_blocks()[1]
    stdin.append(f"fronts {two.hex()}")
    stdout.append(
        "".join(
            " " + answer(two[:length])[0].removeprefix("fault at ") for length in range(len(two))
        )
    )
    for data in commitment_rows():
        stdin.append(f"committed 0 {data.hex()} - -")
        stdout.append(committed_line(data))
    for row in envelope_rows.rows():
        stdin.append(row)
        stdout += envelope_rows.answer(row)
    for row, *lines in (*made_blocks.rows(), *stone_rows.rows(), *number_rows.rows()):
        stdin.append(row)
        stdout += lines
    for rows_of, lines_of in (address_rows.made(), http_rows.made()):
        stdin += rows_of
        stdout += lines_of
    return stdin, stdout
