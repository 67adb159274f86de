"""Makes rows of programs that read them on standard input, and the lines that these have to print
for them. checks/make_rows.py writes them."""

from chain import SHORT, block_of, coinbase, transaction
from tools.bitcoin import SUBSIDY, twice


def plain(mark):
    """A coinbase alone that claims the whole subsidy, which this number makes its own."""
    return (coinbase(mark, SHORT),) * 2


def id_of(tx):
    return twice(tx[0])


def hash_text(hash_):
    """A hash as it is printed."""
    return hash_[::-1].hex()


def spend(tx, index=0, tapscript=b""):
    """An input that spends a transaction's output by a tapscript."""
    return id_of(tx), index, tapscript


def reveal(tx, tapscript=b"", index=0):
    """A transaction that spends an output by a tapscript into one of a subsidy."""
    return transaction([spend(tx, index, tapscript)], [(SUBSIDY, SHORT)])


def carry(tx, stone, tapscript=b""):
    """A transaction that spends an output of a subsidy into the same and a script, in hex digits,
    behind it."""
    return transaction([spend(tx, 0, tapscript)], [(SUBSIDY, SHORT), (0, bytes.fromhex(stone))])


def etch(rows, stone):
    """Blocks up to height 3, in which transaction 1 etches by this runestone; that transaction."""
    rows.plain(3)
    tx = carry(plain(0), stone)
    rows.extend(tx)
    return tx


def outpoint(tx, index=0):
    return f"{hash_text(id_of(tx))}:{index}"


def inscription(tx, index=0):
    """The id of one of a transaction's inscriptions."""
    return f"{hash_text(id_of(tx))}i{index}"


class Rows:
    """The rows of a program, what it has to print, and the blocks of the chain that the last rows
    make."""

    def __init__(self):
        self.rows, self.tips = [], []

    def row(self, row, *lines):
        """A row, and the lines that have to be printed for it."""
        self.rows.append((row, list(lines)))

    def begin(self, what, row):
        """What the rows behind show, and the row that begins a chain of no block for them."""
        self.row(f"# {what}", f"# {what}")
        self.row(row)
        self.tips = []

    def tip(self):
        return self.tips[-1] if self.tips else bytes(32)

    def ok(self):
        """The line that answers an accepted command."""
        return f"ok {len(self.tips) - 1} {hash_text(self.tips[-1])}" if self.tips else "ok empty"

    def connects(self, *txs):
        """A block of these transactions on the newest one is taken in."""
        block, tip = block_of(self.tip(), txs)
        self.takes(block.hex(), tip)

    def takes(self, digits, tip):
        """A block that is written so and has this hash is taken in."""
        self.tips.append(tip)
        self.row(f"block {digits}", self.ok())

    def plain(self, height):
        """Plain blocks up to below this height, whose outputs `plain` has by their heights."""
        for mark in range(len(self.tips), height):
            self.connects(plain(mark))

    def extend(self, *txs):
        """A block of a plain coinbase and these transactions is taken in."""
        self.connects(plain(len(self.tips)), *txs)

    def refuses(self, line, *txs):
        """A block of these transactions on the newest one is refused by this line."""
        self.row(f"block {block_of(self.tip(), txs)[0].hex()}", line)

    def disconnects(self):
        self.tips.pop()
        self.row("disconnect", self.ok())

    def cancels(self, *txs):
        """A block of these transactions on the newest one is taken in, and that is cancelled."""
        block, tip = block_of(self.tip(), txs)
        self.row(f"cancel block {block.hex()}", f"ok {len(self.tips)} {hash_text(tip)}", self.ok())

    def cancels_a_disconnect(self):
        """The newest block is taken back, and that is cancelled."""
        newest, tip = self.ok(), self.tips.pop()
        self.row("cancel disconnect", self.ok(), newest)
        self.tips.append(tip)

    def made(self):
        """Every row, and the lines for them."""
        return [row for row, _ in self.rows], [line for _, lines in self.rows for line in lines]
