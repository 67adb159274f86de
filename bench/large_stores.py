"""Files of large stores as bench/apply_and_open.py opens them, spelled by docs/FORMATS.md."""

import random
import sys

from tools.bitcoin import SUBSIDY
from tools.programs import TOP

sys.path.append(str(TOP / "checks"))

from row_forms import SPELLED, Change, Index, Output, number, outpoint, output  # noqa: E402
from store_files import VERSION, body_of, file_of, payload_on  # noqa: E402

# how many outputs each of the first blocks has
MANY = 50_000
EACH = SUBSIDY // MANY
# an index without rows ends with five empty lists: outputs, lost satoshis, inscriptions, balances
# and runes
EMPTY_LISTS = 5 * 4


def new_output(chance, height, run):
    """An outpoint of its own, and a row with a script as pay-to-taproot has it."""
    script = b"\x51\x20" + chance.randbytes(32)
    return (chance.randbytes(32), 0), Output(script, height, [run])


def change_of(chance, height, spent):
    """What a block changes that spends these outputs, each into one of its own, and whose coinbase
    claims the subsidy."""
    paid = new_output(chance, height, (height * SUBSIDY, SUBSIDY))
    moved = [new_output(chance, height, *row.sats) for _, row in spent]
    return Change(chance.randbytes(32), sorted(spent), sorted([paid, *moved]))


def front_rows(hashes, outputs):
    """The rows of an index up to its outputs, which rise."""
    front = SPELLED["index"](Index(hashes))[:-EMPTY_LISTS]
    return front + number(4)(len(outputs)) + b"".join(outputs)


def index_rows(hashes, outputs):
    """The rows of an index of these hashes and outputs alone."""
    return front_rows(hashes, outputs) + bytes(EMPTY_LISTS - 4)


def kept_rows(changes):
    """The rows of kept changes, the newest first."""
    return body_of(Index(), changes)[len(SPELLED["index"](Index())) :]


def spelled(pair):
    at, row = pair
    return outpoint(at) + output(row)


def write_store(path, outputs, kept, records, version=VERSION, each=1):
    """A file with a checkpoint of so many outputs, so many kept small blocks that spend one of
    them, and records of so many further ones that spend so many each. How many blocks there are,
    and the newest."""
    chance = random.Random(5)
    first = outputs // MANY
    runs = ((at // MANY, (at * EACH, EACH)) for at in range(outputs))
    rows = [new_output(chance, height, run) for height, run in runs]
    ends = [*range(kept), *range(kept, kept + records * each + 1, each)]
    spent = [rows[begin:end] for begin, end in zip(ends, ends[1:])]
    changes = [change_of(chance, first + at, gone) for at, gone in enumerate(spent)]
    hashes = [chance.randbytes(32) for _ in range(first)]
    hashes += [change.hash for change in changes[:kept]]
    came = [row for change in changes[:kept] for row in change.came]
    body = index_rows(hashes, sorted(map(spelled, rows[kept:] + came)))
    body += kept_rows(changes[:kept][::-1])
    payloads = map(payload_on, changes[kept:])
    path.write_bytes(file_of("regtest", kept, body, payloads, version=version))
    return first + len(changes), changes[-1].hash[::-1].hex()
