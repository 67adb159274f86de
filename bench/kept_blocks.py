"""A store with many kept blocks that move outputs, mint runes and reveal inscriptions, spelled by
docs/FORMATS.md, and paths that ask it as of these blocks: see bench/as_of.py."""

import random
import sys

from large_stores import EACH, MANY, front_rows, kept_rows, new_output, spelled
from tools.bitcoin import SUBSIDY
from tools.programs import TOP

sys.path.append(str(TOP / "checks"))

from row_forms import Change, Count, Inscription, Rune, Terms, held  # noqa: E402
from row_forms import inscription, listed, number, outpoint, rune  # noqa: E402
from store_files import file_of  # noqa: E402

KEPT = 1_000
# of so many runes a kept block mints some, which outputs get that it makes of older ones; of more
# than 600 the audit would be too long to be kept
RUNES, COUNTS = 600, 300
PREMINE, AMOUNT = 1_000_000, 1_234_500
# how many runes an output holds that holds any
HELD = 5
SPENT = COUNTS // HELD
# how many outputs with balances a kept block moves, and how many inscriptions it reveals
MOVED, REVEALED = 10, 5
# one of so many older outputs bears an inscription
TENTH = 10
BODY = b"an inscription as small as most are"
# so many paths of each route but the audit, and of each of two where no rune is to be told
EACH_ROUTE, WITHOUT_RUNES = 16, 34


def new_rune(chance, place):
    """A rune of the first block that anybody may mint."""
    terms, etching = Terms(AMOUNT, 1 << 32), chance.randbytes(32)
    return Rune((0, place + 1), 10**12 + place, 0, 2, None, PREMINE, terms, etching=etching)


def new_inscription(at, row):
    """An inscription on the first satoshi of a new output."""
    return Inscription(at, row.height, b"text/plain", BODY, sat=row.sats[0][0])


def shown(id_, between):
    return f"{id_[0][::-1].hex()}{between}{id_[1]}"


class Blocks:
    """The rows that stand after so many older outputs and the kept blocks, and what these
    changed."""

    def __init__(self, outputs):
        self.chance, self.first = random.Random(6), outputs // MANY
        self.hashes = [self.chance.randbytes(32) for _ in range(self.first)]
        runs = ((at // MANY, (at * EACH, EACH)) for at in range(outputs))
        self.rows = dict(new_output(self.chance, *run) for run in runs)
        self.old = list(self.rows)
        self.inscriptions = [new_inscription(at, self.rows[at]) for at in self.old[::TENTH]]
        self.runes, self.mints = [new_rune(self.chance, at) for at in range(RUNES)], [0] * RUNES
        fronts = zip(self.old, range(0, RUNES, HELD))
        self.balances = {
            at: [(row.id, PREMINE) for row in self.runes[of : of + HELD]] for at, of in fronts
        }
        spare = self.old[len(self.balances) :]
        self.to_spend = self.chance.sample(spare, SPENT * KEPT)
        # the heights at which kept blocks took outputs away and made them
        self.gone, self.came = {}, {}
        self.holders, self.changes = [], []
        for height in range(self.first, self.first + KEPT):
            self.add(height)

    def make(self, height, run, balances=None):
        """A new output, which holds these runes."""
        at, row = new_output(self.chance, height, run)
        self.rows[at], self.came[at] = row, height
        if balances:
            self.balances[at] = balances
            self.holders.append(at)
        return at

    def mint(self):
        """What is counted of the runes that a block mints, and what is minted of them, for each
        output that gets some."""
        places = sorted(self.chance.sample(range(RUNES), COUNTS))
        counts = [Count(at, self.mints[at], self.mints[at] + 1, 0, 0) for at in places]
        for at in places:
            self.mints[at] += 1
        parts = (places[at : at + HELD] for at in range(0, COUNTS, HELD))
        return counts, [[(self.runes[at].id, AMOUNT) for at in part] for part in parts]

    def pop_holder(self):
        return self.holders.pop(self.chance.randrange(len(self.holders)))

    def add(self, height):
        """A block."""
        moved = [self.pop_holder() for _ in range(min(MOVED, len(self.holders)))]
        spent = [*(self.to_spend.pop() for _ in range(SPENT)), *moved]
        counts, minted = self.mint()
        before = [(at, self.balances.pop(at)) for at in moved]
        gone = [(at, self.rows.pop(at)) for at in spent]
        given = minted + [balances for _, balances in before]
        made = [self.make(height, *row.sats, to) for (_, row), to in zip(gone, given)]
        came = [*made, self.make(height, (height * SUBSIDY, SUBSIDY))]
        shelf = [new_inscription(at, self.rows[at]) for at in made[:REVEALED]]
        change = Change(
            self.chance.randbytes(32),
            sorted(gone),
            sorted((at, self.rows[at]) for at in came),
            inscriptions=shelf,
            before=sorted(before),
            after=sorted((at, self.balances[at]) for at in made),
            counts=counts,
        )
        self.gone |= {at: height for at in spent}
        self.inscriptions += shelf
        self.hashes.append(change.hash)
        self.changes.append(change)

    def write(self, path):
        """The file of a store that stands for them."""
        runes = [row._replace(mints=many) for row, many in zip(self.runes, self.mints)]
        balances = [outpoint(at) + held(all_) for at, all_ in sorted(self.balances.items())]
        body = front_rows(self.hashes, sorted(map(spelled, self.rows.items())))
        body += listed(bytes)([]) + listed(inscription)(self.inscriptions)
        body += number(4)(len(balances)) + b"".join(balances) + listed(rune)(runes)
        path.write_bytes(file_of("regtest", KEPT, body + kept_rows(self.changes[::-1])))

    def stood(self, at, height):
        """Whether an output stood behind the block of a height."""
        first, last = self.first - 1, self.first + KEPT
        return self.came.get(at, first) <= height < self.gone.get(at, last)

    def outputs_at(self, height, count):
        """Outputs that stood then, one half of them such that kept blocks took away or made."""
        still = [at for at in self.chance.sample(self.old, 100) if at in self.rows]
        touched = [at for at in {**self.gone, **self.came} if self.stood(at, height)]
        return still[: count // 2] + self.chance.sample(touched, count // 2)

    def first_sat(self, at):
        """The first satoshi of an output that stands or stood."""
        row = self.rows.get(at)
        if row is None:
            row = dict(self.changes[self.gone[at] - self.first].gone)[at]
        return row.sats[0][0]

    def inscriptions_at(self, height, count):
        """Inscriptions that were there, one half of them on satoshis that kept blocks moved."""
        starts = {row.sats[0][0] for change in self.changes for _, row in change.gone}
        parts = [], []
        for row in self.inscriptions:
            if row.height <= height:
                parts[row.sat in starts].append(row)
        return [row for part in parts for row in self.chance.sample(part, count // 2)]

    def without_runes(self, height, count):
        """What is asked of satoshis and inscriptions, whose replies tell of no rune."""
        sats = [f"sat/{self.first_sat(at)}" for at in self.outputs_at(height, count)]
        rows = self.inscriptions_at(height, count)
        return sats + [f"inscription/{shown(row.id, 'i')}" for row in rows]

    def of_each_route(self, height):
        """What is asked of all."""
        ends = [f"output/{shown(at, ':')}" for at in self.outputs_at(height, EACH_ROUTE)]
        ends += self.without_runes(height, EACH_ROUTE)
        ends += [f"rune/0:{row.id[1]}" for row in self.chance.sample(self.runes, EACH_ROUTE)]
        return [*ends, "audit"]

    def paths(self, back):
        """What is asked so many blocks back: of all, and such that tells of no rune."""
        height = self.first + KEPT - 1 - back
        named = f"?at={self.hashes[height][::-1].hex()}" if back else ""
        kinds = self.of_each_route(height), self.without_runes(height, WITHOUT_RUNES)
        return [[f"/{end}{named}" for end in ends] for ends in kinds]


def write_store(path, outputs, backs):
    """The file of a store over so many older outputs, and what is asked so many blocks back, for
    each of these numbers."""
    blocks = Blocks(outputs)
    blocks.write(path)
    return [blocks.paths(back) for back in backs]
