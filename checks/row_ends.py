"""Which indexes are sound, and where a change leads: by docs/RULES.md and what a change is, over
the rows of row_forms."""

from row_forms import Change, Count, Index
from tools.bitcoin import SUBSIDY
from tools.runes import LEAST_KEPT, kept_name

# the halving, the last height, and whether rune 1:0 is there from the start
PROFILES = {
    "mainnet": (210_000, 4_000_000_000, True),
    "regtest": (210_000, 4_000_000_000, False),
    "lab": (10, 40, False),
}
MOST_AMOUNT = 1 << 128


def first_of(profile, height):
    """The first satoshi of a height: the subsidies of all below it."""
    halving = PROFILES[profile][0]
    return sum(SUBSIDY >> below // halving for below in range(height))


# ---- what is sound


def are_sats_once(index, end):
    """Whether each number below the end is in one place, and no other number is."""
    runs = sorted([run for _, row in index.outputs for run in row.sats] + index.lost)
    ends = [0, *(first + many for first, many in runs)]
    return [first for first, _ in runs] == ends[:-1] and ends[-1] == end


def is_bounded(row):
    terms = row.terms
    cap, amount = (terms.cap or 0, terms.amount or 0) if terms else (0, 0)
    fits = row.divisibility <= 38 and row.spacers < 1 << 27
    reserved = row.name < LEAST_KEPT or row.name == kept_name(*row.id)
    return fits and reserved and row.premine + cap * amount < MOST_AMOUNT and row.mints <= cap


def made_of(row):
    """What the etching and the mints of a rune gave."""
    return row.premine + (row.mints * (row.terms.amount or 0) if row.terms else 0)


def are_runes_sound(profile, index):
    ids = [row.id for row in index.runes]
    of_chain = (
        block < len(index.hashes) or (PROFILES[profile][2] and (block, tx) == (1, 0))
        for block, tx in ids
    )
    names = {row.name for row in index.runes}
    amounts = {at: 0 for at in ids}
    for _, held in index.balances:
        for at, amount in held:
            amounts[at] = amounts.get(at, 0) + amount
    settled = (amounts[row.id] + row.burned == made_of(row) for row in index.runes)
    placed = {at for at, _ in index.balances} <= {at for at, _ in index.outputs}
    distinct = len(set(ids)) == len(names) == len(ids)
    known = set(amounts) == set(ids)
    bounded = all(map(is_bounded, index.runes))
    return distinct and known and placed and bounded and all(of_chain) and all(settled)


def is_sound(profile, index):
    blocks = len(index.hashes)
    if blocks > PROFILES[profile][1] + 1:
        return False
    end = first_of(profile, blocks)
    heights = [row.height for _, row in index.outputs]
    heights += [row.height for row in index.inscriptions]
    sats = [row.sat for row in index.inscriptions if row.sat is not None]
    below = all(height < blocks for height in heights) and all(sat < end for sat in sats)
    return below and are_sats_once(index, end) and are_runes_sound(profile, index)


# ---- what a change is


def joined(*lists):
    """The maximal runs of satoshi lists, one behind the other."""
    runs = []
    for first, many in (run for part in lists for run in part):
        if runs and sum(runs[-1]) == first:
            runs[-1] = runs[-1][0], runs[-1][1] + many
        else:
            runs.append((first, many))
    return runs


def count_of(runs):
    return sum(many for _, many in runs)


def cut(runs, left):
    """The first satoshis of a list, so many, and the others."""
    front, back = [], []
    for first, many in runs:
        taken = min(many, left)
        left -= taken
        front += [(first, taken)] if taken else []
        back += [(first + taken, many - taken)] if taken < many else []
    return front, back


def differing(rows, others):
    """The rows of a table that don't stand so in the other one."""
    there = dict(others)
    return [(at, row) for at, row in rows if there.get(at) != row]


def without_counts(row):
    return row._replace(mints=0, burned=0)


def change_between(before, after):
    """The change that leads from one index to the other, or none."""
    one = len(before.hashes)
    shelf, runes = len(before.inscriptions), len(before.runes)
    lost = cut(after.lost, count_of(before.lost))
    continues = (
        after.hashes[:-1] == before.hashes and len(after.hashes) == one + 1,
        lost[0] == before.lost,
        after.inscriptions[:shelf] == before.inscriptions,
        list(map(without_counts, after.runes[:runes])) == list(map(without_counts, before.runes)),
    )
    if not all(continues):
        return None
    return Change(
        after.hashes[-1],
        differing(before.outputs, after.outputs),
        differing(after.outputs, before.outputs),
        lost[1],
        after.inscriptions[shelf:],
        differing(before.balances, after.balances),
        differing(after.balances, before.balances),
        [
            Count(place, old.mints, new.mints, old.burned, new.burned)
            for place, (old, new) in enumerate(zip(before.runes, after.runes))
            if old != new
        ],
        after.runes[runes:],
    )


# ---- the other end of a change


def swapped(rows, gone, came):
    """A table without some rows and with others, by rising outpoint."""
    taken = {at for at, _ in gone}
    left = {at: row for at, row in rows if at not in taken}
    return sorted({**left, **dict(came)}.items())


def counted(runes, counts, of):
    """The runes with what is counted of some of them."""
    told = {count.place: of(count) for count in counts}
    return [
        row._replace(mints=told[place][0], burned=told[place][1]) if place in told else row
        for place, row in enumerate(runes)
    ]


def after_of(index, change):
    return Index(
        [*index.hashes, change.hash],
        swapped(index.outputs, change.gone, change.came),
        joined(index.lost, change.lost),
        index.inscriptions + change.inscriptions,
        swapped(index.balances, change.before, change.after),
        counted(index.runes, change.counts, lambda count: (count.mints_after, count.burned_after))
        + change.appended,
    )


def before_of(index, change):
    shelf = len(index.inscriptions) - len(change.inscriptions)
    runes = len(index.runes) - len(change.appended)
    return Index(
        index.hashes[:-1],
        swapped(index.outputs, change.came, change.gone),
        cut(index.lost, max(0, count_of(index.lost) - count_of(change.lost)))[0],
        index.inscriptions[: max(shelf, 0)],
        swapped(index.balances, change.after, change.before),
        counted(
            index.runes[: max(runes, 0)],
            change.counts,
            lambda count: (count.mints_before, count.burned_before),
        ),
    )


def other_end(index, change, back):
    """The index at a change's other end, or none where the change has no end in this index."""
    other = before_of(index, change) if back else after_of(index, change)
    ends = (other, index) if back else (index, other)
    return other if change_between(*ends) == change else None
