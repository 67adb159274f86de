"""Rows that ask whether a change keeps the rules that leave a sound index, and whether the index
after it is sound, and what has to be printed for them: by the page of crates/ox_sound and
docs/RULES.md, over row_forms and row_ends. `rows` has all of them, for rows_of_files.

Where the rules are kept the index is sound; where they aren't it may be all the same. They are kept
by each change of a chain.
"""

from row_ends import PROFILES, after_of, first_of, is_bounded, is_sound, joined, made_of
from row_ends import other_end
from row_forms import SPELLED, Change, Count, Inscription, Output, Rune, Terms, read
from rows.row_blocks import lab_changes, made_changes
from rows.row_chains import ALONE, BOUND, FIRST, KEPT, MINTED, MOST_AMOUNT, SECOND, SOUND, SUBSIDY
from rows.row_chains import THIRD, chain, txid
from tools.runes import LEAST_KEPT, kept_name

# ---- the rules


def are_sats_kept(profile, height, change):
    """Whether satoshis that come and those that are lost are those that are gone and the new
    height's."""
    first, end = first_of(profile, height), first_of(profile, height + 1)
    came = [run for _, row in change.came for run in row.sats] + change.lost
    gone = [run for _, row in change.gone for run in row.sats] + [(first, end - first)]
    return joined(sorted(came)) == joined(sorted(run for run in gone if run[1]))


def are_places_kept(change, after):
    """Whether balances come at outputs that stand after, and at outputs that go nothing is left."""
    outputs, balances = ({at for at, _ in rows} for rows in (after.outputs, after.balances))
    came, gone = ({at for at, _ in rows} for rows in (change.after, change.gone))
    return came <= outputs and not gone & balances - outputs


def are_new_runes_kept(profile, before, new):
    height, ids, names = len(before.hashes), {row.id for row in new}, {row.name for row in new}
    first = {(1, 0)} if PROFILES[profile][2] else set()
    own = len(ids) == len(names) == len(new) and not names & {row.name for row in before.runes}
    of_block = all(block == height for block, _ in ids) and not ids & first
    return own and of_block and all(map(is_bounded, new))


def is_count_kept(runes, count):
    """Whether counts rise, and the rune isn't minted beyond its cap."""
    terms = runes[count.place].terms
    cap = terms.cap or 0 if terms else 0
    rises = count.mints_before <= count.mints_after and count.burned_before <= count.burned_after
    return rises and count.mints_after <= cap


def amount_of(rows, rune):
    return sum(amount for _, held in rows for id_, amount in held if id_ == rune)


def is_amount_kept(before, change, rune):
    """Whether of a rune what comes and is burned is what is gone, is minted and is etched."""
    came, gone = (amount_of(rows, rune) for rows in (change.after, change.before))
    for count in change.counts:
        row = before.runes[count.place]
        if row.id == rune:
            more = count.mints_after - count.mints_before
            came += count.burned_after - count.burned_before
            gone += more * (row.terms.amount or 0) if row.terms else 0
    new = [row for row in change.appended if row.id == rune]
    return came + sum(row.burned for row in new) == gone + sum(map(made_of, new))


def keeps(profile, before, change):
    """Whether a change that begins in a sound index keeps the rules."""
    height, after = len(before.hashes), after_of(before, change)
    end = first_of(profile, height + 1)
    heights = [row.height for _, row in change.came]
    heights += [row.height for row in change.inscriptions]
    sats = [row.sat for row in change.inscriptions if row.sat is not None]
    ids = {row.id for row in after.runes}
    named = {id_ for _, held in change.after for id_, _ in held}
    return (
        height <= PROFILES[profile][1]
        and all(each <= height for each in heights)
        and all(sat < end for sat in sats)
        and are_sats_kept(profile, height, change)
        and are_places_kept(change, after)
        and are_new_runes_kept(profile, before, change.appended)
        and all(is_count_kept(before.runes, count) for count in change.counts)
        and named <= ids
        and all(is_amount_kept(before, change, rune) for rune in ids)
    )


# ---- a change that keeps them

BEFORE = SOUND._replace(runes=[BOUND, MINTED, ALONE, KEPT])
PAID, MORE = (txid(8), 0), (txid(8), 1)
NEW = Rune((3, 1), 6, premine=21, terms=Terms(7, 5), mints=1, burned=7, etching=txid(8))
# The first output is spent into two, of which one can't be spent, and pays a fee of 13. The second
# is a coinbase's, which is made again and leaves 3. A rune is minted and burned, and one is etched.
CHANGE = Change(
    txid(0xBB),
    SOUND.outputs[:2],
    [
        (SECOND, Output(b"\x52", 3, [(3 * SUBSIDY, SUBSIDY), (SUBSIDY - 20, 10)])),
        (PAID, Output(b"\x51", 3, [(0, SUBSIDY - 20)])),
        (MORE, Output(b"\x6a", 3, [])),
    ],
    [(2 * SUBSIDY, 100), (SUBSIDY, 3), (SUBSIDY - 10, 3)],
    [Inscription((txid(8), 0), 3, sat=0), Inscription((txid(8), 1), 3)],
    SOUND.balances[:1],
    [(PAID, [((1, 3), 16), ((3, 1), 21)])],
    [Count(1, 2, 3, 4, 5)],
    [NEW],
)
KEEPS, LEAVES, FAILS = (True, True), (False, True), (False, False)


def with_output(at, change=CHANGE, **changed):
    """The change with another row at an outpoint."""
    rows = [(key, row._replace(**changed) if key == at else row) for key, row in change.came]
    return change._replace(came=rows)


def with_held(*rows, change=CHANGE, **changed):
    """The change with these balances in place of those that come."""
    return change._replace(after=sorted(rows), **changed)


def with_amounts(old, new=21, rune=(3, 1), **changed):
    """The change where so much comes of the rune that is minted, and of the new one."""
    amounts = [(id_, amount) for id_, amount in (((1, 3), old), (rune, new)) if amount]
    return with_held((PAID, sorted(amounts)), **changed)


def with_count(mints, burned, held):
    """The change after which the minted rune has these counts, where so much of it comes."""
    return with_amounts(held, counts=[Count(1, 2, mints, 4, burned)])


def with_new(*more, held=21, **changed):
    """The change with another new rune, of which so much is held, and more of them behind it."""
    new = NEW._replace(**changed)
    return with_amounts(16, held, new.id, appended=[new, *more])


# ---- each rule broken by one, and made good


def height_cases():
    """One block more than there may be."""
    for profile, many, said in (
        ("lab", 40, KEEPS),
        ("lab", 41, FAILS),
        ("regtest", 41, KEEPS),
        ("lab", 0, KEEPS),
        ("mainnet", 0, KEEPS),
    ):
        first, end = first_of(profile, many), first_of(profile, many + 1)
        lost = Change(txid(0xBB), lost=[(first, end - first)])
        yield profile, chain(many, profile), lost, said


def row_cases():
    """Outputs and inscriptions above the new height, and a satoshi that isn't minted yet."""
    for height, said in ((0, KEEPS), (2, KEEPS), (3, KEEPS), (4, FAILS), ((1 << 32) - 1, FAILS)):
        yield with_output(PAID, height=height), said
        yield with_output(MORE, height=height), said
    for height, sat, said in (
        (0, None, KEEPS),
        (3, 4 * SUBSIDY - 1, KEEPS),
        (3, 4 * SUBSIDY, FAILS),
        (3, (1 << 64) - 1, FAILS),
        (4, None, FAILS),
        (4, 0, FAILS),
    ):
        row = Inscription((txid(8), 2), height, sat=sat)
        yield CHANGE._replace(inscriptions=[*CHANGE.inscriptions, row]), said
    yield CHANGE._replace(inscriptions=[]), KEEPS


def sats_cases():
    """A satoshi that goes and doesn't come, that comes twice, and one that comes in its place."""
    lost, (new, fee) = CHANGE.lost, CHANGE.came[0][1].sats
    yield CHANGE._replace(lost=lost[::-1]), KEEPS
    yield with_output(SECOND, sats=[fee, new]), KEEPS
    for first, left in ((new[0], 4 * SUBSIDY - 1), (new[0] + 1, new[0])):
        less = with_output(SECOND, sats=[(first, SUBSIDY - 1), fee])
        yield less, FAILS
        # it comes at another output, or is lost
        yield with_output(MORE, less, sats=[(left, 1)]), KEEPS
        yield less._replace(lost=[*lost, (left, 1)]), KEEPS
        for other in (4 * SUBSIDY, new[0] + 7, SUBSIDY - 7, 0):
            yield with_output(MORE, less, sats=[(other, 1)]), FAILS
    for more in (new[0], 4 * SUBSIDY, SUBSIDY - 21, 2 * SUBSIDY, SUBSIDY - 7):
        yield with_output(MORE, sats=[(more, 1)]), FAILS
    yield CHANGE._replace(lost=lost[1:]), FAILS
    yield CHANGE._replace(lost=lost[:-1]), FAILS
    yield CHANGE._replace(lost=[*lost[:2], (SUBSIDY - 10, 2)]), FAILS
    yield CHANGE._replace(lost=[*lost[:2], (SUBSIDY - 11, 4)]), FAILS
    yield CHANGE._replace(lost=[*lost, (0, 1)]), FAILS
    yield with_output(PAID, sats=[]), FAILS
    yield with_output(PAID, sats=[])._replace(lost=[*lost, (0, SUBSIDY - 20)]), KEEPS


def place_cases():
    """Balances that come at no output, and ones that are left where an output went."""
    old, new = [((1, 3), 16)], [((3, 1), 21)]
    again = CHANGE._replace(came=[(FIRST, Output(b"\x54", 3, [])), *CHANGE.came])
    for at, said in (((txid(9), 0), FAILS), (FIRST, FAILS), (MORE, KEEPS), (SECOND, KEEPS)):
        yield with_held((at, old), (PAID, new)), said
        yield with_held((PAID, old), (at, new)), said
    yield with_held((FIRST, old), (PAID, new), change=again), KEEPS
    # at an output that stands and stays
    held = THIRD, [((1, 3), 116), ((1, 4), 9)]
    yield with_held(held, (PAID, new), before=BEFORE.balances), KEEPS
    # no rune of the first output moves, which goes, goes and comes, or stays
    left = with_held((PAID, new), before=[], counts=[])
    yield left, FAILS
    yield left._replace(came=again.came), KEEPS
    minted = with_output(SECOND, left, sats=CHANGE.came[0][1].sats[:1])
    stays = minted._replace(gone=left.gone[1:], came=[minted.came[0], minted.came[2]])
    stays = stays._replace(lost=left.lost[:2])
    yield stays, FAILS
    yield stays._replace(after=[(SECOND, new)]), KEEPS


def new_rune_cases():
    """Ids and names of new runes, and the bounds of their numbers."""
    for id_, said in (
        ((3, 0), KEEPS),
        ((3, (1 << 32) - 1), KEEPS),
        ((2, 1), LEAVES),
        ((0, 0), LEAVES),
        ((4, 1), FAILS),
        ((2, 0), FAILS),
        ((1, 4), FAILS),
    ):
        yield with_new(id=id_), said
    for name, said in (
        (kept_name(3, 1), KEEPS),
        (kept_name(3, 2), FAILS),
        (kept_name(2, 1), FAILS),
        (LEAST_KEPT - 2, KEEPS),
        (LEAST_KEPT, FAILS),
        (MOST_AMOUNT, FAILS),
        (0, KEEPS),
        *((row.name, FAILS) for row in BEFORE.runes),
        *((row.name + 1, KEEPS) for row in (MINTED, ALONE)),
    ):
        yield with_new(name=name), said
    other = Rune((3, 2), 7, etching=txid(8))
    yield with_new(other), KEEPS
    yield with_new(other._replace(id=(3, 1))), FAILS
    yield with_new(other._replace(name=6)), FAILS
    yield with_new(other._replace(name=27)), FAILS
    yield with_new(other, name=7), FAILS
    yield with_new(other._replace(id=(2, 1))), LEAVES
    yield with_new(divisibility=38), KEEPS
    yield with_new(divisibility=39), FAILS
    yield with_new(spacers=(1 << 27) - 1), KEEPS
    yield with_new(spacers=1 << 27), FAILS
    most = MOST_AMOUNT
    for premine, amount, said in ((0, most, KEEPS), (1, most - 1, KEEPS), (1, most, FAILS)):
        terms = Terms(amount, 1)
        yield with_new(held=premine, premine=premine, terms=terms, mints=0, burned=0), said
    yield with_new(mints=5, burned=35), KEEPS
    yield with_new(mints=6, burned=42), FAILS
    yield with_new(terms=None, mints=0, burned=0), KEEPS
    yield with_new(terms=None, mints=1, burned=0), FAILS


def first_rune_cases():
    """The id of the rune that is there from the start on mainnet alone."""
    first = Rune((1, 0), 2055900680524219742, 128, 0, 0x29C9, 0, Terms(1, MOST_AMOUNT))
    for profile, there, id_, said in (
        ("mainnet", [], (1, 0), LEAVES),
        ("mainnet", [first], (1, 0), FAILS),
        ("mainnet", [first], (1, 1), KEEPS),
        ("regtest", [], (1, 0), KEEPS),
    ):
        change = Change(txid(0xBB), lost=[(SUBSIDY, SUBSIDY)], appended=[Rune(id_, 6)])
        yield profile, chain(1, profile, runes=there), change, said


def count_cases():
    """Mints up to the cap, and counts that fall."""
    for mints, burned, held, said in (
        (5, 5, 30, KEEPS),
        (6, 5, 37, FAILS),
        (6, 42, 0, FAILS),
        (2, 5, 9, KEEPS),
        (3, 4, 17, KEEPS),
        (3, 21, 0, KEEPS),
        (1, 5, 2, LEAVES),
        (3, 3, 18, LEAVES),
        (1, 3, 4, LEAVES),
    ):
        yield with_count(mints, burned, held), said


def amount_cases():
    """Of a rune comes one more or one less than there is."""
    for old, new, said in ((16, 21, KEEPS), (15, 21, FAILS), (17, 21, FAILS), (17, 20, FAILS)):
        yield with_amounts(old, new), said
    for mints, burned, held, said in (
        (3, 4, 16, FAILS),
        (3, 6, 16, FAILS),
        (2, 5, 16, FAILS),
        (4, 5, 16, FAILS),
        # another number makes it good
        (3, 4, 17, KEEPS),
        (3, 6, 15, KEEPS),
        (4, 5, 23, KEEPS),
        (4, 12, 16, KEEPS),
    ):
        yield with_count(mints, burned, held), said
    for premine, mints, burned, held, said in (
        (20, 1, 7, 21, FAILS),
        (22, 1, 7, 21, FAILS),
        (21, 0, 7, 21, FAILS),
        (21, 2, 7, 21, FAILS),
        (21, 1, 6, 21, FAILS),
        (21, 1, 8, 21, FAILS),
        (21, 1, 7, 20, FAILS),
        (21, 1, 7, 22, FAILS),
        (22, 1, 7, 22, KEEPS),
        (21, 2, 14, 21, KEEPS),
        (21, 1, 28, 0, KEEPS),
        (0, 0, 0, 0, KEEPS),
    ):
        changed = {"premine": premine, "mints": mints, "burned": burned}
        yield with_new(held=held, **changed), said
    # one output holds less, and another more
    third = BEFORE.balances[1]
    for many, said in ((6, KEEPS), (5, FAILS), (7, FAILS)):
        rows = (PAID, [((1, 3), 10), ((3, 1), 21)]), (MORE, [((1, 3), many)])
        yield with_held(*rows), said
        rows = rows[0], (THIRD, [((1, 3), 100 + many), ((1, 4), 9)])
        yield with_held(*rows, before=[*CHANGE.before, third]), said
    # a rune that isn't there, unless it is new
    amounts = [((1, 3), 16), ((3, 1), 21), ((3, 2), 1)]
    other = Rune((3, 2), 7, premine=1, etching=txid(8))
    yield with_held((PAID, amounts)), FAILS
    yield with_held((PAID, amounts), appended=[NEW, other]), KEEPS
    yield with_held((PAID, amounts), appended=[NEW, other._replace(id=(3, 3))]), FAILS
    for id_ in ((0, 0), (1, 5), (2, 0), (3, 1 << 31)):
        yield with_held((PAID, sorted([*amounts[:2], (id_, 1)]))), FAILS


def great_amount_cases():
    """Sums of 128 bits, and ones that pass them."""
    most = MOST_AMOUNT
    held = [(FIRST, [((1, 4), most - 2)]), (THIRD, [((1, 4), 2)])]
    before = BEFORE._replace(balances=held, runes=[ALONE._replace(premine=most)])
    change = CHANGE._replace(before=held, counts=[], appended=[])
    for one, other, said in (
        (most, 0, KEEPS),
        (most - 2, 2, KEEPS),
        (1, most - 1, KEEPS),
        (most - 1, 0, FAILS),
        (most, 1, FAILS),
        (most, most, FAILS),
        (most - 1, most, FAILS),
    ):
        rows = [(at, [((1, 4), many)]) for at, many in ((PAID, one), (MORE, other)) if many]
        yield before, change._replace(after=rows), said
    for burned, many, said in ((most, 0, KEEPS), (1, most - 1, KEEPS), (1, most, FAILS)):
        rows = [(PAID, [((1, 4), many)])] if many else []
        yield before, change._replace(after=rows, counts=[Count(0, 0, 0, 0, burned)]), said


# ---- the rows


def cases():
    """Each profile, index, change and what is said of it."""
    yield "regtest", BEFORE, CHANGE, KEEPS
    yield from height_cases()
    yield from first_rune_cases()
    for before, change, said in great_amount_cases():
        yield "regtest", before, change, said
    alone = row_cases, sats_cases, place_cases, new_rune_cases, count_cases, amount_cases
    for case in alone:
        for change, said in case():
            yield "regtest", BEFORE, change, said
    # a whole chain, and the first made blocks
    for before, change in lab_changes():
        yield "lab", before, change, KEEPS
    for before, change in made_changes(12):
        yield "regtest", before, change, KEEPS


def row(profile, before, change):
    spelled = []
    for kind, value in (("index", before), ("change", change)):
        data = SPELLED[kind](value)
        assert read(kind, data) == (value, len(data)), value
        spelled.append(data.hex())
    return " ".join(["keeps", profile, *spelled])


def rows():
    """Each row `keeps PROFILE INDEX CHANGE`, and whether the change keeps the rules and the index
    after it is sound, or `no end`."""
    for profile, before, change, (kept, sound) in cases():
        told = profile, before, change, kept, sound
        assert is_sound(profile, before) and other_end(before, change, False), told
        assert keeps(profile, before, change) == kept, told
        assert is_sound(profile, after_of(before, change)) == sound, told
        words = "kept" if kept else "not kept", "sound" if sound else "not sound"
        yield row(profile, before, change), ", ".join(words)
    # a change that begins elsewhere, and an index that isn't sound
    for before, change in (
        (BEFORE, CHANGE._replace(gone=[])),
        (BEFORE, CHANGE._replace(counts=[Count(4, 0, 1, 0, 0)])),
        (BEFORE._replace(lost=[]), CHANGE),
    ):
        yield row("regtest", before, change), "no end"
