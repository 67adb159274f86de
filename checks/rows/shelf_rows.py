"""The rows of crates/ox_index_rows about inscriptions that are hidden while a block is taken back,
come again and give way to others.
"""

from chain import SHORT, envelope, id_value, transaction
from rows import id_of, inscription, outpoint, plain, reveal, spend
from tools.bitcoin import SUBSIDY

# an unknown even tag
UNBOUND = (0x42, b"x")


class Six:
    """A chain that reveals three inscriptions: one on a satoshi, a child of it on none, and one
    that is moved. A block on it reveals three more: one by the same id as the last, a child of
    these two, and a second child of the first, on its satoshi. Another block reveals two in their
    place."""

    def __init__(self, rows):
        self.rows = rows
        rows.plain(2)
        one = reveal(plain(1), envelope())
        rows.extend(one)
        two = reveal(one, envelope([UNBOUND, (3, id_of(one))]))
        three = reveal(plain(0), envelope())
        rows.extend(two, three)
        moved = reveal(three)
        rows.extend(moved)
        # an equal coinbase lets a transaction repeat
        rows.connects(plain(0))
        again = reveal(plain(0), envelope([(2, b"\1")]))
        assert id_of(again) == id_of(three)
        of_both = reveal(moved, envelope([(2, b"\xe8\3"), (3, id_of(three))]))
        of_one = reveal(two, envelope([(3, id_of(one))]))
        self.block = [plain(6), again, of_both, of_one]
        self.other = [plain(6), reveal(moved, envelope()), of_one]
        ids = [inscription(tx) for tx in (one, two, three, of_both, of_one)]
        sats = [0, 1, 1_000, 1_001, SUBSIDY, SUBSIDY + 1, 5 * SUBSIDY + 1, 5 * SUBSIDY + 2]
        self.words = [f"id={id_}" for id_ in [*ids, inscription(two, 1)]]
        self.words += [f"sat={sat}" for sat in sats]

    def is_back(self):
        """Of the block nothing is there."""
        assert len(self.rows.index().inscriptions) == 3
        self.rows.dump(*self.words)


def hidden_rows(rows):
    rows.live("inscriptions are hidden behind the mark, and come again")
    six = Six(rows)
    made = rows.both(six.words, *six.block).inscriptions
    assert [row.sat for row in made] == [SUBSIDY, None, 0, 5 * SUBSIDY + 1, 1_000, SUBSIDY]
    parents = [[] if not row.parents else row.parents[0] for row in made]
    assert parents == [[], made[0].id, [], [], made[2].id, made[0].id]
    assert made[2].id == made[3].id


def rows_in_place(rows):
    rows.chain("inscriptions come back where a disconnect is cancelled, and others in their place")
    six = Six(rows)
    rows.connects(*six.block)
    rows.dump(*six.words)
    rows.cancels_a_disconnect()
    rows.dump(*six.words)
    rows.disconnects()
    six.is_back()
    rows.plainly(*six.words)
    rows.cancels(*six.other)
    six.is_back()
    rows.connects(*six.other)
    assert len(rows.index().inscriptions) == 5
    rows.dump(*six.words)
    rows.cancels_a_disconnect()
    rows.dump(*six.words)
    rows.disconnects()
    six.is_back()
    rows.connects(*six.block)
    rows.dump(*six.words)


def full_row(rows):
    """One inscription has every field, and another none: it is on no satoshi."""
    rows.live("an inscription with every field, and one with none, outlive their first owners")
    rows.plain(2)
    one, two = reveal(plain(0), 2 * envelope()), reveal(plain(1), envelope())
    rows.extend(one, two)
    nothing = transaction([spend(plain(2))], [(0, SHORT), (SUBSIDY, SHORT)])
    rows.extend(nothing)
    ids = [(id_of(one), 1), (id_of(one), 0), (id_of(two), 0)]
    delegate = id_of(nothing), 3
    fields = [(1, b"text/plain"), (2, b"\xb7\x0b"), (5, b"\xa0"), (7, b"p"), (9, b"br")]
    fields += [(11, id_value(*delegate)), *((3, id_value(*parent)) for parent in ids)]
    inputs = [spend(one, 0, envelope(fields, b"hi")), spend(two)]
    full = transaction(inputs, [(2 * SUBSIDY, SHORT)])
    bare = transaction([spend(nothing, 0, envelope())], [(0, SHORT)])
    words = [f"id={inscription(tx)}" for tx in (full, bare)]
    words += [f"at={outpoint(tx)}" for tx in (full, bare)] + ["sat=2999", "sat=3000"]
    *_, made, last = rows.both(words, plain(4), full, bare).inscriptions
    told = made._asdict()
    assert told.pop("parents") == ids and told.pop("delegate") == delegate
    assert list(told.values()) == [
        (id_of(full), 0),
        4,
        b"text/plain",
        b"hi",
        b"\xa0",
        b"p",
        b"br",
        b"\xb7\x0b",
        0x20,
        2_999,
    ]
    assert (last.id, last.marks, last.sat, last.parents) == ((id_of(bare), 0), 0, None, [])


GROUPS = [hidden_rows, rows_in_place, full_row]
