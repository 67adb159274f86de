"""Bodies and records of a store's file that are none, by what is wrong with them; and some that no
chain gives, which are a store's all the same. Each is told with the file that has it, and which it
is of the two docs/FORMATS.md says: `place_of` reads the file by store_files."""

import made_blocks
from chain import chain, payload_of
from row_forms import Reader, other_value
from store_files import CLOSED, NoStore, body_of, file_of, payload_on, stands, store_of
from tools.bitcoin import SUBSIDY

DEPTH = 2
EXTRA = bytes(32), 0
FOUR_BILLION = 4 * b"\xff"


def stack_of(blocks, depth=DEPTH):
    """What is left of so many made blocks."""
    commands = [payload_of(block) for block, _, _ in made_blocks.chain(blocks)]
    return store_of(commands, "regtest", depth).stack


def with_body(body, payloads=(), depth=DEPTH):
    """File A with this body, and with these payloads behind it."""
    return file_of("regtest", depth, body, payloads)


def place_of(a):
    """The place at which file A is no store, beside a closed file B; none where it is one."""
    try:
        stands({"A": a, "B": CLOSED})
    except NoStore as place:
        return str(place)
    return None


def altered(change):
    """The change with one row of a field altered, and without it."""
    yield change._replace(hash=EXTRA[0])
    for name in change._fields[1:]:
        rows = getattr(change, name)
        if rows:
            yield change._replace(**{name: [other_value(rows[0]), *rows[1:]]})
            yield change._replace(**{name: rows[1:]})


def with_more(change, name, row):
    return change._replace(**{name: sorted([*getattr(change, name), row])})


def with_counts(change, **numbers):
    """The change with these numbers in the count of a rune."""
    (count,) = change.counts
    return change._replace(counts=[count._replace(**numbers)])


def unsound_before(change, before):
    """Changes that end where this one does, and begin in an index that isn't sound."""
    _, row = before.outputs[0]
    yield "satoshis twice", with_more(change, "gone", (EXTRA, row))
    (count,) = change.counts
    yield "more burned than was there", with_counts(change, burned_before=count.burned_before + 1)
    yield "a mint without its amount", with_counts(change, mints_before=count.mints_before - 1)


def with_output(index, at, **changed):
    rows = [(key, row._replace(**changed) if key == at else row) for key, row in index.outputs]
    return index._replace(outputs=rows)


def unsound(index):
    """Indexes that aren't sound."""
    (at, row), (_, other), *_ = [output for output in index.outputs if output[1].sats]
    end = len(index.hashes) * SUBSIDY
    again = (other.sats[0][0], 1)
    yield "a satoshi twice", with_output(index, at, sats=[*row.sats, again])
    yield "a satoshi that isn't minted", with_output(index, at, sats=[*row.sats, (end, 1)])
    yield "a satoshi that is nowhere", index._replace(lost=index.lost[1:])
    yield "an output of no block", with_output(index, at, height=len(index.hashes))
    shelf = lambda **fields: index._replace(
        inscriptions=[index.inscriptions[0]._replace(**fields), *index.inscriptions[1:]]
    )
    yield "an inscription of no block", shelf(height=len(index.hashes))
    yield "an inscription on a satoshi that isn't minted", shelf(sat=end)
    rune = index.runes[0]
    yield "more burned than was there", index._replace(
        runes=[rune._replace(burned=rune.burned + 1)]
    )
    yield "a rune twice", index._replace(runes=[rune, rune])
    yield "balances of no rune", index._replace(runes=[])
    moved = [(EXTRA, held) for _, held in index.balances[:1]]
    yield "balances of no output", index._replace(balances=moved + index.balances[1:])


def bodies():
    """Bodies that are none."""
    stack, deeper = stack_of(5), stack_of(5, DEPTH + 1)
    index, (newest, before) = stack.index, stack.kept
    changes = [newest.change, before.change]
    yield "a byte behind", stack.body() + b"\0"
    yield "a change too many", deeper.body()
    yield "kept changes oldest first", body_of(index, changes[::-1])
    yield "a change twice", body_of(index, [newest.change] * 2)
    yield "changes of a newer block", body_of(newest.before, changes)
    for change in altered(newest.change):
        yield "a newest change that doesn't end", body_of(index, [change])
    for change in altered(before.change):
        yield "an older change that doesn't end", body_of(index, [newest.change, change])
    for what, change in unsound_before(newest.change, newest.before):
        yield f"an older index with {what}", body_of(index, [change])
    for what, change in unsound_before(before.change, before.before):
        yield f"the oldest index with {what}", body_of(index, [newest.change, change])
    for what, other in unsound(index):
        yield what, body_of(other, [])


def is_told(file):
    return place_of(file) is not None


def wrong_bodies():
    """Files whose body is none; behind every other one stands a record that is none either."""
    told = [(what, body) for what, body in bodies() if is_told(with_body(body))]
    for count, (what, body) in enumerate(told):
        yield what, with_body(body, [b"\2"] * (count % 2))


class Places(Reader):
    """A reader that keeps where each field begins and ends."""

    def __init__(self, data):
        super().__init__(data)
        self.fields = []

    def take(self, size):
        begun = self.at
        data = super().take(size)
        self.fields.append((begun, self.at))
        return data


def plain_body():
    """The body of a store with a plain block, at depth 1."""
    return store_of([payload_of(chain(1)[0][0])], "regtest", 1).stack.body()


def cuts(body):
    """How many bytes are left of a body that is cut before a field, or in it."""
    reader = Places(body)
    reader.index()
    reader.listed(reader.change)
    assert reader.at == len(body)
    return sorted({at for begun, end in reader.fields for at in (begun, end - 1)})


def cut_bodies():
    """Files that end in a body, and ones whose body tells a length that cuts a field."""
    body = plain_body()
    for size in cuts(body):
        yield with_body(body, depth=1)[: 26 + size]
        yield with_body(body[:size], depth=1)


def lying_bodies():
    """Bodies with a list that tells four billion items."""
    body, empty = plain_body(), stack_of(0).body()
    yield with_body(FOUR_BILLION + body[4:], depth=1)
    for at in range(0, len(empty), 4):
        yield with_body(empty[:at] + FOUR_BILLION + empty[at + 4 :])


def payloads():
    """Payloads behind three made blocks: some are none, and others no chain gives."""
    before, after = stack_of(3), stack_of(4)
    change = after.kept[0].change
    right = payload_on(change)
    yield "nothing", b""
    yield "neither a disconnect nor a change", b"\2" + right[1:]
    yield "a disconnect and a byte", b"\0\0"
    yield "a change without what it is", right[1:]
    yield "a block", payload_of(made_blocks.chain(4)[3][0])
    yield "a byte behind", right + b"\0"
    for size in (1, 2, 32, 33, 36, 37, 70, len(right) // 2, len(right) - 4, len(right) - 1):
        yield "a change that is cut", right[:size]
    yield "a change that has been", payload_on(before.kept[0].change)
    for other in altered(change):
        yield "another change", payload_on(other)
    at, row = before.index.outputs[0]
    yield "an output goes that isn't there", payload_on(with_more(change, "gone", (EXTRA, row)))
    yield "an output comes that is there", payload_on(with_more(change, "came", (at, row)))
    yield "satoshis twice", payload_on(with_more(change, "came", (EXTRA, row)))
    (count,) = change.counts
    yield "too many mints", payload_on(with_counts(change, mints_after=count.mints_after + 1))


def records():
    """Files with a record behind three made blocks."""
    body = stack_of(3).body()
    for what, payload in payloads():
        yield what, with_body(body, [payload])
