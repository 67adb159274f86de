"""What a block leaves of an index, by docs/RULES.md, over the rows of row_forms: with lists, maps
and Python's standard library alone.

`empty` is the index of a profile without a block, and `after_block` the index after one more. Of
the causes for which a block is refused those are told that are about its place, its root and its
satoshis, and that it has no byte or too many. Whether it is well formed else, has one coinbase in
front and commits to its witnesses isn't looked at.
"""

import re
from typing import NamedTuple

from row_ends import cut, first_of, joined
from row_forms import Index, Inscription, Output, Rune, Terms, is_character
from tools.bitcoin import NO_OUTPUT, SUBSIDY, root, twice
from tools.runes import LEAST_KEPT, kept_name

RETURN = 0x6A
IF, ENDIF, NEGATE, ONE, SIXTEEN = 0x63, 0x68, 0x4F, 0x51, 0x60
U32, U64, U128 = (1 << 32) - 1, (1 << 64) - 1, (1 << 128) - 1
NO_BLOCK = bytes(32)
MOST_BYTES = 4_000_000
ZEROS = re.compile(rb"\0*")
# the tags of an envelope's fields
KNOWN = (1, 2, 3, 5, 7, 9, 11)


class Profile(NamedTuple):
    """The numbers by which a chain counts that an index goes by."""

    halving: int
    rune_start: int
    interval: int
    last: int


PROFILES = {
    "mainnet": Profile(210_000, 840_000, 17_500, 4_000_000_000),
    "regtest": Profile(210_000, 0, 17_500, 4_000_000_000),
    "lab": Profile(10, 2, 1, 40),
}
FIRST_TERMS = Terms(amount=1, cap=U128, height_start=840_000, height_end=1_050_000)
FIRST_RUNE = Rune((1, 0), 2_055_900_680_524_219_742, 128, symbol=0x29C9, terms=FIRST_TERMS)


class Refused(Exception):
    """The line by which a block is refused."""


def empty(profile):
    """The index of a chain without a block."""
    return Index(runes=[FIRST_RUNE] if profile == "mainnet" else [])


def subsidy(profile, height):
    return SUBSIDY >> min(height // PROFILES[profile].halving, 64)


# ---- blocks


class Tx(NamedTuple):
    txid: bytes
    inputs: list
    outputs: list
    stacks: list


class Bytes:
    """Takes fields from the left."""

    def __init__(self, data):
        self.data, self.at = data, 0

    def take(self, size):
        self.at += size
        assert self.at <= len(self.data)
        return self.data[self.at - size : self.at]

    def number(self, width):
        return int.from_bytes(self.take(width), "little")

    def compact(self):
        first = self.number(1)
        return self.number(1 << first - 252) if first > 252 else first

    def string(self):
        return self.take(self.compact())

    def many(self, item):
        return [item() for _ in range(self.compact())]

    def input(self):
        origin = self.take(32), self.number(4)
        self.string()
        self.take(4)
        return origin

    def output(self):
        return self.number(8), self.string()

    def tx(self):
        begun = self.at
        version, is_marked = self.take(4), self.data[self.at] == 0
        self.take(2 if is_marked else 0)
        bare = self.at
        inputs, outputs = self.many(self.input), self.many(self.output)
        middle = self.data[bare : self.at]
        stacks = [self.many(self.string) if is_marked else [] for _ in inputs]
        spelled = version + middle + self.take(4)
        assert is_marked or spelled == self.data[begun : self.at]
        return Tx(twice(spelled), inputs, outputs, stacks)


def read_block(block):
    """The hash of the block before, the root, and the transactions."""
    reader = Bytes(block)
    reader.take(4)
    previous, root_ = reader.take(32), reader.take(32)
    reader.take(12)
    txs = reader.many(reader.tx)
    assert reader.at == len(block)
    return previous, root_, txs


# ---- scripts and witnesses


def items_of(script):
    """A script's items, pushes as bytes and opcodes as numbers, and whether it is cut."""
    items, at = [], 0
    while at < len(script):
        if script[at] == 0:
            # empty pushes, all that follow one another
            first, at = at, ZEROS.match(script, at).end()
            items += (at - first) * [b""]
            continue
        opcode, at = script[at], at + 1
        if opcode >= NEGATE:
            items.append(opcode)
            continue
        width = {0x4C: 1, 0x4D: 2, 0x4E: 4}.get(opcode, 0)
        size = int.from_bytes(script[at : at + width], "little") if width else opcode
        if at + width > len(script) or at + width + size > len(script):
            return items, True
        items.append(script[at + width : at + width + size])
        at += width + size
    return items, False


def tapscript_of(stack):
    items = stack[:-1] if len(stack) > 1 and stack[-1][:1] == b"\x50" else stack
    return items[-2] if len(items) > 1 else b""


# ---- envelopes


def pushed(item):
    """What an item in an envelope pushes, or none."""
    if isinstance(item, bytes):
        return item
    if item == NEGATE:
        return b"\x81"
    return bytes([item - ONE + 1]) if ONE <= item <= SIXTEEN else None


def envelopes(script):
    """Each envelope's pushes, and whether one of them is a number."""
    items, is_cut = items_of(script)
    end = -1
    for at in [] if is_cut else [at for at, item in enumerate(items) if item == IF]:
        # the one before is behind the last envelope
        if at - 1 <= end or items[at - 1 : at + 2] != [b"", IF, b"ord"]:
            continue
        end = at + 2
        while end < len(items) and pushed(items[end]) is not None:
            end += 1
        inside = items[at + 2 : end]
        if items[end : end + 1] == [ENDIF]:
            numbers = any(not isinstance(item, bytes) for item in inside)
            yield [pushed(item) for item in inside], numbers


def id_of(value):
    """The id that a field's value is, or none."""
    number = value[32:]
    is_short = len(number) < 4 and number[-1:] != b"\0"
    if len(value) < 32 or not (is_short or len(number) == 4):
        return None
    return value[:32], int.from_bytes(number, "little")


class Envelope:
    """An envelope's fields, and the marks that it sets by itself."""

    def __init__(self, pushes, has_numbers):
        ends = [at for at in range(0, len(pushes), 2) if pushes[at] == b""]
        head = pushes[: ends[0]] if ends else pushes
        self.body = b"".join(pushes[ends[0] + 1 :]) if ends else None
        self.fields = {}
        for tag, value in zip(head[::2], head[1::2]):
            self.fields.setdefault(tag, []).append(value)
        self.pointer = self.first(2)
        repeated = [tag for tag, values in self.fields.items() if len(values) > 1]
        unknown = [tag for tag in self.fields if len(tag) > 1 or tag[0] not in KNOWN]
        self.is_even = b"\2" in repeated or any(tag[0] % 2 == 0 for tag in unknown)
        bits = {
            0: self.is_even,
            1: any(tag not in (b"\3", b"\5") for tag in repeated),
            2: len(head) % 2,
            5: self.pointer is not None,
            6: has_numbers,
        }
        self.marks = sum(1 << bit for bit, is_set in bits.items() if is_set)

    def first(self, tag):
        return self.fields.get(bytes([tag]), [None])[0]

    def metadata(self):
        parts = self.fields.get(b"\5")
        return None if parts is None else b"".join(parts)

    def parents(self):
        """The ids that it names, each once."""
        ids = map(id_of, self.fields.get(b"\3", []))
        return list(dict.fromkeys(parent for parent in ids if parent is not None))

    def delegate(self):
        value = self.first(11)
        return None if value is None else id_of(value)

    def points_to(self):
        """The place that its pointer tells, or none."""
        if self.pointer is None or any(self.pointer[8:]):
            return None
        return int.from_bytes(self.pointer, "little")


# ---- satoshis


def count_of(runs):
    return sum(many for _, many in runs)


def sat_at(runs, place):
    for first, many in runs:
        if place < many:
            return first + place
        place -= many
    raise AssertionError


def has_sat(runs, sat):
    return any(first <= sat < first + many for first, many in runs)


class Moved(NamedTuple):
    """The rows that a transaction spent, the satoshis of its inputs, and how many of them its
    outputs take."""

    spent: list
    pool: list
    taken: int


class Sats:
    """The outputs and the lost satoshis while a block's satoshis move."""

    def __init__(self, index, height):
        self.outs, self.lost, self.height = dict(index.outputs), index.lost, height
        self.fees, self.moved = [], []

    def spend(self, place, tx):
        """The rows that a transaction's inputs name."""
        spent = []
        for input_, origin in enumerate(tx.inputs):
            if origin not in self.outs:
                told = f"{origin[0][::-1].hex()}:{origin[1]}"
                raise Refused(f"refused 8 {place} {input_} {told}")
            spent.append(self.outs.pop(origin))
        return spent

    def deal(self, tx, pool):
        """The first satoshis go to the outputs; the others are answered."""
        for index, (value, script) in enumerate(tx.outputs):
            sats, pool = cut(pool, value)
            at = tx.txid, index
            if at in self.outs:
                self.lost = joined(self.lost, self.outs[at].sats)
            self.outs[at] = Output(script, self.height, joined(sats))
        return pool

    def turn(self, place, tx):
        """A transaction that isn't the coinbase."""
        spent = self.spend(place, tx)
        pool = joined(*(row.sats for row in spent))
        have, want = count_of(pool), sum(value for value, _ in tx.outputs)
        if want > have:
            raise Refused(f"refused 9 {place} {have} {want}")
        self.moved.append(Moved(spent, pool, want))
        self.fees = joined(self.fees, self.deal(tx, pool))

    def end(self, coinbase, minted):
        pool = joined(minted, self.fees)
        have, want = count_of(pool), sum(value for value, _ in coinbase.outputs)
        if want > have:
            raise Refused(f"refused 10 {have} {want}")
        left = self.deal(coinbase, pool)
        self.lost = joined(self.lost, left)


# ---- inscriptions


class Shelf:
    """The inscriptions while a block reveals more: those before, those of the transactions so far
    by transaction and envelope, and which of these come last."""

    def __init__(self, rows, height):
        self.height, self.before = height, rows
        self.bearing = {row.sat for row in rows if row.sat is not None}
        self.firsts = {}
        for row in rows:
            self.firsts.setdefault(row.id, row)
        self.placed, self.in_fees = [], []

    def turn(self, tx, moved):
        """A transaction that isn't the coinbase."""
        revealed, before = [], 0
        for input_, (row, stack) in enumerate(zip(moved.spent, tx.stacks)):
            for place, found in enumerate(envelopes(tapscript_of(stack))):
                envelope = Envelope(*found)
                marks = envelope.marks | (input_ > 0) << 3 | (place > 0) << 4
                goal = self.goal(envelope, row, moved, before)
                revealed.append(self.row(tx, len(revealed), envelope, marks, goal, moved))
            before += count_of(row.sats)
        for row in revealed:
            self.firsts.setdefault(row.id, row)

    def goal(self, envelope, row, moved, before):
        """The place of its satoshi in the joined inputs, or none."""
        if envelope.is_even or not row.sats:
            return None
        pointed = envelope.points_to()
        return pointed if pointed is not None and pointed < moved.taken else before

    def row(self, tx, index, envelope, marks, goal, moved):
        sat = None if goal is None else sat_at(moved.pool, goal)
        marks |= (sat in self.bearing) << 7
        row = Inscription(
            (tx.txid, index),
            self.height,
            envelope.first(1),
            envelope.body,
            envelope.metadata(),
            envelope.first(7),
            envelope.first(9),
            envelope.delegate(),
            envelope.pointer,
            [parent for parent in envelope.parents() if self.is_on(parent, moved.pool)],
            marks,
            sat,
        )
        if sat is not None:
            self.bearing.add(sat)
        goes_to_fees = goal is not None and goal >= moved.taken
        (self.in_fees if goes_to_fees else self.placed).append(row)
        return row

    def is_on(self, parent, pool):
        """Whether an inscription from before the transaction stood on one of these satoshis."""
        row = self.firsts.get(parent)
        return row is not None and row.sat is not None and has_sat(pool, row.sat)

    def rows(self):
        return self.before + self.placed + self.in_fees


# ---- runes


def is_return(script):
    return script[:1] == bytes([RETURN])


def varints(data):
    """The numbers that bytes spell, or none."""
    numbers, number, shift = [], 0, 0
    for byte in data:
        number |= (byte & 127) << shift
        if shift == 126 and byte > 3:
            return None
        shift += 7
        if byte < 128:
            numbers.append(number)
            number, shift = 0, 0
    return numbers if shift == 0 else None


def is_id(block, tx):
    return block <= U64 and tx <= U32 and (block > 0 or tx == 0)


class Stone:
    """A runestone, or a cenotaph."""

    def __init__(self, script, outputs):
        self.outputs, self.is_cenotaph, self.is_etching = outputs, False, False
        self.fields, self.edicts = {}, []
        items, is_cut = items_of(script)
        whole = not is_cut and all(isinstance(item, bytes) for item in items[2:])
        numbers = varints(b"".join(items[2:])) if whole else None
        if numbers is None:
            self.is_cenotaph = True
        self.read(numbers or [])

    def read(self, numbers):
        tags = numbers[::2]
        end = 2 * tags.index(0) if 0 in tags else len(numbers)
        for at in range(0, end - 1, 2):
            self.fields.setdefault(numbers[at], []).append(numbers[at + 1])
        self.is_cenotaph |= end % 2 == 1
        self.read_edicts(numbers[end + 1 :])
        flags = self.take(2) or 0
        self.is_etching, has_terms = flags & 1 == 1, flags & 3 == 3
        self.is_turbo = flags & 4 == 4
        self.is_cenotaph |= flags > 7 or flags in (2, 4, 6)
        self.name, self.premine = (self.take(tag, self.is_etching) for tag in (4, 6))
        cap, amount = (self.take(tag, has_terms) for tag in (8, 10))
        bounds = [self.take(tag, has_terms, U64) for tag in (12, 14, 16, 18)]
        self.terms = Terms(amount, cap, *bounds) if has_terms else None
        self.mint = self.take_mint()
        self.pointer = self.take(22, True, self.outputs - 1)
        self.divisibility = self.take(1, self.is_etching, 38)
        self.spacers = self.take(3, self.is_etching, (1 << 27) - 1)
        self.symbol = self.take(5, self.is_etching and is_character(self.first(5)))
        left = [tag for tag, values in self.fields.items() if values]
        self.is_cenotaph |= any(tag % 2 == 0 for tag in left)
        self.is_cenotaph |= (self.premine or 0) + (cap or 0) * (amount or 0) > U128

    def first(self, tag):
        return self.fields.get(tag, [U128])[0]

    def take(self, tag, may=True, most=U128):
        """The first value of a field where it is taken: it is left out of the fields then."""
        values = self.fields.get(tag)
        return values.pop(0) if values and may and values[0] <= most else None

    def take_mint(self):
        values = self.fields.get(20, [])
        mint = tuple(values[:2])
        if len(mint) < 2 or not is_id(*mint):
            return None
        del values[:2]
        return mint

    def read_edicts(self, numbers):
        block = tx = 0
        for at in range(0, len(numbers), 4):
            four = numbers[at : at + 4]
            if len(four) == 4:
                block, tx = block + four[0], tx + four[1] if four[0] == 0 else four[1]
            if len(four) < 4 or not is_id(block, tx) or four[3] > self.outputs:
                self.is_cenotaph = True
                return
            self.edicts.append(((block, tx), four[2], four[3]))


def stone_of(tx):
    """What the first output says whose script begins a runestone, or none."""
    for _, script in tx.outputs:
        if script[:2] == b"\x6a\x5d":
            return Stone(script, len(tx.outputs))
    return None


def least_name(profile, height):
    rules = PROFILES[profile]
    lengths = [sum(26**letters for letters in range(1, last + 1)) for last in range(13)]
    passed = height + 1 - rules.rune_start
    if passed < 0:
        return lengths[12]
    if passed >= 12 * rules.interval:
        return 0
    long = 12 - passed // rules.interval
    fall = (lengths[long] - lengths[long - 1]) * (passed % rules.interval)
    return lengths[long] - fall // rules.interval


def is_committed(name, tx, spent, height):
    """Whether a tapscript of an old enough pay-to-taproot output pushes a rune's name."""
    push = name.to_bytes(16, "little").rstrip(b"\0")
    for row, stack in zip(spent, tx.stacks):
        is_taproot = len(row.script) == 34 and row.script[:2] == b"\x51\x20"
        if is_taproot and height - row.height + 1 >= 6 and push in items_of(tapscript_of(stack))[0]:
            return True
    return False


def is_open(rune, height):
    """Whether a mint of a rune is open at a height."""
    terms = rune.terms
    if terms is None or rune.mints >= (terms.cap or 0):
        return False
    behind = lambda offset: None if offset is None else min(rune.id[0] + offset, U64)
    starts = terms.height_start, behind(terms.offset_start)
    ends = terms.height_end, behind(terms.offset_end)
    begun = all(start is None or start <= height for start in starts)
    return begun and all(end is None or height < end for end in ends)


class Ledger:
    """The runes and the balances while a block's runes move."""

    def __init__(self, profile, index, height):
        self.profile, self.height = profile, height
        self.runes = list(index.runes)
        self.held = {at: dict(amounts) for at, amounts in index.balances}
        self.of_coinbase = []

    def place_of(self, id_):
        return next((at for at, rune in enumerate(self.runes) if rune.id == id_), None)

    def burn(self, amounts):
        for id_, amount in amounts.items():
            at = self.place_of(id_)
            self.runes[at] = self.runes[at]._replace(burned=self.runes[at].burned + amount)

    def turn(self, place, tx, spent):
        """The transaction at this place of the block; a coinbase has spent no row."""
        pool = {}
        for origin in tx.inputs:
            for id_, amount in self.held.pop(origin, {}).items():
                pool[id_] = pool.get(id_, 0) + amount
        is_read = self.height >= PROFILES[self.profile].rune_start
        stone = stone_of(tx) if is_read else None
        etched = self.etched(place, tx, spent, stone)
        if stone and stone.mint:
            self.mint(stone.mint, pool)
        if etched:
            self.runes.append(etched)
            pool[etched.id] = pool.get(etched.id, 0) + etched.premine
        pool = {id_: amount for id_, amount in pool.items() if amount}
        if stone and stone.is_cenotaph:
            self.burn(pool)
            pool = {}
        self.put(place, tx, self.dealt(tx, stone, etched, pool))

    def mint(self, id_, pool):
        at = self.place_of(id_)
        if at is None or not is_open(self.runes[at], self.height):
            return
        self.runes[at] = self.runes[at]._replace(mints=self.runes[at].mints + 1)
        pool[id_] = pool.get(id_, 0) + (self.runes[at].terms.amount or 0)

    def etched(self, place, tx, spent, stone):
        """The rune that a transaction etches, or none."""
        if stone is None or not stone.is_etching or (stone.is_cenotaph and stone.name is None):
            return None
        name = kept_name(self.height, place) if stone.name is None else stone.name
        if stone.name is not None and not self.stands(name, tx, spent):
            return None
        id_ = self.height, place
        if stone.is_cenotaph:
            return Rune(id_, name, etching=tx.txid)
        told = (stone.spacers or 0, stone.divisibility or 0, stone.symbol, stone.premine or 0)
        return Rune(id_, name, *told, stone.terms, etching=tx.txid)

    def stands(self, name, tx, spent):
        """Whether a name that is given stands."""
        is_free = all(rune.name != name for rune in self.runes)
        in_bounds = least_name(self.profile, self.height) <= name < LEAST_KEPT
        return is_free and in_bounds and is_committed(name, tx, spent, self.height)

    def dealt(self, tx, stone, etched, pool):
        """What each output gets."""
        gets = [{} for _ in tx.outputs]
        can_hold = [at for at, (_, script) in enumerate(tx.outputs) if not is_return(script)]

        def give(at, id_, amount):
            amount = min(amount, pool.get(id_, 0))
            if amount:
                pool[id_] -= amount
                gets[at][id_] = gets[at].get(id_, 0) + amount

        if stone and not stone.is_cenotaph:
            for id_, amount, output in stone.edicts:
                id_ = (etched.id if etched else None) if id_ == (0, 0) else id_
                left = pool.get(id_, 0)
                if output < len(gets):
                    give(output, id_, amount or left)
                    continue
                share, more = divmod(left, len(can_hold)) if can_hold else (0, 0)
                for count, at in enumerate(can_hold):
                    give(at, id_, amount or share + (count < more))
        pointer = None if stone is None or stone.is_cenotaph else stone.pointer
        rest = pointer if pointer is not None else next(iter(can_hold), None)
        if rest is None:
            self.burn(pool)
        else:
            for id_, amount in list(pool.items()):
                give(rest, id_, amount)
        return gets

    def put(self, place, tx, gets):
        rows = [((tx.txid, at), amounts) for at, amounts in enumerate(gets)]
        scripts = [script for _, script in tx.outputs]
        for (at, amounts), script in zip(rows, scripts):
            if is_return(script):
                self.burn(amounts)
                amounts.clear()
        if place == 0:
            self.of_coinbase = rows
        else:
            self.place(rows)

    def place(self, rows):
        for at, amounts in rows:
            self.burn(self.held.pop(at, {}))
            if amounts:
                self.held[at] = amounts

    def end(self):
        self.place(self.of_coinbase)

    def balances(self):
        return sorted((at, sorted(amounts.items())) for at, amounts in self.held.items())


# ---- a block


def after_block(profile, index, block):
    """The index after a block."""
    if not block or len(block) > MOST_BYTES:
        raise Refused(f"refused 3 {MOST_BYTES if block else 0}")
    height, (previous, told, txs) = len(index.hashes), read_block(block)
    if height > PROFILES[profile].last:
        raise Refused(f"refused 4 {height}")
    tip = index.hashes[-1] if index.hashes else NO_BLOCK
    if previous != tip:
        raise Refused(f"refused 5 {previous[::-1].hex()} {tip[::-1].hex()}")
    computed = root([tx.txid for tx in txs])
    if told != computed:
        raise Refused(f"refused 6 {told[::-1].hex()} {computed[::-1].hex()}")
    coinbase, *others = txs
    assert coinbase.inputs == [NO_OUTPUT]
    return Index(*parts_after(profile, index, height, twice(block[:80]), coinbase, others))


def parts_after(profile, index, height, hash_, coinbase, others):
    sats, shelf = Sats(index, height), Shelf(index.inscriptions, height)
    for place, tx in enumerate(others, 1):
        sats.turn(place, tx)
    mints = subsidy(profile, height)
    sats.end(coinbase, [(first_of(profile, height), mints)] if mints else [])
    for tx, moved in zip(others, sats.moved):
        shelf.turn(tx, moved)
    ledger = Ledger(profile, index, height)
    ledger.turn(0, coinbase, [])
    for place, (tx, moved) in enumerate(zip(others, sats.moved), 1):
        ledger.turn(place, tx, moved.spent)
    ledger.end()
    hashes, outs = [*index.hashes, hash_], sorted(sats.outs.items())
    return hashes, outs, sats.lost, shelf.rows(), ledger.balances(), ledger.runes
