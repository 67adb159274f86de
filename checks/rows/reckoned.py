"""Rows of crates/ox_index_rows whose indexes plain_index reckons, block by block, and the lines
that are printed of such an index: as a whole, and for each word that looks up a part of it."""

from chain import block_of
from plain_index import after_block, count_of, empty
from row_ends import first_of, made_of
from rows import Rows, hash_text

# a field of an inscription, and the word before its bytes
FIELDS = {
    "content_type": "type",
    "pointer": "pointer",
    "metadata": "metadata",
    "metaprotocol": "protocol",
    "encoding": "encoding",
    "body": "body",
}


def numbers(of):
    return "".join(f" {number}" for number in of)


def or_none(value):
    return "none" if value is None else value


def place_text(at):
    return f"{hash_text(at[0])}:{at[1]}"


def id_text(id_):
    return f"{hash_text(id_[0])}i{id_[1]}"


def rune_text(id_):
    return f"{id_[0]}:{id_[1]}"


class Told:
    """An index of a profile as it is printed."""

    def __init__(self, profile, index):
        self.profile, self.index = profile, index
        self.rows, self.runes = index.inscriptions, index.runes
        self.outputs, self.balances = dict(index.outputs), dict(index.balances)

    # ---- what is looked up

    def found(self, rows, is_it):
        return next((at for at, row in enumerate(rows) if is_it(row)), None)

    def found_id(self, text):
        return self.found(self.rows, lambda row: id_text(row.id) == text)

    def found_name(self, text):
        return self.found(self.runes, lambda row: str(row.name) == text)

    def found_rune(self, text):
        return self.found(self.runes, lambda row: rune_text(row.id) == text)

    def on(self, sat):
        return [at for at, row in enumerate(self.rows) if row.sat == sat]

    def place_of(self, sat):
        held = [(f"of {place_text(at)}", row.sats) for at, row in self.index.outputs]
        for where, runs in [*held, ("of the lost ones", self.index.lost)]:
            before = 0
            for first, many in runs:
                if first <= sat < first + many:
                    return f"at {before + sat - first} {where}"
                before += many
        return "nowhere"

    def look(self, word):
        """The line that a word prints."""
        name, value = word.split("=")
        if name == "at":
            return self.look_at(value)
        if name == "sat":
            return self.look_for(int(value))
        find = {"id": self.found_id, "name": self.found_name, "rune": self.found_rune}[name]
        return f"{word} found {or_none(find(value))}"

    def look_at(self, text):
        at = next((at for at in self.outputs if place_text(at) == text), None)
        if at is None:
            return f"at {text} none"
        row = self.outputs[at]
        runs = "".join(f" {first}+{many}" for first, many in row.sats)
        held = "".join(f" {rune_text(id_)}={many}" for id_, many in self.balances.get(at, []))
        return f"at {text} height {row.height} script {row.script.hex()}{runs}{held}"

    def look_for(self, sat):
        later = [row.sat for row in self.rows if row.sat is not None and row.sat >= sat]
        after = f"{min(later)}:{numbers(self.on(min(later)))}" if later else "none"
        return f"satoshi {sat} {self.place_of(sat)}:{numbers(self.on(sat))}, next {after}"

    # ---- the whole index

    def inscription(self, at, row):
        children = [child for child, other in enumerate(self.rows) if row.id in other.parents]
        head = f"  {at}: {id_text(row.id)} height {row.height} marks {row.marks}"
        head += f" sat {or_none(row.sat)} found {self.found_id(id_text(row.id))} children"
        told = [(word, getattr(row, name)) for name, word in FIELDS.items()]
        tail = [f" {word}={value.hex()}" for word, value in told if value is not None]
        tail += [f" parent={id_text(parent)}" for parent in row.parents]
        tail += [] if row.delegate is None else [f" delegate={id_text(row.delegate)}"]
        return head + numbers(children) + "".join(tail)

    def held(self, rune):
        return sum(many for held in self.balances.values() for id_, many in held if id_ == rune)

    def rune(self, at, row):
        symbol = "" if row.symbol is None else f" symbol {chr(row.symbol)}"
        names = ("amount", "cap", "from", "to", "after", "until")
        terms = [f" {name} {or_none(value)}" for name, value in zip(names, row.terms or ())]
        found = self.found_rune(rune_text(row.id)), self.found_name(str(row.name))
        return (
            f"  {at}: {rune_text(row.id)} name {row.name} found {found[0]} found {found[1]}"
            f" held {self.held(row.id)} burned {row.burned} mints {row.mints}"
            f" premine {row.premine} spacers {row.spacers} divisibility {row.divisibility}{symbol}"
            f" by {hash_text(row.etching)}" + (f" terms{''.join(terms)}" if row.terms else "")
        )

    def audit(self, row):
        minted = made_of(row) - row.premine
        amounts = f"premine {row.premine} minted {minted} held {self.held(row.id)}"
        return f"  {rune_text(row.id)} {amounts} burned {row.burned}"

    def lines(self):
        tips, lost = self.index.hashes, count_of(self.index.lost)
        yield f"ok {len(tips) - 1} {hash_text(tips[-1])}" if tips else "ok empty"
        yield f"{len(tips)} blocks, {lost} satoshis are lost"
        yield from (f"  height {at}: {hash_text(tip)}" for at, tip in enumerate(tips))
        yield f"  height {len(tips)}: none"
        yield f"{len(self.rows)} inscriptions"
        yield from (self.inscription(at, row) for at, row in enumerate(self.rows))
        bearing = sorted({row.sat for row in self.rows if row.sat is not None})
        yield from (f"  satoshi {sat}:{numbers(self.on(sat))}" for sat in bearing)
        yield f"{len(self.runes)} runes"
        yield from (self.rune(at, row) for at, row in enumerate(self.runes))
        claimable = first_of(self.profile, len(tips))
        yield f"audit claimable {claimable} lost {lost} outputs {claimable - lost}"
        yield from (self.audit(row) for row in self.runes)


class Reckoned(Rows):
    """The rows of chains, and the index behind each of their blocks."""

    def chain(self, what, profile="lab"):
        self.begin(what, f"chain {profile} 100")
        self.profile, self.indexes = profile, [empty(profile)]

    def live(self, what, profile="lab"):
        self.begin(what, f"live {profile}")
        self.profile, self.indexes = profile, [empty(profile)]

    def index(self):
        return self.indexes[-1]

    def after(self, block):
        return after_block(self.profile, self.index(), block)

    def takes(self, digits, tip):
        super().takes(digits, tip)
        self.indexes.append(self.after(bytes.fromhex(digits)))

    def disconnects(self):
        super().disconnects()
        self.indexes.pop()

    def looks(self, *words):
        """The line of each word."""
        told = Told(self.profile, self.index())
        self.row(" ".join(["look", *words]), *map(told.look, words))

    def dump(self, *words):
        """The whole index of a chain, and the line of each word."""
        kept = len(self.tips)
        told = Told(self.profile, self.index())
        head = f"kept {kept} of 100, {kept} changes"
        self.row(" ".join(["dump", *words]), head, *told.lines(), *map(told.look, words))

    def plainly(self, *words):
        """The same of the index that is made from this one as plain data."""
        told = Told(self.profile, self.index())
        self.row(" ".join(["plain", *words]), *told.lines(), *map(told.look, words))

    def both(self, words, *txs):
        """A block of these transactions is led both ways by its change. The index after it."""
        block, _ = block_of(self.tip(), txs)
        there, back = Told(self.profile, self.after(block)), Told(self.profile, self.index())
        lines = []
        steps = ("connected", there), ("back", back), ("again", there), ("cancelled", back)
        for step, told in steps:
            lines += [step, *told.lines(), *map(told.look, words)]
        self.row(" ".join(["both", block.hex(), *words]), *lines)
        return there.index
