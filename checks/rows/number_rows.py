"""The rows of crates/ox_block_rows about numbers, names, satoshis, lists of satoshis and paths, and
what has to be printed for them.

It goes by docs/RULES.md and docs/FORMATS.md on its own, and knows names, heights and satoshis that
others tell: the Ordinal Theory Handbook, ord and the main chain.
"""

import re

from tools.bitcoin import SUBSIDY, varint
from tools.runes import LEAST_KEPT, kept_name, name_of

U32, U64, U128 = (1 << 32) - 1, (1 << 64) - 1, (1 << 128) - 1
UNTOUCHED = ", untouched: true"
MOST_SHOWN = 80
# the number of the name UNCOMMONGOODS
GOODS = 2_055_900_680_524_219_742


def word(data):
    """Bytes as a row spells them."""
    return data.hex() or "-"


# ---- numbers as bytes


def read_varint(data):
    number = 0
    for place, byte in enumerate(data[:19]):
        if place == 18 and byte > 3:
            return "Err(Overflow)"
        number += byte % 128 << 7 * place
        if byte < 128:
            return f"Ok(({number}, {place + 1}))"
    return "Err(Truncated)"


def varint_rows():
    # the longest, longer than needed, and one that a byte follows
    for data in (18 * b"\xff" + b"\3", b"\x80\0", bytes.fromhex("c0a23307")):
        yield f"number {word(data)}", read_varint(data)
    # too great, by its last bits and by another byte; cut short
    for data in (18 * b"\xff" + b"\4", 18 * b"\xff" + b"\x83", b"\x80", b"", 18 * b"\xff"):
        yield f"number {word(data)}", read_varint(data)
    for number in (840_000, 0, 127, 128, U128):
        yield f"varint {number}", varint(number).hex() + UNTOUCHED


def compact(number):
    """A compact size in its shortest form (Bitcoin's serialization)."""
    for mark, width in ((253, 2), (254, 4), (255, 8)):
        if number >> 8 * width == 0:
            long = bytes([mark]) + number.to_bytes(width, "little")
            return bytes([number]) if number < 253 else long
    raise ValueError(number)


def read_compact(data):
    """What a compact size in front reads as, and how many bytes it has."""
    width = {253: 2, 254: 4, 255: 8}.get(data[0], 0) if data else 0
    if len(data) < 1 + width:
        return "Err(Short)", 0
    number = int.from_bytes(data[1 : 1 + width], "little") if width else data[0]
    if compact(number) != data[: 1 + width]:
        return "Err(NotShortest)", 0
    return f"Ok({number})", 1 + width


def fields_line(data):
    """A number of four bytes, one of eight, a compact size, and the byte behind them."""
    at, found = 0, ""
    for width in (4, 8):
        whole = len(data) >= at + width
        number = int.from_bytes(data[at : at + width], "little")
        found += f"Ok({number}) " if whole else "Err(Short) "
        at += width if whole else 0
    size, length = read_compact(data[at:])
    at += length
    behind = f"Ok([{data[at]}])" if at < len(data) else "Err(Short)"
    return f"{found}{size} {behind} at {at}"


def field_rows():
    # the least and the greatest number of each of the four forms
    forms = {
        0: "00",
        252: "fc",
        253: "fdfd00",
        0xFFFF: "fdffff",
        0x10000: "fe00000100",
        0xFFFFFFFF: "feffffffff",
        0x100000000: "ff0000000001000000",
        U64: 9 * "ff",
    }
    for number, spelled in forms.items():
        assert compact(number).hex() == spelled
        yield f"put - 0 0 {number}", 24 * "0" + spelled
        data = bytes(12) + bytes.fromhex(spelled)
        assert fields_line(data) == f"Ok(0) Ok(0) Ok({number}) Err(Short) at {len(data)}"
        yield f"fields {word(data)}", fields_line(data)
    # cut short, or longer than needed
    for spelled, fault in (
        ("", "Short"),
        ("fdfd", "Short"),
        ("fdfc00", "NotShortest"),
        ("feffff0000", "NotShortest"),
        ("ffffffffff00000000", "NotShortest"),
        ("ff00000000010000", "Short"),
    ):
        data = bytes(12) + bytes.fromhex(spelled)
        assert f" Err({fault}) " in fields_line(data)
        yield f"fields {word(data)}", fields_line(data)
    fields = "010203040700000000000000fd0302"
    for front in (b"", b"ab", bytes(range(256)) + bytes(range(256))):
        yield f"put {word(front)} {0x04030201} 7 515", front.hex() + fields
    for data in (fields, fields + "ff", fields[:6], fields[:22]):
        yield f"fields {data}", fields_line(bytes.fromhex(data))
    for data, place in ((b"abcd", 2), (b"abcd", 4), (bytes(range(256)), 100), (b"", 0)):
        line = f"{len(data)} {len(data) - place} 0 {data.hex()}"
        yield f"room {place} {word(data)}", line


# ---- names and amounts


def read_name(text):
    """A name's number and spacers: letters, with a spacer singly between two of them."""
    if not re.fullmatch("[A-Z]([•.]?[A-Z])*", text.decode(errors="replace")):
        return "Err(NotName)"
    number, spacers, letters = -1, 0, 0
    for letter in text.decode():
        if letter in "•.":
            spacers |= 1 << letters - 1
        else:
            number, letters = (number + 1) * 26 + ord(letter) - ord("A"), letters + 1
    if number > U128:
        return "Err(NotName)"
    return f"Ok(Named {{ name: {number}, spacers: {spacers} }})"


def least_name(start, interval, height):
    firsts = [sum(26**letters for letters in range(1, last + 1)) for last in range(13)]
    passed = height + 1 - start
    if passed < 0:
        return firsts[12]
    if passed >= 12 * interval:
        return 0
    at = 12 - passed // interval
    return firsts[at] - (firsts[at] - firsts[at - 1]) * (passed % interval) // interval


def name_lines(number):
    commitment = number.to_bytes(16, "little").rstrip(b"\0")
    reserved = str(number >= LEAST_KEPT).lower()
    return (
        name_of(number) + UNTOUCHED,
        f"  reserved: {reserved}, commitment {commitment.hex()}{UNTOUCHED}",
    )


def amount_text(amount, divisibility):
    digits = str(amount).zfill(divisibility + 1)
    place = len(digits) - divisibility
    return f"{digits[:place]}.{digits[place:].rstrip('0')}".rstrip(".")


# names at the ends, on both sides of a change of length, and the least one of mainnet's first block
NAMES = {
    0: "A",
    25: "Z",
    26: "AA",
    701: "ZZ",
    702: "AAA",
    96_723_641_422: "LABTESTS",
    GOODS: "UNCOMMONGOODS",
    99_240_661_844_911_652: "ZZYZXBRKWXVA",
    LEAST_KEPT - 1: 26 * "Z",
    LEAST_KEPT: 27 * "A",
    U128: "BCGDENLQRQWDSLRUGSNLBTMFIJAV",
}
# the least names at mainnet's heights
LEAST_NAMES = {
    839_998: 99_246_114_928_149_462,
    839_999: 99_246_114_928_149_462,
    840_000: 99_240_661_844_911_652,
    857_498: 3_822_611_349_705_097,
    857_499: 3_817_158_266_467_286,
    1_049_998: 1,
    1_049_999: 0,
    U64: 0,
}
# amounts and their decimals
AMOUNTS = {
    (1234, 2): "12.34",
    (1200, 2): "12",
    (5, 3): "0.005",
    (1210, 3): "1.21",
    (0, 38): "0",
    (U128, 0): "340282366920938463463374607431768211455",
    (U128, 38): "3.40282366920938463463374607431768211455",
}


def name_rows():
    assert name_lines(96_723_641_422)[1] == f"  reserved: false, commitment 4ea42d8516{UNTOUCHED}"
    for number, name in NAMES.items():
        assert name_of(number) == name
        yield f"name {number}", *name_lines(number)
        assert read_name(name.encode()) == f"Ok(Named {{ name: {number}, spacers: 0 }})"
        yield f"named {word(name.encode())}", read_name(name.encode())
    # above 128 bits, of 29 letters, empty, with a spacer at an end or two in a row, with a part of
    # a spacer, and with a small letter
    for text in (
        b"BCGDENLQRQWDSLRUGSNLBTMFIJAW",
        29 * b"A",
        b"",
        b"A..B",
        b"A.\xe2\x80\xa2B",
        b".A",
        b"A.",
        b"A\xe2\x80B",
        b"a",
    ):
        assert read_name(text) == "Err(NotName)"
        yield f"named {word(text)}", read_name(text)
    for text, number, spacers in (
        ("UNCOMMON•GOODS", GOODS, 128),
        ("UNCOMMON.GOODS", GOODS, 128),
        ("A.A.A", 702, 3),
    ):
        assert read_name(text.encode()) == f"Ok(Named {{ name: {number}, spacers: {spacers} }})"
        yield f"named {word(text.encode())}", read_name(text.encode())
    # none stands behind the last letter
    for number, spacers, text in ((GOODS, 128, "UNCOMMON•GOODS"), (702, U32, "A•A•A")):
        assert name_of(number, spacers) == text
        yield f"spaced {number} {spacers}", text + UNTOUCHED
    yield f"spaced {U128} {U32}", name_of(U128, U32) + UNTOUCHED


def least_rows():
    for height, least in LEAST_NAMES.items():
        assert least_name(840_000, 17_500, height) == least
        yield f"least 840000 17500 {height}", str(least)
    # an interval of no block opens all names at once
    for height, least in ((3, 99_246_114_928_149_462), (4, 0)):
        assert least_name(5, 0, height) == least
        yield f"least 5 0 {height}", str(least)
    for height, tx in ((0, 0), (1, 2), (U32, U32)):
        yield f"kept {height} {tx}", str(kept_name(height, tx))
    for (amount, divisibility), text in AMOUNTS.items():
        assert amount_text(amount, divisibility) == text
        yield f"amount {amount} {divisibility}", text + UNTOUCHED


# ---- satoshis

# the byte, the halving, the period, the cycle and the supply, by docs/RULES.md
PROFILES = {
    "mainnet": (0, 210_000, 2_016, 1_260_000, 2_099_999_997_690_000),
    "regtest": (1, 210_000, 2_016, 1_260_000, 2_099_999_997_690_000),
    "lab": (2, 10, 12, 60, 99_999_999_890),
}
# the first height of runes, the interval of names, whether the first rune is there, the jubilee,
# and the first height that commits and the last
STARTS = {
    "mainnet": (840_000, 17_500, "true", 824_544, 481_824, 4_000_000_000),
    "regtest": (0, 17_500, "false", 110, 0, 4_000_000_000),
    "lab": (2, 1, "false", 6, 30, 40),
}
NUMBERS = ("byte", "halving", "period", "cycle", "supply")
NUMBERS += ("rune_start", "interval", "first_rune", "jubilee", "commitment", "last")


def subsidy(profile, height):
    return SUBSIDY >> min(height // PROFILES[profile][1], 64)


def first_of(profile, height):
    """The first satoshi of a height: what each halving's blocks below it minted."""
    halving = PROFILES[profile][1]
    blocks = (min(max(height - begun * halving, 0), halving) for begun in range(33))
    return sum(count * (SUBSIDY >> begun) for begun, count in enumerate(blocks))


def height_of(profile, sat):
    """The only height that mints a satoshi, between bounds that are halved."""
    low, high = 0, 33 * PROFILES[profile][1]
    while high - low > 1:
        middle = (low + high) // 2
        low, high = (middle, high) if first_of(profile, middle) <= sat else (low, middle)
    return low


def is_number(text):
    return re.fullmatch("0|[1-9][0-9]*", text, re.ASCII) and int(text) <= U64


def sat_of(profile, text):
    """The satoshi that a text spells, if any: by its height and its place, its number or its
    name."""
    supply = PROFILES[profile][4]
    if "." in text:
        height, place = text.split(".", 1)
        if not is_number(height) or not is_number(place):
            return None
        is_minted = int(place) < subsidy(profile, int(height))
        return first_of(profile, int(height)) + int(place) if is_minted else None
    if is_number(text):
        return int(text) if int(text) < supply else None
    if not re.fullmatch("[a-z]{1,11}", text):
        return None
    distance = 0
    for letter in text:
        distance = 26 * distance + ord(letter) - ord("a") + 1
    return supply - distance if distance <= supply else None


def name_of_sat(profile, sat):
    name, left = "", PROFILES[profile][4] - sat
    while left > 0:
        name = chr(ord("a") + (left - 1) % 26) + name
        left = (left - 1) // 26
    return name


def rarity_of(hour, minute, second, third):
    if third > 0:
        return "Common"
    if minute == second == 0:
        return "Legendary" if hour else "Mythic"
    return "Epic" if minute == 0 else "Rare" if second == 0 else "Uncommon"


def sat_line(profile, text):
    sat = sat_of(profile, text)
    if sat is None:
        return "no satoshi"
    _, halving, period, cycle, _ = PROFILES[profile]
    height = height_of(profile, sat)
    degree = height // cycle, height % halving, height % period, sat - first_of(profile, height)
    names = ("hour", "minute", "second", "third")
    told = ", ".join(f"{name}: {part}" for name, part in zip(names, degree))
    front = f"{sat} of {height}, Degree {{ {told} }}, {rarity_of(*degree)}, "
    return front + name_of_sat(profile, sat) + UNTOUCHED


# the subsidies and the first satoshis of mainnet's heights
HEIGHTS = {
    0: (5_000_000_000, 0),
    1: (5_000_000_000, 5_000_000_000),
    209_999: (5_000_000_000, 1_049_995_000_000_000),
    210_000: (2_500_000_000, 1_050_000_000_000_000),
    1_260_000: (78_125_000, 2_067_187_500_000_000),
    6_929_999: (1, 2_099_999_997_689_999),
    6_930_000: (0, 2_099_999_997_690_000),
    U64: (0, 2_099_999_997_690_000),
}
# the table of the Ordinal Theory Handbook's chapter on rarity
RARITIES = {
    0: "Mythic",
    1: "Common",
    4_999_999_999: "Common",
    5_000_000_000: "Uncommon",
    10_080_000_000_000: "Rare",
    1_050_000_000_000_000: "Epic",
    2_067_187_500_000_000: "Legendary",
    2_099_999_997_689_999: "Uncommon",
}
# spellings of mainnet's satoshis, the second and the third an example of ord's
SPELLINGS = {
    "0": 0,
    "2099994106992659": 2_099_994_106_992_659,
    "3891094.16797": 2_099_994_106_992_659,
    "0.4999999999": 4_999_999_999,
    "1.0": 5_000_000_000,
    "6929999.0": 2_099_999_997_689_999,
    "2099999997689999": 2_099_999_997_689_999,
    "nvtdijuwxlp": 0,
    "nvtdijuwxlo": 1,
    "nvtdijuwxkp": 26,
    "satoshi": 2_099_994_106_992_659,
    "ak": 2_099_999_997_689_963,
    "aa": 2_099_999_997_689_973,
    "z": 2_099_999_997_689_974,
    "a": 2_099_999_997_689_999,
}
# texts that spell no satoshi of mainnet
NOT_SATS = ("", "00", "+1", "-1", "2099999997690000", "99999999999999999999", "0.5000000000")
NOT_SATS += ("6930000.0", "18446744073709551616.0", "01", "1.5000000000", "01.0", "1.00", "1.")
NOT_SATS += (".1", "1.0.0", "nvtdijuwxlq", "aaaaaaaaaaaa", "A", "a1", "3°111094′214″16797‴")
ORDS_EXAMPLE = "Degree { hour: 3, minute: 111094, second: 214, third: 16797 }"


def profile_rows():
    for name, numbers in PROFILES.items():
        fields = zip(NUMBERS, numbers + STARTS[name])
        told = ", ".join(f"{field}: {number}" for field, number in fields)
        front = f"{name} {numbers[0]} {name.title()}"
        yield f"profile {name}", f"{front} Profile {{ {told} }}"
    for text in ("", "Mainnet", "mainne", "mainnet ", "signet"):
        yield f"profile {text}", "no profile"


def sat_rows():
    for height, (minted, first) in HEIGHTS.items():
        assert (subsidy("mainnet", height), first_of("mainnet", height)) == (minted, first)
        yield f"height mainnet {height}", f"{minted} from {first}"
    assert first_of("lab", 330) == 99_999_999_890 and subsidy("lab", 10) == 2_500_000_000
    for profile, height in (("lab", 330), ("lab", 10), ("lab", 9), ("regtest", 210_000)):
        line = f"{subsidy(profile, height)} from {first_of(profile, height)}"
        yield f"height {profile} {height}", line
    for sat, rarity in RARITIES.items():
        assert f", {rarity}, " in sat_line("mainnet", str(sat))
        yield f"sat mainnet {sat}", sat_line("mainnet", str(sat))
    line = sat_line("mainnet", "satoshi")
    assert line.startswith(f"2099994106992659 of 3891094, {ORDS_EXAMPLE}, ")
    for text, sat in SPELLINGS.items():
        assert sat_of("mainnet", text) == sat
        yield f"sat mainnet {text}", sat_line("mainnet", text)
        assert not text.isalpha() or name_of_sat("mainnet", sat) == text
        yield f"sat mainnet {sat}", sat_line("mainnet", str(sat))
    for text in NOT_SATS:
        assert sat_of("mainnet", text) is None
        yield f"sat mainnet {text}", "no satoshi"
    # the second block of regtest begins with an uncommon satoshi
    second = "Degree { hour: 0, minute: 1, second: 1, third: 0 }, Uncommon, "
    assert second in sat_line("regtest", "5000000000")
    yield "sat regtest 5000000000", sat_line("regtest", "5000000000")
    assert sat_of("regtest", "1.0") == 5_000_000_000
    yield "sat regtest 1.0", sat_line("regtest", "1.0")
    for text in ("1.5000000000", "01", "", "nvtdijuwxlq"):
        assert sat_of("regtest", text) is None
        yield f"sat regtest {text}", "no satoshi"


# ---- lists of satoshis


class Lists:
    """The steps of a row, and what they print: a list of satoshis and one beside it, as runs of a
    first number and a count."""

    def __init__(self):
        self.list, self.beside, self.steps, self.lines = [], [], [], []

    def step(self, text):
        self.steps.append(text)
        return self

    def append(self, runs):
        for first, count in runs:
            if self.list and sum(self.list[-1]) == first:
                begun, before = self.list.pop()
                first, count = begun, before + count
            self.list.append((first, count))

    def put(self, first, count):
        self.append([(first, count)] if count else [])
        return self.step(f"{first}:{count}")

    def comb(self, first, count):
        """Runs of ten numbers, each a hundred behind the one before."""
        for tooth in range(count):
            self.put(first + 100 * tooth, 10)
        return self

    def ends(self, place):
        """The runs before a place, and those from it on."""
        front, back = [], []
        for first, count in self.list:
            here = min(max(place, 0), count)
            front += [(first, here)] if here else []
            back += [(first + here, count - here)] if here < count else []
            place -= count
        return front, back

    def cut(self, place):
        self.list, self.beside = self.ends(place)
        return self.step(f"cut:{place}")

    def keep(self, place):
        self.list, _ = self.ends(place)
        return self.step(f"keep:{place}")

    def join(self):
        self.append(self.beside)
        return self.step("join")

    def copy(self):
        self.beside = list(self.list)
        return self.step("copy")

    def swap(self):
        self.list, self.beside = self.beside, self.list
        return self.step("swap")

    def new(self):
        self.list = []
        return self.step("new")

    def show(self, *runs):
        """Prints the list, which has these runs where some are told."""
        assert not runs or list(runs) == self.list
        shown = "".join(f" {first}+{count}" for first, count in self.list)
        many = sum(count for _, count in self.list)
        self.lines.append(f"{many} empty: {str(many == 0).lower()}{shown}")
        return self.step("show")

    def show_copy(self):
        """Prints a copy of the list."""
        return self.copy().swap().show().swap()

    def numbers(self):
        return [first + at for first, count in self.list for at in range(count)]

    def at(self, place):
        self.lines.append(str(self.numbers()[place]))
        return self.step(f"at:{place}")

    def of(self, number):
        numbers = self.numbers()
        found = f"Some({numbers.index(number)})" if number in numbers else "None"
        self.lines.append(found)
        return self.step(f"of:{number}")

    def row(self):
        return "ranges " + " ".join(self.steps), *self.lines


def dealt():
    """Lists of few runs, as blocks deal them."""
    # block 2 spends the output of block 0 into two outputs of 2,000,000,000 and 1,000,000,000, and
    # its coinbase claims its own subsidy and the rest as a fee
    lists = Lists().put(0, 5_000_000_000).cut(3_000_000_000)
    lists.swap().show((3_000_000_000, 2_000_000_000)).swap().cut(2_000_000_000)
    yield lists.show((0, 2_000_000_000)).swap().show((2_000_000_000, 1_000_000_000))
    claimed = (10_000_000_000, 5_000_000_000), (3_000_000_000, 2_000_000_000)
    yield Lists().put(*claimed[0]).put(*claimed[1]).show(*claimed)
    # runs that meet are joined, and others stay apart
    lists = Lists()
    for tooth in range(1_000):
        lists.put(10 * tooth, 10)
    lists.show((0, 10_000)).cut(2_500).swap().show((2_500, 7_500)).swap()
    yield lists.join().show((0, 10_000))
    yield Lists().put(0, 10_000).join().put(4, 3).show((0, 10_000), (4, 3))
    lists = Lists().put(U64 - 2, 2).put(5, 3).put(0, 10).show((U64 - 2, 2), (5, 3), (0, 10))
    for place in (0, 1, 2, 4, 5, 14):
        lists.at(place)
    yield lists.of(6).of(8).of(10).of(U64)
    yield Lists().put(7, 0).show().of(7).cut(0).swap().show()


def of_several_runs():
    """Lists of two runs and more."""
    five = (0, 10), (100, 10), (200, 20), (310, 10), (410, 10)
    lists = Lists().comb(210, 3).swap().comb(0, 3).join().show(*five).show_copy()
    yield lists.copy().join().show(*five, *five)
    lists = Lists().comb(0, 100).cut(25).show((0, 10), (100, 10), (200, 5)).swap().show()
    lists.cut(965).swap().show((9_900, 10)).swap().keep(15)
    yield lists.show((205, 5), (300, 10))
    lists = Lists().comb(0, 3).keep(30).show((0, 10), (100, 10), (200, 10)).keep(15)
    yield lists.show((0, 10), (100, 5)).keep(10).show((0, 10)).keep(0).show()
    # from no run to three
    lists = Lists().join().show().show_copy()
    lists.put(0, 10).put(10, 5).show((0, 15)).show_copy()
    lists.put(100, 10).put(110, 5).show((0, 15), (100, 15)).show_copy()
    lists.put(14, 1).swap().new().swap().join()
    yield lists.show((0, 15), (100, 15), (14, 1)).show_copy()
    # several behind none, one and two
    for count in range(3):
        lists = Lists().comb(100 * count, 2).swap().comb(0, count).join().show()
        lists.swap().new().comb(100 * count + 110, 2).swap().join().show()
        assert len(lists.list) == count + 3
        yield lists
    # long ones
    lists = Lists().comb(0, 1_000).show().show_copy().swap().new().comb(99_910, 1_000).swap()
    yield lists.join().show()
    # one run and the first of several, and what is left of several
    yield Lists().comb(10, 2).swap().put(5, 5).join().show((5, 15), (110, 10))
    lists = Lists().comb(10, 2).keep(10).swap().put(0, 10).join().swap().keep(0).swap()
    yield lists.join().show((0, 20)).swap().join().show((0, 20))


def at_each_place():
    """Lists of up to three runs, cut at each place and joined again, and shortened to it."""
    for count in range(4):
        for place in range(10 * count + 1):
            lists = Lists().comb(0, count).cut(place).show().show_copy()
            lists.new().comb(0, count).cut(place).swap().show().show_copy()
            yield lists.new().comb(0, count).cut(place).join().show()
            lists = Lists().comb(0, count).keep(place).show().show_copy()
            yield lists.put(place // 10 * 100 + place % 10, 10 - place % 10).show()


def list_rows():
    for rows in (dealt(), of_several_runs(), at_each_place()):
        for lists in rows:
            yield lists.row()


# ---- paths

# the routes of docs/FORMATS.md, their paths' texts, and parts behind these
ROUTES = {
    "Audit": "/audit",
    "BlockHash": "/blockhash/",
    "Connect": "/connect",
    "Content": "/content/",
    "Disconnect": "/disconnect",
    "Inscription": "/inscription/",
    "Inscriptions": "/inscriptions/",
    "Output": "/output/",
    "Rune": "/rune/",
    "Runes": "/runes/",
    "Sat": "/sat/",
    "Status": "/status",
}
PARTS = {
    "BlockHash": "0",
    "Content": "ab12i0",
    "Inscription": "ab12i0",
    "Inscriptions": "7",
    "Output": "ab:0",
    "Rune": "840000:1",
    "Runes": "0",
    "Sat": "nvtdijuwxlp",
}


def shown(data):
    digits = sum(48 <= byte < 58 for byte in data)
    return f"{len(data)} bytes, {digits} digits" if len(data) > MOST_SHOWN else data.hex()


def route_line(path):
    """The route of a path, which is a route's text alone, or that and a part without a slash."""
    try:
        text = path.decode()
    except UnicodeDecodeError:
        return "no route"
    for name, front in ROUTES.items():
        part = text.removeprefix(front)
        has_part = bool(part) and "/" not in part
        if text.startswith(front) and (has_part if front.endswith("/") else part == ""):
            method = "Post" if name in ("Connect", "Disconnect") else "Get"
            return f"{name} {method} {front} {shown(part.encode())}"
    return "no route"


def route_rows():
    for name, front in ROUTES.items():
        path = (front + PARTS.get(name, "")).encode()
        assert route_line(path).split(" ")[0] == name
        yield f"route 0 {word(path)} - -", route_line(path)
    for path in (
        b"",
        b"/",
        b"status",
        b"//status",
        b"/status/",
        b"/status/0",
        b"/Status",
        b"/sat",
        b"/sat/",
        b"/sat//",
        b"/sat/a/b",
        b"/sat/a/",
        b"/inscriptions",
        b"/sat/\xff",
    ):
        assert route_line(path) == "no route"
        yield f"route 0 {word(path)} - -", "no route"
    # a part is any text without a slash
    for path in ("/rune/A%E2%80%A2B", "/rune/A•B", "/sat/{sat}", "/output/a?b=c"):
        yield f"route 0 {word(path.encode())} - -", route_line(path.encode())
    for end in (b"", b"/"):
        line = route_line(b"/content/" + 65_526 * b"7" + end)
        yield f"route 65526 {word(b'/content/')} 37 {word(end)}", line


def rows():
    """Each row, and the lines that have to be printed for it."""
    for some in (varint_rows, field_rows, name_rows, least_rows, profile_rows, sat_rows):
        yield from some()
    yield from list_rows()
    yield from route_rows()
