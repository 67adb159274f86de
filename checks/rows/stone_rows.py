"""The rows of crates/ox_block_rows about the items of scripts, kinds of output and runestones, and
what has to be printed for them.

Scripts are read item by item as envelope_rows does, and runestones by the Runes specification as
plain_index does. How a runestone is written again is reckoned here by docs/RULES.md ("Runestones").
It knows what scripts from outside say.
"""

from plain_index import Stone
from row_forms import Terms
from rows.envelope_rows import items
from tools.bitcoin import varint

U64, U128 = (1 << 64) - 1, (1 << 128) - 1
MARK = bytes.fromhex("6a5d")
TERMS = ("amount", "cap", "height_start", "height_end", "offset_start", "offset_end")


def word(data):
    """Bytes as a row spells them."""
    return data.hex() or "-"


def debug(kind, /, **fields):
    """A struct as Rust's `Debug` writes it."""
    return f"{kind} {{ {', '.join(f'{field}: {value}' for field, value in fields.items())} }}"


def option(value):
    return "None" if value is None else f"Some({value})"


# ---- items and kinds


def listing(script):
    found, line = items(script), ""
    for item in found:
        if item is not None:
            told = f"Op({item})" if isinstance(item, int) else f"Push({list(item)})"
            line += told + " "
    return f"{line}cut: {str(None in found).lower()}, stays: true"


def listings():
    """Scripts in hex digits, how often a part stands behind them and the part, and whether they are
    cut short."""
    # opcodes and pushes; pushes in longer forms than needed
    for script in ("", "00", "6a02686951", "4f50ff", "026869", "4c026869", "4d02006869"):
        yield script, 0, "", False
    yield from (("4e020000006869", 0, "", False), ("4c004d00004e00000000", 0, "", False))
    # the most that an opcode counts, and a length of two bytes, the low one first
    yield from (("4b", 75, "07", False), ("4d0201", 258, "07", False), ("4d0201", 257, "07", True))
    # pushes that are cut short, behind other items too
    for script in ("01", "510268", "4c", "4c036869", "4d00", "4e000000", "4effffffff"):
        yield script, 0, "", True
    yield "0063036f72644c", 0, "", True


def kinds_line(script):
    taproot = len(script) == 34 and script[:2] == b"\x51\x20"
    stone = items(script)[:2] == [0x6A, 0x5D]
    told = f"return: {script[:1] == bytes([0x6A])}, taproot: {taproot}, runestone: {stone}"
    return told.lower()


def kinds():
    """Scripts, and what they are."""
    program = b"abcdefghijklmnopqrstuvwxyz012345"
    for script in ("6a", "6a4c", "6a5c", "6a5e", "6a015d", "6a010d"):
        yield bytes.fromhex(script), ("return",)
    yield MARK, ("return", "runestone")
    yield b"\x51\x20" + program, ("taproot",)
    for script in (
        b"",
        b"\x51\x6a",
        b"\x5d\x6a",
        b"\x51\x20" + program[:-1],
        b"\x51\x20" + program + b"6",
        b"\x52\x20" + program,
        b"\0\x20" + program,
    ):
        yield script, ()


def tapscripts():
    """How many items a witness has, the last of them, and where the tapscript is (BIP 341)."""
    yield from ((0, "", None), (1, "50", None), (2, "c0", 0), (2, "50", None), (2, "", 0))
    yield from ((3, "c050", 1), (3, "50c0", 0), (U64, "c1", U64 - 2))


def place_of_tapscript(count, last):
    left = count - (count >= 2 and last[:1] == b"\x50")
    return left - 2 if left >= 2 else None


def script_rows():
    for front, times, part, is_cut in listings():
        script = bytes.fromhex(front) + times * bytes.fromhex(part)
        assert (None in items(script)) == is_cut
        yield f"listing {times} {front or '-'} {part or '-'} -", listing(script)
    for script, told in kinds():
        line = kinds_line(script)
        assert all((f"{kind}: true" in line) == (kind in told) for kind in ("return", "taproot"))
        assert ("runestone: true" in line) == ("runestone" in told)
        yield f"kinds {word(script)}", line
    for count, last, place in tapscripts():
        assert place_of_tapscript(count, bytes.fromhex(last)) == place
        yield f"tapscript {count} {last or '-'}", option(place)


# ---- runestones


def id_text(id_):
    return debug("RuneId", block=id_[0], tx=id_[1])


def maybe_id(id_):
    return option(id_ and id_text(id_))


def etching_text(stone):
    if not stone.is_etching:
        return "None"
    terms = stone.terms and debug(
        "Terms", **{name: option(getattr(stone.terms, name)) for name in TERMS}
    )
    symbol = None if stone.symbol is None else f"'{chr(stone.symbol)}'"
    return option(
        debug(
            "Etching",
            name=option(stone.name),
            spacers=option(stone.spacers),
            divisibility=option(stone.divisibility),
            symbol=option(symbol),
            premine=option(stone.premine),
            terms=option(terms),
            turbo=str(stone.is_turbo).lower(),
        )
    )


def stone_text(stone):
    edicts = ", ".join(
        debug("Edict", id=id_text(id_), amount=amount, output=output)
        for id_, amount, output in stone.edicts
    )
    told = debug(
        "Runestone",
        etching=etching_text(stone),
        mint=maybe_id(stone.mint),
        pointer=option(stone.pointer),
        edicts=debug("List", items=f"[{edicts}]"),
    )
    return f"Stone({told})"


def fields_of(stone):
    """The tags of a runestone and their values, in the order in which they are written."""
    if stone.is_etching:
        yield 2, 1 + 2 * (stone.terms is not None) + 4 * stone.is_turbo
        yield from ((4, stone.name), (1, stone.divisibility), (3, stone.spacers))
        yield from ((5, stone.symbol), (6, stone.premine))
        terms = stone.terms or Terms()
        yield from ((8, terms.cap), (10, terms.amount), (12, terms.height_start))
        yield from ((14, terms.height_end), (16, terms.offset_start), (18, terms.offset_end))
    yield from ((20, number) for number in stone.mint or ())
    yield 22, stone.pointer


def push(data):
    size = len(data)
    long = b"\x4c" + bytes([size]) if size < 256 else b"\x4d" + size.to_bytes(2, "little")
    return (bytes([size]) if size < 76 else long) + data


def written(stone):
    """The script of a runestone."""
    numbers = [number for field in fields_of(stone) if field[1] is not None for number in field]
    numbers += [0] if stone.edicts else []
    block = tx = 0
    for id_, amount, output in stone.edicts:
        numbers += [id_[0] - block, id_[1] - (tx if id_[0] == block else 0), amount, output]
        block, tx = id_
    payload = b"".join(map(varint, numbers))
    return MARK + b"".join(push(payload[at : at + 520]) for at in range(0, len(payload), 520))


def stone_lines(script, outputs):
    if items(script)[:2] != [0x6A, 0x5D]:
        return ["no runestone"]
    stone = Stone(script, outputs)
    if stone.is_cenotaph:
        return [debug("Cenotaph", mint=maybe_id(stone.mint), name=option(stone.name))]
    ids = [id_ for id_, _, _ in stone.edicts]
    rise, turned = (str(some == sorted(ids)).lower() for some in (ids, ids[::-1]))
    lines = [stone_text(stone), f"  ids rise: {rise}, turned round: {option(turned)}"]
    return lines + [written(stone).hex()]


def row_of(script, outputs):
    return f"stone {outputs} {word(script)}", *stone_lines(script, outputs)


def payload_script(digits):
    payload = bytes.fromhex(digits)
    assert len(payload) < 76
    return MARK + bytes([len(payload)]) + payload


# the fields of UNCOMMON•GOODS, mainnet's first rune, as a script says them
FIRST_RUNE = {
    "name": 2_055_900_680_524_219_742,
    "spacers": 128,
    "symbol": 0x29C9,
    "premine": 0,
    "terms": Terms(amount=1, cap=U128, height_start=840_000, height_end=1_050_000),
}
FIRST_NUMBERS = (2, 3, 4, 2_055_900_680_524_219_742, 3, 128, 5, 0x29C9, 6, 0, 8, U128, 10, 1)
FIRST_NUMBERS += (12, 840_000, 14, 1_050_000)


def etchings():
    """Payloads in hex digits, and the fields of what they etch alone."""
    yield "02030607080a0a05", {"premine": 7, "terms": Terms(5, 10)}
    yield "0201060a", {"premine": 10}
    # the greatest divisibility and spacers that are taken, and one more of each, which isn't
    yield "0201012603ffffff3f", {"divisibility": 38, "spacers": 134_217_727}
    yield "020101270380808040", {}
    # each other term, and a turbo, alone and with all terms
    yield "02070c010e0210031204", {"terms": Terms(None, None, 1, 2, 3, 4), "is_turbo": True}
    yield "0205", {"is_turbo": True}
    yield "0203080a0a050c010e0210031204", {"terms": Terms(5, 10, 1, 2, 3, 4)}
    yield b"".join(map(varint, FIRST_NUMBERS)).hex(), FIRST_RUNE


def deals():
    """Scripts in hex digits, how many outputs there are, the edicts, and the pointer."""
    yield "6a5d050003010004", 4, [((3, 1), 0, 4)], None
    yield "6a5d050003010404", 4, [((3, 1), 4, 4)], None
    # an odd tag is ignored, and a varint goes over the border of two pushes
    yield "6a5d0316017f4c0100", 4, [], 1
    yield "6a5d0216810100", 4, [], 1
    # the example of the Runes specification: sorted by id, each told behind the one before
    edicts = [((10, 5), 5, 1), ((10, 5), 10, 3), ((10, 7), 1, 8), ((50, 1), 25, 4)]
    yield "6a5d11000a050501" + "00000a03" + "00020108" + "28011904", 9, edicts, None
    # an id twice, and a greater one
    edicts = [((3, 1), 0, 4), ((3, 1), 0, 4), ((3, 2), 0, 4)]
    yield "6a5d0d0003010004" + "00000004" + "00010004", 4, edicts, None
    # 200 edicts of 801 bytes in two pushes
    payload = bytes(1) + 200 * b"\1\0\1\0"
    long = MARK + b"\x4d\x08\x02" + payload[:520] + b"\x4d\x19\x01" + payload[520:]
    yield long.hex(), 1, [((block, 0), 1, 0) for block in range(1, 201)], None


MINT = (3, 1)


def causes():
    """Payloads of malformed messages in hex digits, and the mint and the name that are kept."""
    # a tag without a value
    yield from (("02010407140314010c", MINT, 7), ("01", None, None))
    # three integers of an edict, block 0 with transaction 1, a block and a transaction that are too
    # great, and an output above the number of outputs
    yield from (("1403140100010105", MINT, None), ("0000010500", None, None))
    yield "0080808080808080808002" + "000500", None, None
    yield from (("000180808080100500", None, None), ("0001000505", None, None))
    # a flag above the third, and a flag without an etching
    yield from (("02090407", None, 7), ("0202040714031401", MINT, None))
    # a second value of an even tag, and an even tag without a field
    yield from (("020104070408", None, 7), ("020104071800", None, 7), ("020104077e00", None, 7))
    # a pointer that isn't below the number of outputs
    yield "1604", None, None
    # a name without an etching, and an amount and a height without terms
    yield from (("0407", None, None), ("020104070a05", None, 7), ("020104070c05", None, 7))
    # a height of 2^64
    yield "020304070c" + "80808080808080808002", None, 7
    # one value of the mint, three of them, and a mint that isn't an id
    yield from (("1403", None, None), ("140314011401", MINT, None), ("14001401", None, None))
    # an integer that is cut short
    yield "1403140180", None, None
    # a premine of the greatest amount and one mint of 1
    yield "0203040706" + 18 * "ff" + "0308010a01", None, 7


def malformed_scripts():
    """Malformed scripts in hex digits, and the mint that is kept."""
    # an opcode that isn't a push, a push that is cut short, and a mint beside a tag of 126
    yield from (("6a5d041403140151", None), ("6a5d04140314010216", None))
    yield "6a5d06140314017e00", MINT


def stone_rows():
    for digits, told in etchings():
        for outputs in (1, 4):
            script = payload_script(digits)
            stone = Stone(script, outputs)
            fields = dict.fromkeys(("name", "spacers", "divisibility", "symbol", "premine"))
            fields |= {"terms": None, "is_turbo": False, "mint": None, "pointer": None} | told
            assert all(getattr(stone, name) == value for name, value in fields.items()), digits
            assert stone.is_etching and not stone.is_cenotaph and not stone.edicts
            yield row_of(script, outputs)
    for digits, outputs, edicts, pointer in deals():
        stone = Stone(bytes.fromhex(digits), outputs)
        assert not stone.is_cenotaph and not stone.is_etching and stone.mint is None
        assert (stone.edicts, stone.pointer) == (edicts, pointer)
        yield row_of(bytes.fromhex(digits), outputs)
    found = [(payload_script(digits), 4, mint, name) for digits, mint, name in causes()]
    for digits, mint in malformed_scripts():
        found += [(bytes.fromhex(digits), outputs, mint, None) for outputs in (1, 4)]
    for script, outputs, mint, name in found:
        stone = Stone(script, outputs)
        assert stone.is_cenotaph and (stone.mint, stone.name) == (mint, name), script.hex()
        yield row_of(script, outputs)
    # a mint and a pointer
    yield row_of(payload_script("140314011602"), 4)
    yield row_of(bytes.fromhex("6a5c"), 1)


def rows():
    """Each row, and the lines that have to be printed for it."""
    yield from script_rows()
    yield from stone_rows()
