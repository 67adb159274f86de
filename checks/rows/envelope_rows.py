"""The rows of crates/ox_block_rows about scripts, field values and ids, and what has to be printed
for them.

It reads scripts by the Ordinal Theory Handbook ("Inscriptions", "Fields", "Provenance",
"Delegate"), on its own: item by item into a list, and then by slices of that list.
"""

import re

OPEN = "0063036f7264"
TXID = "".join(f"{byte:02x}" for byte in range(31, -1, -1))
PRINTED = "".join(f"{byte:02x}" for byte in range(32))
MOST_SHOWN = 80


def items(script):
    """The items, an opcode as a number and a push as bytes, and None at the end of a script that is
    cut."""
    at, found = 0, []
    while at < len(script):
        op = script[at]
        at += 1
        if op > 78:
            found.append(op)
            continue
        width = {76: 1, 77: 2, 78: 4}.get(op, 0)
        if at + width > len(script):
            return found + [None]
        count = int.from_bytes(script[at : at + width], "little") if width else op
        at += width
        if at + count > len(script):
            return found + [None]
        found.append(script[at : at + count])
        at += count
    return found


def bytes_pushed(item):
    if isinstance(item, bytes):
        return item
    if item == 0x4F:
        return b"\x81"
    return bytes([item - 0x50]) if 0x51 <= item <= 0x60 else None


def envelopes(script):
    """Of each envelope its pushes, and whether one is a number's."""
    all_items, found, at = items(script), [], 0
    if None in all_items:
        return []
    while at < len(all_items):
        if all_items[at : at + 3] != [b"", 0x63, b"ord"]:
            at += 1
            continue
        end = at + 3
        while end < len(all_items) and bytes_pushed(all_items[end]) is not None:
            end += 1
        inside = all_items[at + 3 : end]
        if end < len(all_items) and all_items[end] == 0x68:
            found.append(
                (
                    [bytes_pushed(item) for item in inside],
                    any(isinstance(item, int) for item in inside),
                )
            )
        at = end + 1
    return found


def id_of(value):
    txid, index = value[:32], value[32:]
    if len(txid) < 32 or len(index) > 4 or (0 < len(index) < 4 and index[-1] == 0):
        return None
    return f"{txid[::-1].hex()}i{int.from_bytes(index, 'little')}"


def bytes_text(data):
    if len(data) > MOST_SHOWN:
        return f"{len(data)} bytes, {sum(chr(byte).isdigit() for byte in data)} digits"
    return data.hex()


def envelope_line(pushes, number):
    empties = [at for at in range(0, len(pushes), 2) if not pushes[at]]
    body = b"".join(pushes[empties[0] + 1 :]) if empties else None
    front = pushes[: empties[0]] if empties else pushes
    fields = list(zip(front[0::2], front[1::2]))
    of = lambda tag: [value for name, value in fields if name == bytes([tag])]
    names = [name for name, _ in fields]
    unknown_even = any(
        name[0] % 2 == 0 and name not in [bytes([tag]) for tag in (1, 2, 3, 5, 7, 9, 11)]
        for name in names
    )
    single = [name for name in names if name not in (b"\3", b"\5")]
    marks = 1 * (unknown_even or len(of(2)) > 1) + 2 * (len(set(single)) < len(single))
    marks += 4 * (len(front) % 2) + 32 * bool(of(2)) + 64 * number
    line = f"  marks={marks}"
    first = {"type": 1, "pointer": 2, "protocol": 7, "encoding": 9}
    values = {name: of(tag)[0] if of(tag) else None for name, tag in first.items()}
    values["metadata"] = b"".join(of(5)) if of(5) else None
    values["body"] = body
    for name in ("type", "pointer", "metadata", "protocol", "encoding", "body"):
        if values[name] is not None:
            line += f" {name}={bytes_text(values[name])}"
    line += " parents" + "".join(" " + id_of(value) for value in of(3) if id_of(value))
    return line + " delegate " + ((id_of(of(11)[0]) if of(11) else None) or "none")


def bytes_from(words):
    """The bytes that a row's words spell: how often the part stands, the head, the part and the
    tail."""
    times, *parts = words.split(" ")
    head, part, tail = (bytes.fromhex(word.replace("-", "")) for word in parts)
    return head + int(times) * part + tail


def script_lines(script):
    found = envelopes(script)
    yield f"{len(found)} envelopes"
    for pushes, number in found:
        yield "  pushes" + "".join(" " + bytes_text(push) for push in pushes)
        yield envelope_line(pushes, number)


def scripts():
    """Scripts in hex digits, an envelope's opening written as O."""
    # none, an empty one, one behind a key, and openings that are broken, the third by what begins a
    # whole one
    yield from (
        "-",
        "O68",
        "20" + 32 * "6b" + "acO0161" + "02626368",
        "0063O68",
        "00O016168",
        "0063036f727868",
        "0064036f726468",
    )
    # no end; a last push that takes the end; a script that is cut, before and behind an envelope
    yield from ("O0161", "O0101", "O0168", "O4c", "O680261")
    # another opcode voids one, and the search goes on behind it
    yield from ("O0161ac68", "OacO016168", "OO016168", "O5068")
    # several, pushes of each form, and numbers
    yield from ("O01616851O016268", "4c00634d03006f72644c01614d0100624e010000006368", "O4f516068")
    yield from ("O" + f"{op:02x}" + "68" for op in range(0x4F, 0x62))
    # fields and bodies
    yield "O0142017801010a746578742f706c61696e0002686968"
    yield from ("O0068", "O00016100016201" + "0168")
    yield "O01050161" + "01010174" + "01070170" + "01050162" + "01090165" + "68"
    yield "O010100010500" + "68"
    # pointers are bytes
    yield "O010202b70b68O010202b80b68O01020900000000000000000168O010209e8030000000000000068"
    # marks: odd and even tags, alone and twice; longer tags; two pointers, two parents; a tag
    # without a value; numbers
    yield from (
        "O010d016168",
        "O010d0161010d016168",
        "O01040161" + "0104016168",
        "O020201016168",
        "O020102016168",
    )
    yield from (
        "O0201020161" + "020103016168",
        "O0201020161" + "020102016168",
        "O010201610102016268",
        "O010301610103016268",
    )
    yield from (f"O01{tag:02x}016168" for tag in range(1, 17))
    yield from ("O010268", "O01010174010168", "O51017468", "O004f68")
    # parents and a delegate, and a first delegate that is no id, whatever a second says
    value = lambda tag, index: f"01{tag:02x}4c{32 + len(index) // 2:02x}{TXID}{index}"
    yield "O" + value(3, "") + value(3, "00") + value(3, "ff") + value(3, "") + value(
        11, "0001"
    ) + value(11, "02") + "68"
    yield "O010b0161" + value(11, "") + "68"


def rows():
    for script in scripts():
        yield f"script 0 {script.replace('O', OPEN)} - -"
    # a body of 750 pushes of 520 bytes, a hundred envelopes, and a hundred that the end cuts
    yield f"script 750 {OPEN}0101017400 4d0802{26 * b'01234567890123456789'.hex()} 68"
    yield f"script 100 - {OPEN}0101017400016168 51"
    yield f"script 100 - {OPEN}0101017400016168 4c"
    # the same by their numbers alone, with an envelope without a body in front of a hundred
    for word in ("items", "envelopes"):
        yield f"{word} 750 {OPEN}0101017400 4d0802{26 * b'01234567890123456789'.hex()} 68"
        yield f"{word} 100 {OPEN}0101017468 {OPEN}0101017400016168 51"
        yield f"{word} 100 - {OPEN}0101017400016168 4c"
        yield f"{word} 0 - - -"
    for index in (
        "",
        "01",
        "ff",
        "0001",
        "010203",
        "01020304",
        "01000000",
        "00000000",
        "00",
        "0100",
        "010000",
        "0102030405",
    ):
        yield f"value {TXID}{index}"
    yield from ("value -", f"value {TXID[:62]}")
    for text in (
        "i0",
        "i10",
        "i4294967295",
        "i4294967296",
        "i",
        "i00",
        "i+1",
        "i1 ",
        "i01",
        "i-0",
        "I0",
        "j0",
        "",
    ):
        yield f"text {PRINTED}{text}"
    yield from (
        f"text {PRINTED.replace('a', 'A', 1)}i0",
        f"text {PRINTED[:-3]}1g0i0",
        "text i0",
        f"text {PRINTED[1:]}i0",
    )


def answer(row):
    """The lines that have to be printed for a row."""
    word, rest = row.split(" ", 1)
    if word == "script":
        return list(script_lines(bytes_from(rest)))
    if word == "items":
        # where a push is cut the items end before it
        return [f"{sum(item is not None for item in items(bytes_from(rest)))} items"]
    if word == "envelopes":
        found = [pushes for pushes, _ in envelopes(bytes_from(rest))]
        # an empty push in a tag's place begins a body
        return [
            f"{len(found)} envelopes, {sum(b'' in pushes[::2] for pushes in found)} with a body"
        ]
    if word == "value":
        return [" " + (id_of(bytes.fromhex(rest.replace("-", ""))) or "none")]
    is_id = re.fullmatch(r"[0-9a-f]{64}i(0|[1-9][0-9]*)", rest) and int(rest[65:]) < 2**32
    return [" " + (rest if is_id else "none")]
