"""Rows of ox_block_rows: the frames that a leader and a follower exchange, by docs/FORMATS.md
("Frames"). It reads and writes frames on its own.
"""

import struct

KINDS = {1: "base", 2: "step", 3: "have", 4: "level"}
LONGEST = 4_294_967_315
LENGTHS = {1: (20, LONGEST), 2: (17, LONGEST - 3), 3: (17, 17), 4: (17, 17)}
MOST_SHOWN = 200


def shown(data):
    return data.hex() if len(data) <= MOST_SHOWN else f"({len(data)} bytes)"


def front(length, kind, generation, place):
    return struct.pack("<QBQQ", length, kind, generation, place)


def base(generation, body, profile=3, depth=100, place=0):
    inside = struct.pack("<BH", profile, depth) + body
    return front(17 + len(inside), 1, generation, place) + inside


def step(generation, place, payload):
    return front(17 + len(payload), 2, generation, place) + payload


def have(generation, place):
    return front(17, 3, generation, place)


def level(generation, place):
    return front(17, 4, generation, place)


def first(data):
    """How many bytes the frame at the front has, 0 where there is none, or None."""
    if len(data) < 8:
        return None
    length = int.from_bytes(data[:8], "little")
    if not 17 <= length <= LONGEST:
        return 0
    if len(data) < 9:
        return None
    least, most = LENGTHS.get(data[8], (1, 0))
    if not least <= length <= most:
        return 0
    if data[8] == 1 and len(data) >= 25 and any(data[17:25]):
        return 0
    return 8 + length if len(data) >= 8 + length else None


def line(frame):
    """What is printed of a whole frame."""
    generation, place = struct.unpack("<QQ", frame[9:25])
    parts, head = "", 25
    if frame[8] == 1:
        profile, depth = struct.unpack("<BH", frame[25:28])
        parts, head = f"profile {profile} depth {depth} ", 28
    name = KINDS[frame[8]]
    return (
        f"{parts}{name} {generation} {place} {shown(frame[head:])} takes {len(frame)}"
        f" front {frame[:head].hex()}"
    )


def frames(data):
    """What is printed of frames one after another."""
    lines = []
    while used := first(data):
        lines.append(line(data[:used]))
        data = data[used:]
    return lines + ["bad" if used == 0 else f"left {len(data)}"]


def pieces(each, data):
    """What is printed of the same bytes, so many more at a time."""
    for heard in range(each, len(data) + each, each):
        used = first(data[:heard])
        if used is not None:
            what = line(data[:used]) if used else "bad"
            return [f"{min(heard, len(data))}: {what}"]
    return ["more"]


def word(part):
    """A word for bytes, or for a number and bytes."""
    times, data = part if isinstance(part, tuple) else (1, part)
    return (f"{times}*" if times != 1 else "") + (data.hex() or "-")


def whole(part):
    return part[0] * part[1] if isinstance(part, tuple) else part


class Frames:
    """Rows, put behind others."""

    def __init__(self, made):
        self.made = made

    def row(self, *parts, each=1):
        """Some bytes: the frames in them, and what stands at their front as they come."""
        words = " ".join(map(word, parts))
        data = b"".join(map(whole, parts))
        self.made.add(f"frames {words}", frames(data))
        self.made.add(f"pieces {each} {words}", pieces(each, data))

    def cuts(self, frame):
        """A frame cut at each byte, with nothing behind it: it is whole at its end alone."""
        for size in range(len(frame)):
            self.made.add(f"frames {word(frame[:size])}", frames(frame[:size]))
        self.row(frame)


EACH_KIND = (
    base(2, b"body"),
    base(1, b"", profile=0, depth=65_535),
    step(1, 0, b"payload"),
    step(2**64 - 1, 2**64 - 1, b""),
    have(1, 0),
    level(7, 64),
)


def of_stores(made):
    """The frames of a leader and a follower on regtest."""
    made.says("frames: of two stores, a Have, a Step and a Level")
    rows = Frames(made)
    rows.row(bytes.fromhex("11000000000000000301000000000000000000000000000000"))
    rows.row(bytes.fromhex("d500000000000000"), bytes([2]), struct.pack("<QQ", 1, 0), (196, b"p"))
    rows.row(level(1, 1))


def of_each_kind(made):
    rows = Frames(made)
    made.says("frames: of each kind, cut at each byte")
    for frame in EACH_KIND:
        rows.cuts(frame)
    made.says("frames: two in a row, and what stands behind them")
    for frame in EACH_KIND:
        for behind in (have(3, 4), frame, b"\x11", bytes(8), base(9, b"", place=1)):
            rows.row(frame, behind)
    rows.row(*EACH_KIND)


def of_lengths(made):
    """Each bound of a length and its neighbours, with and without the byte of the kind."""
    rows = Frames(made)
    made.says("frames: lengths, with and without a kind")
    bounds = [0, 1, 16, 17, 18, 19, 20, 21, LONGEST - 4, LONGEST - 3, LONGEST - 2, LONGEST - 1]
    bounds += [LONGEST, LONGEST + 1, 2**32 - 1, 2**32, 2**33, 2**63, 2**64 - 1, 17 << 56]
    for length in bounds:
        size = struct.pack("<Q", length)
        rows.row(size)
        for kind in (0, 1, 2, 3, 4, 5, 255):
            rows.row(size, bytes([kind]))
            rows.row(size, bytes([kind]), struct.pack("<QQ", 1, 0), b"1234")


def of_places(made):
    """A base's place, each byte of it other than 0."""
    rows = Frames(made)
    made.says("frames: the place of a base, and of the others")
    for byte in range(8):
        place = 1 << 8 * byte
        for cut in (17, 24, 25, 27, 28, 32):
            rows.row(base(2, b"body", place=place)[:cut])
        for frame in (step(2, place, b"a"), have(2, place), level(2, place)):
            rows.row(frame)
    rows.row(base(2, b"body", place=2**64 - 1))


def long_ones(made):
    rows = Frames(made)
    made.says("frames: long ones, in pieces")
    rows.row(front(17 + 70_000, 2, 1, 5), (7_000, b"0123456789"), have(1, 6), each=999)
    rows.row(front(17 + 70_000, 2, 1, 5), (6_999, b"0123456789"), b"012345678", each=1)
    rows.row(front(20 + 3_999_972, 1, 4, 0), b"\x03\x64\x00", (3_999_972, b"b"), each=1_000)
    rows.row(front(20 + 3_999_972, 1, 4, 0), b"\x03\x64\x00", (3_999_971, b"b"), each=1_000)


def frame_rows(made):
    of_stores(made)
    of_each_kind(made)
    of_lengths(made)
    of_places(made)
    long_ones(made)
