"""The rows of crates/ox_block_rows about addresses, and what has to be printed for them.

It reads and writes segwit addresses as the reference decoder of BIP 173 and BIP 350 does, bit by
bit and with lists, and shares nothing with the library. It asserts first that it agrees with the
vectors of both BIPs.
"""


LETTERS = "qpzry9x8gf2tvdw0s3jn54khce6mua7l"
BECH32M = 0x2BC830A3

# text, script: valid by BIP 350
VALID = [
    ("BC1QW508D6QEJXTDG4Y5R3ZARVARY0C5XW7KV8F3T4", "0014751e76e8199196d454941c45d1b3a323f1433bd6"),
    (
        "tb1qrp33g0q5c5txsp9arysrx4k6zdkfs4nce4xj0gdcccefvpysxf3q0sl5k7",
        "00201863143c14c5166804bd19203356da136c985678cd4d27a1b8c6329604903262",
    ),
    (
        "bc1pw508d6qejxtdg4y5r3zarvary0c5xw7kw508d6qejxtdg4y5r3zarvary0c5xw7kt5nd6y",
        "5128751e76e8199196d454941c45d1b3a323f1433bd6751e76e8199196d454941c45d1b3a323f1433bd6",
    ),
    ("BC1SW50QGDZ25J", "6002751e"),
    ("bc1zw508d6qejxtdg4y5r3zarvaryvaxxpcs", "5210751e76e8199196d454941c45d1b3a323"),
    (
        "tb1qqqqqp399et2xygdj5xreqhjjvcmzhxw4aywxecjdzew6hylgvsesrxh6hy",
        "0020000000c4a5cad46221b2a187905e5266362b99d5e91c6ce24d165dab93e86433",
    ),
    (
        "tb1pqqqqp399et2xygdj5xreqhjjvcmzhxw4aywxecjdzew6hylgvsesf3hn0c",
        "5120000000c4a5cad46221b2a187905e5266362b99d5e91c6ce24d165dab93e86433",
    ),
    (
        "bc1p0xlxvlhemja6c4dqv22uapctqupfhlxm9h8z3k2e72q4k9hcz7vqzk5jj0",
        "512079be667ef9dcbbac55a06295ce870b07029bfcdb2dce28d959f2815b16f81798",
    ),
]

# invalid by BIP 350, or valid by BIP 173 alone
INVALID = """
tc1p0xlxvlhemja6c4dqv22uapctqupfhlxm9h8z3k2e72q4k9hcz7vq5zuyut
bc1p0xlxvlhemja6c4dqv22uapctqupfhlxm9h8z3k2e72q4k9hcz7vqh2y7hd
tb1z0xlxvlhemja6c4dqv22uapctqupfhlxm9h8z3k2e72q4k9hcz7vqglt7rf
BC1S0XLXVLHEMJA6C4DQV22UAPCTQUPFHLXM9H8Z3K2E72Q4K9HCZ7VQ54WELL
bc1qw508d6qejxtdg4y5r3zarvary0c5xw7kemeawh
tb1q0xlxvlhemja6c4dqv22uapctqupfhlxm9h8z3k2e72q4k9hcz7vq24jc47
bc1p38j9r5y49hruaue7wxjce0updqjuyyx0kh56v8s25huc6995vvpql3jow4
BC130XLXVLHEMJA6C4DQV22UAPCTQUPFHLXM9H8Z3K2E72Q4K9HCZ7VQ7ZWS8R
bc1pw5dgrnzv
bc1p0xlxvlhemja6c4dqv22uapctqupfhlxm9h8z3k2e72q4k9hcz7v8n0nx0muaewav253zgeav
BC1QR508D6QEJXTDG4Y5R3ZARVARYV98GJ9P
tb1p0xlxvlhemja6c4dqv22uapctqupfhlxm9h8z3k2e72q4k9hcz7vq47Zagq
bc1p0xlxvlhemja6c4dqv22uapctqupfhlxm9h8z3k2e72q4k9hcz7v07qwwzcrf
tb1p0xlxvlhemja6c4dqv22uapctqupfhlxm9h8z3k2e72q4k9hcz7vpggkg4j
bc1gmk9yu
bc1pw508d6qejxtdg4y5r3zarvary0c5xw7kw508d6qejxtdg4y5r3zarvary0c5xw7k7grplx
BC1SW50QA3JX3S
bc1zw508d6qejxtdg4y5r3zarvaryvg6kdaj
tc1qw508d6qejxtdg4y5r3zarvary0c5xw7kg3g4ty
bc1qw508d6qejxtdg4y5r3zarvary0c5xw7kv8f3t5
BC13W508D6QEJXTDG4Y5R3ZARVARY0C5XW7KN40WF2
bc1rw5uspcuh
bc10w508d6qejxtdg4y5r3zarvary0c5xw7kw508d6qejxtdg4y5r3zarvary0c5xw7kw5rljs90
tb1qrp33g0q5c5txsp9arysrx4k6zdkfs4nce4xj0gdcccefvpysxf3q0sL5k7
bc1zw508d6qejxtdg4y5r3zarvaryvqyzf3du
tb1qrp33g0q5c5txsp9arysrx4k6zdkfs4nce4xj0gdcccefvpysxf3pjxtptv
A12UEL5L
a12uel5l
A1LQFN3A
a1lqfn3a
A1G7SGD8
x1b4n0q5v
li1dgmt3
y1b0jsk6g
lt1igcx5c0
in1muywd
mm1crxm3i
au1s5cgom
M1VUXWEZ
""".split()


def polymod(values):
    sum_ = 1
    for value in values:
        top = sum_ >> 25
        sum_ = (sum_ & 0x1FFFFFF) << 5 ^ value
        for place, generator in enumerate(
            (0x3B6A57B2, 0x26508E6D, 0x1EA119FA, 0x3D4233DD, 0x2A1462B3)
        ):
            sum_ ^= generator if top >> place & 1 else 0
    return sum_


def expanded(hrp):
    return [ord(c) >> 5 for c in hrp] + [0] + [ord(c) & 31 for c in hrp]


def regrouped(values, width, to, padded):
    """Bits of one width in another; None where what is left over is no filling."""
    bits = "".join(format(value, f"0{width}b") for value in values)
    if padded:
        bits += "0" * (-len(bits) % to)
    elif len(bits) % to >= width or "1" in bits[len(bits) - len(bits) % to :]:
        return None
    return [int(bits[at : at + to], 2) for at in range(0, len(bits) - to + 1, to)]


def is_program(version, program):
    return version <= 16 and 2 <= len(program) <= 40 and (version or len(program) in (20, 32))


def written(hrp, script):
    """The address of a script, or None."""
    if (
        len(script) < 2
        or script[1] != len(script) - 2
        or not (script[0] == 0 or 0x51 <= script[0] <= 0x60)
    ):
        return None
    version = script[0] and script[0] - 0x50
    if not is_program(version, script[2:]):
        return None
    return spelled(hrp, [version] + regrouped(script[2:], 8, 5, True), BECH32M if version else 1)


def spelled(hrp, symbols, wanted):
    """A text with the checksum that makes the polynomial this."""
    sum_ = polymod(expanded(hrp) + symbols + [0] * 6) ^ wanted
    return (
        hrp
        + "1"
        + "".join(LETTERS[s] for s in symbols + [sum_ >> 5 * (5 - i) & 31 for i in range(6)])
    )


def read(hrp, text):
    """The script of a text, or None."""
    if any(byte < 33 or byte > 126 for byte in text):
        return None
    text = text.decode("ascii")
    if text.lower() != text and text.upper() != text:
        return None
    text = text.lower()
    at = text.rfind("1")
    if at < 1 or at + 7 > len(text) or len(text) > 90 or text[:at] != hrp:
        return None
    if any(c not in LETTERS for c in text[at + 1 :]):
        return None
    symbols = [LETTERS.index(c) for c in text[at + 1 :]]
    sum_ = polymod(expanded(hrp) + symbols)
    symbols = symbols[:-6]
    if not symbols or sum_ != (BECH32M if symbols[0] else 1):
        return None
    program = regrouped(symbols[1:], 5, 8, False)
    if program is None or not is_program(symbols[0], program):
        return None
    return bytes([symbols[0] and symbols[0] + 0x50, len(program)] + program)


class Addresses:
    def __init__(self):
        self.rows, self.lines = [], []

    def write(self, hrp, script):
        self.rows.append(f"write {hrp} {script.hex() or '-'}")
        text = written(hrp, script)
        shown = "no segwit script" if text is None else f"{text} {len(text)}"
        self.lines.append(f"{shown}, untouched: true")

    def read(self, hrp, text):
        text = text if isinstance(text, bytes) else text.encode("ascii")
        self.rows.append(f"read {hrp} {text.hex() or '-'}")
        script = read(hrp, text)
        shown = "no address" if script is None else f"{script.hex()} {len(script)}"
        self.lines.append(f"{shown}, untouched: true")

    def tried(self, work, hrp, text, others):
        """Texts that are like this one but for some bytes: those that are addresses, and how many
        aren't."""
        self.rows.append(f"{work} {hrp} {text.hex()}")
        refused = 0
        for name, other in others:
            if read(hrp, other) is None:
                refused += 1
            elif other != text or work == "swaps":
                self.lines.append(f"  {name}")
        self.lines.append(f"{refused} refused")

    def changes(self, hrp, text):
        text = text.encode("ascii")
        self.tried(
            "changes",
            hrp,
            text,
            [
                (f"{at} {byte}", text[:at] + bytes([byte]) + text[at + 1 :])
                for at in range(len(text))
                for byte in range(256)
            ],
        )

    def swaps(self, hrp, text):
        text = text.encode("ascii")
        self.tried(
            "swaps",
            hrp,
            text,
            [
                (at, text[: at - 1] + text[at : at + 1] + text[at - 1 : at] + text[at + 1 :])
                for at in range(1, len(text))
            ],
        )

    def repeat(self, work, hrp, script, times):
        self.rows.append(f"repeat {work} {hrp} {script.hex()} {times}")
        texts = [written(hrp, script[:-1] + bytes([turn % 256])) for turn in range(times)]
        lasts = (
            (turn % 256 for turn in range(times))
            if work == "both"
            else (ord(text[-1]) for text in texts)
        )
        self.lines.append(str(sum(lasts)))


def made():
    """Every row, and the lines for them."""
    rows = Addresses()
    for text, script in VALID:
        hrp, script = text[:2].lower(), bytes.fromhex(script)
        assert read(hrp, text.encode()) == script and written(hrp, script) == text.lower(), text
        rows.write(hrp, script)
        rows.read(hrp, text.lower())
        rows.read(hrp, text.upper())
        for other in ("bc", "tb", "bcrt", "lab"):
            rows.read(other, text)
            rows.write(other, script)
            rows.read(other, written(other, script))
            rows.read(other, written(other, script).upper())
    for text in INVALID:
        hrp = text[: text.rfind("1")].lower()
        assert read(hrp, text.encode()) is None or hrp == "tc", text
        for other in {hrp: 0, "bc": 0, "tb": 0}:
            rows.read(other, text)
    # the rows that worked examples give
    first, second = VALID[0][0].lower(), VALID[7][0]
    rows.read("bc", first[:-1] + "5")
    for text in (first, second):
        rows.changes("bc", text)
        rows.changes("bc", text.upper())
        rows.swaps("bc", text)
        # cut at each byte, with a byte more, with a letter of the other case
        for end in range(len(text)):
            rows.read("bc", text[:end])
        for more in ("q", "l", " ", "1"):
            rows.read("bc", text + more)
            rows.read("bc", more + text)
        for at in range(len(text)):
            rows.read("bc", text[:at] + text[at].upper() + text[at + 1 :])
            rows.read("bc", text[:at].upper() + text[at] + text[at + 1 :].upper())
    # each length of program at some versions, written and read with either constant
    for version in (0, 1, 2, 16, 17):
        for size in range(42):
            program = bytes((7 * size + 11 * at + version) % 256 for at in range(size))
            opcode = version and version + 0x50
            rows.write("bc", bytes([opcode, size]) + program)
            symbols = [version] + regrouped(program, 8, 5, True)
            for wanted in (1, BECH32M):
                rows.read("bc", spelled("bc", symbols, wanted))
            # fill bits that aren't zero, and a group more of zeros
            if size % 5:
                rows.read(
                    "bc", spelled("bc", symbols[:-1] + [symbols[-1] ^ 1], BECH32M if version else 1)
                )
            rows.read("bc", spelled("bc", symbols + [0], BECH32M if version else 1))
    # scripts that are almost one
    program = bytes(range(20))
    for opcode in range(256):
        rows.write("bc", bytes([opcode, 20]) + program)
    for size in range(256):
        rows.write("bc", bytes([0x51, size]) + program)
        rows.write("bc", bytes([0, size]) + program)
    for script in (b"", b"\0", b"\x51", b"\0\0", b"\x51\1\0", b"\0\x19" + bytes(25)):
        rows.write("bc", script)
    # human-readable parts of one to four letters, and what is none
    for hrp in ("a", "z", "aa", "zz", "abc", "xyz", "zzzz", "bcrt"):
        for script in (b"\0\x14" + program, b"\x60\x28" + 2 * program):
            rows.write(hrp, script)
            rows.read(hrp, written(hrp, script))
            rows.read(hrp, written(hrp, script).upper())
    for text in ("", "b", "bc", "bc1", "1", "11", "bc1q", "bc1" + 6 * "q", "bc1" + 88 * "q"):
        rows.read("bc", text)
    for hrp in ("", "abcde", "bC", "b1", "BC"):
        rows.rows.append(f"read {hrp} -")
        rows.lines.append("no human-readable part")
    rows.read("bc", bytes(range(128, 170)))
    rows.read("bc", b"bc1" + bytes([0x71 + 128]) * 39)
    for script in (b"\0\x14" + program, b"\x51\x20" + 2 * bytes(16)):
        for work in ("only", "both"):
            rows.repeat(work, "bc", script, 300)
    return rows.rows, rows.lines
