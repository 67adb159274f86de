"""The rows of crates/ox_index_rows that ask a chain, and what has to be printed for them.

It makes blocks by docs/RULES.md and writes down what they have to be replied by docs/FORMATS.md,
with Python's standard library alone. Where a reply names a satoshi, its notations are reckoned
here. It knows hashes, ids and names that were reckoned before the library answered any request,
which it writes down as they are.
"""

import json

from chain import GENESIS, SHORT, block_of, coinbase_to, envelope, id_value, transaction
from rows import Rows, carry, etch, hash_text, id_of, inscription, outpoint, plain, reveal, spend
from rows import scenarios
from rows.scenarios import ETCHES, MINTS_AND_BURNS, TEN, with_a_fee
from tools.bitcoin import SUBSIDY
from tools.runes import kept_name, name_of

OCTETS = "application/octet-stream"
GENESIS_HASH = "000000000019d6689c085ae165831e934ff763ae46a2a6c172b3f1b60a8ce26f"
GENESIS_TXID = "4a5e1e4baab89f3a32518a88c31bc87f618f76673e2cc77ab2127b7afdeda33b"
LAB_SUPPLY = 99_999_999_890
LAB_JUBILEE = 6
# the marks of an inscription behind another of its input, on the same satoshi
BEHIND = ("offset", "reinscription")
# an envelope of the type a, whose tag is pushed as a number
PUSHNUM = bytes.fromhex("0063036f726451016168")
GOODS = 2_055_900_680_524_219_742
# in 32 or in 64 bits 0, or 0 once it is a hundred times as much
WRAPS = ("1073741824", "4294967296", "4611686018427387904", "9223372036854775808")


def checksum(body):
    total = 0
    for byte in body:
        total = (total * 1_000_003 + byte) % 2**64
    return total


class Queries(Rows):
    """The rows of requests, and their replies."""

    def case(self, what, profile="lab", depth=100):
        """What the rows behind show, by a chain of this profile."""
        self.begin(what, f"chain {profile} {depth}")

    def asks(self, row, body, status=200, kind="application/json", encoding=None, close=False):
        """A request of this row is replied so; a body is a text or bytes."""
        head = f"{status}{' close' if close else ''} <{kind}>" + (
            f" <{encoding}>" if encoding is not None else ""
        )
        text = body
        if isinstance(body, bytes):
            text = (
                body.decode() if len(body) <= 20_000 and printable(body) else f"(hex) {body.hex()}"
            )
            text = f"({len(body)} bytes, checksum {checksum(body)})" if len(body) > 20_000 else text
        self.row(row, f"{head} {text}")

    def says(self, path, tree):
        """A GET of the path is replied this tree, compact and with sorted keys; a text is the body
        itself."""
        text = (
            tree
            if isinstance(tree, str)
            else json.dumps(tree, ensure_ascii=False, sort_keys=True, separators=(",", ":"))
        )
        self.asks(f"GET {path}", text.encode())

    def fails(self, status, row):
        self.asks(row, f'{{"error":{status}}}', status)

    def lacks(self, *paths):
        for path in paths:
            self.fails(404, f"GET {path}")

    def content(self, tx, body, kind=OCTETS, encoding=None, index=0):
        self.asks(f"GET /content/{inscription(tx, index)}", body, kind=kind, encoding=encoding)

    def inscription(self, tx, index=0, marks=(), **fields):
        """What `/inscription` says of a lab chain: these marks and fields, and nothing of what
        isn't named. The sequence is the number where no other is named."""
        tree = dict.fromkeys(
            (
                "content_length",
                "content_type",
                "delegate",
                "encoding",
                "metadata",
                "metaprotocol",
                "place",
                "sat",
            )
        )
        tree |= {
            "children": [],
            "id": inscription(tx, index),
            "marks": list(marks),
            "parents": [],
            "sequence": fields["number"],
        }
        below = fields["height"] < LAB_JUBILEE
        tree |= {"cursed": below and bool(marks), "vindicated": not below and bool(marks), **fields}
        self.says(f"/inscription/{tree['id']}", tree)

    def output(self, at, height, ranges, inscriptions=(), runes=(), script=SHORT):
        value = sum(end - first for first, end in ranges)
        tree = {
            "height": height,
            "inscriptions": list(inscriptions),
            "ranges": ranges,
            "runes": list(runes),
        }
        self.says(f"/output/{at}", tree | {"script": script.hex(), "value": value})

    def satoshi(self, number, inscriptions, place):
        """What `/sat` says of one of the first ten heights of a lab chain."""
        tree = lab_notations(number)
        self.says(
            f"/sat/{number}",
            tree | {"inscriptions": inscriptions, "number": number, "place": place},
        )

    def audit(self, claimable, lost, runes=()):
        tree = {
            "claimable": claimable,
            "lost": lost,
            "outputs": claimable - lost,
            "runes": list(runes),
        }
        self.says("/audit", tree)


def printable(body):
    try:
        return "\n" not in body.decode()
    except UnicodeDecodeError:
        return False


def lab_notations(number):
    """The notations of a satoshi of the first ten heights of a lab chain."""
    height, offset = divmod(number, SUBSIDY)
    assert height < 10
    name, left = "", LAB_SUPPLY - number
    while left > 0:
        name = "abcdefghijklmnopqrstuvwxyz"[(left - 1) % 26] + name
        left = (left - 1) // 26
    rarity = "common" if offset else "uncommon" if height else "mythic"
    degree = f"{height // 60}°{height % 10}′{height % 12}″{offset}‴"
    return {"decimal": f"{height}.{offset}", "degree": degree, "name": name, "rarity": rarity}


def at(tx, offset, index=0):
    """A place in an output."""
    return {"offset": offset, "outpoint": outpoint(tx, index)}


def ids(tx, *indices):
    return [inscription(tx, index) for index in indices]


# What there is without inscriptions and runes.


def chains(rows):
    rows.case("an empty chain has its status", "regtest")
    rows.says("/status", '{"blocks":0,"depth":100,"kept":0,"profile":"regtest","tip":null}')
    rows.case("a satoshi that isn't minted is nowhere", "regtest")
    for spelling in ("satoshi", "3891094.16797", "2099994106992659"):
        rows.says(
            f"/sat/{spelling}",
            '{"decimal":"3891094.16797","degree":"3°111094′214″16797‴","inscriptions":[],'
            '"name":"satoshi","number":2099994106992659,"place":null,"rarity":"common"}',
        )
    rows.case("the last satoshi is below the supply", "mainnet")
    rows.says(
        "/sat/2099999997689999",
        '{"decimal":"6929999.0","degree":"5°209999′1007″0‴","inscriptions":[],"name":"a",'
        '"number":2099999997689999,"place":null,"rarity":"uncommon"}',
    )
    rows.lacks("/sat/2099999997690000")


def genesis(rows, what):
    """Mainnet's chain of one block."""
    rows.case(what, "mainnet")
    rows.takes(GENESIS.hex(), bytes.fromhex(GENESIS_HASH)[::-1])


def first_block(rows):
    genesis(rows, "the first satoshi stands in the first output, which is told as is its block")
    rows.says(
        "/sat/0",
        '{"decimal":"0.0","degree":"0°0′0″0‴","inscriptions":[],"name":"nvtdijuwxlp",'
        f'"number":0,"place":{{"offset":0,"outpoint":"{GENESIS_TXID}:0"}},"rarity":"mythic"}}',
    )
    rows.says(
        f"/output/{GENESIS_TXID}:0",
        '{"height":0,"inscriptions":[],"ranges":[[0,5000000000]],"runes":[],'
        '"script":"4104678afdb0fe5548271967f1a67130b7105cd6a828e03909a67962e0ea1f61deb649f6bc3f4'
        'cef38c4f35504e51ec112de5c384df7ba0b8d578a4c702b6bf11d5fac","value":5000000000}',
    )
    rows.says("/blockhash/0", f'{{"hash":"{GENESIS_HASH}","height":0}}')
    genesis(rows, "what a part doesn't name is missing")
    rows.lacks("", "//status", "/status/", "/sat/", "/sat/a/b", "/blockhash/00", "/blockhash/1")
    rows.fails(404, "hex GET 2f7361742fff")
    rows.lacks(
        "/blockhash/4294967296",
        "/blockhash/18446744073709551616",
        f"/output/{GENESIS_TXID.upper()}:0",
    )
    rows.lacks(
        *(
            f"/output/{part}"
            for part in (f"{GENESIS_TXID[1:]}:0", f"{GENESIS_TXID}:1", f"{GENESIS_TXID}:4294967296")
        )
    )
    genesis(rows, "what isn't indexed is missing")
    rows.lacks(f"/inscription/{GENESIS_TXID}i0", f"/content/{GENESIS_TXID}i0", "/rune/2:0")


def methods(rows):
    rows.case("a method that a route hasn't is refused", "regtest")
    asked = (
        "/status",
        "/audit",
        "/blockhash/0",
        "/output/a",
        "/sat/a",
        "/inscription/a",
        "/content/a",
        "/inscriptions/0",
    )
    for path in (*asked, "/rune/A", "/runes/0"):
        rows.fails(405, f"POST {path}")
        rows.fails(405, f"PUT {path}")
    for path in ("/connect", "/disconnect"):
        rows.fails(405, f"GET {path}")
        rows.fails(405, f"PUT {path}")
    rows.case("commands are forbidden and other paths missing", "regtest")
    rows.fails(403, "POST /connect")
    rows.fails(403, "POST /disconnect")
    rows.fails(404, "POST /statuses")
    rows.fails(404, "PUT /connect/")
    rows.case("a reply closes as asked")
    status = '{"blocks":0,"depth":100,"kept":0,"profile":"lab","tip":null}'
    rows.asks("close GET /status", status, close=True)
    rows.says("/status", status)
    for status, row in (
        (404, "GET /sat/"),
        (405, "GET /connect"),
        (403, "POST /connect"),
        (404, "GET /"),
    ):
        rows.asks(f"close {row}", f'{{"error":{status}}}', status, close=True)


def satoshis(rows):
    rows.case("ranges are the longest and end past their last", "regtest")
    with_a_fee(rows, 7_000_000_000)
    rows.says(
        "/output/499a4e33c048532914c30aec9870ad65ef5fda85e0dc4d91ccb0edb8e144ef4f:0",
        '{"height":2,"inscriptions":[],"ranges":[[10000000000,15000000000],[3000000000,'
        '5000000000]],"runes":[],"script":"51","value":7000000000}',
    )
    rows.says(
        "/blockhash/2",
        '{"hash":"ea49e7d6c555592acf35427d99ddbac372977baa6e13288fa151ff194fc25e73","height":2}',
    )
    rows.case("a satoshi that no output took is lost", "regtest")
    with_a_fee(rows, 6_000_000_000)
    rows.says(
        "/sat/4000000000",
        '{"decimal":"0.4000000000","degree":"0°0′0″4000000000‴","inscriptions":[],'
        '"name":"nvtcvldrvrt","number":4000000000,"place":{"lost":0},"rarity":"common"}',
    )
    tip = "810b814d6c84a3dae900256420e834450c567fdaf65d7f748512ea5880123bd6"
    rows.says("/status", f'{{"blocks":3,"depth":100,"kept":3,"profile":"regtest","tip":"{tip}"}}')
    rows.case("a status tells how many blocks are kept", "regtest", 2)
    with_a_fee(rows, 6_000_000_000)
    rows.says("/status", f'{{"blocks":3,"depth":2,"kept":2,"profile":"regtest","tip":"{tip}"}}')
    rows.disconnects()
    rows.says(
        "/status",
        {"blocks": 2, "depth": 2, "kept": 1, "profile": "regtest", "tip": hash_text(rows.tip())},
    )


# Audits.


def audits(rows):
    rows.case("an audit tells what is lost", "regtest")
    with_a_fee(rows, 6_000_000_000)
    rows.says(
        "/audit", '{"claimable":15000000000,"lost":1000000000,"outputs":14000000000,"runes":[]}'
    )
    rows.case(
        "what an equal coinbase displaces is lost, and a disconnect brings it back", "regtest"
    )
    rows.connects(plain(0))
    rows.connects(plain(0))
    path = f"/output/{outpoint(plain(0))}"
    output = (
        '{{"height":{},"inscriptions":[],"ranges":[{}],"runes":[],"script":"51",'
        '"value":5000000000}}'
    )
    rows.says(
        "/audit", '{"claimable":10000000000,"lost":5000000000,"outputs":5000000000,"runes":[]}'
    )
    rows.says(path, output.format(1, "[5000000000,10000000000]"))
    rows.disconnects()
    rows.says("/audit", '{"claimable":5000000000,"lost":0,"outputs":5000000000,"runes":[]}')
    rows.says(path, output.format(0, "[0,5000000000]"))
    rows.case("a refused block changes no audit", "regtest")
    rows.plain(2)
    before = '{"claimable":10000000000,"lost":0,"outputs":10000000000,"runes":[]}'
    rows.says("/audit", before)
    spends = [transaction([spend(plain(0))], [(value, SHORT)]) for value in (SUBSIDY, SUBSIDY - 1)]
    rows.refuses(f"refused 8 2 0 {outpoint(plain(0))}", plain(2), *spends)
    rows.says("/audit", before)
    rows.case("an audit tells where each rune is")
    etches = etch(rows, ETCHES)
    rows.says(
        "/audit",
        '{"claimable":20000000000,"lost":0,"outputs":20000000000,"runes":'
        '[{"burned":"0","held":"7","id":"3:1","minted":"0","premine":"7"}]}',
    )
    rows.extend(carry(etches, MINTS_AND_BURNS))
    rows.says(
        "/audit",
        '{"claimable":25000000000,"lost":0,"outputs":25000000000,"runes":'
        '[{"burned":"12","held":"0","id":"3:1","minted":"5","premine":"7"}]}',
    )


# Runes.

NAME = "AAAAAAAAAAAAAAAAAAABPSMAJTP"
SPACED = "A•AA•AAAAAAAAAAAAAAAABPSMAJTP"
# with a premine of 1234, two decimals, spacers behind the first letter and the third, the symbol
# U+20AC, a cap of 2, an amount of 5, mints from two blocks later on, and the end 9
TERMS = "6a5d1402030102030505ac4106d20908020a050e091002"
TERMS_TXID = "3d9239e6a714cf00f672835853445e98d2993d4746773347d1cfd2a807ae7b7d"


def shares(rows, stone, txid, amounts):
    """A premine of 10, and how an edict splits it among three outputs."""
    scenarios.edicts(rows, stone)
    for index, amount in enumerate(amounts):
        rows.says(
            f"/output/{txid}:{index}",
            f'{{"height":4,"inscriptions":[],"ranges":[[{index},{index + 1}]],'
            f'"runes":[{{"amount":"{amount}","id":"3:1","name":"{NAME}","shown":"{amount}"}}],'
            '"script":"51","value":1}',
        )


def edicts(rows):
    rows.case("an output tells what an edict split")
    shares(
        rows,
        "6a5d050003010004",
        "e0937fbcad91a681a26d79a9336ec4acf7ebc8fec2463a280cc0e355d319f77b",
        (4, 3, 3),
    )
    rows.case("an output tells what an edict gave while it lasted")
    shares(
        rows,
        "6a5d050003010404",
        "cafcac2fb8f506ea54b2bc431132b5e0a6677a653f15e434be798c819cfbb126",
        (4, 4, 2),
    )


def with_terms(mintable):
    return (
        f'{{"amount":"5","burned":"0","cap":"2","divisibility":2,"etching":"{TERMS_TXID}",'
        f'"height":[null,9],"held":"1234","id":"3:1","mintable":{mintable},"mints":"0",'
        f'"name":"{SPACED}","number":0,"offset":[2,null],"premine":"1234","symbol":"€"}}'
    )


def terms(rows):
    rows.case("a mint is open for the next block")
    etch(rows, TERMS)
    rows.says("/rune/3:1", with_terms("false"))
    rows.plain(5)
    rows.says("/rune/3:1", with_terms("true"))
    rows.case("an output shows its runes with decimals")
    etch(rows, TERMS)
    rows.says(
        f"/output/{TERMS_TXID}:0",
        '{"height":3,"inscriptions":[],"ranges":[[0,5000000000]],"runes":[{"amount":"1234",'
        f'"id":"3:1","name":"{SPACED}","shown":"12.34"}}],"script":"51","value":5000000000}}',
    )


def two_runes(rows):
    rows.case("an output that holds two runes tells both by id")
    first = etch(rows, ETCHES)
    second = carry(first, TEN)
    rows.extend(second)
    later = name_of(kept_name(4, 1))
    balances = [
        {"amount": "7", "id": "3:1", "name": NAME, "shown": "7"},
        {"amount": "10", "id": "4:1", "name": later, "shown": "10"},
    ]
    rows.output(outpoint(second), 4, [[0, SUBSIDY]], runes=balances)
    rows.lacks(f"/output/{outpoint(first)}")
    rows.says("/runes/0", {"ids": ["3:1", "4:1"], "more": False, "page": 0})
    audited = [{"burned": "0", "held": "7", "id": "3:1", "minted": "0", "premine": "7"}]
    audited += [{"burned": "0", "held": "10", "id": "4:1", "minted": "0", "premine": "10"}]
    rows.audit(5 * SUBSIDY, 0, audited)


def names(rows):
    rows.case("a name is found once it is etched, whose commitment has stood for six blocks")

    def early(tx):
        rows.lacks("/rune/LABTESTS")

    def late(tx):
        for name in ("LABTESTS", "LAB.TESTS"):
            rows.says(
                f"/rune/{name}",
                '{"amount":null,"burned":"0","cap":null,"divisibility":0,"etching":'
                '"1f403840af044d5a472563e4ed051e66677c2dfab6f369a90ac6d1b032826126","height":null,'
                '"held":"0","id":"9:1","mintable":false,"mints":"0","name":"LABTESTS","number":0,'
                '"offset":null,"premine":"0","symbol":null}',
            )

    scenarios.names(rows, early, late)
    rows.case("spacers aren't compared", "mainnet")
    spelled = (
        "UNCOMMON.GOODS",
        "UNCOMMONGOODS",
        "UNCOMMON•GOODS",
        "UNCOMMON%E2%80%A2GOODS",
        "U.NCOMMON%E2%80%A2GOOD•S",
    )
    for part in ("1:0", *spelled):
        rows.says(
            f"/rune/{part}",
            '{"amount":"1","burned":"0","cap":"340282366920938463463374607431768211455",'
            '"divisibility":0,'
            '"etching":"0000000000000000000000000000000000000000000000000000000000000000",'
            '"height":[840000,1050000],"held":"0","id":"1:0","mintable":false,"mints":"0",'
            '"name":"UNCOMMON•GOODS","number":0,"offset":[null,null],"premine":"0","symbol":"⧉"}',
        )
    rows.case("what is spelled otherwise names no rune", "mainnet")
    for part in (
        "",
        ":",
        "1:",
        ":0",
        "01:0",
        "1:00",
        "1:0:0",
        "1:1",
        "1:4294967296",
        "18446744073709551617:0",
    ):
        rows.lacks(f"/rune/{part}")
    for name in (
        "uncommongoods",
        "UNCOMMON..GOODS",
        ".UNCOMMONGOODS",
        "UNCOMMONGOODS.",
        "UNCOMMON%e2%80%a2GOODS",
    ):
        rows.lacks(f"/rune/{name}")
    rows.lacks("/rune/UNCOMMON%E2%80%A2.GOODS", "/rune/" + 29 * "A")
    rows.case("without runes none is named", "regtest")
    rows.lacks("/rune/1:0", "/rune/UNCOMMON.GOODS")
    rows.says("/audit", '{"claimable":0,"lost":0,"outputs":0,"runes":[]}')


def pages_of_runes(rows):
    rows.case("pages of runes past the end have no ids", "mainnet")
    rows.says("/runes/0", '{"ids":["1:0"],"more":false,"page":0}')
    for page in ("1", "7", "184467440737095517", "18446744073709551615"):
        rows.says(f"/runes/{page}", f'{{"ids":[],"more":false,"page":{page}}}')
    rows.lacks("/runes/00", "/runes/-1", "/runes/", "/runes/18446744073709551616")


# Inscriptions.

# an unknown even tag, the type text/plain and the content hi
UNBOUND = bytes.fromhex("0063036f72640142017801010a746578742f706c61696e0002686968")
PAST = ("2", "7", "42949673", "184467440737095516", "184467440737095517", "18446744073709551615")


def reveal_in_a_block(rows, tapscript):
    """Seven blocks, in the last of which a transaction spends the first one's coinbase by a
    tapscript; that transaction."""
    rows.plain(6)
    tx = reveal(plain(0), tapscript)
    rows.extend(tx)
    return tx


def past(rows):
    """Pages past the end are empty."""
    for page in PAST:
        rows.says(f"/inscriptions/{page}", f'{{"ids":[],"more":false,"page":{page}}}')


def one_inscription(rows):
    rows.case("an unbound inscription is nowhere")
    tx = reveal_in_a_block(rows, UNBOUND)
    rows.inscription(
        tx, marks=["even"], content_length=2, content_type="text/plain", height=6, number=0
    )
    rows.content(tx, b"hi", "text/plain")
    rows.case("ids and pages are read as they are written")
    txid = hash_text(id_of(reveal_in_a_block(rows, envelope())))
    for end in ("i1", "i00", "i", "i4294967296", "i4294967295", "i+0", "I0", ":0", "i0i0", ""):
        rows.lacks(f"/inscription/{txid}{end}", f"/content/{txid}{end}")
    rows.lacks(
        *(
            f"/inscriptions/{page}"
            for page in ("01", "+0", "-1", "18446744073709551616", "0x0", "", "0/")
        )
    )
    past(rows)
    rows.says("/inscriptions/0", {"ids": [f"{txid}i0"], "more": False, "page": 0})


def pages_of_inscriptions(rows):
    rows.case("an empty index has empty pages")
    past(rows)
    rows.says("/inscriptions/0", '{"ids":[],"more":false,"page":0}')
    for what, many in (("a page has a hundred", 200), ("the next page may have one", 101)):
        rows.case(what)
        tx = reveal_in_a_block(rows, many * envelope())
        rows.says("/inscriptions/0", {"ids": ids(tx, *range(100)), "more": True, "page": 0})
        rows.says("/inscriptions/1", {"ids": ids(tx, *range(100, many)), "more": False, "page": 1})
        past(rows)


def texts(rows):
    rows.case("a head has printable text alone, and a field is text where it is UTF-8")
    types = [b"", b"a\nb", b"~", b"\x7f", b"\xff", b" "]
    encodings = [b"br", b"b\nr", b""]
    script = b"".join(envelope([(1, value)], b"a") for value in types)
    script += b"".join(envelope([(9, value)], b"a") for value in encodings)
    tx = reveal_in_a_block(rows, script + envelope([(5, b"\0\xff"), (7, b"m")], b""))
    kinds = [OCTETS, OCTETS, "~", OCTETS, OCTETS, " ", OCTETS, OCTETS, OCTETS]
    for index, kind in enumerate(kinds):
        rows.content(tx, b"a", kind, "br" if index == 6 else None, index=index)
    rows.content(tx, b"", index=9)
    one = {"content_length": 1, "height": 6, "place": at(tx, 0), "sat": 0}
    told = ["", "a\nb", "~", "\x7f", None, " "]
    for index, text in enumerate(told):
        rows.inscription(tx, index, BEHIND if index else (), content_type=text, number=index, **one)
    for index, text in enumerate(["br", "b\nr", ""], 6):
        rows.inscription(tx, index, BEHIND, encoding=text, number=index, **one)
    last = one | {"content_length": 0, "metadata": "00ff", "metaprotocol": "m"}
    rows.inscription(tx, 9, BEHIND, number=9, **last)
    rows.case("a content that isn't text is replied as it is")
    tx = reveal_in_a_block(rows, envelope([], b"\x00\xff\n"))
    rows.content(tx, b"\x00\xff\n")


def delegates(rows):
    rows.case("a delegate is followed once, and told beside the own content")
    rows.plain(2)
    txs = [reveal(plain(0), UNBOUND)]
    rows.extend(txs[0])
    own = id_of(txs[0])

    def add(tapscript):
        txs.append(reveal(txs[-1], tapscript))
        rows.extend(txs[-1])

    # without a body, one that delegates to that, one with a body, one without either, and one that
    # delegates to nothing
    add(envelope([(11, own)]))
    add(envelope([(11, id_of(txs[-1]))]))
    add(envelope([(11, own)], b"a"))
    add(envelope())
    add(envelope([(11, id_of(plain(1)))], b"a"))
    own, one, two, over, none, gone = txs
    for tx in (own, one, over):
        rows.content(tx, b"hi", "text/plain")
    rows.lacks(*(f"/content/{inscription(tx)}" for tx in (two, none, gone)))
    there, again = {"place": at(gone, 0), "sat": 0}, ["reinscription"]
    rows.inscription(
        over,
        0,
        again,
        content_length=1,
        delegate=inscription(own),
        height=5,
        number=-3,
        sequence=3,
        **there,
    )
    rows.inscription(one, delegate=inscription(own), height=3, number=0, sequence=1, **there)
    absent = inscription(plain(1))
    rows.inscription(
        gone, 0, again, content_length=1, delegate=absent, height=7, number=2, sequence=5, **there
    )


def long_content(rows):
    rows.case("a long content is whole")
    part = bytes(at % 251 for at in range(520))
    push = b"\x4d\x08\x02" + part
    tapscript = envelope([], b"")[:-1] + 750 * push + b"\x68"
    rows.plain(6)
    tx = reveal(plain(0), tapscript)
    block = block_on(rows, tx)
    head, tail = block[0].split(750 * push)
    rows.takes(f"{head.hex()} 750*{push.hex()} {tail.hex()}", block[1])
    rows.content(tx, 750 * part)
    rows.inscription(tx, content_length=390_000, height=6, number=0, place=at(tx, 0), sat=0)
    rows.case("a long content has its pushes in order")
    bytes_ = [place % 251 for place in range(750)]
    pushes = b"".join(b"\x4d\x08\x02" + bytes([byte]) * 520 for byte in bytes_)
    rows.plain(6)
    tx = reveal(plain(0), envelope([], b"")[:-1] + pushes + b"\x68")
    block = block_on(rows, tx)
    head, tail = block[0].split(pushes)
    words = " ".join(f"4d0802 520*{byte:02x}" for byte in bytes_)
    rows.takes(f"{head.hex()} {words} {tail.hex()}", block[1])
    rows.content(tx, b"".join(bytes([byte]) * 520 for byte in bytes_))
    rows.inscription(tx, content_length=390_000, height=6, number=0, place=at(tx, 0), sat=0)


def block_on(rows, tx):
    """The bytes of a block of a plain coinbase and a transaction on the newest one, and its
    hash."""
    return block_of(rows.tip(), [plain(len(rows.tips)), tx])


def places(rows):
    rows.case("outputs tell inscriptions by place and sequence, which pointers choose")
    tx = scenarios.chosen_by_pointers(rows)
    rows.output(outpoint(tx), 6, [[0, 1_000]], ids(tx, 1, 2))
    rows.output(outpoint(tx, 1), 6, [[1_000, 3_000]], ids(tx, 3, 0))
    rows.output(outpoint(plain(1)), 1, [[SUBSIDY, 2 * SUBSIDY]])
    rows.satoshi(0, ids(tx, 1, 2), at(tx, 0))
    rows.satoshi(2999, ids(tx, 0), at(tx, 1_999, 1))
    rows.satoshi(2998, [], at(tx, 1_998, 1))
    rows.satoshi(1000, ids(tx, 3), at(tx, 0, 1))
    chosen = ((2_999, at(tx, 1_999, 1)), (0, at(tx, 0)), (0, at(tx, 0)), (1_000, at(tx, 0, 1)))
    marks = (
        ["pointer"],
        ["offset", "pointer"],
        ["offset", "pointer", "reinscription"],
        ["offset", "pointer"],
    )
    for number, (sat, place) in enumerate(chosen):
        rows.inscription(tx, number, marks[number], height=6, number=number, place=place, sat=sat)
    rows.case("an output's runs may fall")
    rows.plain(6)
    far = envelope([(2, bytes.fromhex("00863ba101"))]) + envelope()
    tx = transaction([spend(plain(1), 0, far), spend(plain(0))], [(2 * SUBSIDY, SHORT)])
    rows.extend(tx)
    rows.output(outpoint(tx), 6, [[SUBSIDY, 2 * SUBSIDY], [0, SUBSIDY]], ids(tx, 1, 0))
    rows.satoshi(2_000_000_000, ids(tx, 0), at(tx, 7_000_000_000))
    rows.satoshi(SUBSIDY, ids(tx, 1), at(tx, 0))


def parents(rows):
    rows.case("parents are told by their ids, and inscriptions share a satoshi")
    rows.plain(6)
    p, q = scenarios.parents(rows)
    shared = {"height": 6, "place": at(q, 0), "sat": SUBSIDY}
    rows.inscription(p, children=ids(q, 0), number=0, **shared)
    rows.inscription(q, 0, ["reinscription"], number=1, parents=ids(p, 0), **shared)
    rows.inscription(q, 1, BEHIND, number=2, **shared)
    rows.output(outpoint(q), 6, [[SUBSIDY, 2 * SUBSIDY]], ids(p, 0) + ids(q, 0, 1))
    rows.case("an inscription tells both of its parents, in the order in which it names them")
    rows.plain(6)
    both = reveal(plain(0), 2 * envelope())
    rows.extend(both)
    child = envelope(
        [
            (3, id_value(id_of(both), 1)),
            (3, id_value(id_of(both), 0)),
            (3, id_value(id_of(both), 1)),
        ]
    )
    tx = reveal(both, child)
    rows.extend(tx)
    rows.inscription(
        tx,
        0,
        ["reinscription"],
        height=7,
        number=2,
        parents=ids(both, 1, 0),
        place=at(tx, 0),
        sat=0,
    )


def moves(rows):
    rows.case("an inscription in the fees is told where they went")
    rows.plain(6)
    paid = coinbase_to(6, [(2 * SUBSIDY, SHORT)])
    one = transaction([spend(plain(0)), spend(plain(1), 0, envelope())], [(SUBSIDY, SHORT)])
    two = reveal(plain(2), envelope())
    rows.connects(paid, one, two)
    rows.inscription(one, 0, ["input"], height=6, number=1, place=at(paid, SUBSIDY), sat=SUBSIDY)
    rows.inscription(two, height=6, number=0, place=at(two, 0), sat=2 * SUBSIDY)
    rows.case("a moved inscription is told where it is now, and that it is lost")
    rows.plain(6)
    tx = reveal(plain(1), envelope())
    rows.extend(tx)
    moved = reveal(tx, b"")
    rows.extend(moved)
    rows.inscription(tx, height=6, number=0, place=at(moved, 0), sat=SUBSIDY)
    rows.extend(transaction([spend(moved)], [(0, SHORT)]))
    rows.inscription(tx, height=6, number=0, place={"lost": 0}, sat=SUBSIDY)
    rows.disconnects()
    rows.inscription(tx, height=6, number=0, place=at(moved, 0), sat=SUBSIDY)
    rows.disconnects()
    rows.disconnects()
    rows.lacks(f"/inscription/{inscription(tx)}")
    rows.says("/inscriptions/0", '{"ids":[],"more":false,"page":0}')


def rune_tree(etches, tx, held, burned, mints, height=3):
    """What `/rune` says of a rune without a name, with premine 7, cap 10 and amount 5."""
    name = name_of(kept_name(height, tx))
    tree = {
        "amount": "5",
        "burned": burned,
        "cap": "10",
        "divisibility": 0,
        "etching": hash_text(id_of(etches)),
        "held": held,
    }
    tree |= {
        "height": [None, None],
        "id": f"{height}:{tx}",
        "mintable": True,
        "mints": mints,
        "name": name,
        "number": 0,
    }
    return tree | {"offset": [None, None], "premine": "7", "symbol": None}


def ends_of_numbers(rows):
    rows.case("an empty chain has no first block, and a number has no leading zero", "regtest")
    rows.says("/inscriptions/7", '{"ids":[],"more":false,"page":7}')
    rows.lacks("/blockhash/0", "/sat/01")
    rows.case("the last satoshi of each spelling is below the supply", "mainnet")
    last = (
        '{"decimal":"6929999.0","degree":"5°209999′1007″0‴","inscriptions":[],"name":"a",'
        '"number":2099999997689999,"place":null,"rarity":"uncommon"}'
    )
    for spelling in ("a", "6929999.0"):
        rows.says(f"/sat/{spelling}", last)
    rows.lacks(
        "/sat/nvtdijuwxlq",
        "/sat/6929999.1",
        "/sat/6930000.0",
        "/sat/0.5000000000",
        "/sat/18446744073709551616",
    )
    rows.case("the last satoshi of a lab chain is below its supply")
    rows.says(
        "/sat/99999999889",
        '{"decimal":"329.0","degree":"5°9′5″0‴","inscriptions":[],"name":"a",'
        '"number":99999999889,"place":null,"rarity":"uncommon"}',
    )
    rows.lacks("/sat/99999999890", "/sat/lkrmvqwy")


def other_methods(rows):
    rows.case("a path that no route takes is missing by each method", "regtest")
    for path in (
        "",
        "/",
        "//status",
        "/status/",
        "/audit/",
        "/sat/",
        "/sat/a/b",
        "/connect/",
        "/disconnect/",
    ):
        rows.fails(404, f"GET {path}")
        rows.fails(404, f"POST {path}")
    rows.fails(404, "hex POST 2f7361742fff")


def keep_blocks(rows):
    rows.case("no more blocks are taken back than are kept", "regtest", 2)
    rows.plain(3)
    rows.disconnects()
    rows.disconnects()
    rows.row("disconnect", "refused 11")
    rows.says(
        "/status",
        {"blocks": 1, "depth": 2, "kept": 0, "profile": "regtest", "tip": hash_text(rows.tip())},
    )


def burn_and_take_back(rows):
    rows.case("what a cenotaph burned and minted is there again after a disconnect")
    etches = etch(rows, ETCHES)
    first = {"claimable": 4 * SUBSIDY, "lost": 0, "outputs": 4 * SUBSIDY}
    first["runes"] = [{"burned": "0", "held": "7", "id": "3:1", "minted": "0", "premine": "7"}]
    rows.says("/rune/3:1", rune_tree(etches, 1, "7", "0", "0"))
    rows.says("/audit", first)
    rows.extend(carry(etches, MINTS_AND_BURNS))
    rows.says("/rune/3:1", rune_tree(etches, 1, "0", "12", "1"))
    rows.disconnects()
    rows.says("/rune/3:1", rune_tree(etches, 1, "7", "0", "0"))
    rows.says("/audit", first)


def equal_coinbases(rows):
    rows.case("what a displaced output holds is burned, and a disconnect brings it back", "regtest")
    stone = bytes.fromhex("6a5d0402010605")
    five = coinbase_to(3, [(SUBSIDY, SHORT), (0, stone)])
    zero = {"burned": "0", "held": "5", "id": "0:0", "minted": "0", "premine": "5"}
    rows.connects(five)
    balance = {"amount": "5", "id": "0:0", "name": "AAAAAAAAAAAAAAAAAAAAAAAAAAA", "shown": "5"}
    rows.output(outpoint(five), 0, [[0, SUBSIDY]], runes=[balance])
    rows.connects(five)
    rows.audit(2 * SUBSIDY, SUBSIDY, [zero | {"burned": "5", "held": "0"}, zero | {"id": "1:0"}])
    later = balance | {"id": "1:0", "name": name_of(kept_name(1, 0))}
    rows.output(outpoint(five), 1, [[SUBSIDY, 2 * SUBSIDY]], runes=[later])
    rows.output(outpoint(five, 1), 1, [], script=stone)
    rows.says("/runes/0", {"ids": ["0:0", "1:0"], "more": False, "page": 0})
    rows.disconnects()
    rows.audit(SUBSIDY, 0, [zero])
    rows.output(outpoint(five), 0, [[0, SUBSIDY]], runes=[balance])
    rows.case("what a coinbase etches is minted in its block, and its outputs hold the premine")
    rows.plain(3)
    mints = carry(plain(0), "6a5d0414031400")
    etches = coinbase_to(3, [(SUBSIDY, SHORT), (0, bytes.fromhex(ETCHES))])
    rows.connects(etches, mints)
    rows.audit(
        4 * SUBSIDY, 0, [{"burned": "0", "held": "12", "id": "3:0", "minted": "5", "premine": "7"}]
    )
    rows.says("/rune/3:0", rune_tree(etches, 0, "12", "0", "1"))
    five = {"amount": "5", "id": "3:0", "name": name_of(kept_name(3, 0)), "shown": "5"}
    rows.output(outpoint(mints), 3, [[0, SUBSIDY]], runes=[five])
    rows.output(
        outpoint(etches),
        3,
        [[3 * SUBSIDY, 4 * SUBSIDY]],
        runes=[five | {"amount": "7", "shown": "7"}],
    )


def names_past_an_end(rows):
    rows.case(
        "a name past 128 bits, and spacers at an end or side by side, name no rune", "mainnet"
    )
    # of 28 and of 29 letters, and in 128 bits the number of UNCOMMONGOODS
    for number in (GOODS + 2**128, GOODS + 13 * 2**128):
        rows.lacks(f"/rune/{name_of(number)}")
    for spacer in ("•", "%E2%80%A2"):
        for name in (
            f"{spacer}UNCOMMONGOODS",
            f"UNCOMMONGOODS{spacer}",
            f"UNCOMMON{2 * spacer}GOODS",
        ):
            rows.lacks(f"/rune/{name}")
    rows.lacks("/rune/UNCOMMON%E2%80%A2%e2%80%a2GOODS", "/rune/UNCOMMON%E2%80GOODS")
    rows.lacks("/rune/4294967297:0", "/rune/18446744073709551616:0")
    rows.case("a page whose number wraps isn't the first", "mainnet")
    for page in WRAPS:
        rows.says(f"/runes/{page}", f'{{"ids":[],"more":false,"page":{page}}}')


def long_path(front, part, back="", rest="a"):
    """A path of 8,000 bytes: in the middle as many of a part as fit, and a letter for the rest."""
    room = 8_000 - len((front + back).encode())
    many, left = divmod(room, len(part.encode()))
    return front + left * rest + many * part + back


def long_paths(rows):
    genesis(rows, "a path of 8,000 bytes names nothing")
    for route in ("sat", "blockhash", "inscriptions", "runes"):
        rows.lacks(long_path(f"/{route}/", "0"), long_path(f"/{route}/", "9"))
    rows.lacks(long_path("/sat/", "a"), long_path("/sat/0.", "0"), long_path("/sat/0°0′0″", "0"))
    rows.lacks(long_path("/sat/", "a", "satoshi"), long_path("/sat/a", "/"))
    rows.lacks(
        long_path(f"/output/{GENESIS_TXID}:", "0"),
        long_path("/output/", "0", f"{GENESIS_TXID}:0"),
        long_path(f"/inscription/{GENESIS_TXID}i", "0"),
        long_path(f"/content/{GENESIS_TXID}i", "0"),
    )
    rows.lacks(
        long_path("/rune/", "A"),
        long_path("/rune/", "A", "UNCOMMONGOODS"),
        long_path("/rune/", "%E2%80%A2"),
        long_path("/rune/1:", "0"),
    )
    # spacers side by side
    rows.lacks(long_path("/rune/UNCOMMON", "%E2%80%A2", "GOODS", "."))
    rows.lacks(long_path("", "/"), long_path("/status/", "a"), long_path("/", "status/"))
    rows.fails(404, f"hex GET {(b'/sat/' + bytes([255]) * 7_995).hex()}")
    rows.fails(405, f"POST {long_path('/sat/', '0')}")


def pages_that_wrap(rows):
    rows.case("a page of inscriptions whose number wraps isn't the first")
    tx = reveal_in_a_block(rows, envelope())
    for page in WRAPS:
        rows.says(f"/inscriptions/{page}", f'{{"ids":[],"more":false,"page":{page}}}')
    rows.says("/inscriptions/0", {"ids": ids(tx, 0), "more": False, "page": 0})


def many_runes(rows):
    for what, many in (
        ("a page has a hundred runes", 200),
        ("the next page may have one rune", 101),
    ):
        rows.case(what)
        rows.plain(3)
        split = transaction([spend(plain(0))], [(1, SHORT)] * many)
        stone = bytes.fromhex("6a5d020201")
        rows.extend(
            split,
            *(
                transaction([spend(split, index)], [(1, SHORT), (0, stone)])
                for index in range(many)
            ),
        )
        told = [f"3:{place}" for place in range(2, many + 2)]
        rows.says("/runes/0", {"ids": told[:100], "more": True, "page": 0})
        rows.says("/runes/1", {"ids": told[100:], "more": False, "page": 1})
        for page in (*PAST, *WRAPS):
            rows.says(f"/runes/{page}", f'{{"ids":[],"more":false,"page":{page}}}')


def bytes_that_are_no_text(rows):
    rows.case("a metaprotocol and an encoding that aren't UTF-8 are null")
    tx = reveal_in_a_block(
        rows,
        envelope([(7, b"\xff"), (9, b"\xff"), (1, b"\x7e\x1f")], b"a")
        + envelope([(9, b"\x7f")], b"a"),
    )
    one = {"content_length": 1, "height": 6, "place": at(tx, 0), "sat": 0}
    rows.inscription(tx, 0, content_type="~\x1f", number=0, **one)
    rows.inscription(tx, 1, BEHIND, encoding="\x7f", number=1, **one)
    rows.content(tx, b"a")
    rows.content(tx, b"a", index=1)


def delegates_without_bodies(rows):
    rows.case(
        "a delegate without a body is missing, and one with a body that delegates further gives"
        " its own"
    )
    rows.plain(2)
    own = reveal(plain(0), UNBOUND)
    bare = reveal(own, envelope())
    over = reveal(bare, envelope([(11, id_of(own)), (1, b"text/css"), (9, b"br")], b"a"))
    to_bare = reveal(over, envelope([(11, id_of(bare))], b"b"))
    to_over = reveal(to_bare, envelope([(11, id_of(over)), (1, b"text/html"), (9, b"gzip")], b"c"))
    last = reveal(to_over, envelope([(11, id_value(id_of(own), 1))], b"d"))
    for tx in (own, bare, over, to_bare, to_over, last):
        rows.extend(tx)
    # a body of its own doesn't stand in for the delegate's, nor do a type and an encoding of its
    # own
    rows.lacks(
        f"/content/{inscription(to_bare)}",
        f"/content/{inscription(bare)}",
        f"/content/{inscription(last)}",
    )
    rows.content(over, b"hi", "text/plain")
    rows.content(to_over, b"a", "text/css", "br")
    html = {
        "content_length": 1,
        "content_type": "text/html",
        "delegate": inscription(over),
        "encoding": "gzip",
    }
    rows.inscription(
        to_over,
        0,
        ["reinscription"],
        height=6,
        number=1,
        sequence=4,
        place=at(last, 0),
        sat=0,
        **html,
    )


def runs_that_fall(rows):
    rows.case(
        "an output of 5,000,000,000 satoshis has two runs that fall, each with an inscription"
    )
    rows.plain(6)
    # places among the inputs' satoshis
    far, near = ((2, place.to_bytes(5, "little")) for place in (6_000_000_000, 3_000_000_000))
    half = SUBSIDY // 2
    inputs = [spend(plain(1), 0, envelope([far]) + envelope([near])), spend(plain(0))]
    tx = transaction(inputs, [(half, SHORT), (SUBSIDY, SHORT), (half, SHORT)])
    rows.extend(tx)
    rows.output(outpoint(tx), 6, [[5_000_000_000, 7_500_000_000]])
    rows.output(
        outpoint(tx, 1), 6, [[7_500_000_000, 10_000_000_000], [0, 2_500_000_000]], ids(tx, 1, 0)
    )
    rows.output(outpoint(tx, 2), 6, [[2_500_000_000, 5_000_000_000]])
    rows.inscription(
        tx, 0, ["pointer"], height=6, number=0, place=at(tx, 3_500_000_000, 1), sat=1_000_000_000
    )
    rows.inscription(
        tx,
        1,
        ["offset", "pointer"],
        height=6,
        number=1,
        place=at(tx, 500_000_000, 1),
        sat=8_000_000_000,
    )
    rows.satoshi(1_000_000_000, ids(tx, 0), at(tx, 3_500_000_000, 1))
    rows.satoshi(8_000_000_000, ids(tx, 1), at(tx, 500_000_000, 1))


def many_runs(rows):
    rows.case("an output has a thousand runs that fall")
    rows.plain(5)
    split = transaction([spend(plain(0))], [(3, SHORT)] * 1_000)
    rows.extend(split)
    # places among the inputs' satoshis; the one between stands where its input begins
    late, early = (envelope([(2, place.to_bytes(2, "little"))]) for place in (2_998, 1))
    tapscripts = {999: late, 499: envelope(), 0: early}
    inputs = [spend(split, index, tapscripts.get(index, b"")) for index in range(999, -1, -1)]
    tx = transaction(inputs, [(3_000, SHORT)])
    rows.extend(tx)
    runs = [[3 * index, 3 * index + 3] for index in range(999, -1, -1)]
    rows.output(outpoint(tx), 6, runs, ids(tx, 2, 1, 0))
    told = ((1, 2_998, ["pointer"]), (1_497, 1_500, ["input"]), (2_998, 1, ["input", "pointer"]))
    for index, (sat, offset, marks) in enumerate(told):
        place = at(tx, offset)
        rows.inscription(tx, index, marks, height=6, number=index, place=place, sat=sat)
        rows.satoshi(sat, ids(tx, index), place)
    for sat, offset in ((0, 2_997), (2, 2_999), (2_997, 0), (2_999, 2), (1_500, 1_497)):
        rows.satoshi(sat, [], at(tx, offset))
    rows.lacks(f"/output/{outpoint(split, 999)}")


def many_balances(rows):
    rows.case("an output holds a thousand runes, each with decimals of its own")
    rows.plain(3)
    split = transaction([spend(plain(0))], [(1, SHORT)] * 1_000)
    # a premine of one more than the output's place, and decimals from none to 38
    etches = [
        transaction([spend(split, place)], [(1, SHORT), (0, premined(place + 1, place % 39))])
        for place in range(1_000)
    ]
    rows.extend(split, *etches)
    tx = transaction([spend(one) for one in reversed(etches)], [(1_000, SHORT)])
    rows.extend(tx)
    balances = [
        {
            "amount": str(place + 1),
            "id": f"3:{place + 2}",
            "name": name_of(kept_name(3, place + 2)),
            "shown": with_decimals(place + 1, place % 39),
        }
        for place in range(1_000)
    ]
    rows.output(outpoint(tx), 4, [[999 - k, 1_000 - k] for k in range(1_000)], runes=balances)
    rows.lacks(f"/output/{outpoint(etches[999])}")
    audited = [
        {
            "burned": "0",
            "held": one["amount"],
            "id": one["id"],
            "minted": "0",
            "premine": one["amount"],
        }
        for one in balances
    ]
    rows.audit(5 * SUBSIDY, SUBSIDY - 1_000, audited)


def premined(premine, decimals):
    """A runestone that etches with so much of a premine, below 16,384, and so many decimals."""
    amount = [premine] if premine < 128 else [128 + premine % 128, premine // 128]
    words = bytes([2, 1, 6, *amount, 1, decimals])
    return b"\x6a\x5d" + bytes([len(words)]) + words


def with_decimals(amount, decimals):
    """An amount with so many decimals, without zeros at the end."""
    whole, part = divmod(amount, 10**decimals)
    digits = f"{part:0{decimals}}".rstrip("0") if decimals else ""
    return f"{whole}.{digits}" if digits else str(whole)


def parents_of_their_block(rows):
    rows.case("parents are told behind a block that reveals an unbound inscription")
    first = reveal_in_a_block(rows, UNBOUND)
    p, q = scenarios.parents(rows)
    shared = {"height": 7, "place": at(q, 0), "sat": SUBSIDY}
    rows.inscription(
        first, 0, ["even"], content_length=2, content_type="text/plain", height=6, number=0
    )
    rows.inscription(p, children=ids(q, 0), number=1, **shared)
    rows.inscription(q, 0, ["reinscription"], number=2, parents=ids(p, 0), **shared)
    rows.inscription(q, 1, BEHIND, number=3, **shared)
    rows.satoshi(SUBSIDY, ids(p, 0) + ids(q, 0, 1), at(q, 0))


def curse_below_the_jubilee(rows):
    rows.case("inscriptions below and at the jubilee are told by signed numbers")
    rows.plain(3)
    first, even, last = (
        reveal(plain(0), 2 * envelope()),
        reveal(plain(1), UNBOUND),
        reveal(plain(2), 2 * envelope()),
    )
    rows.extend(first)
    rows.plain(5)
    rows.extend(even)
    rows.extend(last)

    def tell(last):
        """What is said of all five, of which the newest block's transaction revealed the last
        two."""
        for index, marks in enumerate(((), BEHIND)):
            rows.inscription(
                first,
                index,
                marks,
                height=3,
                number=-index,
                sequence=index,
                place=at(first, 0),
                sat=0,
            )
            numbers = {"number": 1 + index, "sequence": 3 + index}
            rows.inscription(
                last, index, marks, height=6, place=at(last, 0), sat=2 * SUBSIDY, **numbers
            )
        text = {"content_length": 2, "content_type": "text/plain"}
        rows.inscription(even, 0, ["even"], height=5, number=-2, sequence=2, **text)
        rows.says(
            "/inscriptions/0",
            {"ids": ids(first, 0, 1) + ids(even, 0) + ids(last, 0, 1), "more": False, "page": 0},
        )

    tell(last)
    rows.disconnects()
    rows.lacks(f"/inscription/{inscription(last)}")
    other = transaction([spend(plain(2), 0, 2 * envelope())], [(SUBSIDY - 1, SHORT)])
    rows.extend(other)
    tell(other)


def marked(split, first):
    """What reveals inscriptions of each mark alone from nine outputs of 1,000 satoshis of a split,
    the first at a place: the transactions in order, and what is told of each inscription: its
    transaction, its index, its marks and its fields."""

    def lone(place, tapscript):
        return transaction([spend(split, first + place, tapscript)], [(1_000, SHORT)])

    incomplete = bytes.fromhex("0063036f7264010168")
    scripts = (
        UNBOUND,
        envelope([(1, b"a"), (1, b"b")]),
        incomplete,
        envelope([(2, b"\1")]),
        PUSHNUM,
        UNBOUND + envelope(),
    )
    txs = [lone(place, script) for place, script in enumerate(scripts)]
    txs.append(
        transaction(
            [spend(split, first + 6), spend(split, first + 7, envelope())], [(2_000, SHORT)]
        )
    )
    txs.append(lone(8, envelope()))
    txs.append(transaction([spend(txs[-1], 0, envelope())], [(1_000, SHORT)]))
    unbound = {"content_length": 2, "content_type": "text/plain"}

    def on(place, at_place, **fields):
        return {
            "place": at_place,
            "sat": 1_000 * (first + place) + at_place["offset"] % 1_000,
            **fields,
        }

    last = on(8, at(txs[8], 0))
    told = [
        (txs[0], 0, ["even"], unbound),
        (txs[1], 0, ["repeated"], on(1, at(txs[1], 0), content_type="a")),
    ]
    told += [
        (txs[2], 0, ["incomplete"], on(2, at(txs[2], 0))),
        (txs[3], 0, ["pointer"], on(3, at(txs[3], 1))),
    ]
    told += [
        (txs[4], 0, ["pushnum"], on(4, at(txs[4], 0), content_type="a")),
        (txs[5], 0, ["even"], unbound),
    ]
    told += [
        (txs[5], 1, ["offset"], on(5, at(txs[5], 0))),
        (txs[6], 0, ["input"], on(7, at(txs[6], 1_000))),
    ]
    return txs, [*told, (txs[7], 0, [], last), (txs[8], 0, ["reinscription"], last)]


def marks_alone(rows):
    rows.case("each mark alone curses below the jubilee, and vindicates from it on")
    rows.plain(4)
    split = transaction([spend(plain(0))], [(1_000, SHORT)] * 27)
    rows.extend(split)
    cursed = uncursed = 0
    for height in (LAB_JUBILEE - 1, LAB_JUBILEE, LAB_JUBILEE + 1):
        txs, told = marked(split, 9 * (height - LAB_JUBILEE + 1))
        rows.extend(*txs)
        for tx, index, marks, fields in told:
            is_cursed = height < LAB_JUBILEE and bool(marks)
            number = -1 - cursed if is_cursed else uncursed
            rows.inscription(
                tx, index, marks, height=height, number=number, sequence=cursed + uncursed, **fields
            )
            cursed, uncursed = cursed + is_cursed, uncursed + (not is_cursed)


def numbers_in_place(rows):
    """Below the jubilee: of a block's four inscriptions two are cursed."""
    rows.case("signed numbers come back with their rows, and others are given in their place")
    rows.plain(4)
    split = transaction([spend(plain(2))], [(1_000, SHORT)] * 4)
    first = reveal(plain(0), envelope())
    rows.extend(split, first)
    txs = [
        transaction([spend(split, place, script)], [(1_000, SHORT)])
        for place, script in enumerate((PUSHNUM, envelope(), PUSHNUM, envelope()))
    ]

    def tell(told):
        """What is said of the first inscription, and of the others by their place in the split and
        their numbers."""
        rows.inscription(first, height=4, number=0, place=at(first, 0), sat=0)
        for sequence, (place, number) in enumerate(told, 1):
            marks, kind = (["pushnum"], "a") if number < 0 else ([], None)
            rows.inscription(
                txs[place],
                0,
                marks,
                height=5,
                number=number,
                sequence=sequence,
                content_type=kind,
                place=at(txs[place], 0),
                sat=2 * SUBSIDY + 1_000 * place,
            )
        rows.lacks(*(f"/inscription/{inscription(txs[at_])}" for at_ in range(len(told), 4)))

    every = [(0, -1), (1, 1), (2, -2), (3, 2)]
    rows.extend(*txs)
    tell(every)
    rows.cancels_a_disconnect()
    tell(every)
    rows.disconnects()
    tell([])
    # others in their place, by another order
    other = txs[1], txs[0]
    rows.cancels(plain(5), *other)
    tell([])
    rows.extend(*other)
    rows.inscription(txs[1], height=5, number=1, place=at(txs[1], 0), sat=2 * SUBSIDY + 1_000)
    rows.inscription(
        txs[0],
        0,
        ["pushnum"],
        height=5,
        number=-1,
        sequence=2,
        content_type="a",
        place=at(txs[0], 0),
        sat=2 * SUBSIDY,
    )
    rows.disconnects()
    tell([])
    rows.extend(*txs)
    tell(every)


def thousand_numbers(rows):
    """Of three inscriptions of each transaction the last two are cursed."""
    rows.case("a thousand inscriptions have signed numbers, and the half of them is taken back")
    rows.plain(3)
    split = transaction([spend(plain(0))], [(1_000, SHORT)] * 334)
    rows.extend(split)
    inputs = [spend(split, place, 3 * envelope()) for place in range(334)]
    txs = [transaction([input_], [(1_000, SHORT)]) for input_ in inputs]
    rows.extend(*txs[:167])
    rows.extend(*txs[167:])

    def tell(sequences):
        for sequence in sequences:
            place, index = divmod(sequence, 3)
            number = -2 * place - index if index else place
            marks, height = BEHIND if index else (), 4 + place // 167
            fields = {"number": number, "sequence": sequence, "sat": 1_000 * place}
            rows.inscription(
                txs[place], index, marks, height=height, place=at(txs[place], 0), **fields
            )

    tell([0, 1, 2, 3, 4, 5, 499, 500, 501, 502, 503, 998, 999, 1_000, 1_001])
    rows.disconnects()
    tell([0, 1, 498, 499, 500])
    rows.lacks(f"/inscription/{inscription(txs[167])}")


GROUPS = [
    chains,
    first_block,
    methods,
    satoshis,
    audits,
    edicts,
    terms,
    two_runes,
    names,
    pages_of_runes,
]
GROUPS += [
    one_inscription,
    pages_of_inscriptions,
    texts,
    delegates,
    long_content,
    places,
    parents,
    moves,
]
GROUPS += [
    ends_of_numbers,
    other_methods,
    keep_blocks,
    burn_and_take_back,
    equal_coinbases,
    names_past_an_end,
]
GROUPS += [
    pages_that_wrap,
    many_runes,
    bytes_that_are_no_text,
    delegates_without_bodies,
    runs_that_fall,
]
GROUPS += [parents_of_their_block, curse_below_the_jubilee, marks_alone]
GROUPS += [numbers_in_place, thousand_numbers]
GROUPS += [long_paths, many_runs, many_balances]
