"""The rows of crates/ox_run_rows that ask what an address holds, and what has to be printed for
them.

An address is spelled as address_rows does it, and what it holds is gathered here from the index
that plain_index has. A desk is asked by the operator's link, between the commands of which no other
run begins; then by a public link, which begins with the store as it was left, and by a run that
shows one reply alone.
"""

from chain import SHORT, coinbase_to, envelope, transaction
from plain_index import after_block, empty, has_sat
from rows import Rows, address_rows, hash_text, id_of, outpoint, plain, spend
from rows.address_rows import VALID
from rows.desk_rows import Asked, Body, Desks, answer_of, as_of, compact, error, told
from rows.query_rows import with_decimals
from rows.scenarios import ETCHES, TEN
from tools.bitcoin import SUBSIDY
from tools.runes import name_of

PARTS = {"mainnet": "bc", "regtest": "bcrt", "lab": "lab"}
# programs of version 0 with 20 bytes, of version 1 with 32, and of version 16 with 2
FIRST, SECOND, THIRD = (bytes.fromhex(VALID[at][1]) for at in (0, 7, 3))
# what the first one says with a whole subsidy, and without an output
WORKED = (
    '{{"address":"bc1qw508d6qejxtdg4y5r3zarvary0c5xw7kv8f3t4","inscriptions":[],"outputs":[{}],'
    '"runes":[],"script":"0014751e76e8199196d454941c45d1b3a323f1433bd6","value":{}}}'
)
# a tag that no one knows, an edict that gives the second output 4 of the rune of block 3,
# transaction 1, and a mint of that rune
CENOTAPH, GIVES, MINTS = "6a5d027e00", "6a5d050003010401", "6a5d0414031401"


class Chain(Rows):
    """A chain whose blocks the operator's link connects and takes back, and its indexes by the
    number of blocks."""

    def __init__(self, desks, profile="lab", depth=100):
        super().__init__()
        self.desks, self.profile, self.indexes = desks, profile, [empty(profile)]
        desks.make(profile, depth)

    def takes(self, digits, tip):
        self.tips.append(tip)
        self.indexes.append(after_block(self.profile, self.indexes[-1], bytes.fromhex(digits)))
        self.desks.accepts("/connect", answer_of(self.ok()), body=Body(digits))

    def disconnects(self):
        self.tips.pop()
        self.indexes.pop()
        self.desks.accepts("/disconnect", answer_of(self.ok()))

    def path(self, script):
        """The path that names a script's address."""
        return f"/address/{address_rows.written(PARTS[self.profile], script)}"

    def reply(self, script):
        """The reply to a GET of that path, by the newest index."""
        return told(200, address_tree(self.indexes[-1], PARTS[self.profile], script))

    def asks(self, *scripts):
        """The operator's link asks for the addresses of these scripts."""
        for script in scripts:
            self.desks.ask("GET", self.path(script), self.reply(script))

    def ends(self, *scripts):
        """They are asked once more, by the operator's link, by a public one and by a run each."""
        self.asks(*scripts)
        for script in scripts:
            self.desks.ask_publicly("GET", self.path(script), self.reply(script))
        for script in scripts:
            self.desks.query(self.path(script), self.reply(script))

    def goes_back(self, count, *scripts):
        """So many blocks are taken back, one by one."""
        for _ in range(count):
            self.disconnects()
            self.asks(*scripts)


def address_tree(index, hrp, script):
    """What the outputs of an index with a script hold."""
    rows = {at: row for at, row in index.outputs if row.script == script}
    runs = [run for row in rows.values() for run in row.sats]
    amounts = {}
    for at, balances in index.balances:
        for rune, amount in balances if at in rows else ():
            amounts[rune] = amounts.get(rune, 0) + amount
    found = [row.id for row in index.inscriptions if row.sat is not None and has_sat(runs, row.sat)]
    return {
        "address": address_rows.written(hrp, script),
        "inscriptions": [f"{hash_text(txid)}i{place}" for txid, place in found],
        "outputs": [f"{hash_text(txid)}:{place}" for txid, place in sorted(rows)],
        "runes": [balance(index, rune, amount) for rune, amount in sorted(amounts.items())],
        "script": script.hex(),
        "value": sum(many for _, many in runs),
    }


def balance(index, id_, amount):
    """How an amount of a rune is told."""
    (rune,) = (rune for rune in index.runes if rune.id == id_)
    return {
        "amount": str(amount),
        "id": f"{id_[0]}:{id_[1]}",
        "name": name_of(rune.name, rune.spacers),
        "shown": with_decimals(amount, rune.divisibility),
    }


def paid(mark, *scripts):
    """A coinbase of a whole subsidy to the first of these scripts, and of nothing to the others."""
    return coinbase_to(mark, [(SUBSIDY, scripts[0]), *((0, script) for script in scripts[1:])])


def moved(tx, *outputs, index=0, tapscript=b""):
    """A transaction that spends one output into these values and scripts."""
    return transaction([spend(tx, index, tapscript)], outputs)


# ---- texts


def worked(desks):
    desks.heading("an address is told before a disconnect, behind it, and behind a connect")
    chain = Chain(desks, "mainnet", 10)
    coinbase = paid(0, FIRST)
    there = told(200, address_tree(chain.indexes[-1], "bc", FIRST))
    gone = WORKED.format("", 0).encode()
    assert there[1] == gone and chain.path(FIRST)[9:] == VALID[0][0].lower()
    chain.asks(FIRST)
    chain.connects(coinbase)
    outputs = f'"{outpoint(coinbase)}"'
    assert chain.reply(FIRST)[1] == WORKED.format(outputs, SUBSIDY).encode()
    capitals = f"/address/{VALID[0][0]}"
    for turn in range(3):
        if turn:
            chain.disconnects() if turn == 1 else chain.connects(coinbase)
        chain.asks(FIRST)
        desks.ask("GET", capitals, chain.reply(FIRST))
        desks.query(capitals, chain.reply(FIRST))
    chain.ends(FIRST, SECOND)
    desks.heading("what is no address of the chain isn't there")
    chain = Chain(desks, "mainnet")
    chain.connects(coinbase)
    text = VALID[0][0].lower()
    others = [address_rows.written(hrp, FIRST) for hrp in ("bcrt", "lab", "tb")]
    others += [text[:3].upper() + text[3:], text[:-2] + text[-2:].upper(), text[:-1] + "5"]
    others += [text + "q", text[:-1], f"{text}?at=", f"{text}?at=0", "bc1", "a", "%ff", "\u00f6"]
    for other in others:
        assert address_rows.read("bc", other.encode()) is None
        path = f"/address/{other}"
        desks.ask("GET", path, error(404))
        desks.ask_publicly("GET", path, error(404))
        desks.query(path.encode(), error(404))
    chain.ends(FIRST)


def traps(desks):
    desks.heading("a path has one part behind the text, and names no block")
    chain = Chain(desks)
    chain.connects(paid(0, FIRST))
    path, block = chain.path(FIRST), hash_text(chain.tip())
    for other in (
        "/address",
        "/address/",
        f"{path}/",
        f"{path}/b",
        "/address/a/b",
        f"/address//{path[9:]}",
        f"/addresses/{path[9:]}",
        as_of(path, block),
        as_of("/address/a", block),
        as_of(path, 64 * "0"),
    ):
        for method in ("GET", "POST", "PUT"):
            desks.ask(method, other, error(404))
        desks.ask_publicly("GET", other, error(404))
        desks.query(other, error(404))
    for other in (b"/address/\xff", path.encode() + b"\xff"):
        desks.query(other, error(404))
    desks.heading("another method is refused of each part, whether it is an address or not")
    for other in (path, chain.path(SECOND), "/address/a", "/address/%ff", f"{path}?at=0"):
        for method in ("POST", "PUT", "HEAD"):
            desks.ask(method, other, error(405), body=Body("00"))
            desks.ask_publicly(method, other, error(405), close=True)
    chain.ends(FIRST)


def hits(desks):
    desks.heading("a reply is kept by its path: in capitals it is another one")
    chain = Chain(desks, "regtest")
    chain.connects(paid(0, FIRST))
    desks.serve()
    path = chain.path(FIRST)
    small = Asked("GET", path, chain.reply(FIRST))
    large = Asked("GET", f"/address/{path[9:].upper()}", chain.reply(FIRST))
    assert desks.run(("public", [small, small, large, small, large])).hits == 3
    asked = {path: chain.reply(FIRST), chain.path(SECOND): chain.reply(SECOND)}
    desks.often(3, asked)


# ---- outputs


def outputs(desks):
    desks.heading("outputs are told by rising outpoint, and one of no satoshis is one too")
    chain = Chain(desks)
    first = paid(0, FIRST, SECOND)
    chain.connects(first)
    chain.asks(FIRST, SECOND)
    chain.connects(paid(1, SHORT, FIRST, FIRST, THIRD))
    chain.asks(FIRST)
    # a refused command changes nothing
    desks.refuses("/connect", "refused 3 0")
    chain.asks(THIRD)
    # one is spent into two of its script, of another and of one that is too long for an address
    split = moved(first, (1, FIRST), (2, SECOND), (3, FIRST), (4, bytes(43)), (5, FIRST))
    chain.extend(split)
    chain.asks(FIRST, SECOND)
    chain.extend(moved(split, (3, THIRD), index=2), moved(first, (0, THIRD), index=1))
    chain.asks(FIRST, SECOND, THIRD)
    chain.goes_back(4, FIRST, SECOND, THIRD)
    chain.connects(paid(5, THIRD, THIRD))
    chain.ends(FIRST, THIRD)
    desks.heading("an output that is made and spent in one block is none")
    chain = Chain(desks)
    chain.plain(1)
    chain.asks(FIRST, SECOND)
    made = moved(plain(0), (7, FIRST), (9, SECOND))
    chain.extend(made, moved(made, (7, SECOND)))
    chain.asks(FIRST, SECOND)
    chain.goes_back(1, FIRST, SECOND)
    chain.extend(made)
    chain.ends(FIRST, SECOND)


# ---- runes


def runes(desks):
    desks.heading("runes come to a script, move within it, leave it and are burned")
    chain = Chain(desks)
    chain.plain(3)
    chain.asks(FIRST, SECOND)
    etches = moved(plain(0), (SUBSIDY, FIRST), (0, bytes.fromhex(TEN)))
    chain.extend(etches)
    chain.asks(FIRST, SECOND)
    more = moved(plain(1), (SUBSIDY, FIRST), (0, bytes.fromhex("6a5d06020106080102")))
    chain.extend(more)
    chain.asks(FIRST)
    within = moved(etches, (1, FIRST), (2, FIRST), (0, bytes.fromhex(GIVES)))
    chain.extend(within)
    chain.asks(FIRST, SECOND)
    chain.extend(moved(within, (2, SECOND), index=1))
    chain.asks(FIRST, SECOND)
    burnt = moved(within, (1, FIRST), (0, bytes.fromhex(CENOTAPH)))
    chain.extend(burnt)
    chain.asks(FIRST, SECOND)
    chain.goes_back(5, FIRST, SECOND)
    chain.extend(etches)
    chain.extend(moved(etches, (SUBSIDY, FIRST)))
    chain.ends(FIRST, SECOND)


def equal_coinbases(desks):
    desks.heading("of two equal coinbases that mint one rune the script holds the later one's")
    chain = Chain(desks)
    chain.plain(3)
    chain.extend(moved(plain(0), (SUBSIDY, SECOND), (0, bytes.fromhex(ETCHES))))
    mints = coinbase_to(9, [(SUBSIDY, FIRST), (0, bytes.fromhex(MINTS))])
    for _ in range(2):
        chain.connects(mints)
        chain.asks(FIRST, SECOND)
    chain.goes_back(2, FIRST, SECOND)
    for _ in range(2):
        chain.connects(mints)
    chain.ends(FIRST)


# ---- inscriptions


def inscriptions(desks):
    desks.heading("inscriptions are told by sequence, whichever output they are in")
    chain = Chain(desks)
    chain.plain(3)
    chain.asks(FIRST)
    three = [moved(plain(at), (SUBSIDY, FIRST), tapscript=envelope()) for at in range(3)]
    # so that the first one revealed isn't in the first output
    three.sort(key=id_of, reverse=True)
    chain.extend(*three)
    chain.asks(FIRST)
    told_ = address_tree(chain.indexes[-1], "lab", FIRST)
    assert [at[:64] for at in told_["outputs"]] != [at[:64] for at in told_["inscriptions"]]
    chain.extend(moved(three[1], (SUBSIDY, SECOND)))
    chain.asks(FIRST, SECOND)
    chain.goes_back(2, FIRST, SECOND)
    chain.extend(*three)
    chain.extend(moved(three[0], (SUBSIDY, FIRST), tapscript=2 * envelope()))
    chain.ends(FIRST, SECOND)


def holders():
    """The rows, and what has to be printed for them."""
    made = Desks()
    for part in (worked, traps, hits, outputs, runes, equal_coinbases, inscriptions):
        part(made)
        made.serve()
    return made
