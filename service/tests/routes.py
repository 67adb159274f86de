"""Checks of service/openapi.json: every reply has the form that it gives its route."""

import json
import re
from collections.abc import Iterator

from chain import envelope, id_value, reveal_into
from made_blocks import OPEN, claim
from stub_node import StubNode, shown
from tests.standing import SERVICE, TOP, Desk, Served, Tree, every, get, need
from tools.bitcoin import RESERVED, block, coinbase, commitment, root, twice
from tools.checks import demand

# a segwit script, and its address on regtest
PAID = bytes.fromhex("0014751e76e8199196d454941c45d1b3a323f1433bd6")
ADDRESS = "bcrt1qw508d6qejxtdg4y5r3zarvary0c5xw7kygt080"
# paths by their routes: those that name something, and those that don't
Paths = dict[str, tuple[list[str], list[str]]]


def described(desk: Desk) -> tuple[Served, Paths]:
    """A program whose chain has content of each kind that replies tell, and paths by their routes:
    those that name something, and one that doesn't."""
    node, served = desk.node(11), desk.served()
    height, tip = len(node.active), bytes.fromhex(node.active[-1])[::-1]
    paid = node.ids[node.active[-1]][0]
    first = id_value(second(node, 1), 0)
    fields = [(1, b"text/html"), (5, b"\1\2"), (7, b"m"), (9, b"br"), (11, first), (3, first)]
    script = envelope(fields, b"<p>") + envelope([], None)
    spends = reveal_into(paid, script, [(claim(height - 1), PAID)])
    outputs = [(claim(height), OPEN), (0, commitment([spends[1]]))]
    own = coinbase(outputs, b"\4" + bytes(4), [RESERVED])
    data, tip = block(tip, root([twice(own[0]), twice(spends[0])]), [own[1], spends[1]], height)
    node.take((data, tip, [twice(own[0]), twice(spends[0])]))
    desk.feed_once(served, node)
    hash_ = shown(twice(spends[0]))
    mints = shown(second(node, 9))
    return served, {
        "/status": (["/status"], []),
        "/audit": (["/audit"], []),
        "/blockhash/{height}": (["/blockhash/0", "/blockhash/11"], ["/blockhash/12"]),
        "/address/{address}": (
            [f"/address/{ADDRESS}", f"/address/{ADDRESS.upper()}"],
            [f"/address/{ADDRESS[:-1]}"],
        ),
        "/output/{outpoint}": (
            [f"/output/{hash_}:0", f"/output/{shown(second(node, 10))}:1", f"/output/{mints}:1"],
            [f"/output/{hash_}:7"],
        ),
        "/sat/{sat}": (
            ["/sat/0", "/sat/0.0", "/sat/nvtdijuwxlp", "/sat/4999999999", "/sat/2099994106992659"],
            ["/sat/-"],
        ),
        "/inscription/{id}": (
            [f"/inscription/{hash_}i0", f"/inscription/{hash_}i1", f"/inscription/{mints}i0"],
            [f"/inscription/{hash_}i9"],
        ),
        "/content/{id}": ([f"/content/{hash_}i0", f"/content/{mints}i0"], [f"/content/{hash_}i1"]),
        "/inscriptions/{page}": (["/inscriptions/0", "/inscriptions/7"], ["/inscriptions/x"]),
        "/rune/{rune}": (["/rune/1:1"], ["/rune/2:1"]),
        "/runes/{page}": (["/runes/0", "/runes/7"], ["/runes/00"]),
    }


def second(node: StubNode, height: int) -> bytes:
    """The id of the transaction behind the coinbase of a made block."""
    return node.ids[node.active[height]][1]


@every.check("every reply has the form that openapi.json gives its route, and a changed key hasn't")
def description(desk: Desk) -> None:
    need("python3-jsonschema")
    import jsonschema

    document = json.loads((SERVICE / "openapi.json").read_text())
    served, rows = described(desk)
    demand(document["openapi"].startswith("3.1"), "it isn't of version 3.1")
    demand(set(document["paths"]) == set(rows), "it has other routes")
    form = (TOP / "docs" / "FORMATS.md").read_text()
    named = "".join(re.findall(r"\*\*Routes\.\*\* (.*?); all others", form))
    public = {path for path, post in re.findall(r"`(/[^`]+)`( \(POST\))?", named) if not post}
    demand(public == set(rows), f"docs/FORMATS.md has {public}")
    parts = {"components": document["components"]}

    def faults(schema: Tree, value: Tree) -> list[str]:
        validator = jsonschema.Draft202012Validator({**schema, **parts})
        return [fault.message for fault in validator.iter_errors(value)]

    empty = desk.served("empty", profile="mainnet")
    asked = [(served, route, path, 200) for route, (found, _) in rows.items() for path in found]
    asked += [(served, route, path, 404) for route, (_, no) in rows.items() for path in no]
    asked += [(empty, route, route, 200) for route in ("/status", "/audit")]
    tip = json.loads(get(served.public, "/blockhash/11")[2])["hash"]
    for end, wanted in (f"?at={tip}", 200), (f"?at={'0' * 64}", 404):
        for route, (found, _) in rows.items():
            # what an address held before isn't told
            status = 404 if route == "/address/{address}" else wanted
            asked.append((served, route, found[0] + end, status))
    asked += [(empty, "/rune/{rune}", "/rune/UNCOMMON.GOODS", 200)]
    changed = 0
    for ox, route, path, wanted in asked:
        status, head, body = get(ox.public, path)
        demand(status == wanted, f"{path}: {status}")
        reply = document["paths"][route]["get"]["responses"][str(status)]
        content = resolved(document, reply)["content"]
        kind = head["Content-Type"]
        if route == "/content/{id}" and status == 200:
            demand(list(content) == ["*/*"] and kind, f"{path}: {kind}")
            continue
        demand(list(content) == [kind] == ["application/json"], f"{path}: {kind}")
        schema, value = content[kind]["schema"], json.loads(body)
        demand(not faults(schema, value), f"{path}: {faults(schema, value)[:2]}: {value}")
        for other in changes(value):
            demand(faults(schema, other), f"{path}: it takes {other}")
            changed += 1
    demand(changed > 100, f"{changed} changes were tried")


def resolved(document: Tree, part: Tree) -> Tree:
    """What a part stands for."""
    if "$ref" not in part:
        return part
    for word in part["$ref"].removeprefix("#/").split("/"):
        document = document[word]
    return document


def changes(value: Tree) -> Iterator[Tree]:
    """The value with one key changed, left out or added, or one leaf of another type."""
    if isinstance(value, dict):
        for key, inner in value.items():
            rest = {name: other for name, other in value.items() if name != key}
            yield rest
            yield {**rest, f"{key}_": inner}
            yield {**rest, key: {"x": 1}}
            for other in changes(inner):
                yield {**rest, key: other}
        yield {**value, "more": 1}
    if isinstance(value, list):
        for at, inner in enumerate(value[:2]):
            for other in changes(inner):
                yield [*value[:at], other, *value[at + 1 :]]
            yield [*value[:at], True, *value[at + 1 :]]
