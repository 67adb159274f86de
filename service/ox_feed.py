#!/usr/bin/env python3
"""Feeds a running `serve` from a Bitcoin Core node: it catches up, follows, and goes back where the
node's chain turns out another.

It keeps nothing: each round, a second after the last, asks both sides where they are. So it may be
stopped at any moment. What it does stands on standard error.

Ends with 0 after a signal, or at the tip with --once; with 1 for words that it doesn't know; with 2
where a person is needed, which it tells. While a side is away it waits.
"""

import argparse
import base64
import contextlib
import functools
import hashlib
import http.client
import http.server
import json
import logging
import os
import pathlib
import signal
import socket
import sys
import threading
import time
from collections.abc import Callable, Iterator
from typing import Any, NamedTuple, TypeVar

WAITS = [0.2, 0.5, 1, 2, 5, 10, 20, 30]
# seconds between rounds and between lines of progress, for which a round is news, and for a reply
ROUND, PROGRESS, NEWS, NODE_SECONDS, OX_SECONDS = 1, 10, 60, 60, 600
# with fewer blocks than this to go each is told, and so many hashes are asked for at once
NEAR, BATCH = 6, 100
AMOUNTS = ("burned", "held", "minted", "premine")
FAULTS = (OSError, http.client.HTTPException)
# Bitcoin Core's errors where it hasn't what it had, and refusals where the index isn't where it was
GONE, MOVED = (-8, -5), ("5", "11")
HELP = {
    "ox_up": "gauge Whether the index answered when it was last asked.",
    "ox_node_up": "gauge Whether the node answered when it was last asked.",
    "ox_waits_total": "counter How often the index didn't answer, or not yet.",
    "ox_node_waits_total": "counter How often the node didn't answer, or not yet.",
    "ox_blocks": "gauge Blocks of the index.",
    "ox_node_blocks": "gauge Blocks of the node's chain.",
    "ox_kept": "gauge Blocks that can be taken back.",
    "ox_depth": "gauge Blocks that may be kept to be taken back.",
    "ox_at_tip": "gauge Whether the newest block is the node's.",
    "ox_tip_time_seconds": "gauge When the newest block says it was made.",
    "ox_round_time_seconds": "gauge When both sides last answered.",
    "ox_connects_total": "counter Blocks connected.",
    "ox_connect_seconds_total": "counter Seconds in which blocks were connected.",
    "ox_connect_bytes_total": "counter Bytes of the blocks that were connected.",
    "ox_disconnects_total": "counter Blocks taken back.",
    "ox_reorganisations_total": "counter How often the node's chain turned out another.",
    "ox_audit_claimable": "gauge Satoshis that the blocks mint.",
    "ox_audit_lost": "gauge Satoshis that are lost.",
    "ox_audit_outputs": "gauge Satoshis that unspent outputs hold.",
    "ox_audit_balanced": "gauge Whether the last audit balanced.",
}

T = TypeVar("T")
Place = tuple[str, int]
Numbers = dict[str, float]
LOG = logging.getLogger("ox_feed")
# what the index tells of itself, and the node of its chain
State = NamedTuple("State", [("blocks", int), ("kept", int), ("tip", str | None)])
Tip = NamedTuple("Tip", [("height", int), ("name", str)])


class Again(Exception):
    """A round came to nothing, since a side is away or isn't where it was: begin another one."""

    def __init__(self, side: str, what: str) -> None:
        super().__init__(f"{side}: {what}")
        self.side = side


class Stuck(Exception):
    """A person is needed."""


def field(side: str, tree: object, name: str, kind: type[T]) -> T:
    """A field of a JSON object. Again where there is none of this kind."""
    value = tree.get(name) if isinstance(tree, dict) else None
    if not isinstance(value, kind):
        raise Again(side, f"a reply has no {name}")
    return value


def place_of(address: str) -> Place:
    """Host and port of an address. ValueError where it isn't one."""
    host, _, port = address.rpartition(":")
    if not host or not 0 < int(port) < 65_536:
        raise ValueError(address)
    return host.strip("[]"), int(port)


def request(mark: int, method: str, *words: object) -> dict[str, object]:
    """A call, as JSON-RPC has it."""
    return {"jsonrpc": "1.0", "id": mark, "method": method, "params": words}


class Link:
    """A kept connection. What may be asked twice is asked again where the kept one was closed
    meanwhile; a command to the index never is."""

    def __init__(self, side: str, place: Place, seconds: float) -> None:
        self.side = side
        self.wire = http.client.HTTPConnection(*place, timeout=seconds)
        self.send: Callable[[], None]
        self.twice = False

    def begin(self, method: str, path: str, body: bytes, head: dict[str, str]) -> None:
        """Sends a request."""
        self.twice = self.wire.sock is not None and (self.side == "node" or method == "GET")
        self.send = functools.partial(self.wire.request, method, path, body or None, head)
        with self.told():
            self.send()

    def end(self) -> tuple[int, bytes]:
        """The status and the body of the reply."""
        with self.told():
            reply = self.wire.getresponse()
            return reply.status, reply.read()
        self.twice = False
        with self.told():
            self.send()
        return self.end()

    @contextlib.contextmanager
    def told(self) -> Iterator[None]:
        """Closes the connection at a fault: Again, unless the request is to be sent again."""
        try:
            yield
        except FAULTS as why:
            self.wire.close()
            if not self.twice or isinstance(why, TimeoutError):
                cause = getattr(why, "strerror", None) or str(why) or type(why).__name__
                raise Again(self.side, f"{self.wire.host}:{self.wire.port}: {cause}") from None


class Node:
    """Bitcoin Core: its chain by JSON-RPC, blocks as bytes by REST where it offers that."""

    def __init__(self, place: Place, cookie: pathlib.Path) -> None:
        self.calls, self.blocks = (Link("node", place, NODE_SECONDS) for _ in range(2))
        self.cookie = cookie
        self.forget()

    def forget(self) -> None:
        """Begins anew, as with another node: the cookie is read again, and REST is tried."""
        self.calls.wire.close()
        self.blocks.wire.close()
        self.secret, self.rest, self.asked = "", True, ""

    def begin_call(self, link: Link, tree: object) -> None:
        if not self.secret:
            self.secret = base64.b64encode(self.cookie.read_bytes().strip()).decode()
        head = {"Authorization": f"Basic {self.secret}", "Content-Type": "application/json"}
        link.begin("POST", "/", json.dumps(tree).encode(), head)

    def end_call(self, link: Link) -> object:
        """The reply to a call or to a list of them."""
        status, reply = link.end()
        if status not in (200, 404, 500):  # an error of a call has 404 or 500, and is JSON
            text = reply[:80].decode(errors="replace")
            raise Again("node", f"status {status} {text}".strip())
        tree: object = json.loads(reply)
        return tree

    def result(self, tree: object, kind: type[T]) -> T:
        """What a call gave."""
        error = tree.get("error") if isinstance(tree, dict) else None
        if error is None:
            return field("node", tree, "result", kind)
        code, text = field("node", error, "code", int), field("node", error, "message", str)
        if "pruned" in text:
            raise Stuck(f"the node has thrown a block away ({text}): feed from one that keeps all")
        raise Again("chain" if code in GONE else "node", f"error {code}: {text}")

    def call(self, kind: type[T], method: str, *words: object) -> T:
        self.begin_call(self.calls, request(0, method, *words))
        return self.result(self.end_call(self.calls), kind)

    def name_at(self, height: int) -> str:
        return self.call(str, "getblockhash", height)

    def names(self, first: int, last: int) -> Iterator[str]:
        """The hashes of the blocks from the first height to the last, asked a hundred at a time."""
        for at in range(first, last + 1, BATCH):
            heights = range(at, min(at + BATCH, last + 1))
            calls = [request(height, "getblockhash", height) for height in heights]
            self.begin_call(self.calls, calls)
            tree = self.end_call(self.calls)
            replies = tree if isinstance(tree, list) else []
            by_height = {field("node", reply, "id", int): reply for reply in replies}
            for height in heights:
                yield self.result(by_height.get(height), str)

    def begin(self, name: str) -> None:
        """Asks for a block, so that the node reads it while the index is at work."""
        self.asked = name
        if self.rest:
            self.blocks.begin("GET", f"/rest/block/{name}.bin", b"", {})
        else:
            self.begin_call(self.blocks, request(0, "getblock", name, 0))

    def block(self, name: str) -> bytes:
        """The bytes of a block, which have its hash."""
        if self.asked != name:
            self.begin(name)
        self.asked = ""
        if not self.rest:
            block = bytes.fromhex(self.result(self.end_call(self.blocks), str))
        else:
            status, block = self.blocks.end()
            if status != 200:
                self.rest = False
                return self.block(name)
        if hashlib.sha256(hashlib.sha256(block[:80]).digest()).digest()[::-1].hex() != name:
            raise Again("node", f"what it gives as block {name} is another")
        return block


class Index:
    """A running `serve`, by its operator's door."""

    def __init__(self, place: Place) -> None:
        self.link = Link("ox", place, OX_SECONDS)
        self.commanding = False

    def ask(self, method: str, path: str, body: bytes = b"") -> tuple[int, object]:
        self.link.begin(method, path, body, {})
        status, reply = self.link.end()
        if status == 503:
            raise Again("ox", "it has no memory for that, and has changed nothing")
        if status not in (200, 409) or reply[:1] != b"{":
            raise Again("ox", f"status {status} to {method} {path}: is this the operator's door?")
        return status, json.loads(reply)

    def name_at(self, height: int) -> str:
        return field("ox", self.ask("GET", f"/blockhash/{height}")[1], "hash", str)

    def command(self, path: str, body: bytes) -> str:
        """Why a command, which is sent once, was refused; nothing where it was taken."""
        self.commanding = True
        try:
            status, tree = self.ask("POST", path, body)
        finally:
            self.commanding = False
        refused = field("ox", tree, "refused", str) if status == 409 else ""
        if refused.split(" ")[0] in MOVED:
            raise Again("chain", f"refused {refused}")
        return refused


def text_of(numbers: Numbers) -> str:
    """The numbers as Prometheus reads them."""
    lines = []
    for name, value in numbers.copy().items():
        kind, _, what = HELP[name].partition(" ")
        lines += [f"# HELP {name} {what}", f"# TYPE {name} {kind}", f"{name} {float(value)!r}"]
    return "\n".join(lines) + "\n"


def watch(place: Place, numbers: Numbers) -> None:
    """Answers `/metrics`, and `/ready`: 200 where the index is at the node's tip, else 503."""

    class Door(http.server.BaseHTTPRequestHandler):
        timeout = 10

        def do_GET(self) -> None:
            news = time.time() - numbers.get("ox_round_time_seconds", 0) < NEWS
            ready = 200 if news and numbers.get("ox_at_tip") else 503
            status = {"/metrics": 200, "/ready": ready}.get(self.path, 404)
            self.send_response(status)
            self.send_header("Content-Type", "text/plain; version=0.0.4; charset=utf-8")
            self.end_headers()
            text = text_of(numbers) if self.path == "/metrics" else f"{status}\n"
            self.wfile.write(text.encode())

        def log_message(self, *_: object) -> None:
            pass

    doors = http.server.ThreadingHTTPServer
    doors.address_family = socket.AF_INET6 if ":" in place[0] else socket.AF_INET
    threading.Thread(target=doors(place, Door).serve_forever, daemon=True).start()


def notify(text: str) -> None:
    """Tells systemd, where it asked for that."""
    place = os.environ.get("NOTIFY_SOCKET", "")
    kind = socket.SOCK_DGRAM | socket.SOCK_NONBLOCK
    with socket.socket(socket.AF_UNIX, kind) as wire, contextlib.suppress(OSError):
        wire.sendto(text.encode(), "\0" + place[1:] if place[:1] == "@" else place)


class Feeder:
    """The rounds."""

    def __init__(self, index: Index, node: Node, audit: float) -> None:
        self.index, self.node = index, node
        self.numbers: Numbers = {name: 0 for name in HELP if name.endswith(("_total", "_up"))}
        self.audit_every, self.audited_tip, self.audited = audit, "", -audit
        self.stopping = self.settled = False
        self.told: set[str] = set()
        self.misses, self.count, self.since = 0, 0, time.monotonic()

    def stop(self, *_: object) -> None:
        """Ends at once, or behind the command under way."""
        self.stopping = True
        notify("STOPPING=1")
        if not self.index.commanding:
            sys.exit(0)

    def look(self) -> tuple[State, Tip]:
        """Where both sides are."""
        tree, numbers = self.index.ask("GET", "/status")[1], self.numbers
        blocks, kept, depth = (field("ox", tree, key, int) for key in ("blocks", "kept", "depth"))
        profile = field("ox", tree, "profile", str)
        state = State(blocks, kept, field("ox", tree, "tip", str) if blocks else None)
        numbers.update(ox_up=1, ox_blocks=blocks, ox_kept=kept, ox_depth=depth)
        tree = self.node.call(dict, "getblockchaininfo")
        chain, name = (field("node", tree, key, str) for key in ("chain", "bestblockhash"))
        tip = Tip(field("node", tree, "blocks", int), name)
        numbers.update(ox_node_up=1, ox_node_blocks=tip.height + 1)
        numbers.update(ox_at_tip=state.tip == name, ox_round_time_seconds=time.time())
        if (profile == "mainnet") != (chain == "main"):
            raise Stuck(f"the store counts by {profile}, and the node's chain is {chain}")
        notify(f"READY=1\nWATCHDOG=1\nSTATUS={blocks} of {tip.height + 1} blocks")
        return state, tip

    def fork(self, state: State, tip: Tip) -> int:
        """The greatest height at which both have the same block, or -1 where the index has none."""
        if state.blocks and self.index.name_at(0) != self.node.name_at(0):
            raise Stuck("the node's first block isn't the store's: it has another chain")
        lowest = max(state.blocks - 1 - state.kept, 0)
        height = min(state.blocks - 1, tip.height)
        while height >= 0 and self.index.name_at(height) != self.node.name_at(height):
            height -= 1
            if height < lowest:
                raise Stuck(f"the chains part below height {lowest}, and no block there is kept")
        return height

    def round(self) -> None:
        """One look at both sides, and what follows from it."""
        state, tip = self.look()
        if state.tip == tip.name:
            return self.at_tip(state, tip)
        fork = self.fork(state, tip)
        if fork == tip.height:
            raise Again("chain", f"the node is at height {fork}, behind the index: waiting")
        self.follow(state, tip, fork)

    def at_tip(self, state: State, tip: Tip) -> None:
        if "ox_tip_time_seconds" not in self.numbers:
            digits = self.node.call(str, "getblockheader", tip.name, False)
            self.numbers["ox_tip_time_seconds"] = int.from_bytes(
                bytes.fromhex(digits)[68:72], "little"
            )
        passed = time.monotonic() - self.audited
        if self.audit_every and self.audited_tip != tip.name and passed >= self.audit_every:
            self.audit(tip.name)
        if not self.settled:
            LOG.info(f"at the tip, {state.blocks} blocks")
        self.settled, self.misses, self.told = True, 0, set()

    def follow(self, state: State, tip: Tip, fork: int) -> None:
        """Takes back what stands above the fork, and connects what the node has there."""
        names = self.node.names(fork + 1, tip.height)
        name = next(names)
        block = self.node.block(name)  # it is here before anything is taken back
        if fork >= 0 and block[4:36][::-1].hex() != self.index.name_at(fork):
            raise Again("chain", "it has changed since")
        back, on = state.blocks - 1 - fork, tip.height - fork
        if back:
            LOG.info(f"the chain is another above height {fork}: {back} back, {on} on")
            self.numbers["ox_reorganisations_total"] += 1
        for height in reversed(range(fork, state.blocks - 1)):
            self.index.command("/disconnect", b"")
            self.numbers["ox_disconnects_total"] += 1
            self.beat(height + 1)
        self.count, self.since = 0, time.monotonic()
        for height in range(fork + 1, tip.height + 1):
            following = next(names, None)
            if following is not None:
                self.node.begin(following)
            self.connect(height, name, block, tip)
            if following is not None:
                name, block = following, self.node.block(following)

    def connect(self, height: int, name: str, block: bytes, tip: Tip) -> None:
        began, numbers = time.monotonic(), self.numbers
        refused = self.index.command("/connect", block)
        took = time.monotonic() - began
        if refused:
            raise Stuck(f"block {name} at height {height} was refused: {refused}")
        numbers["ox_connects_total"] += 1
        numbers["ox_connect_seconds_total"] += took
        numbers["ox_connect_bytes_total"] += len(block)
        numbers["ox_tip_time_seconds"] = int.from_bytes(block[68:72], "little")
        numbers["ox_at_tip"] = name == tip.name
        self.misses, self.told = 0, set()
        self.count += 1
        self.settled = self.settled and tip.height - height < NEAR
        passed = time.monotonic() - self.since
        if tip.height - height < NEAR:
            LOG.info(f"{height} {name} {len(block)} bytes in {took:.3f} s")
        elif passed >= PROGRESS:
            rate = self.count / passed
            hours = (tip.height - height) / rate / 3600
            LOG.info(
                f"{height} of {tip.height}, {rate:.1f} blocks a second, {hours:.1f} hours left"
            )
            self.count, self.since = 0, time.monotonic()
        self.beat(height + 1)

    def beat(self, blocks: int) -> None:
        """Tells that it lives, behind each command."""
        self.numbers.update(ox_blocks=blocks, ox_round_time_seconds=time.time())
        notify(f"WATCHDOG=1\nSTATUS={blocks} blocks")
        if self.stopping:
            sys.exit(0)

    def audit(self, name: str) -> None:
        self.audited_tip, self.audited = name, time.monotonic()
        tree = self.index.ask("GET", "/audit")[1]
        parts = {part: field("ox", tree, part, int) for part in ("claimable", "lost", "outputs")}
        balanced = parts["claimable"] == parts["lost"] + parts["outputs"]
        for rune in field("ox", tree, "runes", list):
            burned, held, minted, premine = (int(field("ox", rune, part, str)) for part in AMOUNTS)
            balanced = balanced and burned + held == minted + premine
        self.numbers.update({f"ox_audit_{part}": value for part, value in parts.items()})
        self.numbers["ox_audit_balanced"] = balanced
        if not balanced:
            LOG.error("the audit doesn't balance")

    def run(self, once: bool) -> None:
        """Makes rounds, up to the tip or without end."""
        while True:
            pause: float = ROUND
            try:
                self.round()
            except (Again, OSError, ValueError) as why:  # no cookie, or a reply that can't be read
                pause = self.miss(getattr(why, "side", "node"), str(why))
            if self.stopping or once and self.settled:
                return
            time.sleep(pause)

    def miss(self, side: str, cause: str) -> float:
        """Tells a cause once, until a block was taken or the tip was reached. How long to wait."""
        name = {"ox": "ox", "node": "ox_node"}.get(side)
        if name is not None:
            self.numbers[f"{name}_waits_total"] += 1
            self.numbers.update({f"{name}_up": 0, "ox_at_tip": 0})
        if cause not in self.told:
            LOG.warning("%s", cause)
        notify(f"WATCHDOG=1\nSTATUS={cause}")
        self.node.forget()
        self.told.add(cause)
        self.settled = False
        self.misses += 1
        return WAITS[min(self.misses, len(WAITS)) - 1]


def main() -> int:
    form = argparse.RawDescriptionHelpFormatter
    words = argparse.ArgumentParser(description=__doc__, formatter_class=form)
    address: dict[str, Any] = {"type": place_of, "metavar": "ADDRESS"}
    file: dict[str, Any] = {"type": pathlib.Path, "metavar": "FILE", "required": True}
    words.add_argument("--ox", required=True, help="the operator's door of `serve`", **address)
    words.add_argument("--node", required=True, help="the node's JSON-RPC", **address)
    words.add_argument("--cookie", help="it has the node's user:password", **file)
    words.add_argument("--once", action="store_true", help="end at the node's tip")
    words.add_argument("--watch", help="answer /metrics and /ready there", **address)
    seconds: dict[str, Any] = {"type": float, "metavar": "SECONDS", "default": 600}
    words.add_argument("--audit", help="between two audits at least; 0: none (600)", **seconds)
    try:
        given = words.parse_args()
    except SystemExit as end:
        return 1 if end.code else 0
    logging.basicConfig(format="%(message)s", level=logging.INFO)
    feeder = Feeder(Index(given.ox), Node(given.node, given.cookie), given.audit)
    signal.signal(signal.SIGTERM, feeder.stop)
    signal.signal(signal.SIGINT, feeder.stop)
    try:
        if given.watch:
            watch(given.watch, feeder.numbers)
        feeder.run(given.once)
    except Stuck as why:
        LOG.error("stuck: %s", why)
        notify(f"STATUS={why}")
        return 2
    except OSError as why:
        sys.exit(f"can't listen at {given.watch}: {why.strerror}")
    return 0


if __name__ == "__main__":
    sys.exit(main())
