"""A node for the checks: it speaks Bitcoin Core's JSON-RPC with a cookie, single calls and lists of
them, and REST, over a chain that the checks make and turn. It is no Bitcoin Core: what of that it
imitates was read, and was not compared with a running one.
"""

import base64
import contextlib
import http.server
import json
import pathlib
import secrets
import socket
import sys
import threading
from collections.abc import Callable
from typing import Any

from made_blocks import OPEN, claim, spend
from tools.bitcoin import RESERVED, block, coinbase, commitment, root, twice


# a block's bytes, its hash and its transactions' ids
Made = tuple[bytes, bytes, list[bytes]]


class Fault(Exception):
    """An error of a call: its number and its message."""


def lawful(height: int, tip: bytes, paid: bytes, mark: int) -> Made:
    """A made block (docs/RULES.md, 'Made blocks') whose coinbase this number makes another: its
    bytes, its hash and its transactions' ids."""
    others = [spend(height, paid)] if height else []
    outputs = [(claim(height), OPEN), (0, commitment([whole for _, whole in others]))]
    script = b"\4" + height.to_bytes(4, "little") + mark.to_bytes(4, "little")
    txs = [coinbase(outputs, script, [RESERVED]), *others]
    ids = [twice(bare) for bare, _ in txs]
    data, tip = block(tip, root(ids), [whole for _, whole in txs], height)
    return data, tip, ids


def shown(hash_: bytes) -> str:
    """A hash as it is shown."""
    return hash_[::-1].hex()


class Doors(http.server.ThreadingHTTPServer):
    """A server that says nothing of links that are cut."""

    request_queue_size = 64

    def __init__(
        self,
        place: tuple[str, int],
        replies: Callable[..., http.server.BaseHTTPRequestHandler],
    ) -> None:
        self.links: set[Any] = set()
        super().__init__(place, replies)

    def process_request(self, request: Any, client_address: Any) -> None:
        self.links.add(request)
        super().process_request(request, client_address)

    def shutdown_request(self, request: Any) -> None:
        self.links.discard(request)
        super().shutdown_request(request)

    def end(self) -> None:
        """Closes the door and all links."""
        self.shutdown()
        self.server_close()
        for link in list(self.links):
            with contextlib.suppress(OSError):
                link.shutdown(socket.SHUT_RDWR)

    def handle_error(self, request: Any, client_address: Any) -> None:
        if not isinstance(sys.exc_info()[1], OSError):
            super().handle_error(request, client_address)


class StubNode:
    """A node at an address of its own. What it is like may be changed while it runs."""

    def __init__(self, folder: pathlib.Path, rest: bool = True, chain: str = "regtest") -> None:
        self.cookie_file = folder / "cookie"
        self.rest, self.chain = rest, chain
        # how many of the next calls find it busy, whether it is starting, and whether it is silent
        self.busy, self.warming, self.silent = 0, False, threading.Event()
        self.silent.set()
        # blocks that it has thrown away, and blocks in whose place it gives other bytes
        self.pruned: set[str] = set()
        self.wrong: dict[str, bytes] = {}
        # bytes and transactions' ids by hash, and the chain
        self.blocks: dict[str, bytes] = {}
        self.ids: dict[str, list[bytes]] = {}
        self.active: list[str] = []
        self.asked: list[str] = []
        self.posts, self.marks = 0, 0
        self.lock = threading.RLock()
        self.new_cookie()
        self.port = 0
        self.start()

    def start(self) -> None:
        """Opens its door, at the same address as before."""
        stub = self

        class Door(Replies):
            node = stub

        self.door = Doors(("127.0.0.1", self.port), Door)
        self.port = self.door.server_address[1]
        threading.Thread(target=self.door.serve_forever, args=(0.05,), daemon=True).start()

    def stop(self) -> None:
        self.door.end()

    @property
    def address(self) -> str:
        return f"127.0.0.1:{self.port}"

    def new_cookie(self) -> None:
        with self.lock:
            self.cookie = b"__cookie__:" + secrets.token_hex(16).encode()
            self.cookie_file.write_bytes(self.cookie)

    def extend(self, count: int) -> None:
        """So many new blocks on the chain."""
        with self.lock:
            for _ in range(count):
                height = len(self.active)
                tip = bytes.fromhex(self.active[-1])[::-1] if height else bytes(32)
                paid = self.ids[self.active[-1]][0] if height else bytes(32)
                self.marks += 1
                self.take(lawful(height, tip, paid, self.marks))

    def take(self, made: Made) -> None:
        """A block on the chain."""
        data, tip, ids = made
        with self.lock:
            name = shown(tip)
            self.blocks[name], self.ids[name] = data, ids
            self.active.append(name)

    def turn(self, back: int, on: int) -> None:
        """Another chain, in which so many blocks are gone and so many stand in their place."""
        with self.lock:
            del self.active[len(self.active) - back :]
            self.extend(on)

    # the calls

    def answer(self, call: Any) -> dict[str, Any]:
        """The reply to one call."""
        reply: dict[str, Any] = {"result": None, "error": None, "id": call["id"]}
        self.asked.append(call["method"])
        try:
            if self.warming:
                raise Fault(-28, "Loading block index...")
            reply["result"] = getattr(self, call["method"])(*call["params"])
        except Fault as fault:
            reply["error"] = {"code": fault.args[0], "message": fault.args[1]}
        return reply

    def getblockchaininfo(self) -> dict[str, Any]:
        height = len(self.active) - 1
        return {"chain": self.chain, "blocks": height, "bestblockhash": self.active[-1]}

    def getblockhash(self, height: int) -> str:
        if not 0 <= height < len(self.active):
            raise Fault(-8, "Block height out of range")
        return self.active[height]

    def getblock(self, name: str, verbosity: int) -> str:
        if name in self.pruned:
            raise Fault(-1, "Block not available (pruned data)")
        return self.bytes_of(name).hex()

    def getblockheader(self, name: str, verbose: bool) -> str:
        return self.bytes_of(name)[:80].hex()

    def bytes_of(self, name: str) -> bytes:
        if name not in self.blocks:
            raise Fault(-5, "Block not found")
        return self.wrong.get(name, self.blocks[name])


class Replies(http.server.BaseHTTPRequestHandler):
    """What a link is answered."""

    protocol_version = "HTTP/1.1"
    node: StubNode

    def setup(self) -> None:
        super().setup()
        self.connection.setsockopt(socket.IPPROTO_TCP, socket.TCP_NODELAY, 1)

    def reply(self, status: int, kind: str, body: bytes) -> None:
        self.node.silent.wait()
        self.send_response(status)
        self.send_header("Content-Type", kind)
        self.send_header("Content-Length", str(len(body)))
        self.end_headers()
        self.wfile.write(body)

    def do_GET(self) -> None:
        node = self.node
        name = self.path.removeprefix("/rest/block/").removesuffix(".bin")
        with node.lock:
            node.asked.append("rest")
            status, body = 404, b""
            if node.rest and node.warming:
                status, body = 503, b"Service temporarily unavailable: Loading block index...\r\n"
            elif node.rest and name in node.pruned:
                body = f"{name} not available (pruned data)\r\n".encode()
            elif node.rest and name in node.blocks:
                status, body = 200, node.bytes_of(name)
        kind = "application/octet-stream" if status == 200 else "text/plain"
        self.reply(status, kind, body)

    def do_POST(self) -> None:
        node = self.node
        body = self.rfile.read(int(self.headers["Content-Length"]))
        wanted = "Basic " + base64.b64encode(node.cookie).decode()
        if self.headers.get("Authorization") != wanted:
            self.reply(401, "text/html", b"")
            return
        with node.lock:
            node.posts += 1
            if node.busy:
                node.busy -= 1
                status, kind, body = 503, "text/plain", b"Work queue depth exceeded"
            else:
                calls = json.loads(body)
                tree = (
                    [node.answer(call) for call in calls]
                    if isinstance(calls, list)
                    else node.answer(calls)
                )
                failed = isinstance(tree, dict) and tree["error"]
                status, kind = 500 if failed else 200, "application/json"
                body = json.dumps(tree).encode()
        self.reply(status, kind, body)

    def log_message(self, *_: object) -> None:
        pass
