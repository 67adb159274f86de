"""Shows what the program does: a store of made blocks, served over HTTP, and asked."""

import contextlib
import http.client
import json
import pathlib
import shlex
import socket
import sys
import tempfile
import time
from collections.abc import Iterator
from typing import Any

from tools import children

BLOCKS = 1_000
TURNS = str(2**64 - 1)
# the addresses that are taken where they are free
PORTS = 8080, 8081
# how long the server may take to its first reply
SECONDS = 60
# so many entries of a list, and characters of a line, are shown
ENTRIES, COLUMNS = 3, 100

Tree = Any


class Differs(Exception):
    """What isn't as it has to be."""


def demand(holds: bool, what: str) -> None:
    if not holds:
        raise Differs(what)


def free(port: int) -> bool:
    with contextlib.suppress(OSError), socket.create_server(("127.0.0.1", port)):
        return True
    return False


def free_addresses() -> list[str]:
    """Two addresses of this machine at which nobody listens."""
    if all(map(free, PORTS)):
        return [f"127.0.0.1:{port}" for port in PORTS]
    with socket.create_server(("127.0.0.1", 0)) as one, socket.create_server(
        ("127.0.0.1", 0)
    ) as two:
        return [f"127.0.0.1:{door.getsockname()[1]}" for door in (one, two)]


def shortened(tree: Tree) -> Tree:
    """A tree as it is shown: of a long list the first entries, of a long text its front."""
    if isinstance(tree, dict):
        return {key: shortened(value) for key, value in tree.items()}
    if isinstance(tree, list):
        more = [f".. and {len(tree) - ENTRIES} more"] if len(tree) > ENTRIES else []
        return [*map(shortened, tree[:ENTRIES]), *more]
    return tree


def lines_of(tree: Tree) -> Iterator[str]:
    """The lines by which a reply's object is shown, a key each."""
    for key, value in shortened(tree).items():
        text = json.dumps(value, ensure_ascii=False)
        text = text if len(text) <= COLUMNS else f"{text[:COLUMNS]} .."
        yield f"    {key}: {text}"


def show(line: str = "") -> None:
    print(line, flush=True)


class Client:
    """Asks a server, and shows each request with its reply."""

    def __init__(self, address: str) -> None:
        self.address = address
        self.count = 0

    def get(self, path: str) -> tuple[str, bytes]:
        """The kind and the body of a reply of 200."""
        link = http.client.HTTPConnection(self.address, timeout=SECONDS)
        try:
            link.request("GET", path)
            reply = link.getresponse()
            body = reply.read()
        finally:
            link.close()
        demand(reply.status == 200, f"{path} is answered by {reply.status}: {body[:200]!r}")
        self.count += 1
        return reply.getheader("Content-Type", ""), body

    def ask(self, path: str, what: str) -> Tree:
        """What an object says, which is shown."""
        kind, body = self.get(path)
        show(f"{what}\n  GET {path}\n  200, {kind}, {len(body):,} bytes")
        demand(kind == "application/json", f"{path} is of the kind {kind}")
        tree = json.loads(body)
        for line in lines_of(tree):
            show(line)
        show()
        return tree

    def content(self, path: str, what: str) -> bytes:
        """The bytes of a content, which are shown."""
        kind, body = self.get(path)
        show(f"{what}\n  GET {path}\n  200, {kind}, {len(body):,} bytes\n    {body.decode()}\n")
        return body


def wait_until_served(server: children.Child, address: str) -> None:
    """Waits for the first reply."""
    until = time.monotonic() + SECONDS
    while True:
        status = server.poll()
        demand(status is None, f"`serve` ended with {status}")
        with contextlib.suppress(OSError, http.client.HTTPException):
            Client(address).get("/status")
            return
        demand(time.monotonic() < until, f"no reply came in {SECONDS} seconds")
        time.sleep(0.05)


def drill(program: pathlib.Path, folder: str) -> None:
    """Makes a store of made blocks."""
    words = [str(program), folder, "drill", str(BLOCKS)]
    show(f"A store of {BLOCKS:,} made blocks, each an inscription, all but one a mint of a rune")
    show(f"  {shlex.join(words)}")
    begun = time.monotonic()
    status, line = children.run(words)
    demand(status == 0, f"it ended with {status}: {line}")
    demand(line.startswith(f"drill {BLOCKS} claimable "), f"it showed {line}")
    took = time.monotonic() - begun
    show(f"  {line.strip()}")
    files = [
        f"{name}.ox, {(pathlib.Path(folder) / f'{name}.ox').stat().st_size:,}" for name in "ab"
    ]
    show(f"  {took:.1f} s; bytes: {'; '.join(files)}\n")


def ask_all(client: Client) -> None:
    """Asks one of each kind, and looks whether the replies agree."""
    status = client.ask("/status", "How far it is")
    demand(status["blocks"] == BLOCKS, f"there are {status['blocks']} blocks")
    audit = client.ask("/audit", "Whether satoshis and runes balance")
    demand(audit["claimable"] == audit["lost"] + audit["outputs"], "satoshis don't balance")
    for rune in audit["runes"]:
        given = int(rune["minted"]) + int(rune["premine"])
        demand(int(rune["burned"]) + int(rune["held"]) == given, "runes don't balance")
    _, page = client.get("/inscriptions/0")
    name = json.loads(page)["ids"][0]
    inscription = client.ask(f"/inscription/{name}", "The first inscription")
    content = client.content(f"/content/{name}", "What it says")
    demand(len(content) == inscription["content_length"], "it has another length")
    sat = client.ask(f"/sat/{inscription['sat']}", "The satoshi that it is on")
    demand(name in sat["inscriptions"], "the satoshi hasn't the inscription")
    output = client.ask(f"/output/{sat['place']['outpoint']}", "The output that holds both")
    demand(name in output["inscriptions"], "the output hasn't the inscription")
    rune = client.ask(f"/rune/{audit['runes'][0]['id']}", "The rune")
    demand(rune["held"] == audit["runes"][0]["held"], "the audit holds another amount")


def run(program: pathlib.Path, end: bool) -> int:
    """Shows it all, and serves on unless it is to end; the status."""
    with tempfile.TemporaryDirectory(prefix="ox-demo-") as folder:
        try:
            drill(program, folder)
            public, operator = free_addresses()
            words = [str(program), folder, "serve", TURNS, public, operator]
            show(f"It is served\n  {shlex.join(words)}\n")
            server = children.start(words, preexec_fn=children.end_with_parent)
            wait_until_served(server, public)
            client = Client(public)
            ask_all(client)
        except (Differs, OSError) as cause:
            print(f"demo: {cause}", file=sys.stderr)
            return 1
        show(f"{client.count} requests were answered as they have to be.")
        if end:
            children.end(server)
            return 0
        show(f"It serves at http://{public} (curl http://{public}/status), blocks are posted to")
        show(f"http://{operator}/connect, and the store is in {folder}.")
        show("Ctrl-C stops it, and takes the store away.")
        with contextlib.suppress(KeyboardInterrupt):
            server.wait()
        children.end(server)
    return 0
