"""What the checks of this folder stand on: addresses, processes, a desk for each check, and what
stands between the feeder and the program."""

import contextlib
import http.client
import http.server
import importlib.util
import json
import os
import pathlib
import random
import shutil
import signal
import socket
import subprocess
import sys
import threading
import time
from collections.abc import Callable
from typing import Any

from stub_node import Doors, StubNode
from tools.checks import Checks, Failed, Skipped, demand

SERVICE = pathlib.Path(__file__).resolve().parents[1]
TOP = SERVICE.parent
FEED = SERVICE / "ox_feed.py"
TURNS = str(2**64 - 1)
SECONDS = 60
AT_ONCE = 4
# the packages that checks need, each with the command that it brings, or nothing
PACKAGES = {
    "haproxy": "haproxy",
    "prometheus": "promtool",
    "python3-jsonschema": None,
    "mypy": "mypy",
    "lintian": "lintian",
}

# whether checks may install packages of the system
INSTALLS = threading.Event()

# what a reply tells, or what a check puts in its place
Tree = Any
Reply = tuple[int, Any, bytes]


# Packages.


def there(package: str) -> bool:
    """Whether a package is installed."""
    command = PACKAGES[package]
    if command is None:
        return importlib.util.find_spec("jsonschema") is not None
    return shutil.which(command, path=f"{os.environ['PATH']}:/usr/sbin") is not None


def need(package: str) -> None:
    """Skips a check where a package isn't there."""
    if not there(package):
        raise Skipped(f"the package {package} isn't there (--install)")


def install() -> None:
    """Installs what isn't there, where this runs as root and apt has it."""
    wanted = [package for package in PACKAGES if not there(package)]
    if not wanted or os.geteuid() != 0 or not shutil.which("apt-get"):
        return
    quiet = {"DEBIAN_FRONTEND": "noninteractive", **os.environ}
    words = ["apt-get", "-qq", "-o", "Acquire::Retries=0", "-o", "Acquire::http::Timeout=10"]
    with contextlib.suppress(subprocess.TimeoutExpired):
        run(*words, "update", env=quiet, timeout=120)
        for package in wanted:
            tries = [*words, "install", "-y", "--no-install-recommends", package]
            run(*tries, env=quiet, timeout=300)
    importlib.invalidate_caches()


# Addresses, processes and time.

ports: set[int] = set()
ports_lock = threading.Lock()


def free_address() -> str:
    """An address on which nobody listens, and which isn't given twice."""
    with ports_lock:
        while True:
            port = random.randrange(10_000, 32_000)
            with contextlib.suppress(OSError), socket.create_server(("127.0.0.1", port)):
                if port not in ports:
                    ports.add(port)
                    return f"127.0.0.1:{port}"


def port_of(address: str) -> int:
    return int(address.rpartition(":")[2])


def wait_for(holds: Callable[[], bool], what: str, seconds: float = 20.0) -> None:
    """Waits until something holds."""
    until = time.monotonic() + seconds
    while not holds():
        demand(time.monotonic() < until, f"after {seconds} seconds not yet: {what}")
        time.sleep(0.02)


def get(address: str, path: str, method: str = "GET", body: bytes | None = None) -> Reply:
    """Status, head and body of a reply."""
    link = http.client.HTTPConnection("127.0.0.1", port_of(address), timeout=SECONDS)
    try:
        link.request(method, path, body)
        reply = link.getresponse()
        return reply.status, reply.headers, reply.read()
    finally:
        link.close()


def tree(address: str, path: str) -> Tree:
    """What a reply of 200 tells."""
    status, _, body = get(address, path)
    demand(status == 200, f"{path} is answered by {status}")
    return json.loads(body)


def answers(address: str, path: str) -> int | None:
    """The status of a reply, or None where there is none."""
    try:
        return get(address, path)[0]
    except (OSError, http.client.HTTPException):
        return None


def run(*words: object, **how: Any) -> tuple[int, str]:
    """What a command ended with, and what it told."""
    how = {"stdout": subprocess.PIPE, "stderr": subprocess.STDOUT, "timeout": SECONDS, **how}
    ran = subprocess.run([str(word) for word in words], **how)
    return ran.returncode, ran.stdout.decode(errors="replace")


class Served:
    """The program over a store, at two addresses that stay."""

    def __init__(
        self, desk: "Desk", name: str = "store", profile: str = "regtest", depth: int = 100
    ) -> None:
        self.program, self.folder = desk.program, desk.folder / name
        self.folder.mkdir()
        self.public, self.operator = free_address(), free_address()
        served = ["serve", TURNS, self.public, self.operator]
        self.words = [str(self.program), str(self.folder), *served]
        status, told = run(self.program, self.folder, "init", profile, str(depth))
        demand(status == 0, f"`init` ended with {status}: {told}")
        desk.keep(self.kill)
        self.start()

    def start(self) -> None:
        with open(f"{self.folder}.log", "ab") as log:
            self.child = subprocess.Popen(self.words, stdout=log, stderr=log)
        wait_for(
            lambda: self.child.poll() is not None or answers(self.public, "/status") == 200,
            "the program answers",
        )
        demand(self.child.poll() is None, f"`serve` ended with {self.child.returncode}")

    def kill(self) -> None:
        self.child.kill()
        self.child.wait()

    def status(self) -> Tree:
        return tree(self.public, "/status")


class Feed:
    """The running feeder."""

    def __init__(
        self,
        desk: "Desk",
        ox: str,
        node: StubNode,
        *words: str,
        env: dict[str, str] | None = None,
    ) -> None:
        self.log = desk.folder / f"feed{len(desk.after)}.log"
        given = ["--ox", ox, "--node", node.address, "--cookie", str(node.cookie_file)]
        with open(self.log, "wb") as log:
            self.child = subprocess.Popen(
                [sys.executable, str(FEED), *given, *words],
                stdout=log,
                stderr=log,
                env={**os.environ, **(env or {})},
            )
        desk.keep(self.kill)

    def kill(self) -> None:
        self.child.kill()
        self.child.wait()

    def told(self) -> str:
        return self.log.read_text()

    def ends(self, status: int = 0, seconds: float = 40.0) -> None:
        try:
            got = self.child.wait(seconds)
        except subprocess.TimeoutExpired:
            raise Failed(f"the feeder goes on: {self.told()[-500:]}") from None
        demand(got == status, f"the feeder ended with {got}: {self.told()[-500:]}")

    def stops(self, number: signal.Signals = signal.SIGTERM, seconds: float = 2.0) -> None:
        """A signal ends it in time."""
        self.child.send_signal(number)
        self.ends(0, seconds)


class Desk:
    """What a check works with."""

    def __init__(self, program: pathlib.Path, folder: pathlib.Path) -> None:
        self.program, self.folder = program, folder
        self.after: list[Callable[[], object]] = []

    def keep(self, end: Callable[[], object]) -> None:
        """Has this done at the end."""
        self.after.append(end)

    def clear(self) -> None:
        for end in reversed(self.after):
            end()

    def node(self, count: int = 0, rest: bool = True, chain: str = "regtest") -> StubNode:
        folder = self.folder / f"node{len(self.after)}"
        folder.mkdir()
        node = StubNode(folder, rest, chain)
        self.keep(node.stop)
        node.extend(count)
        return node

    def served(self, name: str = "store", profile: str = "regtest", depth: int = 100) -> Served:
        return Served(self, name, profile, depth)

    def feed(
        self,
        served: "Served | Between | str",
        node: StubNode,
        *words: str,
        env: dict[str, str] | None = None,
    ) -> Feed:
        ox = served if isinstance(served, str) else served.operator
        return Feed(self, ox, node, *words, env=env)

    def feed_once(self, served: "Served | Between", node: StubNode, status: int = 0) -> Feed:
        feed = self.feed(served, node, "--once")
        feed.ends(status)
        return feed


# every check of this folder
every = Checks(Desk, Desk.clear, AT_ONCE)


def is_at(served: Served, node: StubNode) -> bool:
    return bool(served.status()["tip"] == node.active[-1])


def agrees(served: Served, node: StubNode) -> None:
    """Each hash has to be the node's, and the audit has to balance."""
    demand(served.status()["blocks"] == len(node.active), f"there is {served.status()}")
    for height, name in enumerate(node.active):
        got = tree(served.public, f"/blockhash/{height}")["hash"]
        demand(got == name, f"block {height} is {got}, and {name} of the node")
    audit = tree(served.public, "/audit")
    demand(audit["claimable"] == audit["lost"] + audit["outputs"], f"satoshis: {audit}")
    for rune in audit["runes"]:
        given = int(rune["minted"]) + int(rune["premine"])
        demand(int(rune["burned"]) + int(rune["held"]) == given, f"runes: {rune}")
    demand(len(node.active) < 2 or audit["runes"], "there is no rune")


# what is done with a command, by its number: `lose` its reply, `503` in its place, or nothing
Meddle = Callable[[int], str | None]


class Between(Doors):
    """Stands between the feeder and the operator's door: hands requests on, and lets `meddle` see
    each, by its number among those to commands. That may answer `lose` (the reply is lost), `503`
    (nothing is handed on) or nothing."""

    def __init__(self, desk: Desk, served: Served, meddle: Meddle = lambda number: None) -> None:
        self.served, self.meddle = served, meddle
        self.commands: list[tuple[str, bytes]] = []
        self.paths: list[str] = []
        self.operator = free_address()
        super().__init__(("127.0.0.1", port_of(self.operator)), Meddler)
        threading.Thread(target=self.serve_forever, args=(0.05,), daemon=True).start()
        desk.keep(self.end)


class Meddler(http.server.BaseHTTPRequestHandler):
    protocol_version = "HTTP/1.1"

    def setup(self) -> None:
        super().setup()
        self.connection.setsockopt(socket.IPPROTO_TCP, socket.TCP_NODELAY, 1)

    def do_GET(self) -> None:
        between = self.server
        assert isinstance(between, Between)
        body = self.rfile.read(int(self.headers.get("Content-Length", 0)))
        between.paths.append(self.path)
        told = None
        if self.command == "POST":
            between.commands.append((self.path, body))
            told = between.meddle(len(between.commands))
        if told == "503":
            self.close_connection = True
            self.reply(503, {}, b"")
            return
        status, head, got = get(between.served.operator, self.path, self.command, body)
        if told == "lose":
            self.close_connection = True
            return
        self.reply(status, head, got)

    do_POST = do_GET

    def reply(self, status: int, head: Any, body: bytes) -> None:
        self.send_response_only(status)
        self.send_header("Content-Type", head.get("Content-Type", "text/plain"))
        self.send_header("Content-Length", str(len(body)))
        self.end_headers()
        self.wfile.write(body)

    def log_message(self, *_: object) -> None:
        pass
