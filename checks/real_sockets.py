#!/usr/bin/env python3
"""Runs the built program as a server on loopback, and looks at what real clients get.

No proof says which bytes a socket gives or takes, so this tries it: curl and Python's client,
requests in single bytes and a thousand at once, clients that close half of a link, reset it, never
read, read late, send a byte now and then or an urgent one, more links than there are slots, bodies
that are too long or never come, a block of four million bytes, addresses that can't be had, a
listener that ends, a folder that another program has, kills during posts, and the processor that an
idle server takes.
Each check has a new folder below out/ beside this script, that is gone where it passed. A check
that fails is told with its cause, and its folder stays. The last line says how many passed and how
many failed, and the status is 1 where one failed. It takes a minute and a quarter, for which the
longest check waits beside the others.
"""

import contextlib
import ctypes
import http.client
import itertools
import json
import os
import pathlib
import random
import resource
import select
import signal
import socket
import struct
import subprocess
import sys
import threading
import time

from chain import chain
from store_files import file_a
from tools.checks import Checks, Failed, demand

SECONDS = 60
# more turns than any check takes
TURNS = "18446744073709551615"
SLOTS = 32
KILLS = 20
SEED = 1
IDLE_NANOSECONDS = 20_000_000
LITTLE = 64_000_000
# the number of the system's call that takes a descriptor of another process
PIDFD_GETFD = 438
PHRASES = {
    200: "OK",
    400: "Bad Request",
    403: "Forbidden",
    404: "Not Found",
    405: "Method Not Allowed",
    409: "Conflict",
    411: "Length Required",
    413: "Content Too Large",
    431: "Request Header Fields Too Large",
}

# What is to be shown, by docs/FORMATS.md.


def text(tree):
    """The compact text of a tree with sorted keys."""
    return json.dumps(tree, ensure_ascii=False, sort_keys=True, separators=(",", ":")).encode()


def reply(status, tree, close=False):
    """A whole reply of JSON."""
    body = text(tree)
    head = (
        f"HTTP/1.1 {status} {PHRASES[status]}\r\nContent-Type: application/json\r\n"
        f"Content-Length: {len(body)}\r\n{'Connection: close' if close else ''}"
    )
    return (head + ("\r\n\r\n" if close else "\r\n")).encode() + body


def refusal(status, close=False):
    return reply(status, {"error": status}, close)


def status_tree(blocks, tip, depth=100):
    return {
        "blocks": blocks,
        "depth": depth,
        "kept": min(blocks, depth),
        "profile": "regtest",
        "tip": tip,
    }


def status_of(blocks, tip, close=False):
    return reply(200, status_tree(blocks, tip), close)


def newest(tips, height):
    return reply(200, {"hash": tips[height], "height": height})


# What is asked.


def get(path, *fields):
    return "".join(part + "\r\n" for part in (f"GET {path} HTTP/1.1", *fields, "")).encode()


def post(path, body):
    return f"POST {path} HTTP/1.1\r\nContent-Length: {len(body)}\r\n\r\n".encode() + body


STATUS = get("/status")


# A program that serves.


class Server:
    """The program over a folder of its own, at two ports."""

    def __init__(self, program, folder, kills=KILLS):
        self.program, self.folder, self.kills = program, folder, kills
        self.public, self.operator = free_ports()
        self.child = None

    def run(self, *words, **how):
        """The status of another subcommand, and what was shown."""
        ran = subprocess.run(
            [self.program, self.folder, *words],
            stdin=subprocess.DEVNULL,
            stdout=subprocess.PIPE,
            stderr=subprocess.DEVNULL,
            timeout=SECONDS,
            **how,
        )
        return ran.returncode, ran.stdout

    def init(self):
        got = self.run("init", "regtest", "100")
        demand(got == (0, b"ok empty\n"), f"`init` ended with {got}")

    def addresses(self):
        return f"127.0.0.1:{self.public}", f"127.0.0.1:{self.operator}"

    @contextlib.contextmanager
    def serving(self, turns=TURNS, **how):
        """Serves, and is stopped in the end, where it hasn't ended by itself."""
        words = [self.program, self.folder, "serve", turns, *self.addresses()]
        how = {"stdout": subprocess.PIPE, "stderr": subprocess.DEVNULL, **how}
        self.child = subprocess.Popen(words, stdin=subprocess.DEVNULL, **how)
        try:
            self.wait()
            yield self
        finally:
            self.child.terminate()
            self.child.wait(SECONDS)
            self.child.stdout.close()

    def wait(self):
        """Waits until both doors are open."""
        for port in (self.public, self.operator):
            until = time.monotonic() + SECONDS
            while True:
                with socket.socket() as probe:
                    if probe.connect_ex(("127.0.0.1", port)) == 0:
                        break
                demand(self.child.poll() is None, f"it ended with {self.child.poll()}")
                demand(time.monotonic() < until, "nobody listens")
                time.sleep(0.01)

    def link(self, port=None, room=None):
        """A new link, which may have a small room for what comes."""
        link = socket.socket()
        if room:
            link.setsockopt(socket.SOL_SOCKET, socket.SO_RCVBUF, room)
        link.settimeout(SECONDS)
        link.connect(("127.0.0.1", port or self.public))
        link.setsockopt(socket.IPPROTO_TCP, socket.TCP_NODELAY, 1)
        return link

    def asks(self, request, port=None):
        """What a new link is shown until it is closed, of a request that says so."""
        with self.link(port) as link:
            link.sendall(request)
            return everything(link)

    def descriptors(self):
        """How many descriptors the program has."""
        return len(os.listdir(f"/proc/{self.child.pid}/fd"))

    def has_descriptors(self, most, seconds):
        """Within so many seconds it has at most so many descriptors."""
        until = time.monotonic() + seconds
        while (count := self.descriptors()) > most:
            demand(time.monotonic() < until, f"it has {count} descriptors, and had {most}")
            time.sleep(0.1)

    def is_served(self):
        """A new link is answered."""
        got = self.asks(get("/status", "Connection: close"))
        demand(got.startswith(b"HTTP/1.1 200 OK\r\n"), f"another link was shown {got[:100]}")


every = Checks(Server)


def free_ports():
    """Two ports that nobody listens at."""
    with socket.socket() as one, socket.socket() as two:
        one.bind(("127.0.0.1", 0))
        two.bind(("127.0.0.1", 0))
        return one.getsockname()[1], two.getsockname()[1]


def exactly(link, count):
    """The next so many bytes, or fewer where the link ends."""
    got = b""
    while len(got) < count:
        piece = link.recv(min(count - len(got), 1 << 20))
        if not piece:
            break
        got += piece
    return got


def everything(link):
    got = b""
    while piece := link.recv(1 << 20):
        got += piece
    return got


def wants(got, wanted):
    demand(got == wanted, f"{got[:300]} was shown, not {wanted[:300]}")


# Clients.


@every.check("curl is answered, and posts a block")
def by_curl(server):
    blocks, tips = chain(1)
    server.init()
    body = server.folder / "block"
    body.write_bytes(blocks[0])
    with server.serving():
        public, operator = (f"http://{address}" for address in server.addresses())
        curl = ["curl", "--silent", "--show-error", "--max-time", str(SECONDS), "--include"]
        ran = [
            (curl + [f"{public}/status"], status_of(0, None)),
            (
                curl + ["-H", "Expect:", "--data-binary", f"@{body}", f"{operator}/connect"],
                newest(tips, 0),
            ),
            (curl + [f"{operator}/status"], status_of(1, tips[0])),
            (curl + ["--data-binary", "", f"{public}/disconnect"], refusal(403)),
        ]
        for words, wanted in ran:
            wants(subprocess.run(words, stdout=subprocess.PIPE, timeout=SECONDS).stdout, wanted)
    body.unlink()


@every.check("Python's client asks a hundred times on one link")
def by_client(server):
    server.init()
    with server.serving():
        client = http.client.HTTPConnection("127.0.0.1", server.public, timeout=SECONDS)
        for number in range(100):
            path, wanted = [("/status", 200), ("/sat/0", 200), ("/none", 404)][number % 3]
            client.request("GET", path)
            got = client.getresponse()
            body = got.read()
            demand(got.status == wanted, f"{path} was answered {got.status}")
            if path == "/status":
                wants(body, text(status_tree(0, None)))
        client.close()


@every.check("a body above 4,000,000 bytes is refused, and Python's client reads the reply")
def too_long(server):
    server.init()
    with server.serving():
        for _ in range(10):
            client = http.client.HTTPConnection("127.0.0.1", server.operator, timeout=SECONDS)
            with contextlib.suppress(BrokenPipeError, ConnectionResetError):
                client.request("POST", "/connect", body=bytes(6_000_000))
            got = client.getresponse()
            demand(got.status == 413, f"it was answered {got.status}")
            wants(got.read(), text({"error": 413}))
            client.close()


@every.check("a thousand requests that are sent at once are answered in order")
def pipelined(server):
    server.init()
    with server.serving(), server.link() as link:
        asked = [("/status", status_of(0, None)), ("/none", refusal(404))]
        parts = [asked[number % 2] for number in range(1000)]
        link.sendall(b"".join(get(path) for path, _ in parts))
        wanted = b"".join(part for _, part in parts)
        wants(exactly(link, len(wanted)), wanted)


@every.check("a request may come in single bytes")
def single_bytes(server):
    blocks, tips = chain(1)
    server.init()
    with server.serving():
        with server.link(server.operator) as link:
            for byte in post("/connect", blocks[0]):
                link.sendall(bytes([byte]))
            wanted = newest(tips, 0)
            wants(exactly(link, len(wanted)), wanted)
        wants(server.asks(get("/status", "Connection: close")), status_of(1, tips[0], True))


@every.check("a client that closes its half of a link gets its replies, and the link ends")
def half_closed(server):
    server.init()
    with server.serving(), server.link() as link:
        link.sendall(STATUS * 3)
        link.shutdown(socket.SHUT_WR)
        wants(everything(link), status_of(0, None) * 3)


@every.check("a client that resets a link ends it alone")
def reset(server):
    server.init()
    with server.serving():
        for request in (b"", b"GET /sta", STATUS, STATUS * 1000):
            link = server.link()
            link.setsockopt(socket.SOL_SOCKET, socket.SO_LINGER, struct.pack("ii", 1, 0))
            link.sendall(request)
            link.close()
            server.is_served()


@every.check("beside a client that never reads another one is served")
def never_reads(server):
    server.init()
    with server.serving(), server.link() as idle:
        idle.setblocking(False)
        with contextlib.suppress(BlockingIOError):
            while True:
                idle.send(STATUS * 1000)
        with server.link() as link:
            for _ in range(100):
                link.sendall(STATUS)
                wants(exactly(link, len(status_of(0, None))), status_of(0, None))


@every.check("a 33rd link waits until another one ends")
def more_than_slots(server):
    server.init()
    with server.serving(), contextlib.ExitStack() as links:
        wanted = status_of(0, None)
        opened = []
        # the two that waited for the doors are gone by now, or go meanwhile
        for _ in range(SLOTS):
            link = links.enter_context(server.link())
            link.sendall(STATUS)
            wants(exactly(link, len(wanted)), wanted)
            opened.append(link)
        late = links.enter_context(server.link())
        late.sendall(STATUS)
        late.settimeout(0.5)
        with contextlib.suppress(TimeoutError):
            raise Failed(f"it was shown {late.recv(1)}")
        opened[4].close()
        late.settimeout(SECONDS)
        wants(exactly(late, len(wanted)), wanted)


def little():
    resource.setrlimit(resource.RLIMIT_AS, (LITTLE, LITTLE))


@every.check("beside 31 links that tell of 4,000,000 bytes and send none another one is served")
def bodies_that_never_come(server):
    blocks, tips = chain(1)
    server.init()
    head = b"POST /connect HTTP/1.1\r\nContent-Length: 4000000\r\n\r\n"
    with server.serving(preexec_fn=little), contextlib.ExitStack() as links:
        for number in range(SLOTS - 1):
            port = server.operator if number % 2 else server.public
            links.enter_context(server.link(port)).sendall(head)
        with server.link(server.operator) as link:
            for request, wanted in [
                (STATUS, status_of(0, None)),
                (post("/connect", blocks[0]), newest(tips, 0)),
                (STATUS, status_of(1, tips[0])),
            ]:
                link.sendall(request)
                wants(exactly(link, len(wanted)), wanted)


# Hostile and slow clients.


@every.check("a reply is whole to a client that sent more, closed its half and reads late")
def reads_late(server):
    server.init()
    with server.serving(), server.link(room=4096) as link:
        last = get("/status", "Connection: close")
        link.sendall(STATUS * 2000 + last + bytes(100_000))
        link.shutdown(socket.SHUT_WR)
        time.sleep(1)
        wants(everything(link), status_of(0, None) * 2000 + status_of(0, None, True))


@every.check("what stands behind an urgent mark is heard")
def urgent(server):
    server.init()
    with server.serving(), server.link() as link:
        wanted = status_of(0, None)
        for _ in range(5):
            link.sendall(STATUS)
            wants(exactly(link, len(wanted)), wanted)
            # so that the system tells of all of it at once
            server.child.send_signal(signal.SIGSTOP)
            link.sendall(STATUS[:9])
            link.send(b"!", socket.MSG_OOB)
            link.sendall(STATUS[9:])
            time.sleep(0.05)
            server.child.send_signal(signal.SIGCONT)
            link.settimeout(5)
            wants(exactly(link, len(wanted)), wanted)


@every.check("a hundred links that are reset leave nothing behind")
def hundred_resets(server):
    server.init()
    with server.serving():
        server.is_served()
        before = server.descriptors()
        for number in range(100):
            link = server.link()
            link.sendall(STATUS * (number % 3))
            link.setsockopt(socket.SOL_SOCKET, socket.SO_LINGER, struct.pack("ii", 1, 0))
            link.close()
        server.is_served()
        server.has_descriptors(before, 5)


@every.check("beside links of a byte now and then the operator posts, and who asks stays")
def drips(server):
    blocks, tips = chain(1)
    server.init()
    with server.serving(), server.link() as asks, dripping(server, SLOTS + 8):
        with server.link(server.operator) as operator:
            operator.settimeout(0.1)
            operator.sendall(post("/connect", blocks[0]))
            until, got = time.monotonic() + 15, b""
            for turn in itertools.count():
                with contextlib.suppress(TimeoutError):
                    got = operator.recv(1 << 16)
                if got:
                    break
                demand(time.monotonic() < until, "the operator isn't answered in 15 seconds")
                if turn % 30 == 0:
                    asks.sendall(get("/none"))
                    wants(exactly(asks, len(refusal(404))), refusal(404))
            wants(got, newest(tips, 0))


@contextlib.contextmanager
def dripping(server, count):
    """Has so many public links send a byte each three seconds, and come again when they are
    ended."""
    ends = threading.Event()
    drips = threading.Thread(target=drip, args=(server, count, ends))
    drips.start()
    try:
        time.sleep(1)
        yield
    finally:
        ends.set()
        drips.join()


def drip(server, count, ends):
    links = []
    while not ends.is_set():
        still = []
        for link in links:
            try:
                link.send(b"G")
                if link.recv(1) == b"":
                    raise ConnectionResetError
            except BlockingIOError:
                still.append(link)
            except OSError:
                link.close()
        links = still
        while len(links) < count:
            link = server.link()
            link.setblocking(False)
            links.append(link)
        ends.wait(3)
    for link in links:
        link.close()


@every.check("a head has a minute in all, and a body more", beside=True)
def a_minute(server):
    server.init()
    with server.serving(), server.link() as head, server.link() as body, server.link() as silent:
        began = time.monotonic()
        body.sendall(b"POST /connect HTTP/1.1\r\nContent-Length: 1000\r\n\r\n")
        ended = {}
        while (now := time.monotonic() - began) < 70 and len(ended) < 2:
            for name, link in ("head", head), ("silent", silent):
                if name not in ended and has_ended(link):
                    ended[name] = now
            if int(now) % 2 == 0:
                with contextlib.suppress(OSError):
                    head.send(b"G")
                body.send(b"B")
            time.sleep(1)
        for name in ("head", "silent"):
            demand(55 < ended.get(name, 0) < 66, f"the link ended so: {ended}")
        time.sleep(5)
        body.sendall(bytes(1000))
        got = exactly(body, 12)
        demand(got == b"HTTP/1.1 403", f"{got} was shown to the body of a minute")


def has_ended(link):
    """Whether the other side has ended the link, without waiting for it."""
    if not select.select([link], [], [], 0)[0]:
        return False
    try:
        return link.recv(1) == b""
    except OSError:
        return True


@every.check(
    "a link that was shut stays for ten seconds, and one that still sends isn't pushed out"
)
def lingers(server):
    server.init()
    with server.serving(), contextlib.ExitStack() as links:
        server.is_served()
        before = server.descriptors()
        sends = links.enter_context(server.link(server.operator))
        sends.sendall(b"POST /connect HTTP/1.1\r\nContent-Length: 6000000\r\n\r\n")
        sends.recv(1, socket.MSG_PEEK)
        began = time.monotonic()
        sends.sendall(bytes(1000))
        for number in range(80):
            link = links.enter_context(server.link())
            link.sendall(get("/status", "Connection: close"))
            everything(link)
            if number % 8 == 0 and time.monotonic() - began < 0.8:
                sends.sendall(bytes(1000))
        if time.monotonic() - began < 0.8:
            for _ in range(3):
                time.sleep(0.02)
                sends.sendall(bytes(1000))
        got = exactly(sends, 12)
        demand(got == b"HTTP/1.1 413", f"{got} was shown")
        server.has_descriptors(before, 15)
        demand(time.monotonic() > began + 9, "the links were closed at once")


@every.check("status 7: a listener that listens no more")
def dead_listener(server):
    for door in ("public", "operator"):
        with contextlib.suppress(FileNotFoundError):
            (server.folder / "a.ox").unlink()
            (server.folder / "b.ox").unlink()
        server.public, server.operator = free_ports()
        server.init()
        with server.serving():
            server.is_served()
            if not close_listener(server.child.pid, getattr(server, door)):
                print("skipped: no leave to close a listener of the program", flush=True)
                return
            server.child.wait(5)
            demand(server.child.returncode == 7, f"it ended with {server.child.returncode}")


def close_listener(pid, port):
    """Has the program's listener at this port listen no more: false where that isn't allowed."""
    process = os.pidfd_open(pid)
    getfd = ctypes.CDLL(None, use_errno=True).syscall
    try:
        for name in os.listdir(f"/proc/{pid}/fd"):
            if "socket" not in os.readlink(f"/proc/{pid}/fd/{name}"):
                continue
            number = getfd(PIDFD_GETFD, process, int(name), 0)
            if number < 0:
                return False
            with socket.socket(fileno=number) as ours:
                listens = ours.getsockopt(socket.SOL_SOCKET, socket.SO_ACCEPTCONN)
                if listens and ours.getsockname()[1] == port:
                    ours.shutdown(socket.SHUT_RDWR)
                    return True
    finally:
        os.close(process)
    raise Failed(f"nobody listens at {port}")


# Commands.


@every.check("an operator's link posts commands, and a public one may not")
def commands(server):
    blocks, tips = chain(3)
    server.init()
    with server.serving(), server.link() as public, server.link(server.operator) as operator:
        for link, request, wanted in [
            (public, STATUS, status_of(0, None)),
            (operator, post("/connect", blocks[0]), newest(tips, 0)),
            (public, STATUS, status_of(1, tips[0])),
            (public, post("/connect", blocks[1]), refusal(403)),
            (operator, post("/connect", blocks[1][:-1]), None),
            (operator, post("/connect", blocks[1]), newest(tips, 1)),
            (operator, post("/disconnect", b""), newest(tips, 0)),
            (operator, post("/disconnect", b"any"), reply(200, {"hash": None, "height": None})),
            (operator, post("/disconnect", b""), reply(409, {"refused": "11"})),
            (operator, STATUS, status_of(0, None)),
        ]:
            link.sendall(request)
            if wanted is None:
                wanted = reply(409, {"refused": f"3 {len(blocks[1]) - 1}"})
                got = exactly(link, 12)
                demand(got == b"HTTP/1.1 409", f"{got} was shown")
                got += exactly(link, len(wanted) - 12)
            else:
                got = exactly(link, len(wanted))
                wants(got, wanted)


@every.check("a block of nearly four million bytes is posted and kept")
def large_block(server):
    blocks, tips = chain(3, lambda height: bytes(3_999_800))
    server.init()
    with server.serving(), server.link(server.operator) as operator:
        for height, block in enumerate(blocks):
            operator.sendall(post("/connect", block))
            wanted = newest(tips, height)
            wants(exactly(operator, len(wanted)), wanted)
            demand(
                (server.folder / "a.ox").read_bytes() == file_a(blocks[: height + 1]),
                "the file doesn't have the blocks",
            )
    got = server.run("query", "/status")
    demand(got == (0, text(status_tree(3, tips[2]))), f"{got} was told then")


# Ends.


@every.check("so many turns are made, and the requests and hits of them are told")
def counted(server):
    blocks, tips = chain(1)
    server.init()
    with server.serving("3000"):
        with server.link() as public, server.link(server.operator) as operator:
            for link, request, wanted in [
                (public, STATUS, status_of(0, None)),
                (public, STATUS, status_of(0, None)),
                (operator, post("/connect", blocks[0]), newest(tips, 0)),
                (public, STATUS, status_of(1, tips[0])),
                (public, STATUS, status_of(1, tips[0])),
                (public, get("/none"), refusal(404)),
                (public, get("/none"), refusal(404)),
            ]:
                link.sendall(request)
                wants(exactly(link, len(wanted)), wanted)
        shown, _ = server.child.communicate(timeout=SECONDS)
        wants(shown, b"requests 7 hits 3\n")
        demand(server.child.returncode == 0, f"it ended with {server.child.returncode}")


@every.check("words that are missing, wrong or too many")
def words(server):
    server.init()
    public, operator = server.addresses()
    for given, wanted in [
        (["serve"], (1, b"")),
        (["serve", "10"], (1, b"")),
        (["serve", "10", public], (1, b"")),
        (["serve", "0", public, operator], (1, b"usage\n")),
        (["serve", "01", public, operator], (1, b"usage\n")),
        (["serve", "18446744073709551616", public, operator], (1, b"usage\n")),
        (["serve", "10", public, operator, "more"], (1, b"usage\n")),
        (["serve", "5", public, operator], (0, b"requests 0 hits 0\n")),
    ]:
        got = server.run(*given)
        demand(got == wanted, f"{given} ended with {got}, not with {wanted}")


@every.check("status 3: files that are no store")
def no_store(server):
    for name in ("a.ox", "b.ox"):
        (server.folder / name).write_bytes(b"\0")
    got = server.run("serve", "5", *server.addresses())
    demand(got == (3, b"not a store a 0\n"), f"it ended with {got}")


@every.check("status 4: a second program over one folder, whatever it is asked for")
def second_program(server):
    server.init()
    files = [(server.folder / name).read_bytes() for name in ("a.ox", "b.ox")]
    with server.serving():
        for given in (
            ["query", "/status"],
            ["apply"],
            ["init", "regtest", "100"],
            ["fold", "regtest"],
            ["serve", "5", "127.0.0.1:0", "127.0.0.1:0"],
            ["none"],
        ):
            got = server.run(*given)
            demand(got == (4, b""), f"{given} ended with {got}")
        server.is_served()
    demand(
        files == [(server.folder / name).read_bytes() for name in ("a.ox", "b.ox")],
        "a file was changed",
    )
    got = server.run("query", "/status")
    demand(got == (0, text(status_tree(0, None))), f"{got} was told then")


@every.check("status 7: an address that is in use or can't be read")
def no_address(server):
    server.init()
    public, operator = server.addresses()
    with socket.socket() as taken:
        taken.bind(("127.0.0.1", 0))
        taken.listen()
        used = f"127.0.0.1:{taken.getsockname()[1]}"
        for one, two in [
            (used, operator),
            (public, used),
            (public, public),
            ("localhost:80", operator),
            (public, ""),
            (b"\xff", operator),
            ("127.0.0.1", operator),
            (public, "127.0.0.1:65536"),
        ]:
            got = server.run("serve", "5", one, two)
            demand(got == (7, b""), f"at {one} and {two} it ended with {got}")


def begin_anew(server):
    """An empty store in place of the one that is there, if there is one."""
    for name in ("a.ox", "b.ox"):
        (server.folder / name).unlink(missing_ok=True)
    server.init()


@every.check("whatever is posted when the program is killed, the store has what was answered")
def killed(server):
    chance = random.Random(SEED)
    blocks, tips = chain(400)
    have = len(blocks)
    for _ in range(server.kills):
        if have == len(blocks):
            begin_anew(server)
            have = 0
        with server.serving(), server.link(server.operator) as operator:
            ends = time.monotonic() + chance.uniform(0, 0.2)
            with contextlib.suppress(ConnectionResetError, BrokenPipeError):
                while time.monotonic() < ends and have < len(blocks):
                    operator.sendall(post("/connect", blocks[have]))
                    if chance.randrange(20) == 0:
                        break
                    wanted = newest(tips, have)
                    wants(exactly(operator, len(wanted)), wanted)
                    have += 1
            server.child.send_signal(chance.choice([signal.SIGKILL, signal.SIGTERM]))
            server.child.wait(SECONDS)
        code, shown = server.run("query", "/status")
        demand(code == 0, f"the store opens with {code}")
        now = json.loads(shown)["blocks"]
        demand(now in (have, have + 1), f"{now} blocks are opened, and {have} were answered")
        wants(shown, text(status_tree(now, tips[now - 1] if now else None)))
        have = now


@every.check("an idle server takes next to no processor, with and without links")
def idle(server):
    server.init()
    with server.serving(), contextlib.ExitStack() as links:
        for count in (0, 8):
            for _ in range(count):
                link = links.enter_context(server.link())
                link.sendall(STATUS)
                wants(exactly(link, len(status_of(0, None))), status_of(0, None))
            time.sleep(0.2)
            before = processor_time(server.child.pid)
            time.sleep(1)
            taken = processor_time(server.child.pid) - before
            demand(
                taken < IDLE_NANOSECONDS,
                f"with {count} links an idle second takes {taken / 1e6:.1f} ms of processor",
            )


def processor_time(pid):
    """The nanoseconds of processor that a process took."""
    return int(pathlib.Path(f"/proc/{pid}/schedstat").read_text().split()[0])


def main():
    words = every.parser(__doc__)
    words.add_argument(
        "--kills", type=int, default=KILLS, metavar="N", help="how often a server is killed (20)"
    )
    said = words.parse_args()
    every.make = lambda program, folder: Server(program, folder, said.kills)
    return every.run(said, pathlib.Path(__file__).resolve().parent / "out")


if __name__ == "__main__":
    sys.exit(main())
