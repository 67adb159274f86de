"""Checks of the proxy: HAProxy in front of two programs, by service/haproxy.cfg."""

import concurrent.futures
import http.client
import http.server
import json
import os
import pathlib
import re
import shutil
import ssl
import subprocess
import threading
import time

from stub_node import Doors, StubNode
from tests.standing import SECONDS, SERVICE, Desk, Reply, Served, every, free_address, get, need
from tests.standing import port_of, run, tree, wait_for
from tools.checks import demand

CLIENTS = 200
# how many links the proxy may have to one program, and how many clients' requests it may take
LINKS, RATE = 24, 1_000_000


class Ready(Doors):
    """Answers for a replica's feeder."""

    def __init__(self, desk: Desk) -> None:
        self.address, self.status = free_address(), 200
        super().__init__(("127.0.0.1", port_of(self.address)), ReadyReply)
        threading.Thread(target=self.serve_forever, args=(0.05,), daemon=True).start()
        desk.keep(self.end)


class ReadyReply(http.server.BaseHTTPRequestHandler):
    def do_GET(self) -> None:
        assert isinstance(self.server, Ready)
        self.send_response(self.server.status)
        self.end_headers()

    def log_message(self, *_: object) -> None:
        pass


TRUSTING = ssl.SSLContext(ssl.PROTOCOL_TLS_CLIENT)
TRUSTING.check_hostname, TRUSTING.verify_mode = False, ssl.CERT_NONE


class Proxy:
    """HAProxy in front of two replicas, as haproxy.cfg has it."""

    def __init__(self, desk: Desk, one: Served, two: Served, rate: int = RATE) -> None:
        need("haproxy")
        self.address, self.plain = free_address(), free_address()
        self.ready = [Ready(desk), Ready(desk)]
        pem = desk.folder / "ox.pem"
        status, told = run(
            *"openssl req -x509 -newkey rsa:2048 -nodes -days 2 -subj /CN=localhost".split(),
            *("-keyout", pem, "-out", f"{pem}.crt"),
        )
        demand(status == 0, told)
        pem.write_bytes(pem.read_bytes() + pathlib.Path(f"{pem}.crt").read_bytes())
        env = {
            "OX_TLS": self.address,
            "OX_PLAIN": self.plain,
            "OX_PEM": str(pem),
            "OX_ONE": one.public,
            "OX_TWO": two.public,
            "OX_ONE_READY": str(port_of(self.ready[0].address)),
            "OX_TWO_READY": str(port_of(self.ready[1].address)),
            "OX_RATE": str(rate),
        }
        config = SERVICE / "haproxy.cfg"
        if os.geteuid() != 0:
            text = re.sub(r"(?m)^ +(user|group) haproxy\n", "", config.read_text())
            config = desk.folder / "haproxy.cfg"
            config.write_text(text)
        with open(desk.folder / "haproxy.log", "wb") as log:
            self.child = subprocess.Popen(
                ["haproxy", "-db", "-f", config],
                stdout=log,
                stderr=log,
                env={**os.environ, **env},
            )
        desk.keep(self.kill)
        wait_for(lambda: self.status() == 200, "the proxy answers")
        time.sleep(1.5)  # every server was looked at

    def kill(self) -> None:
        self.child.kill()
        self.child.wait()

    def link(self) -> http.client.HTTPSConnection:
        """A link by TLS."""
        port = port_of(self.address)
        return http.client.HTTPSConnection("127.0.0.1", port, timeout=SECONDS, context=TRUSTING)

    def ask(self, *requests: tuple[str, str]) -> list[Reply]:
        """The replies to requests on one link: status, head and body of each."""
        link, replies = self.link(), list[Reply]()
        for method, path in requests:
            link.request(method, path)
            reply = link.getresponse()
            replies.append((reply.status, reply.headers, reply.read()))
        link.close()
        return replies

    def status(self) -> int | None:
        try:
            return self.ask(("GET", "/status"))[0][0]
        except (OSError, http.client.HTTPException):
            return None

    def storm(
        self,
        clients: int,
        requests: int,
        path: str = "/status",
        into: list[bytes] | None = None,
    ) -> list[bytes]:
        """The bodies that so many clients get, each by so many requests on one link."""
        bodies, begin = [] if into is None else into, threading.Barrier(clients)

        def client(_: int) -> None:
            link = self.link()
            begin.wait()
            for _ in range(requests):
                link.request("GET", path)
                reply = link.getresponse()
                body = reply.read()
                demand(reply.status == 200, f"{path} was answered by {reply.status}")
                bodies.append(body)
            link.close()

        with concurrent.futures.ThreadPoolExecutor(clients) as pool:
            list(pool.map(client, range(clients)))
        demand(len(bodies) == clients * requests, f"{len(bodies)} replies came")
        return bodies


def links_to(address: str) -> int:
    """How many links a door has."""
    wanted = f"{port_of(address):04X}"
    lines = [line.split() for line in pathlib.Path("/proc/net/tcp").read_text().splitlines()[1:]]
    return sum(line[1].endswith(f":{wanted}") and line[3] == "01" for line in lines)


def replicas(desk: Desk) -> tuple[StubNode, Served, Served]:
    """Two programs: the second has a block less."""
    node, one, two = desk.node(11), desk.served("one"), desk.served("two")
    desk.feed_once(two, node)
    node.extend(1)
    desk.feed_once(one, node)
    return node, one, two


@every.check(
    f"the proxy refuses none of {CLIENTS} clients at once, and opens at most {LINKS} links"
)
def crowd(desk: Desk) -> None:
    node = desk.node(12)
    one, two = desk.served("one"), desk.served("two")
    desk.feed_once(one, node)
    desk.feed_once(two, node)
    proxy = Proxy(desk, one, two)
    most, done = [0], threading.Event()

    def count() -> None:
        while not done.wait(0.005):
            most[0] = max(most[0], links_to(one.public), links_to(two.public))

    counter = threading.Thread(target=count)
    counter.start()
    try:
        bodies = proxy.storm(CLIENTS, 4)
        proxy.storm(30, 2, "/audit")
        for ready in proxy.ready:
            ready.status = 503
        time.sleep(2.5)
        bodies += proxy.storm(CLIENTS, 2)
    finally:
        done.set()
        counter.join()
    demand(len(set(bodies)) == 1, f"there are {len(set(bodies))} different replies")
    demand(1 < most[0] <= LINKS, f"a program had {most[0]} links")
    demand(tree(one.operator, "/status")["blocks"] == 12, "the operator isn't served")


@every.check(
    "through the proxy: HEAD between GETs on one link, no POST, heads, TLS, HTTP/2, a redirect"
)
def through(desk: Desk) -> None:
    node, one, two = replicas(desk)
    proxy = Proxy(desk, one, two)
    content = f"/content/{tree(one.public, '/inscriptions/0')['ids'][0]}"
    got = proxy.ask(
        ("GET", "/status"), ("HEAD", "/status"), ("GET", content), ("HEAD", content), ("GET", "/no")
    )
    demand([row[0] for row in got] == [200, 200, 200, 200, 404], f"statuses: {got}")
    demand(got[1][2] == got[3][2] == b"", "HEAD has a body")
    demand(got[2][2] == get(one.public, content)[2], "the content is another")
    demand(int(got[3][1]["Content-Length"]) == len(got[2][2]), "HEAD tells another length")
    for status, head, _ in got:
        demand(head["Access-Control-Allow-Origin"] == "*", f"heads: {head}")
    for _, head, _ in got[2:4]:
        demand(head["X-Content-Type-Options"] == "nosniff", f"heads: {head}")
        demand("sandbox" in head["Content-Security-Policy"], f"heads: {head}")
        demand(head["Cache-Control"] == "public, max-age=600", f"heads: {head}")
    demand(got[0][1]["Cache-Control"] == "no-cache", f"heads: {got[0][1]}")
    demand(got[0][1]["Content-Security-Policy"] is None, f"heads: {got[0][1]}")
    for method in ("POST", "PUT", "DELETE", "OPTIONS"):
        status, head, _ = proxy.ask((method, "/connect"))[0]
        demand((status, head["Allow"]) == (405, "GET, HEAD"), f"{method}: {status}")
    status, head, _ = get(proxy.plain, "/status")
    demand(status == 301 and head["Location"].startswith("https://"), f"plain: {status}")
    if shutil.which("curl"):
        for words, code in ((["--http2"], "2"), (["--http1.1"], "1.1"), (["--http2", "-I"], "2")):
            shape = "%{http_code} %{http_version}"
            url = f"https://{proxy.address}/status"
            status, told = run("curl", "-sk", *words, "-o", desk.folder / "out", "-w", shape, url)
            demand(told == f"200 {code}", f"curl {words}: {told}")


@every.check(
    "a replica that is killed under load loses no reply, and one that is behind isn't asked"
)
def failover(desk: Desk) -> None:
    node, one, two = replicas(desk)
    proxy = Proxy(desk, one, two)
    proxy.ready[1].status = 503
    time.sleep(2.5)
    blocks = {json.loads(body)["blocks"] for body in proxy.storm(20, 5)}
    demand(blocks == {12}, f"those that answer have {blocks} blocks")
    desk.feed_once(two, node)
    proxy.ready[1].status = 200
    time.sleep(1.5)
    # a client stays with one replica, so each of them is killed once
    for served in (one, two):
        with concurrent.futures.ThreadPoolExecutor(1) as pool:
            bodies = list[bytes]()
            storm = pool.submit(proxy.storm, 40, 25, "/status", bodies)
            wait_for(lambda: len(bodies) >= 100, "a hundred replies")
            served.kill()
            demand(len(bodies) < 1000, "it was killed too late")
            storm.result()
        served.start()
        time.sleep(2.5)
    with concurrent.futures.ThreadPoolExecutor(1) as pool:
        storm = pool.submit(proxy.storm, 100, 100)
        for ready in proxy.ready:
            ready.status = 503
        time.sleep(2.5)
        storm.result()
    demand(proxy.status() == 200, "where none is at the tip nobody answers")


@every.check("the proxy answers 429 to a client that asks too often")
def limited(desk: Desk) -> None:
    node, one, two = replicas(desk)
    proxy = Proxy(desk, one, two, rate=50)
    statuses = [row[0] for row in proxy.ask(*[("GET", "/status")] * 80)]
    demand(set(statuses) == {200, 429} and statuses[-1] == 429, f"statuses: {statuses}")
