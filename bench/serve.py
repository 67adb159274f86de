#!/usr/bin/env python3
"""Times requests of real links on loopback, beside a plain Rust program of the same rotation.

    python3 bench/serve.py

has `serve` over a store of 100 and of 1,000 blocks answer `/status` and `/blockhash/0` for three
seconds at a time, to 1 link and to 32, one request after the other on each, and to 1 link beside 31
silent ones. The client is `wrk` (`apt-get install wrk`). It prints, of three runs, the most
requests a second, which other work on the machine makes fewer, and the least processor time that
the server took for each. The plain program has one reply for all and makes no sessions: by epoll,
and by asking every socket at every turn. Then it says what memory 32 links take behind bodies of
4,000,000 bytes that aren't whole. Nothing here is proved. bench/all.py builds the programs.
"""

import contextlib
import os
import pathlib
import re
import socket
import subprocess
import sys
import tempfile
import time

from runs import RUNS, report
from tools import bitcoin
from tools.bitcoin import SUBSIDY, twice
from tools.programs import plain_program, proved_program
from tools.words import no_words

OX, PLAIN = proved_program("ox_main"), plain_program("serve")
SECONDS = 3
TURNS = "18446744073709551615"
BODY = 4_000_000


def free_port():
    """A port that nobody listens at, as at the next one."""
    for port in range(20_000, 60_000, 2):
        with socket.socket() as one, socket.socket() as two:
            with contextlib.suppress(OSError):
                one.bind(("127.0.0.1", port))
                two.bind(("127.0.0.1", port + 1))
                return port
    sys.exit("no port is free")


def feed(count):
    """So many blocks of a coinbase alone, as a feed."""
    lines, previous = [], bytes(32)
    for height in range(count):
        tx = bitcoin.coinbase([(SUBSIDY, b"\x51")], height.to_bytes(4, "little"))[0]
        block, previous = bitcoin.block(previous, twice(tx), [tx])
        lines.append(b"connect " + block.hex().encode() + b"\n")
    return b"".join(lines)


@contextlib.contextmanager
def serving(words, port):
    """A server, once it listens."""
    with subprocess.Popen(words, stdin=subprocess.DEVNULL, stdout=subprocess.DEVNULL) as child:
        try:
            while True:
                with socket.socket() as probe:
                    if probe.connect_ex(("127.0.0.1", port)) == 0:
                        break
                time.sleep(0.01)
            yield child
        finally:
            child.kill()


@contextlib.contextmanager
def ox(blocks):
    """Our server over a store of so many blocks, and its port."""
    with tempfile.TemporaryDirectory() as folder:
        for words, given in (["init", "regtest", "100"], b""), (["apply"], feed(blocks)):
            subprocess.run([OX, folder, *words], input=given, stdout=subprocess.PIPE, check=True)
        port = free_port()
        doors = [f"127.0.0.1:{port + door}" for door in (0, 1)]
        with serving([OX, folder, "serve", TURNS, *doors], port) as child:
            yield port, child.pid


@contextlib.contextmanager
def plain(mode):
    port = free_port()
    with serving([PLAIN, mode, str(port)], port) as child:
        yield port, child.pid


def asked(port, pid, links, path):
    """How many requests a second are answered to so many links, and in how many microseconds of the
    server's processor time each."""
    words = ["wrk", "-t1", f"-c{links}", f"-d{SECONDS}", f"http://127.0.0.1:{port}{path}"]
    before = processor_seconds(pid)
    ran = subprocess.run(words, stdout=subprocess.PIPE, text=True, check=True)
    taken = processor_seconds(pid) - before
    if re.search("Non-2xx|Socket errors", ran.stdout):
        sys.exit(ran.stdout)
    rate = float(re.search(r"Requests/sec: *([\d.]+)", ran.stdout)[1])
    return rate, 1e6 * taken / int(re.search(r"(\d+) requests in", ran.stdout)[1])


def answered(server, links, silent, path):
    """The same of a server beside silent links, the best of several runs."""
    with server as (port, pid), contextlib.ExitStack() as others:
        for _ in range(silent):
            others.enter_context(socket.create_connection(("127.0.0.1", port)))
        rates, each = zip(*(asked(port, pid, links, path) for _ in range(RUNS)))
    return max(rates), min(each)


def processor_seconds(pid):
    """The processor time that a process has taken."""
    fields = pathlib.Path(f"/proc/{pid}/stat").read_text().rsplit(")", 1)[1].split()
    return (int(fields[11]) + int(fields[12])) / os.sysconf("SC_CLK_TCK")


def memory(pid):
    """The bytes that a process holds."""
    status = pathlib.Path(f"/proc/{pid}/status").read_text()
    return 1024 * int(status.split("VmRSS:")[1].split()[0])


def tell(path, blocks, size, ours, plain):
    (rate, each), (rate_by_epoll, each_by_epoll) = ours, plain["epoll"]
    print(
        f"{path}, {blocks:,} blocks, {size}: ox {rate:,.0f} requests a second, plain by epoll"
        f" {rate_by_epoll:,.0f}, ratio {rate / rate_by_epoll:.2f}, asking all"
        f" {plain['all'][0]:,.0f}; microseconds of processor time each: ox {each:.1f}, plain by"
        f" epoll {each_by_epoll:.1f}, asking all {plain['all'][1]:.1f}",
        flush=True,
    )
    work = f"{path} served, {blocks:,} blocks"
    report(work, size, "requests a second", rate, rate_by_epoll)
    report(f"{work}, processor time", size, "microseconds", each, each_by_epoll)


def main():
    no_words(__doc__)
    for links, silent in (1, 0), (32, 0), (1, 31):
        size = f"{links} at work" + (f", {silent} silent" if silent else "")
        by = {mode: answered(plain(mode), links, silent, "/status") for mode in ("epoll", "all")}
        for blocks in 100, 1_000:
            for path in "/status", "/blockhash/0":
                tell(path, blocks, size, answered(ox(blocks), links, silent, path), by)
    with ox(100) as (port, pid), contextlib.ExitStack() as links:
        before = memory(pid)
        for _ in range(32):
            link = links.enter_context(socket.create_connection(("127.0.0.1", port)))
            link.sendall(b"POST /connect HTTP/1.1\r\nContent-Length: %d\r\n\r\n" % BODY)
            link.sendall(bytes(BODY - 1))
        time.sleep(1)
        taken = memory(pid) - before
        print(f"32 links with bodies of 4 MB: {taken / 1e6:.0f} MB")
        report("links with bodies of 4 MB", "32 links", "MB", taken / 1e6)


if __name__ == "__main__":
    main()
