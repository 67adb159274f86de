#!/usr/bin/env python3
"""Times the requests of links, beside a plain Rust program of the same work.

    python3 bench/streams.py

has crates/ox_block_rows and bench/plain/http read two heads again and again; hear a body of
4,000,000 bytes in pieces of 65,536, which the plain program also copies twice and does no more; and
reply to 10,000 and to 100,000 requests of one stream, heard in such pieces and all at once. What
each program takes to do none of it isn't counted. At last it prints what memory a session keeps
behind such a body, by what 100 more of them take. bench/all.py builds both
programs.
"""

import pathlib
import tempfile

from runs import RUNS, report, run
from tools.programs import plain_program, proved_program
from tools.words import no_words

OX, PLAIN = proved_program("ox_block_rows"), plain_program("http")
PIECE, ALL = 65_536, 1_000_000_000
SHORT = b"GET /status HTTP/1.1\r\nHost: a\r\n\r\n"
LONG = (
    b"GET /inscription/6fb976ab49dcec017f1e201e84395983204ae1a7c2abf7ced0a85d692e442799i0 HTTP/1.1"
    b"\r\nHost: localhost:8080\r\nUser-Agent: Mozilla/5.0 (X11; Linux x86_64; rv:128.0) "
    b"Gecko/20100101 Firefox/128.0\r\nAccept: text/html,*/*;q=0.8\r\n"
    b"Accept-Language: en-US,en;q=0.5\r\nAccept-Encoding: gzip, deflate, br\r\n"
    b"Connection: keep-alive\r\n\r\n"
)
BODY = 4_000_000
POST = b"POST /connect HTTP/1.1\r\nContent-Length: %d\r\n\r\n" % BODY


def least(program, row):
    """The seconds and the memory of the run of a row that took least, and what it showed."""
    with tempfile.TemporaryDirectory() as folder:
        feed = pathlib.Path(folder) / "row"
        feed.write_text(row + "\n")
        return min(run([program], feed) for _ in range(RUNS))


def seconds(program, row, times):
    """The seconds of a row that has its number of times left out, and what it shows."""
    took, _, shown = least(program, row.format(times))
    return took - least(program, row.format(0))[0], shown


def tell(what, size, row, times, units, name, copies=None):
    ours, shown = seconds(OX, row, times)
    plain, same = seconds(PLAIN, row, times)
    if shown != same:
        raise SystemExit(f"{what}: the answers differ")
    unit = f"{name} a second"
    line = f"{what}, {size}: ox {units / ours:,.0f} {name} a second, plain {units / plain:,.0f}"
    line += f", ratio {plain / ours:.2f}"
    if copies:
        copied, _ = seconds(PLAIN, copies, times)
        line += f"; copied twice {units / copied:,.0f}, ratio {copied / ours:.2f}"
        report(f"{what}, beside two copies", size, unit, units / ours, units / copied)
    print(line, flush=True)
    report(what, size, unit, units / ours, units / plain)


def main():
    no_words(__doc__)
    for head in SHORT, LONG:
        row = f"often {{}} {head.hex()}"
        tell("a head read", f"{len(head)} bytes", row, 1_000_000, 1_000_000, "heads")
    parts = f"{POST.hex()} {BODY}*7a"
    held, copied = (f"{word} {{}} {PIECE} {parts}" for word in ("hold", "copy"))
    tell("a body heard in pieces", "4 MB", held, 100, 100 * BODY / 1e6, "MB", copied)
    for requests, times in (10_000, 100), (100_000, 10):
        for said, each in ("in pieces", PIECE), ("at once", ALL):
            row = f"hold {{}} {each} {requests}*{SHORT.hex()}"
            size = f"{requests:,} requests"
            tell(f"a stream replied to {said}", size, row, times, requests * times, "requests")
    for name, program in ("ox", OX), ("plain", PLAIN):
        few, many = (least(program, f"hold {links} {PIECE} {parts}")[1] for links in (1, 101))
        each = (many - few) / 100
        print(f"{name}: {few / 1e6:.1f} MB at most with one session, {each:,.0f} bytes each more")


if __name__ == "__main__":
    main()
