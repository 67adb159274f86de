"""The rows of crates/ox_block_rows about links, and what has to be printed for them.

It reads streams by RFC 9112 and docs/FORMATS.md ("HTTP"), on its own: by regular expressions over
the whole head. The rows of frames are those of frame_rows.
"""

import re

from rows.frame_rows import frame_rows

MOST_SHOWN = 200
TOKEN = rb"[!#$%&'*+\-.^_`|~0-9A-Za-z]+"
START = re.compile(
    rb"(?:\r?\n)*(" + TOKEN + rb") ([\x21-\x7e\x80-\xff]+) HTTP/1\.([01])\r?\n", re.S
)
FIELD = re.compile(rb"(" + TOKEN + rb"):([\t\x20-\x7e\x80-\xff]*)\r?\n", re.S)
PHRASES = {
    200: "OK",
    400: "Bad Request",
    403: "Forbidden",
    404: "Not Found",
    405: "Method Not Allowed",
    409: "Conflict",
    411: "Length Required",
    413: "Content Too Large",
    431: "Request Header Fields Too Large",
}


def fields_of(head):
    """Method, target, version and fields, or None where the bytes aren't exactly one head."""
    start = START.match(head)
    if not start:
        return None
    method, target, minor = start.groups()
    try:
        target.decode()
    except UnicodeDecodeError:
        return None
    at, fields = start.end(), []
    while field := FIELD.match(head, at):
        fields.append((field[1].lower(), field[2].strip(b" \t")))
        at = field.end()
    if head[at:] not in (b"\n", b"\r\n") or len(fields) > 64:
        return None
    return method, target, minor, fields


def first(stream):
    """What a stream begins with: None, a status, or a request and its length."""
    end = stream[:8192].find(b"\r\n\r\n")
    if end < 0:
        return 431 if len(stream) >= 8192 else None
    head = stream[: end + 4]
    read = fields_of(head)
    if read is None:
        return 400
    method, target, minor, fields = read
    lengths = {value for name, value in fields if name == b"content-length"}
    if len(lengths) > 1 or not all(re.fullmatch(rb"[0-9]{1,19}", value) for value in lengths):
        return 400
    if any(name == b"transfer-encoding" for name, _ in fields) or (
        method == b"POST" and not lengths
    ):
        return 411
    size = int(lengths.pop()) if lengths else 0
    if size > 4_000_000:
        return 413
    body = stream[end + 4 : end + 4 + size]
    if len(body) < size:
        return None
    close = minor == b"0" or any(
        name == b"connection" and value.lower() == b"close" for name, value in fields
    )
    word = {b"GET": "GET", b"POST": "POST"}.get(method, "other")
    return (
        f"{word} {shown(target)} body {shown(body)}{' close' if close else ''}",
        end + 4 + size,
        close,
    )


def shown(data):
    return data.hex() if len(data) <= MOST_SHOWN else f"({len(data)} bytes)"


def line(found):
    return "more" if found is None else f"fault {found}" if isinstance(found, int) else found[0]


def word(part):
    """A part, which is bytes, or a number and bytes, as a row spells it."""
    return part.hex() or "-" if isinstance(part, bytes) else f"{part[0]}*{part[1].hex()}"


def whole(part):
    return part if isinstance(part, bytes) else part[0] * part[1]


def talk(stream):
    lines = []
    while True:
        found = first(stream)
        if found is None:
            return lines + [f"left {len(stream)}"]
        lines.append(line(found))
        if isinstance(found, int) or found[2]:
            return lines
        stream = stream[found[1] :]


def growth(stream):
    for n in range(len(stream) + 1):
        found = first(stream[:n])
        if found is not None:
            return [f"{n}: {line(found)}"]
    return ["more"]


def reply(status, kind, encoding, close, body):
    head = f"HTTP/1.1 {status} {PHRASES.get(status, '')}\r\nContent-Type: {kind}\r\n"
    head += f"Content-Encoding: {encoding}\r\n" if encoding is not None else ""
    head += f"Content-Length: {len(body)}\r\n" + ("Connection: close\r\n" if close else "") + "\r\n"
    return head.encode() + body


UNAVAILABLE = b"HTTP/1.1 503 Service Unavailable\r\nContent-Length: 0\r\nConnection: close\r\n\r\n"


def fault_reply(status):
    return reply(status, "application/json", None, True, f'{{"error":{status}}}'.encode())


class Link:
    """What one link says and is replied, by the same reading of streams."""

    def __init__(self):
        self.heard, self.ended, self.closed, self.manner, self.lines = b"", False, False, "open", []

    def due(self, data):
        self.lines.append(f"due {shown(data)} and {len(data) - len(data) // 2}")

    def polled(self):
        while not self.closed:
            found = first(self.heard)
            if found is None:
                return "over" if self.ended else "waits"
            self.lines.append("fault" if isinstance(found, int) else found[0])
            if isinstance(found, int):
                self.closed = True
                self.due(fault_reply(found))
                continue
            path = fields_of(self.heard[: self.heard.index(b"\r\n\r\n") + 4])[1]
            self.heard = self.heard[found[1] :]
            self.closed = found[2] or self.manner != "open"
            self.due(
                UNAVAILABLE if self.manner == "busy" else reply(200, "a/b", None, self.closed, path)
            )
        return "over"

    def step(self, step):
        """A step is a word, or how many bytes are said at a time and all that are said."""
        if step in ("close", "busy"):
            self.manner = step
            return
        if step == "end":
            self.ended = True
        elif step == "none":
            self.due(UNAVAILABLE)
            self.closed = True
        else:
            each, said = step
            for at in range(0, len(said), each or len(said)):
                self.heard += said[at : at + (each or len(said))]
                ends = self.polled()
            self.lines.append(ends)
            return
        self.lines.append(self.polled())


class Streams:
    def __init__(self):
        self.rows, self.lines = [], []

    def says(self, what):
        self.rows.append(f"# {what}")
        self.lines.append(f"# {what}")

    def add(self, row, lines):
        self.rows.append(row)
        self.lines += lines

    def stream(self, *parts, grows=True):
        """Parts are bytes, or a number and bytes."""
        words = " ".join(map(word, parts))
        stream = b"".join(map(whole, parts))
        self.add(f"talk {words}", talk(stream))
        if grows:
            self.add(f"grow {words}", growth(stream))
            self.link((0, *parts), "end")
            self.link((1, *parts), "end")

    def link(self, *steps):
        """Steps are words, or a number and parts, of which so many bytes are said at a time (all at
        once for 0)."""
        link, words = Link(), []
        for step in steps:
            if isinstance(step, str):
                words.append(step)
                link.step(step)
            else:
                words.append(f"say:{step[0]}:{','.join(map(word, step[1:]))}")
                link.step((step[0], b"".join(map(whole, step[1:]))))
        self.add("link " + " ".join(words), link.lines)

    def replies(self, status, kind, encoding=None, close=False, body=b""):
        word = "none" if encoding is None else encoding.encode().hex() or "-"
        row = (
            f"reply {status} {kind.encode().hex() or '-'} {word} {'close' if close else 'open'}"
            f" {body.hex() or '-'}"
        )
        self.add(row, [shown(reply(status, kind, encoding, close, body))])

    def fault(self, status):
        self.add(f"fault {status}", [shown(fault_reply(status))])


def get(*fields, target=b"/status", method=b"GET", version=b"HTTP/1.1", end=b"\r\n"):
    lines = [method + b" " + target + b" " + version, *fields, b""]
    return b"".join(text + end for text in lines)


def post(*fields, body=b"", target=b"/connect"):
    return get(*fields, target=target, method=b"POST") + body


def length(text):
    return b"Content-Length: " + text


def rows():
    made = Streams()
    made.says("one request, and two in a row")
    made.stream(get(b"Host: a"))
    made.stream(get(), get())
    made.stream(get(b"Connection: close"), get())
    made.stream(get(), get()[:-1])
    made.says("bodies")
    made.stream(post(length(b"5"), body=b"hello"), get())
    made.stream(post(length(b"0"), target=b"/disconnect"), get())
    made.stream(get(length(b"3")), b"abc", get())
    made.stream(get(method=b"PUT"), get())
    made.stream(get(length(b"2"), method=b"PUT"), b"xy")
    made.stream(post(length(b"65537")), (65_537, b"z"), get(), grows=False)
    made.stream(post(length(b"4000000")), (4_000_000, b"z"), get(), grows=False)
    made.stream(post(length(b"4000000")), (3_999_999, b"z"), grows=False)
    made.says("the end of a head, across byte 8,192 and elsewhere")
    for left in (8192, 8191, 8190, 8189, 8188, 8187):
        front = get(b"A: ")[:-4]
        made.stream(front, (left - len(front), b"b"), b"\r\n\r\n", grows=False)
    made.stream((8192, b"a"), grows=False)
    made.stream((8191, b"a"), grows=False)
    made.stream((9000, b"\r"), b"\r\n\r\n", grows=False)
    made.stream(b"\r\n\r\n", get())
    made.stream(b"\r\n", get())
    made.stream(b"\r", get())
    made.stream(b"\n", get())
    made.stream(b"\n\r\n\n", get())
    made.stream(get(end=b"\n"))
    made.stream(get(end=b"\n"), b"\r\n\r\n")
    made.stream(b"GET / HTTP/1.1\nHost: a\r\n\r\n")
    made.stream(b"GET / HTTP/1.1\r\nHost: a\n\nGET / HTTP/1.1\r\n\r\n")
    made.stream(b"GET / HTTP/1.1\r\r\n\r\n")
    made.stream(b"GET / HTTP/1.1\r\nA: b\r\r\n\r\n")
    made.says("start lines")
    for text in (
        b"GET  / HTTP/1.1",
        b"GET / HTTP/1.1 ",
        b" GET / HTTP/1.1",
        b"GET /",
        b"GET",
        b"GET / HTTP/2.0",
        b"GET / HTTP/1.2",
        b"GET / http/1.1",
        b"GET / HTTP/1.01",
        b"get / HTTP/1.1",
        b"G(T / HTTP/1.1",
        b"G\x7fT / HTTP/1.1",
        b"GET /a\tb HTTP/1.1",
        b"GET /\x7f HTTP/1.1",
        b"GET \xff HTTP/1.1",
        b"GET /\xc3\xa9 HTTP/1.1",
        b"GET /\xc3 HTTP/1.1",
        b"GET /\xed\xa0\x80 HTTP/1.1",
        b"GET * HTTP/1.1",
        b"GET http://a/b HTTP/1.1",
        b"GET /\x00 HTTP/1.1",
        b"POST / HTTP/1.1",
        b"GET / HTTP/1.0",
        b"GET  HTTP/1.1",
        b"  HTTP/1.1",
        b"GET / a HTTP/1.1",
    ):
        made.stream(text + b"\r\n\r\n")
    made.says("fields")
    for text in (
        b" folded",
        b"A: b\r\n folded",
        b"A: b\r\n\tfolded",
        b"A : b",
        b"A",
        b": b",
        b"A:",
        b"A:\t b\t ",
        b"A: \x01",
        b"A: \x7f",
        b"A: \xff",
        b"A: b\x00",
        b"A: b:c",
        b"A(: b",
        b"A\x80: b",
        b"\tA: b",
    ):
        made.stream(get(text))
    made.says("so many fields, of which the last tells a length, or isn't one")
    for count in (0, 15, 16, 17, 63, 64, 65):
        front = b"GET / HTTP/1.1\r\n", (max(count - 1, 0), b"A: b\r\n")
        for last in (length(b"2"), b"Content-Length 2") if count else (b"",):
            end = last + b"\r\n" if last else b""
            made.stream(*front, end + b"\r\nxy", grows=False)
    made.says("lengths")
    for text in (
        b"",
        b"+5",
        b"-5",
        b"5 5",
        b"5,5",
        b"0x5",
        b"05",
        b"5a",
        19 * b"9",
        20 * b"9",
        20 * b"0",
        18 * b"0" + b"5",
        19 * b"0" + b"5",
        b"4000000",
        b"4000001",
        b"4294967301",
        b"18446744073709551621",
    ):
        made.stream(post(length(text), body=b"hello"), grows=False)
    made.stream(post(length(b"5"), length(b"5"), body=b"hello"))
    made.stream(post(length(b"5"), length(b"05"), body=b"hello"))
    made.stream(post(length(b"5"), length(b"6"), body=b"hello!"))
    made.stream(post(length(b"6"), b"a: b", b"cOnTeNt-LeNgTh:5", body=b"hello!"))
    made.stream(post(b"CONTENT-LENGTH:\t5 ", body=b"hello"))
    made.stream(post(length(b"5"), length(b""), body=b"hello"))
    made.says("without a length, and encodings of the transfer")
    made.stream(post())
    made.stream(post(b"Transfer-Encoding: chunked", body=b"5\r\nhello\r\n0\r\n\r\n"))
    made.stream(post(b"Transfer-Encoding: chunked", length(b"5"), body=b"hello"))
    made.stream(post(b"transfer-encoding:", length(b"4000001")))
    made.stream(get(b"TRANSFER-ENCODING: x"))
    made.stream(post(b"Transfer-Encoding: chunked", length(b"+5")))
    made.stream(post(length(b"4000001"), length(b"4000002")))
    made.says("the end of a link")
    for text in (
        b"Connection: close",
        b"Connection: CLOSE",
        b"connection:close",
        b"Connection: close, x",
        b"Connection: x",
        b"Connection: keep-alive",
        b"Connection: closed",
        b"Connection: \tclose\t",
        b"A: close",
        b"Connection: x\r\nConnection: Close",
        b"Connection:",
    ):
        made.stream(get(text), get())
    made.stream(get(version=b"HTTP/1.0"), get())
    made.stream(get(b"Connection: keep-alive", version=b"HTTP/1.0"), get())
    made.stream(post(length(b"5"), b"Connection: close", body=b"hello"), b"and more")
    made.stream(get(), b"\x00\r\n\r\n", get())
    made.stream(get(), post(), get())
    made.says("replies")
    status = b'{"blocks":0,"depth":100,"kept":0,"profile":"regtest","tip":null}'
    made.replies(200, "application/json", body=status)
    made.replies(200, "application/json", close=True, body=status)
    made.replies(200, "text/plain;charset=utf-8", "br", body=b"\x00\xff")
    made.replies(200, "text/plain", "", True)
    for code in (*PHRASES, 0, 99, 204, 500, 503, 65535):
        made.replies(code, "a/b", close=code % 2 == 0, body=b"x")
    for code in (400, 411, 413, 431):
        made.fault(code)
    made.add("unavailable", [shown(UNAVAILABLE)])
    links(made)
    frame_rows(made)
    return made


def links(made):
    """What a session does besides a stream that is said and ends."""
    made.says("links: nothing said")
    made.link("end")
    made.link((0, b"G"), "end")
    made.link("end", (0, get()))
    made.says("links: piece by piece, a request behind a reply")
    made.link((0, get()), (0, get(target=b"/blockhash")), (0, get()[:9]), (0, get()[9:]), "end")
    made.link((7, get(), get(), post(length(b"5"), body=b"hello"), get()), "end")
    made.link((65_536, post(length(b"200000")), (200_000, b"z"), get()), "end")
    made.link((65_536, post(length(b"4000000")), (4_000_000, b"z"), get(), get()), "end")
    made.link((0, post(length(b"4000000"))), (65_536, (3_999_999, b"z")), (0, b"z"), (0, get()))
    made.link((0, post(length(b"4000000"))), (65_536, (3_999_999, b"z")), "end")
    made.link((1, (8192, b"a")), "end")
    made.link((4096, (8191, b"a")), (0, b"a"), (0, get()))
    made.link((1, (8191, b"a")), "end")
    made.says("links: replies that close, and nothing behind them")
    made.link((0, get(b"Connection: close"), get()), (0, get()), "end")
    made.link((0, get(version=b"HTTP/1.0")), (1, get()))
    made.link((0, get()), "close", (0, get(), get()), (0, get()), "end")
    made.link("close", (1, get(), get()))
    made.link((0, get(), post(), get()), (0, get()), "end")
    made.link((1, b"GET  / HTTP/1.1\r\n\r\n", get()), "end")
    made.says("links: no memory")
    made.link("none", (0, get()), "end")
    made.link((0, get(), get()[:20]), "none", (0, get()[20:]), "end")
    made.link("busy", (0, get(), get()), (0, get()), "end")
    made.link((0, get()), "busy", (1, post(length(b"5"), body=b"hello"), get()))
    made.link("end", "none", "end")


def made():
    """Every row, and the lines for them."""
    every = rows()
    return every.rows, every.lines
