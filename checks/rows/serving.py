"""A server over a site of two files: requests, what a store replies, and whose turn it is.

docs/FORMATS.md and README.md, 'Serving', tell all of it, on their own, and it shares nothing with
the library. What these don't say: each event of a link is a moment of the site.
"""

import re

from chain import DISCONNECT, payload_of
from plain_index import Refused
from rows.desk_rows import ROOM, Counts, error, refused, told, written
from tools.bitcoin import SUBSIDY

SLOTS = 32
HEAD = 8_192
BODY = 4_000_000
DOORS = "public", "operator"


class Fault(Exception):
    """A fault of a stream, with its status."""


# ---- requests


def request_in(stream):
    """The method, the path, the body, whether the link ends with it, and how many bytes it takes;
    none where there are too few."""
    end = stream[:HEAD].find(b"\r\n\r\n")
    if end < 0:
        if len(stream) >= HEAD:
            raise Fault(431)
        return None
    first, *fields = stream[:end].decode().split("\r\n")
    words = first.split(" ")
    if len(words) != 3 or words[2] not in ("HTTP/1.0", "HTTP/1.1") or len(fields) > 64:
        raise Fault(400)
    named = [(name.lower(), value.strip()) for name, _, value in (f.partition(":") for f in fields)]
    lengths = {value for name, value in named if name == "content-length"}
    if len(lengths) > 1 or any(not (v.isdigit() and len(v) < 20) for v in lengths):
        raise Fault(400)
    if any(name == "transfer-encoding" for name, _ in named):
        raise Fault(411)
    if words[0] == "POST" and not lengths:
        raise Fault(411)
    length = int(lengths.pop()) if lengths else 0
    if length > BODY:
        raise Fault(413)
    if len(stream) < end + 4 + length:
        return None
    closes = words[2] == "HTTP/1.0" or ("connection", "close") in (
        (name, value.lower()) for name, value in named
    )
    body = stream[end + 4 : end + 4 + length]
    return words[0], words[1], body, closes, end + 4 + length


# ---- a store


class Desk:
    """What a server answers from: a store that was opened."""

    def __init__(self, store):
        self.store, self.counts = store, Counts()

    def answer(self, method, path, body, operator):
        accepted = self.counts.accepted
        reply = self.reply(method, path, body, operator)
        commands, self.counts.accepted = self.counts.accepted, accepted
        self.counts.request(method, path, len(reply[1]))
        self.counts.accepted = commands
        return reply

    def reply(self, method, path, body, operator):
        if path in ("/connect", "/disconnect"):
            if method != "POST":
                return error(405)
            if not operator:
                return error(403)
            return self.carry_out(payload_of(body) if path == "/connect" else DISCONNECT)
        path, stack = self.cut(path)
        found = self.looked_up(path, stack or self.store.stack)
        if found is None:
            return error(404)
        if method != "GET":
            return error(405)
        return told(200, found) if found and stack else error(404)

    def cut(self, path):
        """A path without the kept block that it names, and the stack whose newest block that is;
        none where there isn't one."""
        stack = self.store.stack
        front, _, named = path.rpartition("?at=")
        if not re.fullmatch("[0-9a-f]{64}", named):
            return path, stack
        while stack.hashes() and stack.hashes()[-1][::-1].hex() != named:
            if not stack.kept:
                return front, None
            stack = stack.back()
        return front, stack if stack.hashes() else None

    def looked_up(self, path, stack):
        """The tree of a path, an empty one where it names nothing, none where it has no route."""
        hashes = stack.hashes()
        if path == "/status":
            return {
                "blocks": len(hashes),
                "depth": stack.depth,
                "kept": len(stack.kept),
                "profile": "regtest",
                "tip": hashes[-1][::-1].hex() if hashes else None,
            }
        if path == "/audit":
            whole = SUBSIDY * len(hashes)
            return {"claimable": whole, "lost": 0, "outputs": whole, "runes": []}
        if path.startswith("/blockhash/"):
            part = path[len("/blockhash/") :]
            if not part or "/" in part:
                return None
            if part.isdigit() and str(int(part)) == part and int(part) < len(hashes):
                return {"hash": hashes[int(part)][::-1].hex(), "height": int(part)}
            return {}
        return None

    def carry_out(self, command):
        try:
            self.store.carry_out(command)
        except Refused as refusal:
            return refused(str(refusal))
        self.counts.accepted += 1
        hashes = self.store.stack.hashes()
        tip = (hashes[-1][::-1].hex(), len(hashes) - 1) if hashes else (None, None)
        return told(200, {"hash": tip[0], "height": tip[1]})


# ---- the rotation


class Link:
    def __init__(self, number, operator, script):
        self.number, self.operator, self.script = number, operator, script
        self.heard, self.due, self.closing = b"", b"", False

    def next(self, room):
        """What it says next: bytes as many as there is room for, `.` for nothing yet, or `$`."""
        if not self.script:
            return "."
        said = self.script[0]
        if isinstance(said, bytes) and len(said) > room:
            self.script[0] = said[room:]
            return said[:room]
        return self.script.pop(0)


class DoorFailed(Exception):
    pass


class Server:
    """The slots and the place in the rotation, over the doors and links of a world."""

    def __init__(self, world, desk):
        self.world, self.desk = world, desk
        self.slots, self.place = [None] * SLOTS, 0

    def turns(self, count):
        for _ in range(count):
            self.turn()

    def turn(self):
        """The turn of the first door or slot from this place on and round that isn't passed
        over."""
        free = None in self.slots
        for place in [*range(self.place, SLOTS + 2), *range(self.place)]:
            if place < 2 and free:
                self.place = place + 1
                self.door(place)
                return
            if place >= 2 and self.slots[place - 2]:
                self.place = place + 1
                self.link(place - 2)
                return

    def door(self, place):
        if not self.world.site.call():
            raise DoorFailed()
        waiting = self.world.doors[DOORS[place]]
        if waiting:
            number = self.world.arrive()
            self.slots[self.slots.index(None)] = Link(number, place == 1, waiting.pop(0))

    def link(self, slot):
        link = self.slots[slot]
        if link.due:
            self.world.showings.append((self.world.site.calls, link.number))
        if not self.world.site.call():
            self.world.event()
            self.shut(slot)
        elif link.due:
            self.show(slot, link)
        else:
            self.hear(slot, link)

    def show(self, slot, link):
        size = self.world.portion(len(link.due))
        self.world.tell(link.number, link.due[:size])
        link.due = link.due[size:]
        if link.due:
            return
        if link.closing:
            self.shut(slot)
        else:
            self.poll(link)

    def hear(self, slot, link):
        said = link.next(self.world.portion(ROOM))
        if said == ".":
            return
        self.world.event()
        if said == "$":
            self.shut(slot)
        else:
            link.heard += said
            self.poll(link)

    def shut(self, slot):
        self.slots[slot] = None
        self.world.event()

    def poll(self, link):
        try:
            asked = request_in(link.heard)
        except Fault as fault:
            link.due, link.closing = written(error(fault.args[0]), True), True
            return
        if asked is None:
            return
        method, path, body, closes, taken = asked
        link.heard = link.heard[taken:]
        reply = self.desk.answer(method, path, body, link.operator)
        link.due, link.closing = written(reply, closes), closes
