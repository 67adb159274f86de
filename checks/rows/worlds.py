"""A site that the program runs over, what each subcommand does there, and the rows of
crates/ox_run_rows about it.

Lines, answers, statuses and files are told by docs/FORMATS.md and docs/OPERATING.md, on their own:
blocks are read as block_rows does, indexes are plain_index's, files store_files', servers
serving's, leaders and followers following's. What these don't say and the rows go by: a run hears
at most 65,536 bytes at a time, and only where it holds no whole line; each line is shown by a call
of its own; and of the calls of an opening, a making and a record store_rows tells.
"""

import re

import made_blocks
import old_files
import store_files
from chain import DISCONNECT, payload_of, record_of
from plain_index import Refused, count_of, subsidy
from rows import following, store_rows
from rows.block_rows import Fault, Reader
from rows.desk_rows import ROOM, compact, printed
from rows.serving import Desk, DoorFailed, Server
from rows.store_rows import ALL, CallFailed, Site, reads_behind
from store_files import BYTES, CLOSED, PRESENT, VERSION, NoStore, stands

LONGEST = 8_000_008
KEPT_BY_FOLD = 1000
CUTS_NOTHING = (1 << 64) - 1
NONE = b"ok empty\n"

# `/sat/satoshi` of an empty store
SATOSHI = {
    "decimal": "3891094.16797",
    "degree": "3°111094′214″16797‴",
    "inscriptions": [],
    "name": "satoshi",
    "number": 2099994106992659,
    "place": None,
    "rarity": "common",
}


# ---- lines and what they are answered by


def command_in(said):
    """The command that a line is, or none."""
    if said == b"disconnect":
        return DISCONNECT
    found = re.fullmatch(rb"connect ((?:[0-9A-Fa-f]{2})*)", said)
    return payload_of(bytes.fromhex(found[1].decode())) if found else None


def obey(stack, command):
    """The stack after a command, and the payload of its record."""
    if command != DISCONNECT:
        try:
            Reader(command[1:]).block()
        except Fault as fault:
            raise Refused(f"refused 3 {fault.args[0]}")
    return stack.obey(command)


def turned_by(stack, said):
    """The stack after a line and the payload of its record, where it is accepted; and its
    answer."""
    command = command_in(said) if len(said) <= LONGEST else None
    if command is None:
        return stack, None, b"refused 1\n" if len(said) <= LONGEST else b"refused 2\n"
    try:
        after, payload = obey(stack, command)
    except Refused as refused:
        return stack, None, f"{refused}\n".encode()
    hashes = after.hashes()
    told = f"ok {len(hashes) - 1} {hashes[-1][::-1].hex()}\n" if hashes else "ok empty\n"
    return after, payload, told.encode()


# ---- a site, and runs over it


class HearFailed(Exception):
    pass


class ShowFailed(Exception):
    pass


def whole(size):
    return size


# how much of a room, of a piece and of a write that fails is taken
PORTIONS = {"byte": lambda size: min(size, 1), "half": lambda size: size - size // 2}


class Disk:
    """The files as a run sees them: of writes behind so many whole ones a portion is written, and
    they fail."""

    def __init__(self, site, portion=whole, whole_writes=ALL):
        self.site, self.portion, self.left, self.cut = site, portion, whole_writes, 0

    def write(self, file, at, data):
        if self.left:
            self.left -= 1
            self.site.write(file, at, data)
            return
        self.site.write(file, at, data[: self.portion(len(data))])
        self.cut += 1
        raise CallFailed()

    def sync(self, file):
        self.site.sync(file)


def drill_line(count, index):
    """What is shown of the index behind a drill."""
    claimable = sum(subsidy("regtest", height) for height in range(count))
    minted = sum(rune.mints * (rune.terms.amount or 0) for rune in index.runes if rune.terms)
    burned = sum(rune.burned for rune in index.runes)
    told = f"drill {count} claimable {claimable} lost {count_of(index.lost)} "
    told += f"inscriptions {len(index.inscriptions)} runes {len(index.runes)} "
    return f"{told}minted {minted} burned {burned}\n".encode()


def is_depth(word):
    return word.isdigit() and str(int(word)) == word and 1 <= int(word) <= 1000


class World:
    """A site with what channel 0 says, the links at its doors, and what each channel was shown:
    pieces of which each has the number of moments until then."""

    def __init__(self, site=None, shown=(), arrivals=0):
        self.site, self.tellings, self.arrivals = site or Site(), list(shown), arrivals * [0]
        self.said, self.heard = b"", 0
        self.doors = {"public": [], "operator": []}
        # the number of each call that showed bytes to a link, and the link's
        self.showings = []
        self.portion, self.disk = whole, Disk(self.site)

    def event(self):
        self.site.steps.append((None, None, None))

    def now(self):
        return len(self.site.steps)

    def shown(self, channel, moment=None):
        """What was shown on a channel by a moment, or by now."""
        moment = self.now() if moment is None else moment
        return b"".join(told for at, on, told in self.tellings if on == channel and at <= moment)

    @property
    def told(self):
        return self.shown(0)

    def tell(self, channel, data):
        self.event()
        self.tellings.append((self.now(), channel, data))

    def arrive(self):
        """The number of a link that comes."""
        self.event()
        self.arrivals.append(self.now())
        return len(self.arrivals)

    def hear(self, room):
        """What channel 0 says next; none at its end."""
        passes = self.site.call()
        self.event()
        if not passes:
            raise HearFailed()
        piece = self.said[self.heard : self.heard + self.portion(room)]
        self.heard += len(piece)
        return piece or None

    def show(self, data):
        while data:
            if not self.site.call():
                self.event()
                raise ShowFailed()
            size = self.portion(len(data))
            self.tell(0, data[:size])
            data = data[size:]

    def say(self, data):
        """A last line, which may fail to be shown."""
        try:
            self.show(data)
        except ShowFailed:
            pass

    def crash(self, moment, fill, keep):
        """The world that a crash leaves, whose moments and calls are counted anew."""
        shown = [(0, on, told) for at, on, told in self.tellings if at <= moment]
        arrivals = sum(at <= moment for at in self.arrivals)
        return World(self.site.crash(moment, fill, keep), shown, arrivals)

    def lines(self):
        """The lines that channel 0 says from now on."""
        held, ended = b"", False
        while True:
            at = held.find(b"\n")
            if at >= 0:
                yield held[:at]
                held = held[at + 1 :]
            elif ended:
                yield from [held] if held else []
                return
            else:
                piece = self.hear(ROOM)
                held, ended = held + (piece or b""), piece is None

    def run(self, words):
        """Runs the program: its status."""
        try:
            return self.carry_out(*words)
        except CallFailed:
            return 4
        except HearFailed:
            return 5
        except ShowFailed:
            return 6
        except DoorFailed:
            return 7
        except following.Ended as ended:
            return ended.args[0]
        except NoStore as place:
            # the calls behind the fronts aren't counted: then none of them may fail; at a version
            # that isn't read there are none
            if not str(place).endswith(" at 6"):
                assert all(call < self.site.calls for call in self.site.failing)
                self.site.calls = ALL
            if words not in (("lead",), ("follow",)):
                self.say(f"not a store {str(place).lower().replace(' at', '')}\n".encode())
            return 3

    def carry_out(self, *words):
        if len(words) == 2 and words[0] == "fold" and words[1] in BYTES:
            self.answer_all(store_files.empty(words[1], KEPT_BY_FOLD))
        elif len(words) == 3 and words[0] == "init" and words[1] in BYTES and is_depth(words[2]):
            return self.init(words[1], int(words[2]))
        elif words == ("apply",):
            store = self.opened()
            self.answer_all(store.stack, store)
        elif len(words) == 2 and words[0] == "query":
            self.opened()
            self.show(self.reply(words[1]))
        elif len(words) == 2 and words[0] == "serve" and words[1].isdigit():
            self.serve(int(words[1]))
        elif len(words) == 2 and words[0] == "drill" and words[1].isdigit():
            return self.drill(int(words[1]))
        elif words == ("migrate",):
            return self.migrate()
        elif words == ("grow",):
            self.grow()
        elif words == ("lead",):
            following.lead(self, self.opened((VERSION,)))
        elif words == ("follow",):
            following.follow(self, self.opened((VERSION,)))
        else:
            self.say(b"usage\n")
            return 1
        return 0

    def look_at_fronts(self):
        self.site.sync("A")
        self.site.sync("B")
        for _ in range(4):
            self.site.look()

    def opened(self, reads=PRESENT, grows=False):
        self.look_at_fronts()
        found = stands(self.site.files, reads, grows)
        for _ in range(reads_behind(self.site.files)):
            self.site.look()
        return store_files.Store(self.disk, *found)

    def answer_all(self, stack, store=None):
        for said in self.lines():
            stack, payload, told = turned_by(stack, said)
            if store and payload is not None:
                store.commit(stack, payload)
            self.show(told)

    def made(self, profile, depth):
        """A store of empty files, or none."""
        self.site.look()
        self.site.look()
        if self.site.files["A"] or self.site.files["B"]:
            self.say(b"not empty\n")
            return None
        return store_files.make(self.disk, profile, depth)

    def init(self, profile, depth):
        if self.made(profile, depth) is None:
            return 2
        self.show(NONE)
        return 0

    def serve(self, turns):
        desk = Desk(self.opened())
        Server(self, desk).turns(turns)
        self.show(f"requests {desk.counts.requests} hits {desk.counts.hits}\n".encode())

    def drill(self, count):
        store = self.made("regtest", 100)
        if store is None:
            return 2
        for command in made_blocks.drill_commands(count):
            store.carry_out(command)
        self.show(drill_line(count, store.stack.index))
        return 0

    def reply(self, path):
        if path == "/sat/satoshi":
            assert not stands(self.site.files)[0].hashes()
            return compact(SATOSHI)
        if isinstance(path, bytes):
            # it isn't UTF-8, and takes no route
            return compact({"error": 404})
        desk = Desk(store_files.Store(self.disk, *stands(self.site.files)))
        return desk.reply("GET", path, b"", False)[1]

    def migrate(self):
        self.look_at_fronts()
        try:
            stack, count, tail = old_files.old_stands(self.site.files)
        except old_files.Old as old:
            self.site.look()
            self.site.look()
            self.say(f"old {old}\n".encode())
            return 10
        self.site.look()
        self.site.look()
        store_files.Store(self.disk, stack, tail).turn_to(stack)
        self.show(f"ok {count}\n".encode())
        return 0

    def grow(self):
        self.opened((VERSION,), grows=True).grow()
        self.show(b"ok grown\n")

    def visit(self, door, rooms):
        """Takes the link that waits at a door, hears it, gives it up and shuts it."""
        if not self.site.call():
            yield "failed"
            return
        if not self.doors[door]:
            yield "nobody"
            return
        script = [said for said in self.doors[door].pop(0) if said != b""]
        number = self.arrive()
        for room in rooms:
            passes = self.site.call()
            assert passes
            said = script.pop(0) if script else "."
            if isinstance(said, bytes):
                if len(said) > room:
                    script.insert(0, said[room:])
                yield heard_line(said[:room], room)
            else:
                yield f"{'nothing yet' if said == '.' else 'end'}: {bytes(room).hex()}"
            if said != ".":
                self.event()
        self.event()
        self.event()
        yield f"link {number}"


def heard_line(piece, room):
    return f"{len(piece)}: {piece.hex()}{bytes(room - len(piece)).hex()}"


def said_line(said):
    """How a line and the command that it is are printed."""
    command = command_in(said)
    if command is None:
        told = "no command"
    else:
        told = "disconnect" if command == DISCONNECT else f"connect {command[1:].hex()}"
    return f"{printed(said)}: {told}"


# ---- rows


def part_of(part):
    """A part: bytes, or how often and which."""
    return part.hex() if isinstance(part, bytes) else f"{part[0]}*{part[1].hex()}"


def bytes_of(part):
    return part if isinstance(part, bytes) else part[0] * part[1]


def run_word(word):
    is_plain = isinstance(word, str) and re.fullmatch(r"[^=, ][^, ]*", word)
    return word if is_plain else "=" + (word if isinstance(word, bytes) else word.encode()).hex()


class Runs:
    """The rows so far, and what is printed for them."""

    def __init__(self):
        self.stdin, self.stdout, self.world, self.said = [], [], World(), b""

    def row(self, *words):
        self.stdin.append(" ".join(map(str, words)))

    def heading(self, what):
        self.row("#", what)
        self.stdout.append(f"# {what}")
        self.fresh()

    def fresh(self):
        self.row("fresh")
        self.world, self.said = World(), b""

    def store(self, *parts):
        """An empty regtest store of depth 100, and what channel 0 says; whose calls and moments are
        counted from now on."""
        self.fresh()
        assert self.run("init", "regtest", "100") == (0, NONE)
        self.restart(len(self.world.site.steps), 0, CUTS_NOTHING)
        self.feed(*parts)

    def feed(self, *parts):
        self.row("feed", *map(part_of, parts))
        self.said = b"".join(map(bytes_of, parts))
        self.world.said += self.said

    def link(self, door, *said):
        self.row("link", door, *(word if word in (".", "$") else part_of(word) for word in said))
        self.world.doors[door].append([w if w in (".", "$") else bytes_of(w) for w in said])

    def fail(self, call):
        assert call >= self.world.site.calls
        self.row("fail", call)
        self.world.site.failing.add(call)

    def ran(self, words):
        """The status of a run, and what it showed."""
        before = len(self.world.told)
        status = self.world.run(words)
        return status, self.world.told[before:]

    def reopen(self, moment, fill, keep):
        """What is opened of the files that a crash leaves."""
        self.row("reopen", moment, fill, keep)
        self.stdout += store_rows.opened_lines(self.world.site.crash(moment, fill, keep))

    def run(self, *words):
        self.row("run", *map(run_word, words))
        ended = self.ran(words)
        self.stdout += [f"status {ended[0]}", printed(self.world.told)]
        return ended

    def ends(self, words, status, told):
        """A run that has to end so."""
        ran = self.run(*words)
        assert ran == (status, told), (words, status, told, ran)

    def short(self, portion, whole_writes, *words):
        """A run over a site of short calls; and how many writes were cut short."""
        self.row("short", portion, whole_writes, *words)
        world = self.world
        world.portion = PORTIONS[portion]
        world.disk = disk = Disk(world.site, world.portion, whole_writes)
        ended = self.ran(words)
        world.portion, world.disk = whole, Disk(world.site)
        self.stdout += [f"status {ended[0]}, {disk.cut} cut short", printed(world.told)]
        return *ended, disk.cut

    def crash(self, moment, fill, keep, *runs):
        """Runs over what a crash leaves: the status and the bytes shown of each."""
        self.row("crash", moment, fill, keep, *(",".join(map(run_word, words)) for words in runs))
        after = self.world.crash(moment, fill, keep)
        after.said, ended = self.said, []
        for words in runs:
            before = len(after.told)
            status = after.run(words)
            self.stdout.append(f"status {status}")
            ended.append((status, after.told[before:]))
        self.stdout.append(printed(after.told))
        return ended

    def restart(self, moment, fill, keep):
        self.row("restart", moment, fill, keep)
        self.world, self.said = self.world.crash(moment, fill, keep), b""

    def overwrite(self, file, at, data):
        self.row("overwrite", file, at, data.hex())
        self.world.site.write(file, at, data)

    def file(self, file):
        self.row("file", file, 0)
        data = self.world.site.files[file]
        self.stdout.append(f"{len(data)} bytes: {data.hex()}")

    def files(self, a, b=CLOSED):
        """Both files, which have to be these."""
        assert self.world.site.files == {"A": a, "B": b}
        self.file("A")
        self.file("B")

    def frame(self, *parts):
        self.row("frame", *map(part_of, parts))
        self.stdout.append(record_of(b"".join(map(bytes_of, parts))).hex())

    def now(self):
        self.row("now")
        self.stdout.append(f"moment {len(self.world.site.steps)}")

    def lines(self, count):
        """So many lines of channel 0, and at its end no more."""
        self.row("lines", count)
        told = [*map(said_line, self.world.lines())]
        self.stdout += (told + count * ["end"])[:count]

    def hear(self, *rooms):
        self.row("hear", *rooms)
        for room in rooms:
            try:
                piece = self.world.hear(room)
            except HearFailed:
                self.stdout.append(f"failed: {bytes(room).hex()}")
            else:
                told = f"end: {bytes(room).hex()}" if piece is None else heard_line(piece, room)
                self.stdout.append(told)

    def show(self, *parts):
        self.row("show", *map(part_of, parts))
        data = b"".join(map(bytes_of, parts))
        try:
            self.world.show(data)
        except ShowFailed:
            self.stdout.append("failed")
        else:
            self.stdout.append(f"took {len(data)}")
        self.stdout.append(printed(self.world.told))

    def visit(self, door, *rooms):
        self.row("visit", door, *rooms)
        self.stdout += self.world.visit(door, rooms)
