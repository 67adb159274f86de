"""The rows of crates/ox_run_rows that run a leader or a follower, and what has to be printed for
them: see worlds and following, which share nothing with the library."""

import made_blocks
import store_files
from chain import DISCONNECT, GENESIS, chain, line, payload_of
from plain_index import NO_BLOCK
from rows.desk_rows import ROOM
from rows.following import Leader
from rows.frame_rows import LONGEST, base, front, have, level, step
from rows.store_rows import ALL, APPENDED, LOOKS, TURNED, block_on, marks
from rows.worlds import CUTS_NOTHING, NONE, PORTIONS, Runs
from store_files import GREATEST, files_of

FILLS = 0x00, 0x07, 0xFF
FOLLOW, LEAD, STATUS = ("follow",), ("lead",), ("query", "/status")


def leader_of(commands, profile="regtest", depth=100):
    """The leader of a store that heard these commands."""
    return Leader(dict(zip("AB", files_of(commands, profile, depth))))


FIRST = leader_of([payload_of(GENESIS)])
FIRST_STEP = FIRST.answer(1, 0)
BLOCKS = chain(66)[0]
COMMANDS = [payload_of(block) for block in BLOCKS]
# 65 blocks, so a file of generation 2 without a record; one block more is a record behind it
TURNED_ONCE, GOES_ON = leader_of(COMMANDS[:65]), leader_of(COMMANDS)
ITS_BASE = TURNED_ONCE.answer(1, 0)
# the body of a file with the first of these blocks
SMALL = store_files.store_of(COMMANDS[:1]).stack.body()


def payloads_of(commands):
    """What the records of these commands hold, on a store without a block."""
    stack = store_files.empty()
    for command in commands:
        stack, payload = stack.obey(command)
        yield payload


PAYLOADS = [*payloads_of(COMMANDS)]


def haves(*positions):
    return b"".join(have(*at) for at in positions)


class Follows(Runs):
    """The rows so far."""

    def settle(self):
        """The files stay, and their moments and calls are counted from here on."""
        self.restart(self.world.now(), 0, CUTS_NOTHING)

    def leader(self, *blocks):
        """A store that connected these blocks."""
        self.store(b"".join(map(line, blocks)))
        assert self.run("apply")[0] == 0
        self.settle()

    def leads(self, heard, status, *answers):
        """What a leader shows of frames, or parts of one."""
        self.settle()
        self.feed(*heard)
        self.ends(LEAD, status, b"".join(answers))

    def follows(self, heard, status, *positions):
        """Where a follower says that it stands, as it hears frames or parts of one."""
        self.feed(*heard)
        self.ends(FOLLOW, status, haves(*positions))

    def begins(self, heard, status, *positions):
        """The same of a store without a block."""
        self.store()
        self.follows(heard, status, *positions)


# ---- what the two say


def pairs(rows):
    rows.heading("a follower takes the one record that its leader has")
    rows.leader(GENESIS)
    rows.leads([have(1, 0), have(1, 1)], 0, FIRST_STEP, level(1, 1))
    assert have(1, 0).hex() == "11000000000000000301000000000000000000000000000000"
    assert FIRST_STEP[:8].hex() == "d500000000000000"
    ahead = rows.world.site.files["A"]
    rows.begins([FIRST_STEP, level(1, 1)], 0, (1, 0), (1, 1))
    rows.files(ahead)
    rows.heading("of a leader whose files have turned it takes the whole file, once")
    rows.leader(*BLOCKS[:65])
    rows.leads([have(1, 0), have(2, 0)], 0, ITS_BASE, level(2, 0))
    ahead = rows.world.site.files["B"]
    late = step(1, 0, COMMANDS[0])
    rows.begins([ITS_BASE, ITS_BASE, late], 13, (1, 0), *3 * [(2, 0)])
    rows.file("B")
    assert rows.world.site.files["B"] == ahead
    rows.ends(STATUS, 0, status_of(rows, 65))
    rows.follows([GOES_ON.answer(2, 0), level(2, 1)], 0, (2, 0), (2, 1))
    rows.file("B")
    rows.ends(STATUS, 0, status_of(rows, 66))
    rows.heading("a store of another depth, a Have past the leader, and nothing to hear")
    rows.fresh()
    rows.ends(("init", "regtest", "50"), 0, NONE)
    rows.follows([ITS_BASE], 11, (1, 0))
    rows.store()
    rows.leads([have(2, 0)], 12)
    rows.begins([], 13, (1, 0))


def status_of(rows, blocks):
    """What a status tells of the files, which have so many blocks."""
    told = rows.world.reply("/status")
    assert f'"blocks":{blocks},'.encode() in told
    return told


def talks(rows):
    rows.heading("a follower of made blocks, with inscriptions and runes, and taken back ones")
    commands = made_blocks.drill_commands(12)
    answers = leader_of(commands).answers()
    rows.begins(answers, 0, *((1, place) for place in range(len(answers))))
    rows.file("A")
    assert rows.world.site.files["A"] == files_of(commands)[0]
    rows.heading("it takes steps also behind 64 records, and then a whole file")
    steps = [step(1, place, payload) for place, payload in enumerate(PAYLOADS)]
    places = [(1, place) for place in range(len(steps) + 1)]
    rows.begins([*steps, GOES_ON.answer(1, 66)], 13, *places, (2, 0))
    rows.file("A")
    rows.file("B")
    rows.heading("frames that come twice, late or not at all")
    whole = base(2, SMALL, 1, 100)
    first, second = (step(2, place, PAYLOADS[place + 1]) for place in (0, 1))
    for heard, places in (
        ([second, whole, second, first], [(1, 0), (2, 0), (2, 0), (2, 1)]),
        ([whole, first, whole, first, second], [(2, 0), *3 * [(2, 1)], (2, 2)]),
        ([steps[0], steps[0], steps[2], steps[1]], [*3 * [(1, 1)], (1, 2)]),
        (
            [level(1, 1), level(2, 0), level(0, 0), steps[0], level(1, 0)],
            [*3 * [(1, 0)], *2 * [(1, 1)]],
        ),
    ):
        rows.begins(heard, 13, (1, 0), *places)
    rows.heading("a leader of whatever Have")
    rows.leader(GENESIS)
    whole = FIRST.answer(0, 0)
    rows.leads([have(0, 0), have(0, 1), have(0, GREATEST), have(1, 0)], 0, *3 * [whole], FIRST_STEP)


# ---- how the two end


def wrong_frames():
    """What begins no frame, and fronts of one that isn't whole."""
    yield from (bytes(8), front(16, 3, 1, 0), front(17, 5, 1, 0), front(18, 4, 1, 0))
    yield from (base(2, b"", place=1), front(LONGEST - 2, 2, 1, 0)[:9], front(19, 1, 1, 0)[:9])
    whole = base(2, SMALL, 1, 100)
    yield from (have(1, 0)[:1], level(1, 0)[:24], FIRST_STEP[:-1], whole[:28], whole[:-1])


def follow_ends(rows):
    rows.heading("a follower ends at a Level of its own place, and hears nothing behind it")
    rows.begins([level(1, 0), bytes(8)], 0, (1, 0))
    rows.begins([FIRST_STEP, level(1, 1), have(1, 1)], 0, (1, 0), (1, 1))
    rows.heading("it ends early where its channel does")
    rows.begins([FIRST_STEP, level(1, 0)], 13, (1, 0), (1, 1), (1, 1))
    rows.heading("it ends at a frame that is none, and at one that isn't whole")
    for wrong in wrong_frames():
        rows.begins([wrong], 11, (1, 0))
        rows.begins([FIRST_STEP, wrong], 11, (1, 0), (1, 1))
    rows.heading("it ends at a Have, and at a step or a base that is next and doesn't fit")
    payload, lying = PAYLOADS[0], store_files.number(65, 4) + bytes(100)
    for wrong in (
        have(1, 0),
        have(0, 0),
        *(step(1, 0, p) for p in (b"", b"\2", DISCONNECT, payload[:-1], payload + b"\0")),
        step(1, 0, PAYLOADS[1]),
        *(base(2, SMALL, profile, 100) for profile in (0, 2, 3, 255)),
        *(base(2, SMALL, 1, depth) for depth in (0, 99, 101, 65_535)),
        *(base(2, body, 1, 100) for body in (b"", SMALL[:-1], SMALL + b"\0", lying)),
    ):
        rows.begins([wrong], 11, (1, 0))
        rows.files(bytes.fromhex(store_files.EMPTY))
    rows.heading("a frame that isn't next isn't looked at further")
    for late in (
        *(step(*at, b"\2") for at in ((1, 1), (0, 0), (2, 0), (1, GREATEST))),
        *(base(generation, b"", 9, 9) for generation in (0, 1)),
    ):
        rows.begins([late], 13, (1, 0), (1, 0))
    rows.heading("the greatest generation is followed")
    heard = base(GREATEST, SMALL, 1, 100), step(GREATEST, 0, PAYLOADS[1])
    rows.begins(heard, 13, (1, 0), (GREATEST, 0), (GREATEST, 1))
    rows.file("B")


def lead_ends(rows):
    rows.heading("a leader ends with its channel")
    rows.leader(GENESIS)
    rows.leads([], 0)
    rows.heading("it ends at a Have past its own place, and answers none behind it")
    rows.leader(GENESIS)
    for past in ((1, 2), (1, GREATEST), (2, 0), (GREATEST, 0)):
        rows.leads([have(1, 0), have(*past), have(1, 0)], 12, FIRST_STEP)
    rows.heading("it ends at a frame that is no Have, at none, and at one that isn't whole")
    rows.leader(GENESIS)
    for wrong in (FIRST_STEP, base(2, SMALL, 1, 100), level(1, 1), *wrong_frames()):
        rows.leads([wrong], 11)
        rows.leads([have(1, 0), wrong], 11, FIRST_STEP)
    rows.file("A")


def spoilt(rows, heard):
    """A store whose first byte is gone, and what channel 0 says."""
    rows.store(heard)
    rows.overwrite("A", 0, b"\0")


def no_stores(rows):
    rows.heading("files that are no store are neither led nor followed, and no line is shown")
    for words, heard in ((LEAD, have(1, 0)), (FOLLOW, level(1, 0))):
        rows.fresh()
        rows.feed(heard)
        rows.ends(words, 3, b"")
        rows.files(b"", b"")
        spoilt(rows, heard)
        rows.ends(words, 3, b"")
        rows.file("A")
        # the overwriting is a call too, and the calls behind the fronts aren't counted
        for call in range(LOOKS - 2):
            spoilt(rows, heard)
            rows.fail(1 + call)
            rows.ends(words, 4, b"")


# ---- short calls


def short_calls(rows):
    rows.heading("frames that are heard and shown in single bytes, and in halves")
    for portion in PORTIONS:
        rows.store(FIRST_STEP + level(1, 1))
        assert rows.short(portion, ALL, *FOLLOW) == (0, haves((1, 0), (1, 1)), 0)
        rows.settle()
        rows.feed(haves((1, 0), (0, 0), (1, 1)))
        told = FIRST_STEP + FIRST.answer(0, 0) + level(1, 1)
        assert rows.short(portion, ALL, *LEAD) == (0, told, 0)
    rows.heading("a write that fails halfway leaves the place before or after")
    for heard, writes in ((FIRST_STEP, 2), (base(2, SMALL, 1, 100), 3)):
        for portion in PORTIONS:
            for whole in range(writes):
                rows.store(heard)
                assert rows.short(portion, whole, *FOLLOW) == (4, have(1, 0), 1)
                rows.settle()
                rows.feed(heard)
                rows.run(*FOLLOW)


def long_base(rows):
    rows.heading("a base of two million bytes is heard in pieces")
    block, tip = block_on(NO_BLOCK, 1, target=2_000_000 * b"\x51")
    whole = leader_of([payload_of(block), *marks(2, 64, tip)[0]], depth=1).answer(0, 0)
    at = whole.index(2_000_000 * b"\x51")
    assert len(whole) > 30 * ROOM
    rows.ends(("init", "regtest", "1"), 0, NONE)
    heard = [whole[:at], (2000, 1000 * b"\x51"), whole[at + 2_000_000 :], level(2, 0)]
    rows.follows(heard, 0, (1, 0), (2, 0))
    rows.leads([have(1, 0)], 0, whole)


# ---- stops and failing calls


def each_call(rows, heard, calls, positions):
    """Each call of a follower that takes one frame fails, and a stop afterwards. `positions` are
    where it stands before the frame and behind it."""
    rows.settle()
    shows, hears = (LOOKS, LOOKS + 2 + calls), (LOOKS + 1, LOOKS + 3 + calls)
    for call in range(LOOKS + 5 + calls):
        rows.restart(0, 0, CUTS_NOTHING)
        rows.feed(heard)
        rows.fail(call)
        status = 6 if call in shows else 5 if call in hears else 4 if call < hears[1] else 13
        told = haves(*positions)[: 25 * ((call > shows[0]) + (call > shows[1]))]
        rows.ends(FOLLOW, status, told)
        for fill in FILLS:
            now = rows.world.now()
            rows.reopen(now, fill, CUTS_NOTHING)
            ((_, said),) = rows.crash(now, fill, CUTS_NOTHING, FOLLOW)
            # from the gate's write on it may stand behind the frame, and from its sync on it does
            behind = call >= shows[1] - (2 if fill else 1) + (call == shows[1] - 1 and not fill)
            assert said[:25] == have(*positions[behind])
    rows.restart(0, 0, CUTS_NOTHING)


def each_moment(rows, heard, positions):
    """A stop at each moment of a follower that takes one frame: it stands before it or behind it,
    and at each place of whose Have a byte was shown; and the same frame leads on from there."""
    rows.settle()
    rows.feed(heard)
    rows.ends(FOLLOW, 13, haves(*positions))
    for moment in range(rows.world.now() + 1):
        shown = len(rows.world.shown(0, moment)) - len(rows.world.shown(0, 0))
        for fill in FILLS:
            for keep in (0, CUTS_NOTHING):
                rows.reopen(moment, fill, keep)
                ((status, said),) = rows.crash(moment, fill, keep, FOLLOW)
                assert status == 13 and said.endswith(have(*positions[1]))
                stands = [have(*at) for at in positions].index(said[:25])
                assert stands >= (shown > 25)


def stops(rows):
    of_two, of_three = (base(generation, SMALL, 1, 100) for generation in (2, 3))
    for what, before, heard, calls, positions in (
        ("a step", [], FIRST_STEP, APPENDED, ((1, 0), (1, 1))),
        ("a base beside a closed file", [], of_two, TURNED, ((1, 0), (2, 0))),
        ("a base beside an open file", [of_two], of_three, TURNED + 2, ((2, 0), (3, 0))),
    ):
        rows.heading(f"{what}: each call of a follower fails, and a stop at each moment of it")
        rows.store()
        if before:
            rows.follows(before, 13, (1, 0), positions[0])
        each_call(rows, heard, calls, positions)
        each_moment(rows, heard, positions)
    rows.heading("a stop at each moment of a base of 65 blocks")
    rows.store()
    each_moment(rows, ITS_BASE, ((1, 0), (2, 0)))


def lead_stops(rows):
    rows.heading("each call of a leader fails")
    rows.leader(GENESIS)
    answers = FIRST_STEP[:25], FIRST_STEP[25:], level(1, 1)
    for call in range(LOOKS + 6):
        rows.restart(0, 0, CUTS_NOTHING)
        rows.feed(haves((1, 0), (1, 1)))
        rows.fail(call)
        status = (
            4 if call < LOOKS else 5 if call in (LOOKS, LOOKS + 4) else 6 if call < LOOKS + 4 else 0
        )
        rows.ends(LEAD, status, b"".join(answers[: max(call - LOOKS - 1, 0)]))
        rows.reopen(rows.world.now(), 0x07, 0)
    assert rows.world.now() == 2 + 5


def follows():
    """The rows, and what has to be printed for them."""
    rows = Follows()
    for part in (pairs, talks, follow_ends, lead_ends, no_stores):
        part(rows)
    for part in (short_calls, long_base, stops, lead_stops):
        part(rows)
    return rows
