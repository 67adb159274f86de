"""A leader and a follower over a site of two files: which frame answers a Have, what a follower
takes of a frame, and how each run ends.

docs/FORMATS.md, 'Frames', and docs/OPERATING.md tell all of it, on their own, and it shares nothing
with the library. What these don't say: a frame is heard only where none stands in what was heard
before, and what stands before a body or a payload is shown by a call of its own.
"""

from rows.desk_rows import ROOM
from rows.frame_rows import base, first, have, level, step
from store_files import BODY_AT, BYTES, current, number_in, read_body, records
from store_files import with_payload

BASE, STEP, HAVE, LEVEL = 1, 2, 3, 4
# how many bytes stand before a body, and before a payload
FRONTS = {BASE: 28, STEP: 25, HAVE: 25, LEVEL: 25}


class Ended(Exception):
    """The status with which frames end a run."""


def position_of(frame):
    return number_in(frame, 9, 8), number_in(frame, 17, 8)


def frames(world, over):
    """The frames that channel 0 says; at its end the run ends with this status."""
    held, ended = b"", False
    while True:
        used = first(held)
        if used:
            yield held[:used]
            held = held[used:]
        elif used == 0 or (ended and held):
            raise Ended(11)
        elif ended:
            raise Ended(over)
        else:
            piece = world.hear(ROOM)
            held, ended = held + (piece or b""), piece is None


class Leader:
    """What stands in the current file."""

    def __init__(self, files):
        data = files[current(files)]
        self.generation, end = number_in(data, 10, 8), BODY_AT + number_in(data, 18, 8)
        self.profile, self.depth, self.body = data[7], number_in(data, 8, 2), data[BODY_AT:end]
        self.payloads = [payload for _, payload in records(data, end)[0]]

    def answer(self, generation, place):
        """The frame that answers a Have."""
        if (generation, place) > (self.generation, len(self.payloads)):
            raise Ended(12)
        if generation < self.generation:
            return base(self.generation, self.body, self.profile, self.depth)
        if place < len(self.payloads):
            return step(generation, place, self.payloads[place])
        return level(generation, place)

    def answers(self):
        """What it shows to a follower of the same generation and no record, from there on."""
        return [self.answer(self.generation, n) for n in range(len(self.payloads) + 1)]


def lead(world, store):
    """Answers the Haves that channel 0 says, by the files that were opened."""
    leader = Leader(world.site.files)
    for frame in frames(world, 0):
        if frame[8] != HAVE:
            raise Ended(11)
        answer = leader.answer(*position_of(frame))
        front = FRONTS[answer[8]]
        world.show(answer[:front])
        world.show(answer[front:])


def take(store, frame):
    """Takes what a frame brings to a store."""
    at, mine = position_of(frame), (store.tail.generation, store.tail.records)
    rest = frame[FRONTS[frame[8]] :]
    if frame[8] == HAVE:
        raise Ended(11)
    if frame[8] == LEVEL and at == mine:
        raise Ended(0)
    if frame[8] == STEP and at == mine:
        stack = with_payload(store.stack, rest)
        if stack is None:
            raise Ended(11)
        store.append(rest)
        store.stack = stack
    if frame[8] == BASE and at[0] > mine[0]:
        profile, depth = store.stack.profile, store.stack.depth
        is_own = (frame[25], number_in(frame, 26, 2)) == (BYTES[profile], depth)
        stack = read_body(profile, depth, rest) if is_own else None
        if stack is None:
            raise Ended(11)
        store.turn_to(stack, at[0])
        store.stack = stack


def follow(world, store):
    """Shows a Have of where a store stands, and one behind each frame that channel 0 says."""
    world.show(have(store.tail.generation, store.tail.records))
    for frame in frames(world, 13):
        take(store, frame)
        world.show(have(store.tail.generation, store.tail.records))
