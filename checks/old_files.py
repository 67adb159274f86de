"""The files of a store of version 1, what they stand for, and what `migrate` makes of them, by
docs/FORMATS.md: over the plain index of plain_index."""

from chain import record_of
from plain_index import Refused
from store_files import BODY_AT, BYTES, CLOSED, GREATEST, OPEN, NoStore, Store
from store_files import current, empty, number, number_in, records, tail_of

VERSION = 1


class Old(Exception):
    """The number of the first command that the rules refuse, and the line of its refusal."""


def old_front(profile="regtest", depth=100, generation=1):
    """An open file without records, but for its last gate."""
    numbers = number(depth, 2) + number(generation, 8) + bytes(8)
    return OPEN + b"oxidx" + bytes([VERSION, BYTES[profile]]) + numbers


def old_file_of(commands, profile="regtest", depth=100, generation=1):
    """An open file with records of these commands."""
    behind = b"".join(OPEN + record_of(command)[:-1] for command in commands)
    return old_front(profile, depth, generation) + behind + CLOSED


def old_stands(files, refusals=()):
    """The stack that two files stand for, how many commands they have, and the tail. Of blocks that
    the plain index doesn't look at whole, `refusals` has the lines."""
    file = current(files)
    data = bytes(files[file])
    generation, size = number_in(data, 10, 8), number_in(data, 18, 8)
    if data[6] != VERSION:
        raise NoStore(f"{file} at 6")
    if generation == GREATEST:
        raise NoStore(f"{file} at 10")
    if size:
        raise NoStore(f"{file} at {BODY_AT}")
    (profile,) = [name for name, byte in BYTES.items() if byte == data[7]]
    stack = empty(profile, number_in(data, 8, 2))
    found, gate, ends = records(data, BODY_AT)
    for count, (place, command) in enumerate(found):
        if command != b"\0" and command[:1] != b"\1":
            raise NoStore(f"{file} at {place}")
        try:
            stack = obey(stack, command, dict(refusals))
        except Refused as refused:
            raise Old(f"{count} {refused}")
    if not ends:
        raise NoStore(f"{file} at {gate}")
    return stack, len(found), tail_of(files, file, len(found), gate)


def obey(stack, command, refusals):
    if command in refusals:
        raise Refused(refusals[command])
    return stack.obey(command)[0]


def migrate(disk, refusals=()):
    """Makes a disk's files of version 1 a store of version 2; answers it, and how many commands it
    had."""
    stack, count, tail = old_stands(disk.files, refusals)
    store = Store(disk, stack, tail)
    store.turn_to(stack)
    return store, count
