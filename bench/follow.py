#!/usr/bin/env python3
"""Times a follower of the built program that two pipes join to its leader, on a real disk.

    python3 bench/follow.py [BLOCKS [STEPS [OUTPUTS [PROGRAM]]]]

makes a folder below out/ beside this script, which has to be on a disk, and in it stores that are
gone at the end. Each pair of runs takes turns, three times, and what took least is printed.

- So many blocks of bench/fold_blocks.py (300 without a word), of 500 spends each: the processor
  time of a `follow` that takes them step by step, beside that of an `apply` of them.
- So many steps of small blocks (2,000): how long the two take from start to end, beside `cat` of
  the same frames into this script, which writes them and waits for the disk as often.
- A base of so many outputs (2,000,000): the processor time and the memory of a `follow` that takes
  it, beside those of a `query` that opens the leader's store.

In the end each follower has to have the bytes of its leader's current file. PROGRAM is
crates/ox_main/out/ox_main without a word. Nothing here is proved. bench/all.py builds the program.
"""

import os
import pathlib
import shutil
import subprocess
import sys
import time

import large_stores
from apply_and_open import change_of, files_with, folder_on_disk, seconds_of_calls
from fold_blocks import write_chain
from runs import RUNS, in_another_process, report, run
from tools.programs import TOP, proved_program
from tools.words import words_of

sys.path.append(str(TOP / "checks"))

from chain import chain, record_of  # noqa: E402
from store_files import BODY_AT, CLOSED, GREATEST, OPEN, empty, file_of  # noqa: E402
from store_files import number, payload_on  # noqa: E402

PROGRAM = proved_program("ox_main")
DEPTH = 100
# how fast blocks and steps should be at the least, and a base by the opening of its store
BLOCKS_GOAL, STEPS_GOAL, BASE_GOAL = 1.0, 0.5, 0.5


def made(program, folder, depth=DEPTH):
    """A regtest store in a new folder."""
    folder.mkdir()
    words = [program, folder, "init", "regtest", str(depth)]
    subprocess.run(words, check=True, stdout=subprocess.DEVNULL)
    return folder


def set_generation(folder, generation):
    """Gives file A another generation. One of the greatest is never turned: each command and each
    step is a record."""
    with open(folder / "a.ox", "r+b") as file:
        file.seek(10)
        file.write(number(generation, 8))


def follow(program, leader, folder):
    """Joins a leader and a follower: how long the two take, and the processor seconds and the
    memory of the follower."""
    haves, frames = os.pipe(), os.pipe()
    begun = time.perf_counter()
    pairs = ("lead", leader, haves[0], frames[1]), ("follow", folder, frames[0], haves[1])
    children = [
        subprocess.Popen([program, store, word], stdin=heard, stdout=shown)
        for word, store, heard, shown in pairs
    ]
    for end in (*haves, *frames):
        os.close(end)
    used = [os.wait4(child.pid, 0) for child in reversed(children)]
    seconds = time.perf_counter() - begun
    for child, (_, status, _) in zip(reversed(children), used):
        child.returncode = os.waitstatus_to_exitcode(status)
    if any(child.returncode for child in children):
        sys.exit(f"`lead` and `follow` ended with {[child.returncode for child in children]}")
    usage = used[0][2]
    return seconds, usage.ru_utime + usage.ru_stime, usage.ru_maxrss * 1024


def copied(folder, name):
    """A copy of a store, which is gone where there was one before."""
    place = folder.parent / name
    shutil.rmtree(place, ignore_errors=True)
    return pathlib.Path(shutil.copytree(folder, place))


def same(leader, folder, names=("a.ox", "a.ox")):
    """The follower has to have what its leader has."""
    files = [(store / name).read_bytes() for store, name in zip((leader, folder), names)]
    if files[0] != files[1]:
        sys.exit("the follower hasn't what its leader has")


# ---- blocks of spends


def apply_lines(program, folder, feed):
    seconds, _, shown = run([program, folder, "apply"], feed)
    if not all(line.startswith(b"ok ") for line in shown.splitlines()):
        sys.exit("not each block was accepted")
    return seconds


def follow_blocks(program, top, count):
    first, feeds = made(program, top / "first"), (top / "begin", top / "feed")
    set_generation(first, GREATEST)
    ends = in_another_process(write_chain, top / "chain", count + 2)
    lines = (top / "chain").read_bytes()
    # the first two blocks make what the others spend
    feeds[0].write_bytes(lines[: ends[1]])
    feeds[1].write_bytes(lines[ends[1] :])
    apply_lines(program, first, feeds[0])
    applied, followed = [], []
    for _ in range(RUNS):
        leader = copied(first, "leader")
        applied.append(apply_lines(program, leader, feeds[1]))
        follower = copied(first, "follower")
        followed.append(follow(program, leader, follower)[1])
        same(leader, follower)
    ours, theirs = count / min(followed), count / min(applied)
    print(
        f"{count:,} blocks of 500 spends: followed {ours:.0f} a second of processor time, applied"
        f" {theirs:.0f}: {ours / theirs:.2f} and at least {BLOCKS_GOAL}",
        flush=True,
    )
    size = f"{count:,} blocks"
    report("blocks of 500 spends followed", size, "blocks a second", ours, theirs, BLOCKS_GOAL)


# ---- small steps


def step(place, payload):
    """The frame of a step, by docs/FORMATS.md, 'Frames'."""
    at = number(GREATEST, 8) + number(place, 8)
    return number(1 + len(at) + len(payload), 8) + b"\2" + at + payload


def bare_steps(top, file, payloads):
    """How long `cat` takes to give these steps to this process, which writes each as a record and
    waits for the disk as a follower does."""
    frames = [step(place, payload) for place, payload in enumerate(payloads)]
    (top / "frames").write_bytes(b"".join(frames))
    folder = top / "bare"
    shutil.rmtree(folder, ignore_errors=True)
    files, gate = files_with(folder, (file, CLOSED)), len(file) - 1
    begun = time.perf_counter()
    with subprocess.Popen(["cat", top / "frames"], stdout=subprocess.PIPE) as child:
        for frame in frames:
            payload = child.stdout.read(len(frame))[len(step(0, b"")) :]
            record = record_of(payload)
            calls = [("A", gate + 1, record), ("A", None, None), ("A", gate, OPEN)]
            seconds_of_calls(files, [*calls, ("A", None, None)])
            gate += len(record)
    seconds = time.perf_counter() - begun
    for name in files.values():
        os.close(name)
    return seconds, folder / "A"


def follow_steps(program, top, count):
    payloads = [payload_on(change_of(block, at)) for at, block in enumerate(chain(count)[0])]
    leader, first = (made(program, top / name) for name in ("small leader", "small first"))
    body, generation = empty("regtest", DEPTH).body(), GREATEST
    file = file_of("regtest", DEPTH, body, generation=generation)
    (first / "a.ox").write_bytes(file)
    (leader / "a.ox").write_bytes(file_of("regtest", DEPTH, body, payloads, generation))
    ours, theirs = [], []
    for _ in range(RUNS):
        follower = copied(first, "small follower")
        ours.append(follow(program, leader, follower)[0])
        same(leader, follower)
        seconds, written = bare_steps(top, file, payloads)
        theirs.append(seconds)
        if written.read_bytes() != (leader / "a.ox").read_bytes():
            sys.exit("the bare writes are others")
    rates = count / min(ours), count / min(theirs)
    print(
        f"{count:,} steps of small blocks: followed {rates[0]:.0f} a second, by `cat`"
        f" {rates[1]:.0f}: {rates[0] / rates[1]:.2f} and at least {STEPS_GOAL}",
        flush=True,
    )
    report("small steps followed", f"{count:,} steps", "steps a second", *rates, STEPS_GOAL)


# ---- a base


def follow_base(program, top, outputs, kept=10):
    leader, first = (made(program, top / name, kept) for name in ("large leader", "large first"))
    in_another_process(large_stores.write_store, leader / "a.ox", outputs, kept, 0)
    set_generation(leader, 2)
    ours, theirs = [], []
    for _ in range(RUNS):
        follower = copied(first, "large follower")
        ours.append(follow(program, leader, follower)[1:])
        same(leader, follower, ("a.ox", "b.ox"))
        theirs.append(run([program, leader, "query", "/status"])[:2])
    (seconds, memory), (opening, held) = min(ours), min(theirs)
    size, frame = f"{outputs:,} outputs", (leader / "a.ox").stat().st_size - BODY_AT
    print(
        f"a base of {size}: followed in {seconds:.2f} s, opened in {opening:.2f}:"
        f" {opening / seconds:.2f} and at least {BASE_GOAL}; {memory / 1e6:.0f} and"
        f" {held / 1e6:.0f} MB, of which the frame has {frame / 1e6:.0f}",
        flush=True,
    )
    report("a base followed", size, "ms", 1000 * seconds, 1000 * opening, BASE_GOAL)
    report("a base followed, memory", size, "MB", memory / 1e6, held / 1e6)


def main():
    words = words_of(__doc__)
    words.add_argument("blocks", nargs="?", type=int, default=300, help="of 500 spends (300)")
    words.add_argument("steps", nargs="?", type=int, default=2000, help="of small blocks (2,000)")
    words.add_argument("outputs", nargs="?", type=int, default=2_000_000, help="(2,000,000)")
    words.add_argument("program", nargs="?", type=pathlib.Path, default=PROGRAM)
    said = words.parse_args()
    program = said.program.resolve()
    with folder_on_disk(program) as top:
        # first, since a child's greatest memory is never below this one's
        follow_base(program, top, said.outputs)
        follow_blocks(program, top, said.blocks)
        follow_steps(program, top, said.steps)


if __name__ == "__main__":
    main()
