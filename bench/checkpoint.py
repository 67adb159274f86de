#!/usr/bin/env python3
"""Times `apply` where a command writes the whole index, beside a plain Rust program that orders,
spells, writes and syncs the same bytes.

    python3 bench/checkpoint.py [OUTPUTS..]

makes feeds of blocks with so many outputs in all (100,000 and 1,000,000 without a word), each with
a script of 34 bytes, and of 200 small blocks behind them. It hands both programs a line, waits for
its answer, and then hands the next, over a new store of depth 10 in a folder below out/ beside this
script. Printed are, for both, how long the commands take that write the whole index, which are the
65th, the 130th and the 195th, and the median of the other small ones, each the least of three runs;
the same in processor time, for which the disk doesn't matter; the ratios; and how much memory the
last of these commands took above what there was before it. Both have to give the same answers and
to leave the same files. Then the same program hears the first 65 lines over stores of both
versions, of which that of version 3 turns with the 64th: printed are the two turns, in all and of
the processor, and the memory above. Nothing here is proved. bench/all.py builds both programs.
"""

import pathlib
import statistics
import subprocess
import sys
import tempfile
import time

from blocks import SUBSIDY
from runs import RUNS, report
from tools.bitcoin import twice
from tools.programs import TOP, plain_program, proved_program
from tools.words import numbers

sys.path.append(str(TOP / "checks"))

from chain import block_of, coinbase_to, line  # noqa: E402
from store_files import MOST_RECORDS, SUMMED, empty, file_of  # noqa: E402

PROGRAMS = {"ox": proved_program("ox_main"), "plain": plain_program("checkpoint")}
SIZES = 100_000, 1_000_000
DEPTH = 10
# how many outputs a block has at most, and how many small blocks follow
MANY, SMALL = 50_000, 200
TURN = 65
GOAL = 0.6
# how much longer a turn of version 3 may take than one of version 2, and how much memory above: so
# much for each output, and so much besides
SUMMED_MOST, OF_AN_OUTPUT, BESIDES = 2.5, 16, 4_000_000
# the program over a store of version 3
OVER_SUMMED = "ox at version 3"


def scripts(height, count):
    """Scripts as pay-to-taproot has them, each of its own."""
    return [b"\x51\x20" + twice(bytes([height]) + at.to_bytes(4, "little")) for at in range(count)]


def feed(outputs):
    """Lines that connect so many outputs and then small blocks."""
    lines, tip = [], bytes(32)
    counts = [MANY] * (outputs // MANY) + [1] * SMALL
    for height, count in enumerate(counts):
        targets = scripts(height, count)
        paid = [(SUBSIDY - count + 1, targets[0]), *((1, target) for target in targets[1:])]
        block, tip = block_of(tip, [coinbase_to(height, paid)])
        lines.append(line(block))
    return lines


def made(name, folder):
    """The command that hears a feed over a new store in a folder."""
    if name == "plain":
        return [PROGRAMS[name], folder, str(DEPTH)]
    words = [PROGRAMS["ox"], folder, "init", "regtest", str(DEPTH)]
    subprocess.run(words, check=True, stdout=subprocess.DEVNULL)
    if name == OVER_SUMMED:
        body = empty(depth=DEPTH).body()
        (folder / "a.ox").write_bytes(file_of("regtest", DEPTH, body, version=SUMMED))
    return [PROGRAMS["ox"], folder, "apply"]


def memory(child, field):
    """Bytes that a process has, or had at the most."""
    told = pathlib.Path(f"/proc/{child.pid}/status").read_text().split()
    return 1024 * int(told[told.index(f"{field}:") + 1])


def forget_most_memory(child):
    """The most that a process had is what it has."""
    pathlib.Path(f"/proc/{child.pid}/clear_refs").write_text("5")


def processor_time(child):
    """The seconds that a process has had of a processor."""
    return int(pathlib.Path(f"/proc/{child.pid}/schedstat").read_text().split()[0]) / 1e9


def run(name, lines, top, last):
    """How long each line takes, and how much processor time; what there was of memory before the
    line of the last turn, and how much this took above it; what was answered, and the files."""
    with tempfile.TemporaryDirectory(dir=top) as folder:
        folder = pathlib.Path(folder)
        times, works, answers = [], [], []
        command = made(name, folder)
        with subprocess.Popen(
            command, stdin=subprocess.PIPE, stdout=subprocess.PIPE, bufsize=0
        ) as child:
            for number, told in enumerate(lines):
                if number == last:
                    forget_most_memory(child)
                    before = memory(child, "VmRSS")
                begun, worked = time.perf_counter(), processor_time(child)
                write_all(child.stdin, told)
                answers.append(child.stdout.readline())
                times.append(time.perf_counter() - begun)
                works.append(processor_time(child) - worked)
                if number == last:
                    above = before, memory(child, "VmHWM") - before
            child.stdin.close()
            child.stdout.read()
            if child.wait():
                sys.exit(f"{name} ended with {child.returncode}")
        files = [(folder / file).read_bytes() for file in ("a.ox", "b.ox")]
        return (times, works), above, (answers, files)


def write_all(stream, data):
    while data:
        data = data[stream.write(data) :]


def is_turn(number):
    return (number + 1) % TURN == 0


def turns_of(times):
    return [seconds for number, seconds in enumerate(times) if is_turn(number)]


def told(all_seconds):
    return ", ".join(f"{1000 * seconds:.0f}" for seconds in all_seconds)


def compare(outputs, top):
    """Prints both programs' times, and answers those of the turns by the program's name."""
    lines = feed(outputs)
    first, last = len(lines) - SMALL, max(filter(is_turn, range(len(lines))))
    least, memories, left = {}, {}, []
    for _ in range(RUNS):
        for name in PROGRAMS:
            taken, memories[name], rest = run(name, lines, top, last)
            both = zip(taken, least.get(name, taken))
            least[name] = [list(map(min, now, before)) for now, before in both]
            left.append(rest)
    if any(rest != left[0] for rest in left):
        sys.exit("the answers or the files differ")
    size = max(map(len, left[0][1]))
    turns = {name: turns_of(times) for name, (times, _) in least.items()}
    works = {name: turns_of(times) for name, (_, times) in least.items()}
    others = {
        name: statistics.median(t for n, t in enumerate(times) if n >= first and not is_turn(n))
        for name, (times, _) in least.items()
    }
    for name in PROGRAMS:
        before, above = (size / 1e6 for size in memories[name])
        print(
            f"{outputs:,} outputs, {size:,} bytes, {name:5}: {told(turns[name])} ms where the files"
            f" turn, {told(works[name])} of processor time, {1000 * others[name]:.2f} ms else;"
            f" {above:.0f} MB above {before:.0f}",
            flush=True,
        )
    for what, of in ("", turns), (" in processor time", works):
        ratios = [f"{plain / ox:.2f}" for ox, plain in zip(of["ox"], of["plain"])]
        print(f"plain to ox: {', '.join(ratios)} where the files turn{what}")
    name, size = "the whole index written", f"{outputs:,} outputs"
    worst = [1000 * max(turns[of]) for of in ("ox", "plain")]
    report(name, size, "ms", *worst, GOAL)
    worst = [1000 * max(works[of]) for of in ("ox", "plain")]
    report(f"{name}, processor time", size, "ms", *worst, GOAL)
    above = [memories[of][1] / 1e6 for of in ("ox", "plain")]
    report(f"{name}, memory above", size, "MB", *above)
    small = [1000 * others[of] for of in ("ox", "plain")]
    report("a small block, else", size, "ms", *small)
    compare_versions(outputs, lines[:TURN], top)
    return max(turns["ox"]), max(works["ox"])


def compare_versions(outputs, lines, top):
    """Prints how long a turn of each version takes, and its memory, over an index of so many
    outputs."""
    turns = {"ox": TURN - 1, OVER_SUMMED: MOST_RECORDS - 1}
    least, above = {}, {}
    for _ in range(RUNS):
        for name, last in turns.items():
            taken, memories, (answers, files) = run(name, lines, top, last)
            if not all(answer.startswith(b"ok ") for answer in answers):
                sys.exit("not each block was accepted")
            if files[1][10:18] != (2).to_bytes(8, "little"):
                sys.exit("file B wasn't turned to")
            now = [times[last] for times in taken]
            least[name] = [*map(min, now, least.get(name, now))]
            above[name] = min(memories[1], above.get(name, memories[1]))
    (ours, ours_work), (plain, plain_work) = least[OVER_SUMMED], least["ox"]
    most = OF_AN_OUTPUT * outputs + BESIDES
    print(
        f"{outputs:,} outputs, a turn of version 3: {1000 * ours:.0f} ms, {1000 * ours_work:.0f} of"
        f" processor time; of version 2 {1000 * plain:.0f} and {1000 * plain_work:.0f}:"
        f" {ours / plain:.2f} and {ours_work / plain_work:.2f} times and at most {SUMMED_MOST};"
        f" {above[OVER_SUMMED] / 1e6:.1f} MB above and at most {most / 1e6:.1f}",
        flush=True,
    )
    name, size = "the whole index written, version 3", f"{outputs:,} outputs"
    report(name, size, "ms", 1000 * ours, 1000 * plain, 1 / SUMMED_MOST)
    works = [1000 * work for work in (ours_work, plain_work)]
    report(f"{name}, processor time", size, "ms", *works, 1 / SUMMED_MOST)
    memories = [above[name] / 1e6 for name in (OVER_SUMMED, "ox")]
    report(f"{name}, memory above", size, "MB", *memories, memories[1] / (most / 1e6))


def main():
    sizes = numbers(__doc__, "OUTPUTS", SIZES, "outputs of a feed")
    out = TOP / "bench" / "out"
    out.mkdir(exist_ok=True)
    with tempfile.TemporaryDirectory(dir=out) as top:
        taken = [compare(outputs, top) for outputs in sizes]
    for fewer, more, short, long in zip(sizes, sizes[1:], taken, taken[1:]):
        growths = [f"{later / sooner:.1f}" for sooner, later in zip(short, long)]
        print(
            f"{more / fewer:.1f} times the outputs take {growths[0]} times as long, and"
            f" {growths[1]} times the processor time"
        )


if __name__ == "__main__":
    main()
