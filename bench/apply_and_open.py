#!/usr/bin/env python3
"""Times `apply`, and the opening of a store by `query`, of the built program on a real disk.

    python3 bench/apply_and_open.py [APPLIED [OPENED [PROGRAM]]]

makes a folder below out/ beside this script, which has to be on a disk, and in it stores that are
gone at the end. It opens stores of 100,000 and of 1,000,000 outputs, each with 10, 100 and 1,000
kept blocks that spend an output and make two, and with no and with 64 records of such. `query
/status` and a plain Rust program that reads, tests by what each change touches and builds the same
tables take turns, three times each. Printed are the processor time and the memory of the runs that
took least, the ratios, and how much longer a start with more kept blocks takes.

It applies a feed of so many small regtest blocks (2,000 without a word) and, beside it, does what
no store of this design can do without: the same writes and waits for the disk, which are two of
each for a block, and for each 65th those of a whole file. The two take turns, five times each, so
that others who use the disk slow both; printed are all times, the least and the middle ones as
commands a second, and the ratio. The files that were applied have to have the bytes that
docs/FORMATS.md says. In the same way, sixty times, it times the 64 blocks between two whole files
alone, which one `apply` hears. Beside a store of version 2 it times one of version 3: the feed, and
the opening of 2,000,000 outputs, each in turns. Of both openings it tells how much their most
memory is above what an `apply` holds once it has opened the store, the less of both. It opens such
a store of version 3 with records of half its body's bytes too, beside one without. Of stores of
version 3 that begin with nothing, of depth 100 and 1,000, it counts how many bytes an `apply` of
10,000 blocks writes for one of their records, these among them. Then it times `query /status` five
times over a store of OPENED blocks (10,000 without a word), over one of a tenth of them, and over
an empty one.
PROGRAM is crates/ox_main/out/ox_main without a word. Nothing here is proved. bench/all.py builds
both programs.
"""

import array
import contextlib
import fcntl
import json
import os
import pathlib
import re
import statistics
import subprocess
import sys
import tempfile
import termios
import time

import large_stores
from checkpoint import memory as memory_of
from runs import in_another_process, report, run
from tools.programs import TOP, plain_program, proved_program

sys.path.append(str(TOP / "checks"))

from chain import SHORT, chain, line, payload_of  # noqa: E402
from row_forms import Change, Index, Output  # noqa: E402
from store_files import CLOSED, LAYOUTS, SUMMED, VERSION, Disk, body_of, bytes_in  # noqa: E402
from store_files import empty, file_of, files_of, make, payload_on  # noqa: E402
from store_files import summed_store_of  # noqa: E402
from tools.bitcoin import SUBSIDY, twice  # noqa: E402
from tools.words import words_of

PROGRAM = proved_program("ox_main")
RUNS = 5
DEPTH = 100
# how many commands there are from one whole file to the next
TURN = 65
# the large stores: their outputs, their kept blocks, and their records; how often each is opened,
# by both programs in turn; how fast that should be by the plain program, and how much memory and
# how much more time for the most kept blocks it may take at the most
OUTPUTS, KEPT, RECORDS = (100_000, 1_000_000), (10, 100, 1_000), (0, 64)
OPENINGS = 3
# how often the blocks from one whole file to the next are applied, and how fast by bare writes
SMALL_TURNS, SMALL_GOAL = 60, 0.9
# the seconds after which it looks again whether lines are answered
LOOK = 0.0002
GOAL, MOST_MEMORY, MOST_GROWTH = 0.5, 1.5, 1.3
# how fast commands should be applied at version 3 by version 2, over how many outputs both are
# opened, and how long that may take and how much memory above the live index
SUMMED_GOAL = 0.95
SUMMED_OUTPUTS, SUMMED_MOST, SUMMED_MEMORY = 2_000_000, 1.5, 0.75
# how many records have half of that body's bytes, how many outputs each of their blocks spends, and
# how long an opening with them may take beside one without
HALF_RECORDS, HALF_EACH, HALF_MOST = 250, 2_000, 1.8
# over how many blocks, at which depths, at most so many bytes are written for one of records
WRITTEN, DEPTHS, MOST_WRITTEN = 10_000, (100, 1_000), 5


class Calls(Disk):
    """Two files, and what was done to them: a file, and where there is a write its place and
    bytes."""

    def __init__(self):
        super().__init__()
        self.calls = []

    def write(self, file, at, data):
        super().write(file, at, data)
        self.calls.append((file, at, data))

    def sync(self, file):
        self.calls.append((file, None, None))


def kind_of_disk(folder):
    """The type of the file system that a folder is on."""
    best = ("", "")
    for mount in pathlib.Path("/proc/mounts").read_text().splitlines():
        _, place, kind = mount.split()[:3]
        inside = place == "/" or f"{folder}/".startswith(f"{place}/")
        if inside and len(place) >= len(best[0]):
            best = (place, kind)
    return best[1]


@contextlib.contextmanager
def folder_on_disk(program):
    """A new folder on a disk, for a program that is there: says on what it all runs."""
    if not program.exists():
        sys.exit(f"{program} isn't built")
    out = TOP / "bench" / "out"
    out.mkdir(exist_ok=True)
    with tempfile.TemporaryDirectory(dir=out) as folder:
        kind = kind_of_disk(folder)
        if kind in ("tmpfs", "ramfs"):
            sys.exit(f"{folder} is in memory, and not on a disk")
        load = os.getloadavg()[0]
        print(f"{program}, {os.cpu_count()} processors with a load of {load:.1f}, {kind}")
        yield pathlib.Path(folder)


def make_empty(program, folder, depth=DEPTH):
    """An empty store in a new folder."""
    folder.mkdir()
    words = [program, folder, "init", "regtest", str(depth)]
    subprocess.run(words, check=True, stdout=subprocess.DEVNULL)


def time_run(command, **streams):
    """Runs the program: how long it takes from start to end, and how much processor time."""
    begun = time.perf_counter()
    child = subprocess.Popen(command, **streams)
    _, status, usage = os.wait4(child.pid, 0)
    seconds = time.perf_counter() - begun
    child.returncode = os.waitstatus_to_exitcode(status)
    if child.returncode:
        sys.exit(f"{command} ended with {child.returncode}")
    return seconds, usage.ru_utime + usage.ru_stime


def make_summed(program, folder, depth=DEPTH):
    """The same of version 3."""
    make_empty(program, folder, depth)
    body = empty(depth=depth).body()
    (folder / "a.ox").write_bytes(file_of("regtest", depth, body, version=SUMMED))


def time_apply(program, folder, feed, count, files):
    """How long the feed of so many blocks takes, which leaves these files."""
    make_empty(program, folder)
    # answers in a file on the disk would have each sync wait for them, too
    with open(feed, "rb") as given, os.fdopen(os.memfd_create("shown"), "w+b") as shown:
        times = time_run([program, folder, "apply"], stdin=given, stdout=shown)
        shown.seek(0)
        answers = shown.read().splitlines()
    if len(answers) != count or not all(answer.startswith(b"ok ") for answer in answers):
        sys.exit("not each block was accepted")
    if tuple((folder / name).read_bytes() for name in ("a.ox", "b.ox")) != files:
        sys.exit("the files aren't what docs/FORMATS.md says")
    return times


def calls_of(blocks):
    """The files of a new store, those that these blocks leave, and the calls on them by block."""
    store, calls = make(Calls(), depth=DEPTH), []
    made = bytes_in(store)
    for block in blocks:
        begun = len(store.disk.calls)
        store.carry_out(payload_of(block))
        calls.append(store.disk.calls[begun:])
    return made, bytes_in(store), calls


def files_with(folder, made):
    """Files in a new folder that have these bytes, on the disk."""
    folder.mkdir()
    files = {}
    for name, data in zip("AB", made):
        files[name] = os.open(folder / name, os.O_RDWR | os.O_CREAT)
        os.pwrite(files[name], data, 0)
        os.fsync(files[name])
    return files


def seconds_of_calls(files, calls):
    """How long these writes and waits take."""
    begun = time.perf_counter()
    for name, at, data in calls:
        if at is None:
            os.fsync(files[name])
        else:
            os.pwrite(files[name], data, at)
    return time.perf_counter() - begun


def waiting(stream):
    """How many bytes a pipe holds."""
    held = array.array("i", [0])
    fcntl.ioctl(stream, termios.FIONREAD, held)
    return held[0]


def seconds_of_lines(child, lines, answers):
    """How long it takes until all these lines are answered. Who waits for each answer would have
    the program wake it, so it looks from time to time."""
    begun = time.perf_counter()
    child.stdin.write(b"".join(lines))
    child.stdin.flush()
    while waiting(child.stdout) < len(answers) and child.poll() is None:
        time.sleep(LOOK)
    seconds = time.perf_counter() - begun
    if os.read(child.stdout.fileno(), len(answers)) != answers:
        sys.exit("not each block was accepted")
    return seconds


def compare_small(program, top):
    """Applies blocks that write no whole file, and does the bare writes, in turns. Between them is
    one that does."""
    blocks, tips = chain(TURN * SMALL_TURNS)
    made, left, calls = calls_of(blocks)
    files, folder = files_with(top / "bare", made), top / "small"
    make_empty(program, folder)
    applied, bare = [], []
    command = [program, folder, "apply"]
    with subprocess.Popen(command, stdin=subprocess.PIPE, stdout=subprocess.PIPE) as child:
        for first in range(0, len(blocks), TURN):
            *small, last = (line(block) for block in blocks[first : first + TURN])
            told = [f"ok {at} {tips[at]}\n".encode() for at in range(first, first + TURN)]
            applied.append(seconds_of_lines(child, small, b"".join(told[:-1])) / len(small))
            some = [call for each in calls[first : first + len(small)] for call in each]
            bare.append(seconds_of_calls(files, some) / len(small))
            seconds_of_lines(child, [last], told[-1])
            seconds_of_calls(files, calls[first + len(small)])
        child.stdin.close()
    if tuple((folder / name).read_bytes() for name in ("a.ox", "b.ox")) != left:
        sys.exit("the files aren't what docs/FORMATS.md says")
    for which, of in ("middle", statistics.median), ("least", min):
        ours, floor = 1000 * of(applied), 1000 * of(bare)
        print(
            f"a block that writes no whole file, {which}: apply {ours:.3f} ms, bare writes"
            f" {floor:.3f}: {floor / ours:.2f}",
            flush=True,
        )
    report("a small block applied", f"{TURN - 1} of each {TURN}", "ms", ours, floor, SMALL_GOAL)


def compare(program, top, count):
    """Applies a feed and does the bare writes, in turns."""
    blocks, _ = chain(count)
    feed = top / "feed"
    feed.write_bytes(b"".join(map(line, blocks)))
    made, files, calls = calls_of(blocks)
    all_calls = [call for each in calls for call in each]
    applied, works, floor = [], [], []
    for turn in range(RUNS):
        seconds, work = time_apply(program, top / f"applied{turn}", feed, count, files)
        applied.append(seconds)
        works.append(work)
        floor.append(seconds_of_calls(files_with(top / f"floor{turn}", made), all_calls))
        print(
            f"{count:,} commands: apply {seconds:6.2f} s, bare writes {floor[-1]:6.2f} s",
            flush=True,
        )
    for which, of in ("least", min), ("middle", statistics.median):
        rates = [count / of(times) for times in (applied, floor)]
        print(
            f"{which}: apply {rates[0]:.0f} commands a second, bare writes {rates[1]:.0f}:"
            f" {rates[0] / rates[1]:.2f}"
        )
    report("commands applied", f"{count:,} commands", "commands a second", *rates)
    print(f"apply took {1000 * min(works) / count:.3f} ms of processor time a command")


def applying(program, folder):
    """An `apply` that waits for lines."""
    command = [program, folder, "apply"]
    return subprocess.Popen(command, stdin=subprocess.PIPE, stdout=subprocess.PIPE)


def compare_versions(program, top):
    """Applies blocks to stores of both versions, some at a time in turns, so that both meet the
    same disk: at version 2 one of each turn writes a whole file."""
    blocks, tips = chain(TURN * SMALL_TURNS)
    commands, folders = [*map(payload_of, blocks)], {}
    for version, make_store in ((VERSION, make_empty), (SUMMED, make_summed)):
        folders[version] = top / f"version {version}"
        make_store(program, folders[version])
    children = {version: applying(program, folder) for version, folder in folders.items()}
    taken = {version: [] for version in children}
    for first in range(0, len(blocks), TURN):
        lines = [line(block) for block in blocks[first : first + TURN]]
        told = (f"ok {at} {tips[at]}\n".encode() for at in range(first, first + TURN))
        answers = b"".join(told)
        for version, child in children.items():
            taken[version].append(seconds_of_lines(child, lines, answers))
    works = {}
    for version, child in children.items():
        child.stdin.close()
        works[version] = os.wait4(child.pid, 0)[2]
        child.returncode = 0
    left = {VERSION: files_of(commands), SUMMED: bytes_in(summed_store_of(commands))}
    for version, folder in folders.items():
        if tuple((folder / name).read_bytes() for name in ("a.ox", "b.ox")) != left[version]:
            sys.exit("the files aren't what docs/FORMATS.md says")
    for which, of in ("least", min), ("all", statistics.mean), ("middle", statistics.median):
        ours, plain = (TURN / of(taken[version]) for version in (SUMMED, VERSION))
        print(
            f"{which}: {ours:.0f} commands a second at version 3, {plain:.0f} at 2:"
            f" {ours / plain:.2f} and at least {SUMMED_GOAL}",
            flush=True,
        )
    size = f"{len(blocks):,} commands"
    report("commands, version 3", size, "commands a second", ours, plain, SUMMED_GOAL)
    for version, usage in works.items():
        each = 1000 * (usage.ru_utime + usage.ru_stime) / len(blocks)
        print(f"{each:.3f} ms of processor time a command at version {version}")


def written_by(child):
    """How many bytes a process has written."""
    told = pathlib.Path(f"/proc/{child.pid}/io").read_text()
    return int(re.search(r"^wchar: (\d+)$", told, re.M)[1])


def count_written(program, top):
    """Counts what stores of version 3 write of records and of whole files."""
    blocks, tips = chain(WRITTEN)
    payloads = (payload_on(change_of(block, at)) for at, block in enumerate(blocks))
    records = sum(LAYOUTS[SUMMED].before_payload + len(payload) for payload in payloads)
    for depth in DEPTHS:
        folder = top / f"written at {depth}"
        make_summed(program, folder, depth)
        with applying(program, folder) as child:
            shown = 0
            for first in range(0, len(blocks), TURN):
                lines = [line(block) for block in blocks[first : first + TURN]]
                told = (f"ok {at} {tips[at]}\n" for at in range(first, first + len(lines)))
                answers = "".join(told).encode()
                seconds_of_lines(child, lines, answers)
                shown += len(answers)
            written = written_by(child) - shown
            child.stdin.close()
        print(
            f"{WRITTEN:,} blocks, depth {depth:,}: {written:,} bytes written, {records:,} of"
            f" records: {written / records:.2f} for one and at most {MOST_WRITTEN}",
            flush=True,
        )
        size = f"{WRITTEN:,} blocks, depth {depth:,}"
        rate = written / records
        report("written for a byte of records", size, "bytes", rate, 1, 1 / MOST_WRITTEN)


def compare_openings(program, top):
    """Opens a large store at both versions, in turns."""
    outputs, kept, records = SUMMED_OUTPUTS, KEPT[0], RECORDS[-1]
    size, folders = f"{outputs:,} outputs, {kept:,} kept, {records} records", {}
    for version in (VERSION, SUMMED):
        folders[version] = folder = top / f"opened at {version}"
        folder.mkdir()
        given = folder / "a.ox", outputs, kept, records, version
        made = in_another_process(large_stores.write_store, *given)
        (folder / "b.ox").write_bytes(CLOSED)
    taken = {version: [] for version in folders}
    for _ in range(OPENINGS):
        for version, folder in folders.items():
            seconds, memory, shown = run([program, folder, "query", "/status"])
            taken[version].append((seconds, memory))
            if told_by("ox", shown) != made:
                sys.exit(f"version {version} told {shown}")
    live = min(live_memory(program, folder) for folder in folders.values())
    (ours, memory), (plain, held) = (min(taken[version]) for version in (SUMMED, VERSION))
    above, beside = ((most - live) / 1e6 for most in (memory, held))
    print(
        f"{size}: version 3 {ours:.2f} s, version 2 {plain:.2f} s: {ours / plain:.2f} times and at"
        f" most {SUMMED_MOST}; {memory / 1e6:.0f} and {held / 1e6:.0f} MB, {above:.0f} and"
        f" {beside:.0f} above {live / 1e6:.0f}: {above / beside:.2f} times and at most"
        f" {SUMMED_MEMORY}",
        flush=True,
    )
    work = "a large store opened, version 3"
    report(work, size, "ms", 1000 * ours, 1000 * plain, 1 / SUMMED_MOST)
    report(f"{work}, memory above", size, "MB", above, beside, 1 / SUMMED_MEMORY)


def compare_records(program, top):
    """Opens a large store of version 3 without records and with those of half its body, in
    turns."""
    outputs, kept, taken = SUMMED_OUTPUTS, KEPT[0], {}
    stores = {}
    for records in (0, HALF_RECORDS):
        folder = top / f"opened with {records}"
        folder.mkdir()
        given = folder / "a.ox", outputs, kept, records, SUMMED, HALF_EACH
        stores[folder] = in_another_process(large_stores.write_store, *given)
        (folder / "b.ox").write_bytes(CLOSED)
        taken[folder] = []
    for _ in range(OPENINGS):
        for folder, made in stores.items():
            seconds, _, shown = run([program, folder, "query", "/status"])
            taken[folder].append(seconds)
            if told_by("ox", shown) != made:
                sys.exit(f"{folder} told {shown}")
    bare, ours = (min(seconds) for seconds in taken.values())
    body, whole = ((folder / "a.ox").stat().st_size for folder in stores)
    size = f"{outputs:,} outputs, records of {(whole - body) / body:.2f} of the body"
    print(
        f"{size}: {ours:.2f} s, without {bare:.2f} s: {ours / bare:.2f} times and at most"
        f" {HALF_MOST}",
        flush=True,
    )
    work = "a large store opened, version 3, with records"
    report(work, size, "ms", 1000 * ours, 1000 * bare, 1 / HALF_MOST)


def live_memory(program, folder):
    """How many bytes an `apply` holds that has opened the store and refused a block."""
    (block,), _ = chain(1)
    with applying(program, folder) as child:
        child.stdin.write(line(block))
        child.stdin.flush()
        if not child.stdout.readline().startswith(b"refused "):
            sys.exit("a block was accepted that doesn't follow the newest")
        live = memory_of(child, "VmRSS")
        child.stdin.close()
    return live


def time_query(program, folder, count, tip):
    """Opens the store some times and shows the middle times."""
    shown = folder / "shown"
    walls, works = [], []
    for _ in range(RUNS):
        with open(shown, "wb") as taken:
            wall, work = time_run([program, folder, "query", "/status"], stdout=taken)
        walls.append(wall)
        works.append(work)
        body = json.loads(shown.read_bytes())
        if body["blocks"] != count or body["tip"] != tip:
            sys.exit(f"the store isn't of {count} blocks")
    size = (folder / "a.ox").stat().st_size / 1e6
    wall, work = (1000 * statistics.median(times) for times in (walls, works))
    print(
        f"query of {count:,} blocks, {size:.2f} MB: {wall:.1f} ms, {work:.1f} ms of processor time",
        flush=True,
    )
    report("a store opened and asked", f"{count:,} blocks", "ms", wall)


def change_of(block, height):
    """What a block changes whose coinbase alone claims the subsidy."""
    row = Output(SHORT, height, [(height * SUBSIDY, SUBSIDY)])
    # of one transaction the root is its id
    return Change(twice(block[:80]), came=[((block[36:68], 0), row)])


def file_with(blocks):
    """A file of a store that connected such blocks, but for its generation."""
    changes = [change_of(block, height) for height, block in enumerate(blocks)]
    whole = len(changes) - len(changes) % TURN
    outputs = sorted(row for change in changes[:whole] for row in change.came)
    index = Index([change.hash for change in changes[:whole]], outputs)
    body = body_of(index, changes[:whole][-DEPTH:][::-1])
    return file_of("regtest", DEPTH, body, map(payload_on, changes[whole:]))


def open_stores(program, top, count):
    """Times the opening of a large store, of a smaller one and of an empty one."""
    blocks, tips = chain(count)
    for name, part in (("none", 0), ("tenth", count // 10), ("all", count)):
        folder = top / name
        make_empty(program, folder)
        (folder / "a.ox").write_bytes(file_with(blocks[:part]))
        time_query(program, folder, part, tips[part - 1] if part else None)


def told_by(name, shown):
    """How many blocks a program told, and the newest."""
    if name == "plain":
        blocks, tip = shown.split()[:2]
        return int(blocks), tip.decode()
    body = json.loads(shown)
    return body["blocks"], body["tip"]


def open_large(program, folder, outputs, kept, records):
    """The processor seconds of an opening."""
    words = [program, folder, "init", "regtest", str(kept)]
    folder.mkdir()
    subprocess.run(words, check=True, stdout=subprocess.DEVNULL)
    made = in_another_process(large_stores.write_store, folder / "a.ox", outputs, kept, records)
    commands = {
        "ox": [program, folder, "query", "/status"],
        "plain": [plain_program("opening"), folder],
    }
    taken = {name: [] for name in commands}
    for _ in range(OPENINGS):
        for name, command in commands.items():
            seconds, memory, shown = run(command)
            taken[name].append((seconds, memory))
            if told_by(name, shown) != made:
                sys.exit(f"{name} told {shown}")
    (ours, memory), (plain, held) = (min(taken[name]) for name in commands)
    size = f"{outputs:,} outputs, {kept:,} kept, {records} records"
    print(
        f"{size}: ox {ours:.2f} s, plain {plain:.2f} s, ratio {plain / ours:.2f} and at least"
        f" {GOAL}; {memory / 1e6:.0f} and {held / 1e6:.0f} MB, {memory / held:.2f} times the memory"
        f" and at most {MOST_MEMORY}",
        flush=True,
    )
    report("a large store opened", size, "ms", 1000 * ours, 1000 * plain, GOAL)
    report("a large store opened, memory", size, "MB", memory / 1e6, held / 1e6, 1 / MOST_MEMORY)
    (folder / "a.ox").unlink()
    return ours


def open_all_large(program, top):
    for outputs in OUTPUTS:
        for records in RECORDS:
            few, *_, most = [
                open_large(program, top / f"{outputs} {kept} {records}", outputs, kept, records)
                for kept in KEPT
            ]
            print(
                f"  {KEPT[-1]:,} kept blocks take {most / few:.2f} times the time of {KEPT[0]}, and"
                f" at most {MOST_GROWTH}"
            )


def main():
    words = words_of(__doc__)
    words.add_argument("applied", nargs="?", type=int, default=2000, help="commands (2,000)")
    words.add_argument("opened", nargs="?", type=int, default=10_000, help="blocks (10,000)")
    words.add_argument("program", nargs="?", type=pathlib.Path, default=PROGRAM)
    said = words.parse_args()
    applied, opened, program = said.applied, said.opened, said.program.resolve()
    with folder_on_disk(program) as top:
        # first, since a child's greatest memory is never below this one's
        open_all_large(program, top)
        compare_openings(program, top)
        compare_records(program, top)
        compare(program, top, applied)
        compare_versions(program, top)
        count_written(program, top)
        compare_small(program, top)
        open_stores(program, top, opened)


if __name__ == "__main__":
    main()
