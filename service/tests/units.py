"""Checks of the units, of what is told where a run ends, and of the scripts' form."""

import os
import re
import shutil
import sys

from tests.standing import FEED, SERVICE, TOP, Desk, every, need, run
from tools.checks import Skipped, demand


@every.check("systemd takes the units, and little is open to them")
def units(desk: Desk) -> None:
    if not shutil.which("systemd-analyze"):
        raise Skipped("there is no systemd-analyze")
    for name in ("ox.service", "ox-feed.service"):
        unit = SERVICE / name
        status, told = run("systemd-analyze", "verify", "--man=no", unit)
        demand(status == 0 and name not in told, f"`verify` of {name} tells {told}")
        status, told = run(
            "systemd-analyze", "security", "--offline=true", "--threshold=15", "--no-pager", unit
        )
        demand(status == 0, f"`security` of {name} tells {told[-200:]}")


@every.check("each end of the program is explained")
def ended(desk: Desk) -> None:
    table = (TOP / "docs" / "OPERATING.md").read_text()
    statuses = {int(code) for code in re.findall(r"^\| (\d+) \|", table, re.M)} | {75}
    unit = (SERVICE / "ox.service").read_text()
    found = re.search(r"PreventExitStatus=(.*)", unit)
    never = {int(code) for code in found[1].split()} if found else set[int]()
    demand(never == {1, 3, 4, 75}, f"after {never} it isn't started again")
    rows = [("exit-code" if code else "success", "exited", str(code)) for code in statuses]
    rows += [("signal", "killed", "KILL"), ("success", "killed", "TERM")]
    rows += [("core-dump", "dumped", "SEGV"), ("oom-kill", "killed", "KILL")]
    seen = set()
    for result, code, status in rows:
        env = {"SERVICE_RESULT": result, "EXIT_CODE": code, "EXIT_STATUS": status}
        ended, told = run(sys.executable, SERVICE / "ox_ended.py", env={**os.environ, **env})
        demand(ended == 0 and told.count("\n") == 1, f"{status}: {told}")
        demand("isn't known here" not in told, f"{status} isn't explained")
        if code == "exited":
            again = "isn't started again" in told
            demand(again == (int(status) in never), f"{status}: {told}")
        seen.add(told)
    demand(len(seen) == len(rows), "two ends are explained alike")


@every.check("a second program on one store ends with 75, by the words of the unit")
def locked(desk: Desk) -> None:
    served = desk.served()
    served.kill()
    unit = (SERVICE / "ox.service").read_text().replace("\\\n", " ")
    found = re.search(r"^ExecStart=(.*)$", unit, re.M)
    words = found[1].split() if found else []
    changed = {
        "/var/lib/ox": str(served.folder),
        "/usr/lib/ox/ox": str(served.program),
        "127.0.0.1:8080": served.public,
        "127.0.0.1:8081": served.operator,
    }
    words = [changed.get(word, word) for word in words]
    served.words = words
    served.start()
    before = served.status()
    status, told = run(*words)
    demand(status == 75, f"it ended with {status}: {told}")
    status, told = run(*words[:6], served.program, served.folder, "query", "/status")
    demand(status == 75, f"`query` ended with {status}: {told}")
    demand(served.status() == before, "the first doesn't go on")


@every.check("the types hold, the feeder is short, and every script tells its words")
def types(desk: Desk) -> None:
    demand(len(FEED.read_text().splitlines()) <= 510, "the feeder has over 510 lines")
    for path in sorted(SERVICE.glob("*.py")):
        if "__main__" in path.read_text():
            status, told = run(sys.executable, path, "--help")
            demand(status == 0 and "usage:" in told, f"{path.name} --help tells {told}")
    need("mypy")
    words = ["mypy", "--cache-dir=/dev/null", "ox", "tools", "service"]
    status, told = run(*words, cwd=TOP, timeout=300)
    demand(status == 0, f"`mypy` tells {told}")
