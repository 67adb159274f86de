"""Checks of the package and of service/install.sh."""

import os
import pathlib
import shutil
import sys

from tests.standing import INSTALLS, SERVICE, TOP, Desk, every, need, run
from tools.checks import Skipped, demand

STORE = pathlib.Path("/var/lib/ox")
HELD = [
    "usr/bin/ox",
    "usr/lib/ox/ox",
    "usr/lib/ox/ox_ended.py",
    "usr/lib/ox/ox_feed.py",
    "usr/lib/ox/ox_words.py",
    "lib/systemd/system/ox.service",
    "lib/systemd/system/ox-feed.service",
    "usr/share/doc/ox/OPERATING.md",
    "usr/share/doc/ox/copyright",
    "usr/share/man/man1/ox.1.gz",
]


def made(desk: Desk) -> pathlib.Path:
    """The package of the program."""
    if not shutil.which("dpkg-deb"):
        raise Skipped("there is no dpkg-deb")
    words = [SERVICE / "package.py", "--program", desk.program, "--into", desk.folder]
    status, told = run(sys.executable, *words)
    demand(status == 0, f"package.py ended with {status}: {told}")
    return pathlib.Path(told.strip())


@every.check("the package has program, company and documents, and starts nothing")
def packed(desk: Desk) -> None:
    package, room = made(desk), desk.folder / "room"
    for words in (["-x", package, room], ["-e", package, room / "DEBIAN"]):
        status, told = run("dpkg-deb", *words)
        demand(status == 0, f"`dpkg-deb {words[0]}` tells {told}")
    for name in HELD:
        demand(os.path.lexists(room / name), f"it lacks {name}")
    packed_program = (room / "usr/lib/ox/ox").read_bytes()
    demand(packed_program == desk.program.read_bytes(), "its program is another")
    for script in (room / "DEBIAN").glob("p*"):
        text = script.read_text()
        for word in ("systemctl start", "systemctl enable", "restart", "/var/lib/ox/", "deluser"):
            demand(word not in text, f"{script.name} says {word}")


@every.check("lintian finds no error in the package")
def looked_at(desk: Desk) -> None:
    need("lintian")
    words = ["--allow-root", "--fail-on", "error", made(desk)]
    status, told = run("lintian", *words, timeout=200)
    demand(status == 0, f"lintian tells {told}")


@every.check("the package is installed, its command makes a store, and removal leaves that")
def installed(desk: Desk) -> None:
    if not INSTALLS.is_set() or os.geteuid() != 0:
        raise Skipped("it would install the package (--install, as root)")
    if STORE.exists() or run("getent", "passwd", "ox")[0] == 0 or os.path.lexists("/usr/bin/ox"):
        raise Skipped("there is a store, a user or a command ox on this machine")
    package = made(desk)
    quiet = {"DEBIAN_FRONTEND": "noninteractive", **os.environ}
    words = ["apt-get", "-qq", "install", "-y", "--no-install-recommends", package]
    status, told = run(*words, env=quiet, timeout=300)
    demand(status == 0, f"its installation tells {told[-500:]}")
    try:
        demand(run("getent", "passwd", "ox")[0] == 0, "there is no user ox")
        demand(not STORE.exists(), "a store was made")
        status, told = run("install", "-d", "-o", "ox", "-g", "ox", "-m", "750", STORE)
        demand(status == 0, told)
        as_ox = ["runuser", "-u", "ox", "--", "ox", STORE]
        status, told = run(*as_ox, "init", "mainnet", "100", cwd="/")
        demand((status, told) == (0, "ok empty\n"), f"`init` ended with {status}: {told}")
        status, told = run(*as_ox, "init", "mainnet", "100", cwd="/")
        demand(status == 2 and "status 2: the store's files" in told, f"`init` tells {told}")
        if os.path.isdir("/run/systemd/system"):
            demand(run("systemctl", "is-enabled", "ox")[0] != 0, "it was enabled")
    finally:
        for verb in ("remove", "purge"):
            status, told = run("dpkg", f"--{verb}", "ox", env=quiet)
            demand(status == 0, f"`dpkg --{verb}` tells {told}")
        kept = (STORE / "a.ox").exists()
        shutil.rmtree(STORE, ignore_errors=True)
        run("deluser", "--quiet", "--system", "ox")
    demand(kept, "the store was taken away")
    demand(not os.path.exists("/usr/lib/ox"), "/usr/lib/ox is left")


def tree_of(folder: pathlib.Path) -> dict[str, bytes]:
    """Every file below a folder."""
    paths = (path for path in folder.rglob("*") if path.is_file() and not path.is_symlink())
    return {str(path.relative_to(folder)): path.read_bytes() for path in paths}


@every.check("install.sh lays out what the units name, and a second run changes nothing")
def laid_out(desk: Desk) -> None:
    root = desk.folder / "root"
    words = [SERVICE / "install.sh", "--program", desk.program, "--root", root]
    status, told = run(*words, cwd="/")
    demand(status == 0 and "What is left to do:" in told, f"it ended with {status}: {told}")
    before = tree_of(root)
    for name in ("usr/lib/ox/ox", "usr/lib/ox/ox_feed.py", "etc/systemd/system/ox.service"):
        demand(name in before, f"it lays out no {name}")
    demand(before["etc/ox/node"].startswith(b"ox:"), "the credentials are no user's")
    demand(b"rpcauth=ox:" in before["etc/ox/bitcoin.conf"], "the node's lines lack the user")
    proxy = before["etc/haproxy/haproxy.cfg"].decode()
    demand("server one " in proxy and "server two" not in proxy, "the proxy asks a second machine")
    status, told = run(*words, "--profile", "regtest", cwd="/")
    demand(status == 0, f"the second run ended with {status}: {told}")
    demand(tree_of(root) == before, "the second run changes something")
    status, told = run(SERVICE / "install.sh", "--program", TOP / "nowhere", "--root", root)
    demand(status == 1 and "there is no program" in told, f"without a program: {told}")
    if shutil.which("haproxy"):
        pem = desk.folder / "ox.pem"
        status, told = run(
            *"openssl req -x509 -newkey rsa:2048 -nodes -days 2 -subj /CN=localhost".split(),
            *("-keyout", pem, "-out", f"{pem}.crt"),
        )
        demand(status == 0, told)
        pem.write_bytes(pem.read_bytes() + pathlib.Path(f"{pem}.crt").read_bytes())
        env = {**os.environ, "OX_PEM": str(pem)}
        status, told = run("haproxy", "-c", "-f", root / "etc/haproxy/haproxy.cfg", env=env)
        demand(status == 0, f"haproxy takes no such file: {told}")
