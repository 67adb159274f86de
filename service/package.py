#!/usr/bin/env python3
"""Makes a Debian package of the program and what stands around it.

It has the program, feeder, units, the command `ox` and documents, and makes a user of its own. It
starts nothing by itself, and neither removal nor purge takes a store away: service/README.md leads
on. It wants `dpkg-deb`, and takes the proved program where nothing else is said.
"""

import argparse
import gzip
import pathlib
import re
import shutil
import subprocess
import sys
import tempfile

SERVICE = pathlib.Path(__file__).resolve().parent
TOP = SERVICE.parent
PROVED = TOP / "crates" / "ox_main" / "out" / "ox_main"
MAINTAINER = "Dustercape maintainers <maintainers@users.noreply.dustercape.example>"

CONTROL = """Package: ox
Version: {version}
Architecture: amd64
Maintainer: {maintainer}
Installed-Size: {size}
Depends: adduser, libc6 (>= 2.31), python3 (>= 3.11)
Suggests: haproxy, prometheus
Section: net
Priority: optional
Description: index server for ordinals, inscriptions and runes
 It takes whole Bitcoin blocks, keeps which satoshis and runes each unspent
 output holds and which inscriptions stand on which satoshis, and tells that
 over HTTP. Its functions are proved to meet their contracts.
 .
 A feeder takes blocks to it from a Bitcoin Core node. Nothing is started by
 the installation: the store is made once, by hand.
"""

POSTINST = """#!/bin/sh
set -e
if [ "$1" = configure ]; then
    if ! getent passwd ox > /dev/null; then
        adduser --quiet --system --group --no-create-home --home /var/lib/ox ox
    fi
    if [ -d /run/systemd/system ]; then systemctl daemon-reload; fi
fi
"""

# a store and its user stay, whatever is asked for
PRERM = """#!/bin/sh
set -e
if [ "$1" = remove ] && [ -d /run/systemd/system ]; then systemctl stop ox-feed ox || true; fi
"""

POSTRM = """#!/bin/sh
set -e
if [ -d /run/systemd/system ]; then systemctl daemon-reload || true; fi
if [ "$1" = remove ]; then
    for unit in ox ox-feed; do
        rm -f "/etc/systemd/system/multi-user.target.wants/$unit.service"
    done
fi
"""

COPYRIGHT = """This package was made from the repository Dustercape, by service/package.py.
Copyright (C) 2026 Dustercape maintainers. The repository states no licence.
"""

CHANGELOG = """ox ({version}) unstable; urgency=medium

  * Made of commit {commit}.

 -- {maintainer}  {date}
"""

# the program stays byte for byte as it was built
OVERRIDES = """ox: unstripped-binary-or-object [usr/lib/ox/ox]
"""

MANUAL = """.TH OX 1
.SH NAME
ox \\- index server for ordinals, inscriptions and runes
.SH SYNOPSIS
.B ox
FOLDER WORD..
.SH DESCRIPTION
.nf
{about}
.fi
"""


def git(*words: str) -> str:
    ran = subprocess.run(["git", "-C", TOP, *words], stdout=subprocess.PIPE, text=True, check=True)
    return ran.stdout.strip()


def version() -> str:
    """The version: the commit's day and name."""
    day = git("log", "-1", "--format=%cd", "--date=format:%Y%m%d")
    return f"0+git{day}.{git('rev-parse', '--short=8', 'HEAD')}"


def put(source: pathlib.Path, to: pathlib.Path, mode: int = 0o644) -> None:
    """Copies a file; a script begins with the path of Debian's own Python."""
    to.parent.mkdir(parents=True, exist_ok=True)
    if source.suffix == ".py":
        text = source.read_text()
        to.write_text(text.replace("#!/usr/bin/env python3\n", "#!/usr/bin/python3\n", 1))
    else:
        shutil.copyfile(source, to)
    to.chmod(mode)


def put_text(text: str, to: pathlib.Path, mode: int = 0o644) -> None:
    """Writes a file, packed where its name says so."""
    to.parent.mkdir(parents=True, exist_ok=True)
    data = text.encode()
    to.write_bytes(gzip.compress(data, mtime=0) if to.suffix == ".gz" else data)
    to.chmod(mode)


def manual() -> str:
    """The page of the manual: the front of the script's text."""
    found = re.search(r'"""(.*?)"""', (SERVICE / "ox_words.py").read_text(), re.S)
    about = found[1] if found else ""
    return MANUAL.format(about=about.replace("\\", "\\e").replace("-", "\\-").strip())


def lay_out(room: pathlib.Path, program: pathlib.Path) -> None:
    """All files of the package."""
    lib, doc = room / "usr/lib/ox", room / "usr/share/doc/ox"
    put(program, lib / "ox", 0o755)
    for name in ("ox_feed.py", "ox_ended.py", "ox_words.py"):
        put(SERVICE / name, lib / name, 0o755)
    (room / "usr/bin").mkdir(parents=True)
    (room / "usr/bin/ox").symlink_to("../lib/ox/ox_words.py")
    for name in ("ox.service", "ox-feed.service"):
        put(SERVICE / name, room / "lib/systemd/system" / name)
    for name in ("OPERATING.md", "FORMATS.md", "RULES.md", "PROMISES.md"):
        put(TOP / "docs" / name, doc / name)
    put(SERVICE / "README.md", doc / "README.md")
    for name in ("haproxy.cfg", "alerts.yml", "openapi.json"):
        put(SERVICE / name, doc / "examples" / name)
    said = {"version": version(), "maintainer": MAINTAINER, "commit": git("rev-parse", "HEAD")}
    date = git("log", "-1", "--format=%cD")
    put_text(COPYRIGHT.format(**said), doc / "copyright")
    put_text(CHANGELOG.format(**said, date=date), doc / "changelog.gz")
    put_text(OVERRIDES, room / "usr/share/lintian/overrides/ox")
    put_text(manual(), room / "usr/share/man/man1/ox.1.gz")
    size = sum(path.stat().st_size for path in room.rglob("*") if path.is_file()) // 1024
    put_text(CONTROL.format(**said, size=size), room / "DEBIAN/control")
    for name, text in (("postinst", POSTINST), ("prerm", PRERM), ("postrm", POSTRM)):
        put_text(text, room / "DEBIAN" / name, 0o755)
    for folder in (path for path in room.rglob("*") if path.is_dir()):
        folder.chmod(0o755)


def make(program: pathlib.Path, into: pathlib.Path) -> pathlib.Path:
    """The package, in this folder."""
    package = into / f"ox_{version()}_amd64.deb"
    with tempfile.TemporaryDirectory() as folder:
        room = pathlib.Path(folder) / "ox"
        room.mkdir(mode=0o755)
        lay_out(room, program)
        words = ["dpkg-deb", "--root-owner-group", "--build", "-Zxz"]
        subprocess.run([*words, room, package], stdout=subprocess.DEVNULL, check=True)
    return package


def main() -> None:
    form = argparse.RawDescriptionHelpFormatter
    words = argparse.ArgumentParser(description=__doc__, formatter_class=form)
    words.add_argument(
        "--program",
        type=pathlib.Path,
        default=PROVED,
        metavar="FILE",
        help="the program to pack (crates/ox_main/out/ox_main)",
    )
    words.add_argument(
        "--into",
        type=pathlib.Path,
        default=TOP / "build",
        metavar="FOLDER",
        help="where the package goes (build/)",
    )
    said = words.parse_args()
    if not said.program.exists():
        sys.exit(f"there is no {said.program}: `./ox prove` makes the proved program")
    said.into.mkdir(exist_ok=True)
    print(make(said.program, said.into.resolve()))


if __name__ == "__main__":
    main()
