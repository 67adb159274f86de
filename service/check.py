#!/usr/bin/env python3
"""Runs what stands around the program over the built program: the feeder, the proxy, the units, the
description of the routes, the package.

The checks stand in service/tests/, and service/stub_node.py stands for a node. Each check has a
folder of its own, below out/ beside this script, that is gone where it passed, and addresses of its
own on 127.0.0.1; four run at once. A check that fails is told with its cause, and its folder stays.
What needs a package that isn't there is skipped, and told by a line SKIPPED; with --install the
packages haproxy, prometheus, python3-jsonschema, mypy and lintian are installed, and the package of
the program too, which is removed again. The last line says how many passed, failed and were
skipped, and the status is 1 where one failed. It takes one to two minutes.
"""

import os
import pathlib
import sys

SERVICE = pathlib.Path(__file__).resolve().parent
TOP = SERVICE.parent
# Debian's packages of Python are there for other Pythons too
sys.path[1:1] = [str(TOP), str(TOP / "checks")]
sys.path.append("/usr/lib/python3/dist-packages")

from tests import feeder, package, proxy, routes, standing, units  # noqa: E402

# each module has its checks in `every`
MODULES = feeder, package, proxy, routes, units


def main() -> int:
    words = standing.every.parser(__doc__)
    words.add_argument("--install", action="store_true", help="install packages of the system")
    said = words.parse_args()
    os.environ["PATH"] += ":/usr/sbin:/sbin"
    if said.install and not said.list:
        standing.install()
        standing.INSTALLS.set()
    return standing.every.run(said, SERVICE / "out")


if __name__ == "__main__":
    sys.exit(main())
