"""Finds the modules of the folder tools/ at the top: `from tools.bitcoin import twice`."""

import pathlib

__path__ = [str(pathlib.Path(__file__).resolve().parents[1] / "tools")]
