"""Puts this repository and the package in it on the path."""

import pathlib
import sys

TOP = pathlib.Path(__file__).resolve().parent.parent
sys.path.insert(0, str(TOP))

import tools.packaged  # noqa: F401, E402
