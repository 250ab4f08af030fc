"""Puts the package that stands in python/ on Python's path, for the tools that are made of it."""

import os
import sys

TOP = os.path.dirname(os.path.dirname(os.path.realpath(__file__)))
sys.path.insert(0, os.path.join(TOP, "python"))


def start(module: str, name: str) -> None:
    """Runs the command of a name, whose arguments and work are in python/psi_tools/cli, and ends with its status."""
    from psi_tools.cli import entry

    sys.exit(entry.start(module, name))
