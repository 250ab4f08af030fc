"""Where each command begins. This module is read in an instant, so that Ctrl-C is always one line."""

import gc
import importlib
import os
import signal
import sys
from functools import partial
from types import FrameType

NAMES = "many", "plot", "means", "law", "sweep", "where", "why", "new", "page"
# The number of new objects after which the collector of cycles is called.
SELDOM = 100_000


def _stop(name: str, number: int, frame: FrameType | None) -> None:
    """Ends a command by Ctrl-C before it has read its own parts, with one line."""
    try:
        os.write(2, f"{name}: stopped\n".encode())
    finally:
        os._exit(130)


def start(module: str, name: str) -> int:
    """The status of a command of the package. Ctrl-C is one line from the first to the last."""
    is_default = signal.getsignal(signal.SIGINT) is signal.default_int_handler
    if is_default:
        signal.signal(signal.SIGINT, partial(_stop, name))
    # A command is over soon: it looks for cycles of what it no longer needs but seldom.
    gc.set_threshold(SELDOM)
    try:
        from psi_tools.cli.command import run

        work = importlib.import_module(f"psi_tools.cli.{module}").work
    except OSError as fault:
        os.write(2, f"{name}: {fault.filename}: {fault.strerror}\n".encode())
        return 1
    if is_default:
        signal.signal(signal.SIGINT, signal.default_int_handler)
    status = run(name, work, sys.argv[1:])
    if is_default:
        signal.signal(signal.SIGINT, partial(_stop, name))
    return status


many, plot, means, law, sweep, where, why, new, page = (partial(start, name, f"psi-{name}") for name in NAMES)
