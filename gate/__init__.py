"""What is compared before a change lands: crates, edges, lemmas, definitions, the statement."""

import pathlib
import sys
from collections.abc import Callable, Iterable
from typing import NoReturn

TOP = pathlib.Path(__file__).resolve().parent.parent


def run(faults: Callable[[], Iterable[str]], write: Callable[[], object] | None = None) -> NoReturn:
    """Ends a check with the status 1 where it finds faults, which are printed, and 2 for other arguments than
    `--check`. A check that writes a page does so first, unless `--check` is given."""
    words = sys.argv[1:]
    if words and (write is None or words != ["--check"]):
        print(f"usage: python3 {sys.argv[0]}{' [--check]' * bool(write)}", file=sys.stderr)
        sys.exit(2)
    if write and not words:
        write()
    found = [*faults()]
    print("".join(f"{fault}\n" for fault in found) + f"{len(found)} faults")
    sys.exit(1 if found else 0)
