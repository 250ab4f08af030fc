"""What the calls of the module share: the program, checked arguments, blocks of streams, progress, warnings."""

import os
import warnings
from collections.abc import Sequence
from typing import Any

from psi.results import Uncoupled
from psi_tools.errors import GREATEST, whole_argument
from psi_tools.draw.program import Program, blocks_of, size_of
from psi_tools.draw.reports import reports_of
from psi_tools.io.reports import Report
from psi_tools.io.terminal import QUIET, Bar

MOST_COUNT = 2**36


class ProgressBar(Bar):
    """A bar of tqdm, where that is installed, for work above two seconds; $TQDM_DISABLE turns it off."""

    def __init__(self, whole: int, what: str = "samples") -> None:
        super().__init__(whole, what)
        self.bar: Any = None
        if os.environ.get("TQDM_DISABLE"):
            return
        try:
            from tqdm.auto import tqdm
        except ImportError:
            return
        self.bar = tqdm(total=whole, unit=f" {what}", delay=QUIET, leave=False, disable=None)

    def show(self, done: int) -> None:
        if self.bar is not None:
            self.bar.total = self.whole
            self.bar.update(done - self.bar.n)

    def __exit__(self, *fault: object) -> None:
        if self.bar is not None:
            self.bar.close()


_default: Program | None = None


def set_default(program: Program | None) -> None:
    """Sets the program of calls that name none, for one release more."""
    global _default
    _default = program


def resolved(program: Program | None) -> Program:
    """The program that a call is handed, or the one that is built or on the PATH."""
    return program or _default or Program()


def streams_of(seed: int, first: int, count: int) -> tuple[int, int, int]:
    """A seed, a first stream and a number of streams, which are checked."""
    seed = whole_argument("seed", seed, 0, GREATEST)
    count = whole_argument("count", count, 1, MOST_COUNT)
    return seed, whole_argument("first", first, 0, GREATEST - count + 1), count


def stream_of(seed: int, stream: int) -> tuple[int, int]:
    """A seed and a stream, which are checked."""
    return whole_argument("seed", seed, 0, GREATEST), whole_argument("stream", stream, 0, GREATEST)


def drawn(program: Program, data: bytes, seed: int, first: int, count: int) -> Sequence[Report]:
    """The reports of the blocks of some streams."""
    blocks = blocks_of(first, count, size_of(count))
    with ProgressBar(len(blocks), "blocks") as bar:
        return reports_of(program, data, seed, blocks, bar.show)


def warn_uncoupled(uncoupled: int, many: int, more: str = "the others are biased", stacklevel: int = 3) -> None:
    """Warns where streams are not coupled."""
    if uncoupled:
        message = f"{uncoupled:,} of {many:,} streams weren't coupled; {more}"
        warnings.warn(message, Uncoupled, stacklevel=stacklevel)
