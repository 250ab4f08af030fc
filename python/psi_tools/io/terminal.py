"""What a command prints on standard error: one line, and its progress."""

import contextlib
import os
import sys
import threading
import time
from collections.abc import Callable
from typing import IO, Any

from psi_tools.errors import printable

# From how many seconds on progress is shown on a terminal, and how often.
QUIET, OFTEN = 2, 0.2


def print_error(line: str, end: str = "\n") -> None:
    """Prints a line on standard error, as far as it can be written; where it can't, nothing more
    is written."""
    if sys.stderr is None:
        return
    try:
        print(line, end=end, file=sys.stderr, flush=True)
    except (OSError, ValueError):
        silence(sys.stderr)


def is_terminal() -> bool:
    """Whether standard error is one, so that progress can be shown."""
    return sys.stderr is not None and sys.stderr.isatty()


class Pulse:
    """Shows on a terminal each second that a command is at work, from the second second on, until
    progress is shown."""

    own = None

    def __init__(self, command: str) -> None:
        self.command, self.begun, self.is_over = command, time.monotonic(), threading.Event()
        self.thread = threading.Thread(target=self.beat, daemon=True)

    def beat(self) -> None:
        """Shows it until the work is over."""
        wait, has_shown = QUIET, False
        while not self.is_over.wait(wait):
            line = f"{self.command}: at work, {clock(time.monotonic() - self.begun)}"
            print_error(f"\r{line}\x1b[K", end="")
            wait, has_shown = 1, True
        if has_shown:
            print_error("\r\x1b[K", end="")

    @classmethod
    def begin(cls, command: str) -> None:
        """Begins, where there is a terminal."""
        if is_terminal():
            cls.own = cls(command)
            cls.own.thread.start()

    @classmethod
    def end(cls) -> None:
        """Ends."""
        if cls.own is not None:
            cls.own.is_over.set()
            cls.own.thread.join()
            cls.own = None


class Bar(contextlib.AbstractContextManager["Bar"]):
    """The progress of some work, within a `with` statement; this class does not show it."""

    def __init__(self, whole: int, what: str = "samples") -> None:
        self.whole, self.what = whole, what

    def show(self, done: int) -> None:
        """Shows how much is done."""

    def __exit__(self, *fault: object) -> None:
        """Removes what was shown."""


# What makes a bar, of how much there is to do, and what that is.
Meter = Callable[[int, str], Bar]


class Progress(Bar):
    """Shows the progress of a command on a terminal, from the second second on."""

    def __init__(self, command: str, whole: int, what: str = "samples") -> None:
        super().__init__(whole, what)
        self.command = command
        self.begun, self.last, self.has_shown = time.monotonic(), 0.0, False
        self.is_shown = is_terminal()

    def show(self, done: int) -> None:
        now = time.monotonic()
        if not self.is_shown or now - self.begun < QUIET or now - self.last < OFTEN:
            return
        Pulse.end()
        self.last, self.has_shown = now, True
        line = f"{self.command}: {done:,} of {self.whole:,} {self.what}, {clock(now - self.begun)}"
        if 0 < done < self.whole:
            line += f", {clock((now - self.begun) / done * (self.whole - done))} to go"
        print_error(f"\r{line}\x1b[K", end="")

    def __exit__(self, *fault: object) -> None:
        if self.has_shown:
            print_error("\r\x1b[K", end="")


def clock(seconds: float) -> str:
    """A time as hours, minutes and seconds."""
    minutes, seconds = divmod(round(seconds), 60)
    return f"{minutes // 60}:{minutes % 60:02}:{seconds:02}"


def print_note(command: str, why: object) -> None:
    """One line on standard error, as far as it can be written."""
    print_error(f"{command}: {printable(why)}")


def silence(stream: IO[Any] | None) -> None:
    """Gives up what wasn't written to a stream, so that it is not reported again."""
    with contextlib.suppress(OSError, ValueError), open(os.devnull, "wb") as nowhere:
        if stream is not None:
            os.dup2(nowhere.fileno(), stream.fileno())
