"""Calls of a program, each growth of whose memory is refused in turn: refuse/refuse.c says what a growth is."""

import os
import shlex
import subprocess
import tempfile
from collections.abc import Mapping, Sequence

from tests.support import Answer, answer, write

SECONDS = 20
# More growths than any call here makes.
MOST = 20_000
NOTHING = (8, b"", b"")
# The statuses that are no answer to what was asked.
NO_ANSWERS = (2, 6, 7, 8, 13)
# How a run ends that is over too late.
NO_END = (-1, b"", b"none within %d s" % SECONDS)
# What each program says of words that are no command, or no files.
USAGES = {"psi": b"psi: usage word 1\n", "psi_merge": b"psi_merge: usage: psi_merge FILE..\n"}


class WrongEnd(Exception):
    """A run that ends in another way than it has to, where nothing more can be tried."""


class Refusing:
    """A program, with growths that are refused."""

    def __init__(self, name: str, program: str, library: str) -> None:
        self.name, self.program, self.library = name, program, library
        self.the_line = (8, b"", f"{name}: out of memory\n".encode())

    def run(self, words: Sequence[str], folder: str, first: int = 0, last: int | None = None) -> tuple[Answer, bool]:
        """How a run ends, its status and both texts, and whether a growth was refused."""
        read, write = os.pipe()
        bounds = {"LD_PRELOAD": self.library, "REFUSE_FROM": str(first), "REFUSE_TOLD": str(write)}
        if last is not None:
            bounds["REFUSE_TO"] = str(last)
        with open(read, "rb") as notes:
            try:
                end = answer([self.program, *words], folder, SECONDS, env=bounds, pass_fds=[write])
            except subprocess.TimeoutExpired:
                end = NO_END
            finally:
                os.close(write)
            return end, notes.read() != b""

    def no_command(self, words: Sequence[str]) -> tuple[list[str], Answer]:
        """Words of the same lengths that are no command, and how a run of them ends."""
        return ["-" * len(words[0]), *words[1:]], (2, b"", USAGES[self.name])

    def words_alone(self, words: Sequence[str], folder: str) -> int:
        """How many growths words of these lengths take that are no command."""
        other, usage = self.no_command(words)
        for place in range(1, MOST):
            end, refused = self.run(other, folder, place)
            if not refused and end == usage:
                return place - 1
            if not refused or end != NOTHING:
                raise WrongEnd(f"{self.name} {shlex.join(other)}: growth {place}: {end!r}")
        raise WrongEnd(f"{self.name} {shlex.join(other)} takes ever more memory")


class Call:
    """A call of a program: its words, its files, and how it has to end, where a case says that. Once it is
    performed, `growths` has how many it has, those for its words left out, and `ample` how it ends by itself."""

    def __init__(
        self, refusing: Refusing, words: Sequence[str], files: Mapping[str, bytes], wanted: Answer | None = None
    ) -> None:
        self.refusing, self.words, self.files, self.wanted = refusing, words, files, wanted
        self.failures: list[str] = []
        self.refused = self.runs = self.growths = 0
        self.ample: Answer | None = None

    def shown(self) -> str:
        return f"{self.refusing.name} {shlex.join(self.words)}"

    def fail(self, what: str, end: Answer) -> None:
        self.failures.append(f"{self.shown()}: {what}: {end!r}")

    def try_place(self, folder: str, place: int, words_alone: int, ample: Answer) -> bool:
        """Refuses a growth, alone and with all later ones; answers whether one was refused."""
        allowed = [NOTHING] if place <= words_alone else [self.refusing.the_line, ample]
        refused = False
        for last in (place, None):
            end, refused = self.refusing.run(self.words, folder, place, last)
            if not refused and end == ample:
                return False
            self.runs += 1
            if not refused or end not in allowed:
                what = f"growth {place}" + (" and all later ones" if last is None else "")
                self.fail(what, end)
        return refused

    def try_places(self, folder: str) -> None:
        """Makes the call with ample memory, and then with each growth refused."""
        ample, _ = self.refusing.run(self.words, folder)
        self.ample = ample
        if ample[0] in NO_ANSWERS or self.wanted not in (None, ample):
            self.fail("with ample memory", ample)
            return
        words_alone = self.refusing.words_alone(self.words, folder)
        while self.try_place(folder, self.refused + 1, words_alone, ample):
            self.refused += 1
            if self.refused == MOST:
                raise WrongEnd(f"{self.shown()} takes ever more memory")
        self.growths = self.refused - words_alone
        if self.growths <= 0:
            raise WrongEnd(f"{self.shown()}: no growth but for its words")

    def perform(self) -> "Call":
        """Makes the call in a folder with its files, as often as it has growths."""
        with tempfile.TemporaryDirectory() as folder:
            write(folder, self.files)
            try:
                self.try_places(folder)
            except WrongEnd as wrong:
                self.failures.append(str(wrong))
        return self
