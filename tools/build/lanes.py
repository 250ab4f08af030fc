"""Copies of the crates in which calls of `rt` run side by side.

Only one `rt` works in a crate and in those below it at a time, so two calls in one folder wait for
each other. A lane is a second folder with the same crates, made of hard links where the disk has
them. One call of `rt lib` works in a lane; what it leaves in the crate's out/ goes back.
"""

import contextlib
import fcntl
import hashlib
import os
import pathlib
import shutil
import subprocess
import tempfile
from collections.abc import Iterator
from typing import IO

from tools.build.crates import Crates

# What `rt` keeps for the next check of the same crate. No crate above reads it.
KEPT = "incremental"
# The file in a crate's out/ that says of which sources its library was made.
MARK = "psi-proved"


def link(source: str | os.PathLike[str], target: str | os.PathLike[str]) -> None:
    """Gives a file a second name, or copies it where that is not possible."""
    try:
        os.link(source, target)
    except OSError:
        shutil.copy2(source, target)


def has_links(folder: pathlib.Path) -> bool:
    """Returns whether a file of a folder can have a second name."""
    with tempfile.NamedTemporaryFile(dir=folder) as file, contextlib.suppress(OSError):
        os.link(file.name, f"{file.name}.link")
        os.unlink(f"{file.name}.link")
        return True
    return False


def link_tree(source: pathlib.Path, target: pathlib.Path, *left_out: str) -> None:
    """Makes a second folder with the files of a folder, but for some names right in it."""

    def ignore(folder: str, names: list[str]) -> tuple[str, ...]:
        return left_out if folder == str(source) else ()

    shutil.copytree(source, target, ignore=ignore, copy_function=link)


@contextlib.contextmanager
def alone_in(folder: pathlib.Path) -> Iterator[None]:
    """Waits until no `rt` works in a crate, and keeps others out."""
    held = os.open(folder, os.O_RDONLY)
    try:
        with contextlib.suppress(OSError):
            # Some file systems have no locks.
            fcntl.flock(held, fcntl.LOCK_EX)
        yield
    finally:
        os.close(held)


class Marks:
    """Which crates have a library of their present sources, by files beside those libraries."""

    def __init__(self, crates: Crates, kit: str) -> None:
        self.crates, self.kit = crates, kit
        self.sums: dict[str, str] = {}

    def sum(self, name: str) -> str:
        """Returns a checksum of all that a crate's library is made of."""
        if name not in self.sums:
            found = hashlib.sha256(f"{self.kit}\n{self.crates.rows[name]}\n".encode())
            for file in self.crates.sources(name):
                found.update(f"{file.relative_to(self.crates.folder(name))}\n".encode())
                found.update(hashlib.sha256(file.read_bytes()).digest())
            for below in self.crates.uses[name]:
                found.update(self.sum(below).encode())
            self.sums[name] = found.hexdigest()
        return self.sums[name]

    def text(self, name: str) -> str:
        """Returns what the mark of a crate has to say now, which names what stands in its out/."""
        lines = [self.sum(name)]
        for it in sorted(os.scandir(self.crates.folder(name) / "out"), key=lambda it: it.name):
            if it.name not in (KEPT, MARK):
                found = it.stat(follow_symlinks=False)
                lines.append(f"{it.name} {found.st_ino} {found.st_mtime_ns}")
        return "\n".join(lines)

    def has(self, name: str) -> bool:
        """Returns whether a crate's library is that of its present sources."""
        try:
            return (self.crates.folder(name) / "out" / MARK).read_text() == self.text(name)
        except OSError:
            return False

    def set(self, name: str) -> None:
        """Notes that a crate's library is that of its present sources."""
        (self.crates.folder(name) / "out" / MARK).write_text(self.text(name))


class Lane:
    """A folder with the crates below a program, in which one call of `rt` works at a time."""

    def __init__(self, crates: Crates, room: pathlib.Path) -> None:
        self.crates, self.room = crates, room
        self.linked: set[str] = set()
        self.process: "subprocess.Popen[bytes] | None" = None
        self.processor_time, self.is_stopped = 0.0, False
        self.libraries = crates.names[:-1]
        (room / "crates").mkdir(parents=True)
        rows = [crates.rows[name] for name in self.libraries]
        (room / "crates.txt").write_text("".join(f"{row}\n" for row in rows))
        if (crates.top / "HANDLES").is_file():
            link(crates.top / "HANDLES", room / "HANDLES")
        for name in self.libraries:
            link_tree(crates.folder(name), self.folder(name), "out")

    def folder(self, name: str) -> pathlib.Path:
        return self.room / "crates" / name

    def take(self, name: str) -> None:
        """Brings the libraries below a crate, and what was kept of the crate itself."""
        for below in self.crates.below(name):
            if below not in self.linked:
                self.bring(below, KEPT)
                self.linked.add(below)
        if (self.crates.folder(name) / "out").is_dir():
            self.bring(name)

    def bring(self, name: str, *left_out: str) -> None:
        """Makes links of what stands in a crate's out/."""
        with alone_in(self.crates.folder(name)):
            link_tree(self.crates.folder(name) / "out", self.folder(name) / "out", *left_out)

    def give(self, name: str) -> None:
        """Puts what `rt` left of a crate into the place of what its own folder has."""
        made, out = self.folder(name) / "out", self.crates.folder(name) / "out"
        with alone_in(self.crates.folder(name)):
            if made.is_dir():
                shutil.rmtree(out, ignore_errors=True)
                made.rename(out)

    def prove(self, name: str, jobs: int, log: IO[str]) -> int:
        """Has `rt` prove a crate and build its library, and returns the exit status."""
        self.take(name)
        status = self.call(["rt", "lib", "--jobs", str(jobs)], self.folder(name), log)
        if not self.is_stopped:
            self.give(name)
        return status

    def call(self, words: list[str], folder: pathlib.Path, log: IO[str]) -> int:
        """Runs a command whose texts go to a file, and returns its exit status. It notes the
        processor time that the command and what it started took, in seconds."""
        process = self.process = subprocess.Popen(
            words, cwd=folder, stdin=subprocess.DEVNULL, stdout=log, stderr=subprocess.STDOUT
        )
        self.processor_time = 0
        try:
            _, status, usage = os.wait4(process.pid, 0)
        except ChildProcessError:
            # Another thread has waited for it, to end it.
            return process.wait()
        process.returncode = os.waitstatus_to_exitcode(status)
        self.processor_time = usage.ru_utime + usage.ru_stime
        return process.returncode

    def stop(self) -> None:
        """Ends the command under way; `rt` takes along what it started."""
        self.is_stopped = True
        if self.process is not None and self.process.poll() is None:
            self.process.terminate()
            self.process.wait()
