"""Running psi: where it is, what it answers, and many answers side by side, as those of streams in blocks."""

import atexit
import contextlib
import dataclasses
import os
import pathlib
import re
import shutil
import subprocess
import threading
from collections.abc import Callable, Container, Iterable
from typing import TypeVar

from psi_tools.errors import PsiError, Refused, printable, whole_argument

Item = TypeVar("Item")
Value = TypeVar("Value")

TOP = pathlib.Path(__file__).resolve().parents[3]
# A block: its first stream, and how many streams it has; and what is called with how many answers are there.
Streams = tuple[int, int]
Done = Callable[[int], None] | None

# As many streams as one call of psi report takes, and how many blocks there are while they allow
# it. On every machine there are as many, since an interval goes by its batches.
MOST_STREAMS, BLOCKS = 65_536, 40
# The least number of batches, each a block, that an interval goes by.
LEAST_BATCHES = 20
# How many blocks of a table each process draws: the first shows how long the rest takes.
ROUNDS = 2


@dataclasses.dataclass
class Answer:
    """What a call of psi ends with: the exit status, and both its texts."""

    status: int
    out: str
    line: str


def built_program() -> str:
    """The default program psi: the one that `./psi` builds, else the one on the PATH."""
    built = TOP / "crates/psi/out/psi"
    return str(built) if built.exists() else "psi"


def program_of(path: str | os.PathLike[str] | None = None) -> str:
    """The path of psi, which is there."""
    found = shutil.which(path or built_program())
    if not found and path is None:
        raise PsiError("psi isn't built, and isn't on the PATH; --psi names it")
    if not found:
        raise PsiError(f"there is no program {path}")
    return os.path.abspath(found)


def companion_of(path: str, name: str) -> str | None:
    """The path of another proved program: beside psi, or what a link named psi leads to, with _ or - in its name; else
    the one that is built where these tools stand; else none."""
    places = [pathlib.Path(path).parent, pathlib.Path(path).resolve().parent]
    files = [place / each for place in places for each in (name, name.replace("_", "-"))]
    files.append(TOP / "crates" / name / "out" / name)
    return next((os.path.abspath(file) for file in files if os.access(file, os.X_OK)), None)


def built_companion(path: str, name: str) -> str:
    """As companion_of, of a program that has to be built."""
    found = companion_of(path, name)
    if found is None:
        raise PsiError(f"{name} isn't built, and isn't beside psi; `rt run` in crates/{name} builds it")
    return found


class Guard:
    """A shell that ends what this process has started once this process is gone, even by SIGKILL.

    What is started joins the shell's group of processes. The shell reads a pipe whose other end is
    open in this process alone, so it comes to the end of it when this process ends, however that
    is, and ends the group. To start a process in a group costs nothing; to have it set
    PR_SET_PDEATHSIG itself makes Python copy its own memory map for each."""

    SCRIPT = "trap '' TERM; read -r line; kill -TERM 0"

    def __init__(self) -> None:
        self.shell: subprocess.Popen[bytes] | None = None
        self.owner: int | None = None
        self.lock = threading.Lock()

    def group(self) -> int | None:
        """The number of the group; none where there is no shell. A process that was forked needs one of its own."""
        with self.lock:
            if self.owner != os.getpid() or self.shell is None or self.shell.poll() is not None:
                pipe, nowhere, self.owner, self.shell = subprocess.PIPE, subprocess.DEVNULL, os.getpid(), None
                call = ["/bin/sh", "-c", self.SCRIPT]
                with contextlib.suppress(FileNotFoundError):
                    self.shell = subprocess.Popen(call, stdin=pipe, stdout=nowhere, stderr=nowhere, process_group=0)
                    atexit.register(self.end)
            return None if self.shell is None else self.shell.pid

    def end(self) -> None:
        """Ends the shell, and what is left of the group."""
        if self.shell is not None and self.owner == os.getpid():
            assert self.shell.stdin is not None
            self.shell.stdin.close()
            self.shell.wait()


GUARD = Guard()


class Program:
    """The built program, which draws all samples. A network is handed to it as the text of its file.

    Parameters
    ----------
    path : path, optional
        The program: by default crates/psi/out/psi of this repository where it is built, else psi on
        the PATH.
    jobs : int, optional
        The number of processes that draw at once, 1 to 1,024; that of the processors by default.

    Raises
    ------
    PsiError
        There is no such program.

    Examples
    --------
    >>> import psi
    >>> psi.Program(jobs=2).jobs
    2
    """

    def __init__(self, path: str | os.PathLike[str] | None = None, jobs: int | None = None) -> None:
        self.jobs = len(os.sched_getaffinity(0)) if jobs is None else whole_argument("jobs", jobs, 1, 1_024)
        self.path = program_of(path)
        self.running: set[subprocess.Popen[bytes]] = set()
        self.guard, self.is_stopped = threading.Lock(), False

    def __repr__(self) -> str:
        return f"<Program {self.path}, {self.jobs} jobs>"

    def call(self, command: str, net: bytes, *args: object, seconds: float | None = None) -> Answer:
        """The answer of a command, whatever its status; subprocess.TimeoutExpired is raised after so many seconds."""
        return self.run([self.path, command, "/dev/stdin", *map(str, args)], net, seconds)

    def run(self, words: list[str], net: bytes, seconds: float | None = None) -> Answer:
        """What a program answers to some words, as call does, with a network as its input."""
        pipe = subprocess.PIPE
        with self.guard:
            if self.is_stopped:
                raise KeyboardInterrupt
            run = subprocess.Popen(words, stdin=pipe, stdout=pipe, stderr=pipe, process_group=GUARD.group())
            self.running.add(run)
        try:
            out, line = run.communicate(net, timeout=seconds)
        except BaseException:
            run.kill()
            run.communicate()
            raise
        finally:
            with self.guard:
                self.running.discard(run)
        return Answer(run.returncode, out.decode("utf-8", "replace"), line.decode("utf-8", "replace").strip())

    def ask(self, command: str, net: bytes, *args: object, statuses: Container[int] = (0,)) -> Answer:
        """The answer of a command, which ends with one of these statuses."""
        return accepted(self.call(command, net, *args), f"psi {command}", statuses)

    def has_states(self) -> bool:
        """Whether psi_states is there, too."""
        return companion_of(self.path, "psi_states") is not None

    def states(self, net: bytes, seed: int, first: int, count: int, total: int | None = None) -> str:
        """The table that psi_states prints of some streams, whether they are coupled or not; with a
        total, of a closed network. A refusal has the line that psi itself has for it."""
        return self.table("psi_states", net, (seed, first, count), total)

    def paths(self, net: bytes, seed: int, first: int, count: int, steps: int, total: int | None = None) -> str:
        """The table that psi_paths prints of paths of some steps, as `states` has that of samples."""
        return self.table("psi_paths", net, (seed, first, count, steps), total)

    def table(self, name: str, net: bytes, numbers: Iterable[int], total: int | None) -> str:
        """The table that a program of this name prints for these numbers of streams."""
        path = built_companion(self.path, name)
        closed = [] if total is None else ["closed", str(total)]
        answer = self.run([path, "/dev/stdin", *map(str, numbers), *closed], net)
        answer.line = re.sub(f"^{name}: ", "psi: ", answer.line)
        return accepted(answer, name, (0, 1)).out

    def all(self, call: Callable[[Item], Value], items: Iterable[Item], done: Done = None) -> list[Value]:
        """The answers of a call for each item, side by side, in order; `done` is called with how many are there."""
        # A single call does without this module, which takes a while to be read.
        import concurrent.futures

        pool, waiting = concurrent.futures.ThreadPoolExecutor(self.jobs), []
        try:
            waiting += [pool.submit(call, item) for item in items]
            for count, one in enumerate(concurrent.futures.as_completed(waiting), 1):
                one.result()
                if done:
                    done(count)
        except BaseException:
            self.stop()
            pool.shutdown(wait=True, cancel_futures=True)
            self.is_stopped = False
            raise
        pool.shutdown()
        return [one.result() for one in waiting]

    def stop(self) -> None:
        """Ends what is under way; nothing is begun until all of it has ended."""
        with self.guard:
            self.is_stopped = True
            for run in self.running:
                run.terminate()


def accepted(answer: Answer, name: str, statuses: Container[int]) -> Answer:
    """The answer of a command of this name, which ends with one of these statuses."""
    if answer.status not in statuses:
        message = printable(answer.line).removeprefix("psi: ")
        # A signal is a status as a shell has it.
        status = answer.status if answer.status >= 0 else 128 - answer.status
        raise Refused(message or f"{name} ended with {answer.status}", status, answer.line)
    return answer


def size_of(count: int) -> int:
    """How many streams a block of a report has."""
    return max(1, min(MOST_STREAMS, count // BLOCKS))


def table_size(count: int, jobs: int) -> int:
    """How many streams a block of a table has, where `jobs` blocks are drawn at the same time. No interval goes by such
    blocks: there are a few for each process, so that all end together and few are started."""
    return min(MOST_STREAMS, -(-count // min(BLOCKS, ROUNDS * jobs)))


def blocks_of(first: int, count: int, size: int) -> list[Streams]:
    """The blocks, each its first stream and how many streams it has."""
    ends = range(first, first + count, size)
    return [(begin, min(size, first + count - begin)) for begin in ends]
