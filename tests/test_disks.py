"""The built program on a real disk, pipe and terminal that fail: a full device, a limit on the size of
files, a reader that leaves, a pipe that takes no more, a terminal that is gone, outputs that are
closed, files that grow while they are read or never end, folders, files without permission, and names
and words that can't be. psi_merge is run on them too, where it is built beside it or in its crate.
What has to come is what docs/LIMITS.md, README.md and docs/FORMATS.md say, never what the program
printed.

It wants a system with /dev/full, /dev/zero and named pipes, and the commands `sh` and `head`.
"""

import dataclasses
import functools
import os
import pathlib
import pty
import resource
import shutil
import signal
import subprocess
import tempfile
import threading
import tty
from collections.abc import Callable, Iterator, Sequence
from typing import Any

import pytest

from psi_tools.model.networks import Network
from tests import merges
from tests.gallery import runs_of_document, runs_of_gallery
from tests.support import EXAMPLES, SECONDS, TOP, Expectations, beside, write

# A status and both texts, where a text is None that goes elsewhere; and what else is looked at.
End = tuple[Any, ...]
# What a run is, the ends that it may have, and its end.
Case = tuple[str, list[End], End]

# The options of a run by a user without rights.
NOBODY: dict[str, Any] = {} if os.geteuid() else {"user": 65_534, "group": 65_534, "extra_groups": []}
PLACES = 16_383
NO_NETWORK = (6, b"", b"psi: cannot read network\n")
NO_LOG = (6, b"", b"psi: cannot read log\n")
LONG_NETWORK = (3, b"", b"psi: network refused 0 TooLong top 0 -\n")
LONG_LOG = (4, b"", b"psi: log refused 7 TooLong line 0\n")
NO_COMMAND = (2, b"", b"psi: usage word 1\n")
# Words whose answer is a line on standard error.
REFUSALS = (
    (["no-command"], NO_COMMAND),
    (["check", "absent"], NO_NETWORK),
    (["replay", "filling.toml", "absent"], NO_LOG),
    (["check", "/dev/zero"], LONG_NETWORK),
    (["replay", "filling.toml", "/dev/zero"], LONG_LOG),
    (["reward", "filling.toml", "0", "0", "none"], (9, b"", b"psi: unknown reward\n")),
)
REPORT = merges.BASE.encode()
NO_FILES = (2, b"", b"psi_merge: usage: psi_merge FILE..\n")
WRONG_REPORT = (3, b"", b"psi_merge: refused 3 Samples line 7 wrong.csv\n")
LONG_REPORT = (3, b"", b"psi_merge: refused 0 TooLong line 0 /dev/zero\n")
SAMPLE = ["sample", "filling.toml", "0", "0", "log"]
# Words, one of which will not be UTF-8.
WORDS_OF_MERGES = [["report.csv"], ["report.csv", "report.csv"]]


def no_report(name: str) -> End:
    """How psi_merge ends on a file of this name that can't be read."""
    return 6, b"", b"psi_merge: cannot read %s\n" % name.encode()


# Words of psi_merge whose answer is a line on standard error.
REFUSED_MERGES: tuple[tuple[list[str], End], ...] = (
    ([], NO_FILES),
    (["-x", "absent"], NO_FILES),
    (["absent", "wrong.csv"], no_report("absent")),
    (["report.csv", "absent"], no_report("absent")),
    (["wrong.csv", "absent"], WRONG_REPORT),
    (["report.csv", "/dev/zero", "absent"], LONG_REPORT),
)


def filling_network() -> bytes:
    """A queue to which a customer comes at each step, so that a run is told without any word."""
    return Network(split=1).queue("a", PLACES).event("come", "arrival", 1, to=["a"]).data


def filling_log() -> bytes:
    """The log of its sample by the rules of the guide: each step moves the lower end of the box,
    and the last one begins with a single state.
    """
    lines = ["psi-log 2", "queues 1", "seed 0", "stream 0", f"horizon {PLACES + 1}", f"begin box 0 {PLACES}"]
    lines += [f"step {PLACES + 2 - low} 0 move 0,{low},{PLACES}" for low in range(1, PLACES + 1)]
    return "\n".join([*lines, f"step 1 0 set {PLACES}", f"end {PLACES}", ""]).encode()


@dataclasses.dataclass
class Tried:
    """A program: its path, words whose answer goes to standard output, with its front, words whose answer is a line
    on standard error, with their end, words that name a file `pieces`, with the data and sizes of pieces and
    their end, and words of which each is to be another one."""

    path: str
    answers: list[tuple[list[str], bytes]]
    refusals: Sequence[tuple[list[str], End]]
    pieces: Sequence[tuple[list[str], bytes, tuple[int, ...], End]]
    words: list[list[str]]

    def run(self, words: Sequence[str | bytes], **more: Any) -> End:
        """The status of a run and both its texts; a text is None where it goes elsewhere."""
        pipes: dict[str, Any] = {"stdout": subprocess.PIPE, "stderr": subprocess.PIPE, **more}
        call = [self.path, *words]
        done = subprocess.run(call, cwd=os.path.dirname(self.path), stdin=subprocess.DEVNULL, timeout=SECONDS, **pipes)
        return done.returncode, done.stdout, done.stderr


class Place:
    """The programs, and a folder with the files that they are run on."""

    def __init__(self, program: str, folder: pathlib.Path) -> None:
        self.folder, self.log, wrong = folder, filling_log(), merges.changed({7: "sum,a,14"}).encode()
        folder.chmod(0o755)
        for file in EXAMPLES.glob("*.toml"):
            shutil.copy(file, folder)
        write(folder, {"filling.toml": filling_network(), "filling.log": self.log, "locked": filling_network()})
        write(folder, {"report.csv": REPORT, "wrong.csv": wrong})
        (folder / "folder").mkdir()
        (folder / "loop").symlink_to("loop")
        (folder / "locked").chmod(0)
        self.accepted = (0, b"accepted %d\nstate %d\n" % (PLACES + 1, PLACES), b"")
        replay = ["replay", "filling.toml", "filling.log"], self.accepted[1]
        answers = [*self.shown(), (SAMPLE, self.log), replay]
        pieces = (
            (["replay", "pieces", "filling.log"], filling_network(), (1, 7, 4_096), self.accepted),
            (["replay", "filling.toml", "pieces"], self.log, (31, 8_191, 100_000), self.accepted),
        )
        self.programs = {"psi": Tried(self.copied("psi", program), answers, REFUSALS, pieces, [SAMPLE])}
        if merger := beside(program, "psi_merge"):
            path, merged = self.copied("psi_merge", merger), [(["report.csv"], REPORT)]
            reports = ((["pieces"], REPORT, (1, 7, 4_096), (0, REPORT, b"")),)
            self.programs["psi_merge"] = Tried(path, merged, REFUSED_MERGES, reports, WORDS_OF_MERGES)

    def copied(self, name: str, program: str | pathlib.Path) -> str:
        """A program, where a user without rights may run it."""
        path = shutil.copyfile(program, self.folder / name)
        path.chmod(0o755)
        return str(path)

    def shown(self) -> Iterator[tuple[list[str], bytes]]:
        """Runs that the documents show, one of each command: the words, and the whole text, or its
        front where no more is shown."""
        documents = [TOP / "README.md", TOP / "docs/FORMATS.md"]
        runs = [run for file in documents for run in runs_of_document(file)]
        found: dict[str, tuple[list[str], bytes]] = {}
        for _, _, words, text in [*runs_of_gallery(), *runs]:
            assert words, "a file of the gallery has no run in its comment"
            found.setdefault(words[0], (words, text.removesuffix("...\n").encode()))
        for words, front in found.values():
            yield [word.removeprefix("examples/") for word in words], front


def full_devices(place: Place, tried: Tried) -> Iterator[Case]:
    with open("/dev/full", "wb") as full:
        for words, text in tried.answers:
            yield f"{words} on a full device", [(7, None, b"")], tried.run(words, stdout=full)
            status, out, _ = tried.run(words, stderr=full)
            yield f"{words} that need no room for a line", [(0, text)], (status, out[: len(text)])
            got = tried.run(words, stdout=full, stderr=full)
            yield f"{words} with no room for anything", [(7, None, None)], got
        for words, (status, _, line) in tried.refusals:
            yield f"{words} and no room for the line", [(7, b"", None)], tried.run(words, stderr=full)
            got = tried.run(words, stdout=full)
            yield f"{words} with nothing for the full device", [(status, None, line)], got


def size_limits(place: Place, psi: Tried) -> Iterator[Case]:
    for most in (0, 1, 4_096, 65_536, 100_000, len(place.log) - 1):
        limit = functools.partial(resource.setrlimit, resource.RLIMIT_FSIZE, (most, most))
        for ignored in (True, False):
            file = place.folder / "limited"
            with open(file, "wb") as out:
                got = psi.run(SAMPLE, stdout=out, restore_signals=not ignored, preexec_fn=limit)
            status = 7 if ignored else -signal.SIGXFSZ
            what = f"a log on a disk with room for {most} bytes"
            yield what, [(status, None, b"", place.log[:most])], (*got, file.read_bytes())


def pipes_without_reader(place: Place, tried: Tried) -> Iterator[Case]:
    read, write = os.pipe()
    os.close(read)
    for kept in (False, True):
        for words, _ in tried.answers:
            got = tried.run(words, stdout=write, restore_signals=kept)
            yield f"{words} whose reader is gone", [(7, None, b"")], got
        for words, _ in tried.refusals:
            got = tried.run(words, stderr=write, restore_signals=kept)
            yield f"{words} whose line has no reader", [(7, b"", None)], got
    os.close(write)


def readers_that_leave(place: Place, psi: Tried) -> Iterator[Case]:
    for trap in ("", "trap '' PIPE; "):
        line = trap + '{ "$0" sample filling.toml 0 0 log; echo $? >status; } | head -n 1'
        words = ["sh", "-c", line, psi.path]
        done = subprocess.run(words, cwd=place.folder, capture_output=True, timeout=SECONDS)
        got = ((place.folder / "status").read_bytes(), done.stdout, done.stderr)
        yield "a log of which the first line is read", [(b"7\n", b"psi-log 2\n", b"")], got


def slow_pipes(place: Place, psi: Tried) -> Iterator[Case]:
    for most in (1, 7, 4_096):
        with subprocess.Popen([psi.path, *SAMPLE], cwd=place.folder, stdout=subprocess.PIPE) as running:
            assert running.stdout
            end = running.stdout.fileno()
            text = b"".join(iter(lambda: os.read(end, most), b""))
        yield f"a log that is read by {most} bytes", [(0, place.log)], (running.returncode, text)
    read, write = os.pipe()
    os.set_blocking(write, False)
    got = psi.run(SAMPLE, stdout=write)
    os.close(write)
    with open(read, "rb") as pipe:
        taken = pipe.read()
    wanted = (7, None, b"", place.log[: len(taken)], True)
    yield "a log for a pipe that takes no more", [wanted], (*got, taken, 0 < len(taken) < len(place.log))


def terminals(place: Place, psi: Tried) -> Iterator[Case]:
    for words, text in place.shown():
        master, slave = pty.openpty()
        tty.setraw(slave)
        got = psi.run(words, stdout=slave)
        front = os.read(master, len(text))
        os.close(master)
        yield f"{words} on a terminal", [(0, None, b"", text)], (*got, front)
        got = psi.run(words, stdout=slave)
        os.close(slave)
        yield f"{words} on a terminal that is gone", [(7, None, b"")], got


def closed_outputs(place: Place, tried: Tried) -> Iterator[Case]:
    for words, text in tried.answers:
        got = tried.run(words, preexec_fn=lambda: os.close(1))
        yield f"{words} with standard output closed", [(7, b"", b"")], got
        status, out, err = tried.run(words, preexec_fn=lambda: [*map(os.close, (0, 2))])
        yield f"{words} with the others closed", [(0, text, b"")], (status, out[: len(text)], err)
    for words, wanted in tried.refusals:
        got = tried.run(words, preexec_fn=lambda: os.close(2))
        yield f"{words} with standard error closed", [(7, b"", b"")], got
        got = tried.run(words, preexec_fn=lambda: os.close(1))
        yield f"{words} with standard output closed", [wanted], got


def refusals(place: Place, tried: Tried) -> Iterator[Case]:
    for words, wanted in tried.refusals:
        yield f"{words}", [wanted], tried.run(words)


def write_slowly(path: pathlib.Path, data: bytes, most: int) -> None:
    """Writes a file of the system, at most that many bytes at a time."""
    with open(path, "wb", buffering=0) as pipe:
        for start in range(0, len(data), most):
            pipe.write(data[start : start + most])


def pieces(place: Place, tried: Tried) -> Iterator[Case]:
    """Files that come in pieces: each read gives what is there, and the next one waits."""
    os.mkfifo(place.folder / "pieces")
    for words, data, sizes, wanted in tried.pieces:
        for most in sizes:
            asked = (place.folder / "pieces", data, most)
            writer = threading.Thread(target=write_slowly, args=asked, daemon=True)
            writer.start()
            got = tried.run(words)
            writer.join(SECONDS)
            yield f"{words} that come by {most} bytes", [wanted], got


def append(path: pathlib.Path, piece: bytes, ended: threading.Event) -> None:
    """Appends to a file again and again, until told to end."""
    with open(path, "ab", buffering=0) as file:
        while not ended.is_set() and file.tell() < 1 << 26:
            file.write(piece)


def growing(place: Place, psi: Tried) -> Iterator[Case]:
    """Files that grow while they are read. What is added means nothing in a network file, and is
    text after the end of a log.
    """
    trailing = (4, b"", b"psi: log refused 6 TrailingText line %d\n" % (PLACES + 9))
    runs = (
        (["replay", "grown", "filling.log"], filling_network(), LONG_NETWORK),
        (["replay", "filling.toml", "grown"], place.log, trailing),
    )
    for words, data, other in runs:
        for piece in (b"\n", b"\n" * 4_096):
            write(place.folder, {"grown": data})
            ended = threading.Event()
            writer = threading.Thread(target=append, args=(place.folder / "grown", piece, ended))
            writer.start()
            got = psi.run(words)
            ended.set()
            writer.join()
            yield f"{words} that grow", [place.accepted, other, LONG_LOG], got


def unreadable(place: Place, psi: Tried) -> Iterator[Case]:
    longest = "./" * 2_041 + "filling.toml"
    names = ["folder", "locked", "loop", "absent", "", "filling.toml/below", "folder/absent"]
    names += ["x" * 256, "x" * 4_096, longest + "x", "./" * 65_000]
    for name in names:
        shown = f"{name[:20]!r} of {len(name)} bytes"
        for words in (["check", name], ["sample", name, "0", "0", "log"], ["replay", name, name]):
            yield f"{words[0]} of a network {shown}", [NO_NETWORK], psi.run(words, **NOBODY)
        yield f"replay of a log {shown}", [NO_LOG], psi.run(["replay", "filling.toml", name], **NOBODY)
    got = psi.run(["replay", "./" * 2_041 + "/" + "filling.toml", "filling.log"], **NOBODY)
    yield "the longest name", [place.accepted], got


def endless(place: Place, psi: Tried) -> Iterator[Case]:
    for words in (["check", "/dev/zero"], ["replay", "/dev/zero", "/dev/zero"]):
        yield f"{words} without end", [LONG_NETWORK], psi.run(words)
    yield "a log without end", [LONG_LOG], psi.run(["replay", "filling.toml", "/dev/zero"])


def wrong_words(place: Place, tried: Tried) -> Iterator[Case]:
    for wrong in (b"\xff", b"a\xc3", b"\xed\xa0\x80"):
        for right in tried.words:
            for at in range(len(right)):
                words = [*map(str.encode, right[:at]), wrong, *map(str.encode, right[at + 1 :])]
                yield f"{words}, which aren't UTF-8", [(13, b"", b"")], tried.run(words)


def unreadable_reports(place: Place, merger: Tried) -> Iterator[Case]:
    for name in ("folder", "locked", "loop", "absent", "", "report.csv/below", "x" * 4_096):
        shown = f"{name[:20]!r} of {len(name)} bytes"
        for words in ([name], ["report.csv", name], [name, "wrong.csv"]):
            yield f"a merge of {shown}, one of {len(words)}", [no_report(name)], merger.run(words, **NOBODY)


OF_BOTH = full_devices, pipes_without_reader, closed_outputs, refusals, pieces, wrong_words
OF_PSI = size_limits, readers_that_leave, slow_pipes, terminals, growing, unreadable, endless
TRIALS = [
    *((trial, name) for trial in OF_BOTH for name in ("psi", "psi_merge")),
    *((trial, "psi") for trial in OF_PSI),
    (unreadable_reports, "psi_merge"),
]


@pytest.fixture
def place(program: str) -> Iterator[Place]:
    """A folder that other users may read, too, unlike pytest's."""
    with tempfile.TemporaryDirectory() as folder:
        yield Place(program, pathlib.Path(folder))


@pytest.mark.parametrize("trial, name", TRIALS, ids=[f"{trial.__name__}-{name}" for trial, name in TRIALS])
def test_what_fails(
    expect: Expectations, place: Place, trial: Callable[[Place, Tried], Iterator[Case]], name: str
) -> None:
    if name not in place.programs:
        pytest.skip(f"{name} isn't built")
    for what, wanted, got in trial(place, place.programs[name]):
        texts = [repr(end)[:300] for end in (*wanted, got)]
        expect(got in wanted, f"{what[:200]}: wanted {' or '.join(texts[:-1])}, got {texts[-1]}")
