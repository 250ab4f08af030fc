"""What `tools/psi-first` answers is what README.md and docs/TOUR.md show: the first run that README shows,
and, before a release, each run that the two show; words that are no command, a file that isn't there,
a file that is refused, a file given through a pipe, and the log of a sample, which
`tools/check_log.py` accepts.

Each answer has to have the text, the status that goes with it, and on standard error the line that
says that it isn't proved, before the line that the program writes, if it writes one. A run takes a
minute or more.
"""

import pathlib
import subprocess

import pytest

from tests.gallery import UNMET, is_shown, runs_of_document
from tests.support import CHECKER, TOOLS, TOP, answer

CLAIM = b"it isn't proved yet (log: "
NET = "examples/first.toml"
SHOWN = [(words, text) for name in ("README.md", "docs/TOUR.md") for _, _, words, text in runs_of_document(TOP / name)]
# Words, the status and the line on standard error, and what comes through a pipe.
REFUSED = (
    (["sample", NET], 2, b"psi: usage word 3", b""),
    (["check", "not/there.toml"], 6, b"psi: cannot read network", b""),
    (["replay", NET, "not/there.log"], 6, b"psi: cannot read log", b""),
    (["check", "/dev/stdin"], 3, b"psi: network refused 4 MissingKey top 0 queue", b"version = 1\n"),
    (["replay", NET, "/dev/stdin"], 4, b"psi: log refused 1 NotLog line 1", b"no log\n"),
)
# One `rt` at a time.
pytestmark = [pytest.mark.slow, pytest.mark.needs("rt"), pytest.mark.xdist_group("rt")]


def first_answer(words: list[str], data: bytes = b"") -> tuple[int, bytes, list[bytes]]:
    """The status of a run, its text, and the lines on standard error after the first, which says that
    nothing is proved."""
    done = subprocess.run([TOOLS / "psi-first", *words], cwd=TOP, input=data, capture_output=True)
    claim, *lines = done.stderr.splitlines()
    assert CLAIM in claim
    return done.returncode, done.stdout, lines


@pytest.mark.parametrize(
    "words, text", [pytest.param(*SHOWN[0]), *(pytest.param(*run, marks=pytest.mark.release) for run in SHOWN[1:])]
)
def test_a_run_that_is_shown(words: list[str], text: str) -> None:
    status, out, lines = first_answer(words)
    assert (status, lines) == (1 if UNMET.search(text) else 0, [])
    assert is_shown(text, out.decode())


@pytest.mark.release
@pytest.mark.parametrize("words, status, line, data", REFUSED)
def test_what_is_refused(words: list[str], status: int, line: bytes, data: bytes) -> None:
    assert first_answer(words, data) == (status, b"", [line])


@pytest.mark.release
def test_a_log(tmp_path: pathlib.Path) -> None:
    status, log, lines = first_answer(["sample", NET, "0", "0", "log"])
    assert (status, lines) == (0, [])
    (tmp_path / "log").write_bytes(log)
    judged = answer([*CHECKER, TOP / NET, "log"], tmp_path)
    assert judged[0] == 0 and judged[1].startswith(b"accepted ")
