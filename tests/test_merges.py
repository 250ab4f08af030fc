"""psi_merge and merge_reports.py beside it: reports that are refused, each by its line (merges.py), and
some hundred reports that are changed somewhere, of which both have to say the same.
"""

import pathlib
import random
import sys
from collections.abc import Iterable, Sequence

import pytest

from tests import merges
from tests.merges import BASE, SAMPLES, changed
from tests.support import TOOLS, Expectations, answer, built, write

CHANGED = 400
# The status, what is printed, and what is said without the program's name.
Ending = tuple[int, bytes, str]
STATUSES = {"refused": 3, "other": 4, "too": 5, "cannot": 6}


@pytest.fixture(params=("psi_merge", "merge_reports.py"))
def merger(request: pytest.FixtureRequest, program: str) -> list[str]:
    """Each of the two programs."""
    if request.param == "psi_merge":
        return [built(program, "psi_merge")]
    return [sys.executable, str(TOOLS / "merge_reports.py")]


def ending_of(program: Sequence[str], files: Iterable[str], folder: pathlib.Path) -> Ending:
    """The status of a merge, what it prints, and what it says without its name."""
    status, out, err = answer([*program, *files], folder)
    return status, out, err.decode(errors="replace").partition(": ")[2].removesuffix("\n")


def refusal(message: str, file: str) -> Ending:
    """How a merge ends that is refused so."""
    return STATUSES[message.split()[0]], b"", f"{message} {file}"


@pytest.mark.parametrize("name", merges.CASES)
def test_a_merge(merger: list[str], tmp_path: pathlib.Path, name: str) -> None:
    """The refusal of the last file, or the report of all, which of one file is its text."""
    texts, message = merges.CASES[name]
    files = merges.files_of(texts)
    write(tmp_path, files)
    ended = ending_of(merger, files, tmp_path)
    report = files["0.csv"] if len(files) == 1 else ended[1]
    assert ended == (refusal(message, [*files][-1]) if message else (0, report, ""))


WRONG, OTHER = changed({7: "sum,a,14"}), changed({13: None, 14: None, 15: None})
# Files, none of which is called `missing`, what is said, and of which of them.
ORDERS = (
    ("base missing", "cannot read", "missing"),
    ("wrong missing", f"{SAMPLES} 7", "wrong"),
    ("base other missing", "other network line 13", "other"),
    ("missing wrong", "cannot read", "missing"),
    ("base missing wrong", "cannot read", "missing"),
)


@pytest.mark.parametrize("names, message, named", ORDERS)
def test_files_are_read_in_order(
    merger: list[str], tmp_path: pathlib.Path, names: str, message: str, named: str
) -> None:
    """A file is read only where those before it are accepted and merged."""
    write(tmp_path, {"base": BASE.encode(), "wrong": WRONG.encode(), "other": OTHER.encode()})
    assert ending_of(merger, names.split(), tmp_path) == refusal(message, named)


@pytest.mark.parametrize("words", ([], ["-x"]))
def test_no_files(merger: list[str], tmp_path: pathlib.Path, words: list[str]) -> None:
    assert ending_of(merger, words, tmp_path)[:2] == (2, b"")


def test_changed_reports(program: str, expect: Expectations, tmp_path: pathlib.Path) -> None:
    """Both say the same of changed reports, of which some are merged, and some refused in each way."""
    psi_merge, chance, kinds = built(program, "psi_merge"), random.Random(1), set()
    for _ in range(CHANGED):
        files = merges.files_of(merges.some_texts(chance))
        write(tmp_path, files)
        found, wanted = answer([psi_merge, *files], tmp_path), merges.wanted_of(files)
        kinds.add(found[0])
        expect(found == wanted, f"{files}: {found} {wanted}")
    expect(kinds >= {0, 3, 4, 5}, f"the statuses are {kinds} alone")
