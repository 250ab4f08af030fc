"""What is compared of this repository itself: by the modules of gate/; what may import what; and the layout, the
form and the types of all Python here, which are those of black, flake8 and mypy."""

import ast
import pathlib
import types
from collections.abc import Iterator

import pytest

from gate import crates, house_words, make_statement, memory_calls, versions
from tests.support import TOP, printed_by

# What shares nothing with the program and the tools, by the rule that it imports nothing of ours.
CHECKERS = (TOP / f"python/psi_tools/{name}.py" for name in ("check_log", "check_interval"))
APART = [*sorted(TOP.glob("oracle/*.py")), *CHECKERS]
# The package of python/ has types of its own settings; all else, its tests too, those of setup.cfg. Black and
# flake8 find what they take in python/, so that it is one thing everywhere.
FOLDERS = "bench", "gate", "generate", "oracle", "release", "tests", "tools"
OURS = {*FOLDERS, "psi", "psi_tools"} - {"oracle"}
SCRIPTS = [
    path.relative_to(TOP)
    for folder in ("bench", "tools")
    for path in sorted((TOP / folder).iterdir())
    if path.is_file() and not path.suffix and "python3" in path.read_text().partition("\n")[0]
]
PARTS = crates, make_statement, house_words, memory_calls, versions


@pytest.mark.parametrize("part", PARTS, ids=[part.__name__ for part in PARTS])
def test_part(part: types.ModuleType) -> None:
    """Each crate says what it is for, stands on what it names alone, and has its lemmas in files of
    lemmas; the page of the whole statement is what the definitions say, and these are marked as such
    where they are told in words; the pages that a newcomer reads first are in this project's English; each
    public call that may not allocate is made by psi_test_memory, or listed with what leads to it; all
    places that have the version have the same."""
    assert [*part.faults()] == []


def imported(file: pathlib.Path) -> Iterator[str]:
    """The modules that a file imports, by their first names."""
    for node in ast.walk(ast.parse(file.read_text())):
        if isinstance(node, ast.Import):
            yield from (name.name.partition(".")[0] for name in node.names)
        if isinstance(node, ast.ImportFrom):
            yield (node.module or "").partition(".")[0] if not node.level else "psi_tools"


@pytest.mark.parametrize("file", APART, ids=[file.name for file in APART])
def test_what_stands_apart_imports_nothing_of_ours(file: pathlib.Path) -> None:
    found = {*imported(file)}
    assert not found & OURS
    assert "oracle" not in found or file.parent.name == "oracle"


@pytest.mark.slow
@pytest.mark.parametrize(
    "words, folder",
    (
        pytest.param(words, folder, marks=pytest.mark.needs(words.split()[0]), id=f"{words.split()[0]}-{folder}")
        for words, folder in (
            ("black -q --check --config python/pyproject.toml python", "."),
            ("flake8 --config python/.flake8 python", "."),
            ("mypy python/tests", "."),
            ("mypy", "python"),
        )
    ),
)
def test_style(tmp_path: pathlib.Path, words: str, folder: str) -> None:
    what = () if folder != "." else (*FOLDERS, *SCRIPTS)
    more = ["--cache-dir", tmp_path] if words.startswith("mypy") else []
    printed_by(*words.split(), *what, *more, folder=TOP / folder, seconds=900)


def test_scripts_are_found() -> None:
    assert {"bench/run", "tools/self-test", "tools/psi-law"} <= {str(path) for path in SCRIPTS}


def test_no_link_is_committed() -> None:
    """The toolchain refuses a folder in which something is a link."""
    files = [line.split("\t", 1) for line in printed_by("git", "ls-files", "-s", "-z").split("\0") if line]
    assert len(files) > 1_000
    assert [name for mode, name in files if mode.startswith("120000")] == []
