"""What the tests share: where things are, how a program is run, and what is wrong in a test. tools/self-test, which
takes nothing beyond Python's library, imports it too, with gallery.py and logs.py."""

import os
import pathlib
import re
import shutil
import subprocess
import sys
from collections.abc import Mapping, Sequence
from typing import Any

TOP = pathlib.Path(__file__).resolve().parent.parent
TOOLS, EXAMPLES = TOP / "tools", TOP / "examples"
# The built program, where $PSI names no other one.
BUILT = TOP / "crates/psi/out/psi"
# The checker of logs, which shares nothing with the program, in a Python that loads nothing else.
CHECKER = [sys.executable, "-IS", str(TOOLS / "check_log.py")]
SECONDS, MOST_SHOWN = 60, 2_000

# A status and both texts, as bytes or read.
Answer = tuple[int, bytes, bytes]
TextAnswer = tuple[int, str, str]


class Expectations:
    """Counts what a test looks at, and keeps all that is wrong, so that the test reports all of it."""

    def __init__(self) -> None:
        self.count = 0
        self.wrong: list[str] = []

    def __call__(self, is_so: object, what: str) -> None:
        self.count += 1
        if not is_so:
            self.wrong.append(what[:MOST_SHOWN])


def beside(program: str | pathlib.Path, name: str) -> pathlib.Path | None:
    """A program of another crate, built beside this one or in its crate; none where it isn't."""
    folder = pathlib.Path(program).parent
    places = folder / name, folder.parent.parent / name / "out" / name, TOP / f"crates/{name}/out/{name}"
    return next((place for place in places if os.access(place, os.X_OK)), None)


def built(program: str | pathlib.Path, name: str) -> str:
    """The path of a program beside another; a test is skipped where it isn't built."""
    import pytest

    found = beside(program, name)
    return str(found) if found else pytest.skip(f"{name} isn't built")


def report_of(text: str) -> dict[tuple[str, str], int]:
    """The values of a report, by item and name."""
    rows = (line.split(",") for line in text.splitlines()[1:])
    return {(item, name): int(value) for item, name, value in rows}


def version_of_citation() -> str:
    found = re.search(r'^version: "(.*)"$', (TOP / "CITATION.cff").read_text(), re.M)
    assert found
    return found[1]


def answer(words: Sequence[object], folder: str | pathlib.Path, seconds: float = SECONDS, **more: Any) -> Answer:
    """The status of a run, and both its texts; `more` are options of subprocess.run."""
    call: list[str | bytes] = [word if isinstance(word, bytes) else str(word) for word in words]
    done: "subprocess.CompletedProcess[bytes]" = subprocess.run(
        call, cwd=folder, stdin=subprocess.DEVNULL, capture_output=True, timeout=seconds, **more
    )
    return done.returncode, done.stdout, done.stderr


def answer_as_text(words: Sequence[object], folder: str | pathlib.Path, *more: float, **options: Any) -> TextAnswer:
    """As `answer`, with texts that are read."""
    status, out, err = answer(words, folder, *more, **options)
    return status, out.decode(errors="replace"), err.decode(errors="replace")


def write(folder: str | pathlib.Path, files: Mapping[str, bytes]) -> None:
    for name, data in files.items():
        pathlib.Path(folder, name).write_bytes(data)


def printed_by(*words: object, folder: str | pathlib.Path = TOP, **more: Any) -> str:
    """What a call prints that ends well."""
    status, out, err = answer_as_text(words, folder, **more)
    assert status == 0, out + err
    return out


def checkout(room: pathlib.Path) -> pathlib.Path:
    """A checkout in a folder of its own that has what `./psi` needs, without a built program."""
    top = room / "checkout"
    for name in ("tools", "python", "docs", "crates", "examples"):
        shutil.copytree(TOP / name, top / name, ignore=shutil.ignore_patterns("out", "__pycache__"))
    for name in ("psi", "crates.txt", "HANDLES", "CITATION.cff"):
        shutil.copy2(TOP / name, top / name)
    return top
