"""The crates of crates.txt, each with those that it stands on, and those that a program is made of."""

import pathlib
import re
from collections.abc import Iterable

ROW = re.compile(r"(\w+)\b[^:]*:(.*)")


def rows_of(text: str) -> dict[str, tuple[str, list[str]]]:
    """Returns the crates of the text of crates.txt, lowest first: the row of each, and the names in
    it, which are those of crates and of libraries of the toolchain."""
    lines = (line.partition("#")[0].strip() for line in text.splitlines())
    rows = (row for row in map(ROW.fullmatch, lines) if row)
    return {row[1]: (row[0], row[2].split()) for row in rows}


def crates_below(top: pathlib.Path) -> dict[str, list[str]]:
    """Returns the crates of a checkout, lowest first, each with the names in its row."""
    rows = rows_of((top / "crates.txt").read_text())
    return {name: below for name, (_, below) in rows.items()}


def needed(names: Iterable[str], below: dict[str, list[str]]) -> list[str]:
    """Returns some crates and those that they stand on, lowest first, as `below` has all."""
    found = {*names}
    for name in reversed(below):
        if name in found:
            found.update(below[name])
    return [name for name in below if name in found]


class Crates:
    """A program's crate and all crates below it: their rows of crates.txt, and what each uses."""

    def __init__(self, top: pathlib.Path, program: str) -> None:
        self.top, self.program = top, program
        rows = rows_of((top / "crates.txt").read_text())
        self.rows = {name: row for name, (row, _) in rows.items()}
        # A name without a row is a library of the toolchain.
        self.uses = {name: [it for it in used if it in rows] for name, (_, used) in rows.items()}
        self.names = needed([program], self.uses)

    def below(self, name: str) -> list[str]:
        """Returns the crates that a crate stands on, each after those that it uses."""
        return needed(self.uses[name], self.uses)

    def folder(self, name: str) -> pathlib.Path:
        return self.top / "crates" / name

    def sources(self, name: str) -> list[pathlib.Path]:
        """Returns the files of a crate that its proof reads, in a fixed order."""
        parts = [self.folder(name) / part for part in ("src", "specs", "proofs")]
        return sorted(file for part in parts for file in part.rglob("*") if file.is_file())

    def lines(self, name: str) -> int:
        """Returns how many lines of code a crate has."""
        return sum(file.read_bytes().count(b"\n") for file in self.sources(name) if file.suffix == ".rt")
