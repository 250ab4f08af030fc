"""python3 -m gate.lemmas [NAME..]

Lists the lemmas of crates that nothing needs; without a name those of all crates. A lemma is what is
declared in crates/NAME/proofs/FILE.antt, or in a file ..Laws.antt of specs/. It is needed where a
clause, a definition, an answer, an attribute, a worked check or a guide names it, or a lemma that is
needed. In a guide its name stands between backticks.

A file whose first line says that it is worked has checks, which need nobody. Imports alone aren't a
need: `rt tidy` drops those. A line tells each lemma with its file and line. The exit status is 0
where there is none, and 1 where there is one.
"""

import pathlib
import re
import sys
from collections import defaultdict
from collections.abc import Collection, Iterator

from gate import TOP

USE = re.compile(r"use Rattle\.(\w+)\.([\w.]+?)(?:\.\{(.*)\}| as \w+|);?$")
PATH = re.compile(r"\b(\w+)::(proofs|specs)::(\w+)::(\w+)")
# A crate, a module of it, and a name there.
Name = tuple[str, str, str | None]
DECLARED = re.compile(r"(?:(?:abbrev|unfoldable|pub|record|data) )*([^\s:(){}]+)(?: .*)? :(?: .*)?")
TOKEN = re.compile(r"[^\s(){}\[\],;.]+")
COMMENT = {".rt": "//", ".antt": "--"}


class File:
    """A file of a crate: what it declares, what it brings in, and which words stand where."""

    def __init__(self, path: pathlib.Path, crate: str, module: str) -> None:
        self.path, self.crate, self.module = path, crate, module
        # What is brought in, by the name that it has here; and the modules that are brought in whole.
        self.known: dict[str, Name] = {}
        self.whole: set[tuple[str, str]] = set()
        # The line of each declared name; and the words, by the name in whose text they stand.
        self.lines: dict[str, int] = {}
        self.words: dict[str | None, set[str]] = defaultdict(set)
        text = path.read_text()
        self.is_check = "worked" in text.partition("\n")[0].lower()
        self.read(text)

    def read(self, text: str) -> None:
        owner, level = None, 0
        for number, line in enumerate(text.splitlines(), 1):
            line = line.partition(COMMENT[self.path.suffix])[0].rstrip()
            if "use Rattle." in line:
                self.bring_in(line)
            elif self.path.suffix == ".rt":
                for crate, folder, module, name in PATH.findall(line):
                    self.known[name] = (self.crate if crate == "crate" else crate, f"{folder}.{module}", name)
                self.words[None] |= set(TOKEN.findall(line.replace("::", " ")))
            elif line:
                indent = len(line) - len(line.lstrip())
                level = min(level, indent)
                if line.lstrip().startswith("module ") and line.endswith(" where"):
                    owner, level = None, indent + 2
                elif indent == level:
                    owner = self.owner(line.strip(), number, owner)
                self.words[owner] |= set(TOKEN.findall(line))

    def bring_in(self, line: str) -> None:
        found = USE.search(line)
        assert found, line
        crate, module, names = found.groups()
        if names is None:
            self.whole.add((crate, module))
        for name in (names or "").split(","):
            there, _, here = name.strip().partition(" as ")
            self.known[here or there] = (crate, module, there)

    def owner(self, line: str, number: int, before: str | None) -> str | None:
        """In whose text a line at the level of declarations stands."""
        first = line.split()[0]
        if first == "unfolding" or first in self.lines:
            return before if first == "unfolding" else first
        declared = DECLARED.fullmatch(line)
        if not declared:
            return None
        self.lines.setdefault(declared[1], number)
        return declared[1]

    def has_lemmas(self) -> bool:
        folder, *rest = self.module.split(".")
        if folder == "proofs":
            return len(rest) == 1 and not self.is_check
        return folder == "specs" and rest[-1].endswith("Laws")

    def named(self, owner: str | None) -> Iterator[Name]:
        """What the text of a declaration, or what stands in none, names."""
        for word in self.words[owner]:
            if word in self.lines:
                yield self.crate, self.module, word
            if word in self.known:
                yield self.known[word]
            for crate, module in self.whole:
                yield crate, module, word


def files_of_crates() -> dict[tuple[str, str], File]:
    files = {}
    for path in sorted(TOP.glob("crates/*/*/**/*")):
        crate, *parts = path.relative_to(TOP / "crates").with_suffix("").parts
        if parts[0] in ("src", "specs", "proofs") and path.suffix in COMMENT:
            files[crate, ".".join(parts)] = File(path, crate, ".".join(parts))
    return files


def needed(files: dict[tuple[str, str], File]) -> set[Name]:
    # A guide has the names of lemmas between backticks.
    pages = (path.read_text() for path in [*TOP.glob("*.md"), *TOP.glob("docs/*.md")])
    guides = {name for text in pages for name in re.findall(r"`([^`\s]+)`", text)}
    reached = set()
    new = {
        (*key, owner)
        for key, file in files.items()
        for owner in [None, *file.lines]
        if owner is None or owner in guides or not file.has_lemmas()
    }
    while new:
        reached |= new
        new = {
            name
            for crate, module, owner in new
            if (crate, module) in files
            for name in files[crate, module].named(owner)
        } - reached
    return reached


def main(names: Collection[str]) -> int:
    files = files_of_crates()
    reached = needed(files)
    found = 0
    for key, file in files.items():
        for name, line in file.lines.items() if file.has_lemmas() else ():
            if (*key, name) not in reached and (not names or file.crate in names):
                found = 1
                print(f"{file.path.relative_to(TOP)}:{line}: {name}")
    return found


if __name__ == "__main__":
    sys.exit(main(sys.argv[1:]))
