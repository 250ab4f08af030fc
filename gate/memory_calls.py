"""python3 -m gate.memory_calls

Compares the public calls that may not allocate with those that crates/psi_test_memory makes: public
functions whose result has no `OutOfMemory`, neither by itself nor in a type that it names, and which are
handed something that may grow: an allocator, or a value with memory of its own that they may change. A call
is made where psi_test_memory names a method so, or a function with its type, as `Tally::new`; or where a
function that it names makes it, as gate/memory_calls.txt says: a line there has a crate, a call, and the
functions that lead to it, or `-` with what shows it instead. Crates of tests are left out.

The exit status is 0 where each call is made or has such a line, and each line is needed; else it is 1.
"""

import pathlib
import re
from collections.abc import Iterator

from gate import TOP, run
from tools.build.crates import crates_below

TESTS = TOP / "crates/psi_test_memory/src"
LISTED = TOP / "gate/memory_calls.txt"
FUNCTION = re.compile(r"^( *)pub fn (\w+)(.*?)(?=^\1    (?:requires|ensures|decreases|where)\b|^\1\{)", re.M | re.S)
BODY = re.compile(r"^( *)(?:pub(?:\(crate\))? )?fn (\w+)(.*?)^\1\}", re.M | re.S)
OWNER = re.compile(r"^(?:unsafe )?impl(?:<[^{]*?>)? (?:.* for )?(\w+)", re.M)
DECLARED = re.compile(
    r"^pub(?:\(crate\))? (?:(?:enum|struct) (\w+)[^{;=]*\{(.*?)^\}|(?:struct|type) (\w+)[^{;]*?[=(](.*?);)", re.M | re.S
)
COMMENT = re.compile(r"//.*")
# What a field or a variant holds.
HELD = re.compile(r":\s*([^\n]*)|\(([^)]*)\)")
# What of the library holds memory, or gives it.
HEAP = {"Vec", "String", "Box", "Rc", "Global", "LocalHeap"}
# A parameter that is changed or handed over, as `self`, `&mut self`, `x: &mut T` or `x: T`; and `&self`.
CHANGED = re.compile(r"\bself\b(?!:)|\w+: (?:&(?:'\w+ )?mut )?(?!&)([^,]*)")
BORROWED = re.compile(r"&(?:'\w+ )?self\b")


def sources() -> Iterator[tuple[str, pathlib.Path, str]]:
    """The sources of all crates that are libraries, with their crates."""
    for name in crates_below(TOP):
        if not name.startswith("psi_test_") and (TOP / "crates" / name / "src/lib.rt").exists():
            for file in sorted((TOP / "crates" / name / "src").rglob("*.rt")):
                yield name, file, COMMENT.sub("", file.read_text())


class Types:
    """The types that have one of some types in them, or are asked to have a variant of such a name; a crate's
    own type goes before another one's."""

    def __init__(self, names: set[str], by_variant: bool = False) -> None:
        self.names, self.found = names, set[tuple[str, str]]()
        declared = [
            ((crate, kind or other), rest or (parts if by_variant else " ".join(map("".join, HELD.findall(parts)))))
            for crate, _, text in sources()
            for kind, parts, other, rest in DECLARED.findall(text)
        ]
        self.declared = {each for each, _ in declared}
        while more := {each for each, text in declared if self.has(each[0], text)} - self.found:
            self.found |= more

    def has(self, crate: str, text: str) -> bool:
        """Whether a text of a crate names one of the types."""
        return any(name in self.names or self.is_one(crate, name) for name in re.findall(r"\w+", text))

    def is_one(self, crate: str, name: str) -> bool:
        """Whether a declared type, as a crate names it, is one of the types."""
        if (crate, name) in self.declared:
            return (crate, name) in self.found
        return any(name == kind for _, kind in self.found)


def may_grow(crate: str, owner: str, head: str, heap: Types) -> bool:
    """Whether a function is handed something that may grow; of a generic type it may."""
    front, _, parameters = head.partition("(")
    generic = re.findall(r"\b([A-Z]\w*):", front)
    for parameter in CHANGED.finditer(BORROWED.sub("", parameters)):
        kinds = owner if parameter[1] is None else parameter[1]
        if heap.has(crate, kinds) or {*re.findall(r"\w+", kinds)} & {*generic}:
            return True
    return False


def calls() -> Iterator[tuple[str, str]]:
    """The public calls that may not allocate and that are handed what may grow: crate and name."""
    memory, heap = Types({"OutOfMemory", "AllocError"}, by_variant=True), Types(HEAP)
    for crate, _, text in sources():
        for found in FUNCTION.finditer(text):
            head, _, result = found[3].partition("->")
            owners = [owner[1] for owner in OWNER.finditer(text) if owner.start() < found.start()]
            owner = owners[-1] if found[1] and owners else ""
            if not memory.has(crate, result) and may_grow(crate, owner, head, heap):
                yield crate, f"{owner}::{found[2]}" if owner else found[2]


def listed() -> dict[tuple[str, str], str]:
    """What gate/memory_calls.txt has of calls: the functions that lead to each, or `-`."""
    rows = [line.split() for line in LISTED.read_text().splitlines() if line and not line.startswith("#")]
    return {(row[0], row[1]): row[2] for row in rows}


def bodies() -> dict[str, str]:
    """What all functions of a name say, by their names."""
    found: dict[str, str] = {}
    for _, _, text in sources():
        for function in BODY.finditer(text):
            found[function[2]] = found.get(function[2], "") + function[3]
    return found


def is_named(call: str, text: str) -> bool:
    """Whether the sources of psi_test_memory name a call."""
    owner, _, name = call.rpartition("::")
    return bool(re.search(rf"\.{name}\(|\b{owner}(?:::<[^>]*>)?::{name}\(" if owner else rf"\b{name}\(", text))


def leads(path: str, call: str, text: str, known: dict[str, str]) -> bool:
    """Whether functions, of which psi_test_memory names the first, make each the next, and the last one a call."""
    names = [*path.split("/"), call.split("::")[-1]]
    makes = (re.search(rf"\b{after}\(", known.get(name, "")) for name, after in zip(names, names[1:]))
    return bool(re.search(rf"\b{names[0]}\(", text)) and all(makes)


def faults() -> Iterator[str]:
    text = "".join(file.read_text() for file in sorted(TESTS.glob("*.rt")))
    rows, known = listed(), bodies()
    missing = {each for each in calls() if not is_named(each[1], text)}
    for crate, call in sorted(missing - {*rows}):
        yield f"{crate}: {call} may not allocate, and psi_test_memory does not make it"
    for crate, call in sorted({*rows} - missing):
        yield f"gate/memory_calls.txt: {crate}: {call} needs no line"
    for (crate, call), path in rows.items():
        if path != "-" and not leads(path, call, text, known):
            yield f"gate/memory_calls.txt: {crate}: {path} does not lead to {call}"


if __name__ == "__main__":
    run(faults)
