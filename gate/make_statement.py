"""python3 -m gate.make_statement [--check]

Writes docs/STATEMENT.md: what the program is proved to do, with every definition that this needs,
each once, as it stands in the sources. A definition is found by the `use` lines of its file; a name
that can't be found is an error, and then nothing is written. What the names of the kit mean is told
in gate/kit_names.txt; the parts and their sections are told in gate/statement.txt.

The entries of docs/DEFINITIONS.md that have a definition of the page are marked as such: a ◆ stands
before their first word, and before no other.

--check   writes nothing, and ends with 1 where the page isn't what would be written, or a mark is wrong
"""

import collections
import contextlib
import pathlib
import re
from collections.abc import Sequence

from gate import TOP, run
from gate.definitions import CRATES, File, Item, Missing, Source, Sources, uses

# The definitions that were shown, by their files and names.
Shown = dict[tuple[pathlib.Path, str], Item]
PAGE, DEFINITIONS = TOP / "docs" / "STATEMENT.md", TOP / "docs" / "DEFINITIONS.md"
# The blocks of the page, what they define, and the entries and sections of docs/DEFINITIONS.md.
BLOCK = re.compile(r"^\[`(\w+)`: ([\w/.]+)\]\(.*?\n\n```\n(.*?)^```$", re.M | re.S)
DEFINED = re.compile(r"^ *(?:\w+ )*pub (?:data |record |enum |struct |trait )?([^\s:({<]+)", re.M)
ENTRY = re.compile(r"^- (?:◆ )?(\*\*.*?)(?=^- |^#|^$|\Z)", re.M | re.S)
SECTION = re.compile(r"^## .*$", re.M)


def clause(sources: Sources, path: str, function: str, label: str = "") -> Item:
    """A clause of a function, by its label; without one all clauses, after the function's head."""
    file = sources.file(CRATES / path, Source)
    start = next(i for i, s in enumerate(file.lines) if re.match(r"(?:pub(?:\(crate\))? )?fn %s\b" % function, s))
    end = next(i for i in range(start, len(file.lines)) if file.lines[i] in ("{", "{}"))
    heads = [i for i in range(start, end) if re.match(r"    (ensures|requires) ", file.lines[i])]
    if not heads:
        raise Missing(f"{path}: {function} has no clause")
    shown, comment = start, [line for line in file.above(start, "///", "#[") if not line.startswith("#[")]
    if label:
        shown = next(i for i in heads if file.lines[i].startswith(f"    ensures {label} "))
        end = next(i for i in range(shown, end) if file.lines[i].endswith("}")) + 1
        comment = file.above(shown, "    //")
    item = Item(file, function, 0, comment, [])
    item.text = file.lines[shown:end]
    item.head = [] if label else file.lines[start : heads[0]]
    head = " ".join(file.lines[start : heads[0]])
    item.traits = dict(re.findall(r"[<,] ?(\w+): (\w+)", head.split("(")[0]))
    item.bound = re.findall(r"(\w+): ", head) + ["result"]
    for kind in re.findall(r"\b[A-Z]\w+", " ".join(item.head)):
        means = sources.named(file, kind)
        if means is False:
            raise item.missing(kind)
        item.taken += [means] if means else []
    return item


class Section:
    """A section of a part: its title, its words, and the paths that belong to it."""

    def __init__(self, title: str) -> None:
        self.title = title
        self.words: list[str] = []
        self.paths: list[str] = []


class Part(Section):
    """A part of the page. It begins with clauses and names. What is shown later, or is left out for a
    reason, isn't followed, and of what is cut the named cases are shown."""

    def __init__(self, title: str) -> None:
        super().__init__(title)
        self.sections: list[Section] = []
        self.clauses: list[list[str]] = []
        self.names: list[list[str]] = []
        self.later: list[str] = []
        self.left: dict[str, str] = {}
        self.cut: dict[str, list[str]] = {}


def outline() -> tuple[list[str], list[Part]]:
    """The parts of the page, as gate/statement.txt tells them."""
    head: list[str] = []
    parts: list[Part] = []
    for line in (TOP / "gate" / "statement.txt").read_text(encoding="utf-8").split("\n"):
        key, _, rest = line.partition(": ")
        if not head:
            head.append(line)
        elif line.startswith("## "):
            parts[-1].sections.append(Section(line[3:]))
        elif line.startswith("# "):
            parts.append(Part(line[2:]))
        elif key in ("clause", "name"):
            (parts[-1].clauses if key == "clause" else parts[-1].names).append(rest.split())
        elif key == "cut":
            name, *cases = rest.split()
            parts[-1].cut[name] = cases
        elif key == "later":
            parts[-1].later = rest.split()
        elif key == "left":
            name, _, reason = rest.partition(" ")
            parts[-1].left[name] = reason
        elif key == "paths":
            parts[-1].sections[-1].paths = rest.split()
        else:
            # Those of the last section, or of the part where it has none.
            words = (parts[-1].sections or parts)[-1].words if parts else head
            words += [line] if line or words and words[-1] else []
    return head, parts


def cut(item: Item, cases: Sequence[str]) -> list[str]:
    """Of a definition the lines of its type, and those of its equations for the named cases."""
    kept, on = item.text[:1], False
    found: set[str] = set()
    for line in item.text[1:]:
        begun = re.match(rf"{re.escape(item.name)} \(?(\w+) ", line)
        on = begun[1] in cases if begun else on and line.startswith(" ")
        kept += [line] if on else []
        found |= {begun[1]} if on and begun else set()
    if found != set(cases):
        raise item.missing(min(set(cases) - found))
    return kept + ["-- and so on for the others"]


def put(sources: Sources, part: Part, item: Item, shown: Shown, order: list[Item]) -> None:
    """Puts a definition that isn't shown yet, and what it needs, in the order of naming."""
    key = item.file.path, item.name
    if key in shown or item.name in part.later or item.name in part.left:
        return
    shown[key] = item
    order.append(item)
    if item.name in part.cut:
        item.text = cut(item, part.cut[item.name])
    for means in uses(sources, item):
        put(sources, part, means, shown, order)


def link(file: File) -> str:
    path = file.path.relative_to(CRATES)
    return f"[`{path.parts[0]}`: {'/'.join(path.parts[1:])}](../crates/{path.as_posix()})"


def block(items: list[Item]) -> list[str]:
    """The text of definitions of one file; a module's comment stands where it is first shown."""
    lines, open_now, reported = [], [], []
    for item in items:
        lines.append("")
        for module in item.modules:
            if module not in open_now:
                lines += module[-1:] if module in reported else module
                reported.append(module)
        open_now = item.modules
        lines += item.comment + item.text
    head = f"{link(items[0].file)}. {items[0].file.header()}{renamed(items)}"
    return [head, "", "```"] + lines[1:] + ["```", ""]


def renamed(items: list[Item]) -> str:
    """What stands under another name in definitions, as a sentence."""
    reported = {}
    for item in items:
        for name, (own, means) in item.renamed.items():
            kind = name.split(".")[0] if "." in name else ""
            if kind and means and own in means.makers:
                reported[kind] = f"`{kind}.` stands before a variant of `{means.name}`"
            else:
                reported[name] = f"`{name}` is `{own}` of {link(means.file) if means else 'the kit'}"
    return f" Here {', and '.join(reported.values())}." if reported else ""


def place_of(part: Part, item: Item) -> tuple[int, int]:
    """The section of a definition and its place there, by the longest path that is told for it."""
    path = item.file.path.relative_to(CRATES).as_posix()
    found = [
        (len(named), number, place)
        for number, section in enumerate(part.sections)
        for place, named in enumerate(section.paths)
        if f"{path}/".startswith(f"{named}/")
    ]
    if not found:
        raise Missing(f"{part.title}: no section for {item.name} of {path}")
    return max(found)[1:]


def sections(part: Part, order: list[Item]) -> list[str]:
    """The sections of a part, file by file: in the order of their paths, and then of naming."""
    lines: list[str] = []
    files = collections.defaultdict(list)
    for item in order:
        files[item.file.path].append(item)
    groups = sorted(files.values(), key=lambda group: place_of(part, group[0]))
    for number, section in enumerate(part.sections):
        lines += [f"### {section.title}", ""] + section.words
        for group in groups:
            lines += block(group) if place_of(part, group[0])[0] == number else []
    return lines


def page(sources: Sources) -> list[str]:
    head, parts = outline()
    lines = head
    shown: Shown = {}
    counts: list[tuple[str, list[Item]]] = []
    for part in parts:
        order: list[Item] = []
        clauses = [clause(sources, *words) for words in part.clauses]
        lines += [f"## {part.title}", ""] + part.words
        for name, reason in part.left.items():
            lines += [f"`{name}` isn't followed: {reason}", ""]
        for item in clauses:
            for means in item.taken + uses(sources, item):
                put(sources, part, means, shown, order)
            lines += block([item])
        for module, name in part.names:
            named = sources.imported(module, name)
            assert named, f"{name} of {module} is the kit's"
            put(sources, part, named, shown, order)
        lines += sections(part, order)
        counts.append((part.title, order))
    if left := {name for part in parts for name in part.later} - {name for _, name in shown}:
        raise Missing(f"a part leaves {min(left)} to a later one, which hasn't it")
    if unused := set(sources.kit) - sources.kit_used:
        raise Missing(f"gate/kit_names.txt tells {min(unused)} for nothing")
    return lines + ending(sources, counts)


def ending(sources: Sources, counts: list[tuple[str, list[Item]]]) -> list[str]:
    """What the kit gives, and how much it is in all."""
    lines = ["## What the kit gives", "", "These names belong to Rattle's library, and aren't followed further.", ""]
    lines += [f"- `{name}`: {reported}" for name, reported in sources.kit.items()]
    lines += ["", "## How much it is", "", "| Part | Definitions | Types of sources | Lines | Files | Crates |"]
    lines += ["|---|---|---|---|---|---|"]
    for title, order in counts + [("All", [item for _, order in counts for item in order])]:
        types = [item for item in order if isinstance(item.file, Source)]
        text = [s for item in order for s in item.body() if s.strip()]
        files, crates = {item.file.path for item in order}, {item.file.crate() for item in order}
        counted = len(order) - len(types), len(types), len(text), len(files), len(crates)
        lines.append(f"| {title} | {' | '.join(map(str, counted))} |")
    lines += ["", "Lines are those without comments and blank lines. A file or a crate of two"]
    return lines + ["parts counts in both, and once in all."]


def made() -> str:
    """The page, as it is written."""
    names = (TOP / "gate" / "kit_names.txt").read_text(encoding="utf-8").splitlines()
    return "\n".join(page(Sources(dict(line.split("\t") for line in names)))).strip("\n") + "\n"


def stated() -> dict[str, set[str]]:
    """The names that the statement shows, by their files below crates/."""
    names: dict[str, set[str]] = collections.defaultdict(set)
    for crate, file, text in BLOCK.findall(PAGE.read_text()):
        names[f"{crate}/{file}"].update(DEFINED.findall(text))
    return names


def is_stated(entry: str, crates: list[str], names: dict[str, set[str]]) -> bool:
    """Whether an entry of a section on these crates has a definition that the statement shows."""
    files: list[str] = []
    for word in re.findall(r"`([^`]+)`", entry):
        if word.endswith((".antt", ".rt")):
            named = [path for path in names if path.endswith(f"/{word}") or path == word]
            files = [path for path in named if path == word or path.split("/")[0] in crates]
        elif any(word in names[path] for path in files):
            return True
        elif word.startswith("psi_"):
            crates = [*crates, word.split("/")[0]]
    return False


def marked() -> str:
    """The page with its marks."""
    names, text = stated(), DEFINITIONS.read_text()
    heads = [(head.start(), head[0]) for head in SECTION.finditer(text)]

    def mark(entry: re.Match[str]) -> str:
        head = max(found for found in heads if found[0] < entry.start())[1]
        crates = re.findall(r"\bpsi\w*", head + entry[1])
        return f"- {'◆ ' if is_stated(entry[1], crates, names) else ''}{entry[1]}"

    return ENTRY.sub(mark, text)


def faults() -> list[str]:
    """What is wrong with the page, and the entries whose mark is wrong."""
    try:
        is_made = PAGE.is_file() and PAGE.read_text(encoding="utf-8") == made()
    except Missing as missing:
        return [str(missing)]
    found = [] if is_made else ["docs/STATEMENT.md isn't what the sources say: run `python3 -m gate.make_statement`"]
    lines = zip(marked().splitlines(), DEFINITIONS.read_text().splitlines())
    return found + [f"the mark is wrong: {own}" for new, own in lines if own != new]


def write() -> None:
    """Writes the page, where the sources have all that it shows, and the marks."""
    with contextlib.suppress(Missing):
        PAGE.write_text(made(), encoding="utf-8")
    DEFINITIONS.write_text(marked())


if __name__ == "__main__":
    run(faults, write)
