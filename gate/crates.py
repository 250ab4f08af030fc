"""python3 -m gate.crates [--check]

Writes what is said of the crates: into each crate's folder a README.md of one line, which says what the
crate is for, its row in docs/ARCHITECTURE.md; and into that page the graph of the crates, as a Mermaid
diagram. There an arrow leads from each crate to those that it stands on, without the arrows that follow
from others, and the layers are those of crates.txt. A comment at the end of a line of crates.txt names the
crates that no code of the crate needs: those that only clauses and definitions name, and those that only
proofs name. With --check it writes nothing, and tells what isn't so:

- each crate of crates.txt has one row there, and each row is one of a crate;
- a crate's row stands after those of all crates that it stands on;
- its README.md has its row, and its root file begins with a comment on what it holds;
- the page has this graph, and each line of crates.txt this comment;
- each edge of crates.txt is needed: a source, a specs file or a proof of the crate names the other crate;
- no edge is missing: each crate of this repository that one of these names is on the crate's line;
- each file right in a crate's proofs/ says by its name what it holds: lemmas stand in files
  `..Lemmas.antt`, worked rows in `Worked.antt`, and `Lib.antt` names the files; laws, `..Laws.antt`,
  stand in specs/Inner/.

The exit status is 1 where something is told, and 2 where the words aren't right.
"""

import pathlib
import re
from collections.abc import Collection, Iterator

from gate import TOP, run
from tools.build.crates import crates_below, needed

PAGE, CRATES = TOP / "docs/ARCHITECTURE.md", TOP / "crates.txt"
ROW = re.compile(r"^\| `(\w+)` \| (.*) \|$", re.M)
BLOCK = re.compile(r"(?<=^```mermaid\n).*?(?=^```$)", re.M | re.S)
LAYER = re.compile(r"^# (.+)\n((?:\w+:.*\n)+)", re.M)
PROOFS = re.compile(r"(?:\w+Lemmas|Worked|Lib)\.antt")
# What a clause, a definition or a proof names, and what a source names.
GHOST = re.compile(r"\bRattle\.(\w+)\.")
SOURCE = re.compile(r"(?<![\w:.])(\w+)::")
FORMS = {".rt": (GHOST, SOURCE), ".antt": (GHOST,)}
COMMENT = {".rt": re.compile(r"//.*"), ".antt": re.compile(r"--.*")}


def rows() -> list[tuple[str, str]]:
    """The rows of crates in docs/ARCHITECTURE.md, in their order."""
    text = PAGE.read_text()
    begin = text.index("\n## The crates\n")
    return ROW.findall(text, begin, text.index("\n## ", begin + 1))


def readme(name: str, what: str) -> tuple[pathlib.Path, str]:
    """Where a crate says what it is for, and how."""
    return TOP / "crates" / name / "README.md", f"`{name}`: {what}.\n"


def layers(text: str) -> dict[str, list[str]]:
    """Returns the names of the layers of crates.txt, each with its crates."""
    return {title: re.findall(r"^\w+", rows, re.M) for title, rows in LAYER.findall(text)}


def reduced(below: dict[str, list[str]]) -> dict[str, list[str]]:
    """Returns for each crate those that it stands on, without those on which one of these stands."""
    edges = {name: [use for use in uses if use in below] for name, uses in below.items()}
    all_below = {name: needed(uses, edges) for name, uses in edges.items()}
    return {
        name: [use for use in uses if not any(use in all_below[other] for other in uses)]
        for name, uses in edges.items()
    }


def diagram(top: pathlib.Path) -> Iterator[str]:
    """The lines of the diagram; the names of crates stand without their `psi_`."""
    below = crates_below(top)
    yield "graph BT"
    for number, (title, names) in enumerate(layers((top / "crates.txt").read_text()).items()):
        yield f"  subgraph L{number}[{title}]"
        yield from (f"    {name}[{name.removeprefix('psi_')}]" for name in names)
        yield "  end"
    for name, uses in reduced(below).items():
        yield from (f"  {name} --> {use}" for use in uses)


def drawn() -> str:
    """The page with the graph of the crates."""
    graph = "".join(f"{line}\n" for line in diagram(TOP))
    return BLOCK.sub(lambda _: graph, PAGE.read_text(), count=1)


def named(name: str, *folders: str, forms: Collection[re.Pattern[str]] = (GHOST, SOURCE)) -> dict[str, pathlib.Path]:
    """The crates that files of a crate name, each with the first of these files."""
    files: dict[str, pathlib.Path] = {}
    for path in (path for folder in folders for path in sorted((TOP / "crates" / name / folder).rglob("*"))):
        for form in (form for form in FORMS.get(path.suffix, ()) if form in forms):
            for word in form.findall(COMMENT[path.suffix].sub("", path.read_text())):
                files.setdefault(word, path.relative_to(TOP))
    return files


def row(name: str, line: list[str]) -> str:
    """The line of a crate in crates.txt, with the comment that it is to have."""
    code, clauses = named(name, "src", forms=[SOURCE]), named(name, "src", "specs", forms=[GHOST])
    parts = {
        "clauses alone": [other for other in line if other not in code and other in clauses],
        "proofs alone": [other for other in line if other not in code and other not in clauses],
    }
    note = "; ".join(f"{title}: {' '.join(names)}" for title, names in parts.items() if names)
    return f"{name}:{''.join(f' {other}' for other in line)}" + (f"  # {note}" if note else "")


def commented(text: str) -> str:
    """The text of crates.txt, with the comments that its lines are to have."""
    edges = crates_below(TOP)
    return re.sub(r"^(\w+):.*$", lambda found: row(found[1], edges[found[1]]), text, flags=re.M)


def faults_of_edges() -> Iterator[str]:
    """The edges that are needless or missing, and the lines whose comments are wrong."""
    edges, text = crates_below(TOP), CRATES.read_text()
    for is_line, should in zip(text.splitlines(), commented(text).splitlines()):
        if is_line != should:
            yield f"comment: {should}"
    for name, line in edges.items():
        below, files = {*line}, named(name, "src", "specs", "proofs")
        for other in sorted(below - {*files}):
            yield f"needless: {name}: {other}"
        for other in sorted({*files} & {*edges} - below - {name}):
            yield f"missing: {name}: {other} ({files[other]})"


def faults() -> Iterator[str]:
    known, listed = crates_below(TOP), rows()
    names = [name for name, _ in listed]
    for name in sorted({*known, *names}):
        count = names.count(name)
        if name not in known:
            yield f"{name} has a row in ARCHITECTURE, and isn't in crates.txt"
        elif count != 1:
            yield f"{name} has {count} rows in ARCHITECTURE"
    for place, (name, what) in enumerate(listed):
        if name not in known:
            continue
        late = [below for below in known[name] if below in names[place:]]
        if late:
            yield f"the row of {name} stands before those of {', '.join(late)}"
        file, line = readme(name, what)
        if not file.exists() or file.read_text() != line:
            yield f"the README.md of {name} isn't its row: run `python3 -m gate.crates`"
        source = file.parent / "src"
        root = next(file for file in (source / "lib.rt", source / "main.rt") if file.exists())
        if not root.read_text().startswith("//! "):
            yield f"the root file of {name} doesn't begin with a comment on what it holds"
    if drawn() != PAGE.read_text():
        yield "docs/ARCHITECTURE.md has another graph of the crates: run `python3 -m gate.crates`"
    for file in sorted(TOP.glob("crates/*/proofs/*.antt")):
        if not PROOFS.fullmatch(file.name):
            yield f"{file.relative_to(TOP)}: no file of lemmas by its name"
    yield from faults_of_edges()


def write() -> None:
    """Writes the README.md of each crate, the graph, and the comments of crates.txt."""
    for file, line in (readme(*row) for row in rows()):
        file.write_text(line)
    PAGE.write_text(drawn())
    CRATES.write_text(commented(CRATES.read_text()))


if __name__ == "__main__":
    run(faults, write)
