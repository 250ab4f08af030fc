"""/usr/bin/python3 -m release.man_pages FOLDER [DATE]

Makes the man pages of the package, and writes them to a folder; DATE stands at their feet. Those of
the commands are release/package_files/man/NAME.SECTION.md, written for the package, in which a line

- `@options COMMAND` stands for the options of psi-COMMAND, as its parser has them;
- `@kinds COMMAND` for the kinds of its first word;
- `@status` for the statuses that the tools share;
- `@synopsis`, `@commands` and `@statuses` for what `psi --help` says of its commands, and
  `psi help COMMAND` of each;
- `@files` for the files of the package.

psi-file(5) is docs/FORMATS.md. There `./psi` is `psi`, the tools have no folder, and other files the
one in which the package has them.

The form is that of groff's man macros, with tables by tbl. Of Markdown it knows what these files
have: headings, paragraphs, lists in lists, tables, quotes, blocks of code, and in a text code, bold,
italics and links. A table of two columns, or for which a page is too narrow, is a list.
"""

import argparse
import importlib
import pathlib
import re
import sys

import tools.packaged  # noqa: F401
from collections.abc import Callable, Iterator, Mapping
from typing import Any
from psi_tools.cli.completion import kinds_of, options_of

TOP = pathlib.Path(__file__).resolve().parent.parent
ITEM = re.compile(r"( *)(-|\d+\.) +")
# What begins a block of its own, beside a blank line.
BLOCK = re.compile(rf"```|#|\||> |{ITEM.pattern}")
# The name of another page, which isn't broken over two lines.
PAGE = re.compile(r"(psi-[a-z]+\(\d\))")
INLINE = re.compile(r"`([^`]+)`|\*\*(.+?)\*\*|\*(.+?)\*|!?\[((?:[^\]`]|`[^`]*`)*)\]\(([^)\s]*)\)")
# A proved program that is called, or is named alone.
PROGRAM = re.compile(r"(?<![\w/])psi_(merge|states|paths)(?=$| (?:FILE|NET|\.\.))")
# The most characters that a table may have beside one another.
MOST_WIDE = 64
BULLET = "\\(bu"
SOURCES = TOP / "release/package_files/man"
LIBRARY, SHARE = "/usr/lib/psi-sampler", "/usr/share/doc/psi-sampler"
# What `psi --help` prints: a part above the sections, and a section for each command.
HELP = TOP / "tools/command/help.txt"
FORMATS = "psi-file", "5", "network files, reports and certificates of psi(1)"
FILES = f"""`{SHARE}/examples`: the gallery of networks.

`{SHARE}`: README.md, and docs with the guides; docs/TOUR.md is a tour in nine steps.
"""
STATUS = """| Status | Means |
|---|---|
| 0 | The answer is written. |
| 1 | None of the streams is coupled, or work failed. |
| 2 | An argument or an input isn't what it should be. |
| 3, 11, 12 | As psi(1), where that doesn't take the network. |
| 6 | A file can't be read. |
| 7 | The answer can't be written, which is looked at before the work. |
| 8 | There isn't enough memory. |
| 130 | Ctrl-C ended it. |

Each but 0 has one line on standard error.
"""
# What a guide says of the sources alone; each has to stand there once.
BUILT = " It is built by `rt run` in `crates/psi_{0}`, as `crates/psi_{0}/out/psi_{0}`{1}."
CALLED = ", and called by `tools/psi-{}`"
OF_SOURCES = [BUILT.format(name, CALLED.format(name) * (name != "merge")) for name in ("merge", "states", "paths")]
# What the texts of options say of a checkout, and what of a package.
OF_OPTIONS = (
    ("the built program; crates/psi/out/psi, or psi on the PATH,", "the program psi; that on the PATH"),
    ("merge_reports.py", "a tool of Python"),
    ("psi_merge where it is built", "psi-merge where it is there"),
)
# What stands elsewhere in the package.
PLACES = (
    ("crates/psi/out/psi", "psi"),
    ("./psi", "psi"),
    ("tools/psi-", "psi-"),
    ("tools/setup", "apt-get"),
    ("tools/", f"{LIBRARY}/tools/"),
    ("examples/", f"{SHARE}/examples/"),
)


def escaped(text: str) -> str:
    """A text in which no character has a meaning for groff."""
    text = text.replace("\\", "\\e").replace("-", "\\-").replace("'", "\\(aq").replace("`", "\\(ga")
    text = text.replace("~", "\\(ti").replace("^", "\\(ha")
    return "".join(char if ord(char) < 128 else f"\\[u{ord(char):04X}]" for char in text)


def plain(text: str) -> str:
    """A text in sentences: a hyphen there isn't one of code, but in names of other pages."""
    pieces = enumerate(PAGE.split(text))
    return "".join(whole(piece) if place % 2 else escaped(piece).replace("\\-", "-") for place, piece in pieces)


def whole(code: str) -> str:
    """Code whose words aren't divided at the end of a line."""
    return " ".join(f"\\%{escaped(word)}" for word in code.split(" "))


def inline(text: str) -> str:
    """A text with its code, bold words, italics and links."""
    parts: list[str] = []
    end = 0
    for found in INLINE.finditer(text):
        code, bold, italic, link, target = found.groups()
        parts.append(plain(text[end : found.start()]))
        if code is not None:
            parts.append(f"\\fB{whole(of_package(code))}\\fP")
        elif bold is not None:
            parts.append(f"\\fB{inline(bold)}\\fP")
        elif italic is not None:
            parts.append(f"\\fI{plain(italic)}\\fP")
        else:
            far = f" <{escaped(target)}>" if "://" in target else ""
            parts.append(inline(of_package(link)) + far)
        end = found.end()
    return "".join(parts) + plain(text[end:])


def of_package(code: str) -> str:
    """Code as it is written where the package is installed."""
    code = PROGRAM.sub(r"psi-\1", code)
    for source, place in PLACES:
        code = code if place in code and source in place else code.replace(source, place)
    return code


def line_of(text: str) -> str:
    """A line that isn't a request of groff."""
    return "\\&" + text if text[:1] in (".", "'") else text


def blocks_of(lines: list[str]) -> Iterator[tuple[str, Any]]:
    """The blocks of some lines of Markdown: each is its kind and its content."""
    place = 0
    while place < len(lines):
        line, begin = lines[place], place
        item = ITEM.match(line)
        place += 1
        if not line.strip():
            continue
        if line.startswith("```"):
            place = lines.index("```", place) + 1
            yield "code", lines[begin + 1 : place - 1]
        elif line.startswith("#"):
            yield "heading", line
        elif item:
            width = len(item[0])
            while place < len(lines) and (lines[place].startswith(" " * width) or not lines[place].strip()):
                place += 1
            inner = [line[width:], *(one[width:] for one in lines[begin + 1 : place])]
            yield "item", (item[2], inner)
        elif line.startswith(("|", ">")):
            while place < len(lines) and lines[place].startswith(line[0]):
                place += 1
            if line[0] == "|":
                yield "table", lines[begin:place]
            else:
                yield "quote", [one[2:] for one in lines[begin:place]]
        else:
            while place < len(lines) and lines[place].strip() and not BLOCK.match(lines[place]):
                place += 1
            yield "text", " ".join(one.strip() for one in lines[begin:place])


def shown_width(cell: str) -> int:
    """How wide a cell is on a page."""
    return len(INLINE.sub(lambda found: next(filter(None, found.groups()), ""), cell))


def table(rows: list[str]) -> Iterator[str]:
    """A table: as one where it fits a page, else as a list of its first column's cells."""
    split = (re.split(r"(?<!\\)\|", row.strip().strip("|")) for row in rows[:1] + rows[2:])
    head, *cells = ([cell.strip() for cell in row] for row in split)
    columns = [*zip(head, *cells)]
    if len(head) > 2 and sum(max(map(shown_width, column)) + 3 for column in columns) <= MOST_WIDE:
        form = " ".join("l" for _ in head)
        yield from (".PP", ".TS", "allbox;", form.replace("l", "lb"), form + ".")
        yield from ("\t".join(map(inline, row)) for row in [head, *cells])
        yield ".TE"
        return
    for name, first, *rest in cells:
        yield from (".TP", line_of(inline(name)), line_of(inline(first)))
        for what, cell in zip(head[2:], rest):
            if cell:
                yield from (".br", line_of(f"{inline(what)}: {inline(cell)}"))


def rendered(lines: list[str]) -> Iterator[str]:
    """Lines of Markdown as lines of groff."""
    before = None
    for kind, found in blocks_of(lines):
        if kind == "heading":
            level = len(found) - len(found.lstrip("#"))
            yield f"{'.SH' if level <= 2 else '.SS'} {inline(found.lstrip('# '))}"
        elif kind == "text":
            if before not in (None, "heading"):
                yield ".PP"
            yield line_of(inline(found))
        elif kind == "code":
            yield from (".RS 4", ".EX") if before == "heading" else (".PP", ".RS 4", ".EX")
            yield from (line_of(escaped(of_package(line))) for line in found)
            yield from (".EE", ".RE")
        elif kind == "table":
            yield from table(found)
        elif kind == "quote":
            yield ".RS 4"
            yield from rendered(found)
            yield ".RE"
        else:
            mark, inner = found
            first, *rest = rendered(inner)
            yield from (f".IP {BULLET if mark == '-' else mark} 4", first)
            if rest:
                yield from (".RS 4", *rest, ".RE")
        before = kind


def options_text(command: str) -> str:
    """The options of a command, as a list."""
    reader = importlib.import_module(f"psi_tools.cli.{command}").parser()
    texts = {}
    for names, metavar, choices, text in options_of(reader):
        value = "" if metavar is None else f" {'|'.join(choices) if choices else metavar}"
        value = value.replace("text|csv|json", "FORMAT").replace("text|json", "FORMAT")
        for ours, theirs in OF_OPTIONS:
            text = text.replace(ours, theirs)
        texts[f"`{', '.join(names)}{value}`"] = text
    return listed("Option | Says", texts)


def listed(head: str, texts: Mapping[str, str]) -> str:
    """A table of two columns, which is a list on a page."""
    rows = [f"| {name} | {' '.join(text.split())} |" for name, text in texts.items()]
    return "\n".join([f"| {head} |", "|---|---|", *rows])


def kinds_text(command: str) -> str:
    """The kinds of a command's first word, as a list."""
    reader = importlib.import_module(f"psi_tools.cli.{command}").parser()
    return listed("Kind | Models", {f"`{kind}`": text for kind, (_, text) in kinds_of(reader).items()})


def help_block(heading: str) -> list[list[str]]:
    """The two columns of a block of the help text."""
    block = HELP.read_text().partition(f"\n{heading}:\n")[2].partition("\n\n")[0]
    return [re.split("  +", line.strip(), maxsplit=1) for line in block.splitlines()]


def synopsis_text() -> str:
    """The usage lines of psi."""
    lines = [f"psi {usage}" for usage, _ in help_block("Commands")]
    return "\n".join(["```", *lines, "psi help [COMMAND]", "psi --help | -h | --version", "```"])


def commands_text() -> str:
    """The help on each command of psi, as a list."""
    sections = re.split(r"^== (\w+)\n", HELP.read_text(), flags=re.M)
    texts = dict(zip(sections[1::2], sections[2::2]))
    names = (usage.split()[0] for usage, _ in help_block("Commands"))
    return listed("Command | What it does", {f"`{name}`": texts[name] for name in names})


def source_of(text: str) -> str:
    """A page's source with what its lines stand for."""
    made: dict[str, Callable[[str], str]] = {
        "options": options_text,
        "kinds": kinds_text,
        "files": lambda _: FILES,
        "status": lambda _: STATUS,
        "synopsis": lambda _: synopsis_text(),
        "commands": lambda _: commands_text(),
        "statuses": lambda _: listed("Status | Meaning", dict(help_block("Exit status"))),
    }
    return re.sub(r"^@(\w+)(?: (\w+))?$", lambda found: made[found[1]](found[2]), text, flags=re.M)


def page(name: str, section: str, about: str, date: str, body: str) -> str:
    """A page with its head."""
    head = f'.TH {escaped(name.upper())} {section} "{date}" "PSI" ""'
    title = f"{escaped(name)} \\- {plain(about)}"
    return "\n".join(["'\\\" t", head, ".nh", ".ad l", ".SH NAME", title, *rendered(body.split("\n"))]) + "\n"


def guide_of(text: str) -> str:
    """The guide without its title and what it says of the sources."""
    for phrase in OF_SOURCES:
        form = r"\s+".join(map(re.escape, phrase.split()))
        text, count = re.subn(r"\s+" + form, "", text)
        if count != 1:
            sys.exit(f"man_pages: docs/FORMATS.md doesn't say once:{phrase}")
    return text.partition("\n")[2]


def pages(top: pathlib.Path, date: str) -> Iterator[tuple[str, str]]:
    """All pages by their names."""
    for file in sorted((top / SOURCES.relative_to(TOP)).glob("*.md")):
        title, _, body = file.read_text().partition("\n")
        name, about = title.removeprefix("# ").split(": ", 1)
        section = file.stem.rpartition(".")[2]
        yield file.stem, page(name, section, about, date, source_of(body))
    guide = guide_of((top / "docs/FORMATS.md").read_text())
    name, section, about = FORMATS
    more = f"\n## FILES\n\n{FILES}\n## SEE ALSO\n\npsi(1), psi-merge(1), psi-where(1)\n"
    body = "## DESCRIPTION\n\n" + guide + more
    yield f"{name}.{section}", page(name, section, about, date, body)


def main() -> None:
    reader = argparse.ArgumentParser(prog="man_pages", description="Make the man pages of the package.")
    reader.add_argument("folder", type=pathlib.Path, metavar="FOLDER", help="where they are written")
    reader.add_argument("date", nargs="?", default="", metavar="DATE", help="the date at their feet")
    words = reader.parse_args()
    words.folder.mkdir(parents=True, exist_ok=True)
    for name, text in pages(TOP, words.date):
        (words.folder / name).write_text(text)


if __name__ == "__main__":
    main()
