"""Tries documents from a fresh clone of what is committed, by what they show and mark alone:

- A block of commands has to end as it should, and one that follows prose which ends with 'prints'
  is the text that the last command has printed; a last line `...` stands for further lines.
- A session of a terminal is a block whose first line begins with `$ `: each such line is a command,
  and what stands between it and the next one is what it prints.
- A block of TOML is saved where the prose above it ends with 'Save this as `NAME`'.
- A number that a comment `<!--=NAME-->` follows is what the command of this name prints, and one with
  `<!--=NAME WORD..-->` what it prints where `$1` and so on are these words. The commands stand in a
  comment at the end of the page: it begins with `<!-- numbers`, and has a line `NAME: COMMAND` for
  each; a line that is further in belongs to the one above.
- Pictures that are drawn are those of docs/pictures, byte by byte.
- Links lead to files and headings that are there.
"""

import os
import pathlib
import re
import shutil
import time
from collections.abc import Iterator

from tests.gallery import BLOCK, UNMET, is_shown, runs_of_session
from tests.support import TOP, Expectations, TextAnswer, answer, answer_as_text, beside, printed_by

DOCUMENTS = ("README.md", "SECURITY.md", "docs/START.md", "docs/LIMITS.md", "docs/TOUR.md", "examples/README.md")
COMMAND = re.compile(r"(?:\./psi|crates/psi/out/psi|tools/\S+|python3|for|rt) ")
SAVED = re.compile(r"Save this as `([\w-]+\.toml)`:\s*$")
SAYS_COMMAND = re.compile(r"`((?:rt|\./psi) [^`]*)` prints[^`]*$")
LINK = re.compile(r"\]\(([^)\s]+)\)")
DRAWS, WRITES = re.compile(r" -o (\S+\.svg)\b"), re.compile(r" (?:-o |>)(\w[\w.$-]*\.\w+)\b")
SHOWN = re.compile(r"!\[[^\]]*\]\((?:docs/)?pictures/([^)]*\.svg)\)")
# A number in figures or as a word, what may stand after it, and the name of its command.
MARKED = re.compile(r"(-?\d(?:[\d,.]*\d)?|\b[A-Za-z]+)((?: %|`|\*\*)*)<!--=([\w-]+)((?: [\w.,/-]+)*)-->")
MARK, NUMBERS = "<!--=", re.compile(r"^<!-- numbers\n(.*?)^-->$", re.M | re.S)
WORDS = "no one two three four five six seven eight nine ten eleven twelve".split()
# Commands that don't end with 0, but for those that print 'not coupled' or 'not constant'.
STATUSES = {"./psi exact examples/central-server.toml 0 0 11 >central.txt": 1}
# Lines that print the same where a number in them is another one.
ALIKE = "./psi sample examples/central-server.toml 0 0", "version = 1"
BUILT, SECONDS = "crates/psi/out/psi", 600

# A command, its status and both its texts.
Ran = tuple[str, int, str, str]


def commands_of(text: str) -> Iterator[str]:
    """The commands of a block, each with all of its lines."""
    lines: list[str] = []
    for line in text.splitlines():
        lines.append(line)
        command = "\n".join(lines)
        if answer(["sh", "-n", "-c", command], TOP)[0] == 0 and not line.endswith("\\"):
            yield command
            lines = []
    if lines:
        yield "\n".join(lines)


class Clone:
    """A fresh clone, and what its commands have printed."""

    def __init__(self, program: str, room: pathlib.Path) -> None:
        self.top = room / "psi"
        # Its path isn't one of this program's, so a tool can't use what stands beside.
        printed_by("git", "clone", "-q", TOP, self.top)
        self.answers: dict[str, list[Ran]] = {}
        others = ((name, beside(program, name)) for name in ("psi_states", "psi_paths"))
        for name, path in (("psi", program), *others):
            if path:
                built = self.top / "crates" / name / "out" / name
                built.parent.mkdir(parents=True)
                shutil.copy(path, built)
                os.utime(built, (time.time() + 1, time.time() + 1))

    def execute(self, command: str) -> TextAnswer:
        """The status of a command, and both its texts."""
        return answer_as_text(["sh", "-c", command], self.top, SECONDS)

    def answer(self, block: str) -> list[Ran]:
        """What a block's commands came to; each block runs once."""
        if block not in self.answers:
            self.answers[block] = [(one, *self.execute(one)) for one in commands_of(block)]
        return self.answers[block]

    def find(self, name: str) -> pathlib.Path:
        """The path of a file by the name that a document gives it."""
        return self.top / name

    def read(self, name: str) -> bytes:
        """What is in a file, which a command may have written."""
        return self.find(name).read_bytes()

    def save(self, name: str, text: str) -> None:
        """Saves a file. Where it changes, the commands that name it run again."""
        file = self.find(name)
        if not file.exists() or file.read_text() != text:
            file.write_text(text)
            for command in [command for command in self.answers if name in command]:
                del self.answers[command]


class Document:
    """A document: its blocks with the prose before each, and its prose with single spaces; and what is held of it."""

    def __init__(self, name: str, text: str, expect: Expectations) -> None:
        self.name, self.text, self.expect = name, text, expect
        self.blocks: list[tuple[str, str, str]] = []
        begin, prose = 0, ""
        for block in BLOCK.finditer(text):
            self.blocks.append((text[begin : block.start()], block[1], block[2]))
            prose += text[begin : block.start()] + "\n"
            begin = block.end()
        self.prose = " ".join(NUMBERS.sub("", prose + text[begin:]).split())

    def commands(self) -> list[str]:
        """The blocks of commands, and the commands of sessions."""
        found = []
        for _, kind, text in self.blocks:
            if not kind and COMMAND.match(text):
                found.append(text)
            found += [command for command, _ in runs_of_session(text)]
        return found


def ran(document: Document, clone: Clone, block: str) -> str:
    """Runs a block of commands; what the last one has printed."""
    out = ""
    for command, status, out, error in clone.answer(block):
        wanted = STATUSES.get(command, 1 if UNMET.search(out) else 0)
        document.expect(status == wanted, f"status {status} of {command}: {error}")
    return out


def compare(document: Document, shown: str, printed: str) -> None:
    """Compares a text that is shown with what was printed."""
    document.expect(is_shown(shown, printed), f"shown\n{shown}printed\n{printed}")


def try_blocks(document: Document, clone: Clone) -> None:
    """Saves files, runs the blocks of commands, and compares the texts."""
    printed = None
    for before, kind, text in document.blocks:
        saved = SAVED.search(before) if kind == "toml" else None
        document.expect(saved or not kind, f"a block of {kind}, which isn't tried")
        session = [*runs_of_session(text)]
        for command, shown in session:
            compare(document, shown, ran(document, clone, command))
        if saved:
            clone.save(saved[1], text)
        elif COMMAND.match(text):
            printed = ran(document, clone, text)
        elif not session:
            inline = SAYS_COMMAND.search(" ".join(before.split()))
            if inline:
                printed = clone.answer(inline[1])[-1][2]
            is_said = inline or before.rstrip(" :\n").endswith("prints")
            document.expect(is_said and printed is not None, f"no command prints the text:\n{text}")
            compare(document, text, printed or "")
            printed = None


def number_of(text: str) -> str:
    """A number in figures, without commas between thousands."""
    if text.lower() in WORDS:
        return str(WORDS.index(text.lower()))
    return text.replace(",", "") if re.fullmatch(r"-?\d{1,3}(,\d{3})+(\.\d+)?", text) else text


def try_numbers(document: Document, clone: Clone) -> None:
    """Compares each number that is marked with what its command prints."""
    found = NUMBERS.search(document.text)
    lines = re.sub(r"\n +", " ", found[1]).splitlines() if found else []
    commands = dict(line.split(": ", 1) for line in lines)
    marked = MARKED.findall(document.prose)
    count = document.prose.count(MARK)
    document.expect(len(marked) == count, f"of {count} marks {len(marked)} stand behind a number")
    unused = {*commands} - {name for _, _, name, _ in marked}
    document.expect(not unused, f"no number is marked by {unused}")
    for number, _, name, words in marked:
        document.expect(name in commands, f"no command is called {name}")
        _, status, out, error = clone.answer(f"set --{words}; {commands.get(name, 'false')}")[-1]
        same = status == 0 and number_of(out.strip()) == number_of(number)
        document.expect(same, f"{number} is marked by {name}{words}, which prints {out}{error}")


def try_pictures(document: Document, clone: Clone) -> None:
    """Compares the pictures that are drawn with those that are shown."""
    drawn = [name for block in document.commands() for name in DRAWS.findall(block)]
    pictures = SHOWN.findall(document.text)
    if drawn:
        document.expect(sorted(drawn) == sorted(pictures), f"drawn {drawn}, shown {pictures}")
    for name in drawn:
        if not clone.find(name).exists():
            document.expect(False, f"{name} isn't drawn")
            continue
        shown, made = (clone.read(path) for path in (f"docs/pictures/{name}", name))
        versions = [re.search(rb"Matplotlib v[\d.]+", data) for data in (shown, made)]
        if versions[0] and versions[1] and versions[0][0] != versions[1][0]:
            print(f"{document.name}: {name} isn't compared: drawn by {versions[1][0].decode()}")
        else:
            document.expect(shown == made, f"{name} isn't the picture in docs/pictures")


def anchor_of(heading: str) -> str:
    """The name of a heading in a link."""
    kept = "".join(char for char in heading.lower() if char.isalnum() or char in " -_")
    return kept.replace(" ", "-")


def try_links(document: Document, clone: Clone) -> None:
    """Links lead somewhere."""
    folder = clone.find(document.name).parent
    for target in LINK.findall(document.prose):
        path, _, anchor = target.partition("#")
        if "://" in target:
            continue
        file = folder / path if path else clone.find(document.name)
        document.expect(file.exists(), f"the link to {target} leads nowhere")
        if anchor and file.exists():
            headings = re.findall(r"^#+ (.*)$", file.read_text(), re.M)
            found = anchor in map(anchor_of, headings)
            document.expect(found, f"no heading is called as the link says: {target}")


def try_document(document: Document, clone: Clone, *, is_packed: bool = False) -> None:
    """Compares all of a document; where it is packed, what its numbers are made again by isn't there."""
    for part in (try_blocks, try_pictures, try_links, *(() if is_packed else (try_numbers,))):
        part(document, clone)


def changes_of(document: Document) -> Iterator[tuple[int, str, str]]:
    """Changes of a document, each a place, what stands there, and the block if it is in one: in each
    line of a block the last digit or letter, and the last digit of each number that is marked."""
    for block in BLOCK.finditer(document.text):
        begin = block.start(2)
        for line in block[2].splitlines(keepends=True):
            places = [place for place, char in enumerate(line) if char.isalnum()]
            if places and line.strip() not in ("...", *ALIKE):
                yield begin + places[-1], line.strip(), block[2]
            begin += len(line)
    for found in MARKED.finditer(document.text):
        yield found.end(1) - 1, found[0], ""


def changed(text: str, place: int) -> str:
    """A text with another digit or letter at a place."""
    char = text[place]
    other = str((int(char) + 1) % 10) if char.isdigit() else "q" if char != "q" else "k"
    return text[:place] + other + text[place + 1 :]


def unnoticed_changes(document: Document, clone: Clone) -> Iterator[str]:
    """Changes the document in one place after the other; gives the changes that aren't told."""
    for place, what, block in changes_of(document):
        for name in WRITES.findall(block):
            for written in clone.top.glob(re.sub(r"\$\w+", "*", name)):
                written.unlink()
        other = Document(document.name, changed(document.text, place), Expectations())
        try_document(other, clone)
        if not other.expect.wrong:
            line = document.text.count("\n", 0, place) + 1
            yield f"{document.name}: line {line}: a change of this isn't told: {what}"
        # The files that the block writes are again as they were.
        for command in commands_of(block) if COMMAND.match(block) else ():
            clone.execute(command)
