"""What the gallery and the guides show: runs, networks and logs, and whether they are what comes.

- each run in the comments of examples/*.toml: a line "`psi WORDS` prints", and after it the text,
  four columns in;
- each run in a guide: a block of one line `./psi WORDS`, prose that ends with 'prints', and a block
  with the text; or a session of a terminal, a block with lines `$ ./psi WORDS`, each with its text
  after it;
- each whole network in a guide, a block of TOML that begins with its version: `check` takes it;
- each log in a guide, a block that begins with `psi-log`: `replay` accepts it for the network above.

A run is made in the folder of its gallery file, or at the top, and must end with the status that its
text says. A text whose last line is `...` shows the first lines of what is printed.
"""

import pathlib
import re
import shlex
import tempfile
from collections.abc import Container, Iterator

from tests.support import EXAMPLES, TOP, answer, write

# Where a run is shown, its folder, its words, none where there is no run, and its text.
Run = tuple[pathlib.Path, pathlib.Path, list[str] | None, str]
SHOWN = re.compile(r"^# `psi ([^`]*)` prints\n#\n((?:#     .*\n)+)", re.M)
UNMET = re.compile(r"^(reward )?not (coupled|constant) within ", re.M)
BLOCK = re.compile(r"^```(\w*)\n(.*?)^```\n", re.M | re.S)


def runs_of_gallery() -> Iterator[Run]:
    """The runs in the comments of the gallery."""
    for file in sorted(EXAMPLES.glob("*.toml")):
        shown = SHOWN.findall(file.read_text())
        if not shown:
            yield file, file.parent, None, "no run in its comment"
        for words, text in shown:
            yield file, file.parent, shlex.split(words), text.replace("#     ", "")


def runs_of_session(text: str) -> Iterator[tuple[str, str]]:
    """The commands of a session of a terminal, each with the text that it prints; none where the
    block is no session."""
    if text.startswith("$ "):
        for part in re.split(r"^\$ ", text, flags=re.M)[1:]:
            command, _, printed = part.partition("\n")
            yield command, printed


def runs_of_document(file: pathlib.Path) -> Iterator[Run]:
    """The runs that a document shows."""
    text = file.read_text()
    blocks = list(BLOCK.finditer(text))
    for block, following in zip(blocks, [*blocks[1:], None]):
        for command, printed in runs_of_session(block[2]):
            if command.startswith("./psi "):
                yield file, TOP, shlex.split(command)[1:], printed
        first, _, rest = block[2].partition("\n")
        if first.startswith("./psi ") and not rest and following:
            if text[block.end() : following.start()].rstrip(" :\n").endswith("prints"):
                yield file, TOP, shlex.split(first)[1:], following[2]


def files_of_document(file: pathlib.Path) -> Iterator[tuple[pathlib.Path, list[str], dict[str, bytes]]]:
    """The whole networks and the logs that a document shows, each with the words that take it."""
    network = b""
    for block in BLOCK.finditer(file.read_text()):
        if block[1] == "toml" and block[2].startswith("version"):
            network = block[2].encode()
            yield file, ["check", "net.toml"], {"net.toml": network}
        if block[2].startswith("psi-log "):
            log = block[2].encode()
            yield file, ["replay", "net.toml", "log"], {"net.toml": network, "log": log}


def logs_of_formats() -> list[str]:
    """The logs that docs/FORMATS.md shows: one of a network of two queues, in version 2 and in version 1."""
    return [text for _, text in BLOCK.findall((TOP / "docs/FORMATS.md").read_text()) if text.startswith("psi-log ")]


def wanted_statuses(text: str) -> Container[int]:
    """The statuses with which a run may end that prints this text."""
    if text.startswith("psi: "):
        return range(2, 13)
    return (1,) if UNMET.search(text) else (0,)


def is_shown(text: str, printed: str) -> bool:
    """Whether a document that shows this text shows what is printed."""
    if not ("\n" + text).endswith("\n...\n"):
        return printed == text
    front = text.removesuffix("...\n")
    return printed.startswith(front) and len(printed) > len(front)


def fault_of_run(program: str, run: Run) -> str | None:
    """What is wrong with a run; none where it is as it is shown."""
    file, folder, words, text = run
    if words is None:
        return f"{file.relative_to(TOP)}: {text}"
    status, out, err = answer([program, *words], folder)
    printed = (out + err).decode("utf-8", "replace")
    if is_shown(text, printed) and status in wanted_statuses(text):
        return None
    what = f"{file.relative_to(TOP)}: psi {shlex.join(words)} (status {status})"
    return f"{what}\n--- shown\n{text}--- printed\n{printed}"


def faults_of_runs(program: str, *files: pathlib.Path) -> Iterator[str | None]:
    """For each run of some documents what is wrong with it, or none."""
    return (fault_of_run(program, run) for file in files for run in runs_of_document(file))


def faults_of_texts(program: str) -> Iterator[str | None]:
    """For each text of the gallery and the guides what is wrong with it, or none; README.md, docs/START.md and
    docs/TOUR.md are tried by test_documents.py."""
    files = sorted({*(TOP / "docs").glob("*.md")} - {TOP / "docs/START.md", TOP / "docs/TOUR.md"})
    yield from (fault_of_run(program, run) for run in runs_of_gallery())
    yield from faults_of_runs(program, *files)
    with tempfile.TemporaryDirectory() as room:
        for file, words, shown in (found for file in files for found in files_of_document(file)):
            write(room, shown)
            status, out, err = answer([program, *words], room)
            what = f"{file.relative_to(TOP)}: psi {shlex.join(words)} (status {status})"
            printed = (out + err).decode("utf-8", "replace")
            yield None if status == 0 else f"{what}\n{[*shown.values()][-1].decode()}{printed}"
