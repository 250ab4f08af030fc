"""python3 -m generate.cases_from_json PATH [--commands check,sample] > FILE.cases

Writes cases whose answers come from elsewhere in the form that `psi_test_cases` reads. PATH is one of

- a file of JSON objects, one a line. An object has `name`, `words`, `files` (by name, each `{"text": ..}`, or
  `{"base64": ..}` where it isn't UTF-8), `status`, `out` and `err`;
- a folder whose subfolders are cases. A case is a folder with the files `words` (the words of the call, one a
  line), `status`, `out` and `err`; its other files are those that the call finds. A folder with a recipe
  `make.py` is copied, and the recipe run in the copy: it writes long files, or one such folder for each of
  several cases. A folder whose answer isn't told exactly (it has `out-begins` or `out-any` in place of `out`) is
  left out. The name of a case is the folder's, without a number in front.

With --commands only the cases of these commands are kept (`sample` with a fifth word is the command
`log`, and words that are no command are kept with any). A refused network of another command in a file
is asked for by `check` instead, which refuses it in the same line.
"""

import argparse
import base64
import json
import pathlib
import re
import shutil
import subprocess
import sys
import tempfile
from collections.abc import Collection, Iterator
from typing import Any

from generate.case_files import case, write

COMMANDS = "check sample log replay report trial couple reward exact closed".split()
REFUSED = 3
NO_COMMAND = 2
APART = {"words", "status", "out", "err", "since", "make.py"}


def command_of(words: list[str]) -> str | None:
    """The command that the words begin with, if it is one."""
    name = words[0] if words else None
    if name == "sample" and len(words) > 4:
        return "log"
    return name if name in COMMANDS else None


def words_of(entry: dict[str, Any], commands: Collection[str]) -> list[str] | None:
    """The words of a case among these commands, or none where it has no place there."""
    words: list[str] = entry["words"]
    command = command_of(words)
    if command is None or command in commands:
        return words
    if entry["status"] == NO_COMMAND and words[0] in commands:
        return words
    return ["check", words[1]] if entry["status"] == REFUSED else None


def cases_of_file(path: pathlib.Path, commands: Collection[str]) -> Iterator[bytes]:
    """The cases of these commands in a file."""
    with path.open(encoding="utf-8") as lines:
        for entry in map(json.loads, lines):
            words = words_of(entry, commands)
            if words is not None:
                files = {
                    name: file["text"].encode() if "text" in file else base64.b64decode(file["base64"])
                    for name, file in entry["files"].items()
                    if name in words
                }
                yield case(entry["name"], words, files, entry["status"], entry["out"].encode(), entry["err"].encode())


def cases_in(folder: pathlib.Path, room: pathlib.Path) -> dict[str, pathlib.Path]:
    """The cases of a folder, by their names: itself, or those that its recipe makes."""
    if not (folder / "make.py").exists():
        return {folder.name: folder}
    made = room / folder.name
    shutil.copytree(folder, made)
    subprocess.run([sys.executable, "make.py"], cwd=made, check=True)
    if (made / "words").exists():
        return {folder.name: made}
    return {f"{folder.name}-{part.name}": part for part in sorted(made.iterdir()) if part.is_dir()}


def written(name: str, folder: pathlib.Path, commands: Collection[str]) -> bytes:
    """The bytes of a case; none where it has no place among these commands."""
    words = (folder / "words").read_text().split("\n")[:-1]
    if command_of(words) not in (None, *commands) or not (folder / "out").exists():
        return b""
    files = {
        file.name: file.read_bytes()
        for file in sorted(folder.iterdir())
        if file.name not in APART and file.name in words
    }
    status = int((folder / "status").read_text())
    out, err = (folder / "out").read_bytes(), (folder / "err").read_bytes()
    return case(re.sub(r"^r(ow)?\d+[a-z]?-", "", name), words, files, status, out, err)


def cases_of_folder(path: pathlib.Path, commands: Collection[str]) -> Iterator[bytes]:
    """The cases of these commands in a folder."""
    with tempfile.TemporaryDirectory() as room:
        for folder in sorted(part for part in path.iterdir() if part.is_dir()):
            for name, part in cases_in(folder, pathlib.Path(room)).items():
                yield written(name, part, commands)


if __name__ == "__main__":
    parser = argparse.ArgumentParser(
        description="Writes the cases of a folder's subfolders, or of a file of JSON objects."
    )
    parser.add_argument("path", type=pathlib.Path)
    parser.add_argument("--commands", default=",".join(COMMANDS))
    options = parser.parse_args()
    cases_of = cases_of_folder if options.path.is_dir() else cases_of_file
    write(cases_of(options.path, options.commands.split(",")))
