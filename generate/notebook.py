"""python3 -m generate.notebook STORED EXECUTED [store]

Compares the outputs that a notebook is stored with and those of a run of it: the texts and tables of each
cell, and how many pictures it has. The pictures themselves are not compared, since other versions of
matplotlib and graphviz draw other ones. Each cell that differs is reported; the exit status is 1 where
there is one. With `store` the outputs of the run are stored instead.
"""

import json
import pathlib
import sys
from typing import Any


def text_of(value: str | list[str]) -> str:
    """A text that is stored as one or as its lines."""
    return value if isinstance(value, str) else "".join(value)


def is_picture(output: dict[str, Any]) -> bool:
    """Whether an output is a picture, beside which there may be a text that names it."""
    return any(kind.startswith("image/") for kind in output.get("data", {}))


def outputs_of(cell: dict[str, Any]) -> dict[str, Any]:
    """The texts of a cell's outputs by their kinds, and the number of its pictures; what is printed in several pieces
    is one text."""
    outputs = cell.get("outputs", [])
    found: dict[str, Any] = {"pictures": sum(map(is_picture, outputs))} if outputs else {}
    for output in outputs:
        texts = {output["name"]: output["text"]} if "text" in output else output.get("data", {})
        for kind, text in texts.items() if not is_picture(output) else ():
            found[kind] = found.get(kind, "") + text_of(text)
    return found


def store(path: pathlib.Path, stored: dict[str, Any], executed: dict[str, Any]) -> None:
    """Stores the outputs of a run, without its times, and without the texts that name pictures by a place in memory."""
    for cell, ran in zip(stored["cells"], executed["cells"]):
        if cell["cell_type"] == "code":
            cell["outputs"], cell["execution_count"] = ran["outputs"], ran["execution_count"]
            for output in filter(is_picture, cell["outputs"]):
                output["data"].pop("text/plain", None)
    path.write_text(json.dumps(stored, indent=1, ensure_ascii=False) + "\n")


def main(words: list[str]) -> int:
    if len(words) not in (2, 3) or words[2:] not in ([], ["store"]):
        print(__doc__, file=sys.stderr)
        return 2
    path = pathlib.Path(words[0])
    stored, executed = (json.loads(pathlib.Path(name).read_text()) for name in words[:2])
    if len(stored["cells"]) != len(executed["cells"]):
        print("notebook: the run has other cells")
        return 1
    if words[2:]:
        store(path, stored, executed)
        return 0
    cells = [(number, *pair) for number, pair in enumerate(zip(stored["cells"], executed["cells"]), 1)]
    wrong = [number for number, cell, ran in cells if outputs_of(cell) != outputs_of(ran)]
    for number in wrong:
        print(f"{path.name}: cell {number} is stored with other outputs than come now")
    compared = sum(bool(outputs_of(ran)) for _, _, ran in cells)
    print(f"{compared} cells with outputs, {len(wrong)} differ")
    return 1 if wrong or not compared else 0


if __name__ == "__main__":
    sys.exit(main(sys.argv[1:]))
