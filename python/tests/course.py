"""The pages of docs/course as their tests read them, and their numbers, which can be changed one by one."""

from __future__ import annotations

import functools
import json
import re
import tomllib
from collections.abc import Callable, Iterator
from typing import Any

from conftest import TOP, ended

FOLDER, NOTEBOOK = TOP / "docs/course", TOP / "docs/psi-in-python.ipynb"
WORDS = "no one two three four five six seven eight nine ten eleven twelve".split()
SECTION = re.compile(r"^## (\d+)\. (.*)\n", re.M)
# What another number is written as, where it is a word.
OTHERS = dict(zip(WORDS[1:], [*WORDS[2:], "eleven"])) | {
    "third": "fourth",
    "fifth": "sixth",
    "tenth": "ninth",
    "millionth": "billionth",
}
# A number in figures or as a word; `one` is a number only before what is counted.
LISTED = "|".join(word for word in OTHERS if word != "one")
NUMBER = re.compile(rf"(?<![A-Za-z])\d+|[₀-₉]|\b(?:{LISTED})\b|\bone(?= (?:job|queue|state|step)\b)", re.I)
Answer = Callable[..., str]


def table(name: str) -> dict[str, Any]:
    """A file of the repository, as TOML."""
    return tomllib.loads((TOP / name).read_text())


def spaced(text: str) -> str:
    """A text with single spaces."""
    return " ".join(text.split())


def sections_of(text: str) -> dict[int, tuple[str, str]]:
    """The heading and the text of each numbered section, with single spaces; what stands above them has number 0."""
    first, *parts = SECTION.split(text)
    found = {int(number): (title, spaced(body)) for number, title, body in zip(parts[::3], parts[1::3], parts[2::3])}
    return {0: ("", spaced(first)), **found}


def expect(text: str, sentences: tuple[str, ...]) -> None:
    """A text has each of these sentences, once."""
    for sentence in sentences:
        assert text.count(sentence) == 1, sentence


def cells_of_notebook(kind: str) -> str:
    """The cells of the notebook of this kind, one after the other."""
    cells = json.loads(NOTEBOOK.read_text())["cells"]
    return "\n\n".join("".join(cell["source"]) for cell in cells if cell["cell_type"] == kind)


class Course:
    """The pages of the course, by their names, and the prose of the notebook."""

    def __init__(self, pages: dict[str, str]) -> None:
        self.pages = pages
        self.exercises, self.solutions = (sections_of(pages[name]) for name in ("exercises.md", "solutions.md"))

    @classmethod
    def read(cls) -> Course:
        """The course as it is stored."""
        pages = {path.name: path.read_text() for path in sorted(FOLDER.glob("*.md"))}
        return cls({**pages, NOTEBOOK.name: cells_of_notebook("markdown")})

    def changed(self, name: str, page: str) -> Course:
        """The course with another page of this name."""
        return Course({**self.pages, name: page})

    def asks(self, number: int, *sentences: str) -> None:
        """An exercise has each of these sentences, once."""
        expect(self.exercises[number][1], sentences)

    def solves(self, number: int, *sentences: str) -> None:
        """A solution has each of these sentences, once."""
        expect(self.solutions[number][1], sentences)

    def page_has(self, name: str, *sentences: str) -> None:
        """A page has each of these sentences, once."""
        expect(spaced(self.pages[name]), sentences)


def answers_of(program: str) -> Answer:
    """What psi prints for its arguments, on either output; each call is made once."""

    @functools.cache
    def answer(*words: object) -> str:
        _, out, error = ended([program, *words], cwd=TOP)
        return out + error

    return answer


def other_number(number: str) -> str:
    """Another number in the same form: its last digit is one more, or 0 after 9; a word is the next one."""
    word = OTHERS.get(number.lower())
    if word:
        return word.capitalize() if number[0].isupper() else word
    digits = "₀₁₂₃₄₅₆₇₈₉" if number in "₀₁₂₃₄₅₆₇₈₉" else "0123456789"
    return number[:-1] + digits[(digits.index(number[-1]) + 1) % 10]


def changes_of(page: str) -> Iterator[tuple[str, str]]:
    """Each number of a page, with its line, and the page with another number in its place."""
    for found in NUMBER.finditer(page):
        line = page.count("\n", 0, found.start()) + 1
        yield f"line {line}: {found[0]}", page[: found.start()] + other_number(found[0]) + page[found.end() :]
