"""python3 -m gate.house_words

Counts in the pages that a newcomer reads first the words that this project's English avoids, and
prints each with its place and with what to write instead. The last line has the count; the exit
status is 1 where it is not 0.

Only prose counts: blocks and pieces of code, quotations, and the targets of links are left out,
since they show what a program prints or what stands elsewhere. The pages and the words are listed in
gate/house_words.txt. Each word has a sentence that it has to find; one that does not is reported as well.
"""

import bisect
import itertools
import re
import sys
from collections.abc import Iterator

from gate import TOP, run

LISTED = [line.split("\t") for line in (TOP / "gate/house_words.txt").read_text().splitlines() if line[:1] != "#"]
# The pages, each with the line before which its part ends, if not all of it counts.
PAGES = [(name, next(iter(end), None)) for kind, name, *end in LISTED if kind == "page"]
# What to avoid, what to write instead, and a sentence that has it.
WORDS = [words for kind, *words in LISTED if kind == "word"]
CODE = re.compile(r"^ *```.*?^ *```$|<!--.*?-->|^>[^\n]*$|^ {4}[^\n]*$", re.M | re.S)
INLINE = re.compile(r"`[^`]*`|\]\([^)]*\)")


def blank(found: re.Match[str]) -> str:
    """The spaces and line ends that stand for a piece that does not count."""
    return re.sub(r"[^\n]", " ", found[0])


def prose_of(text: str, end: str | None) -> str:
    """The prose of a page up to the line that begins so; every place stays where it is."""
    if end is not None:
        text, found, _ = text.partition(f"\n{end}")
        if not found:
            sys.exit(f"house_words: no line begins with {end}")
    return INLINE.sub(blank, CODE.sub(blank, text))


def found_in(prose: str) -> Iterator[tuple[int, str, str]]:
    """The words to avoid in a prose, each with its line and what to write instead. A phrase may go
    over the end of a line, so the words stand in one line, and `begins` has where each begins."""
    lines = enumerate(prose.splitlines(), 1)
    placed = [(line, word) for line, text in lines for word in text.split()]
    begins = [0, *itertools.accumulate(len(word) + 1 for _, word in placed)]
    joined = " ".join(word for _, word in placed)
    for form, instead, _ in WORDS:
        for found in re.finditer(form, joined, re.I):
            line = placed[bisect.bisect_right(begins, found.start()) - 1][0]
            yield line, found[0], instead


def faults() -> Iterator[str]:
    """The words to avoid, each with its place and what to write instead."""
    for form, _, shown in WORDS:
        if not re.search(form, shown, re.I):
            yield f"house_words: {form} does not find its own sentence"
    for name, end in PAGES:
        for line, word, instead in sorted(found_in(prose_of((TOP / name).read_text(), end))):
            yield f"{name}:{line}: '{word}': write {instead}"


if __name__ == "__main__":
    run(faults)
