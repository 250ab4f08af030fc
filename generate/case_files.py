"""Reads and writes case files; crates/psi_test_cases/src/reader.rt describes their form.

A text that comes more than once in a file of cases stands there once, under a name, and so does a
table of a network: `shared` writes so what `case` has written.
"""

import collections
import itertools
import pathlib
import re
import sys
import textwrap
from collections.abc import Callable, Iterable, Iterator, Mapping, Sequence

DATA = pathlib.Path(__file__).resolve().parent.parent / "crates/psi_test_cases/data"
# The lines of a text.
Lines = tuple[bytes, ...]
# One or two bytes that stand at least 256 times in a row.
REPEATED = re.compile(rb"([^\n]{1,2}?)\1{255,}")
# A line of a text in a case.
TEXT = re.compile(rb"[|\\]|repeat ")
# The first line of a part of a network: a table, the list of events, or one entry of a list.
PART = re.compile(rb"\|(?:\[\[|event = \[|    \{)")
# The letter with which the name of a text begins, by its first line.
LETTERS = (
    (re.compile(rb"\|\[\[queue|\|    \{name = \"\w\","), "q"),
    (re.compile(rb"\|\[\[event\]|\|    \{|\|event = "), "e"),
    (re.compile(rb"\|\[\[reward"), "r"),
    (re.compile(rb"\|version = "), "n"),
    (re.compile(rb"\|psi-log "), "l"),
)
# A text that is no network and has fewer bytes stands where it is read; a line with names has at
# most that many.
SHORT, WIDTH = 64, 100


class Case:
    """A call of the program and what it must do: `words`, `files` by name, `status`, `out`, `err`,
    and `limits`, the numbers of each other key.
    """

    def __init__(self, name: str) -> None:
        self.name, self.status, self.out, self.err = name, 0, b"", b""
        self.words: list[str] = []
        self.files: dict[str, bytes] = {}
        self.limits: dict[str, list[int]] = {}
        self._part = "", ""

    def take(self, key: str, value: str) -> None:
        """Does what a line with a key says."""
        self._part = (key, value)
        if key == "word":
            self.words.append(value)
        elif key == "file":
            self.files[value] = b""
        elif key == "status":
            self.status = int(value)
        elif key not in ("out", "err"):
            self.limits.setdefault(key, []).append(int(value))

    def add(self, text: bytes) -> None:
        """Adds bytes to the word, file or text that was named last."""
        key, value = self._part
        if key == "word":
            self.words[-1] += text.decode()
        elif key == "file":
            self.files[value] += text
        else:
            setattr(self, key, getattr(self, key) + text)


class Texts:
    """The named texts of a file, and what the lines of a text stand for."""

    def __init__(self) -> None:
        self.named: dict[str, bytes] = {}
        self._last = ""

    def begin(self, name: str) -> None:
        """Begins a text of this name."""
        self.named[name], self._last = b"", name

    def add(self, text: bytes) -> None:
        """Adds bytes to the text that was named last."""
        self.named[self._last] += text

    def of(self, line: bytes) -> bytes | None:
        """The bytes that a line of a text stands for; none where it is another line."""
        if line[:1] == b"|":
            return line[1:] + b"\n"
        if line[:1] == b"\\":
            return line[1:]
        key, _, value = line.partition(b" ")
        if key == b"use":
            return b"".join(self.named[name] for name in value.decode().split(" "))
        if key in (b"repeat", b"front"):
            count, rest = value.split(b" ", 1)
            is_front = key == b"front"
            return self.named[rest.decode()][: int(count)] if is_front else int(count) * rest
        return None


def cases_of(data: bytes) -> Iterator[Case]:
    """The cases of the bytes of a file, one by one."""
    texts, case = Texts(), Case("")
    for line in data.split(b"\n"):
        text = texts.of(line)
        if text is not None:
            if case.name:
                case.add(text)
            else:
                texts.add(text)
        elif line == b"end":
            yield case
            case = Case("")
        elif line:
            key, _, value = line.decode().partition(" ")
            if key == "case":
                case = Case(value)
            elif key == "let":
                texts.begin(value)
            else:
                case.take(key, value)


def cases(file: str) -> Iterator[Case]:
    """The cases of a file of crates/psi_test_cases/data, one by one."""
    return cases_of((DATA / file).read_bytes())


def _plain(data: bytes) -> list[bytes]:
    """The lines that stand for some bytes, one by one."""
    *whole, last = data.split(b"\n")
    lines = [b"|" + line for line in whole]
    return lines + [b"\\" + last] if last else lines


def _text(data: bytes) -> list[bytes]:
    """The lines that stand for some bytes; what stands many times in a row is counted."""
    lines: list[bytes] = []
    at = 0
    for run in REPEATED.finditer(data):
        count = len(run[0]) // len(run[1])
        lines += [*_plain(data[at : run.start()]), b"repeat %d %s" % (count, run[1])]
        at = run.end()
    return lines + _plain(data[at:])


def case(
    name: str,
    words: Iterable[str],
    files: Mapping[str, bytes],
    status: int,
    out: bytes = b"",
    err: bytes = b"",
    **limits: int,
) -> bytes:
    """The bytes of a case. `files` are bytes by name; `limits` are those of the form, as `room`."""
    lines = [b"case " + name.encode()]
    for word in words:
        lines += [b"word", *_text(word.encode())] if "\n" in word else [f"word {word}".encode() if word else b"word"]
    for file, data in files.items():
        lines += [b"file " + file.encode(), *_text(data)]
    lines += [b"%s %d" % (key.encode(), number) for key, number in limits.items()]
    lines.append(b"status %d" % status)
    for key, data in ((b"out", out), (b"err", err)):
        if data:
            lines += [key, *_text(data)]
    return b"\n".join([*lines, b"end", b"", b""])


def _size(lines: Iterable[bytes]) -> int:
    return sum(len(line) + 1 for line in lines)


def _is_worth(lines: Lines, count: int) -> bool:
    """Whether lines that come so often are shorter under a name, of five bytes."""
    is_long = _size(lines) >= SHORT or any(form.match(lines[0]) for form, _ in LETTERS)
    return is_long and (count - 1) * _size(lines) > 10 + 6 * count


def _parts(lines: Lines) -> list[Lines]:
    """The parts of a text, each its lines: those of a network, or the whole."""
    begins = [place for place, line in enumerate(lines) if PART.match(line)]
    ends = [0, *begins, len(lines)]
    return [tuple(lines[at:to]) for at, to in zip(ends, ends[1:]) if at < to]


def _longer(texts: Mapping[Lines, bytes]) -> dict[Lines, Lines]:
    """For each text that begins another one, the longest that it begins."""
    found: dict[Lines, Lines] = {}
    inner = sorted(texts, key=lambda lines: texts[lines])
    for lines, other in zip(reversed(inner[:-1]), reversed(inner[1:])):
        longest = found.get(other, other)
        if texts[longest].startswith(texts[lines]):
            found[lines] = longest
        elif texts[other].startswith(texts[lines]):
            found[lines] = other
    return found


class _Shared:
    """The names of the texts of a file of cases, and the file so far."""

    def __init__(self, blocks: Sequence[Lines]) -> None:
        self.written: list[bytes] = []
        self.names: dict[Lines, bytes] = {}
        self.numbers: collections.Counter[str] = collections.Counter()
        wholes = collections.Counter(block for block in blocks if TEXT.match(block[0]))
        plain = Texts()
        self.bytes = {lines: b"".join(plain.of(line) or b"" for line in lines) for lines in wholes}
        again = {lines for lines, count in wholes.items() if _is_worth(lines, count)}
        self.longer = {
            lines: other for lines, other in _longer(self.bytes).items() if lines not in again and _size(lines) >= SHORT
        }
        self.again = again.union(self.longer.values())
        kept = (lines for lines in wholes if lines not in self.longer)
        self.parts = collections.Counter(part for lines in kept for part in _parts(lines))

    def name(self, lines: Lines, body: Callable[[Lines], list[bytes]]) -> bytes:
        """The name of a text, which is written now where it has none yet."""
        if lines not in self.names:
            letter = next((one for form, one in LETTERS if form.match(lines[0])), "t")
            written = body(lines)
            self.numbers[letter] += 1
            self.names[lines] = b"%s%d" % (letter.encode(), self.numbers[letter])
            self.written += [b"let " + self.names[lines], *written]
        return self.names[lines]

    def of_parts(self, lines: Lines) -> list[bytes]:
        """A text by its parts: the names of those that come again, and the lines of the others."""
        result: list[bytes] = []
        names: list[bytes] = []
        for part in _parts(lines):
            if part != lines and _is_worth(part, self.parts[part]):
                names.append(self.name(part, list))
                continue
            result += [*_used(names), *part]
            names = []
        return result + _used(names)

    def text(self, lines: Lines) -> list[bytes]:
        """The lines that stand for a text in a case."""
        if lines in self.longer:
            longer = self.name(self.longer[lines], self.of_parts)
            return [b"front %d %s" % (len(self.bytes[lines]), longer)]
        if lines in self.again:
            return [b"use " + self.name(lines, self.of_parts)]
        return self.of_parts(lines)


def _used(names: Iterable[bytes]) -> list[bytes]:
    """The lines that put these names."""
    return [b"use " + line.encode() for line in textwrap.wrap(b" ".join(names).decode(), WIDTH - len("use "))]


def _blocks(lines: Iterable[bytes]) -> Iterator[Lines]:
    """Lines, those of one text together."""
    for is_text, some in itertools.groupby(lines, key=lambda line: bool(TEXT.match(line))):
        yield from [tuple(some)] if is_text else ((line,) for line in some)


def shared(data: bytes) -> bytes:
    """The same cases, in which what comes again stands once, before the first case that has it."""
    blocks = [*_blocks(data.removesuffix(b"\n").split(b"\n"))]
    file = _Shared(blocks)
    lines: list[bytes] = []
    for block in blocks:
        if block[0]:
            lines += file.text(block) if TEXT.match(block[0]) else block
        if lines[-1:] == [b"end"]:
            file.written += [*lines, b""]
            lines = []
    return b"\n".join([*file.written, b""])


def write(cases: Iterable[bytes]) -> None:
    """Writes the file of some cases, each its bytes, to standard output."""
    sys.stdout.buffer.write(shared(b"".join(cases)))
