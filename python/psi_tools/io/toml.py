"""Reads TOML 1.1, with the line of each key and value, so that a message can name it.

Python's own reader knows TOML 1.0 alone, and keeps no lines. A table in braces may go over several
lines here, with a comma after its last entry; strings may have the escapes \\e and \\xHH.
"""

import re
from collections.abc import Iterator
from typing import Any, NoReturn

BARE = re.compile(r"[A-Za-z0-9_-]+")
BLANK, END = re.compile(r"[ \t]*"), re.compile(r"\r?\n")
DOT, EQUALS = re.compile(r"[ \t]*\.[ \t]*"), re.compile(r"[ \t]*=[ \t]*")
# Blanks with a comment, if there is one, up to the end of the line; and ends of lines that a backslash joins.
COMMENT, JOINED = re.compile(r"[ \t]*(?:#[^\n]*?(?=\r?(?:\n|\Z)))?"), re.compile(r"(?:[ \t]*\r?\n)+[ \t]*")
INTEGER = re.compile(
    r"[+-]?(?:0|[1-9](?:_?[0-9])*)|0x[0-9A-Fa-f](?:_?[0-9A-Fa-f])*|0o[0-7](?:_?[0-7])*|0b[01](?:_?[01])*"
)
# These two are seldom wanted, and take a while to be compiled.
FLOAT = r"[+-]?(?:inf|nan|(?:0|[1-9](?:_?[0-9])*)(?:\.[0-9](?:_?[0-9])*)?(?:[eE][+-]?[0-9](?:_?[0-9])*)?)"
TIME = r"([01][0-9]|2[0-3]):[0-5][0-9](:([0-5][0-9]|60)(\.[0-9]+)?)?"
DATE = r"[0-9]{4}-(0[1-9]|1[0-2])-(0[1-9]|[12][0-9]|3[01])"
MOMENT = rf"{DATE}([Tt ]{TIME}([Zz]|[+-]([01][0-9]|2[0-3]):[0-5][0-9])?)?|{TIME}"
WORD = re.compile(r"[A-Za-z0-9_+.:-]+")
ESCAPES = {"b": "\b", "t": "\t", "n": "\n", "f": "\f", "r": "\r", "e": "\x1b", '"': '"', "\\": "\\"}
DIGITS = {"x": 2, "u": 4, "U": 8}
# Arrays, tables in braces and keys with dots go so deep at most.
DEEPEST = 80
LEAST, GREATEST = -(2**63), 2**63 - 1
CONTROLS = re.compile("[\x00-\x08\x0b-\x1f\x7f]")


class TomlError(Exception):
    """A text is no TOML document: the line, counted from 1, and what is wrong there."""

    def __init__(self, line: int, what: str) -> None:
        super().__init__(f"line {line}: {what}")
        self.line, self.what = line, what


class Moment(str):
    """A date or a time, as it is written."""


class Table(dict[str, Any]):
    """A table: the line of its header or brace, and the line of each key."""

    def __init__(self, line: int, kind: str) -> None:
        super().__init__()
        self.line, self.kind = line, kind
        self.places: dict[str, int] = {}


class Array(list[Any]):
    """An array: the line where it begins, and the line of each value."""

    def __init__(self, line: int, of_tables: bool = False) -> None:
        super().__init__()
        self.line, self.of_tables = line, of_tables
        self.places: list[int] = []


def read(data: bytes) -> Table:
    """The table of a document, from its bytes."""
    try:
        text = data.decode()
    except UnicodeDecodeError as fault:
        line = data.count(b"\n", 0, fault.start) + 1
        raise TomlError(line, "a byte isn't UTF-8") from None
    return Reader(text.removeprefix("\ufeff")).document()


class Reader:
    """Reads a text from its beginning to its end."""

    def __init__(self, text: str) -> None:
        self.text, self.at, self.depth = text, 0, 0
        self.counted, self.lines = 0, 1

    def line(self, at: int | None = None) -> int:
        """The line of a place; what was counted before isn't counted again."""
        at = self.at if at is None else at
        if at < self.counted:
            return self.text.count("\n", 0, at) + 1
        self.lines += self.text.count("\n", self.counted, at)
        self.counted = at
        return self.lines

    def fail(self, what: str, at: int | None = None) -> NoReturn:
        raise TomlError(self.line(at), what)

    def peek(self, width: int = 1) -> str:
        return self.text[self.at : self.at + width]

    def take(self, form: re.Pattern[str]) -> re.Match[str] | None:
        found = form.match(self.text, self.at)
        if found:
            self.at = found.end()
        return found

    def skip(self) -> None:
        """Passes blanks, ends of lines and comments."""
        self.comment()
        while self.take(END):
            self.comment()

    def comment(self) -> None:
        """Passes blanks, and a comment if there is one."""
        found = self.take(COMMENT)
        if found and CONTROLS.search(found[0]):
            self.fail("a comment has a character that is not allowed there")

    def document(self) -> Table:
        """The table of the whole text."""
        root = Table(1, "header")
        here = root
        while True:
            self.skip()
            if self.at == len(self.text):
                return root
            if self.peek() == "[":
                here = self.header(root)
            else:
                self.pair(here)
            self.comment()
            if self.at < len(self.text) and not self.take(END):
                self.fail("more text follows on the line")

    def header(self, root: Table) -> Table:
        """The table that a header begins."""
        line, is_array = self.line(), self.peek(2) == "[["
        self.at += 1 + is_array
        self.take(BLANK)
        keys = self.keys()
        self.take(BLANK)
        if self.peek(1 + is_array) != "]" * (1 + is_array):
            self.fail(f"the header doesn't end with {']' * (1 + is_array)}")
        self.at += 1 + is_array
        return self.headed(self.below(root, keys[:-1], line, "implied"), keys[-1], line, is_array)

    def below(self, begin: Table, keys: list[str], line: int, kind: str) -> Table:
        """The table below a table that keys lead to; those that aren't there are made, and are of a kind."""
        table: Any = begin
        for key in keys:
            if key not in table:
                table[key], table.places[key] = Table(line, kind), line
            table = table[key]
            if type(table) is Array and table.of_tables and kind == "implied":
                table = table[-1]
            if type(table) is not Table or table.kind == "braces" or kind == "dotted" and table.kind != kind:
                raise TomlError(line, f"{key} is no table that can be extended")
        found: Table = table
        return found

    def headed(self, table: Table, key: str, line: int, is_array: bool) -> Table:
        """The table of a header in the table that it belongs to."""
        made = Table(line, "header")
        if is_array:
            if key not in table:
                table[key], table.places[key] = Array(line, True), line
            if type(table[key]) is not Array or not table[key].of_tables:
                raise TomlError(line, f"{key} is given a second time, and isn't an array of tables")
            table[key].append(made)
            table[key].places.append(line)
            return made
        if key not in table:
            table[key], table.places[key] = made, line
            return made
        if type(table[key]) is not Table or table[key].kind != "implied":
            raise TomlError(line, f"{key} is given a second time")
        found: Table = table[key]
        found.kind, found.line = "header", line
        return found

    def keys(self) -> list[str]:
        """A key, as its parts between dots."""
        found = [self.key()]
        while self.take(DOT):
            found.append(self.key())
        if len(found) > DEEPEST:
            self.fail("the key has too many parts")
        return found

    def key(self) -> str:
        """One part of a key."""
        if self.peek() in ("'", '"') and self.peek():
            if self.peek(3) in ("'''", '"""'):
                self.fail("a key can't be a text of several lines")
            return self.string()
        bare = self.take(BARE)
        if not bare:
            self.fail("a key is expected here")
        return bare[0]

    def pair(self, table: Table) -> None:
        """A key and its value, taken into a table."""
        line = self.line()
        keys = self.keys()
        if not self.take(EQUALS):
            self.fail("`=` is expected after a key")
        value = self.value()
        table = self.below(table, keys[:-1], line, "dotted")
        if keys[-1] in table:
            raise TomlError(line, f"{keys[-1]} is given a second time")
        table[keys[-1]], table.places[keys[-1]] = value, line

    def value(self) -> Any:
        """A value of any type."""
        char = self.peek()
        if char in ('"', "'") and char:
            return self.string()
        if char in ("[", "{") and char:
            self.depth += 1
            if self.depth > DEEPEST:
                self.fail("the value is nested too deep")
            found = self.array() if char == "[" else self.braces()
            self.depth -= 1
            return found
        return self.plain()

    def plain(self) -> bool | int | float | str:
        """A number, a truth value or a moment."""
        word = WORD.match(self.text, self.at)
        text = word[0] if word else ""
        if INTEGER.fullmatch(text):
            number = int(text.replace("_", ""), 0 if text[:2] in ("0x", "0o", "0b") else 10)
            if not LEAST <= number <= GREATEST:
                self.fail("the number has more than 64 bits")
            self.at += len(text)
            return number
        moment = re.compile(MOMENT).match(self.text, self.at)
        if moment and len(moment[0]) >= len(text):
            self.at = moment.end()
            return Moment(moment[0])
        if not text:
            self.fail("a value is expected here")
        begin, self.at = self.at, self.at + len(text)
        if text in ("true", "false"):
            return text == "true"
        if re.fullmatch(FLOAT, text):
            return float(text.replace("_", ""))
        self.fail(f"{text} is no value; a string needs quotes", begin)

    def array(self) -> Array:
        found = Array(self.line())
        for _ in self.items("an array", "]"):
            found.places.append(self.line())
            found.append(self.value())
        return found

    def braces(self) -> Table:
        found = Table(self.line(), "dotted")
        for _ in self.items("a table in braces", "}"):
            self.pair(found)
        seal(found)
        return found

    def items(self, what: str, close: str) -> Iterator[None]:
        """Stops at each item between brackets, for the caller to pass it."""
        self.at += 1
        self.skip()
        while self.peek() != close:
            yield
            self.skip()
            if self.peek() == ",":
                self.at += 1
                self.skip()
            elif self.peek() != close:
                self.fail(f"in {what} `,` or `{close}` is expected here")
        self.at += 1

    def string(self) -> str:
        """A text in quotes of any of the four forms."""
        quote, begin = self.peek(), self.at
        is_long = self.peek(3) == quote * 3
        # A long text may end with one or two quotes.
        closing = re.compile(quote + "{3,5}" if is_long else quote)
        self.at += 3 if is_long else 1
        if is_long:
            self.take(END)
        parts: list[str] = []
        while self.at < len(self.text):
            char = self.peek()
            if char == quote and (end := self.take(closing)):
                return "".join(parts) + end[0][3:]
            if char == "\\" and quote == '"':
                parts.append(self.escaped(is_long))
                continue
            if char in "\r\n" and not is_long:
                self.fail("the text in quotes doesn't end on its line")
            is_end = char == "\r" and self.peek(2) == "\r\n"
            if CONTROLS.match(char) and not is_end:
                self.fail("the text in quotes has a character that is not allowed there")
            parts.append(char)
            self.at += 1
        self.fail("the text in quotes doesn't end", begin)

    def escaped(self, is_long: bool) -> str:
        """What an escape stands for."""
        begin = self.at
        self.at += 1
        char = self.peek()
        self.at += 1
        if char in ESCAPES and char:
            return ESCAPES[char]
        if char in DIGITS and char:
            digits = self.peek(DIGITS[char])
            self.at += DIGITS[char]
            code = int(digits, 16) if re.fullmatch(r"[0-9A-Fa-f]+", digits) else -1
            if len(digits) == DIGITS[char] and 0 <= code < 0x110000 and not 0xD800 <= code < 0xE000:
                return chr(code)
        self.at = begin + 1
        if is_long and self.take(JOINED):
            return ""
        self.fail("a backslash begins an unknown escape", begin)


def seal(table: Table) -> None:
    """A table in braces can't be gone on with, nor can those in it."""
    table.kind = "braces"
    for value in table.values():
        if type(value) is Table and value.kind == "dotted":
            seal(value)
