"""The reader of TOML beside Python's own, `tomllib`: cases restated from the suite of toml-test, thousands of random
documents, whole ones and ones with a change somewhere; what Python's doesn't read, and the lines of faults."""

import math
import random
import tomllib
from typing import Any

import pytest
from conftest import ALONE, TOP

from psi_tools.io import toml
from psi_tools.model.networks import Network, plain

FAULTS = {
    "a = 1\nb = \n": 2,
    "a = 1\na = 2\n": 2,
    "[a]\n[b]\n[a]\n": 3,
    "x = 'abc\n": 1,
    "a = [1, 2\nb = 3\n": 2,
    "a = 99999999999999999999\n": 1,
    "a = 1\n\n= 3\n": 3,
    "a = { b = 1\nc = 2 }\n": 2,
    'a = "\\q"\n': 1,
    "a.b = 1\na.b.c = 2\n": 2,
    "[[a]]\n[a]\n": 2,
    "a = 1 b = 2\n": 1,
    "a = 1\nb = truth\n": 2,
    "a = " + "[" * 81 + "]" * 81 + "\n": 1,
    "a = 1\nb = '\udcff'\n": 2,
}
# What both readers refuse, by what it is about; texts have two blanks between.
REFUSED = {
    "arrays": "a = [1, 2  a = [1 2]  a = [,]  a = [1,,2]  a = 1]  [[a]  [[a.b]]\n[a]\nb = 1  a = []\n[[a]]",
    "braces": "a = {b = 1  a = {b = 1, b = 2}  a = {}\n[a.b]  a = {b = 1}\na.c = 2  a = {b.c = 1, b = 2}",
    "comments": "a = 1 # \x00  # \x1f  a = 1 // no",
    "control characters": 'a = "\x00"  a = \'\x08\'  a = """\x7f"""  a = 1\x0b',
    "dates": "a = 2020-13-01  a = 2020-01-32  a = 2020-1-1  a = 25:00:00  a = 10:60:00  a = 2020-01-01T",
    "floats": "a = 1.  a = .5  a = 1e  a = 1_.5  a = 1._5  a = 03.1  a = infinity  a = 1e_3  a = +-1.0",
    "integers": "a = 01  a = 1__2  a = _1  a = 1_  a = 0x  a = 0xG  a = 0b2  a = 0o8  a = +0x1  a = 1a",
    "keys": '= 1  a  a =  a b = 1  a = 1\na = 2  a.b = 1\na = 2  a = 1\na.b = 2  """a""" = 1  a. = 1  .a = 1',
    "lines": "a = 1 b = 2  [a] b = 1  a = 1\r  [a]]  a = \n1",
    "strings": 'a = "  a = \'  a = "x\ny"  a = \'x\ny\'  a = "\\q"  '
    'a = "\\uD800"  a = "\\U00110000"  a = """x  a = \'\'\'x',
    "tables": "[a]\n[a]  [a  []  [a.]  [a]\nb.c = 1\n[a.b]  [a.b]\n[a]\nb = 1  a = 1\n[a]",
    "truth values": "a = True  a = truer  a = false1",
}


@pytest.mark.skipif(ALONE, reason="the gallery stands beside this folder")
def test_the_gallery_is_read_as_by_python_and_as_it_is_written() -> None:
    files = sorted((TOP / "examples").glob("*.toml"))
    assert len(files) > 20
    for file in files:
        assert plain(toml.read(file.read_bytes())) == tomllib.loads(file.read_text())
        net = Network.read(file)
        again = Network.parse(net.toml())
        assert (again.heads, again.table) == (net.heads, net.table)


def test_what_version_1_1_has() -> None:
    text = 'a = { b = 1, # one\n  c = [2,\n 3],\n}\nd = "\\e\\x41\\u00e9"\ne = """\\\n   x"""\n'
    found = toml.read(text.encode())
    assert plain(found) == {"a": {"b": 1, "c": [2, 3]}, "d": "\x1bAé", "e": "x"}
    assert found.places == {"a": 1, "d": 5, "e": 6}
    assert found["a"].places == {"b": 1, "c": 2}
    assert found["a"]["c"].places == [2, 3]


@pytest.mark.parametrize("text", FAULTS)
def test_a_fault_has_its_line(text: str) -> None:
    with pytest.raises(toml.TomlError) as fault:
        toml.read(text.encode(errors="surrogateescape"))
    assert fault.value.line == FAULTS[text]


@pytest.mark.parametrize("text", [text for texts in REFUSED.values() for text in texts.split("  ")])
def test_what_is_refused(text: str) -> None:
    with pytest.raises(tomllib.TOMLDecodeError):
        tomllib.loads(text)
    with pytest.raises(toml.TomlError):
        toml.read(text.encode())


def comparable(value: Any) -> Any:
    """A value of either reader, which can be compared: moments as Python's own reads them."""
    if isinstance(value, dict):
        return {key: comparable(item) for key, item in value.items()}
    if isinstance(value, list):
        return [comparable(item) for item in value]
    if type(value) is str:
        # Ends of lines in a text may be kept or made one.
        value = value.replace("\r\n", "\n")
    if isinstance(value, toml.Moment):
        value = tomllib.loads(f"x = {value}")["x"]
    return ("nan",) if isinstance(value, float) and math.isnan(value) else (type(value), value)


def key_of(dice: random.Random) -> str:
    """A key: bare, in quotes, or with dots."""
    part = dice.choice(("a", "b", "c", "d-1", "_", "42", '"q r"', "'s.t'", '""', '"\\u00e9"'))
    return part if dice.random() < 0.8 else f"{part} . {dice.choice('abc')}"


def string_of(dice: random.Random) -> str:
    """A string of one of the four forms."""
    piece = "".join(dice.choices(("x", " ", "é", "#", "=", "[", "}", "1", "'"), k=dice.randrange(4)))
    escape = dice.choice(("", "\\n", "\\\\", '\\"', "\\u20ac", "\\U0001F600", "\\t"))
    return dice.choice(
        (
            f'"{piece}{escape}"',
            f'"""\n{piece}\n{escape}""',
            f'"""{piece} \\\n   {escape}"""',
            f'"""""{piece}"""',
            "'" + piece.replace("'", "") + "'",
            f"'''{piece.rstrip(chr(39))}\n'''",
        )
    )


def value_of(dice: random.Random, depth: int = 0) -> str:
    """A value of any type."""
    kind = dice.randrange(6 if depth > 2 else 8)
    if kind == 0:
        return dice.choice(("0", "-17", "+99", "1_000", "0xDEAD_beef", "0o755", "0b1_0", "9223372036854775807", "-0"))
    if kind == 1:
        return dice.choice(("1.5", "-0.0", "6.02e23", "1e-7", "3_0.1_5", "inf", "-inf", "nan", "+1E+2", "5e0_1"))
    if kind == 2:
        return dice.choice(("true", "false"))
    if kind == 3:
        day, time = dice.choice(("1979-05-27", "2000-02-29")), dice.choice(("07:32:00", "23:59:59.999"))
        return dice.choice((day, time, f"{day}T{time}", f"{day} {time}Z", f"{day}t{time}-07:00"))
    if kind < 6:
        return string_of(dice)
    if kind == 6:
        blank = dice.choice((" ", "\n", " # note\n  "))
        items = f",{blank}".join(value_of(dice, depth + 1) for _ in range(dice.randrange(4)))
        return f"[{blank}{items}{dice.choice(('', blank))}]"
    return "{" + ", ".join(f"{key_of(dice)} = {value_of(dice, 3)}" for _ in range(dice.randrange(3))) + "}"


def document_of(dice: random.Random) -> str:
    """A document, of which some are none."""
    lines = []
    for _ in range(dice.randrange(1, 9)):
        header = dice.choice(("[{}]", "[ {} ]", "[[{}]]")).format(key_of(dice))
        line = header if dice.random() < 0.25 else f"{key_of(dice)} = {value_of(dice)}"
        lines.append(line + dice.choice(("", "", "  # it", "\t")))
    text = dice.choice(("\n", "\n", "\r\n")).join([*lines, ""])
    if dice.random() < 0.5:
        place, sign = dice.randrange(len(text) + 1), dice.choice(("", *"\"'\n=[]{}_.0#\\,\r"))
        text = text[:place] + sign + text[place + dice.randrange(2) :]
    return text


def is_small(value: Any) -> bool:
    """Whether all whole numbers of a value have 64 bits."""
    if isinstance(value, dict):
        return all(map(is_small, value.values()))
    if isinstance(value, list):
        return all(map(is_small, value))
    return type(value) is not int or toml.LEAST <= value <= toml.GREATEST


def read_by(read: Any, text: str) -> Any:
    """What a reader makes of a text; none where it refuses it."""
    try:
        return read(text)
    except (tomllib.TOMLDecodeError, toml.TomlError, ValueError):
        return None


def test_random_documents() -> None:
    """What Python's reader takes is read alike; what it refuses is taken for what is new in TOML 1.1 alone: lines and
    a last comma in braces, escapes, and times without seconds."""
    dice, taken, refused = random.Random(1), 0, 0
    for _ in range(6_000):
        text = document_of(dice)
        wanted = read_by(tomllib.loads, text)
        found = read_by(lambda each: plain(toml.read(each.encode())), text)
        if wanted is not None and is_small(wanted):
            assert found is not None and comparable(found) == comparable(wanted), text
            taken += 1
        elif found is not None:
            assert any(new in text for new in ("{", "\\e", "\\x", ":")), text
        else:
            refused += 1
    assert taken > 1_500 and refused > 1_500, (taken, refused)
