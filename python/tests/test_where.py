"""psi-where: the line of each faulty file, and the guide's sentences."""

import re
from collections.abc import Iterator
from pathlib import Path

import pytest
from conftest import TOP, Tool, example, out_of
from generate import case_files

from psi_tools.model.refusals import REFUSED, SENTENCES, found_in

HEAD = 'version = 2\n[[queue]]\nname = "a"\ncapacity = 3\n[[queue]]\nname = "b"\ncapacity = 5\n'
EVENT, TO = '[[event]]\nname = "in"\nkind = "arrival"\nrate = 1\n', 'to = ["a"]\n'
ROWS = 'to = ["a", "b"]\ntable = [\n  [0, 1, 2],\n  [0, 1, 2],\n]\n'
NET = HEAD + EVENT + TO


def changed(*texts: str) -> str:
    """The network with other texts: each old one, and after it the new one."""
    net = NET
    for old, new in zip(texts[::2], texts[1::2]):
        assert old in net
        net = net.replace(old, new)
    return net


def guarded(part: str) -> str:
    """The network with a guarded event of these parts."""
    return changed("arrival", "guarded", TO, part)


# The text, the line that is refused, and what is printed of the value, where that is compared.
FAULTS = {
    "unknown queue": (changed(TO, 'to = [\n  "a",\n  "c",\n]\n'), 14, ""),
    "repeated": (changed(TO, 'to = [\n  "a",\n  "b",\n  "a",\n]\n'), 15, ""),
    "misspelt key": (changed(TO, 'two = ["a"]\n'), 12, ""),
    "missing key": (HEAD + EVENT, 8, ""),
    "same name": (NET + EVENT + 'to = ["b"]\n', 14, ""),
    "late key": (NET + "limit = 20\n", 13, ""),
    "syntax": (changed(TO, 'to = ["a"\n[[event]]\n'), 13, ""),
    "no quotes": (changed('"b"', "b"), 6, ""),
    "part": (guarded('[[event.part]]\nqueue = "a"\n[[event.part]]\nqueue = "b"\nleast = 6\n'), 16, ""),
    "guard": (guarded('part = [\n  { queue = "a" },\n  { queue = "b", least = 4,\n    most = 2 },\n]\n'), 14, ""),
    "no events": ("version = 1\n[[queue]]\nname = 'a'\ncapacity = 1\n", 1, ""),
    "capacity": (changed("capacity = 5", "capacity = 100000"), 7, "capacity is 100000; at most 65535"),
    "no capacity": (changed("capacity = 5", "capacity = 0"), 7, "capacity is 0; at least 1"),
    "servers": (changed("capacity = 5", "capacity = 5\nservers = 6"), 8, "servers is 6; at most 5"),
    "limit": ("limit = 23\n" + NET, 1, "limit is 23; at most 22"),
    "limit of version 1": ("limit = 21\n" + changed("version = 2", "version = 1"), 1, "limit is 21; at most 20"),
    "rate": (changed("rate = 1", "rate = 1048577"), 11, "rate is 1048577; at most 1048576"),
    "size": (changed("arrival", "batch") + "size = 4\n", 13, "size is 4; a has room for 3"),
    "least": (guarded('part = [\n  { queue = "a" },\n  { queue = "b", least = 6 },\n]\n'), 14, "least is 6; at most 5"),
    "most": (
        guarded('part = [\n  { queue = "b", least = 4,\n    most = 2 },\n]\n'),
        13,
        "least is 4; at most 2, as most is",
    ),
    "row": (changed("arrival", "index", TO, ROWS), 15, "the row of b has the length 3; 5 is wanted"),
    "row of j": (changed('"in"', '"j"', "arrival", "index", TO, ROWS), 15, ""),
    "queue": (changed('"b"', '"desk"', TO, 'to = [\n  "desc",\n]\n'), 13, "desc is no queue; did you mean desk?"),
    "kind": (changed("arrival", "arival"), 10, "kind is arival; did you mean arrival?"),
    "kind of a reward": (
        NET + '[[reward]]\nkind = "linaer"\nname = "r"\nqueues = ["a"]\nweights = [1]\n',
        14,
        "kind is linaer; did you mean linear?",
    ),
    "key": (changed("capacity = 5", "capasity = 5"), 7, "did you mean capacity?"),
    "the key kind": (changed("kind", "knid"), 10, "knid stands there; did you mean kind?"),
    "the key version": ("# first\n" + changed("version", "verison"), 2, "verison stands there; did you mean version?"),
    "version": (changed("version = 2", "version = 3"), 1, "version is 3"),
    "guarded": (
        guarded('part = [{ queue = "a" }]\n').replace("version = 2", "version = 1"),
        10,
        "guarded is a kind of version 2",
    ),
    "full": (changed("arrival", "service", TO, 'from = "a"\nfull = "lots"\n'), 13, "full is lots; did you mean lost?"),
    "total": (
        HEAD + "".join(EVENT.replace('"in"', f'"in-{k}"').replace("= 1", "= 1048576") + TO for k in range(17)),
        91,
        "the rates up to this event are 17825792; at most 16777216",
    ),
    "a queue's name": (
        changed('"b"', '"my desk"'),
        6,
        "name has 7 characters; 1 to 32 letters, digits, _ and - make a name",
    ),
}


@pytest.mark.parametrize("name", FAULTS)
def test_the_line_of_a_fault_its_value_and_what_was_meant(tool: Tool, tmp_path: Path, name: str) -> None:
    text, line, printed = FAULTS[name]
    (tmp_path / "net.toml").write_text(text)
    status, out, error = tool("psi-where", "net.toml")
    assert (status, error) == (3, "")
    first, *values, sentence = out.splitlines()
    assert first == f"net.toml:{line}: {text.splitlines()[line - 1].strip()}"
    assert sentence in SENTENCES.values()
    if printed:
        assert len(values) == 1 and (f"{printed})" in values[0] or f"{printed};" in values[0]), out


def test_a_network_that_is_taken(tool: Tool) -> None:
    assert out_of(tool("psi-where", example("first"))).endswith("first.toml: psi accepts it\n")


def test_the_sentences_are_the_guides() -> None:
    guide = (TOP / "docs/FORMATS.md").read_text()
    items = re.findall(r"^- \*\*\d+ `(\w+)`\*\*: (.*?)(?=^- \*\*|^\(17)", guide, re.M | re.S)
    found = {name: " ".join(text.split()) for name, text in items}
    assert {name: text[:1].lower() + text[1:] for name, text in SENTENCES.items()} == {
        name: text[:1].lower() + text[1:] for name, text in found.items()
    }


def faulty_cases() -> Iterator[tuple[bytes, str]]:
    """The bytes of each network that the cases refuse, and psi's line on it."""
    for file in sorted(case_files.DATA.glob("*.cases")):
        for case in case_files.cases(file.name):
            printed = case.err.decode().strip()
            # Where standard error takes no more, a case has a front of the line.
            if REFUSED.fullmatch(printed) and case.words[1] in case.files:
                yield case.files[case.words[1]], printed


@pytest.mark.slow
def test_every_faulty_file_of_the_cases_has_its_line() -> None:
    many, without = 0, []
    for data, line in faulty_cases():
        found = found_in(data, line)
        many += 1
        if found["line"] is None:
            without.append(line)
        else:
            assert 1 <= found["line"] <= data.count(b"\n") + 1
    assert many > 40
    assert without == []
