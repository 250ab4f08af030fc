"""No word, file or full disk ends in a traceback: one line, and the right status. Each file of the cases that psi
refuses is refused so by every tool that reads networks."""

import concurrent.futures
import os
import re
import shutil
import signal
from collections.abc import Iterator, Sequence
from pathlib import Path

import pytest
from conftest import TOP, Tool, ended, example, limited, match_in

from generate import case_files
from psi_tools.cli import law, many, mean_values, page, plot, sweep, where, why
from psi_tools.cli.command import run
from psi_tools.cli.completion import SHELLS, completion
from psi_tools.cli.entry import NAMES
from psi_tools.errors import PsiError
from psi_tools.io.files import check_writable

NET = example("single-server")
# Of each command words that are right, with a place for a file.
RIGHT = {
    "many": ["{}", "0", "0", "20"],
    "plot": ["report", "{}", "-o", "p.svg"],
    "means": ["{}"],
    "law": ["{}", "desk", "--count", "20"],
    "sweep": ["{}", "desk.capacity=2,3", "--anyway", "--count", "20"],
    "where": ["{}"],
    "why": ["{}"],
    "page": ["{}", "0", "0", "-o", "p.html"],
}
NEW = "mm1k --arrival 1 --service 2 --places 3".split()


def side_by_side(tool: Tool, name: str, calls: Sequence[Sequence[object]]) -> list[tuple[int, str, str]]:
    """The answers of some calls of a tool, in their order."""
    with concurrent.futures.ThreadPoolExecutor(os.cpu_count()) as pool:
        return [*pool.map(lambda words: tool(name, *words), calls)]


def is_one_line(name: str, error: str) -> bool:
    return re.fullmatch(rf"psi-{name}: [^\n]+\n", error) is not None


def files(room: Path) -> list[str]:
    """Files that are no network and no report, each with what it has."""
    found = {
        "empty": b"",
        "binary": bytes(range(256)) * 40,
        "text": b"hello\n",
        "long": b"#" * 2**20 + b"\n",
        "nul": b"version = 1\0",
        "toml": b"queue = 5\n",
        "latin": "version = 1 # é".encode("latin-1"),
        "odd": b"[[queue]]\nqueue = [[[[[\n",
        "csv": b"item,name,value\n",
        "deep": b"a = " + b"[" * 5_000,
    }
    for name, data in found.items():
        (room / name).write_bytes(data)
    (room / "folder").mkdir()
    (room / "loop").symlink_to("loop")
    return [*found, "folder", "loop", "absent", "a" * 5_000, "with\nline", "folder/", "\udce9"]


@pytest.mark.parametrize("name", RIGHT)
def test_files_that_are_not_what_they_should_be(tool: Tool, tmp_path: Path, name: str) -> None:
    names = files(tmp_path)
    calls = [[word.format(file) for word in RIGHT[name]] for file in names]
    for file, (status, out, error) in zip(names, side_by_side(tool, f"psi-{name}", calls)):
        if name == "where" and status == 3:
            assert (error, out.count("\n")) == ("", 3), (file, out, error)
            continue
        assert status in (2, 3, 6), (file, status, error)
        assert out == "" and is_one_line(name, error), (file, out, error)


@pytest.mark.parametrize("name", NAMES)
def test_words_that_are_not_right(tool: Tool, name: str) -> None:
    calls: list[list[str]] = [[], ["--no-such-option"], ["--seed"], ["a"] * 9, ["", ""], ["-"], ["--count", "x", "y"]]
    for words, (status, out, error) in zip(calls, side_by_side(tool, f"psi-{name}", calls)):
        assert status in (2, 6), (words, status)
        assert out == "" and is_one_line(name, error), (words, error)


@pytest.mark.parametrize("name", NAMES)
def test_help_and_version(tool: Tool, name: str) -> None:
    status, out, error = tool(f"psi-{name}", "--help")
    assert (status, error) == (0, "")
    assert out.startswith(f"usage: psi-{name} ") and "--version" in out
    version = match_in(r'^version: "([^"]*)"', (TOP / "CITATION.cff").read_text(), re.M)[1]
    assert tool(f"psi-{name}", "--version") == (0, f"psi-{name} {version}\n", "")


# The tools of closed networks, with the places of a file, a total and a number of streams.
OTHERS = {"mean_values.py": ["{0}", "{1}", "{2}"], "psi-many": ["{0}", "0", "0", "{2}", "--closed", "{1}"]}


@pytest.mark.parametrize("name", OTHERS)
def test_the_other_tools_end_with_one_line(tool: Tool, tmp_path: Path, name: str) -> None:
    command = Path(name).stem
    status, out, error = tool(name, "-h")
    assert (status, error) == (0, "") and out.startswith(f"usage: {command} ")
    closed = str(example("central-server"))
    named = [(file, "6", "2") for file in [*files(tmp_path), NET]]
    named += [(closed, "x", "2"), (closed, "257", "2"), (closed, "6", "-2")]
    calls: list[list[str]] = [[], ["a"], *([word.format(*each) for word in OTHERS[name]] for each in named)]
    for words, (status, out, error) in zip(calls, side_by_side(tool, name, calls)):
        assert status in (2, 3, 6, 11) and out == "", (words, status, error)
        assert re.fullmatch(rf"{command}: [^\n]+\n", error), (words, error)
    with open("/dev/full", "wb") as full:
        status, _, error = tool(name, *(word.format(closed, "6", "2") for word in OTHERS[name]), stdout=full)
    assert status == 7 and "No space left on device" in error


def test_each_option_says_what_it_does() -> None:
    import importlib

    from psi_tools.cli.completion import kinds_of, options_of

    for name in NAMES:
        reader = importlib.import_module(f"psi_tools.cli.{name}").parser()
        for each in (reader, *(below for below, _ in kinds_of(reader).values())):
            for options, _, _, printed in options_of(each):
                assert len(printed) > 10, (name, options)


@pytest.mark.parametrize("name", [*RIGHT, "new"])
def test_a_full_disk(tool: Tool, name: str) -> None:
    own = {"new": NEW, "plot": ["--help"], "means": ["--help"], "page": [str(NET), "0", "0", "-o", "/dev/stdout"]}
    words = own.get(name) or [word.format(NET) for word in RIGHT[name]]
    with open("/dev/full", "wb") as full:
        status, _, error = tool(f"psi-{name}", *words, stdout=full)
    assert status == 7, error
    assert "No space left on device" in error.splitlines()[-1] and "Traceback" not in error


@pytest.mark.parametrize("name", ["many", "law", "sweep", "where", "why", "new", "means"])
def test_where_it_is_written_is_looked_at_first(tool: Tool, tmp_path: Path, name: str) -> None:
    words = [word.format(NET) for word in RIGHT.get(name, NEW)]
    status, out, error = tool(f"psi-{name}", *words, "-o", "absent/file")
    assert (status, out) == (7, "") and is_one_line(name, error)
    assert [*Path(tmp_path).iterdir()] == []


def test_where_a_picture_is_written_is_looked_at_first(tool: Tool, tmp_path: Path) -> None:
    for words in (("forward", NET), ("report", "absent"), ("coupling", "absent")):
        line = "psi-plot: -o none/picture.svg can't be written: No such file or directory\n"
        assert tool("psi-plot", *words, "-o", "none/picture.svg") == (7, "", line)
    assert [*tmp_path.iterdir()] == []


def test_many_may_look_at_one_place(tmp_path: Path) -> None:
    def look(_: int) -> None:
        check_writable(str(tmp_path / "answer"))
        assert not (tmp_path / "answer").exists()

    with concurrent.futures.ThreadPoolExecutor(8) as pool:
        assert len([*pool.map(look, range(400))]) == 400
    assert [*tmp_path.iterdir()] == []


@pytest.mark.parametrize(
    "name, printed",
    [
        *((name, "No such file or directory") for name in ("", "absent/new", "far")),
        *((name, "Is a directory") for name in ("new/", ".")),
        ("file/new", "Not a directory"),
        ("round", "Too many levels of symbolic links"),
        ("n" * 300, "File name too long"),
        ("a\0b", "embedded null byte"),
    ],
)
def test_places_that_can_not_be_written(
    tmp_path: Path, monkeypatch: pytest.MonkeyPatch, name: str, printed: str
) -> None:
    monkeypatch.chdir(tmp_path)
    (tmp_path / "file").write_text("kept")
    os.symlink("round", "round")
    os.symlink("absent/new", "far")
    with pytest.raises(PsiError, match=printed):
        check_writable(name)
    assert (tmp_path / "file").read_text() == "kept"
    assert {file.name for file in tmp_path.iterdir()} == {"file", "round", "far"}


def test_a_link_to_a_new_file_may_be_written(tmp_path: Path) -> None:
    os.symlink("new", tmp_path / "link")
    check_writable(str(tmp_path / "link"))
    assert [*tmp_path.iterdir()] == [tmp_path / "link"]


@pytest.mark.parametrize("shell", SHELLS)
@pytest.mark.parametrize("name", NAMES)
def test_completion_is_of_its_shell(tmp_path: Path, shell: str, name: str) -> None:
    text = completion(shell, name)
    assert "--help" in text or "-l help" in text
    (tmp_path / "completion").write_text(text)
    if not shutil.which(shell):
        pytest.skip(f"{shell} isn't installed")
    status, _, error = ended([shell, "-n", tmp_path / "completion"])
    assert (status, error) == (0, "")


def test_completion_in_bash(tmp_path: Path) -> None:
    (tmp_path / "completion").write_text(completion("bash", "law"))
    for words, wanted in (
        (["psi-law", str(example("breakdowns")), ""], ["jobs", "broken", "cost", "full"]),
        (["psi-law", "--se"], ["--seed"]),
        (["psi-law", "--format", "j"], ["json"]),
    ):
        script = f". ./completion\nCOMP_WORDS=({' '.join(repr(word) for word in words)})\n"
        script += f'COMP_CWORD={len(words) - 1}\n_psi_law && echo "${{COMPREPLY[@]}}"'
        _, out, error = ended(["bash", "-c", script], cwd=tmp_path)
        assert out.split() == wanted, error


SWEPT = [NET, "desk.capacity=2,3", "--of", "desk", "--count", "20"]
# Of each tool its work, and words that are right but for the file.
CALLS = {
    "psi-law": (law, ["{}", "a", "--count", "2"]),
    "psi-sweep": (sweep, ["{}", "a.capacity=1,2", "--count", "2"]),
    "psi-why": (why, ["{}"]),
    "psi-many": (many, ["{}", "0", "0", "2"]),
    "psi-plot": (plot, ["forward", "{}", "-o", "drawn.svg"]),
    "psi-page": (page, ["{}", "0", "0", "-o", "drawn.html"]),
    "mean_values": (mean_values, ["{}", "1"]),
    "psi-many --closed": (many, ["{}", "0", "0", "2", "--closed", "1"]),
}
# Words that write an answer, with a place for where it goes.
WRITES = {
    "psi-law": (law, [NET, "desk", "--count", "20", "-o", "{}"]),
    "psi-law with a picture": (law, [NET, "desk", "--count", "20", "--picture", "{}.svg"]),
    "psi-sweep": (sweep, [*SWEPT, "-o", "{}"]),
    "psi-sweep with a picture": (sweep, [*SWEPT, "--picture", "{}.svg"]),
    "psi-why": (why, [NET, "--seconds", "1", "-o", "{}"]),
    "psi-where": (where, [NET, "-o", "{}"]),
    "psi-many": (many, [NET, "0", "0", "20", "-o", "{}"]),
    "psi-plot": (plot, ["forward", NET, "-o", "{}.svg"]),
    "psi-page": (page, [NET, "0", "0", "-o", "{}"]),
}


@pytest.fixture
def here(environment: dict[str, str], tmp_path: Path, monkeypatch: pytest.MonkeyPatch) -> Iterator[Path]:
    """A folder of its own, with psi on the PATH; in the end signals are handled as before."""
    monkeypatch.chdir(tmp_path)
    monkeypatch.setenv("PATH", environment["PATH"])
    signals = signal.SIGINT, signal.SIGTERM, signal.SIGHUP
    before = [signal.getsignal(one) for one in signals]
    yield tmp_path
    for one, handler in zip(signals, before):
        signal.signal(one, handler)


def refused() -> list[bytes]:
    """The networks of the cases that psi refuses, each once."""
    cases = [case for file in sorted(case_files.DATA.glob("*.cases")) for case in case_files.cases(file.name)]
    found = [case for case in cases if case.status == 3 and case.words[1:] and case.words[1] in case.files]
    return [*dict.fromkeys(case.files[case.words[1]] for case in found)]


@pytest.mark.slow
@pytest.mark.parametrize("name", CALLS)
def test_refused_files(here: Path, capsys: pytest.CaptureFixture[str], name: str) -> None:
    tool, words = CALLS[name]
    files = refused()
    assert len(files) > 40
    for data in files:
        (here / "net.toml").write_bytes(data)
        status = run(tool.COMMAND, tool.work, [word.format("net.toml") for word in words])
        out, error = capsys.readouterr()
        assert status == (2 if name == "psi-plot" else 3) and out == "", (data, status)
        line = rf"{name.split()[0]}: (net\.toml: )?network refused [^\n]*\n"
        assert re.fullmatch(line, error), (data, error)
    assert [*here.iterdir()] == [here / "net.toml"]


@pytest.mark.parametrize("name", WRITES)
def test_an_answer_that_fits_on_no_disk(here: Path, capsys: pytest.CaptureFixture[str], name: str) -> None:
    tool, words = WRITES[name]
    for ending in ("", ".svg"):
        (here / f"full{ending}").symlink_to("/dev/full")
    status = run(tool.COMMAND, tool.work, [str(word).format("full") for word in words])
    out, error = capsys.readouterr()
    assert (status, out) == (7, ""), error
    last = error.splitlines()[-1]
    assert last.startswith(f"{name.split()[0]}: ") and last.endswith("No space left on device")


@pytest.mark.parametrize("name", ["psi-law", "psi-sweep", "psi-why", "psi-many"])
def test_files_that_take_no_more(tool: Tool, tmp_path: Path, name: str) -> None:
    words = [str(word).format("answer") for word in WRITES[name][1]]
    status, out, error = tool(name, *words, **limited("FSIZE", 100))
    assert (status, out) == (7, ""), error
    assert re.fullmatch(rf"{name}: \S+ can't be written: File too large", error.splitlines()[-1]), error
    assert "Traceback" not in error and not (tmp_path / "answer").exists()
