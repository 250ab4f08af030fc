"""The scripts named psi, `./psi` of a checkout and the one that a release installs: they answer what is asked of
themselves, all other arguments are the program's, and on a terminal they explain what is refused.
"""

import contextlib
import os
import pathlib
import pty
import re
import resource
import shutil
import statistics
import subprocess
import time
from collections.abc import Sequence

import pytest

from tests.gallery import logs_of_formats
from tests.support import TOP, Answer, Expectations, checkout, version_of_citation
from tools.command import refusal

COMMANDS = "check", "sample", "report", "trial", "couple", "reward", "exact", "closed", "replay"
COMPLETIONS = "completion.bash", "completion.zsh", "completion.fish"
NET = "examples/tandem-blocking.toml"
# Arguments that are the program's.
OTHERS: list[list[str]] = [
    [],
    *([word] for word in ("", *"nonsense - -- -v --helpme -help Help check".split())),
    *(["check", word] for word in ("--help", NET, "absent.toml", "bad.toml", "/dev/stdin")),
    *(["sample", NET, "0", *words] for words in (["x"], ["0"], ["0", "log"])),
    ["replay", NET, "bad.log"],
]
BAD_NET = """version = 1
[[queue]]
name = "a"
capacity = 2
[[event]]
kind = "arrival"
name = "enter"
rate = 0.5
to = ["a"]
"""
STOPPED = 2, b"", b"psi: usage word 2\n"
SECONDS, MOST_MS, ROUNDS, TRIES = 1, 2, 100, 5


def ended(words: Sequence[object], folder: pathlib.Path, path: str | None = None) -> tuple[Answer, float]:
    """The status of a call and both its texts, and how many seconds it took."""
    begun = time.monotonic()
    environment = {**os.environ, "PATH": path or os.environ["PATH"]}
    done = subprocess.run(
        [str(word) for word in words], cwd=folder, input=b"version = 3\n", capture_output=True, env=environment
    )
    return (done.returncode, done.stdout, done.stderr), time.monotonic() - begun


def try_help(expect: Expectations, script: pathlib.Path, top: pathlib.Path) -> None:
    """Help and the version come within a second, where neither the program nor `rt` is there; of each command too."""
    calls = [["--help"], ["-h"], ["help"], ["--version"], *(["help", name] for name in COMMANDS)]
    answers = {}
    for words in calls:
        for _ in range(TRIES):
            (status, out, error), took = ended([script, *words], top, "/usr/bin:/bin")
            if took < SECONDS:
                break
        answers[" ".join(words)] = out.decode()
        expect((status, error) == (0, b""), f"{script} {words}: {status} {error!r}")
        expect(took < SECONDS, f"{script} {words} takes {took:.2f} s")
    expect(answers["--version"] == f"psi {version_of_citation()}\n", f"the version is {answers['--version']}")
    expect(answers["-h"] == answers["help"] == answers["--help"], "-h and help differ")
    for name in COMMANDS:
        expect(f"  {name} " in answers["--help"], f"the help has no command {name}")
        own = answers[f"help {name}"]
        expect(own.startswith(f"Usage: psi {name} ") and own.count("\n") > 2, f"no help {name}")
    statuses = re.findall(r"^  (\d+) +\S", answers["--help"], re.M)
    expect(statuses == [str(it) for it in range(14)], f"the help has the statuses {statuses}")
    for words, place in ((["help", "nonsense"], 2), (["help", "check", "x"], 3), (["-h", "x"], 2)):
        answer = ended([script, *words], top)[0]
        wanted = 2, b"", b"psi: usage word %d\n" % place
        expect(answer == wanted, f"{script} {words}: {answer!r}")
    with open("/dev/full", "wb") as full:
        status = subprocess.run([script, "--help"], stdout=full).returncode
    expect(status == 7, f"where the help can't be written the status is {status}")


@pytest.fixture(scope="module")
def built(tmp_path_factory: pytest.TempPathFactory, program: str) -> pathlib.Path:
    """A checkout in which the program is built, with files that it refuses."""
    top = checkout(tmp_path_factory.mktemp("built"))
    (top / "crates/psi/out").mkdir()
    shutil.copy(program, top / "crates/psi/out/psi")
    (top / "bad.toml").write_text(BAD_NET)
    (top / "bad.log").write_text("psi-log 1\nqueues x\n")
    (top / "other.log").write_text(logs_of_formats()[1])
    return top


@pytest.fixture(scope="module")
def installed(tmp_path_factory: pytest.TempPathFactory, program: str) -> pathlib.Path:
    """The script of what a release installs for psi."""
    top = tmp_path_factory.mktemp("installed")
    library, doc = top / "lib/psi-sampler", top / "share/doc/psi-sampler"
    (top / "bin").mkdir()
    shutil.copytree(TOP / "tools", library / "tools")
    (library / "python").symlink_to(TOP / "python")
    (library / "tools/command/installed").rename(top / "bin/psi")
    (library / "crates/psi/out").mkdir(parents=True)
    shutil.copy2(program, library / "crates/psi/out/psi")
    doc.mkdir(parents=True)
    shutil.copy2(TOP / "CITATION.cff", doc)
    return top / "bin/psi"


@pytest.fixture(params=("checkout", "release"))
def script(request: pytest.FixtureRequest, built: pathlib.Path, installed: pathlib.Path) -> pathlib.Path:
    """Each of the two scripts, with a program that is built."""
    return built / "psi" if request.param == "checkout" else installed


def test_help_of_a_checkout(expect: Expectations, tmp_path: pathlib.Path) -> None:
    unbuilt = checkout(tmp_path)
    try_help(expect, unbuilt / "psi", unbuilt)
    own, first = (ended([unbuilt / it, "--help"], unbuilt)[0] for it in ("psi", "tools/psi-first"))
    expect(own == first, f"psi-first --help: {first!r}")
    expect(not (unbuilt / "crates/psi/out").exists(), "the help builds something")


def test_help_of_a_release(expect: Expectations, installed: pathlib.Path, tmp_path: pathlib.Path) -> None:
    try_help(expect, installed, tmp_path)


@pytest.mark.parametrize("words, wanted", ((["--build"], (0, b"", b"")), (["--build", "x"], STOPPED)))
def test_build_of_what_is_built(built: pathlib.Path, words: list[str], wanted: Answer) -> None:
    assert ended([built / "psi", *words], built)[0] == wanted


@pytest.mark.parametrize("words", OTHERS, ids=" ".join)
def test_other_words_are_the_programs(
    script: pathlib.Path, program: str, built: pathlib.Path, words: list[str]
) -> None:
    found, wanted = (ended([one, *words], built)[0] for one in (script, program))
    assert found == wanted


def on_terminal(words: Sequence[object], folder: pathlib.Path) -> tuple[int, bytes, list[str]]:
    """The status of a call whose standard error is a terminal, and both its texts."""
    own, other = pty.openpty()
    run = subprocess.Popen(
        [str(word) for word in words], cwd=folder, stdin=subprocess.PIPE, stdout=subprocess.PIPE, stderr=other
    )
    os.close(other)
    out, shown = run.communicate(b"version = 3\n")[0], b""
    # A terminal ends with an error.
    with contextlib.suppress(OSError):
        while piece := os.read(own, 4096):
            shown += piece
    os.close(own)
    return run.returncode, out, shown.decode().replace("\r\n", "\n").splitlines()


def test_terminal(expect: Expectations, script: pathlib.Path, program: str, built: pathlib.Path) -> None:
    """On a terminal a file that is refused, its line and a sentence follow the program's line; else nothing does."""
    calls = {
        ("check", "bad.toml"): ("bad.toml:8: rate = 0.5", "Write a whole number"),
        ("sample", "bad.toml", "0", "0"): ("bad.toml:8: rate = 0.5", "Write a whole number"),
        ("replay", NET, "bad.log"): ("bad.log:2: queues x", "digits alone"),
        ("replay", NET, "other.log"): ("other.log:2: queues 2", "another network"),
    }
    for words, (place, sentence) in calls.items():
        status, out, line = ended([program, *words], built)[0]
        *found, shown = on_terminal([script, *words], built)
        same = [status, out, line.decode().splitlines()] == [*found, shown[:1]]
        expect(same, f"{script} {words} on a terminal: {found} {shown}, not {status} {line!r}")
        expect(len(shown) > 2 and shown[1] == place, f"{words} has no line {place}: {shown}")
        expect(sentence in " ".join(shown[2:]), f"{words} doesn't say {sentence}: {shown}")
    # What comes through a pipe can't be read a second time.
    for others in (["nonsense"], ["check", NET], ["check", "absent.toml"], ["check", "/dev/stdin"]):
        status, out, line = ended([program, *others], built)[0]
        ending = on_terminal([script, *others], built)
        expect(ending == (status, out, line.decode().splitlines()), f"{script} {others} on a terminal: {ending}")


def processor_time(words: Sequence[object], folder: pathlib.Path) -> float:
    """The processor time of a call, in milliseconds."""
    before = resource.getrusage(resource.RUSAGE_CHILDREN)
    ended(words, folder)
    after = resource.getrusage(resource.RUSAGE_CHILDREN)
    return (after.ru_utime + after.ru_stime - before.ru_utime - before.ru_stime) * 1000


@pytest.mark.quiet
def test_time(installed: pathlib.Path, program: str, tmp_path: pathlib.Path) -> None:
    """The installed script takes at most 2 ms more than the program: the median of differences, in processor
    time, since other work may run beside; where it is too long it is measured again."""
    for _ in range(TRIES):
        calls = [[one, "nonsense"] for one in (installed, program)]
        took = [[processor_time(call, tmp_path) for call in calls] for _ in range(ROUNDS)]
        more = statistics.median(one - two for one, two in took)
        if more <= MOST_MS:
            break
    assert more <= MOST_MS


def test_texts(expect: Expectations) -> None:
    """The words of the help are those that completion and the guides have."""
    help_text = (TOP / "tools/command/help.txt").read_text()
    block = help_text.partition("Commands:\n")[2].partition("\n\n")[0]
    names = [*dict.fromkeys(line.split()[0] for line in block.splitlines())]
    expect(names == [*COMMANDS], f"the help has the commands {names}")
    for file in COMPLETIONS:
        text = (TOP / "release/package_files" / file).read_text()
        absent = [name for name in COMMANDS if not re.search(rf"\b{name}\b", text)]
        expect(not absent, f"{file} lacks {absent}")
    guide = (TOP / "docs/FORMATS.md").read_text()
    part = guide.partition("### Logs that are refused")[2].partition("### What a checker")[0]
    refused, rejected = part.split("### Logs that are rejected")
    for text, known in ((refused, refusal.REFUSED), (rejected, refusal.REJECTED)):
        causes = {*re.findall(r"\d `(\w+)`", text.partition("A `move` is judged")[0])}
        expect(causes == {*known}, f"of logs {causes ^ {*known}} differ")
