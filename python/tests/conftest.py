"""What the tests share: the built program, whose path is $PSI where that is set, and a tool."""

import functools
import os
import re
import resource
import shutil
import signal
import subprocess
import sys
import time
import types
import xml.etree.ElementTree
from collections.abc import Callable, Sequence
from pathlib import Path
from typing import TYPE_CHECKING, Any

import pytest

if TYPE_CHECKING:
    import pandas
    from course import Answer, Course

    from psi_tools.model.networks import Network
    from psi_tools.stats.intervals import Mean

HERE = Path(__file__).resolve().parent
TOP = HERE.parent.parent
sys.path[:0] = [str(TOP), str(TOP / "tools")]
BUILT = TOP / "crates/psi/out/psi"
PSI = os.path.abspath(os.environ.get("PSI") or (not BUILT.exists() and shutil.which("psi")) or BUILT)
SECONDS = 120
# The checker of certificates, which shares nothing with the tools, in a Python that loads nothing else.
CHECKER = [sys.executable, "-IS", str(TOP / "tools/check_interval.py")]
# The status of a call and both its texts; and what runs a tool with some words and options of subprocess.
Ended = tuple[int, str, str]
Tool = Callable[..., Ended]
Started = Callable[..., "subprocess.Popen[str]"]
# The module psi, whose calls are handed the built program.
Psi = types.SimpleNamespace
PIPES: dict[str, Any] = {"stdout": subprocess.PIPE, "stderr": subprocess.PIPE, "text": True}
# Where this folder stands alone, with psi on the PATH, these tests are made. All others want the repository,
# for its tools, networks, guides or plain programs.
ALONE = not (TOP / "tools").is_dir()
OWN = "test_api.py", "test_networks.py", "test_properties.py", "test_toml.py"
collect_ignore = [path.name for path in HERE.glob("test_*.py") if ALONE and path.name not in OWN]
# A job that a shell starts in the background ignores SIGINT, and one of nohup SIGHUP, and so would the tools that
# the tests stop by them.
signal.signal(signal.SIGINT, signal.default_int_handler)
signal.signal(signal.SIGHUP, signal.SIG_DFL)


def match_in(pattern: str, text: str, flags: int = 0) -> "re.Match[str]":
    """The first match of a pattern in a text, which has one."""
    found = re.search(pattern, text, flags)
    assert found is not None, (pattern, text)
    return found


def example(name: str) -> Path:
    """The file of a network of the gallery."""
    return TOP / f"examples/{name}.toml"


def desk(rate: object = 4, service: object = 5, capacity: int = 10) -> "Network":
    """The network of a queue with a single server, M/M/1/K."""
    from psi_tools.model.networks import Network

    net = Network().queue("desk", capacity).event("come", "arrival", rate, to=["desk"])
    return net.event("serve", "service", service, source="desk")


def ended(words: Sequence[object], **options: Any) -> Ended:
    """How a call ends: its status and both its texts, each None where it goes elsewhere."""
    done = subprocess.run([*map(str, words)], timeout=SECONDS, **{**PIPES, **options})
    return done.returncode, done.stdout, done.stderr


def checked(certificates: Path) -> Ended:
    """How check_interval.py ends on a file of certificates."""
    return ended([*CHECKER, certificates])


def out_of(end: Ended) -> str:
    """What a call printed that ended with 0, and with nothing on standard error."""
    assert end[::2] == (0, ""), end
    return end[1]


def is_refused(end: Ended, printed: str, status: int = 2) -> bool:
    """Whether a call ended with this status and no answer, and with this on standard error."""
    return end[:2] == (status, "") and printed in end[2]


def printed_by(*words: object) -> str:
    """What a program prints on standard output."""
    return ended(words)[1]


def limited(what: str, most: int) -> dict[str, Callable[[], None]]:
    """The option of a call that has at most that much of something, such as FSIZE, the bytes of a file."""
    return {"preexec_fn": lambda: resource.setrlimit(getattr(resource, f"RLIMIT_{what}"), (most, most))}


def scripted(path: Path, *lines: str) -> Path:
    """A script of the shell in place of a program, with a folder for what it keeps, $KEPT."""
    Path(f"{path}.kept").mkdir(parents=True)
    path.write_text("\n".join(["#!/bin/sh", f"KEPT={path}.kept", *lines, ""]))
    path.chmod(0o755)
    return path


def wait_for(condition: Callable[[], bool], seconds: float = SECONDS) -> bool:
    """Whether something holds before that many seconds have passed."""
    until = time.monotonic() + seconds
    while not condition() and time.monotonic() < until:
        time.sleep(0.05)
    return condition()


def ends_of(mean: "Mean") -> tuple[float, float]:
    """Both ends of an interval, which has them."""
    assert mean.low is not None and mean.high is not None
    return mean.low, mean.high


def lines_of(error: str) -> list[str]:
    """What a call prints on standard error beside its progress."""
    return [line for line in error.splitlines() if "so far" not in line]


def rows_in(table: "pandas.DataFrame") -> list[list[int | None]]:
    """The rows of a table, with None for what is missing."""
    import pandas

    return [[None if value is pandas.NA else int(value) for value in row] for row in table.itertuples(index=False)]


def svg_ids(picture: bytes | str) -> list[str]:
    """The ids of the groups of an SVG."""
    root = xml.etree.ElementTree.fromstring(picture)
    return [each.get("id", "") for each in root.iter("{http://www.w3.org/2000/svg}g")]


def companion(program: str, name: str) -> str:
    """The path of another program beside psi; a test is skipped where it isn't built."""
    from psi_tools.draw.program import companion_of

    found = companion_of(program, name)
    if found is None:
        pytest.skip(f"{name} isn't built")
    return found


def pytest_configure(config: pytest.Config) -> None:
    """Where the repository is there, its tests run side by side."""
    if not ALONE:
        from tests import side_by_side

        side_by_side.register(config)


@pytest.fixture(scope="session")
def program() -> str:
    """The path of the built program."""
    assert os.access(PSI, os.X_OK), f"the tests want the built program, {PSI}"
    return PSI


@pytest.fixture
def states_program(program: str) -> str:
    """The path of psi_states."""
    return companion(program, "psi_states")


@pytest.fixture
def paths_program(program: str) -> str:
    """The path of psi_paths."""
    return companion(program, "psi_paths")


@pytest.fixture(scope="session")
def environment(program: str, tmp_path_factory: pytest.TempPathFactory) -> dict[str, str]:
    """The environment in which a tool finds the program on the PATH."""
    folder = tmp_path_factory.mktemp("path")
    (folder / "psi").symlink_to(program)
    return {**os.environ, "PATH": f"{folder}:{os.environ['PATH']}"}


@pytest.fixture
def tool(environment: dict[str, str], tmp_path: Path) -> Tool:
    """Runs a tool in a folder of its own."""
    return lambda name, *words, **options: ended(
        [TOP / "tools" / name, *words], cwd=tmp_path, env=environment, **options
    )


@pytest.fixture
def started(environment: dict[str, str], tmp_path: Path) -> Started:
    """Starts a tool in a folder of its own."""
    return lambda name, *words: subprocess.Popen(
        [TOP / "tools" / name, *map(str, words)], cwd=tmp_path, env=environment, **PIPES
    )


@pytest.fixture(scope="session")
def course() -> "Course":
    """The pages of docs/course."""
    from course import Course

    return Course.read()


@pytest.fixture(scope="session")
def answer(program: str) -> "Answer":
    """What psi prints for its arguments; each call is made once."""
    from course import answers_of

    return answers_of(program)


@pytest.fixture
def psi(program: str) -> Psi:
    """The module psi, whose calls are handed the built program."""
    import psi

    names = {name: getattr(psi, name) for name in psi.__all__}
    own = psi.Program(program, 2)
    for name, call in names.items():
        if "program" in (getattr(call, "__kwdefaults__", None) or {}):
            names[name] = functools.partial(call, program=own)
    return Psi(**names)
