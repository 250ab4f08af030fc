"""The built program, whose path is $PSI where that is set, and what a test holds to be so."""

import os
import shlex
import shutil
from collections.abc import Generator, Iterator
from typing import Any

import pytest

from tests import side_by_side
from tests.support import BUILT, TOP, Expectations, printed_by


@pytest.fixture(scope="session")
def program() -> str:
    path = os.path.abspath(os.environ.get("PSI", BUILT))
    assert os.access(path, os.X_OK), f"the tests want the built program, {path}"
    return path


@pytest.fixture(scope="session")
def library(tmp_path_factory: pytest.TempPathFactory) -> str:
    """The library that refuses growths."""
    made = str(tmp_path_factory.mktemp("refuse") / "refuse.so")
    compiler = shlex.split(os.environ.get("CC", "cc"))
    printed_by(*compiler, "-shared", "-fPIC", "-O2", "-o", made, TOP / "tests/refuse/refuse.c")
    return made


PASSED = pytest.StashKey[bool]()


@pytest.hookimpl(hookwrapper=True)  # type: ignore[misc]
def pytest_runtest_makereport(item: pytest.Item, call: pytest.CallInfo[None]) -> Generator[None, Any, None]:
    """Notes whether a test was run to its end."""
    outcome = yield
    if call.when == "call":
        item.stash[PASSED] = outcome.get_result().passed


@pytest.fixture
def expect(request: pytest.FixtureRequest) -> Iterator[Expectations]:
    """Takes what has to be so; the test fails with all that isn't."""
    expected = Expectations()
    yield expected
    assert expected.count or not request.node.stash.get(PASSED, False), "nothing was looked at"
    if expected.wrong:
        lines = "\n".join(expected.wrong)
        pytest.fail(f"{len(expected.wrong)} of {expected.count} are wrong:\n{lines}", pytrace=False)


def pytest_runtest_setup(item: pytest.Item) -> None:
    """Skips what this machine has no means for."""
    if item.get_closest_marker("root") and os.getuid():
        pytest.skip("it wants root")
    marker = item.get_closest_marker("needs")
    path = f"{os.environ['PATH']}:/usr/sbin:/sbin"
    absent = [name for name in marker.args if not shutil.which(name, path=path)] if marker else []
    if absent:
        pytest.skip(f"it wants {', '.join(absent)}")


def pytest_configure(config: pytest.Config) -> None:
    side_by_side.register(config)


def pytest_addoption(parser: pytest.Parser) -> None:
    parser.addoption("--networks", type=int, default=100, help="how many networks of a family")
    parser.addoption("--first", type=int, default=0, help="the number of the first of them")


@pytest.fixture
def numbers(request: pytest.FixtureRequest) -> range:
    """The numbers of the networks that are drawn."""
    first = request.config.getoption("--first")
    return range(first, first + request.config.getoption("--networks"))
