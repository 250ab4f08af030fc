"""How tests run side by side, in the processes of pytest-xdist.

Tests that are marked `quiet` measure a time, or have to end within one. They run first, one after the other in
one process, and no other test begins before they have ended. The slow tests come next, since a long one that
begins late is waited for. Those that are marked `release` run one after the other in one process.
"""

import pathlib
import sys
import tempfile
import time
from collections.abc import Generator
from typing import Any

import pytest

# How long the other tests wait for the quiet ones at most: a process that dies doesn't end them.
NAME, SECONDS = "tests.side_by_side", 300
FOLDER = pytest.StashKey[str]()


def register(config: pytest.Config) -> None:
    """Makes pytest call the functions of this module, once for all folders of tests."""
    if not config.pluginmanager.has_plugin(NAME):
        config.pluginmanager.register(sys.modules[NAME], NAME)


def pytest_configure(config: pytest.Config) -> None:
    given = getattr(config, "workerinput", None)
    if given is not None:
        config.pluginmanager.register(Process(pathlib.Path(given["ended"])))
        return
    folder = tempfile.TemporaryDirectory(prefix="psi-tests-")
    config.add_cleanup(folder.cleanup)
    config.stash[FOLDER] = folder.name


@pytest.hookimpl(optionalhook=True)  # type: ignore[misc]
def pytest_configure_node(node: Any) -> None:
    """Tells a process that will run tests which file they share."""
    node.workerinput["ended"] = f"{node.config.stash[FOLDER]}/ended"


def is_quiet(item: pytest.Item | None) -> bool:
    return item is not None and item.get_closest_marker("quiet") is not None


class Process:
    """A process that runs tests beside others. The file `ended` is there once all quiet tests have ended."""

    def __init__(self, ended: pathlib.Path) -> None:
        self.ended = ended

    @pytest.hookimpl(tryfirst=True)  # type: ignore[misc]
    def pytest_collection_modifyitems(self, items: list[pytest.Item]) -> None:
        """Puts the quiet tests first, and then the slow ones; what has to run in one process is a group."""
        for item in items:
            for name in filter(item.get_closest_marker, ("quiet", "release")):
                item.add_marker(pytest.mark.xdist_group(name))
        items.sort(key=lambda item: (not is_quiet(item), item.get_closest_marker("slow") is None))

    def pytest_collection_finish(self, session: pytest.Session) -> None:
        if not any(map(is_quiet, session.items)):
            self.ended.touch()

    @pytest.hookimpl(hookwrapper=True)  # type: ignore[misc]
    def pytest_runtest_protocol(self, item: pytest.Item, nextitem: pytest.Item | None) -> Generator[None, None, None]:
        """Begins a test that isn't quiet once the quiet ones have ended."""
        until = time.monotonic() + SECONDS
        while not is_quiet(item) and not self.ended.exists() and time.monotonic() < until:
            time.sleep(0.05)
        yield
        if not is_quiet(nextitem):
            self.ended.touch()
