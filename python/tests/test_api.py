"""The module psi as a package: its page, its docstrings and their examples, its results and its exceptions."""

import doctest
import inspect
import pickle
import sys
import warnings
from pathlib import Path
from typing import Any

import api_page
import psi as module
import pytest
from conftest import ALONE, HERE, TOP, Psi, companion, desk, ended
from psi_tools.errors import PsiError
from psi_tools.io.terminal import Bar

CALLS = [name for name in module.__all__ if inspect.isfunction(getattr(module, name))]


@pytest.mark.skipif(ALONE, reason="the page stands in docs/")
def test_the_page_is_made_of_the_docstrings() -> None:
    """`python3 api_page.py ../docs/API.md` writes it again."""
    assert (TOP / "docs/API.md").read_text() == api_page.page()


@pytest.mark.parametrize("name", CALLS)
def test_each_argument_is_documented(name: str) -> None:
    call = getattr(module, name)
    sections = api_page.SECTION.split(inspect.getdoc(call) or "")
    text = dict(zip(sections[1::2], sections[2::2]))
    heads = [entry.partition(" : ")[0] for entry, _ in api_page.entries_of(text["Parameters"])]
    known = [name for head in heads for name in head.split(", ")]
    assert known == list(inspect.signature(call).parameters)
    assert {"Returns", "Examples"} <= {*text}
    assert ">>>" in text["Examples"]


@pytest.mark.parametrize("name", [*CALLS, "Network", "Program"])
def test_the_examples_run(
    program: str, environment: dict[str, str], monkeypatch: pytest.MonkeyPatch, name: str
) -> None:
    if name in ("paths", "states"):
        companion(program, f"psi_{name}")
    monkeypatch.setenv("PATH", environment["PATH"])
    runner = doctest.DocTestRunner(optionflags=doctest.REPORT_NDIFF)
    tests = doctest.DocTestFinder().find(getattr(module, name), name, globs={"psi": module, "net": desk()})
    assert sum(len(test.examples) for test in tests) > 0
    for test in tests:
        runner.run(test)
    assert runner.summarize(verbose=False).failed == 0


def test_results_are_tuples_with_names(psi: Psi) -> None:
    found = psi.couple(desk(), 0, 0)
    assert found == (found.horizon, found.state) and type(found.state) is tuple
    assert psi.replay(desk(), psi.log(desk(), 0, 0)).state == found.state
    assert f"<td>{found.horizon}</td>" in found._repr_html_()
    net = desk().reward("busy", "above", ["desk"], level=0)
    value = psi.reward(net, 0, 0, "busy")
    assert value.value in (0, 1) and f"<td>{value.value}</td>" in value._repr_html_()
    exact = psi.exact(desk(), 0, 0, 3)
    assert "<th>states left of 11</th>" in exact._repr_html_() and exact._repr_html_().count("<tr>") == 5


def test_what_is_shown(psi: Psi, program: str) -> None:
    assert repr(desk()) == "<Network: 1 queue, 2 events, 0 rewards>"
    assert repr(psi.Program(program, 3)) == f"<Program {program}, 3 jobs>"


def test_an_exception_has_its_status_line_and_message(psi: Psi) -> None:
    net = desk()
    net.table["event"][0]["to"] = ["dsk"]
    with pytest.raises(psi.Refused) as fault:
        psi.samples(net, count=1)
    error = fault.value
    assert isinstance(error, psi.PsiError) and error.status == 3
    assert error.line == f"psi: {error.message}" == "psi: network refused 9 UnknownQueue event 1 to"
    again = pickle.loads(pickle.dumps(error))
    assert (type(again), again.status, again.line, str(again)) == (psi.Refused, 3, error.line, error.message)


def test_a_program_works_on_after_a_refusal(program: str) -> None:
    own = module.Program(program, 2)
    with pytest.raises(module.NotCoupled):
        short = desk()
        short.heads["limit"] = 0
        module.samples(short, count=10, program=own)
    net = desk()
    net.table["event"][0]["rate"] = 0
    for _ in range(2):
        with pytest.raises(module.Refused):
            module.samples(net, count=20, program=own)
    assert module.samples(desk(), count=20, program=own).shape == (20, 1)


def test_paths_are_path_like(psi: Psi, tmp_path: Path) -> None:
    path = tmp_path / "desk.toml"
    desk().write(path)
    assert (psi.samples(path, count=5) == psi.samples(desk(), count=5)).all()
    assert psi.Network.read(path).queues == ["desk"]
    assert psi.check(str(path)) == psi.check(path)


def test_names_of_the_release_before(program: str) -> None:
    for old, new in (("Psi", "Program"), ("Told", "PsiError"), ("WrongArgument", "ArgumentError")):
        with pytest.warns(DeprecationWarning, match=f"psi.{old} is psi.{new} now"):
            assert getattr(module, old) is getattr(module, new)
    with pytest.raises(AttributeError, match="no attribute 'nothing'"):
        module.nothing
    with pytest.warns(DeprecationWarning, match="psi.use is gone in the next release"):
        module.use(program, 2)
    assert module.samples(desk(), count=3).shape == (3, 1)
    with pytest.warns(DeprecationWarning), pytest.raises(PsiError, match="there is no program /absent"):
        module.use("/absent")
    with pytest.warns(DeprecationWarning):
        module.use()


def test_without_deprecated_names_nothing_is_warned_of(psi: Psi) -> None:
    with warnings.catch_warnings():
        warnings.simplefilter("error")
        psi.means(desk(), count=400)


def test_a_bar_is_shown_for_long_work_alone(
    monkeypatch: pytest.MonkeyPatch, capsys: pytest.CaptureFixture[str]
) -> None:
    tqdm = pytest.importorskip("tqdm.auto")
    made, plain = [], tqdm.tqdm

    def counted(*args: Any, **named: Any) -> Any:
        made.append(plain(*args, **{**named, "disable": False}))
        return made[-1]

    monkeypatch.setattr(tqdm, "tqdm", counted)
    from psi.calls import ProgressBar

    with ProgressBar(10, "blocks") as bar:
        bar.show(4)
        bar.show(10)
        assert made[0].n == 10 and made[0].delay == 2 and capsys.readouterr().err == ""
    monkeypatch.setenv("TQDM_DISABLE", "1")
    with ProgressBar(10) as silent:
        silent.show(3)
    assert len(made) == 1 and isinstance(silent, Bar)


def test_help_reads_well() -> None:
    """As `python -c "import psi; help(psi.samples)"` prints it."""
    status, out, error = ended([sys.executable, "-c", "import psi; help(psi.samples)"], cwd=HERE.parent)
    assert status == 0, error
    assert "samples(net: " in out and "Parameters\n    ----------\n" in out
    assert "numpy.ndarray of int, shape (count, queues)" in out


def test_types_are_shipped() -> None:
    for package in ("psi", "psi_tools"):
        assert (Path(module.__file__).parent.parent / package / "py.typed").exists()
