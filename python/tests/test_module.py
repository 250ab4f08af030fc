"""The module psi: what it gives is what the program prints."""

import tomllib
import warnings
from pathlib import Path

import pytest
from conftest import TOP, Psi, desk, example, printed_by
from solving import birth_and_death

from tests.support import report_of


def test_the_version_is_that_of_the_citation(psi: Psi) -> None:
    citation = (TOP / "CITATION.cff").read_text()
    assert f'\nversion: "{psi.__version__}"\n' in citation
    project = tomllib.loads((TOP / "python/pyproject.toml").read_text())
    assert project["tool"]["setuptools"]["dynamic"]["version"]["attr"] == "psi_tools.__version__"


def test_a_report_is_the_programs(psi: Psi, program: str) -> None:
    for name in ("tandem-blocking", "breakdowns"):
        file = example(name)
        table = psi.report(file, 3, 5, 200)
        lines = [f"{item},{name},{value}" for item, name, value in table.itertuples(index=False)]
        text = "\n".join(["item,name,value", *lines, ""])
        assert text == printed_by(program, "report", file, 3, 5, 200)


def test_a_network_built_in_python_is_that_of_its_file(psi: Psi, program: str, tmp_path: Path) -> None:
    net = desk()
    net.heads["limit"] = 12
    net.write(tmp_path / "net.toml")
    assert psi.check(net) == printed_by(program, "check", tmp_path / "net.toml")
    assert "limit 12" in psi.check(net)


def test_streams_that_are_not_coupled(psi: Psi) -> None:
    with pytest.warns(psi.Uncoupled):
        psi.report(example("short-past"), 0, 0, 100)
    with warnings.catch_warnings():
        warnings.simplefilter("error")
        psi.report(example("first"), 0, 0, 100)


def test_a_log_certifies_its_state(psi: Psi, program: str) -> None:
    file = example("tandem-blocking")
    log = psi.log(file, 0, 0)
    assert log == printed_by(program, "sample", file, 0, 0, "log")
    assert psi.replay(file, log) == (64, (3, 2, 1))
    with pytest.raises(psi.Refused) as refused:
        psi.replay(file, log.replace("end 3,2,1", "end 3,2,2"))
    assert str(refused.value) == "log rejected 8 WrongState line 71"
    assert len(psi.draw_log(log, file).axes) == 5


def test_a_picture_of_a_log_leaves_the_process_as_it_was(psi: Psi) -> None:
    import logging

    import matplotlib

    file = example("tandem-blocking")
    log = psi.log(file, 0, 0)
    with matplotlib.rc_context({"font.size": 31, "axes.grid": True}), warnings.catch_warnings():
        warnings.simplefilter("error", psi.Uncoupled)
        before = dict(matplotlib.rcParams), [*warnings.filters]
        level = logging.getLogger("matplotlib").level
        figure = psi.draw_log(log, file)
        assert (dict(matplotlib.rcParams), [*warnings.filters]) == before
        assert logging.getLogger("matplotlib").level == level
        with pytest.raises(psi.Uncoupled):
            psi.report(example("short-past"), 0, 0, 100)
        # The picture has its own style all the same, whatever is set when it is drawn.
        sizes = {text.get_fontsize() for axes in figure.axes for text in axes.get_xticklabels()}
    assert sizes == {7}


def test_no_picture_changes_what_matplotlib_is_set_to() -> None:
    import importlib
    import inspect

    import matplotlib

    from psi_tools.plot import style

    names = ("coupling", "exact", "forward", "law", "report", "sweep")
    before = dict(matplotlib.rcParams)
    for name in names:
        draw = getattr(importlib.import_module(f"psi_tools.plot.draw_{name}"), f"draw_{name}")
        assert inspect.unwrap(draw) is not draw, name
    style.styled(style.new_figure)(2, "title")
    assert dict(matplotlib.rcParams) == before


def test_means_of_streams_that_are_not_coupled_are_wider(psi: Psi, program: str) -> None:
    file = example("short-past")
    with pytest.warns(psi.Uncoupled, match="intervals are wider"):
        found = psi.means(file, count=1_000)
    rows = report_of(printed_by(program, "report", file, 0, 0, 1_000))
    lost = rows["uncoupled", "-"]
    assert lost > 200
    net = psi.Network.read(file)
    capacity = dict(zip(net.queues, net.capacities))
    for (kind, name), row in found.iterrows():
        if kind == "queue":
            total = rows["sum", name]
            assert row["low"] <= total / 1_000
            assert row["high"] >= min(capacity[name], (total + lost * capacity[name]) / 1_000)


def test_few_samples_that_carry_a_mean_are_warned_of(psi: Psi) -> None:
    net = desk(2).reward("cost", "table", ["desk"], table=[[4**n for n in range(11)]])
    with pytest.warns(psi.FewSamples, match="few samples carry the mean of cost"):
        found = psi.means(net, count=2_000)
    wanted = sum(p * 4**n for n, p in enumerate(birth_and_death(2, [5] * 10)))
    assert found.loc["reward", "cost"]["low"] < wanted < found.loc["reward", "cost"]["high"]


def test_other_commands(psi: Psi) -> None:
    assert psi.couple(example("tandem-blocking"), 0, 0) == (39, (3, 2, 1))
    assert psi.reward(example("shortest-queue"), 0, 0, "longest") == (128, 2)
    assert psi.exact(example("longest-queue"), 0, 0, 11).region == 1586
    states = psi.closed(example("central-server"), 6, count=2)
    assert states.tolist() == [[0, 1, 5], [2, 0, 4]]


def test_what_psi_refuses_is_told_by_its_line(psi: Psi) -> None:
    net = psi.Network().queue("a", 0)
    with pytest.raises(psi.Refused) as refused:
        psi.check(net)
    assert (refused.value.status, str(refused.value)) == (3, "network refused 6 OutOfRange queue 1 capacity")
    with pytest.raises(psi.PsiError):
        psi.check("absent.toml")
