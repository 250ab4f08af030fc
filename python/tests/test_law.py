"""psi-law: the law that is solved, and that of the samples themselves."""

import collections
import json
import shutil
from collections.abc import Callable, Iterable
from pathlib import Path
from typing import Any

import numpy
import pandas
import pytest
from conftest import Psi, Tool, desk, out_of
from scipy.stats import binom
from solving import birth_and_death, law_of

import psi as module
from psi_tools.model.conditions import FORM
from psi_tools.model.networks import Network

NET = (
    Network(version=2)
    .queue("near", 3, 2)
    .queue("far", 70)
    .event("come", "arrival", 9, to=["near", "far"])
    .event("near-done", "service", 2, source="near")
    .event("far-done", "service", 8, source="far")
    .reward("cost", "table", ["near"], table=[[5, 0, 0, 7]])
    .reward("longest", "greatest", ["near", "far"])
    .toml()
)


@pytest.fixture
def net(tmp_path: Path) -> str:
    """The file of the network."""
    (tmp_path / "net.toml").write_text(NET)
    return "net.toml"


@pytest.fixture
def network(tmp_path: Path, net: str) -> Network:
    return Network.read(tmp_path / net)


@pytest.fixture
def short(tmp_path: Path, net: str) -> str:
    """The file of the network with a past that is too short for some streams."""
    (tmp_path / net).write_text("limit = 10\n" + NET)
    return net


def reported(tool: Tool, *words: object) -> Any:
    """The answer of psi-law in JSON."""
    return json.loads(tool("psi-law", *words, "--format", "json")[1])


def test_the_solved_law_is_in_most_intervals(psi: Psi, network: Network) -> None:
    states, law = law_of(network)
    found = psi.law(network, "near", count=20_000)
    for number in range(4):
        wanted = sum(p for x, p in zip(states, law) if x[0] == number)
        # Wider than 95 %, so that the test says no by a fault alone.
        row = found.loc[number]
        width = row["high"] - row["low"]
        assert row["low"] - width < wanted < row["high"] + width


def test_forms_and_pictures(tool: Tool, tmp_path: Path, net: str) -> None:
    words = (net, "far", "--count", "500")
    out = out_of(tool("psi-law", *words, "--picture", "law.svg"))
    assert out.startswith("far: 500 samples, streams 0 to 499 of seed 0; intervals of 95 %\n")
    assert (tmp_path / "law.svg").read_text().startswith("<?xml")
    assert out_of(tool("psi-law", *words, "--format", "csv", "-o", "law.csv")) == ""
    lines = (tmp_path / "law.csv").read_text().splitlines()
    assert sum(int(line.split(",")[1]) for line in lines[1:]) == 500
    found = reported(tool, *words)
    assert sum(each["count"] for each in found["values"]) == found["samples"] == 500


RARE = (
    desk(2, 11, 4)
    .reward("full", "above", ["desk"], level=3)
    .reward("fine", "table", ["desk"], table=[[0, 0, 0, 0, 1000]])
)


@pytest.mark.parametrize("name, unit", [("full", 1), ("fine", 1_000)])
def test_the_mean_of_a_rare_reward_has_an_interval_though_none_came(
    tool: Tool, tmp_path: Path, name: str, unit: int
) -> None:
    RARE.write(tmp_path / "rare.toml")
    wanted = unit * birth_and_death(2, [11] * 4)[4]
    call = "rare.toml", name, "--count", 300
    mean = reported(tool, *call)["mean"]
    assert mean["mean"] == 0 == mean["low"]
    assert wanted < mean["high"] == pytest.approx(unit * (1 - 0.025 ** (1 / 300)), rel=1e-6)
    line = next(line for line in tool("psi-law", *call)[1].splitlines() if line.startswith("mean "))
    assert "±" not in line and line.endswith(f" to {mean['high']:.{4 if unit == 1 else 1}f}")


def test_streams_that_are_not_coupled_widen_the_mean(tool: Tool, short: str) -> None:
    for name, least, greatest in (("near", 0, 3), ("cost", 0, 7), ("longest", 0, 70)):
        found = reported(tool, short, name, "--count", "200")
        lost = found["unknown"]
        total = sum(each["value"] * each["count"] for each in found["values"])
        assert lost > 5
        assert found["mean"]["low"] <= (total + lost * least) / 200
        assert found["mean"]["high"] >= (total + lost * greatest) / 200


def joined(rows: Iterable[Iterable[int]]) -> dict[tuple[int, ...], int]:
    """How many rows have which values, ascending."""
    return dict(sorted(collections.Counter(tuple(row) for row in rows).items()))


def test_laws_are_those_of_the_states(psi: Psi, network: Network) -> None:
    """Of one number, and joint ones."""
    states = psi.samples(network, seed=3, first=10, count=300).astype(int)
    near, far = states.T
    cost, longest = [[5, 0, 0, 7][number] for number in near], states.max(axis=1).tolist()
    for name, values in (("near", near.tolist()), ("far", far.tolist()), ("longest", longest), ("cost", cost)):
        counts = collections.Counter(values)
        assert dict(psi.law(network, name, 3, 10, 300)["count"]) == dict(sorted(counts.items()))
    for names, columns, rows in (
        (["near", "far"], ["queue.near", "queue.far"], states.tolist()),
        (["longest", "near"], ["reward.longest", "queue.near"], zip(longest, near.tolist())),
        (["reward.cost", "queue.near", "longest"], None, zip(cost, near.tolist(), longest)),
        (["cost"], ["reward.cost"], zip(cost)),
    ):
        found, wanted = psi.law(network, names, 3, 10, 300), joined(rows)
        if columns:
            assert [*found.index.names] == columns
        index = found.index if len(names) > 1 else [(value,) for value in found.index]
        assert dict(zip(index, found["count"])) == wanted
        assert (found["probability"] == found["count"] / 300).all()
        assert [*found.columns] == ["count", "probability", "low", "high"]
    for value, row in found.iterrows():
        alone = psi.law(network, "cost", 3, 10, 300).loc[value]
        assert (row["low"], row["high"]) == (alone["low"], alone["high"])


def test_a_condition_is_counted_over_the_states(psi: Psi, tool: Tool, net: str, network: Network) -> None:
    states = psi.samples(network, seed=3, first=10, count=300).astype(int)
    near, far = states.T
    cost = numpy.array([5, 0, 0, 7])[near]
    for where, met in (
        ("near == 0 and far >= 3", (near == 0) & (far >= 3)),
        ("cost - 2 * near < far or not longest <= 4", (cost - 2 * near < far) | (states.max(axis=1) > 4)),
        ("1 <= near < 3", (near >= 1) & (near < 3)),
        ("far > 70", near < 0),
        ("'queue.near' >= 0", near >= 0),
    ):
        count = int(met.sum())
        found = psi.probability(network, where, 3, 10, 300)
        assert (found.count, found.probability) == (count, count / 300)
        # The interval of Clopper and Pearson by its own definition: each tail is a fortieth at its end.
        if count:
            assert binom.sf(count - 1, 300, found.low) == pytest.approx(0.025)
        if count < 300:
            assert binom.cdf(count, 300, found.high) == pytest.approx(0.025)
        assert (found.low > 0, found.high < 1) == (count > 0, count < 300)
        assert reported(tool, net, "--where", where, "--seed", 3, "--first", 10, "--count", 300) == {
            **{"where": where, "samples": 300, "unknown": 0, "notes": []},
            **{"count": count, "probability": count / 300, "low": found.low, "high": found.high},
        }
    wide = psi.probability(network, where, 3, 10, 300, level=0.999)
    assert wide.low < found.low


def test_several_names_and_conditions_as_texts(psi: Psi, tool: Tool, net: str, network: Network) -> None:
    head, columns, *rows = out_of(tool("psi-law", net, "near", "cost", "--count", 200)).splitlines()
    assert head == "queue.near, reward.cost: 200 samples, streams 0 to 199 of seed 0; intervals of 95 %"
    assert columns.split() == ["queue.near", "reward.cost", "samples", "probability", "from", "to"]
    near = psi.samples(network, count=200)[:, 0].tolist()
    wanted = joined((number, [5, 0, 0, 7][number]) for number in near)
    assert {(int(row.split()[0]), int(row.split()[1])): int(row.split()[2]) for row in rows} == wanted
    out = out_of(tool("psi-law", net, "near", "cost", "--count", 200, "--format", "csv"))
    lines = [line.split(",") for line in out.splitlines()]
    assert lines[0] == ["queue.near", "reward.cost", "count", "probability", "low", "high"]
    assert {(int(line[0]), int(line[1])): int(line[2]) for line in lines[1:]} == wanted
    found = reported(tool, net, "near", "cost", "--count", 200)
    assert (found["names"], found["samples"], found["unknown"]) == (["queue.near", "reward.cost"], 200, 0)
    assert {(each["queue.near"], each["reward.cost"]): each["count"] for each in found["values"]} == wanted
    where = "near == 0"
    head, columns, row = out_of(tool("psi-law", net, "--where", where, "--count", 200)).splitlines()
    assert head == "near == 0: 200 samples, streams 0 to 199 of seed 0; intervals of 95 %"
    assert (columns.split()[0], int(row.split()[0])) == ("samples", near.count(0))


def test_streams_that_are_not_coupled_widen_probabilities(psi: Psi, tool: Tool, tmp_path: Path, short: str) -> None:
    network = Network.read(tmp_path / short)
    states = psi.samples(network, count=200, keep=True)
    lost, met = int((states[:, 0] < 0).sum()), int(((states[:, 0] == 0) & (states[:, 1] >= 0)).sum())
    assert lost > 5
    with pytest.warns(psi.Uncoupled):
        found = psi.probability(network, "near == 0", count=200)
    assert (found.count, found.probability) == (met, met / (200 - lost))
    assert binom.sf(met - 1, 200, found.low) == pytest.approx(0.025)
    assert binom.cdf(met + lost, 200, found.high) == pytest.approx(0.025)
    with pytest.warns(psi.Uncoupled):
        both = psi.law(network, ["near", "far"], count=200)
    assert int(both["count"].sum()) == 200 - lost
    for words in (("near",), ("near", "far"), ("--where", "near == 0")):
        assert out_of(tool("psi-law", short, *words, "--count", "200")).startswith(
            f"NOT COUPLED: {lost} of 200 streams; "
        )
        status, out, error = tool("psi-law", short, *words, "--count", "200", "--format", "csv")
        assert (status, error.startswith(f"psi-law: NOT COUPLED: {lost} of 200 streams; ")) == (0, True)


@pytest.mark.parametrize(
    "words, message",
    (
        ((), "a queue or a reward is expected, or --where with a condition"),
        (("near", "--where", "near == 0"), "--where goes without a queue or a reward"),
        (("near", "far", "near"), "near is given twice"),
        (("near", "queue.near"), "near is given twice"),
        (("near", "far", "--guaranteed"), "--guaranteed goes with one queue or reward"),
        (("--where", "near == 0", "--guaranteed"), "--guaranteed goes with one queue or reward"),
        (("near", "far", "--picture", "law.svg"), "--picture goes with one queue or reward"),
        (("middle",), "the network has no queue and no reward middle"),
        (("near", "middle"), "the network has no queue and no reward middle"),
        (("--where", "middle == 0"), "the network has no queue and no reward middle"),
        (("--where", "near"), f"the condition has `near` where it can't stand: {FORM}"),
        (("--where", ""), f"the condition can't be read: invalid syntax; {FORM}"),
        (("--reward", "near", "cost"), "the network has no reward near"),
    ),
)
def test_words_that_do_not_fit_together(tool: Tool, net: str, words: tuple[str, ...], message: str) -> None:
    assert tool("psi-law", net, *words) == (2, "", f"psi-law: {message}\n")


def test_arguments_that_do_not_fit_together(psi: Psi, network: Network) -> None:
    for more in ({"name": []}, {"name": ["near", "far"], "guaranteed": True}):
        with pytest.raises(psi.ArgumentError):
            psi.law(network, **more)
    with pytest.raises(psi.PsiError, match="^none of 5 streams is coupled"):
        network.heads["limit"] = 0
        with pytest.warns(psi.Uncoupled):
            psi.probability(network, "near == 0", count=5)


def test_laws_without_psi_states(
    program: str, tmp_path: Path, network: Network, monkeypatch: pytest.MonkeyPatch
) -> None:
    """Where psi_states is not built, distributions are the same, by the states that psi prints."""
    alone = tmp_path / "psi"
    shutil.copy(program, alone)
    draws: list[Callable[[module.Program], pandas.DataFrame]] = [
        lambda one: module.law(network, "longest", count=40, program=one),
        lambda one: module.law(network, ["cost", "far"], count=40, program=one),
    ]
    wanted = [draw(module.Program(program)) for draw in draws]
    monkeypatch.setattr("psi_tools.draw.program.TOP", tmp_path)
    lone = module.Program(alone, jobs=2)
    assert not lone.has_states()
    for draw, one in zip(draws, wanted):
        pandas.testing.assert_frame_equal(draw(lone), one)


def test_the_cumulative_line_reaches_its_last_point() -> None:
    from psi_tools.stats.intervals import Span
    from psi_tools.stats.law import Law
    from psi_tools.plot.draw_law import draw_law

    for counts in ([(2, 50), (3, 30), (7, 20)], [(4, 9)]):
        figure = draw_law(Law("near", "customers", counts, 0, Span(0, 9, 0, 9)), "")
        [line] = [line for line in figure.axes[1].lines if line.get_gid() == "at-most"]
        xs, ys = line.get_data()
        assert (xs[0] < counts[0][0], ys[0]) == (True, 0)
        assert (xs[-1] > counts[-1][0], ys[-1]) == (True, 1)
        assert ys[list(xs).index(counts[-1][0])] == 1
