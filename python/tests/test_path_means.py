"""psi-means --paths: estimates are those of psi.paths, intervals hold solved means, and certificates are proved."""

import csv
import io
import json
import math
from pathlib import Path
from typing import Any

import pytest
from conftest import Psi, Tool, checked, ends_of, example
from solving import means_of

import psi as module
from psi_tools.model.networks import Network
from psi_tools.stats.intervals import FEW, Span, probability, spread_of, student
from psi_tools.stats.paths import CHOSEN, MOVED, QUEUE, PathRow, Paths, columns_of

TANDEM, SHORT, CENTRAL = map(example, ("tandem-blocking", "short-past", "central-server"))


def of_csv(text: str) -> dict[tuple[str, str], dict[str, float]]:
    """The rows of an answer, by item and name."""
    rows = csv.DictReader(io.StringIO(text))
    return {(row["item"], row["name"]): {key: float(row[key]) for key in ("mean", "low", "high")} for row in rows}


def test_estimates_are_those_of_the_table(paths_program: str, psi: Psi, tool: Tool, program: str) -> None:
    words = "--paths", 200, "--count", 30, "--seed", 5, "--first", 7, "--psi", program, "--format", "csv"
    status, out, err = tool("psi-means", TANDEM, *words)
    assert (status, err) == (0, "")
    found, table, net = of_csv(out), psi.paths(TANDEM, 5, 7, 30, 200), Network.read(TANDEM)
    means, exact = {}, {"deliver": 3, "cut-done": 4, "drill-done": 4, "paint-done": 5}
    for kind, item in (("queue", "mean"), ("reward", "reward-mean")):
        for name in net.queues if kind == "queue" else net.rewards:
            means[item, name] = int(table[f"{kind}.{name}"].sum()) / (30 * 201)
    for event in net.table["event"]:
        for kind, item in (("event", "chosen-rate"), ("moved", "moved-rate")):
            means[item, event["name"]] = 16 * int(table[f"{kind}.{event['name']}.1"].sum()) / (30 * 200)
        chosen = found["chosen-rate", event["name"]]
        assert chosen["low"] <= exact[event["name"]] <= chosen["high"]
    assert [*found] == sorted(found, key=[*found].index) and {*found} == {*means}
    for key, mean in means.items():
        assert found[key]["mean"] == pytest.approx(mean, rel=1e-12)
        assert found[key]["low"] < mean < found[key]["high"]


def test_means_are_those_of_the_solved_chain(paths_program: str, tool: Tool, program: str) -> None:
    status, out, _ = tool("psi-means", TANDEM, "--paths", 2_000, "--psi", program, "--format", "csv", "--level", 99.99)
    found, (queues, rewards) = of_csv(out), means_of(Network.read(TANDEM))
    assert status == 0
    for item, solved in (("mean", queues), ("reward-mean", rewards)):
        for name, mean in solved.items():
            assert found[item, name]["low"] < mean < found[item, name]["high"]
    # What leaves one machine comes to the next.
    assert len({round(found["moved-rate", name]["mean"], 1) for name in ("cut-done", "drill-done", "paint-done")}) == 1


def test_the_text_and_the_json_of_an_answer(paths_program: str, tool: Tool, program: str) -> None:
    words = "--paths", 50, "--count", 20, "--total", 6, "--psi", program
    status, text, err = tool("psi-means", CENTRAL, *words)
    assert (status, err) == (0, "")
    lines = text.splitlines()
    assert lines[0] == "20 paths of 50 steps, all coupled; intervals of 95 %"
    assert [line.split()[:2] for line in lines[2:5]] == [["queue", name] for name in ("cpu", "disk", "drum")]
    assert lines[5].startswith("rates of events, in the unit of the file")
    status, out, _ = tool("psi-means", CENTRAL, *words, "--format", "json")
    found = json.loads(out)
    assert (found["paths"], found["coupled"], found["steps"], found["level"]) == (20, 20, 50, 0.95)
    assert sum(row["mean"] for row in found["rows"] if row["item"] == "mean") == pytest.approx(6)
    text = tool("psi-means", CENTRAL, "--paths", 0, "--total", 6, "--psi", program)[1]
    assert "rates" not in text and "100 paths of 0 steps" in text


def test_streams_that_are_not_coupled(paths_program: str, psi: Psi, tool: Tool, program: str) -> None:
    words = "--paths", 20, "--count", 60, "--psi", program
    status, text, _ = tool("psi-means", SHORT, *words)
    with pytest.warns(psi.Uncoupled):
        table = psi.paths(SHORT, count=60, steps=20)
    lost = int(table["horizon"].isna().sum())
    assert status == 0 and text.startswith(
        f"NOT COUPLED: {lost} of 60 streams; the means are of the others, and biased"
    )
    status, out, err = tool("psi-means", SHORT, *words, "--format", "csv")
    found = of_csv(out)["mean", "desk"]
    sums, capacity = [int(value) for value in table["queue.desk"].dropna()], Network.read(SHORT).capacities[0]
    assert "NOT COUPLED" in err
    assert found["mean"] == pytest.approx(sum(sums) / (21 * len(sums)))
    assert found["low"] < sum(sums) / (21 * 60) and found["high"] > (sum(sums) + 21 * capacity * lost) / (21 * 60)


@pytest.mark.parametrize("file, words", ((TANDEM, ()), (SHORT, ("--pilot", 0)), (CENTRAL, ("--total", 4))))
def test_guaranteed_intervals_have_certificates(
    paths_program: str, tool: Tool, program: str, tmp_path: Path, file: Path, words: tuple[object, ...]
) -> None:
    words = "--paths", 300, "--count", 40, "--psi", program, "--guaranteed", "--certificate", "c.json", *words
    status, out, err = tool("psi-means", file, *words, "--format", "csv")
    assert status == 0 and "assumed: the random words" in err
    found = of_csv(out)
    assert {item for item, _ in found} <= {"mean", "reward-mean"}
    status, out, _ = checked(tmp_path / "c.json")
    assert status == 0
    proved = {}
    for line in out.splitlines()[:-1]:
        name, _, ends = line.partition(": mean: ")
        proved[name] = [float(end) for end in ends.split(" to ")]
    names = {("reward " if item == "reward-mean" else "queue ") + name: own for (item, name), own in found.items()}
    assert {*names} == {*proved}
    for name, own in names.items():
        assert [own["low"], own["high"]] == pytest.approx(proved[name], abs=2e-6)
        assert own["low"] <= own["mean"] <= own["high"] or "short" in str(file)
    drawn = json.loads((tmp_path / "c.json").read_text())["drawn"]
    assert (drawn["steps"], drawn["count"], drawn["first"]) == (300, 40, 0)


def test_a_certificate_of_paths_is_of_a_mean_alone(tmp_path: Path) -> None:
    """The checker divides the ends of a mean by the number of times, and takes no other claim of such sums."""
    claim = {"of": "mean", "q": 10, "unit": 1, "low": None, "high": None}
    row = {"name": "a", "samples": 2, "uncoupled": 0, "least": 0, "greatest": 50, "counts": [[3, 2]]}
    file = tmp_path / "c.json"

    share = {**claim, "of": "share", "from": 0, "to": 1}
    for claims, times, wanted in (
        ([claim], 10, (0, ["a: mean: 0.000000 to 5.000000"])),
        ([claim], 1, (0, ["a: mean: 0.000000 to 50.000000"])),
        ([share], 10, (3, [])),
        ([claim], 0, (3, [])),
    ):
        rows = [{**row, "times": times, "claims": claims}]
        file.write_text(json.dumps({"format": "psi certificates 1", "d": 40, "rows": rows}))
        status, out, _ = checked(file)
        assert (status, out.splitlines()[:1]) == wanted


def test_words_that_are_refused(tool: Tool, program: str, tmp_path: Path) -> None:
    for words, line in (
        (("a.csv", "--seed", 1), "--seed goes with --paths"),
        (("a.csv", "--total", 1), "--total goes with --paths"),
        (("a.csv", "b.csv", "--paths", 1), "--paths is of one network, which is given instead of reports"),
        ((TANDEM, "--paths", 1, "--net", TANDEM), "--paths is of one network, which is given instead of reports"),
        ((TANDEM, "--paths", 1, "--pilot", 1), "--pilot goes with --guaranteed"),
        (
            (TANDEM, "--paths", 1, "--count", 19, "--psi", program),
            "19 paths are drawn, and 20 are wanted for an interval",
        ),
        ((TANDEM, "--paths", 1, "--first", 2**64 - 1), f"the last stream would be above {2**64 - 1}"),
    ):
        assert tool("psi-means", *words) == (2, "", f"psi-means: {line}\n")
    status, _, err = tool("psi-means", TANDEM, "--paths", 2**32)
    assert status == 2 and "--paths" in err


def paths_with(
    sums: list[int],
    span: Span = Span(0, 10, 0, 10),
    times: int = 11,
    lost: int = 0,
    horizon: int = 64,
    kind: str = QUEUE,
    **more: Any,
) -> tuple[Paths, PathRow]:
    row = PathRow(kind, "a", sums, span, times, **more)
    return Paths(times - 1, [horizon] * len(sums), lost, [row]), row


def test_even_paths_have_the_interval_of_student() -> None:
    """Where paths are long and many, hardly more than Student's t; never less."""
    sums = [50_000 + 100 * ((37 * k) % 101) for k in range(101)]
    paths, row = paths_with(sums, times=10_000)
    mean, spread = paths.mean(row), spread_of(sums, [10_000] * 101)
    assert spread is not None and spread.error is not None
    assert mean.mean == pytest.approx(spread.mean)
    (low, high), plain = ends_of(mean), student(100) * spread.error
    assert plain < high - spread.mean < 1.02 * plain and plain < spread.mean - low < 1.02 * plain


def test_paths_that_are_all_alike() -> None:
    """Another value may come in a path that didn't come, for as long as the longest horizon."""
    paths, row = paths_with([0] * 20, times=1_000, horizon=100)
    mean = paths.mean(row)
    assert (mean.mean, mean.low) == (0, 0)
    assert mean.high == pytest.approx(-math.log(0.025) * 10 * 100 / 1_000 / 20)


def test_few_visits_are_told_and_widen_an_interval() -> None:
    sums = [0] * 99 + [40]
    paths, row = paths_with(sums, times=1_000)
    mean, spread = paths.mean(row), spread_of(sums, [1_000] * 100)
    assert spread is not None and spread.error is not None and mean.mean is not None
    assert ends_of(mean)[1] - mean.mean > 2 * student(99) * spread.error
    assert paths.carried() == [
        "few visits carry the mean of a: as if 1 had the whole sum; more streams, or longer paths, make its "
        "interval narrower"
    ]
    assert paths_with([4_000 + k for k in range(100)], times=1_000)[0].carried() == []
    steep = paths_with(sums, times=1_000, few=4 * FEW)
    assert ends_of(steep[0].mean(steep[1]))[1] >= ends_of(mean)[1]


def test_a_path_of_no_step_is_a_sample() -> None:
    """A row of 0 and 1 has the interval of Clopper and Pearson, also where streams aren't coupled."""
    for lost in (0, 5):
        paths, row = paths_with([1] * 3 + [0] * 37, Span(0, 1, 0, 1, True), 1, lost)
        mean = paths.mean(row)
        assert (mean.low, mean.high) == pytest.approx(probability(3, 40 + lost, lost))
        assert mean.mean == 3 / 40


def test_chosen_events_are_independent_of_what_is_coupled() -> None:
    paths, row = paths_with([30, 50], Span(0, 1, 0, 1, True), 100, lost=9, kind=CHOSEN, unit=8)
    mean = paths.mean(row)
    assert (mean.low, mean.high) == pytest.approx([8 * end for end in probability(80, 200)])
    moved = paths_with([30, 50], Span(0, 1, 0, 1, True), 100, lost=9, kind=MOVED, unit=8)
    assert ends_of(moved[0].mean(moved[1]))[1] > 2 * ends_of(mean)[1]


def test_servers_of_an_event_are_one_row() -> None:
    net = module.Network().queue("a", 3, servers=2).event("in", "arrival", 1, to=["a"])
    net.event("out", "service", 1, source="a").reward("r", "above", ["a"], level=0)
    states = [(QUEUE, "a", [0]), ("reward", "r", [1])]
    assert columns_of(net) == [
        *states,
        (MOVED, "in", [3]),
        (CHOSEN, "in", [2]),
        (MOVED, "out", [5, 7]),
        (CHOSEN, "out", [4, 6]),
    ]
