"""Tables of paths: psi.paths, beside the plain program, and psi.states where a path has no step."""

import tomllib
import warnings
from pathlib import Path

import pandas
import pytest
from conftest import Psi, desk, example, rows_in
from solving import birth_and_death

import psi as module
from oracle import paths as plain
from oracle.plain_network import Network as PlainNetwork
from psi_tools.draw.paths import MOST_STEPS, events_of, header_of, modulus_of, paths_of
from psi_tools.draw.program import Program
from psi_tools.errors import PsiError
from psi_tools.model.networks import Network

LAST = 2**64 - 1
BILLION = 1_000_000_000
pytestmark = pytest.mark.usefixtures("paths_program")


def rows_wanted(
    file: Path, seed: int, streams: range, steps: int, total: int | None = None
) -> tuple[list[str], list[list[int | None]]]:
    """The columns of a table and its rows, with None for what is missing, as the plain program has them."""
    net = PlainNetwork(tomllib.loads(file.read_text()))
    outcomes = plain.outcomes_of(net, seed, streams, total)
    rows = [plain.row(net, seed, stream, drawn, steps) for stream, drawn in zip(streams, outcomes)]
    return plain.header(net), [[None if value == "" else int(value) for value in row] for row in rows]


@pytest.mark.parametrize(
    "name, seed, first, count, steps",
    (
        ("tandem-blocking", 3, 5, 20, 50),
        ("overflow", 0, LAST - 9, 10, 300),
        ("call-centre", LAST, 2**63 - 5, 7, 100),
        ("negative-customers", 7, 0, 9, 0),
        ("first", 1, 9, 1, 1_000),
    ),
)
def test_rows_are_the_plain_programs(psi: Psi, name: str, seed: int, first: int, count: int, steps: int) -> None:
    file = example(name)
    table = psi.paths(file, seed, first, count, steps)
    columns, rows = rows_wanted(file, seed, range(first, first + count), steps)
    assert ([*table.columns], rows_in(table)) == (columns, rows)


def test_rows_of_a_closed_network(psi: Psi) -> None:
    file = example("central-server")
    table = psi.paths(file, 2, 4, 12, 30, total=6)
    columns, rows = rows_wanted(file, 2, range(4, 16), 30, 6)
    assert ([*table.columns], rows_in(table)) == (columns, rows)
    assert (table[["queue.cpu", "queue.disk", "queue.drum"]].sum(axis=1) == 6 * 31).all()


def test_a_path_of_no_step_is_its_sample(psi: Psi) -> None:
    file = example("tandem-blocking")
    states, paths = psi.states(file, 1, 2, 30), psi.paths(file, 1, 2, 30, steps=0)
    for name in states.columns:
        assert paths[name].tolist() == states[name].tolist()
    counts = [name for name in paths.columns if name.startswith(("event.", "moved."))]
    assert (paths[["steps", *counts]] == 0).all(axis=None)


def test_a_stream_that_is_not_coupled_keeps_its_row(psi: Psi) -> None:
    file = example("short-past")
    columns, rows = rows_wanted(file, 0, range(40), 20)
    lost = [row[1] is None for row in rows]
    assert 0 < sum(lost) < 40
    with pytest.warns(psi.Uncoupled, match=f"^{sum(lost)} of 40 streams weren't coupled"):
        table = psi.paths(file, count=40, steps=20)
    assert ([*table.columns], rows_in(table)) == (columns, rows)
    for name in columns[1:]:
        assert [*table[name].isna()] == lost


def test_sums_of_any_size_are_exact(psi: Psi) -> None:
    net = psi.Network().queue("a", 2_000)
    net.event("in", "arrival", 400, to=["a"]).event("out", "service", 1, source="a")
    net.reward("cost", "linear", ["a"], weights=[-BILLION]).reward("number", "linear", ["a"], weights=[1])
    net.heads["limit"] = 14
    assert (2_000 * BILLION) * 5_000_001 > 2**63 > (2_000 * BILLION) * 101
    table = psi.paths(net, count=2, steps=100)
    assert [str(kind) for kind in table.dtypes] == ["uint64", *9 * ["Int64"]]
    assert (table["reward.cost"] == -BILLION * table["queue.a"]).all()
    table = psi.paths(net, count=2, steps=5_000_000)
    assert [str(kind) for kind in table.dtypes] == ["uint64", *3 * ["Int64"], "object", *5 * ["Int64"]]
    assert [type(value) for value in table["reward.cost"]] == [int, int]
    assert [-BILLION * int(value) for value in table["queue.a"]] == [*table["reward.cost"]]
    assert min(table["reward.cost"]) < -(2**63)
    net.heads["limit"] = 0
    with pytest.warns(psi.Uncoupled):
        table = psi.paths(net, count=1, steps=5_000_000)
    assert table["reward.cost"][0] is pandas.NA and table["reward.number"].isna().all()


def test_events_and_their_unit(psi: Psi) -> None:
    net = psi.Network.read(example("call-centre"))
    lines = [line.split() for line in psi.check(net).splitlines()]
    assert [(name, str(k)) for name, k in events_of(net)] == [tuple(line[1:3]) for line in lines if line[0] == "event"]
    assert modulus_of(net) == next(int(line[1]) for line in lines if line[0] == "modulus")
    one = psi.Network().queue("a", 1).event("in", "arrival", 3, to=["a"]).event("out", "service", 1, source="a")
    assert modulus_of(one) == 4 and events_of(one) == [("in", 1), ("out", 1)]


@pytest.mark.parametrize("steps", [-1, MOST_STEPS + 1, 1.5])
def test_steps_that_are_refused(psi: Psi, steps: float) -> None:
    with pytest.raises(psi.ArgumentError):
        psi.paths(example("tandem-blocking"), steps=steps)


def test_a_text_that_is_no_such_table(program: str, monkeypatch: pytest.MonkeyPatch) -> None:
    net = Network.read(example("short-past"))
    head = ",".join(header_of(net))
    text = f"{head}\n7,64,1,2,0,1,1,0,0\n8,,,,,,,,\n"
    monkeypatch.setattr(Program, "paths", lambda *words: text)
    assert paths_of(Program(program), net, 0, [(7, 2)], 1) == ["64,1,2,0,1,1,0,0", None]
    for text in ("", text[:-1], text.replace("8,", "9,"), text.replace("moved", "event")):
        with pytest.raises(PsiError, match="^psi_paths printed no "):
            paths_of(Program(program), net, 0, [(7, 2)], 1)


def test_without_psi_paths(program: str, tmp_path: Path, monkeypatch: pytest.MonkeyPatch) -> None:
    (tmp_path / "psi").symlink_to("/bin/true")
    monkeypatch.setattr("psi_tools.draw.program.TOP", tmp_path)
    with pytest.raises(PsiError, match="^psi_paths isn't built, .*`rt run` in crates/psi_paths builds it$"):
        module.paths(example("first"), program=module.Program(tmp_path / "psi"))


def test_means_of_paths_are_stationary(psi: Psi) -> None:
    """The mean of all sums is steps + 1 times the stationary mean, within five standard errors."""
    exact = sum(number * share for number, share in enumerate(birth_and_death(4, [5] * 10)))
    with warnings.catch_warnings():
        warnings.simplefilter("error")
        table = psi.paths(desk(), 11, count=200, steps=300)
    means = table["queue.desk"].astype(float) / 301
    assert abs(means.mean() - exact) < 5 * means.std() / 200**0.5
    assert (table["event.come.1"] >= table["moved.come.1"]).all()
    assert (abs(table["moved.come.1"] - table["moved.serve.1"]) <= 10).all()
