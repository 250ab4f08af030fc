"""Tables of samples: psi.states, and what psi.samples and psi.closed take of them, beside psi itself."""

import functools
import re
import shutil
import warnings
from collections.abc import Callable
from pathlib import Path
from typing import Any

import numpy
import pandas
import pytest
from conftest import Psi, companion, ended, example, rows_in

import psi as module
from psi_tools.draw.law import Samples
from psi_tools.draw.program import companion_of
from psi_tools.errors import PsiError
from psi_tools.io.columns import Columns
from psi_tools.io.samples import rows_of
from psi_tools.io.terminal import Bar
from psi_tools.model.networks import Network, header_of, values_of

LAST = 2**64 - 1
Draw = Callable[..., pandas.DataFrame]


@pytest.fixture(params=["states", "paths"])
def table_of(request: pytest.FixtureRequest, psi: Psi, program: str) -> Draw:
    """psi.states, and psi.paths of 40 steps."""
    companion(program, f"psi_{request.param}")
    calls: dict[str, Draw] = {"states": psi.states, "paths": functools.partial(psi.paths, steps=40)}
    return calls[request.param]


def printed_sample(
    program: str, command: str, file: Path, seed: int, stream: int, *total: int
) -> tuple[int, list[int]] | None:
    """The horizon and the state that psi prints of one stream; none where it isn't coupled."""
    status, out, _ = ended([program, command, file, seed, stream, *total])
    found = re.fullmatch(r"met (\d+)\nstate (\S+)\n", out)
    if found is None:
        assert (status, out[:18]) == (1, "not coupled within")
        return None
    return int(found[1]), [*map(int, found[2].split(","))]


def rows_said(program: str, command: str, file: Path, seed: int, streams: range, *total: int) -> list[list[int | None]]:
    """The rows of a table, by what psi prints of each stream and the guide's rules of rewards."""
    net = Network.read(file)
    empty: list[int | None] = [None] * (1 + len(net.queues) + len(net.rewards))
    printed = [printed_sample(program, command, file, seed, stream, *total) for stream in streams]
    return [[one[0], *one[1], *values_of(net, one[1])] if one else empty for one in printed]


@pytest.mark.parametrize(
    "name, seed, first, count",
    (
        ("tandem-blocking", 3, 5, 30),
        ("overflow", 0, LAST - 14, 15),
        ("longest-queue", LAST, 0, 10),
        ("negative-customers", 7, 2**63 - 5, 10),
        ("first", 1, 9, 1),
    ),
)
def test_rows_are_what_psi_samples(psi: Psi, program: str, name: str, seed: int, first: int, count: int) -> None:
    file, streams = example(name), range(first, first + count)
    table, net = psi.states(file, seed, first, count), Network.read(file)
    wanted = rows_said(program, "sample", file, seed, streams)
    queues, rewards = [f"queue.{queue}" for queue in net.queues], [f"reward.{reward}" for reward in net.rewards]
    assert [*table.columns] == ["stream", "horizon", *queues, *rewards]
    assert table["stream"].tolist() == [*streams]
    assert rows_in(table.iloc[:, 1:]) == wanted
    assert psi.samples(file, seed, first, count).tolist() == [row[1 : 1 + len(queues)] for row in wanted]


def test_rows_are_what_psi_samples_of_a_closed_network(psi: Psi, program: str) -> None:
    file = example("central-server")
    wanted = rows_said(program, "closed", file, 2, range(4, 16), 6)
    table = psi.states(file, 2, 4, 12, total=6)
    assert rows_in(table.iloc[:, 1:]) == wanted
    assert (table[["queue.cpu", "queue.disk", "queue.drum"]].sum(axis=1) == 6).all()
    assert psi.closed(file, 6, 2, 4, 12).tolist() == [row[1:4] for row in wanted]


def test_a_stream_that_is_not_coupled_keeps_its_row(psi: Psi, program: str) -> None:
    file = example("short-past")
    wanted = rows_said(program, "sample", file, 0, range(60))
    lost = [row[0] is None for row in wanted]
    assert 0 < sum(lost) < 60
    with pytest.warns(psi.Uncoupled, match=f"^{sum(lost)} of 60 streams weren't coupled"):
        table = psi.states(file, count=60)
    assert rows_in(table.iloc[:, 1:]) == wanted
    assert table["stream"].tolist() == [*range(60)]
    assert [*table["queue.desk"].isna()] == [*table["reward.full"].isna()] == lost
    assert psi.samples(file, count=60, keep=True)[:, 0].tolist() == [-1 if row[0] is None else row[1] for row in wanted]
    message = f"not coupled: {sum(lost)} of 60 streams, first {lost.index(True)}; the others alone are biased"
    with pytest.raises(psi.NotCoupled) as fault:
        psi.samples(file, count=60)
    assert (str(fault.value), fault.value.status) == (message, 1)
    met, unmet = lost.index(False), lost.index(True)
    with warnings.catch_warnings():
        warnings.simplefilter("error")
        assert rows_in(psi.states(file, first=met, count=1).iloc[:, 1:]) == [wanted[met]]
    with pytest.warns(psi.Uncoupled):
        assert rows_in(psi.states(file, first=unmet, count=1).iloc[:, 1:]) == [wanted[unmet]]


def test_processes_make_no_difference(table_of: Draw, program: str) -> None:
    own = [module.Program(program, jobs) for jobs in (1, 4)]
    with pytest.warns(module.Uncoupled):
        one, four = (table_of(example("short-past"), 1, 3, 333, program=each) for each in own)
    pandas.testing.assert_frame_equal(one, four)
    assert len(one) == 333


def test_types_are_as_narrow_as_capacities(psi: Psi) -> None:
    net = psi.Network()
    capacities = {"a": 127, "b": 128, "c": 32_767, "d": 32_768}
    for name, capacity in capacities.items():
        net.queue(name, capacity)
        net.event(f"in-{name}", "arrival", 1, to=[name]).event(f"out-{name}", "service", 2, source=name)
    for limit in (0, 20):
        net.heads["limit"] = limit
        with warnings.catch_warnings():
            warnings.simplefilter("ignore", psi.Uncoupled)
            table = psi.states(net, count=2)
        assert [str(kind) for kind in table.dtypes] == ["uint64", "Int64", "Int8", "Int16", "Int16", "Int32"]
        assert psi.samples(net, count=2, keep=True).dtype == "int32"
    assert psi.samples(example("tandem-blocking"), count=2).dtype == "int8"


def test_what_is_refused(table_of: Draw, psi: Psi, tmp_path: Path) -> None:
    opened = example("tandem-blocking")
    for net, total, status, message in (
        (psi.Network().queue("a", 0), None, 3, "network refused 6 OutOfRange queue 1 capacity"),
        (
            psi.Network().queue("a", 2).event("out", "service", 1, "b"),
            None,
            3,
            "network refused 9 UnknownQueue event 1 from",
        ),
        (opened, 3, 11, "not closed event 0"),
        (example("central-server"), 256, 12, "no state with this total"),
    ):
        with pytest.raises(psi.Refused) as fault:
            table_of(net, total=total, count=5)
        error = fault.value
        assert (error.status, error.line, error.message, str(error)) == (status, f"psi: {message}", message, message)
    with pytest.raises(psi.PsiError):
        table_of(tmp_path / "absent.toml")
    for words in ({"count": 0}, {"seed": -1}, {"first": LAST, "count": 2}, {"total": 257}):
        with pytest.raises(psi.ArgumentError):
            table_of(opened, **words)


def test_a_network_that_is_not_closed(psi: Psi) -> None:
    with pytest.raises(psi.Refused) as fault:
        psi.closed(example("tandem-blocking"), total=3, count=5)
    assert (fault.value.status, fault.value.line) == (11, "psi: not closed event 0")


def test_the_program_is_looked_for_beside_psi_first(
    program: str, tmp_path: Path, monkeypatch: pytest.MonkeyPatch
) -> None:
    own, link = tmp_path / "own", tmp_path / "link"
    own.mkdir()
    link.mkdir()
    shutil.copy(program, own / "psi")
    (link / "psi").symlink_to(own / "psi")
    monkeypatch.setattr("psi_tools.draw.program.TOP", tmp_path)
    psi = module.Program(link / "psi")
    with pytest.raises(PsiError, match="^psi_states isn't built, .*`rt run` in crates/psi_states builds it$"):
        module.states(example("first"), program=psi)
    built, dashed, beside = (tmp_path / "crates/psi_states/out/psi_states", own / "psi-states", link / "psi_states")
    for place in (built, dashed, beside):
        place.parent.mkdir(parents=True, exist_ok=True)
        shutil.copy("/bin/true", place)
        assert companion_of(psi.path, "psi_states") == str(place)
    with pytest.raises(PsiError, match="^psi_states printed no table"):
        module.states(example("first"), program=psi)


def test_a_text_that_is_no_such_table() -> None:
    net = Network.read(example("short-past"))
    head = "stream,horizon,queue.desk,reward.full\n"
    assert head == ",".join(header_of(net)) + "\n"
    assert rows_of(header_of(net), head + "7,64,2,0\n8,,,\n", 7, 2) == ["64,2,0", None]
    for text in (
        "",
        "7,64,2,0\n8,,,\n",
        head + "7,64,2,0\n",
        head + "7,64,2,0\n8,,,",
        head + "7,64,2,0\n9,,,\n",
        head + "8,,,\n7,64,2,0\n",
        head + "7,64,2\n8,,,\n",
        head + "7,64,2,0,8\n,,\n",
        head + "07,64,2,0\n8,,,\n",
        head + "7,64,2,0\n8,,,\n9",
        head + "7,64,2,0\n8,,,\n9,,,\n",
    ):
        readers: tuple[Callable[..., object], ...] = (rows_of, Columns)
        for reader in readers:
            with pytest.raises(PsiError, match="^psi_states printed no "):
                reader(header_of(net), text, 7, 2)


@pytest.mark.parametrize("first", [7, 10**18 - 1, 2**64 - 3])
def test_columns_are_those_of_the_rows(first: int) -> None:
    names = ["stream", "horizon", "queue.desk", "reward.full"]
    lines = [f"{first},4194304,0,-9", f"{first + 1},,,", f"{first + 2},1,65535,{10**18 - 1}"]
    table = Columns(names, "".join(f"{line}\n" for line in [",".join(names), *lines]), first, 3)
    assert table.is_met.tolist() == [True, False, True]
    assert [table.column(name).tolist() for name in names[1:]] == [[4194304, 1], [0, 65535], [-9, 10**18 - 1]]


@pytest.mark.parametrize("row", ["64,x,0", "64,,0", "64,2-,0", "64,-,0", "64, 2,0", f"64,{10**18},0", "64,²,0"])
def test_what_is_no_number_is_refused(row: str) -> None:
    table = Columns(
        ["stream", "horizon", "queue.desk", "reward.full"], f"stream,horizon,queue.desk,reward.full\n7,{row}\n", 7, 1
    )
    assert table.column("horizon").tolist() == [64]
    with pytest.raises(PsiError, match="^psi_states printed no numbers"):
        table.column("queue.desk")


def test_a_bar_is_told_of_each_block(program: str) -> None:
    reported: list[int] = []

    class Recorded(Bar):
        """A bar that records what it is shown."""

        def show(self, done: int) -> None:
            reported.append(done)

    net = Network.read(example("single-server"))
    law = Samples(module.Program(program, 2), net, count=8, progress=Recorded).law("desk")
    assert reported == [1, 2, 3, 4] and law.known == 8


def test_states_without_psi_states(program: str, tmp_path: Path, monkeypatch: pytest.MonkeyPatch) -> None:
    """Where psi_states is not built, arrays are the same, and a table is refused."""
    alone = tmp_path / "psi"
    shutil.copy(program, alone)
    draws: list[Callable[[module.Program], numpy.ndarray[Any, Any]]] = [
        lambda one: module.samples(example("tandem-blocking"), count=20, program=one),
        lambda one: module.closed(example("central-server"), 2, count=20, program=one),
        lambda one: module.samples(example("short-past"), count=9, keep=True, program=one),
    ]
    both = module.Program(program)
    assert both.has_states()
    wanted = [draw(both).tolist() for draw in draws]
    monkeypatch.setattr("psi_tools.draw.program.TOP", tmp_path)
    lone = module.Program(alone, jobs=2)
    assert not lone.has_states()
    assert [draw(lone).tolist() for draw in draws] == wanted
    with pytest.raises(PsiError, match="psi_states isn't built"):
        module.states(example("tandem-blocking"), count=2, program=lone)
