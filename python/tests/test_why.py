"""psi-why: what keeps states apart is found, and what doesn't isn't."""

import json
import tomllib
from pathlib import Path

import pytest
from conftest import TOP, Psi, Tool, example, out_of
from oracle import plain_network

from psi_tools.model.moves import Load, Moves, closed_classes, loads_of
from psi_tools.model.networks import Network
from psi_tools.draw.diagnosis import never_met

PAIRS = (
    Network(version=2, limit=8)
    .queue("nuts", 2)
    .queue("bolts", 2)
    .event("pair", "fork", 1, to=["nuts", "bolts"])
    .event("screw", "join", 1, source=["nuts", "bolts"])
    .toml()
)
PARITY = (
    Network(limit=8)
    .queue("pairs", 5)
    .event("two", "guarded", 1, part=[{"queue": "pairs", "most": 3, "shift": 2}])
    .event("gone", "guarded", 1, part=[{"queue": "pairs", "least": 2, "shift": -2}])
    .toml()
)


def never_of(text: str) -> list[str]:
    net = Network.parse(text)
    return never_met(net, Moves(net))


def test_a_sum_that_is_kept_and_numbers_that_are_not_left() -> None:
    assert never_of(PAIRS) == ["no event changes the sum nuts - bolts: states with other sums never meet"]
    (printed,) = never_of(PARITY)
    assert printed.startswith("pairs has 2 sets of numbers that no event leaves, 0 to 4 (3 of them) and 1 to 5")


def test_the_gallery_is_free_but_for_the_closed_one() -> None:
    for file in sorted((TOP / "examples").glob("*.toml")):
        net = Network.read(file)
        found, classes = never_met(net, Moves(net)), closed_classes(net)
        assert bool(found) == (file.stem == "central-server"), (file, found)
        assert classes is None or (len(classes) == 1) == (not found), file


def test_loads() -> None:
    assert loads_of(Network.read(example("call-centre"))) == [Load(5, 6, 0)]
    loads = loads_of(Network.read(example("tandem-blocking")))
    assert [each.arrivals > 0 and each.service > 0 for each in loads] == [True] * 3
    # A guarded event of a server's rate is one more server.
    net = Network(version=2).queue("a", 9, 2)
    net.event("in", "arrival", 5, to=["a"]).event("out", "service", 2, source="a")
    net.event("third", "guarded", 2, part=[{"queue": "a", "least": 3, "shift": -1}])
    assert loads_of(net) == [Load(5, 6, 0)]


@pytest.mark.parametrize("arrival, servers, places", [(5, 3, 30), (150, 100, 140)])
def test_the_load_counts_each_server_once_and_abandonment_apart(
    tool: Tool, tmp_path: Path, arrival: int, servers: int, places: int
) -> None:
    load = arrival / (2 * servers)
    words = f"--arrival {arrival} --service 2 --servers {servers} --places {places} --patience 0.5"
    assert tool("psi-new", "abandonment", *words.split(), "-o", "net.toml")[0] == 0
    [found] = loads_of(Network.read(tmp_path / "net.toml"))
    assert found.load == pytest.approx(load)
    assert found.giving_up / found.arrivals == pytest.approx(0.5 * (places - servers) / arrival)
    reported = json.loads(tool("psi-why", "net.toml", "--format", "json", "--seconds", 1)[1])
    assert reported["loads"][0]["load"] == pytest.approx(load)


# Two queues, and a switch that only turns where both are alike: each of their sums and numbers can
# be left, and still there are two classes, that of an even and that of an odd state.
SWAP = (
    Network(limit=6)
    .queue("a", 3)
    .queue("b", 3)
    .event("up", "guarded", 1, part=[{"queue": "a", "most": 2, "shift": 1}, {"queue": "b", "most": 2, "shift": 1}])
    .event(
        "down", "guarded", 1, part=[{"queue": "a", "least": 1, "shift": -1}, {"queue": "b", "least": 1, "shift": -1}]
    )
    .event("cross", "guarded", 1, part=[{"queue": "a", "least": 2, "shift": -2}, {"queue": "b", "most": 3, "floor": 0}])
    .event("back", "guarded", 1, part=[{"queue": "b", "least": 2, "shift": -2}, {"queue": "a", "floor": 0}])
    .toml()
)


@pytest.mark.parametrize("text, line", [(PAIRS, ""), (PARITY, ""), (SWAP, "the states have 2 classes that no event")])
def test_what_is_told_never_to_couple_does_not(tool: Tool, tmp_path: Path, text: str, line: str) -> None:
    (tmp_path / "net.toml").write_text(text)
    status, out, _ = tool("psi-why", "net.toml")
    assert status == 1
    assert out.startswith(f"NEVER COUPLES: {line}")
    assert "\nmet,-,0\n" in tool("psi-many", "net.toml", 0, 0, 40)[1]


def test_closed_classes_of_small_networks_are_found() -> None:
    assert never_of(SWAP) == []
    classes = closed_classes(Network.parse(SWAP))
    assert classes is not None and len(classes) == 2
    # Each class is left by no event, as the plain program has them.
    plain = plain_network.Network(tomllib.loads(SWAP))
    for states in classes:
        reached = {event.after(x) for event in plain.events for x in states}
        assert reached <= {*states}


def test_horizons_are_those_of_the_report(tool: Tool, psi: Psi) -> None:
    reported = json.loads(tool("psi-why", example("single-server"), "--format", "json")[1])
    report = psi.report(example("single-server"), 0, 0, 20)
    rows = report[report["item"] == "horizon"]
    wanted = [[int(name), value] for name, value in zip(rows["name"], rows["value"])]
    assert reported["horizons"][-1][1:] == [20, wanted]
    assert reported["never"] == [] and reported["stopped"] is False


def test_single_states_are_told_where_streams_are_not_met(tool: Tool, tmp_path: Path) -> None:
    text = example("longest-queue").read_text()
    (tmp_path / "net.toml").write_text(text.replace("\nsplit = 1\n", "\nsplit = 1\nlimit = 8\n"))
    out = out_of(tool("psi-why", "net.toml", "--seconds", "60"))
    wanted = "all 64 states, followed each by itself, have met after 30 steps (stream 0), "
    assert f"\n{wanted}the boxes of a run after 1,586\n" in out
    assert "\nwhat may help: a greater limit: 20, or 22 in version 2; the file's is 8\n" in out


def test_events_that_are_not_monotone(tool: Tool) -> None:
    assert "isn't monotone" in out_of(tool("psi-why", example("batch-arrivals"), "--seconds", "2"))
