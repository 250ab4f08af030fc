"""psi-plot forward: where forward runs end, beside plain events and a solved chain."""

from pathlib import Path
from typing import Any

import numpy
import pytest
from conftest import Tool, example, is_refused
from oracle.plain_network import Event
from oracle.plain_network import Network as Plain
from solving import law_of

from psi_tools.plot.forward import forward_of
from psi_tools.model.networks import Network

# The events with the share of the words of each, and a distribution over the states.
Shares = list[tuple[float, Event]]
Law = numpy.ndarray[Any, Any]
GUARDED = (
    Network()
    .queue("desk", 6, 3)
    .event("come", "arrival", 5, to=["desk"])
    .event("serve", "service", 2, source="desk")
    .event("leave", "guarded", 3, part=[{"queue": "desk", "least": 2, "shift": -2, "floor": 1}])
    .toml()
)


def plain_of(path: str | Path) -> tuple[Network, Shares, float, range]:
    """The network, the plain events with the share of the words of each, that of idle, and
    the states."""
    net = Network.read(path)
    plain = Plain({**net.heads, **net.table})
    shares = [(event.rate / plain.modulus, event) for event in plain.events]
    return net, shares, plain.idle / plain.modulus, range(plain.caps[0] + 1)


def after(shares: Shares, idle: float, law: Law) -> Law:
    """The law after one step, from that before."""
    found = idle * law
    for number, probability in enumerate(law):
        for share, event in shares:
            found[event.after((number,))[0]] += share * probability
    return found


def met(shares: Shares, idle: float, states: range) -> Law:
    """The law of the first single state, followed by the sets of all runs, 5,000 steps long."""
    laws, found = {frozenset(states): 1.0}, numpy.zeros(len(states))
    for _ in range(5_000):
        following: dict[frozenset[int], float] = {}
        for runs, probability in laws.items():
            following[runs] = following.get(runs, 0) + idle * probability
            for share, event in shares:
                image = frozenset(event.after((number,))[0] for number in runs)
                if len(image) == 1:
                    found[min(image)] += share * probability
                else:
                    following[image] = following.get(image, 0) + share * probability
        laws = following
    return found


@pytest.mark.parametrize("name", ["single-server", "first", "call-centre", "guarded"])
def test_forward_runs_end_as_the_plain_events_say(program: str, tmp_path: Path, name: str) -> None:
    path = example(name)
    if name == "guarded":
        path = tmp_path / "guarded.toml"
        path.write_text(GUARDED)
    net, shares, idle, states = plain_of(path)
    found = forward_of(program, str(path), ("1", "9"))
    assert [*found.after] == [1, 9]
    for begin in states:
        law = numpy.eye(len(states))[begin]
        for steps in range(1, 10):
            law = after(shares, idle, law)
            if steps in found.after:
                assert found.after[steps][begin] == pytest.approx(law, abs=1e-12)
    assert found.law == pytest.approx(law_of(net)[1], abs=1e-9)
    assert found.met == pytest.approx(met(shares, idle, states), abs=1e-9)


def test_a_distance_is_the_greatest_error_of_an_event(program: str) -> None:
    found = forward_of(program, str(example("single-server")), ())
    gaps = found.after[32] - found.law
    worst = max(numpy.maximum(gap, 0).sum() for gap in gaps)
    assert found.distance(32) == pytest.approx(worst)


@pytest.mark.parametrize(
    "words, printed",
    [
        ([example("tandem-blocking")], "a network of one queue"),
        ([example("batch-arrivals")], "no event such as"),
        ([example("single-server"), "0"], "isn't a number of steps"),
        ([example("single-server"), "4194305"], "isn't a number of steps"),
        ([example("single-server"), "1", "2", "3", "4"], "at most 3 numbers"),
        (["absent"], "can't be read"),
        (["refused.toml"], "network refused"),
        (["apart.toml"], "several laws"),
        (["swapped.toml"], "all monotone"),
        ([], "needs a file"),
    ],
)
def test_what_cannot_be_drawn_is_refused(tool: Tool, tmp_path: Path, words: list[object], printed: str) -> None:
    (tmp_path / "refused.toml").write_text("version = 1\n")
    head, part = GUARDED.split('[[event]]\nname = "come"')[0], 'kind = "guarded"\nrate = 1\n'
    event = f'[[event]]\nname = "swap"\n{part}'
    apart = 'part = [{ queue = "desk", least = 3, shift = -1, floor = 3 }]\n'
    swapped = 'part = [{ queue = "desk", most = 0, shift = 6 }]\n'
    down = event.replace("swap", "down") + 'part = [{ queue = "desk", least = 1, shift = -1 }]\n'
    (tmp_path / "apart.toml").write_text(head + event + apart)
    (tmp_path / "swapped.toml").write_text(head + event + swapped + down)
    end = tool("psi-plot", "forward", *words, "-o", "drawn.svg")
    assert is_refused(end, printed) and end[2].count("\n") == 1, end
    assert not (tmp_path / "drawn.svg").exists()
