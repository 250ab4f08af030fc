"""The stationary law of a small network, solved from its events as the plain program has them."""

import itertools
from collections.abc import Iterable
from typing import Any

import numpy
import scipy.sparse
import scipy.sparse.linalg

from oracle.plain_network import Network as Plain
from oracle.plain_network import Reward, State
from psi_tools.model.networks import Network


def law_of(net: Network, total: int | None = None) -> tuple[list[State], numpy.ndarray[Any, Any]]:
    """The states, of a total where one is given, and the probability of each."""
    plain = Plain({**net.heads, **net.table})
    states = [*itertools.product(*(range(cap + 1) for cap in plain.caps))]
    states = [x for x in states if total is None or sum(x) == total]
    place = {x: k for k, x in enumerate(states)}
    rows, columns, rates = [], [], []
    for x in states:
        for event in plain.events:
            y = event.after(x)
            if y != x:
                rows += [place[y], place[x]]
                columns += [place[x], place[x]]
                rates += [event.rate, -event.rate]
    count = len(states)
    matrix = scipy.sparse.coo_matrix((rates, (rows, columns)), (count, count)).tolil()
    matrix[0] = numpy.ones(count)
    wanted = numpy.zeros(count)
    wanted[0] = 1
    found = scipy.sparse.linalg.spsolve(matrix.tocsc(), wanted)
    assert found.min() > -1e-9
    return states, found


def birth_and_death(birth: float, deaths: Iterable[float]) -> list[float]:
    """The law of a number that rises at a rate, and falls at these from 1, 2, .. on, by its formula."""
    weights = [*itertools.accumulate(deaths, lambda weight, death: weight * birth / death, initial=1.0)]
    total = sum(weights)
    return [weight / total for weight in weights]


def erlang_b(lines: int, load: float) -> float:
    """Erlang's formula B."""
    return birth_and_death(load, range(1, lines + 1))[-1]


def means_of(net: Network, total: int | None = None) -> tuple[dict[str, float], dict[str, float]]:
    """The mean of each queue, and of each reward, by their names in two dicts."""
    plain = Plain({**net.heads, **net.table})
    states, law = law_of(net, total)
    queues = dict(zip(net.queues, numpy.array(states).T @ law))

    def mean(reward: Reward) -> float:
        return float(sum(p * reward.value(x) for x, p in zip(states, law)))

    return queues, {reward.name: mean(reward) for reward in plain.rewards}
