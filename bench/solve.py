#!/usr/bin/env python3
"""solve.py FILE QUEUE [--total N]

Solves the stationary equations of a network by scipy.sparse, and prints the mean length of a queue
and the number of states. The states are all that the capacities admit, or those with N customers.
Up to 3,000 states the equations are solved directly; above that by steps of the uniformized chain,
until one changes the distribution by less than 1e-9.
"""

import argparse
import math
import sys
from typing import Any

import numpy
import on_path  # noqa: F401
import scipy.sparse
import scipy.sparse.linalg
from events import Event, events_of
from psi_tools.model.networks import Network

Array = numpy.ndarray[Any, Any]
DIRECT, MOST_STATES, TOLERANCE, STRETCH = 3_000, 1_000_000, 1e-9, 50


def states_of(capacities: list[int], total: int | None) -> Array:
    """All states, or those of a total, a row for each, in the order of their ranks."""
    sizes = [capacity + 1 for capacity in capacities]
    if total is None:
        return numpy.indices(sizes).reshape(len(sizes), -1).T
    rows: list[tuple[tuple[int, ...], int]] = [((), total)]
    for capacity in capacities:
        rows = [((*state, number), left - number) for state, left in rows for number in range(min(capacity, left) + 1)]
    return numpy.array([state for state, left in rows if left == 0])


def count_of(capacities: list[int], total: int | None) -> int:
    """The number of states, without making them."""
    if total is None:
        return math.prod(capacity + 1 for capacity in capacities)
    counts = [1, *[0] * total]
    for capacity in capacities:
        # The number of states of the queues so far, for each total.
        counts = [sum(counts[max(0, place - capacity) : place + 1]) for place in range(total + 1)]
    return counts[total]


def chosen(event: Event, states: Array, has_space: Array) -> Array:
    """For each state the target of a route, and -1 where none has space."""
    target = numpy.full(len(states), -1)
    fewest = numpy.full(len(states), numpy.iinfo(numpy.int64).max)
    for queue in event.targets:
        number = states[:, queue] if event.is_shortest else numpy.zeros(len(states))
        better = has_space[:, queue] & (number < fewest)
        target[better] = queue
        fewest[better] = number[better]
    return target


def images(event: Event, states: Array, capacities: Array) -> Array:
    """What an event makes of each state."""
    after, has_space = states.copy(), states < capacities
    able = numpy.ones(len(states), dtype=bool)
    for place, queue in enumerate(event.takes):
        able &= states[:, queue] >= (1 if place else event.least)
    if event.is_route:
        target = chosen(event, states, has_space)
        able &= (target >= 0) | event.leaves
        moves = numpy.flatnonzero(able & (target >= 0))
        after[moves, target[moves]] += 1
    else:
        able &= has_space[:, list(event.targets)].all(axis=1)
        after[numpy.ix_(numpy.flatnonzero(able), numpy.array(event.targets, int))] += 1
    after[numpy.ix_(numpy.flatnonzero(able), numpy.array(event.takes, int))] -= 1
    return after


def generator(net: Network, states: Array) -> scipy.sparse.csc_matrix:
    """The transposed generator: the rate from state j to state i at row i and column j."""
    capacities, count = numpy.array(net.capacities), len(states)
    weights = numpy.append(numpy.cumprod((capacities + 1)[::-1])[-2::-1], 1)
    ranks, numbers = states @ weights, numpy.arange(count)
    matrix = scipy.sparse.csc_matrix((count, count))
    for event in events_of(net):
        to = numpy.searchsorted(ranks, images(event, states, capacities) @ weights)
        moved = numpy.flatnonzero(to != numbers)
        rates = numpy.full(len(moved), float(event.rate))
        rows = numpy.concatenate([to[moved], moved])
        columns = numpy.concatenate([moved, moved])
        entries = numpy.concatenate([rates, -rates]), (rows, columns)
        matrix = matrix + scipy.sparse.csc_matrix(entries, (count, count))
    return matrix


def iterated(matrix: scipy.sparse.csc_matrix) -> Array:
    """The stationary distribution by steps of the uniformized chain, until one changes it by less
    than the tolerance."""
    rows, rate = matrix.tocsr(), -1.001 * matrix.diagonal().min()
    found: Array = numpy.full(rows.shape[0], 1 / rows.shape[0])
    change = math.inf
    while change > TOLERANCE:
        for _ in range(STRETCH):
            found += rows @ found / rate
        change = abs(rows @ found).sum() / rate
    law: Array = found / found.sum()
    return law


def stationary(matrix: scipy.sparse.csc_matrix) -> Array:
    """The stationary distribution. Solved directly, the first state has the weight 1."""
    if matrix.shape[0] > DIRECT:
        return iterated(matrix)
    inner, right = matrix[1:, 1:].tocsc(), -matrix[1:, 0].toarray().ravel()
    weights = numpy.append(1.0, scipy.sparse.linalg.spsolve(inner, right))
    law: Array = weights / weights.sum()
    return law


def mean_of(net: Network, watched: str, total: int | None) -> tuple[float, int]:
    """The mean length of a queue, and the number of states."""
    states = states_of(net.capacities, total)
    found = stationary(generator(net, states))
    return float(found @ states[:, net.queues.index(watched)]), len(states)


def main() -> int:
    parser = argparse.ArgumentParser(usage=__doc__)
    parser.add_argument("file")
    parser.add_argument("queue")
    parser.add_argument("--total", type=int)
    given = parser.parse_args()
    print(*mean_of(Network.read(given.file), given.queue, given.total))
    return 0


if __name__ == "__main__":
    sys.exit(main())
