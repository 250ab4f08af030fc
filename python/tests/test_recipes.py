"""docs/RECIPES.md: the law of each recipe is that of its model, a chain that is written here as a
textbook has it, apart from the file, and solved; samples of the built program have its means."""

import collections
import math
import re
from collections.abc import Callable, Iterator
from typing import Any

import numpy
import pandas
import pytest
from conftest import TOP, Psi
from solving import law_of

from psi_tools.model.networks import Network

# A state of a model, what may come next with its rate, the model, and the state of the file that stands for one.
State = Any
Moves = Iterator[tuple[int, State]]
Model = Callable[[State], Moves]
Meant = Callable[[State], tuple[int, ...]]
PART = re.compile(r"^## ([^\n]*)$|^```toml\n(.*?)^```\n", re.M | re.S)
SAMPLES, CLOSED, ERRORS = 4_000, 200, 4


def recipes() -> Iterator[tuple[str, str]]:
    """The recipes of the document: the heading, and the file."""
    heading = ""
    for found in PART.finditer((TOP / "docs/RECIPES.md").read_text()):
        if found[2] is None:
            heading = found[1]
        else:
            yield heading, found[2]


# Each model: where it starts, and of each state what may come next, at which rate.


def many_servers(n: int) -> Moves:
    yield 60, n + (n < 72)
    yield min(n, 67), max(n - 1, 0)


def priority(state: State) -> Moves:
    urgent, other = state
    at_urgent = min(urgent, 3)
    at_other = min(other, 3 - at_urgent)
    yield 3, (min(urgent + 1, 5), other)
    yield 4, (urgent, min(other + 1, 7))
    yield 3 * at_urgent, (urgent - 1, other)
    yield 2 * at_other, (urgent, other - 1)


def shared(state: State) -> Moves:
    first, second = state
    if first + second < 8:
        yield 3, (first + 1, second)
        if second < 6:
            yield 2, (first, second + 1)
    yield 4 * (first > 0), (first - 1, second)
    yield 2 * (second > 0), (first, second - 1)


def polling(state: State) -> Moves:
    """The state: both queues, where the server is or goes to, and whether it walks."""
    held, place, walks = state[:2], state[2], state[3]
    for queue, rate in enumerate((2, 1)):
        more = list(held)
        more[queue] = min(more[queue] + 1, (4, 3)[queue])
        yield rate, (*more, place, walks)
    if not walks:
        less = list(held)
        less[place] -= 1
        goes_on = less[place] > 0
        yield (5, 4)[place], (*less, place if goes_on else 1 - place, not goes_on)
    elif held[place]:
        yield 6, (*held, place, False)
    else:
        yield 6, (*held, 1 - place, True)


def retrial(state: State) -> Moves:
    lines, orbit = state
    if lines < 2:
        yield 6, (lines + 1, orbit)
        yield 3 * orbit, (lines + 1, orbit - 1)
    else:
        yield 6, (lines, min(orbit + 1, 10))
    yield 4 * lines, (lines - 1, orbit)


def modulated(state: State) -> Moves:
    is_busy, n = state
    yield 3 if is_busy else 1, (not is_busy, n)
    yield 8 if is_busy else 2, (is_busy, min(n + 1, 8))
    yield 5 * (n > 0), (is_busy, n - 1)


def stock(state: State) -> Moves:
    """The state: what is there, and what is ordered."""
    here, ordered = state
    if here:
        yield 4, (here - 1, 6 if here - 1 == 3 and not ordered else ordered)
    if ordered:
        yield 1, (here + ordered, 0)


def n_policy(state: State) -> Moves:
    is_on, jobs = state
    more = min(jobs + 1, 9)
    yield 3, (is_on or more == 4, more)
    if is_on:
        yield 4, (jobs > 1, jobs - 1)


def repair(broken: int) -> Moves:
    yield 6 - broken, broken + 1
    yield 4 * min(broken, 2), broken - 1


def round_robin(state: State) -> Moves:
    first, second, is_seconds = state
    if is_seconds:
        yield 5, (first, min(second + 1, 5), False)
    else:
        yield 5, (min(first + 1, 5), second, True)
    yield 3 * (first > 0), (first - 1, second, is_seconds)
    yield 3 * (second > 0), (first, second - 1, is_seconds)


# For each file: the model, its first state, the state of the file that stands for a state of the
# model, and the number of customers where it is closed.
MODELS = [
    (many_servers, 0, lambda n: (n,), None),
    (priority, (0, 0), lambda state: state, None),
    (shared, (0, 0), lambda state: (8 - sum(state), *state), 8),
    (polling, (0, 0, 0, True), lambda x: (x[0], x[1], (2 * x[2] - x[3]) % 4), None),
    (retrial, (0, 0), lambda state: state, None),
    (modulated, (False, 0), lambda state: tuple(map(int, state)), None),
    (stock, (9, 0), lambda state: state[:1], None),
    (n_policy, (False, 0), lambda state: tuple(map(int, state)), None),
    (repair, 0, lambda broken: (6 - broken, broken), 6),
    (repair, 0, lambda broken: (broken,), None),
    (round_robin, (0, 0, False), lambda x: (int(x[2]), x[0], x[1]), None),
]


def solved(model: Model, first: State) -> dict[State, float]:
    """The law of a model: the probability of each state that is reached."""
    states, place = [first], {first: 0}
    moves = []
    for x in states:
        for rate, y in model(x):
            if rate and y not in place:
                place[y] = len(states)
                states.append(y)
            if rate:
                moves.append((rate, place[x], place[y]))
    matrix = numpy.zeros((len(states), len(states)))
    for rate, x, y in moves:
        matrix[y, x] += rate
        matrix[x, x] -= rate
    matrix[-1] = 1
    law = numpy.linalg.solve(matrix, numpy.eye(len(states))[-1])
    return dict(zip(states, law))


def test_each_recipe_has_a_model() -> None:
    assert len([*recipes()]) == len(MODELS)


CASES = [(*recipe, *model) for recipe, model in zip(recipes(), MODELS)]
NAMES = [f"{case[0]}-{case[2].__name__}-{case[5]}" for case in CASES]


@pytest.mark.parametrize("name, text, model, first, meant, total", CASES, ids=NAMES)
def test_the_law_is_that_of_the_model_and_samples_have_its_means(
    psi: Psi, name: str, text: str, model: Model, first: State, meant: Meant, total: int | None
) -> None:
    net, law = Network.parse(text), solved(model, first)
    wanted: dict[tuple[int, ...], float] = collections.defaultdict(float)
    for state, probability in law.items():
        wanted[meant(state)] += probability
    for state, probability in zip(*law_of(net, total)):
        assert math.isclose(probability, wanted.pop(state, 0), abs_tol=1e-12), (name, state)
    assert not wanted
    states, weights = numpy.array([meant(state) for state in law]), numpy.array([*law.values()])
    means = weights @ states
    spreads = numpy.sqrt(weights @ (states - means) ** 2)
    if total is None:
        many, found = SAMPLES, means_of_report(psi.report(net, 0, 0, SAMPLES), net, SAMPLES)
    else:
        many, found = CLOSED, psi.closed(net, total, 0, 0, CLOSED).mean(axis=0)
    for queue, mean, spread, sampled in zip(net.queues, means, spreads, found):
        error = spread / math.sqrt(many)
        assert abs(sampled - mean) <= ERRORS * error, (name, queue)


def means_of_report(report: pandas.DataFrame, net: Network, many: int) -> list[float]:
    """The mean of each queue in a report of streams that are all met."""
    value = report.set_index(["item", "name"])["value"]
    assert value["met", "-"] == many
    return [value["sum", queue] / many for queue in net.queues]
