"""The mean number of customers in each queue of a closed network, by mean value analysis (Reiser and Lavenberg 1980).

The network is one of single servers, all of whose events are services with one queue to go to, and
a customer who finds that full stays. Its law is of product form (Gordon and Newell 1967) where
nobody ever does: so each queue has room for all TOTAL, and every queue can be reached from every
other.
"""

from collections.abc import Iterable, Sequence
from fractions import Fraction
from typing import Any

from psi_tools.errors import PsiError
from psi_tools.model.networks import Table

Rates = Sequence[Sequence[Any]]

APART = "not every queue can be reached from every other"


def rates_of(net: Table, total: int) -> list[list[int]]:
    """The rate from each queue to each other, as rows, by the numbers of the queues."""
    place = {queue["name"]: i for i, queue in enumerate(net["queue"])}
    for queue in net["queue"]:
        if queue.get("servers", 1) > 1 or queue["capacity"] < total:
            raise PsiError(f"{queue['name']} has several servers, or no room for all")
    rows = [[0] * len(place) for _ in place]
    for event in net["event"]:
        to = event.get("to", [])
        if event["kind"] != "service" or len(to) != 1 or event.get("full") != "stay":
            raise PsiError(f"{event['name']} doesn't move a customer who stays where there is no room")
        rows[place[event["from"]]][place[to[0]]] += event["rate"]
    return rows


def flows_of(rows: Rates) -> list[Fraction]:
    """How many customers come to each queue for each that comes to the first, by the balance of all queues."""
    if not all(map(sum, rows)):
        raise PsiError(APART)
    share = [[Fraction(rate, sum(row)) for rate in row] for row in rows]
    balance = [[row[j] - (i == j) for i, row in enumerate(share)] for j in range(1, len(rows))]
    flows, *others = kernel(balance, len(rows))
    if others or not flows[0]:
        raise PsiError(APART)
    return [flow / flows[0] for flow in flows]


def means_of(rows: Rates, total: int) -> list[float]:
    """The mean number of customers in each queue, from one customer in all up to the total."""
    demands = [float(flow / sum(row)) for flow, row in zip(flows_of(rows), rows)]
    means = [0.0] * len(rows)
    for customers in range(1, total + 1):
        # A customer finds what there is on average with one customer less.
        times = [demand * (1 + mean) for demand, mean in zip(demands, means)]
        means = [customers * time / sum(times) for time in times]
    return means


def kernel(rows: Iterable[Sequence[int | Fraction]], width: int) -> list[list[Fraction]]:
    """A basis of the vectors whose product with each row is 0, by elimination: each has a 1 at a place of its own."""
    found: dict[int, list[Fraction]] = {}
    for row in rows:
        vector = [*map(Fraction, row)]
        for place in range(width):
            if vector[place] and place not in found:
                found[place] = [value / vector[place] for value in vector]
                break
            if factor := vector[place]:
                vector = [value - factor * other for value, other in zip(vector, found[place])]
    basis = []
    for free in (place for place in range(width) if place not in found):
        weights = [Fraction(place == free) for place in range(width)]
        for place in sorted(found, reverse=True):
            weights[place] = -sum((found[place][k] * weights[k] for k in range(place + 1, width)), Fraction(0))
        basis.append(weights)
    return basis
