"""What events may do to the numbers of customers: the changes that are possible, and their bounds.

The rules of the guide's kinds, as far as they determine what may happen to a queue at some number of
customers whatever the other queues hold. Nothing is sampled here.

Of a small network the closed classes are found exactly: sets of states that no event leaves. Two of them are states
that never meet, whatever the random words are.
"""

import collections
import dataclasses
import itertools
import math
from collections.abc import Callable
from fractions import Fraction
from typing import Any

import numpy

from psi_tools.model.networks import Network, Table
from psi_tools.stats.mean_values import kernel

# By how much an event changes each queue, by its place; numbers before and after; rates from queue to queue.
Change = dict[int, int]
Steps = tuple[Any, Any]
Routes = dict[tuple[int, int], float]
State = tuple[int, ...]
# The most states that are followed, and the most steps from them.
MOST_STATES, MOST_STEPS = 20_000, 400_000


def names_in(value: Any) -> list[str]:
    """The names in `from` or `to`: none, one, or a list."""
    return [value] if isinstance(value, str) else [*(value or ())]


class Moves:
    """The possible changes of a network's events, counted without their servers."""

    def __init__(self, net: Network) -> None:
        self.net = net
        self.place = {name: place for place, name in enumerate(net.queues)}
        self.capacities = net.capacities

    def places(self, event: Table, key: str) -> list[int]:
        """The places of the queues of `from` or `to`."""
        return [self.place[name] for name in names_in(event.get(key))]

    def changes(self, event: Table) -> list[Change]:
        """Changes of states by an event, each a dict of a queue's place and by how much its number
        changes, whose differences and sums span all that it may do."""
        kind, sources, targets = event["kind"], self.places(event, "from"), self.places(event, "to")
        if kind == "guarded":
            return self.changes_of_parts(event["part"])
        taken = {place: -1 for place in sources}
        if kind in ("fork", "join"):
            return [{**taken, **dict.fromkeys(targets, 1)}]
        if kind == "negative":
            on = self.place[event["on"]]
            most = min(event.get("amount", 1), self.capacities[on])
            return [*([taken] if taken else []), {**taken, on: -1}, {**taken, on: -most}]
        size = event.get("size", 1)
        found = [{**taken, place: size} for place in targets]
        if sources and (event.get("full", "lost") == "lost" or not targets):
            found.append(taken)
        return found

    def changes_of_parts(self, parts: list[Table]) -> list[Change]:
        """The changes of a guarded event: its first one, and this with another of each part."""
        options = []
        for part in parts:
            place = self.place[part["queue"]]
            least, most, after = rule_of(part, self.capacities[place])
            # A number changes by less the greater it is, so the ends of the guard have the extremes.
            options.append((place, sorted({int(after(number)) - number for number in (least, most)})))
        first = {place: ends[0] for place, ends in options}
        others = [{**first, place: end} for place, ends in options for end in ends[1:]]
        return [first, *others]

    def kept_sums(self) -> list[list[int]]:
        """Weights of the queues whose sums no event changes: a basis, of whole numbers. States with
        another such sum never meet."""
        places = range(len(self.capacities))
        changes = (change for event in self.net.table["event"] for change in self.changes(event))
        rows = ([change.get(place, 0) for place in places] for change in changes)
        return [whole(weights) for weights in kernel(rows, len(places))]

    def steps(self, place: int) -> list[Steps]:
        """Where a queue may go from each of its numbers: pairs of arrays, the numbers before and
        after, as if all other queues held what lets it."""
        return [pair for event in self.net.table["event"] for pair in self.steps_of(event, place)]

    def steps_of(self, event: Table, place: int) -> list[Steps]:
        """The steps that one event may make a queue take."""
        capacity, kind = self.capacities[place], event["kind"]
        numbers = numpy.arange(capacity + 1)
        if kind == "guarded":
            name = self.net.queues[place]
            part = next((part for part in event["part"] if part["queue"] == name), None)
            if part is None:
                return []
            least, most, after = rule_of(part, capacity)
            numbers = numbers[least : most + 1]
            return [(numbers, after(numbers))]
        found = []
        if place in self.places(event, "from"):
            found.append((numbers[1:], numbers[1:] - 1))
        if kind == "negative" and self.place[event["on"]] == place:
            found.append((numbers, numpy.maximum(numbers - event.get("amount", 1), 0)))
        if place in self.places(event, "to"):
            size = event.get("size", 1)
            found.append((numbers[: capacity + 1 - size], numbers[size:]))
        return found

    def traps(self, place: int) -> list[tuple[int, int, int]]:
        """The sets of numbers of a queue that can't be left, each as its least, its greatest and
        how many numbers it has: where there are two, states that never meet."""
        count = self.capacities[place] + 1
        pairs = self.steps(place)
        begins = numpy.concatenate([[0], *(begin for begin, _ in pairs)]).astype(int)
        ends = numpy.concatenate([[0], *(end for _, end in pairs)]).astype(int)
        return sorted((int(own[0]), int(own[-1]), len(own)) for own in closed_parts(begins, ends, count))


def closed_parts(begins: Any, ends: Any, count: int) -> list[Any]:
    """The strongly connected parts of a graph that no edge leaves, each by its places, ascending. The edges lead
    from `begins` to `ends`, which are places below `count`."""
    # Both take a while to be read.
    import scipy.sparse
    import scipy.sparse.csgraph

    graph = scipy.sparse.coo_matrix((numpy.ones(len(begins)), (begins, ends)), (count, count))
    many, labels = scipy.sparse.csgraph.connected_components(graph, connection="strong")
    is_left = numpy.zeros(many, bool)
    is_left[labels[begins[labels[begins] != labels[ends]]]] = True
    return [numpy.flatnonzero(labels == label) for label in numpy.flatnonzero(~is_left)]


def rule_of(part: Table, capacity: int) -> tuple[int, int, Callable[[Any], Any]]:
    """From which number to which a part asks, and what it makes of numbers."""
    shift, cut = part.get("shift", 0), (part.get("floor", 0), part.get("ceiling", capacity))
    return part.get("least", 0), part.get("most", capacity), lambda numbers: numpy.clip(numbers + shift, *cut)


def whole(weights: list[Fraction]) -> list[int]:
    """The least whole numbers in proportion to some weights, the first of which that isn't 0 is above it."""
    factor = math.lcm(*(weight.denominator for weight in weights))
    numbers = [int(weight * factor) for weight in weights]
    common = math.gcd(*numbers) * (1 if next(filter(None, numbers)) > 0 else -1)
    return [number // common for number in numbers]


@dataclasses.dataclass
class Load:
    """The flow of a queue, as rates: of customers that come, of the service of all its servers, and
    at which customers who wait give up at most, where as many wait as can."""

    arrivals: float
    service: float
    giving_up: float

    @property
    def load(self) -> float | None:
        """The rate at which customers come beside that of the service; none without a service."""
        return self.arrivals / self.service if self.service else None


def loads_of(net: Network) -> list[Load]:
    """The load of each queue: customers come as if nobody was lost, stayed or gave up, and go to
    the first queue of a list, and by an index to each as often. A service event counts once a
    server; abandonment is counted apart."""
    moves = Moves(net)
    count = len(net.queues)
    outer, served, leaving = [0.0] * count, [0.0] * count, [0.0] * count
    routes: Routes = collections.defaultdict(float)
    waiting = abandonments(net)
    for event in net.table["event"]:
        taken = leaving if event["name"] in waiting else served
        flows_of(moves, event, outer, taken, routes if taken is served else {})
    rates = outer[:]
    for _ in range(200):
        after = outer[:]
        for (source, target), rate in routes.items():
            if served[source]:
                after[target] += min(rates[source], served[source]) * rate / served[source]
        rates = after
    return [Load(*each) for each in zip(rates, served, leaving)]


def abandonments(net: Network) -> set[str]:
    """The names of the events by which customers who wait give up: guarded ones that take one from
    a queue of two or more, and have another rate than any service of the queue. Of the same rate it
    is one more server."""
    base, late = collections.defaultdict(set), []
    for event in net.table["event"]:
        if event["kind"] == "service":
            base[event["from"]].add(event["rate"])
        parts = event.get("part", [])
        takes = [part for part in parts if part.get("shift", 0) < 0]
        if len(takes) == 1 and len(parts) == 1 and takes[0].get("least", 0) > 1:
            late.append((event, takes[0]["queue"]))
        else:
            for part in takes:
                base[part["queue"]].add(event["rate"])
    return {event["name"] for event, queue in late if base[queue] and event["rate"] not in base[queue]}


def flows_of(moves: Moves, event: Table, outer: list[float], served: list[float], routes: Routes) -> None:
    """Adds what an event brings to a queue, takes from one, or moves between two, as rates."""
    rate = event["rate"] * moves.net.servers_of(event)
    if event["kind"] == "guarded":
        shifts = [(moves.place[part["queue"]], part.get("shift", 0)) for part in event["part"]]
        sources = [place for place, shift in shifts if shift < 0]
        targets = [(place, shift) for place, shift in shifts if shift > 0]
        taken = {place: -shift for place, shift in shifts if shift < 0}
    else:
        sources = moves.places(event, "from")
        size = event.get("size", 1) if event["kind"] in ("batch", "index") else 1
        found = moves.places(event, "to")
        if event["kind"] == "index":
            size /= len(found)
        every = event["kind"] in ("fork", "join", "index")
        targets = [(place, size) for place in (found if every else found[:1])]
        taken = dict.fromkeys(sources, 1)
        if event["kind"] == "negative":
            taken[moves.place[event["on"]]] = event.get("amount", 1)
    for place, many in taken.items():
        served[place] += rate * many
    for place, many in targets:
        if sources:
            routes[sources[0], place] = routes.get((sources[0], place), 0.0) + rate * many
        else:
            outer[place] += rate * many


def closed_classes(net: Network) -> list[list[State]] | None:
    """The closed classes of the states of a network, each of which is followed through each event by itself: the
    strongly connected parts of this graph that no edge leaves. None where there are too many states."""
    many = math.prod(capacity + 1 for capacity in net.capacities)
    events = net.followed().events
    if many > MOST_STATES or many * len(events) > MOST_STEPS:
        return None
    states = [*itertools.product(*(range(capacity + 1) for capacity in net.capacities))]
    place = {state: number for number, state in enumerate(states)}
    begins = numpy.repeat(numpy.arange(many), len(events))
    ends = numpy.array([place[tuple(event.after(x))] for x in states for event in events])
    return [[states[number] for number in part] for part in closed_parts(begins, ends, many)]


def describe_classes(net: Network) -> list[str]:
    """The line on a network with several closed classes, which never couples."""
    found = closed_classes(net)
    if found is None or len(found) < 2:
        return []
    shown = " and of ".join(",".join(map(str, states[0])) for states in found[:2]) + " .." * (len(found) > 2)
    head = f"the states have {len(found)} classes that no event leaves, as those of {shown}"
    return [f"{head}: states in different ones never meet"]
