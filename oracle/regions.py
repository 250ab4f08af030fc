"""Samples of networks with too many states to list: each horizon is run again, from two tuples (Propp
and Wilson 1996), or from the box of all states, whose image's hull is taken from states that are
listed over the queues that the event names, and from few states on from the set of these (Bušić,
Gaujal and Vincent 2008), with the events of plain_network.py and the random words of plain.py.
"""

import itertools
import math
from collections.abc import Iterable

from oracle import plain
from oracle.plain import Outcome
from oracle.plain_network import Event, Network, State, box


def corners_outcome(net: Network, seed: int, stream: int) -> Outcome:
    """The least horizon among the powers of two at which the two corners meet, and where."""
    words = plain.Words(seed, stream)

    def ends(horizon: int) -> set[State]:
        low, high = (0,) * len(net.caps), net.caps
        for place in range(horizon - 1, -1, -1):
            event = net.event_of(words[place])
            if event is not None:
                low, high = event.routed(low), event.routed(high)
        return {low, high}

    return plain.first_single(plain.powers(net), ends)


def named_by(event: Event) -> list[int]:
    """The queues that an event names."""
    if event.kind in ("arrival", "service", "index", "batch"):
        return sorted({*event.to, *([] if event.source is None else [event.source])})
    idle = [(0, cap, 0, 0, cap) for cap in event.net.caps]
    return [queue for queue, rule in enumerate(event.rules) if rule != idle[queue]]


def numbers_to_try(event: Event, queue: int, low: int, high: int) -> Iterable[int]:
    """Numbers of customers from which an event's least and greatest ones come: all, where they are few."""
    if high - low <= 6:
        return range(low, high + 1)
    cap, size = event.net.caps[queue], event.size
    near = {low, low + 1, high - 1, high, event.k - 1, event.k, cap - size, cap - size + 1, cap - 1}
    return sorted(number for number in near if low <= number <= high)


def image_box(event: Event, low: State, high: State) -> tuple[State, State]:
    """The corners of the box of what an event makes of a box's states."""
    queues = named_by(event)
    lists = [numbers_to_try(event, queue, low[queue], high[queue]) for queue in queues]
    images = []
    for numbers in itertools.product(*lists):
        x = list(low)
        for queue, number in zip(queues, numbers):
            x[queue] = number
        images.append(event.after(tuple(x)))
    least, most = list(low), list(high)
    for queue in queues:
        least[queue] = min(image[queue] for image in images)
        most[queue] = max(image[queue] for image in images)
    return tuple(least), tuple(most)


def box_ending(net: Network, words: plain.Words, horizon: int) -> set[State]:
    """The states of the region with which the run of a horizon ends; of a box its two corners."""
    low: State = (0,) * len(net.caps)
    high, states = net.caps, None
    for place in range(horizon - 1, -1, -1):
        if states is None and math.prod(b - a + 1 for a, b in zip(low, high)) <= net.split:
            states = set(box(low, high))
        event = net.event_of(words[place])
        if event is None:
            continue
        if states is None:
            low, high = image_box(event, low, high)
        else:
            states = {event.after(x) for x in states}
    return {low, high} if states is None else states


def box_outcome(net: Network, seed: int, stream: int) -> Outcome:
    """The least horizon among the powers of two whose run ends with one state, and that state."""
    words = plain.Words(seed, stream)
    return plain.first_single(plain.powers(net), lambda horizon: box_ending(net, words, horizon))
