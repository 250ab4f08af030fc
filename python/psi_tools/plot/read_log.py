"""Reads a log, as `psi sample NET SEED STREAM log` writes it, in bins of consecutive times.

The grammar of both versions is check_log's. What a picture needs beside it is judged here, as
`psi replay` judges it: the times of the steps, and that one state is left. Of the words, the events
and what they make of the regions nothing is judged.
"""

import collections
import copy
import dataclasses
import enum
import itertools
import tomllib
from collections.abc import Iterable
from typing import Any

from psi_tools import check_log
from psi_tools.errors import InputError, require

# How many times a picture shows side by side, over all its columns of queues, and how many shades
# it has one above the other.
MOST_TIMES, MOST_SHADES = 480, 96


class Kind(enum.IntEnum):
    """What the region of a time is; of several times it is the greatest."""

    ONE, SET, BOX = range(3)


@dataclasses.dataclass
class Bin:
    """Some consecutive times: each queue's least and greatest number of customers, the greatest number of states, and
    for each queue how large a part of the states of a set, at most, has its number in each shade."""

    low: list[int]
    high: list[int]
    states: int
    kind: Kind
    shades: list[dict[int, float]]

    def add(self, other: "Bin") -> None:
        """Takes the other's times in."""
        self.low = [min(pair) for pair in zip(self.low, other.low)]
        self.high = [max(pair) for pair in zip(self.high, other.high)]
        self.states, self.kind = max(self.states, other.states), max(self.kind, other.kind)
        for mine, shades in zip(self.shades, other.shades):
            mine.update({shade: max(share, mine.get(shade, 0)) for shade, share in shades.items()})


@dataclasses.dataclass
class Coupling:
    """A log: `low` and `high` have each queue's least and greatest number at the beginning, `met`
    is the time from which on there is one state, and each bin but the last has `width` times."""

    seed: int
    stream: int
    horizon: int
    state: tuple[int, ...]
    names: list[str]
    low: list[int]
    high: list[int]
    met: int
    width: int
    bins: list[Bin]

    def edges(self) -> list[float]:
        """The ends of the bins: a time reaches half a step to both sides."""
        lasts = [min(self.width * k, self.horizon + 1) for k in range(len(self.bins) + 1)]
        return [last - self.horizon - 0.5 for last in lasts]


def columns_of(queues: int) -> int:
    """In how many columns the pictures of this number of queues stand."""
    return 1 if queues <= 4 else 2 if queues <= 10 else 4


def bin_of(region: check_log.Region, low: list[int], high: list[int]) -> Bin:
    """The bin of one time."""
    states, is_box = check_log.count(region), isinstance(region, check_log.Box)
    kind = Kind.ONE if states == 1 else Kind.BOX if is_box else Kind.SET
    shades: list[dict[int, float]] = []
    for column, least, most in zip([()] * len(low) if is_box else zip(*region), low, high):
        # A number has a shade of its own while there aren't too many.
        numbers = most - least + 1
        counts = collections.Counter((number - least) * min(numbers, MOST_SHADES) // numbers for number in column)
        shades.append({shade: count / states for shade, count in counts.items()})
    return Bin(*ends_of(region), states, kind, shades)


def ends_of(region: check_log.Region) -> tuple[list[int], list[int]]:
    """For each queue the least and the greatest number of a region."""
    if isinstance(region, check_log.Box):
        return list(region.low), list(region.high)
    columns = [*zip(*region)]
    return [min(column) for column in columns], [max(column) for column in columns]


def thinned(
    steps: Iterable[tuple[int, Any, Any]], first: check_log.Region, horizon: int
) -> tuple[list[Bin], int, int, tuple[int, ...]]:
    """A log's bins, how many times each has, from which time on all regions have one state, and that state."""
    low, high = ends_of(first)
    width = -(-(horizon + 1) // (MOST_TIMES // columns_of(len(low))))
    bins: list[Bin] = []
    met, before, found = 0, first, bin_of(first, low, high)
    for place, (number, _, region) in enumerate(itertools.chain([(0, 0, first)], steps)):
        line = 6 + place
        require(place == 0 or number == horizon - place + 1, f"line {line} isn't the next step")
        is_new = region is not before
        if is_new:
            before, found = region, bin_of(region, low, high)
            is_within = all(map(int.__le__, [*low, *found.high], [*found.low, *high]))
            require(is_within, f"line {line} has a state that line 6 hasn't")
        if found.states > 1:
            met = place + 1
        if place % width == 0:
            bins.append(copy.deepcopy(found))
        elif is_new:
            bins[-1].add(found)
    require(met <= horizon, f"line {7 + horizon} comes where more than one state is left")
    return bins, width, met - horizon, tuple(found.low)


def read_log(data: bytes) -> Coupling:
    """Reads the log in some bytes."""
    try:
        regions = check_log.read(data)
        queues, seed, stream, horizon, first = itertools.islice(regions, 5)
        bins, width, met, last = thinned(itertools.islice(regions, horizon), first, horizon)
        (state,) = regions
    except check_log.Fault as fault:
        raise InputError(f"not a log: {str(fault).removeprefix('psi: log refused ')}") from None
    require(state == last, f"line {7 + horizon} has another state than the line before")
    names = [f"queue {queue}" for queue in range(queues)]
    return Coupling(seed, stream, horizon, state, names, *ends_of(first), met, width, bins)


def names_of(data: bytes, log: Coupling) -> list[str]:
    """The names of a log's queues, by the network file in some bytes."""
    try:
        network = check_log.Network(tomllib.loads(data.decode()))
    except Exception as fault:
        raise InputError(f"not a network file: {fault!r}") from None
    require(network.caps == log.high, "this network hasn't the log's queues")
    return [*network.places]
