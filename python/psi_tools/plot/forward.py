"""Forward runs of one queue: where they end after some steps from each number of customers, and
where they are when all have met, beside the law that a sample has.

All of it is computed from the steps of the chain, as a word chooses an event: its number modulo the
least power of two that isn't below the sum of the rates; nothing is sampled here.
"""

import dataclasses
from collections.abc import Sequence
from typing import Any

import numpy

from psi_tools.draw.program import Program
from psi_tools.errors import NUMBER, require
from psi_tools.model.networks import Network, checked

# An array; and the share of the random words that choose an event, with what it makes of each number.
Numbers = numpy.ndarray[Any, Any]
Map = tuple[float, Numbers]

STEPS, MOST_STEPS, MOST_PARTS, MOST_PLACES = (8, 32, 128), 2**22, 3, 40
KINDS = "arrival", "service", "guarded"


@dataclasses.dataclass
class Forward:
    """What forward runs of a queue come to: `law` is the stationary law, an array by customers;
    `after` has for each number of steps an array with a row for each beginning and a column for
    each end; `met` is the law of the first state in which the runs from all states are one."""

    name: str
    law: numpy.ndarray[Any, Any]
    after: dict[int, numpy.ndarray[Any, Any]]
    met: numpy.ndarray[Any, Any]

    def distance(self, steps: int) -> float:
        """The total variation distance of the distribution after some steps from the stationary one, at most."""
        return float(abs(self.after[steps] - self.law).sum(axis=1).max() / 2)


def maps_of(net: Network) -> list[Map]:
    """What each event, idle included, makes of each number of customers, and its share of the random words."""
    require(len(net.queues) == 1, "forward takes a network of one queue")
    [capacity] = net.capacities
    require(capacity <= MOST_PLACES, f"forward takes a queue of a capacity of at most {MOST_PLACES}")
    for event in net.table["event"]:
        is_known = event["kind"] in KINDS and not (event["kind"] == "service" and event.get("to"))
        require(is_known, f"forward has no event such as {event['name']}; it has {', '.join(KINDS)}")
    plain = net.followed()
    rates = numpy.diff([0, *plain.totals, plain.modulus])
    maps = (numpy.array([event.after((number,))[0] for number in range(capacity + 1)]) for event in plain.events)
    return [*zip(rates / plain.modulus, maps)]


def matrix_of(maps: list[Map], count: int) -> Numbers:
    """The step of the chain on this number of states, by the rows."""
    matrix = numpy.zeros((count, count))
    for share, after in maps:
        numpy.add.at(matrix, (numpy.arange(count), after), share)
    return matrix


def stationary(matrix: Numbers) -> Numbers:
    """The law that a step doesn't change."""
    count = len(matrix)
    lines = numpy.vstack([matrix.T - numpy.eye(count), numpy.ones(count)])
    law: Numbers
    law, _, rank, _ = numpy.linalg.lstsq(lines, numpy.append(numpy.zeros(count), 1), rcond=None)
    require(rank == count, "the network has several laws that a step doesn't change")
    return law


def met_of(maps: list[Map], count: int) -> Numbers:
    """The law of the state in which the runs from all states meet, by pairs of the least and the greatest of them."""
    is_monotone = all((numpy.diff(after) >= 0).all() for _, after in maps)
    require(is_monotone, "forward takes a network whose events are all monotone")
    # A pair is one number, with the greatest as its last digit.
    pairs = [(share, numpy.add.outer(count * after, after).ravel()) for share, after in maps]
    step = matrix_of(pairs, count * count)
    low, high = numpy.divmod(numpy.arange(count * count), count)
    apart, ends = numpy.flatnonzero(low < high), numpy.flatnonzero(low == high)
    lines = numpy.eye(len(apart)) - step[numpy.ix_(apart, apart)]
    require(numpy.linalg.matrix_rank(lines) == len(apart), "not all states meet")
    shares = numpy.linalg.solve(lines, step[numpy.ix_(apart, ends)])
    found: Numbers = shares[apart == count - 1][0]
    return found


def numbers_of(words: Sequence[str]) -> list[int]:
    """The numbers of steps that the arguments name."""
    for word in words:
        is_number = NUMBER.fullmatch(word) and len(word) < 9 and 0 < int(word) <= MOST_STEPS
        require(is_number, f"{word} isn't a number of steps from 1 to {MOST_STEPS}")
    require(len(words) <= MOST_PARTS, f"forward takes at most {MOST_PARTS} numbers of steps")
    return sorted({int(word) for word in words}) or [*STEPS]


def forward_of(program: str | None, path: str, words: Sequence[str]) -> Forward:
    """The forward runs of a file that psi takes, for numbers of steps that are words."""
    steps = numbers_of(words)
    net = checked(Program(program), path)
    maps = maps_of(net)
    matrix = matrix_of(maps, net.capacities[0] + 1)
    after = {number: numpy.linalg.matrix_power(matrix, number) for number in steps}
    return Forward(net.queues[0], stationary(matrix), after, met_of(maps, len(matrix)))
