"""/usr/bin/python3 -m tests.study_intervals [PSI] [--repetitions N] [--package FOLDER] [--count N] [--least N]

Counts how often the 95 % intervals of the tools hold what they are of, over repetitions with other
streams: of single rows, of rare and of skewed rewards, of differences under common random numbers,
and where 27 % of the streams aren't coupled. The values are drawn by numpy from distributions that
are known, or, where PSI is given, by the built program from networks that are solved. A repetition
has --count streams, 10,000 where it isn't given, of psi a fifth of that.

`batches` is what psi-means, psi-sweep and psi.means make of the sums of 40 batches, and `values`
what psi-law makes of single values. For each case a line says how many of all repetitions held, and
how wide the intervals are in the middle. The exit status is 1 where fewer than --least of 100 held,
which is 92 where it isn't given.
--package is the folder of another version of the package, whose intervals are compared so.
"""

import itertools
import math
import sys
from collections.abc import Collection, Iterable, Iterator, Mapping
from typing import Any

from tests.studies import Tally, words_of

WORDS = words_of(None, count=10_000, least=92.0)

import numpy
from solving import birth_and_death, means_of

from psi_tools.stats import law as laws
from psi_tools.stats.batches import Batches, batches_of
from psi_tools.model.designs import aligned, designs_of
from psi_tools.draw.reports import reports_of
from psi_tools.io.reports import Report
from psi_tools.stats.intervals import Mean, Sums, difference_of_batches
from psi_tools.stats.spans import Row, Spans
from psi_tools.model.networks import Network
from psi_tools.draw.program import Program, blocks_of

# Values of samples, or the probabilities of values.
Values = numpy.ndarray[Any, Any]
BATCHES, FEW_BATCHES = 40, 20


def queue_of(load: float, capacity: int, reward: list[int] | None = None) -> Network:
    """The network of a queue in which customers come at rate 60 * load and are served at rate 60,
    with a reward by its number."""
    net = Network().queue("q", capacity)
    net.event("come", "arrival", round(60 * load), to=["q"])
    net.event("serve", "service", 60, source="q")
    return net.reward("r", "table", ["q"], table=[reward]) if reward else net


def law_of_queue(load: float, capacity: int) -> Values:
    """The probability of each number of customers."""
    return numpy.array(birth_and_death(round(60 * load), [60] * capacity))


def fours(capacity: int) -> list[int]:
    return [4**number for number in range(capacity + 1)]


def rare(capacity: int, value: int) -> list[int]:
    return [0] * capacity + [value]


# A name, the load, the capacity, and the reward by the number of customers, none for the number.
SINGLE: list[tuple[str, float, int, list[int] | None]] = [
    ("single row, 8 of 10 busy", 0.8, 10, None),
    ("single row, 5 of 10 busy, 1,000 places", 0.5, 1_000, None),
    ("rare, 0.001 of 0 and 1", 0.2, 4, rare(4, 1)),
    ("rare, 0.001 of 0 and 1,000", 0.2, 4, rare(4, 1_000)),
    ("skewed, 4^n, load 0.5", 0.5, 10, fours(10)),
    ("skewed, 4^n, load 0.4", 0.4, 10, fours(10)),
    ("skewed, 4^n, load 0.3", 0.3, 8, fours(8)),
]


def ends_of(mean: Mean) -> tuple[float, float]:
    """The ends of an interval; where there is none, nothing is between them."""
    return mean.ends or (math.inf, -math.inf)


def tallies_of(name: str, wanted: float) -> list[Tally]:
    """Those of both ways."""
    return [Tally(f"{name}: {way}", wanted) for way in ("batches", "values")]


def batches_from(net: Network, columns: list[tuple[str, str, Values]], known: Values) -> Batches:
    """Batches with a row for each column of values, which are arrays of batches and samples, and of which those
    are `known` whose streams are coupled."""
    rows = []
    for kind, name, values in columns:
        sums = [int(x) for x in (values * known).sum(axis=1)]
        seen = values[known]
        rows.append(Row(kind, name, sums, int(seen.min()), int(seen.max())))
    met = [int(x) for x in known.sum(axis=1)]
    found = Batches([known.shape[1]] * known.shape[0], met, [{}] * known.shape[0], rows)
    return found.of_network(net)


def law_from(
    net: Network, name: str, counts: Mapping[int, int], unknown: int = 0, seen: Collection[int] = ()
) -> laws.Law:
    """The law that psi-law has of a row, by how many samples have each value; of the queue these numbers are seen."""
    spans = Spans(net, {"q": (min(seen), max(seen))} if seen else {})
    span = spans.of_queue(name) if name == "q" else spans.of_reward(name)
    return laws.Law(name, "value", [*counts.items()], unknown, span)


def counted(values: Values) -> dict[int, int]:
    """How many of some values have each value."""
    numbers, counts = numpy.unique(values, return_counts=True)
    return dict(zip(numbers.tolist(), counts.tolist()))


def single(
    draw: numpy.random.Generator, name: str, load: float, capacity: int, reward: list[int] | None, share: float = 0
) -> list[Tally]:
    """The two tallies of a single row, where a share of all isn't coupled, the more so the more customers there are."""
    law, customers = law_of_queue(load, capacity), numpy.arange(capacity + 1)
    rewards, chance = numpy.array(reward or customers), share * customers / (law @ customers)
    net, wanted = queue_of(load, capacity, reward), float(law @ rewards)
    tallies = tallies_of(name, wanted)
    for _ in range(WORDS.repetitions):
        numbers = draw.choice(capacity + 1, (BATCHES, WORDS.count // BATCHES), p=law)
        values, known = rewards[numbers], numpy.ones(numbers.shape, bool)
        if share:
            known = draw.random(numbers.shape) >= chance[numbers]
        columns = [("", "q", numbers)] + ([("reward-", "r", values)] if reward else [])
        batches = batches_from(net, columns, known)
        tallies[0].take(*ends_of(batches.mean(batches.rows[-1])))
        seen = counted(numbers) if not share else {}
        counts, unknown = counted(values[known]), int((~known).sum())
        tallies[1].take(*ends_of(law_from(net, "r" if reward else "q", counts, unknown, seen).mean()))
    return tallies


def difference(draw: numpy.random.Generator, name: str, plus: float, minus: float, both: float) -> Tally:
    """The tally of a difference of rows of 0 and 1: the chances that the first alone, the other
    alone, and both are 1."""
    tally = Tally(f"{name}: batches", plus - minus)
    shape = BATCHES, WORDS.count // BATCHES
    net = queue_of(0.2, 4, rare(4, 1))
    for _ in range(WORDS.repetitions):
        kind = draw.choice(4, shape, p=[1 - plus - minus - both, plus, minus, both])
        rows = [(kind == 1) | (kind == 3), (kind == 2) | (kind == 3)]
        columns = ([("", "q", 4 * row), ("reward-", "r", row * 1)] for row in rows)
        mean = difference_of(*(batches_from(net, own, numpy.ones(shape, bool)) for own in columns))
        tally.take(*ends_of(mean))
    return tally


def difference_of(one: Batches, other: Batches) -> Mean:
    """The difference of the last rows of two designs, as psi-sweep tells it."""
    rows = [(own, own.rows[-1]) for own in (one, other)]
    first, second = (Sums(row.sums, own.met, own.spans[row.kind, row.name], own.lost) for own, row in rows)
    return difference_of_batches(first, second, 0.95)


def synthetic() -> Iterator[Tally]:
    """The tallies of all cases whose values numpy draws."""
    draw = numpy.random.default_rng(51)
    for case in SINGLE:
        yield from single(draw, *case)
    yield difference(draw, "difference of rare rows, one way", 0.0005, 0, 0.001)
    yield difference(draw, "difference of rare rows, one way, 0.0002", 0.0002, 0, 0.001)
    yield difference(draw, "difference of rare rows, both ways", 0.0006, 0.0003, 0.0005)
    yield difference(draw, "difference of rare rows, apart", 0.001, 0.001, 0)
    yield difference(draw, "difference of common rows, rarely", 0.0005, 0.0002, 0.3)
    yield from single(draw, "27 % uncoupled", 0.7, 8, None, 0.27)


def grouped(reports: list[Report]) -> Iterator[Batches]:
    """The batches of each repetition, of the reports of all."""
    for begin in range(0, len(reports), FEW_BATCHES):
        yield batches_of(reports[begin : begin + FEW_BATCHES])


def reports_from(psi: Program, net: Network) -> list[Report]:
    """The reports of the streams of all repetitions."""
    size = WORDS.count // 5 // FEW_BATCHES
    blocks = blocks_of(0, WORDS.repetitions * FEW_BATCHES * size, size)
    return reports_of(psi, net.data, 51, blocks)


def solved(net: Network) -> list[float]:
    """The mean of the queue of a network, and of each of its rewards."""
    queues, rewards = means_of(net)
    return [*queues.values(), *rewards.values()]


def with_rewards(load: float, capacity: int) -> Network:
    """A queue with a rare reward of 0 and 1, one of 0 and 1,000, and a skewed one."""
    net = queue_of(load, capacity)
    rows = {"rare-0-and-1": rare(capacity, 1), "skewed-4-n": fours(capacity), "rare-0-and-1-000": rare(capacity, 1_000)}
    for name, row in rows.items():
        net.reward(name, "table", ["q"], table=[row])
    return net


def by_psi(path: str) -> Iterator[Tally]:
    """The tallies of cases that the built program draws."""
    psi, net = Program(path), with_rewards(16 / 60, 5)
    yield from each_row(psi, net, ["a single row", *net.rewards])
    yield swept(psi)
    yield from cut_short(psi)


def each_row(psi: Program, net: Network, titles: list[str]) -> Iterable[Tally]:
    """The tallies of all rows of a network of one queue, by batches and by values."""
    names = ["q", *net.rewards]
    tables = {reward["name"]: numpy.array(reward["table"][0]) for reward in net.table["reward"]}
    tallies = [tallies_of(f"psi, {title}", wanted) for title, wanted in zip(titles, solved(net))]
    for batches, (numbers, unknown) in zip(grouped(reports_from(psi, net)), numbers_from(psi, net)):
        batches = batches.of_network(net)
        for name, row, (by_batches, by_values) in zip(names, batches.rows, tallies):
            counts = counted(tables[name][numbers] if name in tables else numbers)
            by_batches.take(*ends_of(batches.mean(row)))
            by_values.take(*ends_of(law_from(net, name, counts, unknown, counted(numbers)).mean()))
    return itertools.chain.from_iterable(tallies)


def numbers_from(psi: Program, net: Network) -> Iterator[tuple[Values, int]]:
    """The number of customers in each sample of each repetition, and how many aren't coupled."""
    size = WORDS.count // 5 // FEW_BATCHES * FEW_BATCHES
    for repetition in range(WORDS.repetitions):
        _, *lines = psi.states(net.data, 51, repetition * size, size).splitlines()
        numbers = [int(number) for line in lines if (number := line.split(",")[2])]
        yield numpy.array(numbers), size - len(numbers)


def swept(psi: Program) -> Tally:
    """The tally of a difference of two designs, of whether a queue is full, which is rare."""
    net = queue_of(0.2, 4, rare(4, 1))
    _, designs, _, _ = designs_of(["come.rate=12,10"], net)
    wanted = solved(designs[0].net)[1] - solved(designs[1].net)[1]
    designs, why = aligned(designs)
    assert why is None
    tally = Tally("psi, difference of rare rows: batches", wanted)
    both = [grouped(reports_from(psi, design.net)) for design in designs]
    for pair in zip(*both):
        mean = difference_of(*(own.of_network(design.net) for own, design in zip(pair, designs)))
        tally.take(*ends_of(mean))
    return tally


def cut_short(psi: Program) -> Iterable[Tally]:
    """The tallies where a limit leaves some of the streams uncoupled."""
    net = queue_of(43 / 60, 10)
    net.heads["limit"] = 6
    reports = reports_from(psi, net)
    lost = 1 - sum(report.met for report in reports) / sum(report.samples for report in reports)
    return each_row(psi, net, [f"{100 * lost:.0f} % uncoupled"])


def main() -> int:
    held = [tally.report() for tally in (by_psi(WORDS.psi) if WORDS.psi else synthetic())]
    return 0 if min(held) >= WORDS.least else 1


if __name__ == "__main__":
    sys.exit(main())
