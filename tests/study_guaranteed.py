"""/usr/bin/python3 -m tests.study_guaranteed [PSI] [--repetitions N] [--count N]

Counts how often the guaranteed intervals of the tools hold what they are of: on ten networks whose
stationary distributions are solved, two of them slow to couple, with --repetitions repetitions of
--count other streams each, 400 of 100 where they aren't given. PSI is the built program;
crates/psi/out/psi where it isn't given.

For each network there are a mean by bets, with stakes from pilot streams and with stakes from the
range, or of two values by their count; a mean by the sum alone; the share of the values up to the
median; and the median. Each certificate goes to check_interval.py, which has to compute the same
two ends. Where all streams couple, the chance that the interval of the share holds is also computed,
from all counts that may come. The exit status is 1 where a certificate is not proved, where that
chance is below 95 in 100, or where an interval held so seldom as one that holds in 95 of 100
repetitions does in less than 1 of 1,000 such trials.
"""

import functools
import itertools
import json
import math
import sys
from collections.abc import Iterator, Sequence
from fractions import Fraction
from typing import Any

from tests.studies import TOP, Tally, words_of

WORDS = words_of(count=100)

import scipy.special
from solving import law_of

from psi_tools import check_interval
from psi_tools.draw.states import Draw, any_drawing
from psi_tools.stats.guaranteed import Guarantee, Pilot, by_count, file_of, one_in, parts_of
from psi_tools.draw.law import tally_of
from psi_tools.model.networks import Network, header_of, value_of
from psi_tools.draw.program import Program, Streams, blocks_of
from psi_tools.stats.spans import Spans

# How many samples have each value, these with how many streams aren't coupled, and both ends of an interval.
Counts = list[tuple[int, int]]
Counted = tuple[Counts, int]
Ends = Sequence[Fraction | int]
LEVEL, SEED, SELDOM = 0.95, 54, 0.001
# A network, the queue whose customers are counted, and a reward of it, none for the customers. The
# last two are slow to couple: with these limits many streams aren't.
NETWORKS: list[tuple[str, str, str | None, dict[str, int]]] = [
    ("single-server", "desk", None, {}),
    ("single-server", "desk", "desk-squared", {}),
    ("call-centre", "calls", None, {}),
    ("breakdowns", "broken", None, {}),
    ("call-classes", "near", None, {}),
    ("negative-customers", "work", None, {}),
    ("overflow", "direct", None, {}),
    ("tandem-blocking", "drill", None, {}),
    ("short-past", "desk", None, {"limit": 6}),
    ("longest-queue", "middle", None, {"limit": 9}),
]


class Case:
    """A network with a number that is counted, its exact distribution, and the counts of each
    repetition."""

    def __init__(
        self, psi: Program, seed: int, name: str, queue: str, reward: str | None, heads: dict[str, int]
    ) -> None:
        self.seed = seed
        self.net = Network.read(TOP / "examples" / f"{name}.toml").copy()
        self.net.heads.update(heads)
        place = self.net.queues.index(queue)
        spans = Spans(self.net, {})
        self.span = spans.of_reward(reward) if reward else spans.of_queue(queue)
        self.reward = {each["name"]: each for each in self.net.table["reward"]}[reward] if reward else None
        self.law: dict[int, float] = {}
        for state, chance in zip(*law_of(self.net)):
            value = self.value(state[place])
            self.law[value] = self.law.get(value, 0.0) + float(chance)
        self.mean = sum(value * chance for value, chance in self.law.items())
        self.place = place
        self.draw(psi)

    def draw(self, psi: Program) -> None:
        """Draws the streams of all repetitions, a block for each, and then pilot streams."""
        streams = WORDS.repetitions * WORDS.count
        blocks = [*blocks_of(0, streams, WORDS.count), (streams, WORDS.count)]
        draw = any_drawing(psi, self.net, self.seed)
        *self.counts, pilot = psi.all(lambda block: self.counted(draw, block), blocks)
        self.pilot = Pilot(*pilot, streams, WORDS.count)

    def counted(self, draw: Draw, block: Streams) -> Counted:
        """How many samples of a block have each value, and how many streams aren't coupled."""
        header = header_of(self.net)
        # The queues stand after the stream and the horizon.
        tally = tally_of(header, draw(block), block, [header[2 + self.place]])
        counts: dict[int, int] = {}
        for (number,), count in tally.counts.items():
            value = self.value(number)
            counts[value] = counts.get(value, 0) + count
        return sorted(counts.items()), tally.unknown

    def value(self, number: int) -> int:
        """The value that is counted, of a number of customers."""
        return value_of(self.reward, [number]) if self.reward else number

    def median(self) -> int:
        """The least value that at least half of all states' weight doesn't pass."""
        values = sorted(self.law)
        sums = itertools.accumulate(self.law[value] for value in values)
        return next(value for value, below in zip(values, sums) if below >= 0.5 - 1e-9)

    def tries(self, counts: Counts, unknown: int) -> Iterator[tuple[str, Guarantee, Ends, float]]:
        """The ways of an interval, each with its row, its ends, and what they are of."""
        median, d = self.median(), one_in(LEVEL)
        below = sum(chance for value, chance in self.law.items() if value <= median)
        total = sum(value * count for value, count in counts)

        def row(**more: Any) -> Guarantee:
            return Guarantee("row", WORDS.count, unknown, self.span, d, **more)

        ways = [
            ("mean, stakes from pilot", row(counts=counts, pilot=self.pilot), self.mean),
            ("mean, stakes from range", row(counts=counts), self.mean),
            ("mean, by the sum", row(total=total), self.mean),
        ]
        for way, each, wanted in ways[: 1 if self.span.two else 3]:
            yield way, each, each.mean(), wanted
        each = row(counts=counts)
        yield "share up to the median", each, each.share(self.span.ends[0], median), below
        each = row(counts=counts)
        yield "median", each, each.quantile(0.5), median


def is_checked(row: Guarantee, ends: Ends) -> bool:
    """Whether check_interval proves the certificate of a row, with the same ends."""
    file = json.loads(json.dumps(file_of([row], {})))
    for entry in file["rows"]:
        for claim in entry["claims"]:
            if check_interval.interval(entry, claim, file["d"]) != [*ends]:
                return False
    return len(file["rows"][0]["claims"]) == 1


@functools.cache
def claims_of_counts() -> list[float]:
    """What each count of ones claims."""
    k, q = WORDS.count, parts_of(WORDS.count)
    found = (by_count(k, i, q, one_in(LEVEL)) for i in range(k + 1))
    return [(claim["r"] if claim else 0) / q for claim in found]


def chance_of_share(share: float) -> float:
    """The chance that the interval of a share holds it, where all streams couple."""
    k, claims = WORDS.count, claims_of_counts()
    holding = (i for i in range(k + 1) if claims[i] <= share <= 1 - claims[k - i])
    return float(sum(math.comb(k, i) * share**i * (1 - share) ** (k - i) for i in holding))


def tried(case: Case, name: str) -> bool:
    """The lines of a network, and whether all is well."""
    tallies: dict[str, Tally] = {}
    is_well = True
    lost = sum(unknown for _, unknown in case.counts) / (WORDS.repetitions * WORDS.count)
    for counts, unknown in case.counts:
        for way, row, ends, wanted in case.tries(counts, unknown):
            tallies.setdefault(way, Tally(f"{name}, {100 * lost:.0f} % uncoupled: {way}", wanted)).take(*ends)
            if not is_checked(row, ends):
                print(f"not proved: {name}, {way}: {json.dumps(row.record())}")
                is_well = False
    for tally in tallies.values():
        tally.report()
        is_well = is_well and scipy.special.bdtr(tally.held, WORDS.repetitions, LEVEL) >= SELDOM
    if not lost:
        chance = chance_of_share(tallies["share up to the median"].wanted)
        print(f"{100 * chance:6.2f} of 100  computed        {name}: share up to the median")
        is_well = is_well and chance >= LEVEL
    return is_well


def main() -> int:
    psi, is_well = Program(WORDS.psi), True
    for place, (name, queue, reward, heads) in enumerate(NETWORKS):
        case = Case(psi, SEED + place, name, queue, reward, heads)
        is_well = tried(case, f"{name} {reward or queue}") and is_well
    return 0 if is_well else 1


if __name__ == "__main__":
    sys.exit(main())
