"""Means and rates along paths, with intervals over independent streams.

A path begins in a sample, so each of its states has the stationary distribution, and its mean has the
stationary mean. The states of one path depend on each other; paths of different streams do not. So the paths
are the values: an interval is that of Student's t over their means, however long they are.

Each end also reckons with what did not come, in one of all paths. Where the values above the least one come
in a few separate visits, the paths' means are skewed, and Student's t alone is too narrow: if all visits were
alike, one would add the variance of the mean, divided by the mean above the least value. It is reckoned as
larger the fewer visits there are, and at most as the greatest value for as many steps as the longest horizon
of the samples, after which the states at its beginning are forgotten. Of paths of no step that is one sample.

Paths about as long as the network takes to forget its state have skewed means as well: those that are small
together have a small error together. So the error at an end is reckoned in proportion to how far the end is
from the least value, as in a scale family.
"""

import dataclasses
import math

from psi_tools.draw.paths import events_of, header_of, modulus_of
from psi_tools.io.tables import Record
from psi_tools.model.networks import Network
from psi_tools.stats import intervals
from psi_tools.stats.batches import record
from psi_tools.stats.spans import Spans

# Visits may be much larger than those that came where there are fewer than this number, of a table far more.
FEW_VISITS, FEW_OF_TABLE = intervals.FEW + intervals.FEW // 2, 4 * intervals.FEW
# The kinds of rows: means of states, and rates of events.
QUEUE, REWARD, CHOSEN, MOVED = "queue", "reward", "chosen", "moved"
ITEMS = {QUEUE: "mean", REWARD: "reward-mean", CHOSEN: "chosen-rate", MOVED: "moved-rate"}


@dataclasses.dataclass(frozen=True)
class PathRow:
    """A number that is summed along paths, over `times` times of each: its sums along the coupled ones,
    what it may be at a time, and by what a mean is multiplied: 1, or of events the unit of rates. Where
    the sum is that of fewer visits than `few`, visits may be much larger than those that came."""

    kind: str
    name: str
    sums: list[int]
    span: intervals.Span
    times: int
    unit: int = 1
    few: int = FEW_VISITS


@dataclasses.dataclass(frozen=True)
class Paths:
    """Paths of `steps` steps of a network's streams: the horizons of those that are coupled, how many
    aren't, and the rows."""

    steps: int
    horizons: list[int]
    lost: int
    rows: list[PathRow]

    @property
    def count(self) -> int:
        """How many streams there are."""
        return len(self.horizons) + self.lost

    def mean(self, row: PathRow, level: float = intervals.LEVEL) -> intervals.Mean:
        """The mean of a row at a time, or the rate of an event, over the paths that are coupled."""
        if not row.times or not self.horizons:
            return intervals.NO_MEAN
        mean = self.share(row, level) if row.kind == CHOSEN else self.own_mean(row, level)
        if row.unit == 1 or mean.mean is None:
            return mean
        assert mean.ends is not None
        return intervals.between(row.unit * mean.mean, *(row.unit * end for end in mean.ends))

    def share(self, row: PathRow, level: float) -> intervals.Mean:
        """The share of the steps in which an event is chosen. Its random words are no words of the
        samples, so all are independent, also of which streams are coupled."""
        count, many = sum(row.sums), row.times * len(row.sums)
        return intervals.between(count / many, *intervals.probability(count, many, level=level))

    def own_mean(self, row: PathRow, level: float) -> intervals.Mean:
        """The mean of a row, whose interval counts each stream that isn't coupled as the least value
        at all times for the lower end, and as the greatest for the upper one."""
        if row.times == 1 and row.span.two:
            return intervals.mean_of_two(intervals.Sums(row.sums, [1] * len(row.sums), row.span, [self.lost]), level)
        mean = sum(row.sums) / (row.times * len(row.sums))
        low, high = (self.end(row, is_high, level) for is_high in (False, True))
        if low is None or high is None:
            return intervals.Mean(mean, None)
        return intervals.between(mean, row.span.clipped(low), row.span.clipped(high))

    def spread(self, row: PathRow, value: int) -> intervals.Spread | None:
        """The mean over all paths and its error, where streams that aren't coupled have a value."""
        sums = row.sums + [value * row.times] * self.lost
        return intervals.spread_of(sums, [row.times] * len(sums))

    def end(self, row: PathRow, is_high: bool, level: float) -> float | None:
        """An end of the interval of a mean; none of a single path."""
        least, greatest = row.span.ends
        spread = self.spread(row, greatest if is_high else least)
        if spread is None or spread.error is None:
            return None
        below, above = spread.mean - least, greatest - spread.mean
        if not is_high:
            below, above = above, below
        far = min(row.times, max(self.horizons)) * above / spread.many
        sign = 1 if is_high else -1
        if not spread.error:
            # All paths are alike: what didn't come in any comes in so few of all.
            return spread.mean - sign * math.log((1 - level) / 2) * far
        if below <= 0:
            return spread.mean + sign * self.reach(spread, far, 0.0, level)
        # What a visit to other values adds to the mean, where visits are alike and come by chance.
        one = spread.error * spread.error / below
        unseen = min(far, one * (2 + (row.few * one / below) ** 4))
        return spread.mean + sign * self.reach(spread, unseen, 1 / below, level)

    @staticmethod
    def reach(spread: intervals.Spread, unseen: float, share: float, level: float) -> float:
        """How far an end is from the mean: by Student's t with what did not come, where the error at the end
        is larger by a share of it for each 1 from the mean to the end, and at most twice as large."""
        assert spread.error is not None
        degrees = spread.batches - 1
        alone = spread.error * intervals.student_and_unseen(degrees, 0, level)
        more = min(alone * share, 0.5)
        whole = spread.error * intervals.student_and_unseen(degrees, unseen / spread.error, level)
        return whole + alone * more / (1 - more)

    def carried(self) -> list[str]:
        """The lines on rows whose mean few visits to other values carry."""
        lines = []
        for row in self.rows:
            spread = self.spread(row, row.span.ends[0]) if row.kind != CHOSEN and row.times else None
            if spread is None or not spread.error:
                continue
            number = ((spread.mean - row.span.ends[0]) / spread.error) ** 2
            if number < intervals.FEW:
                line = f"few visits carry the mean of {row.name}: as if {max(1, round(number))} had the whole sum"
                lines.append(f"{line}; more streams, or longer paths, make its interval narrower")
        return lines


def paths_of_rows(net: Network, steps: int, rows: list[str | None]) -> Paths:
    """The paths of a network, by the rows of tables as draw.paths has them."""
    numbers = [[int(value) for value in row.split(",")] for row in rows if row is not None]
    columns = [list(column) for column in zip(*numbers)] or [[] for _ in header_of(net)[1:]]
    spans, found = Spans(net, {}), []
    # From one number of customers to the next a table may rise steeply; other values change by single steps.
    steep = {reward["name"] for reward in net.table["reward"] if reward["kind"] == "table"}
    for kind, name, places in columns_of(net):
        sums = [sum(values) for values in zip(*(columns[2 + place] for place in places))]
        if kind in (QUEUE, REWARD):
            span = spans.of_queue(name) if kind == QUEUE else spans.of_reward(name)
            few = FEW_OF_TABLE if name in steep and kind == REWARD else FEW_VISITS
            found.append(PathRow(kind, name, sums, span, steps + 1, few=few))
        else:
            found.append(PathRow(kind, name, sums, intervals.Span(0, 1, 0, 1, True), steps, modulus_of(net)))
    return Paths(steps, columns[0], rows.count(None), found)


def columns_of(net: Network) -> list[tuple[str, str, list[int]]]:
    """The kind and the name of each row, and the places of its columns: of an event one for each server."""
    found: list[tuple[str, str, list[int]]] = []
    states = [(QUEUE, name) for name in net.queues] + [(REWARD, name) for name in net.rewards]
    found += [(kind, name, [place]) for place, (kind, name) in enumerate(states)]
    places: dict[str, list[int]] = {}
    for place, (name, _) in enumerate(events_of(net)):
        places.setdefault(name, []).append(len(states) + 2 * place)
    for name, own in places.items():
        found += [(MOVED, name, [place + 1 for place in own]), (CHOSEN, name, own)]
    return found


def records_of(paths: Paths, level: float) -> list[Record]:
    """The rows of the answer, each with its item, its name, its mean, and the ends of its interval."""
    rows = [row for row in paths.rows if row.times]
    return [record(ITEMS[row.kind], row.name, paths.mean(row, level), None, None) for row in rows]
