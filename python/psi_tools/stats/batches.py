"""Batches: reports of one network over different streams, each of which is one value of a mean; and their means as rows
of a table, as those of paths, with their intervals and remarks."""

import collections
import dataclasses
from collections.abc import Iterable, Iterator, Sequence

from psi_tools.errors import PsiError
from psi_tools.io.reports import Report
from psi_tools.io.tables import Record, aligned
from psi_tools.model.networks import Network
from psi_tools.stats import intervals
from psi_tools.stats.spans import Row, guessed_span, spans_of
from psi_tools.stats.text import ends_shown, figures, half_shown, not_coupled

REWARD = "reward-"
# The rows that are means or rates, and what they are called for people.
KINDS = {"mean": "queue", "reward-mean": "reward", "moved-rate": "moved", "chosen-rate": "chosen"}


@dataclasses.dataclass
class Batches:
    """Reports of one network: how many samples each has, how many are met, and how many at each horizon, in steps; a
    row for each queue and reward; and, where the network is known, in `spans` what each row may be."""

    samples: list[int]
    met: list[int]
    horizons: list[dict[int, int]]
    rows: list[Row]
    spans: dict[tuple[str, str], intervals.Span] = dataclasses.field(default_factory=dict)

    @property
    def lost(self) -> list[int]:
        """How many samples of each batch aren't coupled."""
        return [number - met for number, met in zip(self.samples, self.met)]

    @property
    def uncoupled(self) -> int:
        """How many samples of all aren't coupled."""
        return sum(self.lost)

    @property
    def all_horizons(self) -> dict[int, int]:
        """How many samples of all are met at each horizon, in steps, ascending."""
        whole = sum((collections.Counter(some) for some in self.horizons), collections.Counter[int]())
        return dict(sorted(whole.items()))

    def of_network(self, net: Network) -> "Batches":
        """The same batches of a known network: intervals reckon with what isn't coupled, and what didn't come."""
        return dataclasses.replace(self, spans=spans_of(net, self.rows))

    def span(self, row: Row) -> intervals.Span | None:
        """What the values of a row may be; none where no sample is met."""
        return self.spans.get((row.kind, row.name)) or guessed_span(row)

    def sums(self, row: Row | None) -> intervals.Sums | None:
        """A row with its span and what isn't coupled; none where there is no row, or no sample is met."""
        if row is None or (span := self.span(row)) is None:
            return None
        return intervals.Sums(row.sums, self.met, span, self.lost)

    def mean(self, row: Row | None, level: float = intervals.LEVEL) -> intervals.Mean:
        """The mean of a row over the samples that are met; of two values that of a share, also where one is rare. What
        isn't coupled widens an interval; where the network isn't known, there is none then."""
        sums = self.sums(row)
        if sums is None:
            return intervals.NO_MEAN
        if sums.span.two and (not self.uncoupled or self.spans):
            return intervals.mean_of_two(sums, level)
        if not self.spans and self.uncoupled:
            sums = dataclasses.replace(sums, span=dataclasses.replace(sums.span, least=None, greatest=None))
        return intervals.mean_of_batches(sums, level)

    def find(self, kind: str, name: str) -> Row | None:
        """The row of a queue or a reward, none where there isn't one."""
        return next((row for row in self.rows if (row.kind, row.name) == (kind, name)), None)

    def carried(self, names: list[str] | None = None) -> list[str]:
        """The lines on means that few samples carry, of all rows or of some."""
        lines: list[str] = []
        for row in self.rows:
            spread, span = intervals.spread_of(row.sums, self.met), self.span(row)
            if spread is None or span is None or span.two or names and row.name not in names:
                continue
            number = intervals.carriers(spread.mean, spread.error, spread.many, row.least or 0)
            lines += intervals.carried_by_few(row.name, number, spread.many)
        return lines


def batches_of(reports: Sequence[Report]) -> Batches:
    """The batches of some reports, all of one network, each as io.reports reads it."""
    first = reports[0]
    if any(report.sums() != first.sums() for report in reports[1:]):
        raise PsiError("the reports are of different networks: their queues or rewards differ")
    rows = []
    for place, (kind, name) in enumerate(first.sums()):
        # The figures of a report are sums alone where no sample is met; else the extremes follow each sum.
        own = [report.figures[3 * place :][:3] if report.met else report.figures[place:][:1] for report in reports]
        sums = [total.value for total, *_ in own]
        ends = [(least.value, greatest.value) for _, least, greatest in (each for each in own if len(each) > 1)]
        least = min((low for low, _ in ends), default=None)
        rows.append(Row(kind.decode(), name.decode(), sums, least, max((high for _, high in ends), default=None)))
    met, horizons = [report.met for report in reports], [dict(report.horizons) for report in reports]
    return Batches([report.samples for report in reports], met, horizons, rows)


@dataclasses.dataclass
class Summary:
    """All batches together: how many samples are met at each horizon, and a row of means for each queue and reward,
    whose ends are there where batches give an interval."""

    samples: int
    uncoupled: int
    horizons: dict[int, int]
    queues: list[Record]
    rewards: list[Record]


def summary_of(batches: Batches, has_intervals: bool = False) -> Summary:
    """All batches together."""
    met = sum(batches.met)
    spreads: dict[str, list[Record]] = {"": [], REWARD: []}
    for row in batches.rows:
        plain = intervals.Mean(sum(row.sums) / met if met else None, None)
        mean = batches.mean(row) if has_intervals else plain
        spreads[row.kind].append(record(f"{row.kind}mean", row.name, mean, row.least, row.greatest))
    return Summary(sum(batches.samples), batches.uncoupled, batches.all_horizons, *spreads.values())


def notes_of(batches: Batches, wanted: int) -> list[str]:
    """What has to be known before a mean is read, each as one sentence."""
    hold = "the intervals hold" if batches.spans else "--net NET gives intervals that hold"
    notes = not_coupled(batches.uncoupled, sum(batches.samples), "means", hold)
    if len(batches.samples) < wanted:
        line = f"NOT WHOLE: {len(batches.samples)} of {wanted} blocks are finished; those that come first may not be"
        notes.append(f"{line} typical; the same call of psi-many goes on")
    return notes


def records_of(batches: Batches, level: float) -> Iterator[Record]:
    """The rows, each with its item, its name, its mean, and the ends of its interval."""
    shares = [("uncoupled", "-", batches.uncoupled)]
    shares += [("horizon", str(horizon), count) for horizon, count in batches.all_horizons.items()]
    for item, name, count in shares:
        yield record(item, name, intervals.share_of(count, sum(batches.samples), level=level), None, None)
    for row in batches.rows:
        mean = batches.mean(row, level)
        yield record(f"{row.kind}mean", row.name, mean, row.least, row.greatest)


def record(item: str, name: str, mean: intervals.Mean, least: int | None, greatest: int | None) -> Record:
    """One row of the answer."""
    ends = {"mean": mean.mean, "half": mean.half, "low": mean.low, "high": mean.high}
    return {"item": item, "name": name, **ends, "least": least, "greatest": greatest}


def mean_of(each: Record) -> intervals.Mean:
    """The mean of a row of the answer."""
    ends = None if each["half"] is None else (each["low"], each["high"])
    return intervals.Mean(each["mean"], each["half"], ends)


def table_of(
    records: Iterable[Record], head: str = "mean", is_guaranteed: bool = False, has_extremes: bool = False
) -> list[str]:
    """The lines of some rows for people. Guaranteed ends are rounded outwards, and have no half between them."""
    extremes = ("least", "greatest") if has_extremes else ()
    halves = () if is_guaranteed else ("",)
    rows: list[tuple[object, ...]] = [("", "", head, *halves, "from", "to", *extremes)]
    for each in records:
        mean, values = mean_of(each), ("-" if each[end] is None else each[end] for end in extremes)
        if is_guaranteed:
            from psi_tools.stats.guaranteed import shown_out

            shown: tuple[str, ...] = shown_out(mean)
        else:
            shown = half_shown(mean), *ends_shown(mean)
        rows.append((KINDS[each["item"]], each["name"], figures(mean.mean, mean.half), *shown, *values))
    return aligned(rows, right=(2, *range(3 + len(halves), 8)))


def remarks(batches: Batches) -> list[str]:
    """What an interval means where all samples are alike, or few carry a mean."""
    alike = ", ".join(row.name for row in batches.rows if row.least is not None and row.least == row.greatest)
    line = f"all samples have the same value of {alike}: that others are rare is all that the interval says"
    return batches.carried() + [line] * bool(alike)
