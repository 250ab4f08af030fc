"""Distributions over samples: of a number with its mean and quantiles, and of several numbers jointly."""

import dataclasses
from collections.abc import Iterator, Sequence
from typing import Any

from psi_tools.io.tables import Record
from psi_tools.stats import intervals
from psi_tools.stats.text import ends_shown, figures, half_shown

# A share, its quantile, and the ends of its interval.
Quantile = tuple[float, int | None, int | None, int | None]

# The columns of a value's row.
RECORD = ("value", "count", "probability", "low", "high", "at_most", "at_most_low", "at_most_high")
# Those of values that came together, after the values, and of a condition.
SHARED = ("count", "probability", "low", "high")
SHARES = 0.05, 0.25, 0.5, 0.75, 0.9, 0.95, 0.99


class Counted:
    """Values, or values of several columns, with how many samples have them; of `unknown` more streams they aren't
    known, as they weren't coupled."""

    counts: Sequence[tuple[Any, int]]
    unknown: int

    @property
    def known(self) -> int:
        """How many samples have known values."""
        return sum(count for _, count in self.counts)

    @property
    def many(self) -> int:
        """How many streams were drawn."""
        return self.known + self.unknown


@dataclasses.dataclass
class Law(Counted):
    """The distribution of a number over samples: `counts` has pairs of a value and how many samples have it, ascending;
    `unknown` more streams weren't coupled; `span` has what the number may be."""

    name: str
    what: str
    counts: list[tuple[int, int]]
    unknown: int
    span: intervals.Span

    def mean(self, level: float = intervals.LEVEL) -> intervals.Mean:
        """The mean of the known values with its interval: of two values that of a share. What isn't known widens it."""
        low, high = self.span.ends
        if self.span.two and self.known and low < high:
            count = sum(count for value, count in self.counts if value == high)
            ends = intervals.probability(count, self.many, self.unknown, level)
            mean = low + (high - low) * count / self.known
            return intervals.between(mean, *(low + (high - low) * end for end in ends))
        return intervals.mean_of_values(self.counts, self.span, self.unknown, level)

    def remarks(self) -> list[str]:
        """What is to be known of the intervals, each as a line: that few samples carry the mean, where it has any."""
        many = self.known
        if self.span.two or many < 2:
            return []
        mean = sum(value * count for value, count in self.counts) / many
        squares = sum(count * (value - mean) ** 2 for value, count in self.counts)
        error = (squares / (many - 1) / many) ** 0.5
        return intervals.carried_by_few(self.name, intervals.carriers(mean, error, many, self.counts[0][0]), many)

    def records(self, level: float = intervals.LEVEL) -> list[Record]:
        """Each value with its probability and that of no greater value, and their intervals."""
        below, records = 0, []
        for value, count in self.counts:
            below += count
            ends, most = self.ends(value, value, count, level), self.ends(self.counts[0][0], value, below, level)
            shares = count / self.known, *ends, below / self.known, *most
            records.append(dict(zip(RECORD, (value, count, *shares))))
        return records

    def ends(self, first: int, last: int, count: int, level: float) -> tuple[float, float]:
        """The ends of the interval of how often the number is from the first to the last, as in so many samples."""
        return intervals.probability(count, self.many, self.unknown, level)

    def quantiles(self, shares: Sequence[float] = SHARES, level: float = intervals.LEVEL) -> Iterator[Quantile]:
        """The quantiles, each its share, its value, and the ends of its interval."""
        least, greatest = self.span.ends
        for share in shares:
            value, low, high = intervals.quantile(self.counts, share, self.unknown, level)
            yield share, value, least if low is None else low, greatest if high is None else high

    def shown(self, key: str, number: float) -> str:
        """A number of a record as text."""
        return f"{number:.5f}"

    def mean_line(self) -> str:
        """The line of the mean."""
        mean = self.mean()
        half = f" {half_shown(mean)}" if mean.is_even else ""
        return "mean {}{}, {} to {}".format(figures(mean.mean, mean.half), half, *ends_shown(mean))


@dataclasses.dataclass
class Joint(Counted):
    """The joint distribution of some columns of a table over samples: `counts` has pairs of values, one for each
    column, and how many samples have them, ascending; of `unknown` more streams they aren't known, as they
    weren't coupled."""

    columns: list[str]
    counts: list[tuple[tuple[int, ...], int]]
    unknown: int

    def records(self, level: float = intervals.LEVEL) -> list[Record]:
        """The values that came together, each with their probability and its interval."""
        records: list[Record] = []
        for values, count in self.counts:
            ends = intervals.probability(count, self.many, self.unknown, level)
            cells = *values, count, count / self.known, *ends
            records.append(dict(zip((*self.columns, *SHARED), cells)))
        return records


@dataclasses.dataclass
class Share(Counted):
    """How many samples meet a condition, and how many don't; `unknown` more streams weren't coupled."""

    condition: str
    counts: list[tuple[bool, int]]
    unknown: int

    def records(self, level: float = intervals.LEVEL) -> list[Record]:
        """One row: how many samples meet the condition, and its probability with its interval."""
        count = sum(many for is_met, many in self.counts if is_met)
        ends = intervals.probability(count, self.many, self.unknown, level)
        return [dict(zip(SHARED, (count, count / self.known, *ends)))]
