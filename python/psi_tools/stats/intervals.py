"""Confidence intervals of means, shares, differences and quantiles over independent samples.

Statistics in Python, and no promise of psi: an interval of 95 % holds what it is of in some 95 % of
all repetitions, as far as the streams are independent. `share_of` serves values 0 and 1, by their count;
`mean_of_values` and `mean_of_batches` serve bounded values; and `difference_of_batches` serves two designs.

An interval of a mean reckons with a sample that did not come. Where a rare value is large, most
sets of samples lack it, and Student's t alone would be far too narrow. So a row has a `Span`: what
its values may be at all, and how far the value that did not come may lie from those that did.
"""

import bisect
import contextlib
import dataclasses
import functools
import importlib
import itertools
import math
import threading
from collections.abc import Callable, Iterator, Sequence
from typing import Any

# The default confidence level.
LEVEL = 0.95
# Steps of a bisection, and of the rule by which the exponential part is integrated, and how near the
# logarithm of a probability, and a quantile, have to be met.
HALVINGS, NODES, NEAR, NEAREST = 60, 64, 1e-6, 1e-9
# A quantile of the standard normal distribution that no level reaches.
FARTHEST = 10.0
# A mean is carried by few samples where its sum is that of fewer than this number of equal size.
FEW = 30
# Samples that are drawn within this number of seconds are waited for.
AT_ONCE = 0.1
# Both halves of an interval are equal for a reader where they differ by less than this share.
EVEN = 0.1


@functools.cache
def special() -> Any:
    """The functions of scipy, which take a while to be read: only where an interval is wanted."""
    return importlib.import_module("scipy.special")


@contextlib.contextmanager
def reading_ahead() -> Iterator[None]:
    """Imports scipy while samples are drawn, where that takes a while. A fault is reported where it is needed."""

    def read() -> None:
        with contextlib.suppress(Exception):
            special()

    # Processes that are started beside an import come later, and both take longer.
    timer = threading.Timer(AT_ONCE, read)
    timer.start()
    try:
        yield
    finally:
        timer.cancel()


@dataclasses.dataclass(frozen=True)
class Mean:
    """A mean with half the width of its interval, in the unit of the values; none where there are
    no values, or only one batch with some. The mean is the middle where the ends aren't given."""

    mean: float | None
    half: float | None
    ends: tuple[float, float] | None = None

    def __post_init__(self) -> None:
        if self.ends is None and self.mean is not None and self.half is not None:
            object.__setattr__(self, "ends", (self.mean - self.half, self.mean + self.half))

    @property
    def low(self) -> float | None:
        """The lower end."""
        return self.ends and self.ends[0]

    @property
    def high(self) -> float | None:
        """The upper end."""
        return self.ends and self.ends[1]

    def holds(self, value: float) -> bool:
        """Whether a value is in the interval."""
        return self.ends is not None and self.ends[0] <= value <= self.ends[1]

    @property
    def is_even(self) -> bool:
        """Whether the mean is the middle of the interval, as far as a reader sees."""
        if not self.half or self.mean is None or self.ends is None:
            return self.half is not None
        return abs((self.ends[1] - self.mean) - (self.mean - self.ends[0])) <= EVEN * self.half


NO_MEAN = Mean(None, None)


def between(mean: float, low: float, high: float) -> Mean:
    """A mean with the two ends of its interval."""
    return Mean(mean, (high - low) / 2, (low, high))


@dataclasses.dataclass(frozen=True)
class Span:
    """The values of a row: `least` and `greatest` are the ends of what it may have, none where they aren't known; `low`
    and `high` those of what a sample that did not come may have. `two` says that it has these ends alone."""

    least: int | None
    greatest: int | None
    low: int
    high: int
    two: bool = False

    @property
    def ends(self) -> tuple[int, int]:
        """The least and the greatest value of a row of which both are known."""
        assert self.least is not None and self.greatest is not None
        return self.least, self.greatest

    def less(self, other: "Span") -> "Span":
        """The span of the difference of two rows."""
        least = None if self.least is None or other.greatest is None else self.least - other.greatest
        greatest = None if self.greatest is None or other.least is None else self.greatest - other.least
        return Span(least, greatest, self.low - other.high, self.high - other.low)

    def clipped(self, value: float) -> float:
        """The nearest value that the row's mean may have."""
        value = value if self.least is None else max(value, self.least)
        return value if self.greatest is None else min(value, self.greatest)


ZERO_ONE = Span(0, 1, 0, 1, True)


def student(degrees: int, level: float = LEVEL) -> float:
    """How many standard deviations wide half of an interval is by Student's t."""
    return float(special().stdtrit(degrees, (1 + level) / 2))


def bisected(is_below: Callable[[float], bool], low: float, high: float) -> float:
    """Where a condition that holds from `low` on ends, up to `high`."""
    for _ in range(HALVINGS):
        middle = (low + high) / 2
        if is_below(middle):
            low = middle
        else:
            high = middle
    return (low + high) / 2


def crossing(tail: Callable[[float], tuple[float, float]], wanted: float, x: float, low: float, high: float) -> float:
    """Where a probability that falls is a wanted one, between two places; `tail` returns it with how
    fast it falls. Newton's method finds it from x on, for the logarithm, which is nearly a line; a step
    that leaves the two places is a halving instead."""
    for _ in range(HALVINGS):
        found, slope = tail(x)
        miss = math.log(found / wanted) if found > 0 else -math.inf
        if abs(miss) < NEAR:
            break
        low, high = (x, high) if miss > 0 else (low, x)
        after = x + miss * found / slope if found > 0 and slope > 0 else low
        x = after if low < after < high else (low + high) / 2
    return x


@functools.cache
def exponential_nodes() -> tuple[Any, Any]:
    """Values of an exponential variable of mean 1, and the weights by which its distribution is integrated."""
    import numpy

    # The substitution u = v^2 has most nodes where the exponential variable, -log u, is large.
    places = (numpy.arange(NODES) + 0.5) / NODES
    return -2 * numpy.log(places), 2 * places / NODES


def student_and_unseen(degrees: int, ratio: float, level: float = LEVEL) -> float:
    """The quantile of Student's t plus `ratio` times an exponential variable of mean 1: how far an
    end is from the mean, in standard errors, where the value that did not come would add `ratio`
    of them, had it come once. For a ratio of 0 it is Student's t; for rare values 0 and 1 the end
    is close to that of Clopper and Pearson."""
    wanted, middle = (1 - level) / 2, student(degrees, level)
    if ratio <= 0:
        return middle
    logs, weights = exponential_nodes()
    parts, stdtr = ratio * logs, special().stdtr
    factor = math.exp(math.lgamma((degrees + 1) / 2) - math.lgamma(degrees / 2)) / math.sqrt(degrees * math.pi)

    def tail(x: float) -> tuple[float, float]:
        rest = parts - x
        density = factor * (1 + rest * rest / degrees) ** (-(degrees + 1) / 2)
        return float(weights @ stdtr(degrees, rest)), float(weights @ density)

    first = max(middle, -ratio * math.log(wanted))
    return crossing(tail, wanted, first, middle - 1e-6, 2 * middle - ratio * math.log(wanted / 4))


@dataclasses.dataclass(frozen=True)
class Spread:
    """The mean of samples in batches, its standard error, and how many batches and samples there are."""

    mean: float
    error: float | None
    batches: int
    many: int


def spread_of(sums: Sequence[int], counts: Sequence[int]) -> Spread | None:
    """The mean of samples in batches, from the sum of each batch and how many samples it has.

    The batches may differ in size: with m the mean of all, the sum of n (m_i - m)^2 over k batches,
    divided by k - 1, has the variance of one sample as its mean. Sums are whole numbers of any
    size, so nothing is lost of them before the deviations are known."""
    pairs = [(total, count) for total, count in zip(sums, counts) if count]
    if not pairs:
        return None
    whole, many = sum(total for total, _ in pairs), sum(count for _, count in pairs)
    if len(pairs) < 2:
        return Spread(whole / many, None, 1, many)
    squares = sum(count * ((total * many - whole * count) / (count * many)) ** 2 for total, count in pairs)
    error = math.sqrt(squares / (len(pairs) - 1) / many)
    return Spread(whole / many, error, len(pairs), many)


@dataclasses.dataclass(frozen=True)
class Sums:
    """A row over samples in batches: `sums` has the sum of each batch, `counts` how many samples of it
    are coupled, `span` what the row may be, and `lost` how many samples of each aren't coupled."""

    sums: Sequence[int]
    counts: Sequence[int]
    span: Span
    lost: Sequence[int] = ()

    def filled(self, value: int | None) -> tuple[list[int], list[int]]:
        """The sums and the counts, in which each stream that isn't coupled counts with a value."""
        lost = self.lost or [0] * len(self.sums)
        sums = [total + number * (value or 0) for total, number in zip(self.sums, lost)]
        return sums, [count + number for count, number in zip(self.counts, lost)]


def end_of_batches(spread: Spread, far: float, level: float = LEVEL) -> float:
    """How far an end is from the mean over batches; `far` is the value there of a sample that did not come."""
    unseen = abs(far - spread.mean) / spread.many
    if not spread.error:
        # All batches are alike: what didn't come in any sample comes in so few of all.
        return -math.log((1 - level) / 2) * unseen
    return spread.error * student_and_unseen(spread.batches - 1, unseen / spread.error, level)


def mean_of_batches(row: Sums, level: float = LEVEL) -> Mean:
    """The mean of a row over samples in batches. Each end of its interval is that of Student's t, and also
    reckons with a value that did not come. What isn't coupled counts as the least of the span below and as
    the greatest above, and where the span doesn't know them there is no interval. The estimate is over what
    is coupled."""
    whole, span = spread_of(row.sums, row.counts), row.span
    if whole is None:
        return NO_MEAN
    below: Spread | None = whole
    above: Spread | None = whole
    if any(row.lost):
        ends = span.least, span.greatest
        below, above = (None if end is None else spread_of(*row.filled(end)) for end in ends)
    if below is None or above is None or below.error is None or above.error is None:
        return Mean(whole.mean, None)
    low = below.mean - end_of_batches(below, min(span.low, below.mean), level)
    high = above.mean + end_of_batches(above, max(span.high, above.mean), level)
    return between(whole.mean, span.clipped(low), span.clipped(high))


def mean_of_two(row: Sums, level: float = LEVEL) -> Mean:
    """The mean of a row that has two values alone, those of its span: a share, and exact."""
    least, greatest = row.span.ends
    width, many, unknown = greatest - least, sum(row.counts), sum(row.lost)
    if not width or not many:
        return Mean(least, 0.0) if many else NO_MEAN
    ends = probability((sum(row.sums) - many * least) // width, many + unknown, unknown, level)
    low, high = (least + width * end for end in ends)
    return between(sum(row.sums) / many, low, high)


def difference_of_batches(one: Sums, other: Sums, level: float = LEVEL) -> Mean:
    """The mean of the first samples less that of the others, where both have the same batches of
    the same streams, under common random numbers: the differences of the batches are the values, so
    what both have in common doesn't widen the interval. Where both rows have the same two values, as 0
    and 1, the interval also holds that of the joint counts, as far as the batches show them."""
    mine, theirs = spread_of(one.sums, one.counts), spread_of(other.sums, other.counts)
    if mine is None or theirs is None:
        return NO_MEAN
    gap, has_lost = mine.mean - theirs.mean, any(one.lost) or any(other.lost)
    ends = [end for span in (one.span, other.span) for end in (span.least, span.greatest)]
    if has_lost and None in ends:
        return Mean(gap, None)
    low = high = difference_end(one, other, ends[0], ends[3])
    if has_lost:
        high = difference_end(one, other, ends[1], ends[2])
    if low is None or high is None or low.error is None:
        return Mean(gap, None)
    both = one.span.less(other.span)
    lower = low.mean - end_of_batches(low, min(both.low, low.mean), level)
    upper = high.mean + end_of_batches(high, max(both.high, high.mean), level)
    if one.span.two and other.span.two and ends[:2] == ends[2:] and not has_lost:
        least, greatest = one.span.ends
        # Of a width of 0 both rows are one number.
        width = (greatest - least) or 1
        # In how many streams the rows differ by their width and by less it, as far as the sums show it.
        gaps = [(x - y) // width for x, y in zip(one.sums, other.sums)]
        plus, minus = (sum(max(0, sign * each) for each in gaps) for sign in (1, -1))
        pairs = difference_of_pairs(plus, minus, sum(one.counts), level).ends
        if pairs is not None:
            lower, upper = min(lower, width * pairs[0]), max(upper, width * pairs[1])
    return between(gap, both.clipped(lower), both.clipped(upper))


def difference_end(one: Sums, other: Sums, value: int | None, other_value: int | None) -> Spread | None:
    """The differences of the batches, in which what isn't coupled counts with these values."""
    (mine, counts), (theirs, _) = one.filled(value), other.filled(other_value)
    return spread_of([x - y for x, y in zip(mine, theirs)], counts)


def difference_of_pairs(plus: int, minus: int, many: int, level: float = LEVEL) -> Mean:
    """The difference of two rows of 0 and 1 which differ by 1 in `plus` of `many` streams, and by -1 in `minus`."""
    counts = [(-1, minus), (0, many - plus - minus), (1, plus)]
    return mean_of_values(counts, Span(-1, 1, -1, 1), level=level)


def mean_of_values(counts: Sequence[tuple[float, int]], span: Span, unknown: int = 0, level: float = LEVEL) -> Mean:
    """The mean of a row by its values: `counts` has pairs of a value and how many samples have it,
    `unknown` is of how many streams it isn't known, which count as the least of the span below and
    as the greatest above.

    An end is a quantile of the mean under random weights of the samples, each of an exponential
    variable, among which the end of the span is one more sample (Gaffke 2005; Learned-Miller and
    Thomas 2020). For values 0 and 1 that is the interval of Clopper and Pearson."""
    counts = [(value, count) for value, count in counts if count]
    known = sum(count for _, count in counts)
    if not known:
        return NO_MEAN
    mean = sum(value * count for value, count in counts) / known
    if unknown and (span.least is None or span.greatest is None):
        return Mean(mean, None)
    tail = (1 - level) / 2
    least, greatest = span.ends if unknown else (0, 0)
    low = -upper_end([(-x, n) for x, n in [*counts, (least, unknown)] if n], -span.low, tail)
    high = upper_end([(x, n) for x, n in [*counts, (greatest, unknown)] if n], span.high, tail)
    # Adding 0 makes -0.0 a plain zero.
    return between(mean, span.clipped(low) + 0.0, span.clipped(high) + 0.0)


def upper_end(counts: Sequence[tuple[float, int]], far: float, tail: float) -> float:
    """The upper end of a mean by its values, with `far` as one more sample.

    With w the values less t and G independent gamma variables of the counts as shapes, it is the t
    at which the sum of w G is negative with probability 1 - tail: found by the saddlepoint of that
    sum (Lugannani and Rice 1980), which the parameter x gives for a t that is explicit."""
    import numpy

    far = max(far, *(value for value, _ in counts))
    values, shapes = numpy.array([*counts, (far, 1)], float).T
    centre = (values * shapes).sum() / shapes.sum()
    values, scale = values - centre, abs(values - centre).max()
    if scale == 0:
        return float(centre)
    values = values / scale
    return float(centre + scale * quantile_of_mean(values, shapes, float(special().ndtri(1 - tail))))


def quantile_of_mean(values: Any, shapes: Any, wanted: float) -> float:
    """For values whose weighted mean is 0: the quantile of the randomly weighted mean that is this many standard
    deviations of the normal distribution up, by secants from the normal approximation on."""
    low, high = 0.0, 1 / float(values.max())
    x = min(wanted / math.sqrt((shapes * values**2).sum()), high / 2)
    before, missed, t = 0.0, -wanted, 0.0
    for _ in range(HALVINGS):
        t, found = deviate(values, shapes, x)
        miss = found - wanted
        if abs(miss) < NEAREST:
            break
        low, high = (low, x) if miss > 0 else (x, high)
        after = x - miss * (x - before) / (miss - missed) if miss != missed else low
        before, missed, x = x, miss, after if low < after < high else (low + high) / 2
    return t


def deviate(values: Any, shapes: Any, x: float) -> tuple[float, float]:
    """For values whose weighted mean is 0: the t that belongs to the parameter x, and the quantile of the standard
    normal distribution at the probability that the randomly weighted mean is at most t."""
    import numpy

    weights = shapes / (1 - x * values)
    t = (weights @ values) / weights.sum()
    s = x / (1 - x * t)
    rest = 1 - s * (values - t)
    if rest.min() <= 0 or s <= 0:
        return t, FARTHEST if s > 0 else 0.0
    root = math.sqrt(max(0.0, 2 * (shapes @ numpy.log(rest))))
    other = s * math.sqrt(shapes @ ((values - t) / rest) ** 2)
    if root < 1e-6 or other <= 0:
        return t, 0.0
    return t, min(FARTHEST, root + math.log(other / root) / root)


def carriers(mean: float, error: float | None, many: int, base: float) -> float:
    """How many samples of equal size would have the sum of a row above its least value, `base`, and its variance."""
    if not error:
        return float(many)
    share = (mean - base) ** 2
    return many * share / (share + error**2 * many)


def carried_by_few(name: str, number: float, many: int) -> list[str]:
    """The line on a mean that few samples carry; none where many do."""
    line = f"few samples carry the mean of {name}: as if {max(1, round(number))} of {many:,} had the whole sum"
    return [f"{line}; more streams make its interval narrower"] if number < FEW else []


def probability(count: int, many: int, unknown: int = 0, level: float = LEVEL) -> tuple[float, float]:
    """The ends of an interval of a probability: `count` of `many` independent samples have it, and
    of `unknown` more of the many it isn't known (Clopper and Pearson 1934). It holds the
    probability at least as often as the level, whatever the unknown ones are."""
    tail = (1 - level) / 2
    low = special().betaincinv(count, many - count + 1, tail) if count else 0.0
    most = count + unknown
    high = special().betaincinv(most + 1, many - most, 1 - tail) if most < many else 1.0
    return float(low), float(high)


def share_of(count: int, many: int, unknown: int = 0, level: float = LEVEL) -> Mean:
    """The share that `count` of `many` independent samples are, with the ends of its interval; of
    `unknown` of the many it isn't known whether they are, and the estimate is over the others."""
    if many <= unknown:
        return NO_MEAN
    return between(count / (many - unknown), *probability(count, many, unknown, level))


def ranks(share: float, many: int, level: float = LEVEL) -> tuple[int, int]:
    """The ranks, counted from 1, of the two ordered samples between which a quantile is: 0 and
    many + 1 stand for the ends of the range. The number of samples below it is binomial."""

    def below(rank: int) -> float:
        return float(special().bdtr(rank, many, share))

    tail = (1 - level) / 2
    low, high = (bisect.bisect_left(range(many), each, key=below) for each in (tail, 1 - tail))
    return low, high + 1


def quantile(
    values: Sequence[tuple[int, int]], share: float, unknown: int = 0, level: float = LEVEL
) -> tuple[int | None, int | None, int | None]:
    """A quantile with its ends: the least value that at least this share of all samples doesn't
    pass. `values` are pairs of a value and how many samples have it, in their order; of `unknown`
    more it isn't known, so the lower end takes them for the least, and the upper for the greatest.
    An end is none where the samples don't determine it."""
    known = sum(count for _, count in values)
    low, high = ranks(share, known + unknown, level)
    middle = value_at(values, max(1, math.ceil(round(share * known, 9))))
    return middle, value_at(values, low - unknown), value_at(values, high)


def value_at(values: Sequence[tuple[int, int]], rank: int) -> int | None:
    """The value of a rank, none where there isn't one."""
    sums = itertools.accumulate(count for _, count in values)
    return next((value for (value, _), passed in zip(values, sums) if 1 <= rank <= passed), None)
