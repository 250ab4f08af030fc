"""Intervals whose coverage is a theorem: of all lists of random words, few give one that misses.

docs/LAW.md (Many samples) has the theorem. The value of a row is from `least` to `greatest` in each
state. A stream has a score: how many steps its value is above the least, for the lower end, and
below the greatest, for the upper one. A stream that isn't coupled has the score 0 for both. An end
claims that the mean score is at least r / q. The claim is wrong for at most 1 in d lists where it
has a certificate in whole numbers:

- `binomial`, of scores 0 and 1, by their count (Clopper and Pearson 1934);
- `chernoff`, by the total of the scores alone (Chernoff 1952);
- `bets`, by all scores, with stakes that are fixed beforehand (Waudby-Smith and Ramdas 2024).

Floating point guesses r. What decides is computed with decimal numbers of many digits, each rounded
against the claim. check_interval.py decides again, with whole numbers.
"""

import collections
import dataclasses
import decimal
import functools
import math
from collections.abc import Callable, Iterator, Sequence
from fractions import Fraction
from typing import Any

from psi_tools.io.tables import Record
from psi_tools.stats.batches import Batches, record
from psi_tools.stats.intervals import LEVEL, Mean, Span, bisected, quantile, ranks, special, value_at
from psi_tools.stats.law import SHARES, Law, Quantile
from psi_tools.stats.paths import ITEMS, QUEUE, REWARD, PathRow, Paths
from psi_tools.stats.text import figures

ASSUMED = "assumed: the random words of the streams are as if each were drawn evenly and independently"
# How many pilot streams are drawn at most, and of how many counted ones there is one.
MOST_PILOTS, PILOTS = 1_000, 20
# By how much the stakes that are tried differ, and how many are tried.
FINER, TRIED = 1.25, 40
_LARGE: dict[str, Any] = {"prec": 80, "Emax": decimal.MAX_EMAX, "Emin": decimal.MIN_EMIN}
UP = decimal.Context(rounding=decimal.ROUND_CEILING, **_LARGE)
DOWN = decimal.Context(rounding=decimal.ROUND_FLOOR, **_LARGE)
# In units of the first case, what is less than this is counted as this.
LEAST_CASE = decimal.Decimal("1e-70")
Counts = Sequence[tuple[int, int]]


def one_in(level: float) -> int:
    """The least d so that two ends, each wrong for 1 in d lists, have a confidence level."""
    share: Fraction = 2 / (1 - Fraction(str(level)))
    return int(-(-share.numerator // share.denominator))


def parts_of(samples: int) -> int:
    """The number of parts of a step in which an end is given: more than there are samples."""
    return int(10 ** max(6, len(str(samples))))


def pilots_of(count: int) -> int:
    """The default number of pilot streams."""
    return min(MOST_PILOTS, -(-count // PILOTS))


def power(base: int | decimal.Decimal, exponent: int, way: decimal.Context) -> decimal.Decimal:
    """A power of a number that isn't negative, in which each product is rounded one way."""
    found, base = way.create_decimal(1), way.create_decimal(base)
    for digit in f"{exponent:b}":
        found = way.multiply(found, found)
        if digit == "1":
            found = way.multiply(found, base)
    return found


def is_binomial(k: int, i: int, r: int, q: int, d: int) -> bool:
    """Whether i or more ones of k draws, each a one in r of q cases, come in at most 1 of d cases.
    All cases are counted in units of those with i ones."""
    if not 0 < i <= k or not 0 < r < q or (k - i) * r > (i + 1) * (q - r):
        return False
    tail = case = UP.create_decimal(1)
    for j in range(i, k):
        if case < LEAST_CASE:
            # Each further case is at most this one.
            tail = UP.add(tail, UP.multiply(case, k - j))
            break
        case = UP.divide(UP.multiply(case, (k - j) * r), (j + 1) * (q - r))
        tail = UP.add(tail, case)
    rest, case = DOWN.create_decimal(0), DOWN.create_decimal(1)
    for j in range(i, 0, -1):
        case = DOWN.divide(DOWN.multiply(case, j * (q - r)), (k - j + 1) * r)
        rest = DOWN.add(rest, case)
        if case < LEAST_CASE:
            break
    return UP.multiply(tail, d - 1) <= rest


def is_chernoff(k: int, z: int, i: int, r: int, q: int, d: int, a: int, b: int) -> bool:
    """Whether the exponential inequality with a and b certifies r of q, for k scores up to z whose
    total is i."""
    if not 1 <= a or not 0 <= b <= a or not 0 <= r <= q * z:
        return False
    one, other = (UP.multiply(UP.create_decimal(x), power(y, z, UP)) for x, y in ((r, a), (q * z - r, b)))
    left = UP.multiply(power(UP.add(one, other), k, UP), d)
    right = DOWN.multiply(power(a, i, DOWN), power(b, k * z - i, DOWN))
    return left <= DOWN.multiply(right, power(q * z, k, DOWN))


def is_won(scores: Counts, r: int, q: int, d: int, t: int, stakes: Sequence[int]) -> bool:
    """Whether bets of these stakes, each a whole part of t, on the scores become d times what they
    were, if each pays fairly where the mean score is r / q."""
    if any(stake * r > t * q for stake in stakes):
        return False
    won = DOWN.create_decimal(0)
    for stake in stakes:
        product = DOWN.create_decimal(1)
        for score, count in scores:
            paid = power(t * q + stake * (q * score - r), count, DOWN)
            product = DOWN.multiply(product, paid)
        won = DOWN.add(won, product)
    begun = power(t * q, sum(count for _, count in scores), UP)
    return UP.multiply(begun, d * len(stakes)) <= won


def greatest_claim(guess: int, is_certified: Callable[[int], bool]) -> int:
    """A claim that has a certificate, near the guess; 0 where there is none."""
    less = 1
    while guess > 0 and not is_certified(guess):
        guess, less = guess - less, 2 * less
    return max(guess, 0)


def by_count(k: int, i: int, q: int, d: int) -> dict[str, Any] | None:
    """The claim of i ones in k scores of 0 and 1; none where there is nothing to claim."""
    if not i:
        return None
    guess = int(q * float(special().betaincinv(i, k - i + 1, 1 / d))) + 1
    r = greatest_claim(min(guess, q - 1), lambda r: is_binomial(k, i, r, q, d))
    return {"by": "binomial", "r": r} if r else None


def by_total(k: int, z: int, i: int, q: int, d: int) -> dict[str, Any] | None:
    """The claim of the total of the scores."""
    if not i:
        return None
    share = i / (k * z)

    def loss(p: float) -> float:
        """How much less than 1 in d the tail is, as a logarithm for each stream."""
        most = share * math.log(share / p)
        rest = (1 - share) * math.log((1 - share) / (1 - p)) if share < 1 else 0
        return most + rest - math.log(d) / k

    guess = bisected(lambda p: loss(p) > 0, 0.0, share) if loss(1e-300) > 0 else 0.0
    base = 10**6 * z

    def numbers(r: int) -> tuple[int, int]:
        """The numbers a and b that are best for a claim."""
        if i == k * z:
            return 1, 0
        p = r / (q * z)
        ratio = math.log(share * (1 - p) / ((1 - share) * p)) / z
        return base + max(0, round(base * math.expm1(ratio))), base

    most = min(int(guess * q * z) + 1, q * z - 1)
    r = greatest_claim(most, lambda r: is_chernoff(k, z, i, r, q, d, *numbers(r)))
    return {"by": "chernoff", "r": r, **dict(zip("ab", numbers(r)))} if r else None


def mean_won(scores: Sequence[tuple[int, float]], parts: Sequence[float], d: int) -> float:
    """The greatest mean score that bets on scores exclude, where a stake is a part of what there
    is for each step of the score; as floating point has it."""
    import numpy

    values, counts = numpy.array(scores, float).T
    whole = counts.sum()
    column = numpy.array(parts)[:, None]
    need = math.log(d * len(parts))

    def is_excluded(mean: float) -> bool:
        logarithms = numpy.log1p(column * (values - mean)) @ counts
        most = logarithms.max()
        return bool(most + math.log(numpy.exp(logarithms - most).sum()) >= need)

    top = min((values @ counts) / whole, (1 - 1e-9) / float(column.max()))
    return bisected(is_excluded, 0.0, top) if is_excluded(0.0) else 0.0


def by_bets(scores: Counts, q: int, d: int, t: int, stakes: Sequence[int]) -> dict[str, Any] | None:
    """The claim of all scores, with stakes that are parts of t."""
    scores = [(score, count) for score, count in scores if count]
    guess = int(q * mean_won(scores, [stake / t for stake in stakes], d)) + 1
    r = greatest_claim(guess, lambda r: is_won(scores, r, q, d, t, stakes))
    return {"by": "bets", "r": r, "t": t, "stakes": [*stakes]} if r else None


def first_part(k: int, d: int) -> float:
    """The part of what there is, for the whole range, that is best where the scores spread as far
    as they can."""
    return min(1.0, math.sqrt(8 * math.log(d) / k))


def stakes_of_range(k: int, z: int, d: int) -> tuple[int, list[int]]:
    """The stakes by k and the range alone, as parts of their first: each is twice the last."""
    t, parts = 10**6 * z, [first_part(k, d)]
    while 2 * parts[-1] <= 1:
        parts.append(2 * parts[-1])
    return t, [max(1, int(10**6 * part)) for part in parts]


@functools.lru_cache(maxsize=8)
def stakes_of_pilot(pilot: tuple[tuple[int, int], ...], k: int, z: int, d: int) -> tuple[int, list[int]]:
    """The stake that would claim most where k scores were like those of a pilot, and one more at
    each end of the range."""
    t, seen = 10**6 * z, [*pilot, (0, 1), (z, 1)]
    many = sum(count for _, count in seen)
    scores = [(score, count * k / many) for score, count in seen]
    mean = sum(score * count for score, count in scores) / k
    most, part = 0.9 / mean, first_part(k, d) / z
    tried = [min(part, most)]
    while part * FINER < most and len(tried) < TRIED:
        part *= FINER
        tried.append(part)
    best = max(tried, key=lambda part: mean_won(scores, [part], d))
    return t, [max(1, int(t * best))]


@dataclasses.dataclass
class Pilot:
    """What pilot streams have shown, which aren't counted: how many have each value, and of how
    many it isn't known."""

    counts: Counts
    unknown: int
    first: int
    count: int


@dataclasses.dataclass
class Guarantee:
    """The claims of a row of `samples` streams, of which `unknown` aren't coupled: by the counts of
    its values, or by their sum alone. Each end is wrong for at most 1 in `d` lists. Values that are
    sums along paths are of `times` times, so the mean at a time is that of the values, divided."""

    name: str
    samples: int
    unknown: int
    span: Span
    d: int
    counts: Counts = ()
    total: int | None = None
    pilot: Pilot | None = None
    claims: list[dict[str, Any]] = dataclasses.field(default_factory=list)
    times: int = 1

    def __post_init__(self) -> None:
        self.known, self.q = self.samples - self.unknown, parts_of(self.samples)
        if self.total is None:
            self.total = sum(value * count for value, count in self.counts)
        self.whole: int = self.total

    @property
    def ends(self) -> tuple[int, int]:
        """The least and the greatest value."""
        return self.span.ends

    def scores(self, counts: Counts, unknown: int, is_low: bool) -> Counts:
        """How many streams have each score, for the one end or the other."""
        least, greatest = self.ends
        steps = [((v - least if is_low else greatest - v), count) for v, count in counts]
        return [(0, unknown), *steps] if unknown else steps

    def mean(self) -> tuple[Fraction, Fraction]:
        """The two ends of the mean."""
        (least, greatest), sides = self.ends, (True, False)
        width = greatest - least
        unit = width if self.span.two else 1
        if not width:
            return Fraction(least), Fraction(greatest)
        totals = self.whole - least * self.known, greatest * self.known - self.whole
        claims = [self.end(total // unit, width // unit, is_low) for total, is_low in zip(totals, sides)]
        self.claims.append({"of": "mean", "q": self.q, "unit": unit, **dict(zip(("low", "high"), claims))})
        low, high = (Fraction(unit * (claim or {"r": 0})["r"], self.q) for claim in claims)
        return least + low, greatest - high

    def end(self, total: int, z: int, is_low: bool) -> dict[str, Any] | None:
        """The claim of an end of the mean."""
        if z == 1:
            return by_count(self.samples, total, self.q, self.d)
        if not self.counts:
            return by_total(self.samples, z, total, self.q, self.d)
        if self.pilot is None:
            stakes = stakes_of_range(self.samples, z, self.d)
        else:
            seen = self.scores(self.pilot.counts, self.pilot.unknown, is_low)
            stakes = stakes_of_pilot(tuple(seen), self.samples, z, self.d)
        return by_bets(self.scores(self.counts, self.unknown, is_low), self.q, self.d, *stakes)

    def share(self, first: int, last: int) -> tuple[Fraction, Fraction]:
        """The two ends of the share of the values from the first to the last."""
        hits = sum(count for value, count in self.counts if first <= value <= last)
        low, high = (by_count(self.samples, i, self.q, self.d) for i in (hits, self.known - hits))
        ends = {"from": first, "to": last, "low": low, "high": high}
        self.claims.append({"of": "share", "q": self.q, "unit": 1, **ends})
        below, above = (Fraction((claim or {"r": 0})["r"], self.q) for claim in (low, high))
        return below, 1 - above

    def quantile(self, share: float) -> tuple[int, int]:
        """The two values between which all quantiles of a share are."""
        k, part = self.samples, Fraction(str(share))
        r, q = part.numerator, part.denominator
        lower, upper = ranks(share, k, 1 - 2 / self.d)
        j = next((j for j in range(max(1, k - lower + 1), k + 1) if is_binomial(k, j, q - r, q, self.d)), k + 1)
        i = next((i for i in range(max(1, upper), k + 1) if is_binomial(k, i, r, q, self.d)), k + 1)
        low, high = value_at([*self.counts][::-1], j), value_at(self.counts, i)
        if j <= k and i <= k:
            self.claims.append({"of": "quantile", "r": r, "q": q, "low": j, "high": i})
        least, greatest = self.ends
        return least if low is None or j > k else low, greatest if high is None or i > k else high

    def ways(self) -> list[str]:
        """The line of what the stakes of bets are from; none where there are none."""
        ends = [claim[end] for claim in self.claims for end in ("low", "high")]
        if not any(type(end) is dict and end["by"] == "bets" for end in ends):
            return []
        if self.pilot is None:
            return ["the mean by bets, with stakes from the number of streams and the range"]
        last = self.pilot.first + self.pilot.count - 1
        return [
            f"the mean by bets, with stakes from {self.pilot.count:,} pilot streams, "
            f"{self.pilot.first} to {last}, which aren't counted"
        ]

    def record(self) -> dict[str, Any]:
        """The row as a file of certificates has it."""
        seen: dict[str, Any] = {"counts": [[*pair] for pair in self.counts]} if self.counts else {"sum": self.total}
        least, greatest = self.ends
        return {
            "name": self.name,
            "samples": self.samples,
            "uncoupled": self.unknown,
            "least": least,
            "greatest": greatest,
            **({"times": self.times} if self.times > 1 else {}),
            **seen,
            "claims": self.claims,
        }


def file_of(rows: Sequence[Guarantee], drawn: dict[str, Any]) -> dict[str, Any]:
    """The file of certificates of some rows; `drawn` names the samples."""
    return {"format": "psi certificates 1", "drawn": drawn, "d": rows[0].d, "rows": [row.record() for row in rows]}


def rounded_out(low: Fraction, high: Fraction) -> tuple[float, float]:
    """Two ends as floating point, the lower one rounded down, and the upper one up."""
    one, other = float(low), float(high)
    one = math.nextafter(one, -math.inf) if one > low else one
    return one, math.nextafter(other, math.inf) if other < high else other


def mean_between(mean: float | None, ends: tuple[Fraction, Fraction]) -> Mean:
    """A mean with guaranteed ends."""
    low, high = rounded_out(*ends)
    return Mean(mean, (high - low) / 2, (low, high))


def written_out(number: float, places: int, is_high: bool) -> str:
    """An end as text, rounded up where it is the upper one, else down."""
    step = decimal.Decimal(1).scaleb(-places)
    way = decimal.ROUND_CEILING if is_high else decimal.ROUND_FLOOR
    # Adding 0 makes -0 a plain zero.
    return f"{UP.add(decimal.Decimal(number).quantize(step, way, UP), 0):f}"


def shown_out(mean: Mean) -> tuple[str, str]:
    """The two ends as texts, each rounded outwards, with as many places as half of the interval has
    a meaning for."""
    places = min(12, max(0, 1 - math.floor(math.log10(mean.half)))) if mean.half else 6
    low, high = mean.ends or (math.nan, math.nan)
    return written_out(low, places, False), written_out(high, places, True)


def misses(d: int) -> str:
    """The line on what is guaranteed."""
    return f"each interval misses for at most 2 in {d:,} lists of the streams' random words"


@dataclasses.dataclass
class GuaranteedLaw(Law):
    """A distribution whose intervals carry a theorem: each misses for at most 2 in d lists of
    random words."""

    pilot: Pilot | None = None
    d: int = one_in(LEVEL)

    def __post_init__(self) -> None:
        self.row = Guarantee(self.name, self.many, self.unknown, self.span, self.d, self.counts, pilot=self.pilot)
        values = sum(value * count for value, count in self.counts)
        self.own_mean = mean_between(values / self.known, self.row.mean())
        self.own_records = super().records()
        self.own_quantiles: list[Quantile] = [
            (share, quantile(self.counts, share)[0], *self.row.quantile(share)) for share in SHARES
        ]

    def mean(self, level: float = LEVEL) -> Mean:
        return self.own_mean

    def records(self, level: float = LEVEL) -> list[Record]:
        return self.own_records

    def ends(self, first: int, last: int, count: int, level: float) -> tuple[float, float]:
        return rounded_out(*self.row.share(first, last))

    def quantiles(self, shares: Sequence[float] = SHARES, level: float = LEVEL) -> Iterator[Quantile]:
        yield from self.own_quantiles

    def shown(self, key: str, number: float) -> str:
        """Ends are rounded outwards."""
        if key.endswith(("low", "high")):
            return written_out(number, 5, key.endswith("high"))
        return super().shown(key, number)

    def mean_line(self) -> str:
        mean = self.mean()
        return "mean {}, {} to {}".format(figures(mean.mean, mean.half), *shown_out(mean))

    def remarks(self) -> list[str]:
        """By what the mean has its interval, and what is assumed."""
        return [*self.row.ways(), misses(self.d), ASSUMED]


def guaranteed_means(batches: Batches, level: float) -> tuple[list[Guarantee], list[Record]]:
    """The claims of all rows of reports, of which the sums alone are known, and the rows of the answer, whose
    intervals carry a theorem."""
    rows, records = [], []
    for row in batches.rows:
        name, span = f"{'reward' if row.kind else 'queue'} {row.name}", batches.span(row)
        assert span is not None
        own = Guarantee(name, sum(batches.samples), batches.uncoupled, span, one_in(level), total=sum(row.sums))
        ends = mean_between(sum(row.sums) / own.known if own.known else None, own.mean())
        rows.append(own)
        records.append(record(f"{row.kind}mean", row.name, ends, row.least, row.greatest))
    return rows, records


def guaranteed_paths(
    paths: Paths, pilot: Paths | None, first: int, level: float
) -> tuple[list[Guarantee], list[Record]]:
    """The claims of all queues and rewards along paths, and the rows of the answer. `pilot` has paths that
    aren't counted, from the stream `first` on. The theorem is one about states, so events have none."""
    claims, records = [], []
    for place, row in enumerate(paths.rows):
        if row.kind not in (QUEUE, REWARD):
            continue
        seen = None if pilot is None else Pilot(counts_of(pilot.rows[place]), pilot.lost, first, pilot.count)
        least, greatest = (row.times * end for end in row.span.ends)
        span = Span(least, greatest, least, greatest, row.span.two and row.times == 1)
        name, d = f"{row.kind} {row.name}", one_in(level)
        own = Guarantee(name, paths.count, paths.lost, span, d, counts_of(row), pilot=seen, times=row.times)
        low, high = (end / row.times for end in own.mean())
        mean = mean_between(sum(row.sums) / (row.times * len(row.sums)), (low, high))
        claims.append(own)
        records.append(record(ITEMS[row.kind], row.name, mean, None, None))
    return claims, records


def counts_of(row: PathRow) -> list[tuple[int, int]]:
    """How many paths have each sum, ascending."""
    return sorted(collections.Counter(row.sums).items())
