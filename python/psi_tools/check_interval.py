#!/usr/bin/env python3
"""check_interval.py FILE

Checks the intervals of a file that `psi-law` or `psi-means` wrote with `--certificate FILE`. From
its counts and certificates it computes what they prove, and prints each interval. The inequalities
are those of docs/LAW.md, Certificates: Clopper and Pearson 1934, Chernoff 1952, and bets
(Waudby-Smith and Ramdas 2024). Status 0: all are proved; 4: one is not; 3: it is no such file.

It shares no line with the tools, and computes with whole numbers and fractions; what it rounds, it
rounds against the claim. It believes the file that psi printed these counts, that the value is from
`least` to `greatest`, in steps of `unit`, in every state, and that all numbers but r, a, b and the
counts were fixed before the counted samples were seen.
"""

import json
import sys
from fractions import Fraction
from itertools import accumulate
from math import ceil, comb, floor
from typing import Any

ANY = float("-inf")
CLAIMS = {"mean": "mean", "share": "share from {from} to {to}", "quantile": "quantile {r}/{q}"}
# Numbers, each with how often it came.
Counts = list[tuple[int, int]]


def rounded(x: Fraction, up: bool) -> Fraction:
    """A number of some 256 binary digits that is at least x, or at most x."""
    unit = Fraction(2) ** (x.numerator.bit_length() - x.denominator.bit_length() - 256)
    return (ceil if up else floor)(x / unit) * unit


def power(x: Fraction, n: int, up: bool) -> Fraction:
    """At least x^n, or at most x^n."""
    found = Fraction(1)
    for bit in f"{n:b}":
        found = rounded(found**2 * x ** int(bit), up)
    return found


def is_binomial(k: int, i: int, r: int, q: int, d: int) -> bool:
    """Of k draws, each a one in r of q cases, i or more are ones in at most 1 of d cases."""
    if not 0 < r < q or not k * r <= i * q <= k * q:
        return False
    ones, others = power(Fraction(r, q), i, True), power(Fraction(q - r, q), k - i, True)
    case = tail = rounded(comb(k, i) * ones * others, True)
    for j in range(i, k):
        # Above the mean, each case of more ones is at most the last.
        if d * (tail + (k - j) * case) <= 1:
            return True
        case = rounded(case * (k - j) * r / ((j + 1) * (q - r)), True)
        tail += case
    return d * tail <= 1


def is_chernoff(k: int, z: int, i: int, r: int, q: int, d: int, a: int, b: int) -> bool:
    """At most 1 of d lists have a total score of i or more, where the mean is at most r / q. Both
    sides of the inequality are divided by (q z)^k and a^(k z)."""
    if not 1 <= a or not b <= a or not 0 < r <= q * z or not i <= k * z:
        return False
    mean = (r + (q * z - r) * power(Fraction(b, a), z, True)) / (q * z)
    return d * power(mean, k, True) <= power(Fraction(b, a), k * z - i, False)


def is_won(scores: Counts, r: int, q: int, d: int, t: int, stakes: list[int]) -> bool:
    """Bets of these stakes, of t, on all scores become d times what they were, and none can lose
    more than there is. Both sides of the inequality are divided by (t q)^k."""
    if not stakes or not t or any(s * r > t * q for s in stakes):
        return False
    won = [Fraction(1) for _ in stakes]
    for v, c in scores:
        paid = [power(1 + Fraction(s * (q * v - r), t * q), c, False) for s in stakes]
        won = [rounded(x * y, False) for x, y in zip(won, paid)]
    return d * len(stakes) <= sum(won)


def is_proved(proof: dict[str, Any], k: int, z: int, i: int, scores: Counts, q: int, d: int) -> bool:
    """Whether the mean score is proved to be at least r / q, with r of the proof."""
    by, [r] = proof["by"], whole([proof["r"]])
    if by == "binomial":
        return z == 1 and is_binomial(k, i, r, q, d)
    if by == "chernoff":
        return is_chernoff(k, z, i, r, q, d, *whole([proof["a"], proof["b"]]))
    t, *stakes = whole([proof["t"], *proof["stakes"]])
    return by == "bets" and scores != [] and is_won(scores, r, q, d, t, stakes)


def wanted(holds: bool) -> None:
    if not holds:
        raise ValueError("its numbers do not fit each other")


def whole(values: list[Any], least: float = 0) -> list[int]:
    """Some whole numbers, each at least so great."""
    wanted(all(type(value) is int and value >= least for value in values))
    return values


def ranked(counts: Counts, rank: int, end: int) -> Fraction:
    """The value of a rank among values in order, and else the end."""
    sums = accumulate(count for _, count in counts)
    return Fraction(next((value for (value, _), seen in zip(counts, sums) if seen >= rank), end))


def interval(row: dict[str, Any], claim: dict[str, Any], d: int) -> list[Fraction | None]:
    """The two ends of a claim; none for one that is not proved."""
    k, lost = whole([row["samples"], row["uncoupled"]])
    least, greatest = whole([row["least"], row["greatest"]], ANY)
    counts = sorted((whole([v], ANY)[0], whole([c])[0]) for v, c in row.get("counts", ()))
    known, of = k - lost, claim["of"]
    wanted(known == sum(c for _, c in counts) and of in CLAIMS if counts else known >= 0 and of == "mean")
    wanted(all(least <= v <= greatest for v, _ in counts))
    # Values that are sums along paths are sums over `times` times, and a mean is that at one of them.
    [times] = whole([row.get("times", 1)], 1)
    wanted(times == 1 or of == "mean")
    if of == "quantile":
        r, q, j, i = whole([claim[key] for key in ("r", "q", "low", "high")], 1)
        low = ranked(counts[::-1], j, least) if is_binomial(k, j, q - r, q, d) else None
        return [low, ranked(counts, i, greatest) if is_binomial(k, i, r, q, d) else None]
    if of == "share":
        first, last = whole([claim["from"], claim["to"]], ANY)
        counts, least, greatest = [(int(first <= v <= last), c) for v, c in counts], 0, 1
    q, unit = whole([claim["q"], claim["unit"]], 1)
    [total] = whole([row["sum"]], ANY) if not counts else [sum(v * c for v, c in counts)]
    wanted(all(n % unit == 0 for n in (greatest - least, total - least * known, *(v - least for v, _ in counts))))
    ends: list[Fraction | None] = []
    z = (greatest - least) // unit
    for proof, sign, base in ((claim["low"], 1, least), (claim["high"], -1, greatest)):
        i = sign * (total - base * known) // unit
        scores = [(sign * (v - base) // unit, c) for v, c in counts] + [(0, lost)] * bool(counts)
        is_right = proof is None or 0 <= i <= z * known and is_proved(proof, k, z, i, scores, q, d)
        ends.append((base + sign * unit * Fraction(proof["r"] if proof else 0, q)) / times if is_right else None)
    return ends


def shown(end: Fraction | None, up: bool) -> str:
    """An end as a decimal number, rounded up or down."""
    parts = (ceil if up else floor)((end or Fraction(0)) * 10**6)
    text = f"{'-' * (parts < 0)}{abs(parts) // 10**6}.{abs(parts) % 10**6:06}"
    return "not proved" if end is None else text


def main(path: str) -> int:
    try:
        with open(path, encoding="utf-8") as file:
            read = json.load(file)
        [d] = whole([read["d"]], 1)
        claims = [(row, claim) for row in read["rows"] for claim in row["claims"]]
        found = [(row["name"], CLAIMS[claim["of"]].format(**claim), interval(row, claim, d)) for row, claim in claims]
    except (OSError, ValueError, KeyError, TypeError, RecursionError) as fault:
        print(f"check_interval: {path} is no file of certificates: {fault!r}", file=sys.stderr)
        return 3
    for name, claimed, (low, high) in found:
        print(f"{ascii(str(name))[1:-1]}: {claimed}: {shown(low, False)} to {shown(high, True)}")
    print(f"each misses for at most 2 in {d} lists of the streams' random words")
    return 4 if any(None in ends for *_, ends in found) else 0


if __name__ == "__main__":
    if len(sys.argv) != 2:
        sys.exit(__doc__.splitlines()[0])
    sys.exit(main(sys.argv[1]))
