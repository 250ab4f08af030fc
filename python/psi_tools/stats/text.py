"""Numbers and intervals as text: as many places as half of an interval has a meaning for."""

import math

from psi_tools.stats.intervals import Mean


def figures(number: float | None, half: float | None = None) -> str:
    """A number with as many places as half of its interval has a meaning for: two of its own."""
    if number is None:
        return "-"
    if not half:
        return f"{number:.4g}" if number != int(number) else str(int(number))
    places = max(0, 1 - math.floor(math.log10(half)))
    return f"{number:.{min(places, 12)}f}"


def not_coupled(unknown: int, many: int, what: str, hold: str = "the intervals hold") -> list[str]:
    """The line on streams that aren't coupled, which has to be known before a number is read; none where all are."""
    line = f"NOT COUPLED: {unknown:,} of {many:,} streams; the {what} are of the others, and biased; {hold}"
    return [f"{line} what they may change"] if unknown else []


def half_shown(mean: Mean) -> str:
    """Half of an interval as text, where the mean is its middle; else its ends are printed."""
    if mean.half is None or not mean.is_even:
        return "-"
    return f"± {figures(mean.half, mean.half)}"


def ends_shown(mean: Mean) -> tuple[str, str]:
    """The two ends of an interval as texts."""
    if mean.half is None:
        return "-", "-"
    return figures(mean.low, mean.half), figures(mean.high, mean.half)


def interval_shown(mean: Mean) -> str:
    """An interval as text: half of it where the mean is its middle, else both ends."""
    return half_shown(mean) if mean.half is None or mean.is_even else " to ".join(ends_shown(mean))


def with_interval(mean: Mean) -> str:
    """A mean with its interval: half of it where the mean is its middle, and else both ends."""
    shown = figures(mean.mean, mean.half)
    if mean.half is None:
        return shown
    return f"{shown} {half_shown(mean)}" if mean.is_even else f"{shown} ({interval_shown(mean)})"
