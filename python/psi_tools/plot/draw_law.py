"""Draws the law of a number: its probabilities with their intervals, and its quantiles."""

from typing import Any

import numpy

from psi_tools.io.tables import Record
from psi_tools.plot import style
from psi_tools.stats.law import Law

# From this number of values on they are drawn as a line, since bars would be too thin.
MANY = 120


@style.styled
def draw_law(law: Law, title: str) -> style.Figure:
    """The figure of a law."""
    figure = style.new_figure(4.2, title or f"The law of {law.name}")
    upper, lower = figure.subplots(2, 1, sharex=True, gridspec_kw={"height_ratios": [3, 2]})
    records = law.records()
    values = numpy.array([each["value"] for each in records])
    draw_probabilities(upper, law, records, values)
    draw_shares(lower, law, records, values)
    lower.set_xlabel("customers" if law.what == "customers" else f"value of {law.name}")
    style.whole_ticks(lower.xaxis, 10)
    return figure


def draw_probabilities(axes: Any, law: Law, records: list[Record], values: Any) -> None:
    """A bar for each value, with its interval."""
    shares = numpy.array([each["probability"] for each in records])
    lows = numpy.minimum(shares, [each["low"] for each in records])
    highs = numpy.maximum(shares, [each["high"] for each in records])
    if len(values) <= MANY:
        bars = axes.bar(values, shares, 0.8, color=style.SKY, zorder=2)
        for bar, value in zip(bars, values):
            bar.set_gid(f"probability-{value}")
        size, sides = 2 if len(values) < 60 else 0, [shares - lows, highs - shares]
        axes.errorbar(values, shares, sides, fmt="none", ecolor=style.BLACK, elinewidth=0.8, capsize=size, zorder=3)
    else:
        axes.fill_between(values, lows, highs, color=style.SKY, step="mid", lw=0, zorder=2)
        axes.plot(values, shares, color=style.BLUE, lw=0.8, drawstyle="steps-mid", zorder=3)
    axes.set(ylim=(0, None), ylabel="probability")
    mean = law.mean()
    text = f"{law.known:,} samples, intervals of 95 %"
    if mean.mean is not None and mean.ends is not None:
        axes.axvline(mean.mean, color=style.VERMILION, lw=1, ls=(0, (3, 2)), zorder=4)
        text += f"; mean {style.mean(mean.mean)}"
        ends = f", {style.mean(mean.ends[0])} to {style.mean(mean.ends[1])}"
        text += f" ± {mean.half:.2g}" if mean.is_even else ends
    if law.unknown:
        text += f"; NOT COUPLED: {law.unknown:,} more, so it is biased"
    axes.set_title(text, loc="left", pad=3)


def draw_shares(axes: Any, law: Law, records: list[Record], values: Any) -> None:
    """How often the number is at most a value, from below the least to beyond the greatest, and the quantiles."""
    margin = max(0.5, 0.02 * float(values[-1] - values[0]))
    ends = numpy.concatenate([[values[0] - margin], values, [values[-1] + margin]])
    shares, low, high = (
        numpy.array([0.0, *(each[key] for each in records), records[-1][key]])
        for key in ("at_most", "at_most_low", "at_most_high")
    )
    axes.fill_between(ends, low, high, step="post", color=style.SKY, lw=0, alpha=0.6)
    axes.step(ends, shares, where="post", color=style.BLUE, lw=1.2, gid="at-most")
    quantiles = [*law.quantiles((0.5, 0.9, 0.95, 0.99))]
    for share, value, *_ in quantiles:
        axes.plot([value], [share], "o", color=style.VERMILION, ms=3.5, zorder=4)
    message = ", ".join(f"{share * 100:g} % at most {value}" for share, value, *_ in quantiles)
    axes.set_title(message, loc="left", pad=3)
    axes.set(ylim=(0, 1.03), ylabel="probability of at most this value")
