"""Draws reports side by side: horizons, and each queue and reward with its mean and extremes."""

import pathlib
from collections.abc import Callable, Sequence
from typing import Any

import matplotlib.patches
import matplotlib.ticker

from psi_tools.io.tables import Record
from psi_tools.plot import style
from psi_tools.stats.batches import Summary

Named = Sequence[tuple[str, Summary]]

# Each report has a colour, and a hatch and a mark for those who can't distinguish colours.
COLOURS = (style.BLUE, style.ORANGE, style.GREEN, style.VERMILION, style.SKY, style.PURPLE, style.BLACK, style.YELLOW)
HATCHES = "", "////", "\\\\\\\\", "xxxx", "----", "||||", "++++", "//"
MARKS = "osD^vPX*"
# From how many queues, or rewards, on they stand in two columns; how wide a name may be then, or
# else, in points.
MANY, NAME_WIDTHS = 13, {1: 130, 2: 70}


class Rows:
    """The queues, or the rewards, of all reports: for each name the reports that have it, each by
    its place with its spread. Queues stand on one axis, and each reward on its own."""

    def __init__(self, lists: list[list[Record]], is_queues: bool) -> None:
        self.is_queues = is_queues
        self.rows: dict[str, list[tuple[int, Record]]] = {}
        for place, spreads in enumerate(lists):
            for spread in spreads:
                self.rows.setdefault(spread["name"], []).append((place, spread))
        # The extremes of each row.
        self.ends: dict[str, tuple[int, int]] = {}
        for name, row in self.rows.items():
            ends = (spread[end] for _, spread in row for end in ("least", "greatest"))
            found = [end for end in ends if end is not None] or [0]
            self.ends[name] = min(found), max(found)
        self.greatest = max((greatest for _, greatest in self.ends.values()), default=1) or 1
        names = [*self.rows]
        half = -(-len(names) // 2)
        # The names that stand in each column, and how high each row and the highest column are, in inches.
        self.parts = [names] if len(names) < MANY else [names[:half], names[half:]]
        self.heights = {name: 0.1 + 0.12 * len(rows) for name, rows in self.rows.items()}
        self.height = max(sum(self.heights[name] for name in part) for part in self.parts)

    def scale(self, name: str) -> tuple[float, float]:
        """Where the axis of a row begins, and how long it is."""
        least, greatest = (0, 1) if self.is_queues else self.ends[name]
        return (least, greatest - least) if greatest > least else (least - 0.5, 1)


@style.styled
def draw_report(named: Named, title: str) -> style.Figure:
    """The figure of some reports, each with the path of its file."""
    reports = [report for _, report in named]
    panels = [Rows([report.queues for report in reports], True), Rows([report.rewards for report in reports], False)]
    panels = [rows for rows in panels if rows.rows]
    # What each report is called: the name of its file, in full where two are alike.
    stems = [style.printable(pathlib.Path(path).stem, 40) for path, _ in named]
    if len({*stems}) < len(stems):
        stems = [style.printable(path) for path, _ in named]
    counts = [style.whole(report.samples) for report in reports]
    labels = [f"{stem} ({count} samples)" for stem, count in zip(stems, counts)]
    longest = max(map(len, labels))
    columns = 1 if longest > 44 else 2 if longest > 32 else 3
    heights = [0.2 * -(-len(labels) // columns), 1.7, *(rows.height for rows in panels)]
    figure = style.new_figure(1.5 + sum(heights) + 0.55 * len(panels), title or "Perfect samples")
    grid = figure.add_gridspec(len(heights), 2, height_ratios=heights)
    handles = [matplotlib.patches.Patch(fc=COLOURS[k], ec="white", hatch=HATCHES[k], lw=0) for k in range(len(reports))]
    style.head(figure.add_subplot(grid[0, :]), caption(stems, reports), handles, labels, columns)
    draw_horizons(figure.add_subplot(grid[1, :]), reports)
    for place, rows in enumerate(panels, 2):
        columns = len(rows.parts)
        for column, names in enumerate(rows.parts):
            panel = figure.add_subplot(grid[place, column] if columns > 1 else grid[place, :])
            draw_rows(panel, rows, names, columns)
            if column == 0:
                title = "customers in each queue" if rows.is_queues else "rewards"
                panel.set_title(title, loc="left", pad=3 if columns == 1 else 12)
    return figure


def caption(stems: list[str], reports: list[Summary]) -> str:
    """The caption of all reports: which samples aren't coupled."""
    lost = [
        f"{style.whole(report.uncoupled)} of {style.whole(report.samples)} samples of {stem}"
        for stem, report in zip(stems, reports)
        if report.uncoupled
    ]
    if not lost:
        return "all samples are met"
    is_biased = any(0 < report.uncoupled < report.samples for report in reports)
    return f"not coupled: {', '.join(lost)}" + "; means over the others are biased" * is_biased


def draw_horizons(axes: Any, reports: list[Summary]) -> None:
    """How many samples are met at each horizon, of each report in per cent."""
    seen = [horizon.bit_length() - 1 for report in reports for horizon in report.horizons]
    powers = range(min(seen), max(seen) + 1) if seen else range(0)
    # The place of those that aren't coupled is a little apart from the others.
    width, lost = 0.84 / len(reports), len(powers) + 0.7 * bool(powers)
    for k, report in enumerate(reports):
        counts = [report.horizons.get(1 << power, 0) for power in powers] + [report.uncoupled]
        places = [place - 0.42 + (k + 0.5) * width for place in (*range(len(powers)), lost)]
        heights = [100 * count / report.samples for count in counts]
        bars = axes.bar(places, heights, width, fc=COLOURS[k], ec="white", hatch=HATCHES[k], lw=0.4)
        for bar, power in zip(bars, [*powers, "none"]):
            bar.set_gid(f"horizon-{k}-{power}")
    is_lost = any(report.uncoupled for report in reports)
    is_short = len(powers) <= 12
    labels = [str(1 << k) if is_short and k < 10 else f"2{style.raised(k)}" for k in powers]
    labels += ["not\ncoupled"] * is_lost
    axes.set_xticks([*range(len(powers)), *[lost] * is_lost], labels)
    axes.set(xlim=(-0.6, (lost if is_lost else len(powers) - 1) + 0.6), ylabel="% of samples")
    axes.yaxis.set_major_locator(matplotlib.ticker.MaxNLocator(5, steps=style.STEPS))
    axes.set_xlabel("steps before time 0 at which the runs from all states begin")
    axes.set_title("horizons at which the samples are met", loc="left", pad=3)


def draw_rows(axes: Any, rows: Rows, names: list[str], columns: int) -> None:
    """A row for each name: a line from least to greatest, and a mark at the mean."""
    y = 0.0
    for name in names:
        height, (low, length) = rows.heights[name], rows.scale(name)
        axes.axhline(y, color="#DDDDDD", lw=0.4)
        text, size = style.fitted(name, NAME_WIDTHS[columns], 7.5)
        put(axes, -0.015, y - height / 2, text, "right", size)
        for place, (report, spread) in enumerate(rows.rows[name]):
            line = y - 0.05 - 0.12 * (place + 0.5)
            draw_spread(axes, report, spread, line, lambda value: (value - low) / length)
        y -= height
    axes.set(yticks=[], ylim=(-rows.height, 0))
    axes.spines["left"].set_visible(False)
    put(axes, 1.015, 0.02, "mean (least to greatest)", "left", 6.5, va="bottom")
    if rows.is_queues:
        axes.set(xlim=(-0.03 * rows.greatest, 1.03 * rows.greatest), xlabel="customers")
        style.whole_ticks(axes.xaxis, 5, steps=style.STEPS)
        axes.grid(axis="x", lw=0.3, color="#CCCCCC")
    else:
        axes.set(xticks=[], xlim=(-0.03, 1.03), xlabel="each from its least to its greatest value")


def draw_spread(axes: Any, k: int, spread: Record, y: float, place: Callable[[float], float]) -> None:
    """The line, the mark and the numbers of a queue or reward of a report, and a box over the interval of the mean."""
    least, greatest, mean, low, high = (spread[key] for key in ("least", "greatest", "mean", "low", "high"))
    if least is None or mean is None:
        put(axes, 1.015, y, "no sample is met", "left", 6.5)
        return
    drawn, name, half = {"color": COLOURS[k], "ms": 5}, f"{k}-{spread['name']}", ""
    ends = [place(least), place(greatest)]
    axes.plot(ends, [y, y], lw=1.6, marker="|", solid_capstyle="butt", gid=f"spread-{name}", **drawn)
    axes.plot([place(mean)], [y], MARKS[k], mec="white", mew=0.5, zorder=4, gid=f"mean-{name}", **drawn)
    if low is not None:
        ends, half = [place(low), place(high)], f" ± {(high - low) / 2:.2g}"
        axes.plot(ends, [y, y], color=COLOURS[k], lw=5, alpha=0.45, solid_capstyle="butt", gid=f"interval-{name}")
    text = f"{style.whole(least)} to {style.whole(greatest)}"
    put(axes, 1.015, y, f"{style.mean(mean)}{half} ({text})", "left", 6.5)


def put(axes: Any, x: float, y: float, text: str, side: str, size: float, va: str = "center") -> None:
    """A text beside the axes, at a part of their width and a value on them."""
    axes.text(x, y, text, transform=axes.get_yaxis_transform(), ha=side, va=va, fontsize=size)
