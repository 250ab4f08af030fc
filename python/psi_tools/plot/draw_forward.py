"""Draws where forward runs of a queue end, from each state, beside the law that is wanted."""

from typing import Any

import matplotlib.colors
import numpy

from psi_tools.plot import style
from psi_tools.plot.forward import Forward

# The colours of the beginnings, from none to the most customers.
BEGINNINGS = matplotlib.colors.LinearSegmentedColormap.from_list(
    "beginnings", [style.BLUE, style.SKY, style.ORANGE, style.VERMILION]
)


@style.styled
def draw_forward(found: Forward, title: str) -> style.Figure:
    """The figure: a part for each number of steps, and one for the state in which all meet."""
    figure = style.new_figure(4.6, title or "Where forward runs end, and the law that is wanted")
    many = len(found.after) + 1
    rows = -(-many // 2)
    # Below the title there is a part for the legend.
    grid = figure.add_gridspec(rows + 1, 2, height_ratios=[0.22, *[1] * rows])
    parts = [figure.add_subplot(grid[1 + place // 2, place % 2]) for place in range(many)]
    for axes, (steps, ends) in zip(parts, found.after.items()):
        draw_ends(axes, found, steps, ends)
    draw_met(parts[-1], found)
    highest = max(part.get_ylim()[1] for part in parts[:-1])
    for axes in parts[:-1]:
        axes.set_ylim(0, highest)
    head = figure.add_subplot(grid[0, :])
    last = len(found.law) - 1
    lines = [head.plot([], [], color=colour, lw=1.2)[0] for colour in (style.BLUE, style.VERMILION)]
    law = head.plot([], [], "_", color=style.BLACK, ms=9, mew=1.6)[0]
    labels = ["begun with 0 customers", f"begun with {last}, others between", "the law at time 0"]
    style.head(head, "", [*lines, law], labels, 3)
    return figure


def draw_ends(axes: Any, found: Forward, steps: int, ends: Any) -> None:
    """A line for each beginning: how often its run ends with each number of customers."""
    numbers = numpy.arange(len(found.law))
    for begin, shares in enumerate(ends):
        colour = BEGINNINGS(begin / max(1, len(ends) - 1))
        axes.plot(numbers, shares, color=colour, lw=1, zorder=2, gid=f"after-{steps}-from-{begin}")
    draw_law(axes, found, f"law-{steps}")
    axes.set_title(f"after {style.whole(steps)} steps: off by at most {max(0.001, found.distance(steps)):.3f}")


def draw_met(axes: Any, found: Forward) -> None:
    """How often the state in which all runs have met has each number of customers."""
    numbers = numpy.arange(len(found.law))
    bars = axes.bar(numbers, found.met, 0.6, color=style.GREEN, zorder=2)
    for bar, number in zip(bars, numbers):
        bar.set_gid(f"met-{number}")
    draw_law(axes, found, "law-met")
    axes.set_title("when all have met for the first time")


def draw_law(axes: Any, found: Forward, name: str) -> None:
    """The law that is wanted, and what the axes are."""
    axes.plot(found.law, "_", color=style.BLACK, ms=9, mew=1.6, zorder=3, gid=name)
    axes.set_xlabel(f"customers in {style.printable(found.name)}", parse_math=False)
    axes.set(ylabel="probability", xlim=(-0.6, len(found.law) - 0.4), ylim=(0, None))
    style.whole_ticks(axes.xaxis, 11)
