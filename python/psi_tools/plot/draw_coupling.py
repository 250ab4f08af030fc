"""Draws a log: where all states may be from the beginning to time zero, queue by queue."""

import math
from typing import Any

import matplotlib.colors
import matplotlib.patches
import numpy

from psi_tools.plot import style
from psi_tools.plot.read_log import MOST_SHADES, Coupling, Kind, columns_of

COLOURS = {Kind.BOX: style.SKY, Kind.SET: style.BLUE, Kind.ONE: style.VERMILION}
SAID = {
    Kind.BOX: "a box: any number from least to greatest",
    Kind.SET: "a set: darker where more of its states are",
    Kind.ONE: "one state",
}
# Between the least and the greatest number of a set, where it has no state.
FAINT = "#EEF3F8"
# From a tint that can still be seen to the colour itself.
SHADES = matplotlib.colors.LinearSegmentedColormap.from_list("shades", ["#CFE4F2", style.BLUE, "#003A5C"])
MOST_QUEUES_IN_TITLE = 8
# At least how many dots the shades of all columns have, up and across. By the number of columns:
# the height of a row in inches, how many points wide a name and the line of one state may be.
ROW_HEIGHTS, NAME_WIDTHS = {1: 1.25, 2: 1.05, 4: 0.92}, {1: 400, 2: 200, 4: 82}
DOTS = 240, 1600
LINE_WIDTHS = {1: 1.8, 2: 1.3, 4: 0.9}


@style.styled
def draw_coupling(log: Coupling, title: str) -> style.Figure:
    """The figure of a log."""
    queues, columns = len(log.names), columns_of(len(log.names))
    rows = -(-queues // columns)
    row = ROW_HEIGHTS[columns]
    figure = style.new_figure(2.3 + rows * row, title or "Coupling from the past")
    grid = figure.add_gridspec(rows + 2, columns, height_ratios=[0.2, *[row] * rows, 1.3])
    kinds = sorted({each.kind for each in log.bins}, reverse=True)
    handles = [matplotlib.patches.Patch(color=COLOURS[kind]) for kind in kinds]
    style.head(figure.add_subplot(grid[0, :]), caption(log), handles, [SAID[kind] for kind in kinds], 3)
    for queue in range(queues):
        place, column = divmod(queue, columns)
        axes = figure.add_subplot(grid[place + 1, column])
        draw_queue(axes, log, queue)
        is_lowest = queue + columns >= queues
        label_times(axes, log, 4 if columns == 1 else 2, is_lowest and columns > 1)
        if column == 0:
            axes.set_ylabel("customers", fontsize=8 if columns < 4 else 7)
    axes = figure.add_subplot(grid[rows + 1, :])
    draw_states(axes, log)
    label_times(axes, log, 4, True)
    axes.set_xlabel("time in steps; the sample is the state at time 0")
    return figure


def caption(log: Coupling) -> str:
    """The caption of a log."""
    text = f"seed {log.seed}, stream {log.stream}, from time {style.whole(-log.horizon)} on"
    text += f"; one state from {style.whole(log.met)} on"
    if len(log.names) <= MOST_QUEUES_IN_TITLE:
        text += f"; at time 0 it is {','.join(map(str, log.state))}"
    return text


def draw_queue(axes: Any, log: Coupling, queue: int) -> None:
    """The band of a queue between its least and greatest number, and the shades of sets."""
    edges, low, high = log.edges(), log.low[queue], log.high[queue]
    for kind in Kind:
        draw_band(axes, log, queue, kind)
    draw_shades(axes, log, queue)
    mark_met(axes, log, queue)
    room = 0.5 + 0.03 * (high - low)
    axes.set(xlim=(edges[0], edges[-1]), ylim=(low - room, high + room))
    few = 4 if columns_of(len(log.names)) == 1 else 2
    style.whole_ticks(axes.yaxis, few, steps=style.STEPS)
    if high - low <= few:
        axes.set_yticks(range(low, high + 1))
    name, size = style.fitted(log.names[queue], NAME_WIDTHS[columns_of(len(log.names))], 8)
    axes.set_title(name, loc="left", pad=2, fontsize=size)


def draw_band(axes: Any, log: Coupling, queue: int, kind: Kind) -> None:
    """The band where the regions are of this kind: a number is one high, as in the shades, and one state is a line."""
    none = math.nan, math.nan
    ends = [(each.low[queue], each.high[queue]) if each.kind == kind else none for each in log.bins]
    lows, highs = numpy.array(ends, float).T
    if numpy.isnan(lows).all():
        return
    one_state = (0, LINE_WIDTHS[columns_of(len(log.names))])
    half, width = one_state if kind == Kind.ONE else (0.5, 0.5)
    face = FAINT if kind == Kind.SET else COLOURS[kind]
    band = axes.stairs(highs + half, log.edges(), baseline=lows - half, fill=True)
    band.set(facecolor=face, edgecolor=COLOURS[kind], linewidth=width, gid=f"band-{queue}-{kind.name.lower()}")


def draw_shades(axes: Any, log: Coupling, queue: int) -> None:
    """Where states of sets are: a column for each bin, with many dots a cell, since some viewers blur their ends."""
    low, high, bins = log.low[queue], log.high[queue], log.bins
    if all(each.kind != Kind.SET for each in bins):
        return
    cells = numpy.full((min(high - low + 1, MOST_SHADES), len(bins)), math.nan)
    for column, each in enumerate(bins):
        for shade, share in each.shades[queue].items() if each.kind == Kind.SET else ():
            cells[shade, column] = share
    height, width = cells.shape
    high_dots, wide_dots = DOTS
    dots = cells.repeat(-(-high_dots // height), 0)
    dots = dots.repeat(-(-wide_dots // width // columns_of(len(log.names))), 1)
    # The last bin may have fewer times than the others, so the picture goes beyond time zero.
    end = log.edges()[0] + log.width * width
    extent = log.edges()[0], end, low - 0.5, high + 0.5
    image = axes.imshow(
        dots, SHADES, vmin=0, vmax=1, origin="lower", aspect="auto", interpolation="none", extent=extent
    )
    image.set(zorder=1.5, gid=f"shades-{queue}")


def draw_states(axes: Any, log: Coupling) -> None:
    """How many states are followed, on a logarithmic axis, and from where on it is one."""
    edges = log.edges()
    for kind in reversed(Kind):
        counts = [float(each.states) if each.kind == kind else math.nan for each in log.bins]
        if not numpy.isnan(counts).all():
            gid = f"states-{kind.name.lower()}"
            axes.stairs(counts, edges, baseline=None, color=COLOURS[kind], lw=1.6, gid=gid)
    most = float(max(each.states for each in log.bins))
    top = max(most, 2) ** 1.12
    axes.set(yscale="log", ylim=(0.7, top), xlim=(edges[0], edges[-1]), ylabel="states", axisbelow=True)
    style.label_counts(axes, most)
    axes.set_title("states that are still followed", loc="left", pad=2)
    axes.grid(axis="y", lw=0.3, color="#CCCCCC")
    mark_met(axes, log, "states")
    text, is_late = f"one state from {style.whole(log.met)} on", log.met > -log.horizon / 2
    style.put_beside(axes, (log.met - 0.5, top), text, is_late, color=style.VERMILION, fontsize=8)


def mark_met(axes: Any, log: Coupling, name: object) -> None:
    """The time from which on one state is left, at the beginning of its step."""
    axes.axvline(log.met - 0.5, color=style.VERMILION, lw=0.9, ls=(0, (3, 2)), zorder=3, gid=f"met-{name}")


def label_times(axes: Any, log: Coupling, parts: int, is_labelled: bool) -> None:
    """Ticks at the beginning, at time zero and between."""
    ticks = sorted({-round(log.horizon * part / parts) for part in range(parts + 1)})
    axes.set_xticks(ticks, [style.whole(tick) for tick in ticks] if is_labelled else [])
