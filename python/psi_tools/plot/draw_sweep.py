"""Draws designs side by side: each mean with its interval, and its difference to the base."""

from collections.abc import Sequence
from typing import Any

from psi_tools.io.tables import Record
from psi_tools.plot import style

MOST_ROWS = 12


@style.styled
def draw_sweep(
    columns: list[str], labels: list[str], records: list[Record], base: int, notes: list[str]
) -> style.Figure:
    """The figure of some designs, of at most twelve queues and rewards."""
    count = len(labels)
    groups = [records[k : k + count] for k in range(0, len(records), count)][:MOST_ROWS]
    title = f"Designs by {' and '.join(columns)}; differences to {labels[base].replace(' ', ', ')}"
    figure = style.new_figure(0.9 + 1.7 * len(groups), title)
    places, ticks, name = axis_of(columns, groups[0])
    panels = figure.subplots(len(groups), 2, squeeze=False, sharex="col")
    for group, (left, right) in zip(groups, panels):
        reward = " (reward)" * group[0]["item"].startswith("reward")
        draw_points(left, places, group, "mean", "", style.BLUE)
        left.set_title(f"{group[0]['name']}{reward}: mean", loc="left", pad=3)
        draw_points(right, places, group, "difference", "difference_", style.VERMILION)
        right.axhline(0, color=style.GREY, lw=0.6, zorder=1)
        right.set_title("difference, under common random numbers", loc="left", pad=3)
    for axes in panels[-1]:
        axes.set_xlabel(name)
        axes.set_xticks(places, ticks, rotation=0 if max(map(len, ticks)) < 8 else 30)
        if len(ticks) > 16:
            axes.set_xticks(places[:: len(ticks) // 8], ticks[:: len(ticks) // 8])
    if notes:
        note = style.printable(notes[0], 150)
        figure.text(0.01, 0.005, note, color=style.VERMILION, fontsize=6.5)
    return figure


def axis_of(columns: list[str], group: list[Record]) -> tuple[list[float], list[str], str]:
    """Where each design stands, what is written there, and what the axis is."""
    ticks = [", ".join(record[name] for name in columns) for record in group]
    if len(columns) == 1 and columns != ["network"]:
        return [float(tick) for tick in ticks], ticks, columns[0]
    ticks = [style.printable(tick, 40) for tick in ticks]
    return [*range(len(ticks))], ticks, ", ".join(columns)


def draw_points(axes: Any, places: Sequence[float], group: list[Record], value: str, front: str, colour: str) -> None:
    """A mark with its interval for each design."""
    found = []
    for place, record in zip(places, group):
        middle, low, high = (record[key] for key in (value, f"{front}low", f"{front}high"))
        if middle is not None:
            below, above = 0 if low is None else middle - low, 0 if high is None else high - middle
            found.append((place, middle, max(0, below), max(0, above)))
    if not found:
        return
    xs, ys, *errors = zip(*found)
    axes.errorbar(xs, ys, errors, fmt="o", ms=3.5, color=colour, elinewidth=1, capsize=2.5, zorder=3)
    axes.grid(axis="y", lw=0.3, color="#CCCCCC")
    axes.margins(0.08, 0.15)
