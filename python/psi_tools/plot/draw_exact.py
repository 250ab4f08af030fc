"""Draws a text of exact: how the image of all states shrinks, and the two horizons."""

import textwrap
from typing import Any

import matplotlib.ticker

from psi_tools.io.exact import Shrinking
from psi_tools.plot import style

LABEL_WIDTH = 48


@style.styled
def draw_exact(found: Shrinking, title: str) -> style.Figure:
    """The figure of a text."""
    figure = style.new_figure(3.6, title or "How the image of all states shrinks")
    axes = figure.add_subplot()
    axes.set_title(caption(found), pad=6)
    draw_images(axes, found)
    mark_horizons(axes, found)
    axes.set_xscale("log", base=2)
    axes.set(xlim=(0.85, found.longest() * 1.18), yscale="log", ylim=(0.8, top(found)))
    axes.set_xticks([*found.images], [style.whole(time) for time in found.images])
    axes.xaxis.set_minor_locator(matplotlib.ticker.NullLocator())
    style.label_counts(axes, found.states)
    axes.set(xlabel="steps before time 0 at which all states start", ylabel="different states that are left at time 0")
    axes.grid(axis="y", lw=0.3, color="#CCCCCC")
    return figure


def top(found: Shrinking) -> float:
    """Where the axis of states ends: above all of them there is room for what is marked."""
    is_marked = found.constant is not None or found.region is not None
    return float(1.6 * found.states ** (1.25 if is_marked else 1.03))


def caption(found: Shrinking) -> str:
    """The caption of a text."""
    states, longest = style.whole(found.states), style.whole(found.longest())
    if found.constant is None:
        left = style.whole(found.images[found.longest()])
        text = f"of {states} states {left} are left when they start {longest} steps before time 0"
    else:
        text = f"all {states} states that start {style.whole(found.constant)} steps before time 0,"
        text += " or earlier, are one" + f": {found.state}" * (len(found.state or "") <= 40)
    if found.region is None and found.constant is not None:
        text += f"; no region run of up to {longest} steps ends in one"
    return textwrap.fill(text, 100)


def draw_images(axes: Any, found: Shrinking) -> None:
    """The sizes of the image, and how many states there are."""
    points = dict(found.images)
    if found.constant is not None:
        points[found.constant] = 1
    times = sorted(points)
    axes.plot(times, [points[time] for time in times], color=style.BLUE, lw=1.2, zorder=2, gid="line")
    axes.plot([*found.images], [*found.images.values()], "o", color=style.BLUE, ms=5, zorder=3, gid="images")
    axes.axhline(found.states, color=style.GREY, lw=0.9, ls=(0, (1, 2)))
    text, place = f"all {style.whole(found.states)} states", (0.85, found.states)
    axes.annotate(text, place, xytext=(3, 6), textcoords="offset points", color=style.GREY, fontsize=7.5)


def mark_horizons(axes: Any, found: Shrinking) -> None:
    """A line at the horizons at which the map is constant, and the region run has one state, and what each is."""
    marks = [(found.constant, "all states have met", "constant"), (found.region, "the region is one state", "region")]
    if found.constant == found.region:
        marks = [(found.constant, "all states have met, and the region is one state", "both")]
    looks = (style.VERMILION, (0, (4, 2))), (style.BLACK, (0, (1, 1)))
    for down, ((time, what, name), (colour, dashes)) in enumerate(zip(marks, looks)):
        if time is not None:
            axes.axvline(time, color=colour, lw=1.3, ls=dashes, zorder=1.5, gid=name)
            text = textwrap.fill(f"{what}: {style.whole(time)} steps", LABEL_WIDTH)
            style.put_beside(axes, (time, top(found)), text, time**2 > found.longest(), 2 + 12 * down, color=colour)
