"""Draws the runs of coupling from the past, one below the other on one time axis, those that fail too."""

from typing import Any

import matplotlib.patches
import matplotlib.path

from psi_tools.plot import style
from psi_tools.plot.past import Past, Run, State

# Up to how many steps single paths are drawn, and events named.
MOST_DRAWN, MOST_NAMED = 600, 32
ROW_HEIGHT, HEAD_HEIGHT, FOOT_HEIGHT = 0.78, 0.75, 0.55
NAMES_HEIGHT = 0.6
MARGINS = {"left": 0.09, "right": 0.83}
# How the name of an event stands below its step.
SLANTED = {"rotation": 60, "rotation_mode": "anchor", "ha": "right", "va": "top"}
# The most letters of a line beside a run.
MOST_LETTERS = 17


@style.styled
def draw_past(picture: tuple[Past, int | None], title: str) -> Any:
    """The figure of all runs; the second part is the queue that is drawn, or none for all customers."""
    past, queue = picture
    rows, longest = len(past.runs), past.runs[-1].horizon
    named = NAMES_HEIGHT if longest <= MOST_NAMED else 0.0
    height = HEAD_HEIGHT + rows * ROW_HEIGHT + FOOT_HEIGHT + named
    usual = "The wrong way: new random words for each run" if past.has_new_words else "Coupling from the past"
    figure = style.new_figure(height, title or usual)
    figure.set_layout_engine("none")
    top, low = 1 - HEAD_HEIGHT / height, (FOOT_HEIGHT + named) / height
    grid = figure.add_gridspec(rows, 1, top=top, bottom=low, hspace=0.28, **MARGINS)
    figure.text(0.5, top + 0.16 / height, about(past, queue), ha="center", fontsize=8, parse_math=False)
    for row, run in enumerate(past.runs):
        axes = figure.add_subplot(grid[row, 0])
        draw_run(axes, past, run, queue)
        axes.set_xlim(-longest - 0.02 * longest, 0.02 * longest)
        axes.tick_params(labelbottom=row == rows - 1)
    label_events(axes, past)
    pad = 4 + 72 * 0.55 * bool(named and not past.has_new_words)
    axes.set_xlabel("time in steps; the sample is the state at time 0", labelpad=pad)
    return figure


def about(past: Past, queue: int | None) -> str:
    """The line below the title: what is drawn."""
    what = "all customers" if queue is None else f"customers in {style.printable(past.queues[queue])}"
    words = "" if past.has_new_words else "; each run has the same random words"
    return f"{what}; seed {past.seed}, stream {past.stream}{words}"


def number_of(state: State, queue: int | None) -> int:
    """What is drawn of a state."""
    return sum(state) if queue is None else state[queue]


def draw_run(axes: Any, past: Past, run: Run, queue: int | None) -> None:
    """A run: the band of all states, single paths where there are few, and what is left at time zero."""
    times = range(-run.horizon, 1)
    low = [number_of(state, queue) for state in run.low]
    high = [number_of(state, queue) for state in run.high]
    colour = style.BLUE if run.has_coalesced else style.GREY
    axes.fill_between(
        times, low, high, color=style.SKY if run.has_coalesced else "#BBBBBB", alpha=0.3, lw=0, gid="band"
    )
    if run.paths is not None and run.horizon <= MOST_DRAWN:
        draw_paths(axes, run, queue, colour)
    mark = style.VERMILION if run.has_coalesced else style.GREY
    axes.plot([0, 0], [low[-1], high[-1]], color=mark, lw=2.4, marker="o", ms=3.2, solid_capstyle="round", gid="end")
    style.scale(axes, sum(past.capacities) if queue is None else past.capacities[queue], 8)
    weight = "bold" if run.has_coalesced else "normal"
    style.put(axes, (1.015, 0.5), verdict(run), 7.5, mark, transform=axes.transAxes, va="center", weight=weight)


def draw_paths(axes: Any, run: Run, queue: int | None, colour: str) -> None:
    """The paths from all states, each piece once, as one shape, so that a picture stays small."""
    assert run.paths is not None
    pieces = set()
    for path in run.paths:
        numbers = [number_of(state, queue) for state in path]
        for step, piece in enumerate(zip(numbers, numbers[1:])):
            pieces.add((step - run.horizon, *piece))
    points = [point for time, begin, end in sorted(pieces) for point in ((time, begin), (time + 1, end))]
    codes = [matplotlib.path.Path.MOVETO, matplotlib.path.Path.LINETO] * len(pieces)
    whole = matplotlib.path.Path(points, codes)
    axes.add_patch(matplotlib.patches.PathPatch(whole, fill=False, ec=colour, lw=0.8, gid="paths"))


def verdict(run: Run) -> str:
    """How a run ends, in words."""
    steps = f"{run.horizon:,} step{'s' * (run.horizon > 1)}"
    if run.has_coalesced:
        state = style.printable(f"state {','.join(map(str, run.low[-1]))}", MOST_LETTERS)
        return f"{steps}:\ncoalesced in\n{state}"
    if run.paths is None:
        return f"{steps}:\nat most {style.whole(run.counts[-1])}\nstates left"
    left = len({path[-1] for path in run.paths})
    more = f",\n{style.whole(run.counts[-1])} in the region" if left != run.counts[-1] else ""
    return f"{steps}:\n{left} state{'s' * (left > 1)} left{more}"


def label_events(axes: Any, past: Past) -> None:
    """The names of the events below the last row, where they are few: each between two times."""
    if past.runs[-1].horizon > MOST_NAMED or past.has_new_words:
        return
    for place, name in enumerate(past.events):
        text, size = style.fitted(name, 62, 6.5)
        below = place - past.runs[-1].horizon + 0.5, -0.36
        style.put(axes, below, text, size, style.GREY, transform=axes.get_xaxis_transform(), **SLANTED)
