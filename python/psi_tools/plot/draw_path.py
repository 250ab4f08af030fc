"""Draws a path that begins in a sample, one row for each queue, beside the coupling that led to it."""

from typing import Any

from psi_tools.plot import style
from psi_tools.plot.past import StationaryPath

ROW_HEIGHT, HEAD_HEIGHT, FOOT_HEIGHT = 0.95, 0.85, 0.5
MARGINS = {"left": 0.09, "right": 0.83}
# The least part of the picture that the past has, and the greatest.
LEAST_PART, MOST_PART = 0.2, 0.5


@style.styled
def draw_path(picture: tuple[StationaryPath, list[int]], title: str) -> Any:
    """The figure of a path; the second part has the queues that are drawn."""
    path, queues = picture
    height = HEAD_HEIGHT + len(queues) * ROW_HEIGHT + FOOT_HEIGHT
    figure = style.new_figure(height, title or "A stationary path from a sample")
    figure.set_layout_engine("none")
    top, low = 1 - HEAD_HEIGHT / height, FOOT_HEIGHT / height
    horizon, steps = path.run.horizon, len(path.events)
    part = min(MOST_PART, max(LEAST_PART, horizon / (horizon + steps)))
    ratios = [part, 1 - part]
    grid = figure.add_gridspec(
        len(queues), 2, top=top, bottom=low, hspace=0.28, wspace=0.03, width_ratios=ratios, **MARGINS
    )
    figure.text(0.5, top + 0.13 / height, about(path), ha="center", fontsize=8, linespacing=1.4, parse_math=False)
    for row, queue in enumerate(queues):
        before, after = (figure.add_subplot(grid[row, column]) for column in (0, 1))
        draw_past_of(before, path, queue)
        draw_states(after, path, queue)
        for axes in (before, after):
            axes.tick_params(labelbottom=row == len(queues) - 1)
            style.scale(axes, path.past.capacities[queue], 5)
        after.tick_params(labelleft=False)
    before.set_xlabel("steps before time 0")
    after.set_xlabel("steps of the path")
    return figure


def about(path: StationaryPath) -> str:
    """The line below the title."""
    past, steps = path.past, len(path.events)
    many = f"{steps:,} step{'s' * (steps != 1)}"
    return (
        f"customers in each queue; seed {past.seed}, stream {past.stream}\n"
        f"left: all states, from {path.run.horizon:,} steps before time 0; right: {many} from the sample"
    )


def draw_past_of(axes: Any, path: StationaryPath, queue: int) -> None:
    """The run that coalesced in the sample: the least and the greatest number of customers that a state may have."""
    run = path.run
    low, high = ([state[queue] for state in ends] for ends in (run.low, run.high))
    times = [*range(-run.horizon, 1)]
    axes.fill_between(times, low, high, step="post", color=style.SKY, alpha=0.35, lw=0, gid="band")
    axes.plot(times, low, color=style.BLUE, lw=0.6, drawstyle="steps-post", gid="low")
    axes.plot(times, high, color=style.BLUE, lw=0.6, drawstyle="steps-post", gid="high")
    axes.plot([0], [low[-1]], color=style.VERMILION, marker="o", ms=3.2, lw=0, clip_on=False, zorder=3, gid="end")
    axes.set_xlim(-run.horizon, 0)


def draw_states(axes: Any, path: StationaryPath, queue: int) -> None:
    """The path from the sample on, the mean along it, and what stands beside."""
    numbers = [state[queue] for state in path.states]
    mean = sum(numbers) / len(numbers)
    axes.plot(range(len(numbers)), numbers, color=style.BLUE, lw=0.9, drawstyle="steps-post", gid="path")
    axes.axhline(mean, color=style.GREY, lw=0.7, ls=(0, (4, 3)), gid="mean")
    axes.set_xlim(0, max(1, len(numbers) - 1))
    name, size = style.fitted(path.past.queues[queue], 78, 7.5)
    text = f"{name}\nmean {style.mean(mean)}\nalong the path"
    style.put(axes, (1.03, 0.5), text, size, style.BLACK, transform=axes.transAxes, va="center")
