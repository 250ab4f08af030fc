"""The texts of figures: where they stand, which are cut off, and which lie over another one."""

import itertools
from collections.abc import Iterator
from typing import Any

import matplotlib.backends.backend_agg
import matplotlib.text


def texts_of(figure: Any) -> list[tuple[str, Any]]:
    """The texts that a figure shows, each with the box around it in dots."""
    canvas = matplotlib.backends.backend_agg.FigureCanvasAgg(figure)
    canvas.draw()
    renderer = canvas.get_renderer()
    hidden = {text for axes in figure.axes for text in hidden_labels(axes)}
    shown = [text for text in figure.findobj(matplotlib.text.Text) if text.get_visible() and text not in hidden]
    return [(text.get_text(), text.get_window_extent(renderer)) for text in shown if text.get_text().strip()]


def hidden_labels(axes: Any) -> Iterator[Any]:
    """The labels of ticks that aren't drawn: beyond the ends of their axis, or where it is off."""
    for axis in (axes.xaxis, axes.yaxis):
        low, high = sorted(axis.get_view_interval())
        for tick in axis.get_major_ticks() + axis.get_minor_ticks():
            if not (axes.axison and low <= tick.get_loc() <= high):
                yield from (tick.label1, tick.label2)


def cut_off(figure: Any, slack: float = 0) -> list[str]:
    """The texts that are more than some dots beyond an edge of the figure."""
    width, height = figure.get_size_inches() * figure.dpi
    found = texts_of(figure)
    assert found, "there is no text"
    return [text for text, box in found if min(box.x0, box.y0, width - box.x1, height - box.y1) < -slack]


def overlapping(figure: Any) -> list[tuple[str, str]]:
    """The pairs of texts that share more than a dot across and up."""
    return [
        (text, other)
        for (text, box), (other, around) in itertools.combinations(texts_of(figure), 2)
        if min(box.x1, around.x1) - max(box.x0, around.x0) > 1 and min(box.y1, around.y1) - max(box.y0, around.y0) > 1
    ]
