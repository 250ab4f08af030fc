"""What the pictures share: colours, the form of numbers and titles, and how one is saved."""

import contextlib
import io
import logging
import math
import re
import textwrap
import warnings
from collections.abc import Iterator
from typing import Any

from psi_tools import errors

Figure = Any  # matplotlib has no types of its own yet.


@contextlib.contextmanager
def quiet() -> Iterator[None]:
    """Keeps matplotlib quiet for a while: that a font is looked for, or lacks a character, is no news."""
    logger = logging.getLogger("matplotlib")
    level = logger.level
    logger.setLevel(logging.ERROR)
    try:
        with warnings.catch_warnings(action="ignore"):
            yield
    finally:
        logger.setLevel(level)


with quiet():
    import matplotlib
    import matplotlib.figure
    import matplotlib.font_manager
    import matplotlib.textpath
    import matplotlib.ticker
# Eight colours that those who don't see all colours can distinguish (Okabe and Ito 2008).
BLACK, ORANGE, SKY, GREEN = "#000000", "#E69F00", "#56B4E9", "#009E73"
YELLOW, BLUE, VERMILION, PURPLE = "#F0E442", "#0072B2", "#D55E00", "#CC79A7"
GREY = "#666666"
# The width of a page between its margins, in inches.
WIDTH = 7.2
DOTS_PER_INCH = 150
# The size of letters, in points, that can just be read in print.
SMALLEST, MEASURE = 4.5, matplotlib.textpath.text_to_path
SUPERSCRIPT = str.maketrans("0123456789", "⁰¹²³⁴⁵⁶⁷⁸⁹")
# Whole numbers are at steps of 1, 2 or 5, times a power of ten.
STEPS = [1, 2, 5, 10]
# Where a clip path of an SVG is named.
CLIP = re.compile(rb'(<clipPath id="|url\(#)(p[0-9a-f]{10})(?=["\)])')
STYLE: dict[str, dict[str, Any]] = {
    "font": {"family": "DejaVu Sans", "size": 8},
    "axes": {"titlesize": 8, "labelsize": 8, "linewidth": 0.6, "spines.top": False, "spines.right": False},
    "xtick": {"labelsize": 7, "major.width": 0.6},
    "ytick": {"labelsize": 7, "major.width": 0.6},
    "legend": {"fontsize": 7.5, "frameon": False},
    "figure": {"constrained_layout.use": True},
    "savefig": {"dpi": DOTS_PER_INCH},
    "svg": {"hashsalt": "psi-plot"},
    "path": {"simplify": True},
}


@contextlib.contextmanager
def in_style() -> Iterator[None]:
    """Has the style of the pictures. Then what matplotlib is set to, and the filters of warnings, are as before."""
    with quiet(), matplotlib.rc_context():
        matplotlib.rcdefaults()
        for group, values in STYLE.items():
            matplotlib.rc(group, **values)
        yield


# Makes a function draw in the style of the pictures.
styled = in_style()


def new_figure(height: float, title: str) -> Figure:
    """An empty figure of a page's width, with a title, for a function that is `styled`."""
    figure = matplotlib.figure.Figure(figsize=(WIDTH, height))
    figure.suptitle(textwrap.fill(printable(title, 200), 80), fontsize=10, weight="bold", parse_math=False)
    return figure


def head(axes: Any, text: str, handles: list[Any], labels: list[str], columns: int) -> None:
    """What stands below the title, in axes of its own: the caption, and a legend."""
    axes.axis("off")
    axes.set_title(textwrap.fill(text, 96), pad=3, parse_math=False)
    # A label that begins with '_' would be left out.
    labels = [" " * label.startswith("_") + label for label in labels]
    legend = axes.legend(handles, labels, loc="center", ncol=columns, borderpad=0, borderaxespad=0)
    for label in legend.get_texts():
        label.set_parse_math(False)


@styled
def laid_out(figure: Figure) -> Figure:
    """The same figure with all of its ticks made in this style, for a caller with another one."""
    figure.draw_without_rendering()
    return figure


@styled
def saved(figure: Figure, form: str) -> bytes:
    """The bytes of the picture, the same ones for the same figure."""
    undated = {"svg": {"Date": None}, "pdf": {"CreationDate": None}, "png": {}}[form]
    room = io.BytesIO()
    figure.savefig(room, format=form, metadata=undated)
    return clips_numbered(room.getvalue()) if form == "svg" else room.getvalue()


def clips_numbered(drawn: bytes) -> bytes:
    """The same SVG, its clip paths numbered: some of matplotlib's names for them are made of places in memory."""
    names: dict[bytes, bytes] = {}
    return CLIP.sub(lambda found: found[1] + names.setdefault(found[2], b"clip%d" % len(names)), drawn)


def printable(text: str, most: int = 60) -> str:
    """A text as it may stand in a picture: of signs that can be printed, and not too long."""
    text = errors.printable(text)
    return text if len(text) <= most else text[: most // 2] + ".." + text[-most // 2 + 2 :]


def fitted(name: str, points: float, size: float) -> tuple[str, float]:
    """A name, cut if need be, and the size at which it isn't wider than this number of points, if it can be read."""
    font = matplotlib.font_manager.FontProperties(size=size)
    for most in (60, 24, 16, 10):
        text = printable(name, most)
        width, _, _ = MEASURE.get_text_width_height_descent(text, font, False)
        if width * SMALLEST <= points * size:
            break
    return text, min(size, size * points / max(width, 1))


def whole(number: float, form: str = ",") -> str:
    """A number, its digits in groups of three; a great one as a product with a power of ten."""
    sign, size = "−" * (number < 0), abs(number)
    if size < 10**7:
        return f"{sign}{size:{form}}"
    digits, exponent = f"{size:.2e}".split("e")
    return f"{sign}{digits.rstrip('0').rstrip('.')}·10{raised(int(exponent))}"


def mean(number: float) -> str:
    """A mean, with three places while it isn't great."""
    return whole(number, ",.3f" if abs(number) < 1000 else ",.0f")


def raised(exponent: int) -> str:
    """An exponent, as it is written."""
    return str(exponent).translate(SUPERSCRIPT)


def whole_ticks(axis: Any, parts: int, **more: Any) -> None:
    """Ticks of an axis at whole numbers, which are at most this number of parts apart."""
    axis.set_major_locator(matplotlib.ticker.MaxNLocator(parts, integer=True, **more))
    axis.set_major_formatter(lambda number, _: whole(round(number)))


def scale(axes: Any, most: int, parts: int) -> None:
    """The axes of up to so many customers over the time, which has this number of parts."""
    axes.set_ylim(-0.08 * most - 0.2, 1.08 * most + 0.2)
    whole_ticks(axes.yaxis, 3)
    whole_ticks(axes.xaxis, parts)


def put(axes: Any, place: tuple[float, float], text: str, size: float, colour: str, **more: Any) -> None:
    """A text at a place, which is never read as a formula."""
    axes.text(*place, text, fontsize=size, color=colour, parse_math=False, **more)


def put_beside(axes: Any, place: tuple[float, float], text: str, is_left: bool, down: float = 2, **more: Any) -> None:
    """A text below a place, in points, to the left of it or to the right."""
    side, away = ("right", -4) if is_left else ("left", 4)
    axes.annotate(text, place, xytext=(away, -down), textcoords="offset points", ha=side, va="top", **more)


def label_counts(axes: Any, most: float) -> None:
    """Ticks of a logarithmic axis from 1 on: powers of ten, with 2 and 5 between while there are few."""
    digits = int(math.log10(most)) if most >= 1 else 0
    if most <= 5:
        ticks: list[float] = [*range(1, 6)]
    elif digits <= 2:
        ticks = [base * 10**k for k in range(digits + 1) for base in (1, 2, 5)]
    else:
        step = -(-digits // 5)
        ticks = [10.0**k for k in range(0, digits + 1, step)]
    axes.yaxis.set_major_locator(matplotlib.ticker.FixedLocator([t for t in ticks if t <= most]))
    axes.yaxis.set_minor_locator(matplotlib.ticker.NullLocator())

    def label(count: float, _: object) -> str:
        return whole(round(count)) if digits <= 5 or count < 10 else f"10{raised(round(math.log10(count)))}"

    axes.yaxis.set_major_formatter(label)
