"""Draws a network as the field draws one: waiting lines, servers, routes, losses and blocking."""

import math
from typing import Any, NamedTuple

import matplotlib.font_manager
import matplotlib.lines
import matplotlib.patches
import matplotlib.path

from psi_tools.plot import style
from psi_tools.plot.network_layout import Curve, Point, folded, laid_out, size_of
from psi_tools.plot.network_scene import Arrow, NetworkPicture, Node, Scene, SceneArrow, SceneNode, scene_of

# The most places of a waiting line, and the most servers, that are drawn one by one.
MOST_PLACES, MOST_SERVERS = 6, 3
INK, DARK_GREY, LIGHT, PAPER = "#222222", "#444444", "#888888", "#FFFFFF"


class Line(NamedTuple):
    """How arrows of a kind are drawn, what they mean, and the colour of texts at them where their own is too pale."""

    colour: str
    dashes: object
    meaning: str
    text: str | None = None
    width: float = 0.9


LINES = {
    Arrow.MOVE: Line(INK, "-", "where customers go, or go first", width=1.5),
    Arrow.OVERFLOW: Line(style.BLUE, (0, (4, 2)), "overflow, by its number, where all earlier choices are full"),
    Arrow.LOSS: Line(style.VERMILION, "-", "lost: customers who find no free place"),
    Arrow.NEGATIVE: Line(style.PURPLE, (0, (2, 1.5)), "a signal removes customers", "#8A3B66"),
    Arrow.GUARDED: Line(style.GREEN, (0, (1, 1)), "a guarded event changes the number", "#00664A"),
    Arrow.READ: Line(LIGHT, (0, (1, 2)), "a guarded event reads the number"),
}
EDGE, TITLE_HEIGHT, LEGEND_LINE = 0.18, 0.42, 0.18
# The size and the most letters of a line of the legend, and where its text begins after a piece of an arrow.
NOTE_SIZE, MOST_LETTERS, AFTER_SAMPLE = 8, 120, 0.38


def put_line(axes: Any, points: list[Point], colour: str, width: float, **more: Any) -> None:
    """A line through points, in inches as all places on the axes of a picture."""
    axes.add_line(matplotlib.lines.Line2D(*zip(*points), color=colour, lw=width, **more))


def put_text(axes: Any, place: Point, text: str, size: float, colour: str = INK, **more: Any) -> None:
    """A text around a place; it covers what is below it."""
    style.put(axes, place, style.printable(text), size, colour, ha="center", va="center", zorder=6, **more)


@style.styled
def draw_network(picture: NetworkPicture, title: str = "") -> Any:
    """The figure of a network, as large as what is drawn; a title of its own may replace the picture's."""
    net, title = picture.net, style.printable(title or picture.title)
    scene = scene_of(net)
    layout = folded(laid_out(scene), scene)
    notes = notes_of(picture, scene)
    width = max(layout.size[0] + 2 * EDGE, 3.2, *map(width_of, notes))
    low = -EDGE - LEGEND_LINE * len(notes)
    top = layout.size[1] + EDGE + TITLE_HEIGHT * bool(title)
    figure = style.new_figure(top - low, "")
    figure.set_layout_engine("none")
    figure.set_size_inches(width, top - low)
    axes = figure.add_axes((0, 0, 1, 1))
    axes.axis("off")
    left = (layout.size[0] - width) / 2
    axes.set(xlim=(left, left + width), ylim=(low, top))
    if title:
        put_text(axes, (left + width / 2, top - TITLE_HEIGHT / 2), title, 10, weight="bold")
    for number, (arrow, curve) in enumerate(zip(scene.arrows, layout.curves)):
        draw_arrow(axes, arrow, curve, f"arrow-{number}-{arrow.kind.value}")
    for node in scene.nodes:
        DRAW[node.kind](axes, node, layout.centres[node.key])
    for row, note in enumerate(notes):
        draw_note(axes, (left + EDGE, -EDGE - LEGEND_LINE * (row + 0.2)), note)
    return figure


def draw_arrow(axes: Any, arrow: SceneArrow, curve: Curve, gid: str) -> None:
    """An arrow along its spline, with its label, and with a bar at its source where it blocks."""
    line, points = LINES[arrow.kind], [*curve.points]
    codes = [matplotlib.path.Path.MOVETO] + [matplotlib.path.Path.CURVE4] * (len(points) - 1)
    drawn = {"ec": line.colour, "lw": line.width, "ls": line.dashes, "gid": gid}
    shaft = matplotlib.path.Path(points, codes)
    axes.add_patch(matplotlib.patches.PathPatch(shaft, fill=False, zorder=1, **drawn))
    if arrow.kind is not Arrow.READ:
        corners = [curve.tip, *bar_across(points[-1], curve.tip, 0, 0.035)]
        head = matplotlib.patches.Polygon(corners, fc=line.colour, ec=line.colour, lw=0.5, zorder=2, gid=f"{gid}-head")
        axes.add_patch(head)
    # A short double bar: the source is blocked where the target is full.
    for far in (0.05, 0.09) if arrow.blocks else ():
        ends = bar_across(points[0], points[1], far, 0.075)
        put_line(axes, ends, style.VERMILION, 1.4, solid_capstyle="butt", gid=f"{gid}-blocks")
    if curve.label:
        box = {"fc": PAPER, "ec": "none", "pad": 0}
        above = (curve.label[0], curve.label[1] + 0.02)
        put_text(axes, above, arrow.label, 8, line.text or line.colour, bbox=box)


def bar_across(begin: Point, end: Point, far: float, half: float) -> list[Point]:
    """The ends of a line across the way from one point to another, that far from the first; `half` is half of it."""
    length = math.dist(begin, end) or 1.0
    right, up = ((after - before) / length for before, after in zip(begin, end))
    left, low = begin[0] + right * far, begin[1] + up * far
    side = -up * half, right * half
    return [(left + side[0], low + side[1]), (left - side[0], low - side[1])]


def draw_queue(axes: Any, node: SceneNode, centre: Point) -> None:
    """A waiting line with its places, then its servers; the name above, the numbers below."""
    queue = node.queue
    assert queue is not None
    servers, capacity = queue.get("servers", 1), queue["capacity"]
    left, low = centre[0] - 0.68, centre[1] - 0.15
    server_room = 0.36 if node.is_served else 0.0
    draw_line(axes, node.key, (left, low), 1.36 - server_room, capacity - servers * node.is_served)
    if node.is_served:
        draw_servers(axes, node.key, (left + 1.36 - server_room / 2, centre[1]), servers)
    name, size = style.fitted(queue["name"], 98, 9)
    put_text(axes, (centre[0], centre[1] + 0.28), name, size, weight="bold")
    numbers, size = style.fitted(f"capacity {capacity}" + f", {servers} servers" * (servers > 1), 98, 7.5)
    put_text(axes, (centre[0], centre[1] - 0.31), numbers, size, DARK_GREY)


def draw_line(axes: Any, key: str, corner: Point, width: float, waiting: int) -> None:
    """The waiting line: open where customers come, closed at the servers, with its places while there are few."""
    (left, low), high = corner, corner[1] + 0.3
    floor = matplotlib.patches.Rectangle(corner, width, 0.3, fc="#EEF3F8", ec="none", zorder=3, gid=f"queue-{key}")
    axes.add_patch(floor)
    right = left + width
    put_line(axes, [(left, high), (right, high), (right, low), (left, low)], INK, 1.1, zorder=4)
    places = min(waiting, MOST_PLACES)
    cell = width / (MOST_PLACES + 1)
    for place in range(1, places + 1):
        put_line(axes, [(right - place * cell, low), (right - place * cell, high)], INK, 0.6, zorder=4)
    if waiting > MOST_PLACES:
        put_text(axes, (left + cell / 2, low + 0.15), "…", 7)


def draw_servers(axes: Any, key: str, centre: Point, servers: int) -> None:
    """A circle for each server while they are few, else one with their number."""
    few = servers <= MOST_SERVERS
    count = servers if few else 1
    radius = {1: 0.16, 2: 0.1, 3: 0.07}[count]
    for place in range(count):
        up = centre[1] + ((count - 1) / 2 - place) * 2.2 * radius
        drawn = {"fc": PAPER, "ec": INK, "lw": 1.1, "zorder": 4, "gid": f"server-{key}-{place}"}
        axes.add_patch(matplotlib.patches.Circle((centre[0], up), radius, **drawn))
    if not few:
        put_text(axes, centre, f"×{servers}", 7 if servers < 100 else 5.5)


def draw_point(axes: Any, node: SceneNode, centre: Point) -> None:
    """A point outside: filled where customers come from, a ring where they leave."""
    fill = INK if node.kind is Node.SOURCE else PAPER
    gid = f"{node.kind.value}-{node.key}"
    axes.add_patch(matplotlib.patches.Circle(centre, 0.045, fc=fill, ec=INK, lw=0.9, zorder=4, gid=gid))


def draw_loss(axes: Any, node: SceneNode, centre: Point) -> None:
    """A cross: customers are lost here."""
    for turn in (1, -1):
        ends = [(centre[0] - 0.05, centre[1] - 0.05 * turn), (centre[0] + 0.05, centre[1] + 0.05 * turn)]
        put_line(axes, ends, style.VERMILION, 1.4, solid_capstyle="butt", gid=f"loss-{node.key}")


def draw_bar(axes: Any, node: SceneNode, centre: Point) -> None:
    """The bar of a fork or join."""
    corner, drawn = (centre[0] - 0.035, centre[1] - 0.31), {"fc": INK, "ec": INK, "zorder": 4, "gid": f"bar-{node.key}"}
    axes.add_patch(matplotlib.patches.Rectangle(corner, 0.07, 0.62, **drawn))


def draw_choice(axes: Any, node: SceneNode, centre: Point) -> None:
    """The diamond of a choice by an index."""
    across, up = centre
    corners = [(across - 0.17, up), (across, up + 0.17), (across + 0.17, up), (across, up - 0.17)]
    gid = f"choice-{node.key}"
    axes.add_patch(matplotlib.patches.Polygon(corners, fc="#FFF7DC", ec=INK, lw=1.0, zorder=4, gid=gid))
    put_text(axes, centre, "min", 6.5)


def draw_guard(axes: Any, node: SceneNode, centre: Point) -> None:
    """The box of a guarded event, with its guards and changes."""
    width, height = size_of(node)
    corner, form = (centre[0] - width / 2 + 0.04, centre[1] - height / 2 + 0.04), "round,pad=0.04"
    drawn = {"fc": "#EAF6F1", "ec": style.GREEN, "lw": 1.0, "zorder": 4, "gid": f"guard-{node.key}"}
    axes.add_patch(matplotlib.patches.FancyBboxPatch(corner, width - 0.08, height - 0.08, boxstyle=form, **drawn))
    for row, line in enumerate(node.lines):
        up = centre[1] + (len(node.lines) - 1) * 0.075 - row * 0.15
        put_text(axes, (centre[0], up), line, 7.5, weight="bold" if row == 0 else "normal")


DRAW = {
    Node.QUEUE: draw_queue,
    Node.SOURCE: draw_point,
    Node.SINK: draw_point,
    Node.LOSS: draw_loss,
    Node.BAR: draw_bar,
    Node.CHOICE: draw_choice,
    Node.GUARD: draw_guard,
}
Note = tuple["Arrow | None", str]


def notes_of(picture: NetworkPicture, scene: Scene) -> list[Note]:
    """The lines below the picture: what its arrows mean, and the tables of choices by an index."""
    notes: list[Note] = []
    if picture.with_legend:
        kinds = {arrow.kind for arrow in scene.arrows}
        notes += [(kind, line.meaning) for kind, line in LINES.items() if kind in kinds]
        if any(arrow.blocks for arrow in scene.arrows):
            notes.append((None, "‖ at the start of an arrow: its server is blocked while the target is full"))
        notes.append((None, "the number after a name is its rate, of one server where there are several"))
    if picture.with_tables:
        for event in picture.net.table["event"]:
            if event["kind"] == "index":
                rows = zip(event["to"], event["table"])
                notes += [(None, f"{event['name']}, index of {name}: {shortened(row)}") for name, row in rows]
    return notes


def shortened(row: list[int]) -> str:
    """A row of a table, cut in the middle where it is long."""
    numbers = [str(number) for number in row]
    return ", ".join(numbers if len(numbers) <= 14 else [*numbers[:10], "…", *numbers[-3:]])


def width_of(note: Note) -> float:
    """How wide a picture is that has room for a line below it, in inches."""
    kind, text = note
    font = matplotlib.font_manager.FontProperties(size=NOTE_SIZE)
    points, _, _ = style.MEASURE.get_text_width_height_descent(style.printable(text, MOST_LETTERS), font, False)
    return float(points) / 72 + 2 * EDGE + AFTER_SAMPLE * (kind is not None)


def draw_note(axes: Any, place: Point, note: Note) -> None:
    """A line below the picture, with a piece of the arrow that it explains."""
    kind, text = note
    if kind is not None:
        ends = [place, (place[0] + 0.3, place[1])]
        put_line(axes, ends, LINES[kind].colour, LINES[kind].width, ls=LINES[kind].dashes)
    begin = place[0] + AFTER_SAMPLE * (kind is not None), place[1]
    style.put(axes, begin, style.printable(text, MOST_LETTERS), NOTE_SIZE, INK, va="center")
