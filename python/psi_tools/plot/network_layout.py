"""Where the nodes and arrows of a network's picture stand: graphviz's `dot` finds the places, and a wide layout is
folded into rows, as a long line of queues is folded on a page."""

import bisect
import dataclasses
import json
import math
import subprocess
from typing import Any

from psi_tools.errors import PsiError
from psi_tools.plot.network_scene import Arrow, Node, Scene, SceneArrow, SceneNode

Point = tuple[float, float]
# Width and height of each kind of node, in inches; a guarded event's depend on its lines.
SIZES = {
    Node.QUEUE: (1.45, 0.74),
    Node.SOURCE: (0.12, 0.12),
    Node.SINK: (0.12, 0.12),
    Node.LOSS: (0.14, 0.14),
    Node.BAR: (0.08, 0.62),
    Node.CHOICE: (0.34, 0.34),
}
LINE_HEIGHT, LETTER_WIDTH, MARGIN, FONT_SIZE = 0.15, 0.072, 0.16, 8
# Where a queue's servers stand, to the right of its centre, and how far below it they end, in inches.
TO_SERVERS, BELOW_SERVER = 0.5, 0.19
POINTS_AN_INCH, MOST_SECONDS = 72.0, 60
# How far a straight line may be from upright, in inches.
STRAIGHT = 0.01
LIGHT = Arrow.NEGATIVE, Arrow.READ


@dataclasses.dataclass(frozen=True)
class Curve:
    """The way of an arrow: the points of a cubic spline, where its head begins and ends, and its label's place."""

    points: tuple[Point, ...]
    tip: Point
    label: Point | None


@dataclasses.dataclass(frozen=True)
class Layout:
    """A picture's size in inches, where each node's centre is, and the way of each arrow."""

    size: Point
    centres: dict[str, Point]
    curves: list[Curve]


def size_of(node: SceneNode) -> Point:
    """The width and height of a node, in inches."""
    if node.kind is not Node.GUARD:
        return SIZES[node.kind]
    longest = max(map(len, node.lines))
    return longest * LETTER_WIDTH + MARGIN, len(node.lines) * LINE_HEIGHT + MARGIN


def arrow_line(number: int, arrow: SceneArrow) -> str:
    """An arrow in dot's language: what is lost stays below its source, and signals bend before routes do."""
    weight, least = (1, 0) if arrow.kind is Arrow.LOSS else (1, 1) if arrow.kind in LIGHT else (4, 1)
    label = json.dumps(arrow.label, ensure_ascii=False)
    return f"{arrow.tail} -> {arrow.head} [id={number}, label={label}, weight={weight}, minlen={least}];"


def dot_of(scene: Scene) -> str:
    """The scene in dot's language."""
    lines = [
        "digraph { rankdir=LR; nodesep=0.28; ranksep=0.5;",
        'node [shape=box, fixedsize=true, label=""];',
        f'edge [fontname="DejaVu Sans", fontsize={FONT_SIZE}, arrowsize=0.6];',
    ]
    sizes = [(node.key, *size_of(node)) for node in scene.nodes]
    lines += [f"{key} [width={width:.3f}, height={height:.3f}];" for key, width, height in sizes]
    lines += [arrow_line(number, arrow) for number, arrow in enumerate(scene.arrows)]
    return "\n".join([*lines, "}"])


def laid_out(scene: Scene) -> Layout:
    """The places of a scene; raises PsiError where graphviz isn't there, or gives none."""
    try:
        done = subprocess.run(
            ["dot", "-Tjson0"], input=dot_of(scene), capture_output=True, text=True, check=True, timeout=MOST_SECONDS
        )
    except FileNotFoundError:
        raise PsiError("a picture of a network needs graphviz: tools/setup graphviz", 1) from None
    except subprocess.TimeoutExpired:
        raise PsiError(f"graphviz finds no layout within {MOST_SECONDS} s", 1) from None
    except subprocess.CalledProcessError as fault:
        raise PsiError(f"graphviz finds no layout: {(fault.stderr or '?').splitlines()[0]}", 1) from None
    return layout_of(json.loads(done.stdout), scene)


def layout_of(found: dict[str, Any], scene: Scene) -> Layout:
    """The layout that dot's answer describes, in inches."""
    _, _, width, height = (float(number) for number in found["bb"].split(","))
    keys = {node.key for node in scene.nodes}
    centres = {each["name"]: point_of(each["pos"]) for each in found["objects"] if each["name"] in keys}
    curves = {int(each["id"]): curve_of(each) for each in found.get("edges", [])}
    ordered = [curves[number] for number in range(len(scene.arrows))]
    queues = {node.key: node.queue for node in scene.nodes if node.queue}
    for number, arrow in enumerate(scene.arrows):
        if arrow.kind is Arrow.LOSS and arrow.tail in queues:
            has_one = queues[arrow.tail].get("servers", 1) == 1
            begin = (centres[arrow.tail][0] + TO_SERVERS, centres[arrow.tail][1] - BELOW_SERVER) if has_one else None
            centres[arrow.head], ordered[number] = below_servers(centres[arrow.head], ordered[number], begin)
    return Layout((width / POINTS_AN_INCH, height / POINTS_AN_INCH), centres, ordered)


def below_servers(cross: Point, curve: Curve, begin: Point | None) -> tuple[Point, Curve]:
    """Where a customer is lost after service: below the servers, if the way there runs straight down. It may have a
    begin nearer to them."""
    if any(abs(across - cross[0]) > STRAIGHT for across, _ in (*curve.points, curve.tip)):
        return cross, curve
    moved = [(across + TO_SERVERS, up) for across, up in (*curve.points, curve.tip, cross)]
    *points, tip, there = moved
    return there, Curve((begin or points[0], *points[1:]), tip, curve.label)


def point_of(text: str) -> Point:
    """A point in inches, of one that is written in points."""
    across, up = text.split(",")[:2]
    return float(across) / POINTS_AN_INCH, float(up) / POINTS_AN_INCH


def curve_of(edge: dict[str, Any]) -> Curve:
    """The way of an arrow in dot's form: `e,x,y` is its tip, and the others are a spline's points."""
    pieces = edge["pos"].split()
    tip = next((point_of(piece[2:]) for piece in pieces if piece.startswith("e,")), None)
    points = tuple(point_of(piece) for piece in pieces if piece[0] not in "se")
    label = point_of(edge["lp"]) if edge.get("label") and "lp" in edge else None
    return Curve(points, tip or points[-1], label)


# From this width on, in inches, a layout is folded where it is more than this many times as wide as it is high.
WIDEST, SHAPE = 11.0, 3.0
# The shape that rows together should have, the room between them, and how far an arrow to another row reaches out.
WANTED_SHAPE, GAP, REACH = 1.9, 0.4, 0.4
# How far above such an arrow its label stands.
ABOVE = 0.06


def folded(layout: Layout, scene: Scene) -> Layout:
    """The layout in rows where it is wide, else itself."""
    width, height = layout.size
    if width <= WIDEST or width <= SHAPE * height:
        return layout
    rows = max(2, round(math.sqrt(width / (WANTED_SHAPE * (height + GAP)))))
    cuts = cuts_of(layout, scene, rows)
    return Folding(layout, scene, cuts).folded() if cuts else layout


def cuts_of(layout: Layout, scene: Scene, rows: int) -> list[float]:
    """Where to cut: of the places that no node covers, those nearest to even parts of the width."""
    covered = sorted(
        (layout.centres[node.key][0] - size_of(node)[0] / 2, layout.centres[node.key][0] + size_of(node)[0] / 2)
        for node in scene.nodes
    )
    free, end = [], covered[0][1]
    for low, high in covered[1:]:
        if low > end:
            free.append((low + end) / 2)
        end = max(end, high)
    wanted = [layout.size[0] * row / rows for row in range(1, rows)]
    return sorted({min(free, key=lambda place: abs(place - each)) for each in wanted}) if free else []


class Folding:
    """A layout that is cut into rows at some places."""

    def __init__(self, layout: Layout, scene: Scene, cuts: list[float]) -> None:
        self.layout, self.scene, self.cuts = layout, scene, cuts
        self.starts = [0.0, *cuts]
        ends = [*cuts, layout.size[0]]
        self.width = max(end - start for start, end in zip(self.starts, ends)) + 2 * REACH
        self.row_height = layout.size[1] + GAP
        self.widths = {node.key: size_of(node)[0] for node in scene.nodes}

    def row_of(self, across: float) -> int:
        """The row of a place."""
        return bisect.bisect_right(self.cuts, across)

    def moved(self, point: Point, row: int) -> Point:
        """A point of a row, where that row stands."""
        up = (len(self.starts) - 1 - row) * self.row_height
        return point[0] - self.starts[row] + REACH, point[1] + up

    def folded(self) -> Layout:
        """The layout in rows."""
        centres = {key: self.moved(point, self.row_of(point[0])) for key, point in self.layout.centres.items()}
        curves = [self.curve(arrow, curve, centres) for arrow, curve in zip(self.scene.arrows, self.layout.curves)]
        height = self.row_height * len(self.starts) - GAP
        return Layout((self.width, height), centres, curves)

    def curve(self, arrow: SceneArrow, curve: Curve, centres: dict[str, Point]) -> Curve:
        """An arrow's way: the same within a row, and a new one from row to row."""
        rows = {self.row_of(self.layout.centres[key][0]) for key in (arrow.tail, arrow.head)}
        if len(rows) > 1:
            return self.way_between(arrow, curve, centres)
        row = rows.pop()
        label = curve.label and self.moved(curve.label, row)
        return Curve(tuple(self.moved(point, row) for point in curve.points), self.moved(curve.tip, row), label)

    def way_between(self, arrow: SceneArrow, curve: Curve, centres: dict[str, Point]) -> Curve:
        """A way from the right of a node to the left of one in another row, through the room between rows."""
        tail, head = centres[arrow.tail], centres[arrow.head]
        begin = (tail[0] + self.widths[arrow.tail] / 2, tail[1])
        tip = (head[0] - self.widths[arrow.head] / 2, head[1])
        end, middle = (tip[0] - 0.08, tip[1]), (tail[1] + head[1]) / 2
        points = (
            begin,
            (begin[0] + REACH, begin[1]),
            (begin[0] + REACH, middle),
            (begin[0], middle),
            (begin[0], middle),
            (end[0], middle),
            (end[0], middle),
            (end[0] - REACH, middle),
            (end[0] - REACH, end[1]),
            end,
        )
        label = ((begin[0] + end[0]) / 2, middle + ABOVE) if curve.label else None
        return Curve(points, tip, label)
