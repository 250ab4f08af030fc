"""What a picture of a network shows: nodes and arrows, before they have a place.

A queue is a node, and so is each point at which customers come from outside, leave, or are lost, each bar of a
fork or join, each choice by an index, and each guarded event. The arrows of an event join them in the order in
which its list is tried.
"""

import dataclasses
import enum
from typing import Any

from psi_tools.model.moves import names_in
from psi_tools.model.networks import OF_SERVERS, Network

Table = dict[str, Any]


class Node(enum.Enum):
    """What stands at a place of the picture."""

    QUEUE = "queue"
    SOURCE = "source"
    SINK = "sink"
    LOSS = "loss"
    BAR = "bar"
    CHOICE = "choice"
    GUARD = "guard"


class Arrow(enum.Enum):
    """What an arrow means."""

    MOVE = "move"
    OVERFLOW = "overflow"
    LOSS = "loss"
    NEGATIVE = "negative"
    GUARDED = "guarded"
    # A guarded event reads this queue, and leaves its number as it is.
    READ = "read"


@dataclasses.dataclass(frozen=True)
class NetworkPicture:
    """What is to be drawn: a network that psi accepts, its title, and what stands below the picture."""

    net: Network
    title: str
    with_legend: bool = False
    with_tables: bool = False


@dataclasses.dataclass(frozen=True)
class SceneNode:
    """A node: its key, its kind, the lines that stand in it, the table of the queue that it is, if it is one, and
    whether an event serves that."""

    key: str
    kind: Node
    lines: tuple[str, ...] = ()
    queue: Table | None = None
    is_served: bool = False


@dataclasses.dataclass(frozen=True)
class SceneArrow:
    """An arrow between two nodes: its event, its label, and whether a full target blocks its source."""

    tail: str
    head: str
    kind: Arrow
    event: int
    label: str = ""
    blocks: bool = False


@dataclasses.dataclass
class Scene:
    """All nodes and arrows of a network, in the order of its file."""

    nodes: list[SceneNode]
    arrows: list[SceneArrow]


def scene_of(net: Network) -> Scene:
    """The scene of a network that psi accepts."""
    builder, events = Builder(net), net.table["event"]
    served = {name for event in events if event["kind"] in OF_SERVERS for name in names_in(event.get("from"))}
    for queue in net.table["queue"]:
        key, is_served = builder.keys[queue["name"]], queue["name"] in served
        builder.scene.nodes.append(SceneNode(key, Node.QUEUE, queue=queue, is_served=is_served))
    for number, event in enumerate(events):
        getattr(builder, f"add_{event['kind']}")(number, event)
    return builder.scene


class Builder:
    """Builds a scene, event by event."""

    def __init__(self, net: Network) -> None:
        self.keys = {name: f"q{place}" for place, name in enumerate(net.queues)}
        self.scene = Scene([], [])

    def node(self, key: str, kind: Node, lines: tuple[str, ...] = ()) -> str:
        """Adds a node that is no queue, and returns its key."""
        self.scene.nodes.append(SceneNode(key, kind, lines))
        return key

    def arrow(self, tail: str, head: str, kind: Arrow, number: int, label: str = "", blocks: bool = False) -> None:
        """Adds an arrow."""
        self.scene.arrows.append(SceneArrow(tail, head, kind, number, label, blocks))

    def origin(self, number: int, event: Table) -> str:
        """Where the event's customers come from: its source, or a point outside."""
        sources = names_in(event.get("from"))
        return self.keys[sources[0]] if sources else self.node(f"in{number}", Node.SOURCE)

    def lose(self, tail: str, number: int) -> None:
        """Adds the small crossed arrow by which customers are lost."""
        self.arrow(tail, self.node(f"loss{number}", Node.LOSS), Arrow.LOSS, number)

    def add_list(self, number: int, event: Table) -> None:
        """An event whose customers join the first queue of a list that has room; of a batch several at once."""
        tail, targets = self.origin(number, event), names_in(event.get("to"))
        label = label_of(event) + (f", {event['size']} at once" if event["kind"] == "batch" else "")
        blocks = event.get("full") == "stay" and bool(targets)
        if not targets:
            self.arrow(tail, self.node(f"out{number}", Node.SINK), Arrow.MOVE, number, label)
            return
        for place, name in enumerate(targets):
            kind = Arrow.OVERFLOW if place else Arrow.MOVE
            text = f"{place + 1}" if place else label
            self.arrow(tail, self.keys[name], kind, number, text, blocks and not place)
        if not blocks:
            self.lose(tail, number)

    add_arrival = add_service = add_batch = add_list

    def add_index(self, number: int, event: Table) -> None:
        """A customer who goes to the queue of the least index."""
        tail = self.origin(number, event)
        choice = self.node(f"choice{number}", Node.CHOICE)
        blocks = bool(names_in(event.get("from"))) and event.get("full") == "stay"
        self.arrow(tail, choice, Arrow.MOVE, number, label_of(event), blocks)
        size = event.get("size", 1)
        for name in names_in(event["to"]):
            self.arrow(choice, self.keys[name], Arrow.MOVE, number, f"{size} at once" if size > 1 else "")
        if not blocks:
            self.lose(choice, number)

    def add_negative(self, number: int, event: Table) -> None:
        """A signal that removes customers from a queue."""
        label = f"{label_of(event)}, −{event.get('amount', 1)}"
        self.arrow(self.origin(number, event), self.keys[event["on"]], Arrow.NEGATIVE, number, label)

    def add_fork(self, number: int, event: Table) -> None:
        """A customer who is split into one for each queue."""
        tail = self.origin(number, event)
        bar = self.node(f"bar{number}", Node.BAR)
        is_served = bool(names_in(event.get("from")))
        self.arrow(tail, bar, Arrow.MOVE, number, label_of(event), is_served)
        for name in names_in(event["to"]):
            self.arrow(bar, self.keys[name], Arrow.MOVE, number)
        if not is_served:
            self.lose(bar, number)

    def add_join(self, number: int, event: Table) -> None:
        """One customer of each queue who leave together, as one."""
        bar = self.node(f"bar{number}", Node.BAR)
        targets = names_in(event.get("to"))
        for name in names_in(event["from"]):
            self.arrow(self.keys[name], bar, Arrow.MOVE, number, "", bool(targets))
        head = self.keys[targets[0]] if targets else self.node(f"out{number}", Node.SINK)
        self.arrow(bar, head, Arrow.MOVE, number, label_of(event))

    def add_guarded(self, number: int, event: Table) -> None:
        """An event that moves several queues at once where all their guards hold."""
        parts: list[Table] = event["part"]
        lines = (label_of(event), *(part_line(part) for part in parts))
        guard = self.node(f"guard{number}", Node.GUARD, lines)
        for part in parts:
            queue, shift = self.keys[part["queue"]], part.get("shift", 0)
            if shift > 0:
                self.arrow(guard, queue, Arrow.GUARDED, number, f"+{shift}")
            elif shift < 0 or "ceiling" in part:
                self.arrow(queue, guard, Arrow.GUARDED, number, f"−{-shift}" if shift else "")
            elif "floor" in part:
                self.arrow(guard, queue, Arrow.GUARDED, number)
            else:
                self.arrow(queue, guard, Arrow.READ, number)


def label_of(event: Table) -> str:
    """The event's name and rate."""
    return f"{event['name']} {event['rate']}"


def part_line(part: Table) -> str:
    """A part of a guarded event in words: its guard, and what it makes of the number."""
    name = part["queue"]
    least, most = part.get("least"), part.get("most")
    if least is not None and least == most:
        guard = f"{name} = {least}"
    elif least is not None and most is not None:
        guard = f"{least} ≤ {name} ≤ {most}"
    elif least is not None:
        guard = f"{name} ≥ {least}"
    else:
        guard = f"{name} ≤ {most}" if most is not None else name
    shift = part.get("shift", 0)
    found = [f"{'+' if shift > 0 else '−'}{abs(shift)}"] if shift else []
    found += [f"{word} {part[key]}" for key, word in (("floor", "at least"), ("ceiling", "at most")) if key in part]
    return f"{guard}: {', '.join(found)}" if found else guard
