"""Designs: networks that differ in some numbers, in which the same random words choose the same events."""

import copy
import dataclasses
import itertools
import re
from collections.abc import Iterable, Iterator
from decimal import Decimal
from typing import Any

from psi_tools.errors import PsiError
from psi_tools.model.networks import MOST_EVENTS, MOST_RATE, MOST_TOTAL, Network
from psi_tools.model.refusals import RANGES

# What differs: the name of a table and one of its keys, with the values.
Key = tuple[str, str]
Keys = dict[Key, list[Decimal]]

# What may differ: in which table it stands, and the least and the greatest value.
TABLES = dict(rate="event", capacity="queue", servers="queue", size="event", amount="event", level="reward")
KEYS = {key: (table, *RANGES[key]) for key, table in TABLES.items()}
# What may differ in a part of a guarded event, with the least and the greatest value: the name is
# the event's and the queue's, with a point between.
PARTS = {key: ("part", 0, 65_535) for key in ("least", "most", "floor", "ceiling")}
KEYS |= PARTS
NAME = r"[A-Za-z0-9_-]{1,32}"
WORD = re.compile(rf"({NAME}(?:\.{NAME})?)\.([a-z]+)=(.+)")
RANGE = re.compile(r"(\d+)\.\.(\d+)(?:\.\.(\d+))?")
DECIMAL = re.compile(r"\d{1,12}(?:\.\d{1,6})?")
MOST_DESIGNS = 256


@dataclasses.dataclass
class Design:
    """A network, and the values of the keys by which it differs from the others, in their order."""

    values: tuple[object, ...]
    net: Network


def values_of(setting: str, text: str) -> list[Decimal]:
    """The values of one word: numbers parted by commas, or FIRST..LAST, or FIRST..LAST..STEP."""
    values: list[Decimal] = []
    for part in text.split(","):
        span = RANGE.fullmatch(part)
        if span:
            first, last, step = int(span[1]), int(span[2]), int(span[3] or 1)
            if step == 0 or last < first or (last - first) // step >= MOST_DESIGNS:
                raise PsiError(f"{setting}: {part} is no range, or of more than {MOST_DESIGNS} values")
            values += map(Decimal, range(first, last + 1, step))
        elif DECIMAL.fullmatch(part):
            values.append(Decimal(part))
        else:
            raise PsiError(f"{setting}: {part} is no number and no range such as 2..8 or 10..50..10")
    if len({*values}) < len(values):
        raise PsiError(f"{setting}: a value stands there twice")
    return values


def keys_of(settings: list[str], net: Network) -> dict[tuple[str, str], list[Decimal]]:
    """The keys of the settings, each a name and a key of the network, with its values."""
    found = {}
    for setting in settings:
        parts = WORD.fullmatch(setting)
        if not parts or parts[2] not in KEYS or ("." in parts[1]) != (parts[2] in PARTS):
            raise PsiError(
                f"{setting} isn't NAME.KEY=VALUES, as desk.servers=2,3, with KEY one of "
                f"{', '.join(key for key in KEYS if key not in PARTS)}; nor EVENT.QUEUE.KEY=VALUES "
                f"with KEY one of {', '.join(PARTS)}"
            )
        name, key, text = parts.groups()
        if table_of(net, name, key) is None:
            raise PsiError(f"{setting}: the network has no {KEYS[key][0]} {name}")
        if (name, key) in found:
            raise PsiError(f"{name}.{key} is given twice")
        found[name, key] = values_of(setting, text)
    return found


def table_of(net: Network, name: str, key: str) -> dict[str, Any] | None:
    """The table of a network in which a key's value stands, none where there isn't one."""
    if key not in PARTS:
        tables = net.table[KEYS[key][0]]
        return next((table for table in tables if table["name"] == name), None)
    event, queue = name.split(".")
    parts = (part for table in net.table["event"] if table["name"] == event for part in table.get("part", []))
    return next((part for part in parts if part["queue"] == queue), None)


def depends(net: Network, queue: str, used: list[str]) -> list[tuple[str, Key | None]]:
    """What goes by a queue's servers or its capacity, in words, and the name and key by which it
    can be swept, or none: guards, floors and ceilings of parts, tables, and levels of rewards. Of
    the rewards only those in `used` matter, all where it is empty."""
    found: list[tuple[str, Key | None]] = []
    for event in net.table["event"]:
        for part in event.get("part", []):
            for key in (key for key in PARTS if key in part and part["queue"] == queue):
                found.append((f"{key} = {part[key]} of event {event['name']}", (f"{event['name']}.{queue}", key)))
        if event["kind"] == "index" and queue in event["to"]:
            found.append((f"the table of event {event['name']}", None))
    for reward in net.table["reward"]:
        name = reward["name"]
        if queue not in reward["queues"] or used and name not in used:
            continue
        if reward["kind"] == "above":
            found.append((f"level = {reward['level']} of reward {name}", (name, "level")))
        if reward["kind"] == "table":
            found.append((f"the table of reward {name}", None))
    return found


def check_bounds(settings: list[str], net: Network, together: bool, used: list[str]) -> None:
    """Refuses a sweep of the servers or the capacity of a queue by whose number something else goes
    that would stay as it is, unless that is swept together with it."""
    keys = keys_of(settings, net)
    for name, key in keys:
        if key not in ("servers", "capacity"):
            continue
        for message, own in depends(net, name, used):
            if not (together and own in keys):
                way = f"sweep {'.'.join(own)} with it, --together, " if own else ""
                raise PsiError(
                    f"{message} goes by {name} and would stay as it is while {name}.{key} differs: "
                    f"{way}compare files, or say --anyway"
                )


def scale_of(found: Keys) -> int:
    """By how much all rates are multiplied, so that each value of a rate is whole."""
    places = 0
    for (name, key), values in found.items():
        for value in values:
            own = max(0, -int(value.normalize().as_tuple().exponent))
            if own and key != "rate":
                raise PsiError(f"{name}.{key}: {value} isn't whole")
            places = max(places, own)
    return int(10**places)


def designs_of(
    settings: list[str], net: Network, together: bool = False
) -> tuple[list[Key], list[Design], int, list[str]]:
    """The designs of the settings: all combinations of their values, or the first values of all, the
    second ones, and so on, where they go together. Gives the keys, the designs, by how much rates
    were multiplied, and the rewards that are left out, since their tables don't go so far."""
    found = keys_of(settings, net)
    scale = scale_of(found)
    if together and len({len(values) for values in found.values()}) > 1:
        raise PsiError("--together wants as many values of each key")
    rows = [*(zip if together else itertools.product)(*found.values())]
    if len(rows) > MOST_DESIGNS:
        raise PsiError(f"there would be more than {MOST_DESIGNS} designs")
    designs = [Design(row, changed(net, found, row, scale)) for row in rows]
    short = {name for design in designs for name in fit_tables(design.net)}
    for design in designs:
        rewards = design.net.table["reward"]
        rewards[:] = [reward for reward in rewards if reward["name"] not in short]
    return [*found], designs, scale, sorted(short)


def fit_tables(net: Network) -> Iterator[str]:
    """Cuts the tables of a network whose capacities are less than they were. Gives the names of the
    rewards whose tables have no value for that many customers; an index table that is too short is refused."""
    capacity = dict(zip(net.queues, net.capacities))
    for event in net.table["event"]:
        if event["kind"] == "index":
            cut_rows(event["table"], [capacity[name] for name in event["to"]])
            for name, row in zip(event["to"], event["table"]):
                if len(row) < capacity[name]:
                    raise PsiError(f"{event['name']}: its table has no index for that many customers in {name}")
    for reward in net.table["reward"]:
        if reward["kind"] == "table":
            wanted = [capacity[name] + 1 for name in reward["queues"]]
            cut_rows(reward["table"], wanted)
            if any(len(row) < count for row, count in zip(reward["table"], wanted)):
                yield reward["name"]


def cut_rows(table: list[list[int]], counts: list[int]) -> None:
    """Cuts each row to as many values as it may have."""
    table[:] = [row[:count] for row, count in zip(table, counts)]


def changed(net: Network, keys: Iterable[Key], row: Iterable[Decimal], scale: int) -> Network:
    """The network with other values, and all rates in a smaller unit."""
    made = net.copy()
    made.heads["version"] = 2
    for event in made.table["event"]:
        event["rate"] *= scale
    for (name, key), value in zip(keys, row):
        _, least, most = KEYS[key]
        number = int(value * (scale if key == "rate" else 1))
        if not least <= number <= most:
            raise PsiError(f"{name}.{key}: {value} is out of {least} to {most}")
        table = table_of(made, name, key)
        assert table is not None
        table[key] = number
    return made


def aligned(designs: list[Design]) -> tuple[list[Design], str | None]:
    """The same designs with idle events, so that each event has the same numbers in all of them, as
    far as its rate goes; and why that can't be, or none.

    The random word of a step chooses an event by its number: an event of rate r has r numbers in a row. So
    where a rate differs, each event after it would be chosen by other random words. Here each event has
    as many numbers as it needs in any design, and what a design doesn't need of them is idle: so
    all have the same modulus, too, and the same random words choose the same events but where a rate is
    less. Events of one name are the same event; one that a design doesn't have is idle there.
    """
    nets = [design.net for design in designs]
    names = common_events(nets)
    slots: dict[str, int] = {}
    for net in nets:
        for event in net.table["event"]:
            total = event["rate"] * net.servers_of(event)
            slots[event["name"]] = max(slots.get(event["name"], 0), total)
    padded = [with_idle(net, names, slots) for net in nets]
    why = None
    if sum(slots.values()) > MOST_TOTAL:
        why = f"the rates of all designs together would add up to more than {MOST_TOTAL:,}"
    if any(sum(map(net.servers_of, net.table["event"])) > MOST_EVENTS for net in padded):
        why = f"with idle events there would be more than {MOST_EVENTS:,} events"
    if why:
        return designs, why
    return [Design(design.values, net) for design, net in zip(designs, padded)], None


def common_events(nets: list[Network]) -> list[str]:
    """The names of the events of all networks, in an order that is near that of each: a name that
    is new stands after the one that it follows in its own network."""
    names: list[str] = []
    for net in nets:
        place = 0
        for event in net.table["event"]:
            if event["name"] in names:
                place = names.index(event["name"]) + 1
            else:
                names.insert(place, event["name"])
                place += 1
    return names


def with_idle(net: Network, names: list[str], slots: dict[str, int]) -> Network:
    """A network with events in the order of some names, each followed by idle ones that fill its
    slot."""
    made = copy.copy(net)
    own = {event["name"]: event for event in net.table["event"]}
    unused = (name for name in map("idle-{}".format, itertools.count(1)) if name not in slots)
    events = []
    for name in names:
        rest = slots[name]
        if name in own:
            events.append(own[name])
            rest -= own[name]["rate"] * net.servers_of(own[name])
        while rest > 0:
            rate = min(rest, MOST_RATE)
            # What is shifted by nothing stays as it is.
            part = [{"queue": net.queues[0], "shift": 0}]
            events.append({"kind": "guarded", "name": next(unused), "rate": rate, "part": part})
            rest -= rate
    made.table = {**net.table, "event": events}
    made.heads = {**net.heads, "version": 2}
    return made
