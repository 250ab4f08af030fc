"""Networks of three families, drawn by their numbers, so that a run takes each form that the sampler
has: the least and the greatest state of a monotone network as they are, packed into one to four
words, or with the keys of an index policy at hand; the regions of other networks as boxes and sets of
states, packed or not; events picked by a table that is exact or not.

- `monotone`: 1 to 32 queues, capacities of 1 to 65,535 that are even or not, rates of 1 to 1,048,576,
  services, arrivals and departures of one target or none, and in some networks of more;
- `index`: customers from outside who join one of up to 32 queues by tables that rise, so that the
  shortest of them is chosen, and departures; in some networks with other events too;
- `mixed`: services, batches, forks, joins and negative customers, few of one kind or many, over
  capacities that fit one to four words or none, with split numbers of 1 to 4,096.
"""

from typing import Any

from generate.small_networks import Dice, Entry, T, table

# The greatest capacity, and the most queues, of networks whose states fit one word, two, three,
# four, or none.
SHAPES = ((3, 16), (20, 10), (60, 32), (250, 32), (2000, 24), (32767, 12), (32768, 6), (65535, 4), (1, 32))
LIMITS = (6, 8, 10, 10, 12)
MIXED_SHAPES = ((3, 16), (7, 20), (20, 24), (40, 32), (130, 32), (300, 24), (33000, 3), (1, 32))


def queues_of(dice: Dice, family: str) -> list[dict[str, Any]]:
    """The queues: names and capacities, even or of any sizes, and servers."""
    most, count = dice.pick(MIXED_SHAPES if family == "mixed" else SHAPES)
    is_even = dice.coin() and family != "mixed"
    return [
        {
            "name": f"q{i}",
            # Small capacities beside a great one are met more often.
            "capacity": most if is_even or i == 0 else dice.upto(min(most, 6)),
            "servers": dice.upto(3),
        }
        for i in range(dice.upto(count))
    ]


def entries_of(dice: Dice, queues: list[dict[str, Any]]) -> list[Entry]:
    """Events that all keep the order of states: services and arrivals to lists, departures."""
    size = dice.pick((4, 4, 10, 1000, 1048576 // 64))
    most_targets = dice.pick((1, 1, 1, 2, 3))
    names = [queue["name"] for queue in queues]
    entries: list[Entry] = []
    for i in range(dice.upto(2)):
        to = [dice.pick(names)] if most_targets == 1 else listed(dice, names, most_targets)
        entries.append({"name": f"in{i}", "kind": "arrival", "rate": dice.upto(size), "to": to})
    for i, name in enumerate(names):
        others = [other for other in names if other != name]
        entry: Entry = {"name": f"s{i}", "kind": "service", "rate": dice.upto(size), "from": name}
        if others and dice.below(3) > 0:
            entry["to"] = listed(dice, others, most_targets)
            entry["full"] = dice.pick(("stay", "lost"))
        entries.append(entry)
    return entries


def listed(dice: Dice, names: list[T], most: int) -> list[T]:
    start = dice.below(len(names))
    return (names[start:] + names[:start])[: dice.upto(min(most, len(names)))]


def index_entries_of(dice: Dice, queues: list[dict[str, Any]]) -> list[Entry]:
    """Customers who join the shortest of some queues, by tables that rise, and departures."""
    some = queues[dice.below(len(queues)) :]
    slope, offset = dice.upto(3), dice.below(4)
    rows = [[slope * n + offset * i for n in range(queue["capacity"])] for i, queue in enumerate(some)]
    to = [queue["name"] for queue in some]
    entries: list[Entry] = [{"name": "in", "kind": "index", "rate": dice.upto(20), "to": to, "table": rows}]
    for i, queue in enumerate(queues):
        entries.append({"name": f"s{i}", "kind": "service", "rate": dice.upto(8), "from": queue["name"]})
    if dice.below(4) == 0:
        entries.append({"name": "on", "kind": "arrival", "rate": dice.upto(4), "to": [to[0]]})
    return entries


def mixed_entry(dice: Dice, names: list[str], caps: dict[str, int], i: int) -> Entry:
    """An event that may break the order of states."""
    some = listed(dice, names, 3)
    kind = dice.pick(("fork", "join", "negative", "batch", "arrival", "service", "service"))
    keys: Entry = {"name": f"e{i}", "kind": kind, "rate": dice.upto(9)}
    if kind in ("arrival", "batch"):
        size = {"size": dice.upto(min(3, *(caps[name] for name in some), 3))} if kind == "batch" else {}
        return {**keys, "to": some, **size}
    if kind == "negative":
        origin = {"from": some[0]} if len(some) > 1 and dice.coin() else {}
        return {**keys, **origin, "on": some[-1], "amount": dice.pick((1, 1, 1, 2))}
    if kind == "join":
        return {**keys, "from": some[:2], **({"to": some[2]} if len(some) > 2 else {})}
    if kind == "fork":
        return {**keys, "to": some[1:], "from": some[0]} if len(some) > 1 else {**keys, "to": some}
    return {**keys, "from": some[0], "to": some[1:], "full": dice.pick(("stay", "lost"))}


def mixed_entries_of(dice: Dice, queues: list[dict[str, Any]]) -> list[Entry]:
    """Events of which some may break the order, and departures, so that runs end."""
    names = [queue["name"] for queue in queues]
    caps = {queue["name"]: queue["capacity"] for queue in queues}
    entries = [mixed_entry(dice, names, caps, i) for i in range(dice.upto(6))]
    for i, name in enumerate(names):
        # The queue with the greatest capacity needs the most of them.
        rate = dice.upto(60) if i == 0 else dice.upto(12)
        entries.append({"name": f"s{i}", "kind": "service", "rate": rate, "from": name})
    return entries


ENTRIES = {"monotone": entries_of, "index": index_entries_of, "mixed": mixed_entries_of}
SPLITS = {"monotone": (1, 256), "index": (1, 256), "mixed": (1, 4, 64, 256, 4096)}


def network(family: str, number: int) -> str:
    """The text of a network of a family."""
    dice = Dice(number)
    queues = queues_of(dice, family)
    for queue in queues:
        queue["capacity"] = min(queue["capacity"], 300 if family == "index" else 65_535)
        queue["servers"] = min(queue["servers"], queue["capacity"])
    text = f"version = 1\nlimit = {dice.pick(LIMITS)}\nsplit = {dice.pick(SPLITS[family])}\n"
    text += "".join(table("queue", queue) for queue in queues)
    return text + "".join(table("event", entry) for entry in ENTRIES[family](dice, queues))
