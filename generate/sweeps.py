"""python3 -m generate.sweeps > FILE.cases

Writes cases of `sample` that tell the events of three lists from each other, and of `check` for the
first two:

- guarded events of two queues, whose parts are all pairs of thirteen;
- events without tables between four queues, of each size, number of targets and `full`, at
  capacities and servers that are drawn;
- an event of each form of every kind, drawn among those whose marks all_kinds.py shows.

A network has one of these events beside three that move all states: one into a box, one up or down
in each queue, and its opposite. A stream is taken where it tells the event from half of those that
no earlier stream told from it: with any of them in its place the sample is another one. The sample
runs over boxes alone where `split` is 1, and over sets of states where it is 4096.

What is wanted is what the plain program answers (plain.py), which lists states and shares nothing
with the proved one.
"""

import collections
import functools
import itertools
import tomllib
from collections.abc import Iterable, Iterator, Sequence
from typing import Any

from generate import all_kinds
from generate.case_files import case, write
from generate.small_networks import Dice, Entry, lists
from oracle import plain
from oracle.plain_network import Network

# The capacities, the servers, an event among others, and the split numbers.
Listed = tuple[dict[str, int], dict[str, int], Entry, list[Entry], Sequence[int]]
BOXES, SETS = 1, 4096
LIMIT = 4
CAPACITIES_DRAWN = 4
STREAMS_TRIED, STREAMS_TAKEN = 16, 3

# The least, most, shift, floor and ceiling of the parts that are tried with each other, on a queue
# with room for two; none is no part.
PARTS = (
    None,
    (0, 2, 0, 0, 2),
    (1, 2, -1, 0, 2),
    (0, 1, 1, 0, 2),
    (0, 2, -2, 0, 2),
    (0, 2, 2, 0, 2),
    (0, 2, 0, 0, 0),
    (0, 0, 0, 2, 2),
    (2, 2, 0, 0, 0),
    (1, 1, 0, 0, 2),
    (0, 1, -1, 1, 2),
    (2, 2, -1, 0, 1),
    (1, 2, 1, 0, 1),
)


def guarded() -> Iterator[Entry]:
    """The guarded events of two queues, one after another."""
    for first, last in itertools.product(PARTS, repeat=2):
        parts = [all_kinds.part(queue, part) for queue, part in (("b", last), ("a", first)) if part]
        if parts:
            yield {"kind": "guarded", "part": parts}


def routes(caps: dict[str, int]) -> Iterator[Entry]:
    """The events from the first of four queues, and from outside, to up to three others."""
    for count in range(4):
        to = list(caps)[1 : count + 1]
        for full in all_kinds.FULLS:
            yield {"kind": "service", "from": "a", "to": to, "full": full}
        room = min((caps[queue] for queue in to), default=0)
        yield from ({"kind": "batch", "to": to, "size": size} for size in range(1, room + 1))


def drawn_routes(dice: Dice) -> Iterator[tuple[dict[str, int], Entry]]:
    """Capacities of four queues, a few for each route, with the route."""
    for entry in routes({"a": 2, "b": 4, "c": 4, "d": 4}):
        least = entry.get("size", 1)
        for _ in range(CAPACITIES_DRAWN):
            yield {"a": dice.upto(2), **{q: least + dice.below(5 - least) for q in "bcd"}}, entry


def form(entry: Entry) -> tuple[object, ...]:
    """What two events of the same form share."""
    counts = [len(entry[key]) for key in ("to", "part") if key in entry]
    shift = max((abs(part["shift"]) for part in entry.get("part", ())), default=0)
    words = [str(entry.get(key)) for key in ("kind", "from", "full", "size", "amount")]
    return (*counts, shift, *words)


def drawn_kinds(dice: Dice, caps: dict[str, int]) -> Iterator[tuple[Entry, list[Entry]]]:
    """An event of each form of every kind, with all of its kind."""
    entries = list(all_kinds.kinds(caps))
    forms = collections.defaultdict(list)
    for entry in entries:
        forms[form(entry)].append(entry)
    for alike in forms.values():
        drawn = dice.pick(alike)
        yield drawn, [entry for entry in entries if entry["kind"] == drawn["kind"]]


def movers(dice: Dice, caps: dict[str, int]) -> list[Entry]:
    """Three events that move all states: into a box, and each queue one up or down."""
    moves: list[tuple[Entry, ...]] = []
    for queue, cap in caps.items():
        floor = dice.below(cap + 1)
        box = {"queue": queue, "floor": floor, "ceiling": floor + dice.below(cap + 1 - floor)}
        shift = 1 if dice.coin() else -1
        moves.append((box, {"queue": queue, "shift": shift}, {"queue": queue, "shift": -shift}))
    return [{"kind": "guarded", "part": [*parts]} for parts in zip(*moves)]


def network(caps: dict[str, int], servers: dict[str, int], split: int, entries: Sequence[Entry]) -> dict[str, Any]:
    """A network of an event and three movers, as `tomllib` reads it."""
    named = zip(("event", "box", "one", "back"), (4, 1, 2, 1), entries)
    return {
        "version": 2,
        "limit": LIMIT,
        "split": split,
        "queue": [{"name": q, "capacity": cap, "servers": servers[q]} for q, cap in caps.items()],
        "event": [{"name": name, "rate": rate, **entry} for name, rate, entry in named],
    }


def runnable(table: dict[str, Any]) -> Network:
    """The plain program's network, which keeps the images that it has worked out."""
    net = Network(table)
    for event in net.events:
        setattr(event, "after", functools.cache(event.after))
    return net


def distinguishing(seed: int, net: Network, others: list[Network]) -> Iterator[tuple[int, tuple[int, str]]]:
    """Streams, each with its sample, that tell a network from others; the first where none does."""
    left, taken = others, 0
    for stream in range(STREAMS_TRIED):
        answer = plain.sample(net, seed, stream)
        alike = [other for other in left if plain.sample(other, seed, stream) == answer]
        if 2 * len(alike) <= len(left):
            yield stream, answer
            left, taken = alike, taken + 1
        if not left or taken == STREAMS_TAKEN:
            return
    if taken == 0:
        yield 0, plain.sample(net, seed, 0)


def cases_of(name: str, dice: Dice, is_described: bool, listed: Iterable[Listed]) -> Iterator[bytes]:
    """The cases of a list of events, numbered; those of `check` where it is described."""
    for number, (caps, servers, entry, entries, splits) in enumerate(listed):
        moving = movers(dice, caps)
        for split in splits:
            text = lists(network(caps, servers, split, [entry, *moving]))
            net = runnable(tomllib.loads(text))
            others = [runnable(network(caps, servers, split, [other, *moving])) for other in entries if other != entry]
            files, front = {"net.toml": text.encode()}, f"sweep-{name}-{number:03}"
            if is_described and split == splits[0]:
                yield case(front, ["check", "net.toml"], files, 0, plain.description(net).encode())
            for stream, (status, out) in distinguishing(number, net, others):
                mode = "boxes" if split == BOXES else "sets"
                words = ["sample", "net.toml", str(number), str(stream)]
                yield case(f"{front}-{mode}-{stream}", words, files, status, out.encode())


def cases() -> Iterator[bytes]:
    dice, entries, both = Dice(0), list(guarded()), (BOXES, SETS)
    two = ({"a": 2, "b": 2}, {"a": 1, "b": 1})
    yield from cases_of("guarded", dice, True, ((*two, entry, entries, both) for entry in entries))
    drawn: Iterator[Listed] = (
        (caps, {queue: caps[queue] if queue == "a" else 1 for queue in caps}, entry, [*routes(caps)], [dice.pick(both)])
        for caps, entry in drawn_routes(dice)
    )
    yield from cases_of("routes", dice, True, drawn)
    sizes = (dict(zip(all_kinds.NAMES, sizes)) for sizes in all_kinds.CAPACITIES)
    kinds: Iterator[Listed] = ((caps, caps, *pair, both) for caps in sizes for pair in drawn_kinds(dice, caps))
    yield from cases_of("kinds", dice, False, kinds)


if __name__ == "__main__":
    write(cases())
