"""python3 -m generate.all_kinds > FILE.cases

Writes cases of `check` that show the mark of every kind of event on networks of one to three small
queues: each list of targets, each source, each rule of tables, several sizes, amounts and parts.
What is wanted is what the plain program answers (plain.py); here each of its marks is compared with
all pairs of states.
"""

import itertools
import tomllib
from collections.abc import Iterator, Sequence

from generate.case_files import case, write
from generate.small_networks import Entry, table
from oracle import plain
from oracle.plain_network import Event, Network, State, box, is_below

CAPACITIES = [(1,), (3,), (4,), (1, 2), (2, 2), (4, 2), (1, 2, 1)]
NAMES = "abc"
FULLS = ("lost", "stay")
TOGETHER = 128


def lists(queues: Sequence[str]) -> Iterator[list[str]]:
    """The lists of up to two queues, and two of three."""
    for count in (1, 2):
        yield from ([*some] for some in itertools.permutations(queues, count))
    if len(queues) == 3:
        yield from ([queues[0], queues[1], queues[2]], [queues[2], queues[0], queues[1]])


def value(pattern: int, place: int, number: int) -> int:
    """The value of a target's table: rising, falling, up and down."""
    rules = (number, 9 - number, (7 * number + 3 * place) % 5, (5 * number + 2 * place + 1) % 4)
    return rules[pattern]


def indexes(caps: dict[str, int], origin: str | None, to: list[str]) -> Iterator[Entry]:
    keys = {"from": origin} if origin else {}
    for full, pattern in itertools.product(FULLS, range(4)):
        rows = [[value(pattern, i, n) for n in range(caps[queue])] for i, queue in enumerate(to)]
        for size in (1, 2):
            if size == 1 or not origin and size <= min(caps[queue] for queue in to):
                yield {"kind": "index", **keys, "to": to, "table": rows, "full": full, "size": size}


def part(queue: str, numbers: Sequence[int]) -> Entry:
    """A part of a guarded event: its least, most, shift, floor and ceiling."""
    return {"queue": queue, **dict(zip(("least", "most", "shift", "floor", "ceiling"), numbers))}


def patterns(queue: str, cap: int) -> list[Entry]:
    """The parts that are tried with each other on a queue."""
    numbers = (
        (0, cap, 1, 0, cap),
        (1, cap, -1, 0, cap),
        (0, cap // 2, 2, 0, cap),
        (cap, cap, -2, 0, cap),
        (0, cap, 0, 0, 0),
        (0, cap // 2, 0, cap, cap),
        (cap // 2, cap, -65535, cap // 2, cap),
        (0, cap - 1, 1, 1, cap),
    )
    return [part(queue, own) for own in numbers]


def guarded(caps: dict[str, int]) -> Iterator[Entry]:
    first, last = list(caps)[0], list(caps)[-1]
    for own in patterns(first, caps[first]):
        yield {"kind": "guarded", "part": [own]}
        if first != last:
            yield from ({"kind": "guarded", "part": [other, own]} for other in patterns(last, caps[last]))


def without_source(caps: dict[str, int], to: list[str]) -> Iterator[Entry]:
    yield {"kind": "arrival", "to": to}
    for size in range(1, min(3, *(caps[queue] for queue in to)) + 1):
        yield {"kind": "batch", "to": to, "size": size}
    yield {"kind": "join", "from": to}
    for queue in caps:
        if queue not in to:
            yield {"kind": "join", "from": to, "to": queue}


def kinds(caps: dict[str, int]) -> Iterator[Entry]:
    """The keys of all events, one after another."""
    yield from guarded(caps)
    for to in lists(list(caps)):
        yield from without_source(caps, to)
        for origin in (None, *caps):
            if origin in to:
                continue
            yield {"kind": "fork", **({"from": origin} if origin else {}), "to": to}
            yield from indexes(caps, origin, to)
            if origin:
                for full in FULLS:
                    yield {"kind": "service", "from": origin, "to": to, "full": full}
    for origin in caps:
        yield from ({"kind": "service", "from": origin, "full": full} for full in FULLS)
    for origin, on, amount in itertools.product((None, *caps), caps, (1, 2, 65535)):
        if origin != on:
            keys = {"from": origin} if origin else {}
            yield {"kind": "negative", **keys, "on": on, "amount": amount}


def is_marked(event: Event, after: dict[State, State]) -> bool:
    """Whether an event's mark is that of its images: a pair that breaks the order, if any does."""
    pair = event.upset()
    pairs = [pair] if pair else itertools.product(after, repeat=2)
    keeps = (is_below(after[x], after[y]) for x, y in pairs if is_below(x, y))
    return all(keeps) == (pair is None)


def cases() -> Iterator[bytes]:
    """The cases of `check`, that many events in each."""
    for sizes in CAPACITIES:
        caps = dict(zip(NAMES, sizes))
        head = "version = 2\n" + "".join(
            table("queue", {"name": name, "capacity": cap, "servers": cap}) for name, cap in caps.items()
        )
        entries = list(kinds(caps))
        for front in range(0, len(entries), TOGETHER):
            text = head + "".join(
                table("event", {"name": f"e{front + i}", "rate": 1, **keys})
                for i, keys in enumerate(entries[front : front + TOGETHER])
            )
            net = Network(tomllib.loads(text))
            states = box((0,) * len(net.caps), net.caps)
            assert all(is_marked(event, {x: event.after(x) for x in states}) for event in net.events), text
            name = f"kinds-{'-'.join(map(str, sizes))}-from-{front}"
            yield case(name, ["check", "net.toml"], {"net.toml": text.encode()}, 0, plain.description(net).encode())


if __name__ == "__main__":
    write(cases())
