#!/usr/bin/env python3
"""check_log.py NET LOG

Checks a log against a network file. It prints what `psi replay NET LOG` prints, with the same
status: 0 with `accepted T` and `state S`, or 4 with the first line that is refused or rejected. An
accepted log proves, whoever wrote it, that every state that starts T steps before time zero, or
earlier, is the state S at time zero.

It is for those who would rather read a checker than believe a proof: it was written from
docs/FORMATS.md alone, shares no line with the proved program or another tool, and is plain before
it is fast. NET has to be a file that `psi check` accepts, in TOML 1.0, which is what Python reads
(a table in braces stands on one line). Where a file can't be read the status is 3.
"""

import bisect
import functools
import itertools
import math
import re
import sys
import tomllib
from collections.abc import Iterator, Sequence
from typing import Any

State = tuple[int, ...]
Corners = tuple[list[int], list[int]]
# A queue with its keys; and a queue with its guard, its shift, its floor and its ceiling.
Targets = Sequence[tuple[int, list[float]]]
Part = tuple[int, int, int, int, int, int]

MOST_CUSTOMERS, MOST_STATES, LONGEST, FULL = 65_535, 4_096, 33_554_432, math.inf

# Of ChaCha20 (RFC 8439): the constants, the quarter rounds of a double round, by columns and diagonals, the greatest
# word.
CONSTANTS = 0x61707865, 0x3320646E, 0x79622D32, 0x6B206574
QUARTER_ROUNDS = [(k, 4 + (k + t) % 4, 8 + (k + 2 * t) % 4, 12 + (k + 3 * t) % 4) for t in (0, 1) for k in range(4)]
MASK = 0xFFFFFFFF


@functools.lru_cache(maxsize=1)
def block(seed: int, stream: int, counter: int) -> list[int]:
    """The 16 words of a block: the key is the seed, and the nonce the stream."""
    key = [seed & MASK, seed >> 32, 0, 0, 0, 0, 0, 0]
    start = [*CONSTANTS, *key, counter, 0, stream & MASK, stream >> 32]
    x = list(start)
    for a, b, c, d in QUARTER_ROUNDS * 10:
        for total, by, turned, bits in ((a, b, d, 16), (c, d, b, 12), (a, b, d, 8), (c, d, b, 7)):
            x[total] = (x[total] + x[by]) & MASK
            mixed = x[turned] ^ x[total]
            x[turned] = (mixed << bits | mixed >> (32 - bits)) & MASK
    return [(after + before) & MASK for after, before in zip(x, start)]


# Of an event `after` is what it makes of a state, and `hull` the least and the greatest number in
# each queue among what it makes of the states of a box.
class Route:
    """An arrival, a service, an index event or a batch: `size` customers go to the queue with the
    least key among those that have room for them. Each queue of `to` has its keys with it, one for
    each number that it may hold, `FULL` where there is no room; those of two queues differ. Where
    the customers come from a source, it has to hold at least `k`, and loses one; where it `stays`,
    only if there is a queue to go to.
    """

    def __init__(self, to: Targets, size: int, source: int | None, k: int, stays: bool) -> None:
        self.to, self.size, self.source, self.k, self.stays = to, size, source, k, stays

    def after(self, state: State) -> State:
        if self.source is not None and state[self.source] < self.k:
            return state
        key, queue = min(((keys[state[q]], q) for q, keys in self.to), default=(FULL, 0))
        if key == FULL and self.stays:
            return state
        changed = list(state)
        if key != FULL:
            changed[queue] += self.size
        if self.source is not None:
            changed[self.source] -= 1
        return tuple(changed)

    def hull(self, low: Sequence[int], high: Sequence[int]) -> Corners:
        """In a box each queue holds its number whatever the others hold. So a queue of the list can
        be chosen at a number where the source can serve and each other one can have a greater key;
        it can be passed over where the source can stand still, it has no room, or another one can
        have a lesser key. A number that lies further inside than the size makes neither end.
        """
        least, greatest, size = list(low), list(high), self.size
        keys = [keys[low[queue] : high[queue] + 1] for queue, keys in self.to]
        ends = [(min(some), max(some)) for some in keys]
        serves = self.source is None or high[self.source] >= self.k
        stands = self.source is not None and low[self.source] < self.k
        for place, (queue, own) in enumerate(self.to):
            others = [*ends[:place], *ends[place + 1 :], (FULL, FULL)]
            lesser, greater = min(one for one, _ in others), min(one for _, one in others)
            front = range(low[queue], min(high[queue], low[queue] + size) + 1)
            back = range(max(low[queue], high[queue] - size), high[queue] + 1)
            passed = {n for n in front if stands or own[n] >= lesser}
            chosen = {n for n in back if serves and own[n] < greater}
            least[queue] = min(n if n in passed else n + size for n in front)
            greatest[queue] = max(n + size if n in chosen else n for n in back)
        if self.source is not None:
            can_lose = not self.stays or min(first for first, _ in ends) != FULL
            can_keep = self.stays and min(last for _, last in ends) == FULL
            least[self.source] -= low[self.source] >= self.k and can_lose
            greatest[self.source] -= high[self.source] >= self.k and not can_keep
        return least, greatest


class Guarded:
    """A negative, fork, join or guarded event, or idle, which has no part: where each queue of its
    parts holds from `least` to `most`, each becomes its number plus `shift`, but at least `floor`
    and at most `ceiling`.
    """

    def __init__(self, parts: Sequence[Part]) -> None:
        self.parts = parts

    def after(self, state: State) -> State:
        if not all(least <= state[queue] <= most for queue, least, most, *_ in self.parts):
            return state
        changed = list(state)
        for queue, _, _, shift, floor, ceiling in self.parts:
            changed[queue] = min(ceiling, max(floor, state[queue] + shift))
        return tuple(changed)

    def hull(self, low: Sequence[int], high: Sequence[int]) -> Corners:
        """The states of a box where the event happens are a box, and so are those where it doesn't
        since a certain queue holds too few, or too many. In each of these boxes the event keeps the
        order of states, so what it makes of the two corners is the least and the greatest.
        """
        boxes: list[Corners | None] = []
        happens: Corners | None = list(low), list(high)
        for queue, least, most, *_ in self.parts:
            happens = narrowed(*happens, queue, least, most) if happens else None
            boxes.append(narrowed(low, high, queue, 0, least - 1))
            boxes.append(narrowed(low, high, queue, most + 1, MOST_CUSTOMERS))
        corners = [self.after(tuple(corner)) for box in (happens, *boxes) if box for corner in box]
        return [min(some) for some in zip(*corners)], [max(some) for some in zip(*corners)]


def narrowed(low: Sequence[int], high: Sequence[int], queue: int, least: int, most: int) -> Corners | None:
    """The corners of a box where a queue holds from least to most; none where it can't."""
    first, last = list(low), list(high)
    first[queue], last[queue] = max(least, low[queue]), min(most, high[queue])
    return (first, last) if first[queue] <= last[queue] else None


Event = Route | Guarded

# The keys of each kind of event, beside kind, name and rate.
KEYS = {
    "arrival": "to",
    "service": "from to full",
    "index": "from to table full size",
    "batch": "to size",
    "negative": "from on amount",
    "fork": "from to",
    "join": "from to",
    "guarded": "part",
}


def need(is_so: object, what: str) -> None:
    if not is_so:
        raise ValueError(what)


def number(table: dict[str, Any], key: str, least: int, most: int, default: int | None = None) -> int:
    value = table.get(key, default)
    if type(value) is not int or not least <= value <= most:
        raise ValueError(f"{key} isn't from {least} to {most}")
    return value


class Network:
    """Capacities, events in their order with the running totals of their rates, and the limit."""

    def __init__(self, table: dict[str, Any]) -> None:
        version = number(table, "version", 1, 2)
        self.limit = number(table, "limit", 0, 18 + 2 * version, 18)
        self.caps = [number(queue, "capacity", 1, MOST_CUSTOMERS) for queue in table["queue"]]
        self.servers = [number(queue, "servers", 1, 64, 1) for queue in table["queue"]]
        self.places = {queue["name"]: place for place, queue in enumerate(table["queue"])}
        self.events: list[Event] = []
        rates: list[int] = []
        for entry in table["event"]:
            need(entry["kind"] != "guarded" or version == 2, "guarded events need version 2")
            unknown = {*entry} - {"kind", "name", "rate", *KEYS[entry["kind"]].split()}
            need(not unknown, f"an event has the keys {unknown}")
            self.events += self.events_of(entry)
            rates += [number(entry, "rate", 1, 1 << 20)] * (len(self.events) - len(rates))
        self.totals = list(itertools.accumulate(rates))
        self.modulus = 1 << (self.totals[-1] - 1).bit_length()
        self.events.append(Guarded([]))

    def event_of(self, seed: int, stream: int, time: int) -> int:
        """The number of the event this many steps before time zero; that of idle is the greatest."""
        counter, place = divmod(time - 1, 16)
        word = block(seed, stream, counter)[place]
        return bisect.bisect_right(self.totals, word % self.modulus)

    def events_of(self, entry: dict[str, Any]) -> list[Event]:
        """The events of a table: one for each server where it has a single source."""
        is_route = entry["kind"] in ("arrival", "service", "index", "batch")
        make = self.route if is_route else self.guarded
        if entry["kind"] == "join" or "from" not in entry:
            return [make(entry, None, 0)]
        source = self.places[entry["from"]]
        return [make(entry, source, k) for k in range(1, self.servers[source] + 1)]

    def route(self, entry: dict[str, Any], source: int | None, k: int) -> Event:
        queues = [self.places[name] for name in entry.get("to", [])]
        need(len({source, *queues}) == len(queues) + 1, "a queue is named twice")
        size = number(entry, "size", 1, MOST_CUSTOMERS, 1)
        stays = {"lost": False, "stay": True}[entry.get("full", "lost")] and queues != []
        # A key goes by the index, then by the place in the list, which is below 32.
        rows, keys = entry.get("table") or [[0] * self.caps[queue] for queue in queues], []
        for place, (row, queue) in enumerate(zip(rows, queues, strict=True)):
            need(len(row) == self.caps[queue] >= size, "a row or a batch doesn't fit the capacity")
            room = self.caps[queue] - size + 1
            keys.append([index * 32 + place for index in row[:room]] + [FULL] * size)
        return Route([*zip(queues, keys)], size, source, k, stays)

    def guarded(self, entry: dict[str, Any], source: int | None, k: int) -> Event:
        caps, to = self.caps, entry.get("to", [])
        parts = [*map(self.part, entry.get("part", []))]
        losing = [(source, k, 1)] if source is not None else []
        if entry["kind"] == "negative":
            amount = number(entry, "amount", 1, MOST_CUSTOMERS, 1)
            losing.append((self.places[entry["on"]], 0, amount))
        if entry["kind"] == "join":
            losing += [(self.places[name], 1, 1) for name in entry["from"]]
        gaining = [self.places[name] for name in ([to] if type(to) is str else to)]
        parts += [(queue, least, caps[queue], -n, 0, caps[queue]) for queue, least, n in losing]
        parts += [(queue, 0, caps[queue] - 1, 1, 0, caps[queue]) for queue in gaining]
        need(len({queue for queue, *_ in parts}) == len(parts), "a queue is named twice")
        return Guarded(parts)

    def part(self, part: dict[str, Any]) -> Part:
        need({*part} <= {"queue", "least", "most", "shift", "floor", "ceiling"}, "a part's keys")
        queue = self.places[part["queue"]]
        cap = self.caps[queue]
        least, most = number(part, "least", 0, cap, 0), number(part, "most", 0, cap, cap)
        floor, ceiling = number(part, "floor", 0, cap, 0), number(part, "ceiling", 0, cap, cap)
        shift = number(part, "shift", -MOST_CUSTOMERS, MOST_CUSTOMERS, 0)
        return queue, least, most, shift, floor, ceiling


class Fault(Exception):
    """The first line of a log that is refused or rejected, with its cause."""


def hold(is_so: object, cause: str, line: int) -> None:
    if not is_so:
        raise Fault(f"psi: log {cause} line {line}")


class Box:
    """A region that is a box: the states between two corners. One that is a set is a Python set."""

    def __init__(self, low: Sequence[int], high: Sequence[int]) -> None:
        self.low, self.high = low, high

    def __contains__(self, state: State) -> bool:
        return all(low <= held <= high for low, held, high in zip(self.low, state, self.high))

    def __iter__(self) -> Iterator[State]:
        return itertools.product(*(range(low, high + 1) for low, high in zip(self.low, self.high)))


Region = Box | set[State]


class Log:
    """Reads the text of a log line by line."""

    def __init__(self, data: bytes) -> None:
        self.lines, self.line, self.queues = data.split(b"\n"), 0, 0

    def hold(self, is_so: object, cause: str) -> None:
        hold(is_so, "refused " + cause, self.line)

    def words(self) -> list[bytes]:
        """The tokens of the next line; after the last line feed there is none."""
        self.line += 1
        self.hold(self.line < len(self.lines), "5 Truncated")
        return self.lines[self.line - 1].split(b" ")

    def number(self, word: bytes, least: int, most: int) -> int:
        is_numeral = re.fullmatch(rb"0|[1-9][0-9]{0,19}", word)
        self.hold(is_numeral and least <= int(word) <= most, "3 Number")
        return int(word)

    def named(self, name: bytes, least: int, most: int) -> int:
        """The number of the next line, which names it."""
        first, *rest = self.words()
        self.hold(first == name and len(rest) == 1, "4 Shape")
        return self.number(rest[0], least, most)

    def state(self, pieces: Sequence[bytes]) -> State:
        return tuple(self.number(piece, 0, MOST_CUSTOMERS) for piece in pieces)

    def region(self, name: bytes, ranges: Sequence[tuple[int, int]], before: Box | None) -> tuple[Any, ...]:
        """The next line: numbers in these ranges, and a region: a move of the box before it, where one is given."""
        words, place = self.words(), len(ranges) + 1
        (first, *numbers), form = words[:place], words[place : place + 1]
        found = [word.split(b",") for word in words[place + 1 :]]
        counts = [*map(len, found)]
        fits = form == [b"set"] and 1 <= len(found) <= MOST_STATES and {*counts} == {self.queues}
        fits |= form == [b"box"] and before is None and counts == [self.queues] * 2
        fits |= form == [b"move"] and before is not None and len(found) <= 32 and {*counts} <= {3}
        self.hold(first == name and fits, "4 Shape")
        read = [self.number(word, *ends) for word, ends in zip(numbers, ranges)]
        if form == [b"move"] and before is not None:
            return *read, self.moved(before, found)
        states = [self.state(word) for word in found]
        if form == [b"set"]:
            self.hold(all(x < y for x, y in itertools.pairwise(states)), "4 Shape")
            return *read, {*states}
        self.hold(all(low <= high for low, high in zip(*states)), "4 Shape")
        return *read, Box(*states)

    def moved(self, before: Box, words: list[list[bytes]]) -> Box:
        """The box that some changes make of the one before it."""
        least, most = (0, 0, 0), (self.queues - 1, MOST_CUSTOMERS, MOST_CUSTOMERS)
        changes = [[*map(self.number, word, least, most)] for word in words]
        low, high, last = list(before.low), list(before.high), -1
        for queue, new_low, new_high in changes:
            differs = (low[queue], high[queue]) != (new_low, new_high)
            self.hold(last < queue and new_low <= new_high and differs, "4 Shape")
            low[queue], high[queue], last = new_low, new_high, queue
        return Box(low, high) if changes else before


def read(data: bytes) -> Iterator[Any]:
    """Reads a log: queues, seed, stream, horizon, region; time, event and region of each step; and the last state."""
    hold(len(data) <= LONGEST, "refused 7 TooLong", 0)
    log = Log(data)
    first, *version = log.words()
    log.hold(first == b"psi-log" and version, "1 NotLog")
    log.hold(version in ([b"1"], [b"2"]), "2 Version")
    longest = 1 << (20 if version == [b"1"] else 22)
    log.queues = log.named(b"queues", 1, 32)
    seed, stream = (log.named(name, 0, 2**64 - 1) for name in (b"seed", b"stream"))
    horizon = log.named(b"horizon", 1, longest)
    (region,) = log.region(b"begin", [], None)
    yield from (log.queues, seed, stream, horizon, region)
    for _ in range(horizon):
        before = region if version == [b"2"] and type(region) is Box else None
        step = log.region(b"step", [(1, longest), (0, 1024)], before)
        yield step
        region = step[2]
    first, *words = log.words()
    pieces = b" ".join(words).split(b",")
    log.hold(first == b"end" and len(words) == 1 and len(pieces) == log.queues, "4 Shape")
    yield log.state(pieces)
    hold(log.lines[log.line :] == [b""], "refused 6 TrailingText", log.line + 1)


def count(region: Region) -> int:
    """The number of states of a region."""
    if isinstance(region, Box):
        return math.prod(high - low + 1 for low, high in zip(region.low, region.high))
    return len(region)


def covers(event: Event, before: Region, after: Region) -> bool:
    """Whether a region holds what an event makes of each state of another."""
    if isinstance(before, Box) and isinstance(after, Box):
        return all(tuple(corner) in after for corner in event.hull(before.low, before.high))
    return all(event.after(state) in after for state in before)


def judge(network: Network, data: bytes) -> tuple[int, State]:
    """The horizon and the state of a log that is accepted."""
    queues, seed, stream, horizon, region, *steps, state = read(data)
    hold(queues == len(network.caps), "rejected 1 Header", 2)
    hold(horizon <= 2**network.limit, "rejected 1 Header", 5)
    everything = Box([0] * queues, network.caps)

    def hold_within(region: Region, line: int) -> None:
        corners = [region.high] if isinstance(region, Box) else region
        hold(all(tuple(corner) in everything for corner in corners), "rejected 4 OutsideBox", line)

    hold_within(region, 6)
    hold(count(region) == count(everything), "rejected 5 NotCovered", 6)
    for line, (number, event, after) in enumerate(steps, 7):
        time = horizon - (line - 7)
        hold(number == time, "rejected 2 StepNumber", line)
        hold(event == network.event_of(seed, stream, time), "rejected 3 WrongEvent", line)
        hold_within(after, line)
        hold(type(after) is Box or count(region) <= MOST_STATES, "rejected 6 SplitTooLarge", line)
        hold(covers(network.events[event], region, after), "rejected 5 NotCovered", line)
        region = after
    hold(count(region) == 1, "rejected 7 NotSingle", 7 + horizon)
    hold(state in region, "rejected 8 WrongState", 7 + horizon)
    return horizon, state


def main() -> int:
    if len(sys.argv) != 3:
        sys.exit(__doc__)
    try:
        with open(sys.argv[1], "rb") as net, open(sys.argv[2], "rb") as log:
            network, data = Network(tomllib.load(net)), log.read(LONGEST + 1)
    except Exception as fault:
        print(f"check_log: a file can't be read: {fault!r}", file=sys.stderr)
        return 3
    try:
        horizon, state = judge(network, data)
    except Fault as fault:
        print(fault, file=sys.stderr)
        return 4
    print(f"accepted {horizon}\nstate {','.join(map(str, state))}")
    return 0


if __name__ == "__main__":
    sys.exit(main())
