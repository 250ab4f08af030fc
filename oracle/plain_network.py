"""Networks, their events and their rewards, as the plain program has them; see plain.py."""

import bisect
import functools
import itertools
from typing import Any

State = tuple[int, ...]
# The two states by which an event breaks the order.
Pair = tuple[State, State]
# Of a queue the least, the most, the shift, the floor and the ceiling.
Rule = tuple[int, int, int, int, int]


class Network:
    """A valid network, made of what `tomllib` reads."""

    def __init__(self, table: dict[str, Any]) -> None:
        self.queues: list[dict[str, Any]] = table["queue"]
        self.caps: State = tuple(queue["capacity"] for queue in self.queues)
        self.servers: State = tuple(queue.get("servers", 1) for queue in self.queues)
        self.limit: int = table.get("limit", 18)
        self.split: int = table.get("split", 256)
        self.place = {queue["name"]: i for i, queue in enumerate(self.queues)}
        self.events = [Event(self, entry, k) for entry in table["event"] for k in range(1, self.copies(entry) + 1)]
        self.totals = list(itertools.accumulate(event.rate for event in self.events))
        self.modulus = 1
        while self.modulus < self.totals[-1]:
            self.modulus *= 2
        self.idle = self.modulus - self.totals[-1]
        self.rewards = [Reward(self, entry) for entry in table.get("reward", [])]

    def copies(self, entry: dict[str, Any]) -> int:
        """How many events an entry stands for: one for each server of its single source."""
        if entry["kind"] in ("service", "index", "negative", "fork") and "from" in entry:
            return self.servers[self.place[entry["from"]]]
        return 1

    def event_of(self, word: int) -> "Event | None":
        """The event of a word; none is idle."""
        place = bisect.bisect_right(self.totals, word % self.modulus)
        return self.events[place] if place < len(self.events) else None


class Event:
    """One server's event of an entry."""

    def __init__(self, net: Network, entry: dict[str, Any], k: int) -> None:
        self.net, self.k = net, k
        self.kind: str = entry["kind"]
        self.name: str = entry["name"]
        self.rate: int = entry["rate"]
        at = net.place
        self.source = at[entry["from"]] if isinstance(entry.get("from"), str) else None
        to = entry.get("to", [])
        self.to: list[int] = [at[name] for name in ([to] if isinstance(to, str) else to)]
        self.full: str = entry.get("full", "lost")
        self.size: int = entry.get("size", 1)
        self.table: list[list[int]] | None = entry.get("table")
        if self.kind not in ("arrival", "service", "index", "batch"):
            self.rules = self.rules_of(entry)

    def is_move(self) -> bool:
        """Whether it moves a customer from one queue to another, or leaves all as it is."""
        return self.kind == "service" and len(self.to) == 1 and self.full == "stay"

    def key(self, place: int, number: int) -> tuple[int, int]:
        """The key of a target of the list at a number of customers: its index, then its place."""
        return (self.table[place][number] if self.table else 0, place)

    def rules_of(self, entry: dict[str, Any]) -> list[Rule]:
        """For each queue its least, most, shift, floor and ceiling: its guard and its change."""
        caps = self.net.caps
        rules: list[Rule] = [(0, cap, 0, 0, cap) for cap in caps]

        def loses(queue: int, least: int, count: int) -> None:
            rules[queue] = (least, caps[queue], -count, 0, caps[queue])

        def gains(queue: int) -> None:
            rules[queue] = (0, caps[queue] - 1, 1, 0, caps[queue])

        if self.kind == "negative":
            loses(self.net.place[entry["on"]], 0, entry.get("amount", 1))
        if self.kind == "join":
            for name in entry["from"]:
                loses(self.net.place[name], 1, 1)
        if self.kind in ("fork", "join"):
            for queue in self.to:
                gains(queue)
        if self.source is not None:
            loses(self.source, self.k, 1)
        if self.kind == "guarded":
            for part in entry["part"]:
                queue = self.net.place[part["queue"]]
                rules[queue] = (
                    part.get("least", 0),
                    part.get("most", caps[queue]),
                    part.get("shift", 0),
                    part.get("floor", 0),
                    part.get("ceiling", caps[queue]),
                )
        return rules

    @functools.cache
    def after(self, x: State) -> State:
        """What the event makes of a state."""
        if self.kind in ("arrival", "service", "index", "batch"):
            return self.routed(x)
        rules = self.rules
        if all(rule[0] <= number <= rule[1] for rule, number in zip(rules, x)):
            return tuple(shifted(rule, number) for rule, number in zip(rules, x))
        return x

    def routed(self, x: State) -> State:
        """What an event does that sends customers to one queue of a list."""
        caps = self.net.caps
        if self.source is not None and x[self.source] < self.k:
            return x
        free = [i for i, q in enumerate(self.to) if x[q] + self.size <= caps[q]]
        is_out = self.full == "lost" or not self.to
        if not free and (self.source is None or not is_out):
            return x
        y = list(x)
        if free:
            place = min(free, key=lambda i: self.key(i, x[self.to[i]]))
            y[self.to[place]] += self.size
        if self.source is not None:
            y[self.source] -= 1
        return tuple(y)

    def upset(self) -> Pair | None:
        """The two states by which the event breaks the order; none where it keeps it."""
        if self.kind in ("arrival", "service", "index", "batch"):
            return self.upset_route()
        for test in (1, 2, 3, 4):
            for p, q in itertools.product(range(len(self.rules)), repeat=2):
                pair = self.upset_rule(test, p, q)
                if pair:
                    return pair
        return None

    def upset_route(self) -> Pair | None:
        """The same of an event that sends customers to one queue of a list."""
        caps = self.net.caps
        if self.size >= 2:
            x = with_number(caps, self.to[0], caps[self.to[0]] - self.size)
            return x, with_number(x, self.to[0], x[self.to[0]] + 1)
        if not self.table:
            return None
        for a, b in itertools.permutations(range(len(self.to)), 2):
            first, second = self.to[a], self.to[b]
            for v, w in itertools.product(range(caps[first] - 1), range(caps[second])):
                if self.key(a, v + 1) < self.key(b, w) < self.key(a, v):
                    x = with_number(with_number(caps, second, w), first, v)
                    return x, with_number(x, first, v + 1)
        return None

    def upset_rule(self, test: int, p: int, q: int) -> Pair | None:
        """The same of one of the four tests of guards and changes, at two queues."""
        rules, caps = self.rules, self.net.caps
        low = tuple(rule[0] for rule in rules)
        least, most = rules[p][0], rules[p][1]
        if test in (1, 2) and most < caps[p]:
            leaps = test == 1 and shifted(rules[p], most) > most + 1
            rises = test == 2 and p != q and shifted(rules[q], rules[q][0]) > rules[q][0]
            if leaps or rises:
                return with_number(low, p, most), with_number(low, p, most + 1)
        if test == 3 and least >= 1 and shifted(rules[p], least) < least - 1:
            return with_number(low, p, least - 1), low
        if test == 4 and least >= 1 and p != q and shifted(rules[q], rules[q][1]) < rules[q][1]:
            high = with_number(low, q, rules[q][1])
            return with_number(high, p, least - 1), high
        return None


class Reward:
    """A number for each state."""

    def __init__(self, net: Network, entry: dict[str, Any]) -> None:
        self.name: str = entry["name"]
        self.kind: str = entry["kind"]
        self.queues = [net.place[name] for name in entry["queues"]]
        self.weights: list[int] = entry.get("weights", [])
        self.table: list[list[int]] = entry.get("table", [])
        self.level: int = entry.get("level", 0)

    def value(self, x: State) -> int:
        numbers = [x[queue] for queue in self.queues]
        if self.kind == "linear":
            return sum(weight * number for weight, number in zip(self.weights, numbers))
        if self.kind == "table":
            return sum(row[number] for row, number in zip(self.table, numbers))
        if self.kind == "above":
            return sum(number > self.level for number in numbers)
        return max(numbers) if self.kind == "greatest" else min(numbers)


def shifted(rule: Rule, number: int) -> int:
    """A number of customers after the shift of a rule, within its floor and ceiling."""
    _, _, shift, floor, ceiling = rule
    return min(max(number + shift, floor), ceiling)


def with_number(x: State, queue: int, number: int) -> State:
    """The state with another number of customers in a queue."""
    return x[:queue] + (number,) + x[queue + 1 :]


def is_below(x: State, y: State) -> bool:
    """Whether each queue holds at most as many customers in the first state as in the second."""
    return all(a <= b for a, b in zip(x, y))


def box(low: State, high: State) -> list[State]:
    """The states between two corners."""
    return list(itertools.product(*(range(a, b + 1) for a, b in zip(low, high))))
