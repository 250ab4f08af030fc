"""Spans of rows: what a queue or a reward may be, and what a sample that did not come may have.

A queue holds 0 customers to its capacity. An interval of its mean reckons with one sample that did
not come, in which the queue lies half as far again from the middle as the samples spread, and at
least by two steps of its largest event. A reward is reckoned with as large as it can be in such a
state of its queues.
"""

import dataclasses
from typing import Any

from psi_tools.model.networks import Network, value_of
from psi_tools.stats.intervals import ZERO_ONE, Span

# The format's own bound of customers, where the network isn't known.
MOST_CUSTOMERS = 65_535
Range = tuple[int, int]


@dataclasses.dataclass
class Row:
    """A number of each sample over batches: `kind` is '' for the customers of a queue and 'reward-' for a reward's
    value, `sums` has the sum of each batch, and the extremes are over all samples, none where none is met."""

    kind: str
    name: str
    sums: list[int]
    least: int | None
    greatest: int | None

    @property
    def ends(self) -> Range | None:
        """The least and the greatest value, none where no sample is met."""
        return None if self.least is None or self.greatest is None else (self.least, self.greatest)


def steps_of(net: Network) -> dict[str, int]:
    """By how much an event changes each queue at most, at least by 1."""
    steps = dict.fromkeys(net.queues, 1)
    for event in net.table["event"]:
        to = event.get("to", [])
        changes = [(name, event.get("size", 1)) for name in ([to] if isinstance(to, str) else to)]
        changes += [(event["on"], event.get("amount", 1))] if event["kind"] == "negative" else []
        changes += [(part["queue"], abs(part.get("shift", 0))) for part in event.get("part", [])]
        for name, size in changes:
            steps[name] = max(steps[name], size)
    return steps


def beyond(least: int, greatest: int, step: int, capacity: int) -> Range:
    """The numbers of customers with which one more sample is reckoned, by those that came."""
    more = max(2 * step, -(-(greatest - least) // 2))
    return max(0, least - more), min(capacity, greatest + more)


def reward_range(reward: dict[str, Any], ranges: list[Range]) -> Range:
    """The least and the greatest value of a reward whose queues hold numbers of these ranges, each on its own."""
    parts: list[Any]
    if reward["kind"] == "linear":
        parts = [sorted((w * low, w * high)) for w, (low, high) in zip(reward["weights"], ranges)]
    elif reward["kind"] == "table":
        rows = [row[low : high + 1] for row, (low, high) in zip(reward["table"], ranges)]
        parts = [(min(row), max(row)) for row in rows]
    else:
        # The other kinds rise with each number.
        parts = [[value_of(reward, numbers) for numbers in zip(*ranges)]]
    return sum(low for low, _ in parts), sum(high for _, high in parts)


def has_two_values(reward: dict[str, Any], capacities: list[int]) -> bool:
    """Whether a reward has at most two values: it is one of a single queue, and its values are."""
    if len(reward["queues"]) > 1:
        return False
    if reward["kind"] == "above":
        return True
    if reward["kind"] == "table":
        return len({*reward["table"][0][: capacities[0] + 1]}) <= 2
    return capacities[0] == 1


class Spans:
    """The spans of the rows of a network's reports, by the extremes of its queues in them."""

    def __init__(self, net: Network, seen: dict[str, Range]) -> None:
        self.whole = {name: (0, most) for name, most in zip(net.queues, net.capacities)}
        steps = steps_of(net)
        self.ahead = {
            name: beyond(*seen[name], steps[name], self.whole[name][1]) if name in seen else self.whole[name]
            for name in net.queues
        }
        self.rewards = {reward["name"]: reward for reward in net.table["reward"]}

    def of_queue(self, name: str) -> Span:
        """The span of the customers of a queue."""
        return Span(*self.whole[name], *self.ahead[name], self.whole[name][1] == 1)

    def of_reward(self, name: str) -> Span:
        """The span of a reward's values."""
        reward = self.rewards[name]
        whole, ahead = (
            reward_range(reward, [ranges[queue] for queue in reward["queues"]]) for ranges in (self.whole, self.ahead)
        )
        capacities = [self.whole[queue][1] for queue in reward["queues"]]
        if has_two_values(reward, capacities):
            return Span(*whole, *whole, True)
        return Span(*whole, *ahead)


def spans_of(net: Network, rows: list[Row]) -> dict[tuple[str, str], Span]:
    """The span of each row of reports of a network, by its kind and its name."""
    spans = Spans(net, {row.name: row.ends for row in rows if not row.kind and row.ends is not None})
    return {(row.kind, row.name): (spans.of_reward if row.kind else spans.of_queue)(row.name) for row in rows}


def guessed_span(row: Row) -> Span | None:
    """The span of a row of an unknown network, by the extremes that came; none where none did. Values of 0 and 1 are
    taken for a share. A reward is reckoned with as far again as its values spread."""
    if row.ends is None:
        return None
    least, greatest = row.ends
    if 0 <= least and greatest <= 1:
        return ZERO_ONE
    if row.kind:
        spread = greatest - least
        return Span(None, None, least - spread, greatest + spread)
    return Span(0, None, *beyond(least, greatest, 1, MOST_CUSTOMERS))
