"""python3 -m oracle.plain check NET | sample NET SEED STREAM | report NET SEED FIRST COUNT
         | couple NET SEED STREAM | reward NET SEED STREAM NAME
         | exact NET SEED STREAM H | closed NET SEED STREAM TOTAL

A plain program that describes and samples small networks by listing their states.

It was written from the definitions (docs/DEFINITIONS.md, docs/FORMATS.md) and shares nothing with
the proved program: each event is a function on tuples, a region is a sorted list of states, every
horizon is run from its beginning, what a report tells is counted in the list of all samples, and an
arc hull is picked from the list of all states of a total. It takes valid networks alone, as
`tomllib` reads them, and is meant for a few thousand states at most.

Of a trial it has the network and the lines before the report: there are too many states to list.
"""

import functools
import math
import struct
import sys
import tomllib
from collections.abc import Callable, Collection, Iterable, Sequence
from typing import Any, TypeVar

from oracle.plain_network import Network, Reward, State, box

T = TypeVar("T")
# A horizon and the state there, or none.
Outcome = tuple[int, State] | None
Record = tuple[str, str | int, str | int]
MASK = 0xFFFFFFFF


# Words: ChaCha20 (RFC 8439); the seed is the key, the stream the nonce.


def _quarter(x: list[int], a: int, b: int, c: int, d: int) -> None:
    for left, right, turned, by in ((a, b, d, 16), (c, d, b, 12), (a, b, d, 8), (c, d, b, 7)):
        x[left] = (x[left] + x[right]) & MASK
        word = x[turned] ^ x[left]
        x[turned] = ((word << by) | (word >> (32 - by))) & MASK


@functools.cache
def block(seed: int, stream: int, counter: int) -> list[int]:
    """The 16 words of a block."""
    key = struct.unpack("<8I", struct.pack("<Q24x", seed))
    nonce = struct.unpack("<3I", struct.pack("<4xQ", stream))
    start = [0x61707865, 0x3320646E, 0x79622D32, 0x6B206574, *key, counter, *nonce]
    x = list(start)
    for _ in range(10):
        for column in range(4):
            _quarter(x, column, 4 + column, 8 + column, 12 + column)
        for row in range(4):
            _quarter(x, row, 4 + (row + 1) % 4, 8 + (row + 2) % 4, 12 + (row + 3) % 4)
    return [(word + first) & MASK for word, first in zip(x, start)]


class Words:
    """The words of a seed and a stream, by their places."""

    def __init__(self, seed: int, stream: int) -> None:
        self.seed, self.stream = seed, stream

    def __getitem__(self, place: int) -> int:
        return block(self.seed, self.stream, place // 16)[place % 16]


# Runs.


def ending(net: Network, words: Words, horizon: int) -> list[State]:
    """The states at time zero of the region run that begins that many steps before it."""
    states, is_split = box((0,) * len(net.caps), net.caps), False
    for time in range(horizon, 0, -1):
        is_split = is_split or len(states) <= net.split
        event = net.event_of(words[time - 1])
        if event is None:
            continue
        states = sorted({event.after(x) for x in states})
        if not is_split:
            states = box(tuple(map(min, zip(*states))), tuple(map(max, zip(*states))))
    return states


def first_single(horizons: Iterable[int], values: Callable[[int], Collection[T]]) -> tuple[int, T] | None:
    """The first of some horizons at which there is one value, and that value; none where there is none."""
    for horizon in horizons:
        found = values(horizon)
        if len(found) == 1:
            return horizon, next(iter(found))
    return None


def powers(net: Network) -> list[int]:
    """The horizons that a sample tries."""
    return [2**exponent for exponent in range(net.limit + 1)]


def outcome(net: Network, seed: int, stream: int) -> Outcome:
    """The horizon and the state of a sample; none where it isn't met."""
    words = Words(seed, stream)
    return first_single(powers(net), lambda horizon: ending(net, words, horizon))


def coupling(net: Network, seed: int, stream: int, limit: int) -> Outcome:
    """The least horizon of any length and its state; none where there is none."""
    words = Words(seed, stream)
    return first_single(range(1, 2**limit + 1), lambda horizon: ending(net, words, horizon))


def valuation(net: Network, seed: int, stream: int, reward: Reward) -> tuple[int, int] | None:
    """The horizon at which a reward has one value, and that value; none where there is none."""
    words = Words(seed, stream)
    return first_single(powers(net), lambda horizon: {reward.value(x) for x in ending(net, words, horizon)})


# Maps of all states.


def survey(net: Network, seed: int, stream: int, exponent: int) -> tuple[list[int], Outcome]:
    """The numbers of states of the images, and the least horizon at which all states have met."""
    words, ends = Words(seed, stream), {x: x for x in box((0,) * len(net.caps), net.caps)}
    sizes: list[int] = []
    meeting: Outcome = None
    for horizon in range(1, 2**exponent + 1):
        event = net.event_of(words[horizon - 1])
        if event is not None:
            ends = {x: ends[event.after(x)] for x in ends}
        image = set(ends.values())
        if horizon & (horizon - 1) == 0:
            sizes.append(len(image))
        if len(image) == 1 and meeting is None:
            meeting = horizon, image.pop()
    return sizes, meeting


# Closed networks.


def of_total(caps: State, total: int) -> list[State]:
    """The states within the capacities that hold that many customers, ascending."""
    if not caps:
        return [] if total else [()]
    held = range(min(caps[0], total) + 1)
    return [(number, *rest) for number in held for rest in of_total(caps[1:], total - number)]


@functools.cache
def arcs(x: State) -> frozenset[tuple[int, int, int]]:
    """The arcs of a state: for each queue, what those before it hold, and what it holds."""
    return frozenset((i, sum(x[:i]), number) for i, number in enumerate(x))


def arc_hull(everything: list[State], states: Collection[State]) -> list[State]:
    """Those of all states each of whose arcs is an arc of one of these."""
    union: set[tuple[int, int, int]] = set().union(*map(arcs, states))
    return [x for x in everything if arcs(x) <= union]


def closed_ending(net: Network, words: Words, everything: list[State], horizon: int) -> list[State]:
    """The states at time zero of the closed run that begins that many steps before it."""
    states = everything
    for time in range(horizon, 0, -1):
        event = net.event_of(words[time - 1])
        if event is not None:
            states = arc_hull(everything, {event.after(x) for x in states})
    return states


def closed_outcome(net: Network, seed: int, stream: int, total: int) -> Outcome:
    """The horizon and the state of a closed network's sample; none where it isn't met."""
    words, everything = Words(seed, stream), of_total(net.caps, total)
    return first_single(powers(net), lambda horizon: closed_ending(net, words, everything, horizon))


# The network of a trial.


def made_network(number: int) -> dict[str, Any]:
    """The network that is made from a number, as the table of a network file."""
    count = 4 + number % 13
    names = [f"q{i}" for i in range(1, count + 1)]
    queues: list[dict[str, Any]] = [
        {"name": name, "capacity": 8 + (5 * i + number) % 25, "servers": 1 + (i + number) % 3}
        for i, name in enumerate(names, 1)
    ]
    events: list[dict[str, Any]] = [{"name": "in", "kind": "arrival", "rate": 8, "to": ["q1", "q2"]}]
    for i in range(1, count):
        keys: dict[str, Any] = {"from": f"q{i}", "to": [f"q{i + 1}"]}
        keys["full"] = "stay" if i % 2 else "lost"
        events.append({"name": f"s{i}", "kind": "service", "rate": 10, **keys})
    events.append({"name": f"s{count}", "kind": "service", "rate": 12, "from": names[-1]})
    if number % 2:
        events.append({"name": "bulk", "kind": "batch", "rate": 1, "to": ["q1"], "size": 3})
        keys = {"from": "q2", "on": names[-1], "amount": 1}
        events.append({"name": "neg", "kind": "negative", "rate": 1, **keys})
    total: dict[str, Any] = {"name": "total", "kind": "linear", "queues": names, "weights": [1] * count}
    top: dict[str, Any] = {"version": 1, "limit": 18, "split": 64}
    return {**top, "queue": queues, "event": events, "reward": [total]}


# Texts.


def text_of(state: State) -> str:
    return ",".join(map(str, state))


def sample(net: Network, seed: int, stream: int) -> tuple[int, str]:
    """The status and the text of a sample."""
    return outcome_text(net, outcome(net, seed, stream))


def outcome_text(net: Network, drawn: Outcome, word: str = "met") -> tuple[int, str]:
    """The status and the text of an outcome."""
    if drawn is None:
        return 1, f"not coupled within {2**net.limit}\n"
    horizon, state = drawn
    return 0, f"{word} {horizon}\nstate {text_of(state)}\n"


def couple(net: Network, seed: int, stream: int) -> tuple[int, str]:
    """The status and the text of a coupling."""
    return outcome_text(net, coupling(net, seed, stream, net.limit), "coupled")


def value(net: Network, seed: int, stream: int, name: str) -> tuple[int, str]:
    """The status and the text of a reward's value, or of a name that no reward has."""
    named = [reward for reward in net.rewards if reward.name == name]
    if not named:
        return 9, "psi: unknown reward\n"
    found = valuation(net, seed, stream, named[0])
    if found is None:
        return 1, f"reward not coupled within {2**net.limit}\n"
    return 0, "reward-met {}\nvalue {}\n".format(*found)


def exact(net: Network, seed: int, stream: int, exponent: int) -> tuple[int, str]:
    """The status and the text of a survey, or of a network that has too many states."""
    count = math.prod(cap + 1 for cap in net.caps)
    if count > 65_536:
        return 10, "psi: too many states\n"
    sizes, meeting = survey(net, seed, stream, exponent)
    lines = [f"states {count}"]
    lines += [f"image {2**i} {size}" for i, size in enumerate(sizes)]
    if meeting is None:
        lines.append(f"not constant within {2**exponent}")
    else:
        lines.append(f"constant {meeting[0]} {text_of(meeting[1])}")
    found = coupling(net, seed, stream, exponent)
    lines.append(f"region {found[0]}" if found else "region none")
    return (0 if meeting else 1), "".join(line + "\n" for line in lines)


def closed(net: Network, seed: int, stream: int, total: int) -> tuple[int, str]:
    """The status and the text of a closed network's sample, or of what is no such network."""
    for number, event in enumerate(net.events):
        if not event.is_move():
            return 11, f"psi: not closed event {number}\n"
    if total > sum(net.caps):
        return 12, "psi: no state with this total\n"
    return outcome_text(net, closed_outcome(net, seed, stream, total))


def report(net: Network, seed: int, first: int, count: int) -> str:
    return report_of(net, [outcome(net, seed, stream) for stream in range(first, first + count)])


def report_of(net: Network, outcomes: Sequence[Outcome]) -> str:
    """The text of a report of samples."""
    met = [drawn for drawn in outcomes if drawn is not None]
    horizons = [horizon for horizon, _ in met]
    records: list[Record] = [("item", "name", "value")]
    records.append(("samples", "-", len(outcomes)))
    records.append(("met", "-", len(met)))
    records.append(("uncoupled", "-", outcomes.count(None)))
    records += [("horizon", horizon, horizons.count(horizon)) for horizon in sorted({*horizons})]
    for i, queue in enumerate(net.queues):
        records += value_records("", queue["name"], [state[i] for _, state in met])
    for reward in net.rewards:
        records += value_records("reward-", reward.name, [reward.value(state) for _, state in met])
    return "".join(f"{item},{name},{value}\n" for item, name, value in records)


def value_records(front: str, name: str, values: list[int]) -> list[Record]:
    """The records of a queue or a reward, of its values at the states that are met."""
    records: list[Record] = [(front + "sum", name, sum(values))]
    if values:
        records.append((front + "least", name, min(values)))
        records.append((front + "greatest", name, max(values)))
    return records


def trial_heading(number: int) -> str:
    """The lines of a trial before its report."""
    net = Network(made_network(number))
    lines = [f"trial {number}", f"queues {len(net.queues)}", f"events {len(net.events)}"]
    return "".join(line + "\n" for line in [*lines, f"modulus {net.modulus}"])


def description(net: Network) -> str:
    lines = [f"queues {len(net.queues)}"]
    for queue, cap, servers in zip(net.queues, net.caps, net.servers):
        lines.append(f"queue {queue['name']} {cap} {servers}")
    lines.append(f"events {len(net.events)}")
    marks = [event.upset() for event in net.events]
    for event, pair in zip(net.events, marks):
        mark = "upset " + " ".join(map(text_of, pair)) if pair else "monotone"
        lines.append(f"event {event.name} {event.k} {event.rate} {mark}")
    lines += [f"modulus {net.modulus}", f"idle {net.idle}"]
    lines += [f"limit {net.limit}", f"split {net.split}"]
    lines.append("monotone no" if any(marks) else "monotone yes")
    return "".join(line + "\n" for line in lines)


def answer(net: Network, command: str, *words: str) -> tuple[int, str]:
    """The status and the text of a command with these words."""
    if command == "reward":
        return value(net, int(words[0]), int(words[1]), words[2])
    commands: dict[str, Callable[..., tuple[int, str]]] = {
        "check": lambda net: (0, description(net)),
        "report": lambda *of: (0, report(*of)),
        "sample": sample,
        "couple": couple,
        "exact": exact,
        "closed": closed,
    }
    return commands[command](net, *map(int, words))


def main() -> int:
    command, file, *words = sys.argv[1:]
    with open(file, "rb") as network:
        status, text = answer(Network(tomllib.load(network)), command, *words)
    print(text, end="")
    return status


if __name__ == "__main__":
    sys.exit(main())
