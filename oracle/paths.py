"""python3 -m oracle.paths NET SEED FIRST COUNT STEPS [closed TOTAL]

A plain program of paths: from the sample of each stream the network runs on for that many steps, one event
after the other, and every state is added up. It was written from docs/FORMATS.md (Paths), stands on the
plain program's words, events and samples, and prints the table of the sums and counts as CSV.
"""

import sys
import tomllib
from collections.abc import Iterator, Sequence

from oracle.plain import Outcome, Words, closed_outcome, outcome
from oracle.plain_network import Network, State

# The place of the word of a path's first event.
FIRST_PLACE = 2**22


def states_of(net: Network, words: Words, state: State, steps: int) -> Iterator[tuple[int | None, State]]:
    """The number of the event of each time from 1 on, none where it is idle, and the state after it."""
    for time in range(1, steps + 1):
        event = net.event_of(words[FIRST_PLACE + time - 1])
        if event is not None:
            state = event.after(state)
        yield (None if event is None else net.events.index(event)), state


def sums_of(net: Network, words: Words, state: State, steps: int) -> list[int]:
    """The numbers of the row of the path that begins in a state, but for its first three: the sums of the customers of
    each queue and of the value of each reward, over all of its states; and of each event how often it was chosen, and
    how often it changed the state."""
    states, chosen, moved = [state], [0] * len(net.events), [0] * len(net.events)
    for event, after in states_of(net, words, state, steps):
        if event is not None:
            chosen[event] += 1
            moved[event] += after != states[-1]
        states.append(after)
    rewards = [sum(map(reward.value, states)) for reward in net.rewards]
    return [*map(sum, zip(*states)), *rewards, *(number for both in zip(chosen, moved) for number in both)]


def header(net: Network) -> list[str]:
    """The names of the columns."""
    names = ["stream", "horizon", "steps"]
    names += [f"queue.{queue['name']}" for queue in net.queues]
    names += [f"reward.{reward.name}" for reward in net.rewards]
    for event in net.events:
        names += [f"event.{event.name}.{event.k}", f"moved.{event.name}.{event.k}"]
    return names


def row(net: Network, seed: int, stream: int, drawn: Outcome, steps: int) -> list[int | str]:
    """The row of a stream whose sample is known; where it isn't coupled, all but its number is empty."""
    if drawn is None:
        return [stream, *("" for _ in header(net)[1:])]
    horizon, state = drawn
    return [stream, horizon, steps, *sums_of(net, Words(seed, stream), state, steps)]


def table(net: Network, seed: int, streams: Sequence[int], outcomes: Sequence[Outcome], steps: int) -> str:
    """The text of the table of some streams whose samples are known."""
    lines: list[list[int | str]] = [[*header(net)]]
    lines += [row(net, seed, stream, drawn, steps) for stream, drawn in zip(streams, outcomes)]
    return "".join(",".join(map(str, line)) + "\n" for line in lines)


def outcomes_of(net: Network, seed: int, streams: Sequence[int], total: int | None = None) -> list[Outcome]:
    """The samples of some streams; with a total, of a closed network."""
    if total is None:
        return [outcome(net, seed, stream) for stream in streams]
    return [closed_outcome(net, seed, stream, total) for stream in streams]


def main() -> int:
    file, *words = sys.argv[1:]
    with open(file, "rb") as network:
        net = Network(tomllib.load(network))
    seed, first, count, steps = map(int, words[:4])
    total = int(words[5]) if words[4:] else None
    streams = range(first, first + count)
    outcomes = outcomes_of(net, seed, streams, total)
    print(table(net, seed, streams, outcomes, steps), end="")
    return 1 if None in outcomes else 0


if __name__ == "__main__":
    sys.exit(main())
