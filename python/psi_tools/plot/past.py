"""The runs of coupling from the past, failed ones included: from 1, 2, 4, .. steps before time zero until all
states have coalesced, always with the same random words.

The runs come from the plain follower of `check_log`, which shares nothing with the proved program. What both print,
the horizon and the state of the sample, is compared before anything is returned.

A path that begins in a sample comes from it, too; where psi_paths is built, the sums along the path are compared with
its row.
"""

import dataclasses
from collections.abc import Iterable, Iterator
from typing import Any

from psi_tools import check_log
from psi_tools.draw.paths import events_of, header_of
from psi_tools.draw.program import Program, companion_of
from psi_tools.errors import InputError, require
from psi_tools.model.networks import Network, checked, values_of
from psi_tools.plot.read_log import ends_of

State = tuple[int, ...]
Region = check_log.Region
# The most states that are followed one by one, the most steps of a run, and the default split number of a file.
MOST_PATHS, MOST_STEPS, SPLIT = 400, 4_096, 256
# The place of the word of a path's first event.
FIRST_PLACE = 2**22


@dataclasses.dataclass(frozen=True)
class Run:
    """A run of some steps before time zero.

    `low` and `high` have the least and greatest number of customers in each queue of the region that psi follows,
    from the begin to time zero, and `counts` its number of states. `paths` has the state of each initial state at each
    time, where the network is small. A region may hold more states than the paths are in.
    """

    horizon: int
    low: list[State]
    high: list[State]
    counts: list[int]
    paths: list[list[State]] | None

    @property
    def has_coalesced(self) -> bool:
        """Whether one state is left at time zero."""
        return self.counts[-1] == 1


@dataclasses.dataclass(frozen=True)
class Past:
    """All runs of a sample, shortest first, and what they are of.

    `events` has the names of the events of the last steps, oldest first, as the longest run applies them.
    """

    queues: list[str]
    capacities: list[int]
    seed: int
    stream: int
    runs: list[Run]
    events: list[str]
    has_new_words: bool


class Follower:
    """Follows the runs of a network by the regions that psi follows, and all paths where there are few."""

    def __init__(self, net: Network) -> None:
        self.net = net.followed()
        self.whole = check_log.Box([0] * len(self.net.caps), self.net.caps)
        self.split: int = net.heads.get("split", SPLIT)
        self.is_small = check_log.count(self.whole) <= MOST_PATHS

    def run(self, seed: int, stream: int, horizon: int) -> Run:
        """The run that begins `horizon` steps before time zero: as a box, and as a set once it has few states."""
        numbers = [self.net.event_of(seed, stream, time) for time in range(horizon, 0, -1)]
        regions = [*self.regions(numbers)]
        low, high = [[tuple(end) for end in ends] for ends in zip(*map(ends_of, regions))]
        paths = self.paths(numbers) if self.is_small else None
        return Run(horizon, low, high, [check_log.count(each) for each in regions], paths)

    def regions(self, numbers: Iterable[int]) -> Iterator[Region]:
        """The regions of a run under these events, from all states on."""
        region: Region = self.whole
        yield region
        for number in numbers:
            region = self.after(self.net.events[number], region)
            yield region

    def paths(self, numbers: list[int]) -> list[list[State]]:
        """The paths from all states under these events."""
        columns = [list(self.whole)]
        for number in numbers:
            event = self.net.events[number]
            columns.append([event.after(state) for state in columns[-1]])
        return [list(path) for path in zip(*columns)]

    def after(self, event: Any, region: Region) -> Region:
        """The region after an event."""
        if isinstance(region, check_log.Box) and check_log.count(region) > self.split:
            return check_log.Box(*event.hull(region.low, region.high))
        return {event.after(state) for state in region}


def past_of(program: str | None, path: str, seed: int, stream: int, new_words: bool = False) -> Past:
    """The runs of a sample of a file that psi accepts.

    With `new_words` each run has random words of its own: the wrong way, which a lecture may show beside the right
    one. Raises InputError where the network is not accepted, or a run would be longer than 4,096 steps.
    """
    psi = Program(program)
    net = checked(psi, path)
    follower = Follower(net)
    runs: list[Run] = []
    require(stream + follower.net.limit < 2**64 or not new_words, "there are not as many streams for new words")
    for power in range(follower.net.limit + 1):
        no_run = f"{path}: no run of at most {MOST_STEPS:,} steps coalesces; longer ones aren't drawn"
        require(1 << power <= MOST_STEPS, no_run)
        runs.append(follower.run(seed, stream + power if new_words else stream, 1 << power))
        if runs[-1].has_coalesced:
            break
    if not new_words:
        compare(psi.ask("sample", net.data, seed, stream, statuses=(0, 1)).out, runs[-1], path)
    names = [*(name for name, _ in events_of(net)), "idle"]
    last = stream + len(runs) - 1 if new_words else stream
    numbers = [follower.net.event_of(seed, last, time) for time in range(runs[-1].horizon, 0, -1)]
    return Past(net.queues, net.capacities, seed, stream, runs, [names[number] for number in numbers], new_words)


def compare(printed: str, run: Run, path: str) -> None:
    """Raises where psi's sample is not that of the plain follower."""
    state = ",".join(map(str, run.low[-1]))
    expected = f"met {run.horizon}\nstate {state}\n" if run.has_coalesced else f"not coupled within {run.horizon}\n"
    if printed != expected:
        raise InputError(f"{path}: psi and the plain follower differ: {printed!r}, {expected!r}")


@dataclasses.dataclass(frozen=True)
class StationaryPath:
    """A path of a stream: the last of the runs of its sample, and the states of the times 0, 1, .. from the
    sample on, with the number of the event that led to each but the first."""

    past: Past
    states: list[State]
    events: list[int]

    @property
    def run(self) -> Run:
        """The run that coalesced in the sample."""
        return self.past.runs[-1]


def path_of(program: str | None, path: str, seed: int, stream: int, steps: int) -> StationaryPath:
    """The path of a stream of a file that psi accepts. Raises InputError where the sample is not coupled, where its
    run or the path is longer than 4,096 steps, or where a proved program has another sample or other sums."""
    require(steps <= MOST_STEPS, f"a path of more than {MOST_STEPS:,} steps isn't drawn")
    past = past_of(program, path, seed, stream)
    require(past.runs[-1].has_coalesced, f"{path}: the sample isn't coupled within {past.runs[-1].horizon:,} steps")
    psi = Program(program)
    net = checked(psi, path)
    follower = Follower(net)
    events = [follower.net.event_of(seed, stream, FIRST_PLACE + time) for time in range(1, steps + 1)]
    states = [past.runs[-1].low[-1]]
    for event in events:
        states.append(tuple(follower.net.events[event].after(states[-1])))
    found = StationaryPath(past, states, events)
    compare_sums(psi, net, path, found)
    return found


def row_of(net: Network, path: StationaryPath) -> list[int]:
    """The row that psi_paths has of a path."""
    states = [[*state, *values_of(net, state)] for state in path.states]
    row = [path.past.stream, path.run.horizon, len(path.events), *(sum(column) for column in zip(*states))]
    moves = [*zip(path.events, path.states, path.states[1:])]
    for number in range(len(events_of(net))):
        own = [before != after for event, before, after in moves if event == number]
        row += [len(own), sum(own)]
    return row


def compare_sums(psi: Program, net: Network, path: str, found: StationaryPath) -> None:
    """Raises where psi_paths is built and has another row."""
    if companion_of(psi.path, "psi_paths") is None:
        return
    printed = psi.paths(net.data, found.past.seed, found.past.stream, 1, len(found.events))
    expected = ",".join(header_of(net)) + "\n" + ",".join(map(str, row_of(net, found))) + "\n"
    if printed != expected:
        raise InputError(f"{path}: psi_paths and the plain follower differ: {printed!r:.300}, {expected!r:.300}")
