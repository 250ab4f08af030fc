"""/usr/bin/python3 -m tests.study_paths [PSI] [--repetitions N] [--count N] [--least N] [--again N] [--only NAME]

Counts how often the 95 % intervals of `psi-means --paths` hold what they are of, over repetitions with other
streams, at several lengths of paths: on networks that are solved, open, closed and cut short by a limit, with
rewards that are rare and rewards that rise steeply; on M/M/1/1000 at a load of 0.99; and on lines of 8 and of
20 queues, which are too large to be solved, so that their means come from 20 times as many other streams. A
repetition has --count paths, 20 where it isn't given, which is the least. PSI is the built program, beside
which psi_paths is looked for; crates/psi/out/psi where it isn't given.

For each length and row a line says how many of all repetitions held, and how wide the intervals are in the
middle. Of some hundred rows a few are below 93 of 100 by chance, even where each holds in 95: so a row below
--least, which is 93 where it isn't given, is tried on --again times as many other streams, 10 where it isn't
given, and a second line says what came of it. The exit status is 1 where a row is below --least there too.
"""

import math
import sys
from collections.abc import Collection

from tests.studies import TOP, Tally, words_of

WORDS = words_of(count=20, least=93.0, again=10, only="")

import numpy
from solving import law_of

from oracle.plain_network import Network as Plain
from psi_tools.draw.paths import paths_of
from psi_tools.draw.program import Program, blocks_of
from psi_tools.io.samples import Rows
from psi_tools.model.networks import Network
from psi_tools.stats.paths import MOVED, paths_of_rows

# A reward's name and its values by the number of customers; and what each row is of, by its kind and name.
Reward = tuple[str, list[int]]
Key = tuple[str, str]
Means = dict[Key, float]
SEED, OTHER, LENGTHS, TIMES = 57, 58, (0, 30, 300, 3_000), 20
# The first seed of the streams on which rows are tried again.
AGAIN = 1_057


def queue_of(arrival: int, service: int, capacity: int, limit: int | None = None, *rewards: Reward) -> Network:
    """The network of a queue, with rewards by the number of its customers."""
    net = Network(limit=limit).queue("q", capacity)
    net.event("come", "arrival", arrival, to=["q"]).event("serve", "service", service, source="q")
    for name, table in rewards:
        net.reward(name, "table", ["q"], table=[table])
    return net


def line_of(count: int, capacity: int, arrival: int, service: int) -> Network:
    """Queues in a row, where a customer who finds the next one full stays."""
    net, names = Network(limit=20), [f"q{number}" for number in range(1, count + 1)]
    for name in names:
        net.queue(name, capacity)
    net.event("come", "arrival", arrival, to=names[:1])
    for name, following in zip(names, names[1:]):
        net.event(f"serve-{name}", "service", service, source=name, to=[following], full="stay")
    return net.event(f"serve-{names[-1]}", "service", service, source=names[-1])


def example(name: str, **heads: int) -> Network:
    """A network of the gallery."""
    net = Network.read(TOP / "examples" / f"{name}.toml").copy()
    net.heads.update(heads)
    return net


def steep(capacity: int) -> tuple[Reward, ...]:
    """Rewards that are rare, and one that rises steeply."""
    rare = [0] * capacity + [1]
    return ("rare", rare), ("rare-1000", [1_000 * x for x in rare]), ("fours", [4**x for x in range(capacity + 1)])


# A name, the network, its customers where it is closed, the lengths, and whether it can be solved.
CASES: list[tuple[str, Network, int | None, tuple[int, ...], bool]] = [
    ("tandem-blocking", example("tandem-blocking"), None, LENGTHS, True),
    ("shortest-queue", example("shortest-queue"), None, LENGTHS, True),
    ("fork-join", example("fork-join"), None, LENGTHS, True),
    ("central-server", example("central-server"), 6, LENGTHS, True),
    ("short-past", example("short-past", limit=6), None, LENGTHS, True),
    ("load 0.5, steep", queue_of(30, 60, 10, None, *steep(10)), None, LENGTHS, True),
    ("load 0.3, steep", queue_of(18, 60, 8, None, *steep(8)), None, LENGTHS, True),
    ("M/M/1/1000, load 0.99", queue_of(99, 100, 1_000, 22), None, (0, 1_000, 10_000, 100_000), True),
    ("8 queues of 20, load 0.9", line_of(8, 20, 9, 10), None, (0, 1_000, 10_000), False),
    ("20 queues of 10, load 1", line_of(20, 10, 1, 1), None, (0, 1_000, 10_000), False),
]


def drawn(psi: Program, net: Network, total: int | None, seed: int, steps: int, count: int) -> Rows:
    """The rows of the paths of some streams, none where one isn't coupled."""
    return paths_of(psi, net, seed, blocks_of(0, count, max(1, count // 40)), steps, total)


def solved(net: Network, total: int | None) -> Means:
    """What each row is of, by its sort and its name."""
    states, law = law_of(net, total)
    plain, numbers = Plain({**net.heads, **net.table}), numpy.array(states)
    found = {("queue", name): float(law @ numbers[:, place]) for place, name in enumerate(net.queues)}
    for reward in plain.rewards:
        found["reward", reward.name] = float(law @ [reward.value(state) for state in states])
    for event in plain.events:
        moves = float(law @ [event.after(state) != state for state in states])
        found[MOVED, event.name] = found.get((MOVED, event.name), 0.0) + event.rate * moves
        found["chosen", event.name] = found.get(("chosen", event.name), 0.0) + event.rate
    return found


def estimated(psi: Program, net: Network, total: int | None) -> Means:
    """As `solved`, from other streams of a network that is too large."""
    steps = 20_000
    paths = paths_of_rows(net, steps, drawn(psi, net, total, OTHER, steps, WORDS.count * TIMES))
    means = {(row.kind, row.name): paths.mean(row).mean for row in paths.rows}
    return {key: mean for key, mean in means.items() if mean is not None}


def seldom_in(
    name: str, net: Network, steps: int, wanted: Means, rows: Rows, only: Collection[Key] | None = None
) -> list[Key]:
    """Prints a line for each row of a network, or of those that are named, of how often its intervals held what they
    are of over repetitions; returns those that hold too seldom."""
    cut = f", {100 * rows.count(None) / len(rows):.0f} % uncoupled" if None in rows else ""
    tallies: dict[Key, Tally] = {}
    for begin in range(0, len(rows), WORDS.count):
        paths = paths_of_rows(net, steps, rows[begin : begin + WORDS.count])
        for row in (row for row in paths.rows if row.times):
            key = row.kind, row.name
            if only is None or key in only:
                title = f"{name}{cut}, {steps:,} steps: {' '.join(key)}"
                ends = paths.mean(row).ends or (-math.inf, math.inf)
                tallies.setdefault(key, Tally(title, wanted[key])).take(*ends)
    return [key for key, tally in tallies.items() if tally.report() < WORDS.least]


def tried(psi: Program, name: str, net: Network, total: int | None, lengths: tuple[int, ...], is_solved: bool) -> bool:
    """Prints the lines of a network; returns whether enough of its intervals hold."""
    wanted, is_well = solved(net, total) if is_solved else estimated(psi, net, total), True
    count = WORDS.repetitions * WORDS.count
    for steps in lengths:
        seldom = seldom_in(name, net, steps, wanted, drawn(psi, net, total, SEED, steps, count))
        if seldom and WORDS.again:
            seeds = range(AGAIN, AGAIN + WORDS.again)
            rows = [row for seed in seeds for row in drawn(psi, net, total, seed, steps, count)]
            seldom = seldom_in(f"again: {name}", net, steps, wanted, rows, seldom)
        is_well = is_well and not seldom
    return is_well


def main() -> int:
    psi = Program(WORDS.psi)
    cases = [case for case in CASES if WORDS.only in ("", case[0])]
    return 0 if all([tried(psi, *case) for case in cases]) else 1


if __name__ == "__main__":
    sys.exit(main())
