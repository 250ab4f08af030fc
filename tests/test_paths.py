"""psi_paths, where it is built beside the program or in its crate.

- Tables of networks that are drawn by their number with rewards of all kinds (small_networks.py), open and
  closed, with few steps and with none: the whole table is compared with what the plain program draws and
  adds up (oracle/paths.py). `--networks` says how many are drawn.
- With STEPS 0 the sums are the values that `psi_states` prints, and nothing was chosen. Tables of adjacent
  ranges of streams are joined to the table of the whole range. A path of more steps begins with the shorter.
- Paths across the lengths at which sums and counts may be carried over, and across the length from which
  on a small network has a table of its states.
- Words that ask for no table, networks that are refused, closed networks that are none.
- Growths of memory that are refused, writes that fail, and memory that grows neither with COUNT nor with
  STEPS, as of `psi_states` (test_states.py).
"""

import csv
import io
import math
import tomllib

import pytest

from generate.small_networks import Dice
from oracle import paths
from oracle.plain import Outcome
from oracle.plain_network import Network
from tests.support import EXAMPLES, beside
from tests.tables import QUEUE, TableTests

MOST_STEPS = 2**32 - 2**22
# Lengths around powers of two, as a program that adds up in parts may take them.
LENGTHS = (2**15 - 1, 2**15, 2**15 + 1, 2**16 + 3)


def steps_of(number: int) -> int:
    """How many steps the paths of a network have: none for each sixth, and for a few of them hundreds."""
    dice = Dice(number + 7)
    return 0 if number % 6 == 0 else 200 + dice.below(800) if number % 17 == 3 else dice.upto(60)


def of_no_steps(net: Network, states: str) -> str:
    """The table of paths of no step, by what psi_states prints of the same streams."""
    rows = [paths.header(net)]
    for stream, horizon, *values in [*csv.reader(io.StringIO(states))][1:]:
        counts = ["0" if horizon else ""] * (2 * len(net.events))
        rows.append([stream, horizon, "0" if horizon else "", *values, *counts])
    return "".join(",".join(row) + "\n" for row in rows)


class TestPaths(TableTests):
    name, more = "psi_paths", (2,)
    head = "stream,horizon,steps,queue.a,event.in.1,moved.in.1,event.out.1,moved.out.1\n"
    growths = ["1", "3"], ["5000", "40"]
    long = [10, 10], [3_000_000, 10], [10, 100_000_000]

    def try_paths(
        self, what: str, net: Network, seed: int, streams: range, steps: int, total: int | None = None
    ) -> list[Outcome]:
        """The table of some streams, whole and in two ranges, beside the plain program's; and their samples."""
        outcomes = paths.outcomes_of(net, seed, streams, total)
        closed = [] if total is None else ["closed", total]

        def table(first: int, count: int) -> tuple[int, str, str]:
            return self.run(self.program, "net.toml", seed, first, count, steps, *closed)

        status = 1 if None in outcomes else 0
        whole = table(streams.start, len(streams))
        self.is_same(what, whole, (status, paths.table(net, seed, streams, outcomes, steps), ""))
        if len(streams) > 1:
            middle = len(streams) // 2
            one, other = table(streams.start, middle), table(streams.start + middle, len(streams) - middle)
            joined = max(one[0], other[0]), one[1] + other[1].partition("\n")[2], one[2] + other[2]
            self.is_same(f"{what}, joined", joined, whole)
        return outcomes

    def try_table(
        self, what: str, number: int, net: Network, seed: int, streams: range, total: int | None = None
    ) -> None:
        """Paths of some steps; and of none, beside what psi_states prints where it is built."""
        self.try_paths(what, net, seed, streams, steps_of(number), total)
        if states := beside(self.psi, "psi_states"):
            words = ["net.toml", seed, streams.start, len(streams)]
            closed = [] if total is None else ["closed", total]
            status, out, err = self.run(str(states), *words, *closed)
            given = self.run(self.program, *words, 0, *closed)
            self.is_same(f"{what}, no steps", given, (status, of_no_steps(net, out), self.line_of(err)))

    def try_example(self, name: str, streams: range, steps: int, total: int | None = None) -> list[Outcome]:
        """A network of the gallery."""
        text = (EXAMPLES / f"{name}.toml").read_text()
        self.file(text)
        return self.try_paths(f"{name}, {steps} steps", Network(tomllib.loads(text)), 5, streams, steps, total)

    def test_a_stream_that_is_not_coupled_keeps_its_row(self) -> None:
        outcomes = self.try_example("short-past", range(40), 30)
        self.expect(0 < outcomes.count(None) < 40, "some of the streams are coupled, and some aren't")

    @pytest.mark.slow
    def test_lengths_of_paths(self) -> None:
        for steps in LENGTHS:
            self.try_example("call-centre", range(1), steps)
        self.try_example("fork-join", range(2), LENGTHS[-1])
        self.try_example("central-server", range(2), LENGTHS[-1], 6)

    @pytest.mark.slow
    @pytest.mark.parametrize("name", ("tandem-blocking", "negative-customers", "longest-queue", "reset"))
    def test_paths_with_and_without_a_table(self, name: str) -> None:
        """Paths with one step less than the table of the network's states has entries, where each event is
        applied, and with as many, which go by the table."""
        net = Network(tomllib.loads((EXAMPLES / f"{name}.toml").read_text()))
        entries = math.prod(cap + 1 for cap in net.caps) * (len(net.events) + 1)
        self.expect(entries <= 65_536, f"{name} has a table")
        for steps in (entries - 1, entries):
            self.try_example(name, range(2), steps)

    def test_steps(self) -> None:
        """Words that name no number of steps."""
        self.try_usage(5, ["net.toml", 0, 0, 1])
        for word in ("-1", "01", "", MOST_STEPS + 1, 2**64, "closed"):
            self.try_usage(5, ["net.toml", 0, 0, 1, word])

    @pytest.mark.slow
    @pytest.mark.release
    def test_the_longest_path(self) -> None:
        """A path of as many steps as there may be: every step has its event, or is idle. Of this network
        none is, and both events are chosen half of the times, within six standard deviations."""
        self.file(QUEUE)
        status, out, err = self.run(self.program, "net.toml", 3, 4, 1, MOST_STEPS)
        self.is_same("the longest path", (status, err), (0, ""))
        head, row = out.splitlines()
        _, _, steps, total, come, in_moved, served, out_moved = map(int, row.split(","))
        self.is_same("the longest path", (steps, come + served), (MOST_STEPS, MOST_STEPS))
        self.expect(abs(come - served) < 6 * MOST_STEPS**0.5, f"{come} and {served} are chosen")
        self.expect(abs(in_moved - out_moved) <= 2, f"{in_moved} come and {out_moved} leave of a queue of 2")
        # Each of 0, 1 and 2 customers has a third of all times, so the mean is 1.
        self.expect(abs(total - MOST_STEPS) < 10 * MOST_STEPS**0.5, f"{total} customers in {MOST_STEPS} steps")
