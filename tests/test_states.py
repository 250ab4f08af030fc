"""psi_states, where it is built beside the program or in its crate.

- Tables of networks that are drawn by their number with rewards of all kinds (small_networks.py), open and
  closed: the whole table is compared with what the plain program draws, each row with what `psi sample`
  or `psi closed` prints, and the sums, the extremes, the horizons and the numbers over its rows with
  what `psi report` prints. `--networks` says how many are drawn.
- Words that ask for no table, networks that are refused, closed networks that are none.
- Growths of memory that are refused in turn: the line `out of memory`, and nothing on standard output.
- Writes that fail: a full disk, a closed pipe, a file that may have that many bytes, at each place around
  the blocks. What is written is a prefix of the table.
- The memory that 10 streams need, and 64 KiB more, is enough for 10,000,000.
"""

import csv
import io
from collections.abc import Sequence

from oracle import plain
from oracle.paths import outcomes_of
from oracle.plain import Outcome
from oracle.plain_network import Network, State
from tests.tables import TableTests


def values_of(net: Network, state: State) -> list[int]:
    """What a row tells of a state."""
    return [*state, *(reward.value(state) for reward in net.rewards)]


def columns_of(net: Network) -> list[str]:
    """The names of the columns of a table but for the first two."""
    names = [f"queue.{queue['name']}" for queue in net.queues]
    return names + [f"reward.{reward.name}" for reward in net.rewards]


def table_of(net: Network, streams: Sequence[int], outcomes: Sequence[Outcome]) -> str:
    """The text of the table of outcomes."""
    columns = columns_of(net)
    lines: list[list[object]] = [["stream", "horizon", *columns]]
    for stream, drawn in zip(streams, outcomes):
        if drawn is None:
            lines.append([stream, "", *("" for _ in columns)])
        else:
            lines.append([stream, drawn[0], *values_of(net, drawn[1])])
    return "".join(",".join(map(str, line)) + "\n" for line in lines)


def drawn_in(net: Network, text: str) -> list[Outcome]:
    """The outcomes that a table's rows tell: what report_of of the plain program takes."""
    _, *rows = csv.reader(io.StringIO(text))
    queues = len(net.queues)
    return [(int(row[1]), tuple(map(int, row[2 : 2 + queues]))) if row[1] else None for row in rows]


class TestStates(TableTests):
    name, head = "psi_states", "stream,horizon,queue.a\n"
    growths = ["1"], ["30000"]
    long = [10], [10_000_000]

    def try_table(
        self, what: str, number: int, net: Network, seed: int, streams: range, total: int | None = None
    ) -> None:
        """The whole table, each of its rows beside what psi prints of the stream, and its report."""
        outcomes, first, count = outcomes_of(net, seed, streams, total), streams.start, len(streams)
        closed: list[object] = [] if total is None else ["closed", total]
        command, *last = closed or ["sample"]
        given = self.run(self.program, "net.toml", seed, first, count, *closed)
        self.is_same(what, given, (1 if None in outcomes else 0, table_of(net, streams, outcomes), ""))
        found = drawn_in(net, given[1])
        for stream, drawn in enumerate(found, first):
            status, out, err = self.run(self.psi, command, "net.toml", seed, stream, *last)
            self.is_same(f"{what}, stream {stream}", (status, err), (0 if drawn else 1, ""))
            if drawn:
                text = f"met {drawn[0]}\nstate {plain.text_of(drawn[1])}\n"
                self.is_same(f"{what}, stream {stream}", out, text)
        if total is None:
            report = self.run(self.psi, "report", "net.toml", seed, first, count)
            self.is_same(f"report of {what}", report, (0, plain.report_of(net, found), ""))
