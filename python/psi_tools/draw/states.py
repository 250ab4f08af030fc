"""Tables of samples, as psi_states prints them, drawn side by side on this machine in blocks; and samples of closed
networks, as psi closed prints them, with their report.

psi report has none of closed networks: here the counts, horizons, sums and extremes of the printed
states are taken in its form, and the values of rewards by the guide's rules.
"""

import collections
import re
from collections.abc import Callable

from psi_tools.draw.program import Program, Streams
from psi_tools.io.reports import Figure, Report
from psi_tools.model.networks import Network, header_of, values_of

# The horizon and the state of a sample; none where it is not coupled.
Sample = tuple[int, list[int]] | None

MOST_TOTAL = 256
SAMPLE = re.compile(rb"met (\d+)\nstate (\d+(?:,\d+)*)\n|not coupled within \d+\n")


def samples_of(text: bytes) -> list[Sample] | None:
    """The horizon and state of each sample, none if it isn't coupled, as psi closed prints them; none of other text."""
    found = [*SAMPLE.finditer(text)]
    if b"".join(sample[0] for sample in found) != text:
        return None
    return [(int(sample[1]), [*map(int, sample[2].split(b","))]) if sample[1] else None for sample in found]


def report_of_text(net: Network, text: bytes, count: int) -> bytes | None:
    """The report, in psi report's form, of what psi closed printed of these streams; none where it isn't whole."""
    found = samples_of(text)
    if found is None or len(found) != count or any(sample and len(sample[1]) != len(net.queues) for sample in found):
        return None
    met, figures = [sample for sample in found if sample], []
    horizons = sorted(collections.Counter(horizon for horizon, _ in met).items())
    rows = [(*state, *values_of(net, state)) for _, state in met]
    names = [(b"", name) for name in net.queues] + [(b"reward-", name) for name in net.rewards]
    for place, (kind, name) in enumerate(names):
        numbers = [row[place] for row in rows]
        ends = {b"least": min(numbers), b"greatest": max(numbers)} if numbers else {}
        for word, value in {b"sum": sum(numbers), **ends}.items():
            figures.append(Figure(kind, word, name.encode(), value))
    return Report(len(found), len(met), horizons, figures).text()


# What draws the table of a block: of each stream a row of its number, the horizon, the queues and the rewards.
Draw = Callable[[Streams], str]


def drawing(psi: Program, net: Network, seed: int, total: int | None = None) -> Draw:
    """What draws tables of a seed by psi_states; with a total, of a closed network."""
    data = net.data
    return lambda block: psi.states(data, seed, *block, total)


def printing(psi: Program, net: Network, seed: int, total: int | None = None) -> Draw:
    """As drawing, by a process of psi for each stream: for where psi_states is not built. The values of
    rewards are those of the guide's rules."""
    data, (command, *more) = net.data, ("sample",) if total is None else ("closed", str(total))
    header = header_of(net)

    def table(block: Streams) -> str:
        first, count = block
        streams = range(first, first + count)
        texts = [psi.ask(command, data, seed, stream, *more, statuses=(0, 1)).out for stream in streams]
        found = samples_of("".join(texts).encode()) or []
        rows: list[list[object]] = [[*header]]
        for stream, sample in zip(streams, found):
            own = [sample[0], *sample[1], *values_of(net, sample[1])] if sample else []
            rows.append([stream, *own] if own else [stream, *[""] * len(header[1:])])
        return "".join(",".join(map(str, row)) + "\n" for row in rows)

    return table


def any_drawing(psi: Program, net: Network, seed: int, total: int | None = None) -> Draw:
    """What draws tables of a seed: psi_states, or where it isn't built psi itself, which takes longer."""
    return (drawing if psi.has_states() else printing)(psi, net, seed, total)
