"""Tables of paths, as psi_paths prints them, drawn side by side on this machine in blocks."""

from collections.abc import Sequence

from psi_tools.draw.program import Done, Program, Streams
from psi_tools.io.samples import Rows, rows_of
from psi_tools.model.networks import Network

# The places of the words of paths are from 2^22 on, and below 2^32.
MOST_STEPS = 2**32 - 2**22


def events_of(net: Network) -> list[tuple[str, int]]:
    """The name of each event counted over servers, and the number of its server."""
    return [(event["name"], k) for event in net.table["event"] for k in range(1, net.servers_of(event) + 1)]


def modulus_of(net: Network) -> int:
    """What the rates of all events and of idle add up to, in the unit of the file: the least power of
    two that isn't below the sum of all events' rates."""
    total = sum(int(event["rate"]) * net.servers_of(event) for event in net.table["event"])
    return 1 << (total - 1).bit_length()


def header_of(net: Network) -> list[str]:
    """The names of the columns of a table."""
    queues, rewards = (f"queue.{name}" for name in net.queues), (f"reward.{name}" for name in net.rewards)
    counts = (f"{kind}.{name}.{k}" for name, k in events_of(net) for kind in ("event", "moved"))
    return ["stream", "horizon", "steps", *queues, *rewards, *counts]


def paths_of(
    psi: Program,
    net: Network,
    seed: int,
    blocks: Sequence[Streams],
    steps: int,
    total: int | None = None,
    done: Done = None,
) -> Rows:
    """The rows of the tables of some blocks that psi_paths prints, in their order and without their streams, none
    where a stream isn't coupled; with a total, of a closed network. `done` is called with how many blocks are there."""
    data = net.data

    def rows(block: Streams) -> Rows:
        # A network that psi refuses may have no such header.
        text = psi.paths(data, seed, *block, steps, total)
        return rows_of(header_of(net), text, *block, program="psi_paths")

    return [row for some in psi.all(rows, blocks, done) for row in some]
