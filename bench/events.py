"""The events of a network in the plainest form, for the programs that PSI is compared with.

It covers the kinds that the networks of the benchmark have: arrivals, services, forks, joins, and
index events without a source whose rows are 0, 1, 2, .., which join the shortest queue.
"""

import dataclasses

from psi_tools.model.networks import Network, Table


@dataclasses.dataclass(frozen=True)
class Event:
    """An event at a rate. It needs `least` customers in the queue `source`, where it has one, and
    one in each queue of `takes`, which lose it. A route sends one customer to the first of its
    `targets` that has space, or to the shortest; where none has, the customer leaves if `leaves`
    says so, and else stays. An event that is no route gives one customer to all of its targets, and
    needs space in each."""

    rate: int
    is_route: bool
    takes: tuple[int, ...]
    least: int
    targets: tuple[int, ...]
    leaves: bool
    is_shortest: bool

    @property
    def queues(self) -> tuple[int, ...]:
        """The queues that it reads or changes."""
        return self.takes + self.targets


def is_shortest(table: Table) -> bool:
    """Whether an entry is an index event that joins the shortest queue."""
    rows = table.get("table", [])
    return table["kind"] == "index" and all(row == list(range(len(row))) for row in rows)


def expanded(net: Network, table: Table) -> list[Event]:
    """The events of one entry of a network: one for each server of its source."""
    place = {name: number for number, name in enumerate(net.queues)}
    source, to = table.get("from", []), table.get("to", [])
    takes = tuple(place[name] for name in ([source] if isinstance(source, str) else source))
    targets = tuple(place[name] for name in ([to] if isinstance(to, str) else to))
    kind, shortest = table["kind"], is_shortest(table)
    if kind not in ("arrival", "service", "fork", "join") and not shortest:
        raise ValueError(f"the programs of the benchmark have no event of the kind {kind}")
    is_route = kind in ("arrival", "service", "index")
    leaves = is_route and (not takes or not targets or table.get("full", "lost") == "lost")
    return [
        Event(table["rate"], is_route, takes, server, targets, leaves, shortest)
        for server in range(1, net.servers_of(table) + 1)
    ]


def events_of(net: Network) -> list[Event]:
    """All events of a network, in the order of the file."""
    return [event for table in net.table["event"] for event in expanded(net, table)]


def first_state(net: Network, total: int | None) -> list[int]:
    """The empty state, or one of a total: queues are filled in their order."""
    left, state = total or 0, []
    for capacity in net.capacities:
        state.append(min(left, capacity))
        left -= state[-1]
    return state


def text_of(net: Network, watched: str, total: int | None) -> str:
    """The network as the program in `chain/` reads it."""
    lines = [
        "capacities " + " ".join(map(str, net.capacities)),
        "start " + " ".join(map(str, first_state(net, total))),
        f"watched {net.queues.index(watched)}",
    ]
    for event in events_of(net):
        kind = "all" if not event.is_route else "shortest" if event.is_shortest else "first"
        full = "leave" if event.leaves else "stay"
        takes, targets = (",".join(map(str, queues)) or "-" for queues in (event.takes, event.targets))
        lines.append(f"event {kind} {event.rate} {takes} {event.least} {targets} {full}")
    return "".join(f"{line}\n" for line in lines)
