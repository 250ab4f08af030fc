"""The networks of the benchmark: ten that differ in kind, and families that grow in one respect.

Each has one queue that is watched: its mean length is what every method has to find. Two rewards
give its length and the square of that, so a report has what a confidence interval needs.
"""

import dataclasses

import on_path
from psi_tools.model.networks import Network

WATCHED, SQUARED = "watched", "watched-squared"


@dataclasses.dataclass(frozen=True)
class Case:
    """A network of the benchmark: what it is, the queue that is watched, the number of customers
    where it is closed, and how many samples are drawn for the time and for the instructions."""

    name: str
    about: str
    net: Network
    watched: str
    samples: int
    counted: int
    total: int | None = None
    has_product_form: bool = False


def watching(net: Network, queue: str) -> Network:
    """Adds the two rewards of the watched queue to a network."""
    capacity = net.capacities[net.queues.index(queue)]
    squares = [number * number for number in range(capacity + 1)]
    net.reward(WATCHED, "linear", [queue], weights=[1])
    return net.reward(SQUARED, "table", [queue], table=[squares])


def watched(
    name: str, about: str, net: Network, queue: str, samples: int, counted: int, has_product_form: bool = False
) -> Case:
    """An open network whose queue is watched."""
    return Case(name, about, watching(net, queue), queue, samples, counted, None, has_product_form)


def one_queue(capacity: int, arrival: int, service: int, limit: int | None = None) -> Network:
    """One server and a queue: M/M/1/K."""
    net = Network(limit=limit).queue("desk", capacity)
    net.event("come", "arrival", arrival, to=["desk"])
    return net.event("serve", "service", service, source="desk")


def line(
    count: int, capacity: int, servers: int, arrival: int, service: int, full: str, limit: int | None = None
) -> Network:
    """Queues in a row, of equal servers; `full` is what happens where the next one is full."""
    net = Network(limit=limit)
    names = [f"q{number}" for number in range(1, count + 1)]
    for name in names:
        net.queue(name, capacity, servers)
    net.event("come", "arrival", arrival, to=names[:1])
    for name, following in zip(names, names[1:]):
        net.event(f"serve-{name}", "service", service, source=name, to=[following], full=full)
    return net.event(f"serve-{names[-1]}", "service", service, source=names[-1])


def shortest(count: int, capacity: int, arrival: int, service: int) -> Network:
    """Queues of which a customer joins the shortest."""
    net = Network(limit=20)
    names = [f"q{number}" for number in range(1, count + 1)]
    for name in names:
        net.queue(name, capacity)
    rows = [list(range(capacity)) for _ in names]
    net.event("come", "index", arrival, to=names, table=rows)
    for name in names:
        net.event(f"serve-{name}", "service", service, source=name)
    return net


def forks() -> Network:
    """Six queues with a fork and a join, which is not monotone: all 4,096 states are followed."""
    net = Network(limit=18, split=4_096)
    for name in "abcdef":
        net.queue(name, 3, 2)
    net.event("come", "fork", 6, to=["a", "b", "c"])
    net.event("assemble", "join", 6, source=["a", "b"], to="d")
    net.event("pass", "service", 4, source="c", to=["e", "f"], full="stay")
    for name in "abdef":
        net.event(f"serve-{name}", "service", 3, source=name)
    return net


def assembly() -> Network:
    """Eight queues of forty places between a fork and two joins: its box becomes small late."""
    net = Network(limit=18, split=4_096)
    for number in range(8):
        net.queue(f"q{number}", 40)
    net.event("come", "fork", 2, to=["q0", "q1", "q2", "q3"])
    for number in range(4):
        net.event(f"make-{number}", "service", 8, source=f"q{number}", to=[f"q{number + 4}"], full="stay")
    net.event("join-1", "join", 7, source=["q4", "q5"])
    net.event("join-2", "join", 7, source=["q6", "q7"])
    for number in range(4, 8):
        net.event(f"drop-{number}", "service", 4, source=f"q{number}")
    return net


def central_server(total: int) -> Network:
    """The central server model (Buzen 1973): a processor, a disk and a drum."""
    net = Network()
    for name in ("cpu", "disk", "drum"):
        net.queue(name, total)
    moves = (("cpu", "disk", 2), ("cpu", "drum", 6), ("disk", "cpu", 3), ("drum", "cpu", 5))
    for source, to, rate in moves:
        net.event(f"{source}-{to}", "service", rate, source=source, to=[to], full="stay")
    return net


def ring(count: int, capacity: int) -> Network:
    """Queues in a ring, none of which has space for all, so that customers wait where they are."""
    net = Network(limit=20)
    for number in range(count):
        net.queue(f"q{number}", capacity)
    for number in range(count):
        to = f"q{(number + 1) % count}"
        net.event(f"serve-{number}", "service", 1, source=f"q{number}", to=[to], full="stay")
    return net


def copied(copies: int) -> Network:
    """Five queues of twenty places at a load of 0.8, whose arrivals and services are each spread
    over a number of events: the chain is the same, whatever the number is."""
    net, share = Network(limit=18), 100 // copies
    for number in range(5):
        net.queue(f"q{number}", 20)
        for copy in range(copies):
            net.event(f"come-{number}-{copy}", "arrival", 4 * share, to=[f"q{number}"])
            net.event(f"serve-{number}-{copy}", "service", 5 * share, source=f"q{number}")
    return net


def cases() -> list[Case]:
    """The ten networks, from one queue to 32."""
    lost, long = line(3, 12, 1, 5, 6, "lost"), line(5, 100, 2, 10, 5, "stay", 20)
    wide, joined = line(32, 20, 1, 4, 5, "stay", 20), shortest(32, 20, 9 * 32, 10)
    return [
        watched("one-queue", "M/M/1/10, load 0.8", one_queue(10, 4, 5), "desk", 40_000, 2_000, True),
        watched("small-line", "3 queues of 12 places, customers leave where the next is full", lost, "q3", 20_000, 500),
        watched("line-8", "8 queues of 20 places, blocking, load 0.8", line(8, 20, 1, 4, 5, "stay"), "q8", 1_000, 60),
        watched("long-line", "5 queues of 100 places and 2 servers, blocking, load 1", long, "q5", 100, 4),
        watched("wide-line", "32 queues of 20 places, blocking, load 0.8", wide, "q32", 100, 8),
        watched("shortest", "32 queues of 20 places, join the shortest, load 0.9", joined, "q1", 200, 4),
        watched("forks", "6 queues of 3 places, fork and join, 4,096 states followed", forks(), "e", 5_000, 20),
        watched("assembly", "8 queues of 40 places, fork and two joins, split late", assembly(), "q4", 2_000, 30),
        Case("central-server", "closed, 3 queues, 6 customers", central_server(6), "cpu", 200, 8, 6, True),
        Case("ring", "closed, 20 queues of 10 places, 40 customers, blocking", ring(20, 10), "q0", 4, 1, 40),
    ]


def walked() -> list[Case]:
    """The networks on which paths are compared with the plain chain: three of the gallery, two lines that
    can't be solved, and a queue that forgets slowly."""

    def example(name: str, about: str, queue: str, samples: int) -> Case:
        net = Network.read(f"{on_path.TOP}/examples/{name}.toml").copy()
        net.table["reward"].clear()
        return watched(name, about, net, queue, samples, 0)

    return [
        example("tandem-blocking", "3 queues with blocking, 60 states", "cut", 10_000),
        example("shortest-queue", "3 queues, join the shortest, 216 states", "left", 10_000),
        example("fork-join", "fork and join, 144 states", "half-a", 5_000),
        watched("line-8x20", "8 queues of 20, load 0.9", line(8, 20, 1, 9, 10, "stay", 20), "q8", 500, 0),
        watched("line-20x10", "20 queues of 10, load 1", line(20, 10, 1, 1, 1, "stay", 20), "q20", 250, 0),
        watched("one-queue-1000", "M/M/1/1000, load 0.99", one_queue(1_000, 99, 100, 22), "desk", 100, 0),
    ]


def growing() -> dict[str, dict[str, Case]]:
    """The families: what grows, and for each value of that its network."""
    lines = {count: watching(line(count, 20, 1, 4, 5, "stay", 20), f"q{count}") for count in (4, 8, 16, 32)}
    capacities = {10: (40_000, 800), 100: (4_000, 50), 1_000: (400, 6), 10_000: (40, 1)}
    loads = {50: (4_000, 100), 90: (1_000, 20), 99: (800, 10)}
    return {
        "queues": {
            f"{count}": Case(f"line-of-{count}", "", net, f"q{count}", 12_800 // count, 320 // count)
            for count, net in lines.items()
        },
        "capacity": {
            f"{capacity:,}": Case(f"capacity-{capacity}", "", one_queue(capacity, 4, 5, 20), "desk", *counts)
            for capacity, counts in capacities.items()
        },
        "events": {
            f"{10 * copies:,}": Case(f"events-{10 * copies}", "", copied(copies), "q0", 4_000, 50)
            for copies in (1, 10, 100)
        },
        "load": {
            f"{load / 100:.2f}": Case(f"load-{load}", "", line(3, 50, 1, load, 100, "stay", 20), "q3", *counts)
            for load, counts in loads.items()
        },
    }
