"""python3 -m generate.images crates/psi_test_sweep

Writes the files of the program psi_test_sweep, which compares what events make of all states and
of all boxes with tables of it: data/ with networks and their tables, args, stdout and status.

The networks have one to four queues with room for a few customers, and events of every kind: some
were written by hand and stand in data/, one has routes by tables that are drawn, and the others have
all events of all_kinds.py at some capacities. What an event makes of a state is what the plain program answers
(plain_network.py), which was written from the definitions and shares nothing with the proved one. A
small network has tables that are wrong in one place each; what has to be printed of these is worked
out here.
"""

import itertools
import pathlib
import sys
import tomllib
from collections.abc import Callable, Iterable, Iterator

from generate import all_kinds
from generate.small_networks import Dice, Entry, lists
from oracle.plain import text_of
from oracle.plain_network import Event, Network, State, box, is_below

# Where the networks stand that were written by hand: with a few events of each kind, also of several servers and of
# three or four targets, and small ones that are worked out, as a move to a floor above its guard or to a ceiling below
# it, a negative customer and a fork, and routes by tables that rise and by one that falls.
DATA = pathlib.Path(__file__).resolve().parent.parent / "crates/psi_test_sweep/data"
BY_HAND = "two-queues", "three-queues", "three-servers", "four-queues", "worked-one", "worked-bits", "worked-keys"


def drawn_routes(caps: dict[str, int], count: int) -> Iterator[Entry]:
    """That many events that go by drawn tables to the first two of three queues, in either order."""
    first, last, origin = caps
    dice = Dice(count)
    for _ in range(count):
        to = [first, last] if dice.coin() else [last, first]
        keys: Entry = {"from": origin} if dice.coin() else {"size": dice.upto(3)}
        full = dice.pick(all_kinds.FULLS)
        table = [[dice.below(6) for _ in range(caps[queue])] for queue in to]
        yield {"kind": "index", **keys, "to": to, "table": table, "full": full}


def networks() -> Iterator[tuple[str, str]]:
    """The files of the networks by their names."""
    yield from ((name, (DATA / f"{name}.toml").read_text()) for name in BY_HAND)
    caps = {"a": 6, "b": 4, "c": 1}
    yield "drawn-routes", file_of(caps, dict.fromkeys(caps, 1), drawn_routes(caps, 24))
    for sizes in all_kinds.CAPACITIES:
        caps = dict(zip(all_kinds.NAMES, sizes))
        yield f"kinds-{'-'.join(map(str, sizes))}", file_of(caps, caps, all_kinds.kinds(caps))


def file_of(caps: dict[str, int], servers: dict[str, int], entries: Iterable[Entry]) -> str:
    queues = [{"name": q, "capacity": cap, "servers": servers[q]} for q, cap in caps.items()]
    events = [{"name": f"e{i}", "rate": 1, **entry} for i, entry in enumerate(entries)]
    return lists({"version": 2, "queue": queues, "event": events})


class Table:
    """What the events of a network make of every state."""

    def __init__(self, file: str, net: Network) -> None:
        self.file = file
        self.states = box((0,) * len(net.caps), net.caps)
        self.rows = [(event.name, event.k, list(map(event.after, self.states))) for event in net.events]

    def text(self) -> str:
        """The table in the form that crates/psi_test_sweep/src/table.rt describes."""
        lines = [f"network {self.file}", f"states {texts_of(self.states)}"]
        lines += [f"event {name} {server} {texts_of(images)}" for name, server, images in self.rows]
        return "\n".join([*lines, ""])


def texts_of(states: Iterable[State]) -> str:
    return " ".join(map(text_of, states))


def hull(images: Iterable[State]) -> tuple[State, State]:
    """The corners of the least box around some states."""
    numbers = list(zip(*images))
    return tuple(map(min, numbers)), tuple(map(max, numbers))


class Sweep:
    """What has to be printed of a table of a network, and the counts of what agrees."""

    def __init__(self, name: str, table: Table, net: Network) -> None:
        self.name, self.states = name, table.states
        self.lines: list[str] = []
        self.counts = dict.fromkeys(("events", "states", "boxes", "marks"), 0)
        for event, row in itertools.zip_longest(net.events, table.rows):
            if row is not None:
                self.compare(event, *row)
        if (missing := len(net.events) - len(table.rows)) > 0:
            self.lines.append(f"{name}: events without a row: {missing}")
        self.agrees = not self.lines
        counted = ", ".join(f"{count} {what}" for what, count in self.counts.items())
        self.lines.append(f"{name}: {counted} agree")

    def compare(self, event: Event | None, name: str, server: int, images: list[State]) -> None:
        """Compares an event with its row; the network may have none for it."""
        place, before = f"{self.name}: event {name} {server}", len(self.lines)
        if event is None or (event.name, event.k) != (name, server):
            self.lines.append(f"{place}: another event")
        if event is not None:
            after = dict(zip(self.states, images))
            for x, y in after.items():
                self.count("states", event.after(x) == y, f"{place}: state {text_of(x)} doesn't become {text_of(y)}")
            self.compare_boxes(place, event, after)
            self.count("marks", all_kinds.is_marked(event, after), f"{place}: another mark")
        self.counts["events"] += len(self.lines) == before

    def count(self, what: str, agrees: bool, line: str) -> None:
        if agrees:
            self.counts[what] += 1
        else:
            self.lines.append(line)

    def compare_boxes(self, place: str, event: Event, after: dict[State, State]) -> None:
        for low, high in itertools.product(self.states, repeat=2):
            if is_below(low, high):
                states = box(low, high)
                agrees = hull(map(event.after, states)) == hull(after[x] for x in states)
                line = f"{place}: another envelope from {text_of(low)} to {text_of(high)}"
                self.count("boxes", agrees, line)


def put(folder: pathlib.Path, name: str, text: str) -> str:
    (folder / name).write_text(text)
    return name


def write_right(data: pathlib.Path) -> tuple[list[str], list[str]]:
    """Writes the right tables and their networks; their names, and what is printed of them."""
    names: list[str] = []
    lines: list[str] = []
    agreeing = 0
    for name, text in networks():
        net = Network(tomllib.loads(text))
        table = Table(put(data, f"{name}.toml", text), net)
        names.append(put(data, f"{name}.table", table.text()))
        sweep = Sweep(names[-1], table, net)
        lines += sweep.lines
        agreeing += sweep.agrees
    return names, [*lines, f"{agreeing} tables agree"]


def write_wrong(data: pathlib.Path) -> tuple[list[str], list[str]]:
    """Writes tables that are wrong in one place each; their names, and what is printed of them."""
    text = (DATA / "wrong.toml").read_text()
    net, file = Network(tomllib.loads(text)), put(data, "wrong.toml", text)
    names: list[str] = []
    lines: list[str] = []
    for name, change in compared_changes():
        table = Table(file, net)
        change(table)
        names.append(put(data, f"wrong-{name}.table", table.text()))
        lines += Sweep(names[-1], table, net).lines
    for name, (old, new), cause in read_changes():
        right = Table(file, net).text()
        assert right.count(old) == 1, name
        names.append(put(data, f"wrong-{name}.table", right.replace(old, new)))
        lines.append(f"{names[-1]}: can't be read: {cause}")
    names.append("absent.table")
    lines.append("absent.table: can't be read: no file absent.table")
    return names, lines


def compared_changes() -> Iterator[tuple[str, Callable[[Table], object]]]:
    """Changes of a right table of the small network that leave its form."""

    def put_image(row: int, place: int, image: State) -> Callable[[Table], object]:
        return lambda table: table.rows[row][2].__setitem__(place, image)

    def put_row(row: int, name: str, server: int) -> Callable[[Table], object]:
        return lambda table: table.rows.__setitem__(row, (name, server, table.rows[row][2]))

    yield "image", put_image(0, 5, (0, 2))
    # The negative event still breaks the order, but not at the pair that it shows.
    yield "pair", put_image(1, 5, (0, 2))
    yield "name", put_row(0, "e1", 1)
    yield "server", put_row(3, "e2", 1)
    yield "row-missing", lambda table: table.rows.pop()
    yield "row-more", lambda table: table.rows.append(table.rows[0])


def read_changes() -> Iterator[tuple[str, tuple[str, str], str]]:
    """Changes of the text of that table after which it can't be read, and why."""
    others = "its states aren't all states of the network"
    yield "order", ("states 0,0 0,1", "states 0,1 0,0"), others
    yield "states-fewer", ("states 0,0 ", "states "), "line 3: not one image for each state"
    fewer = "line 4: not one image for each state"
    yield "image-missing", ("event e1 1 0,0 ", "event e1 1 "), fewer
    yield "state", ("event e1 1 0,0 ", "event e1 1 0,x "), "line 4: 0,x is no state"
    yield "number", ("event e1 1 ", "event e1 one "), "line 4: a server that is no number"
    yield "key", ("event e1 ", "events e1 "), "line 4: no such key"
    yield "network", ("network wrong.toml", "network absent.toml"), "no file absent.toml"
    yield "file", ("network wrong.toml", "network wrong-file.table"), "a network that is refused"


def main() -> None:
    crate = pathlib.Path(sys.argv[1])
    data = crate / "data"
    data.mkdir(parents=True, exist_ok=True)
    wrong, reported = write_wrong(data)
    right, counted = write_right(data)
    put(crate, "args", "".join(f"{name}\n" for name in [*wrong, *right]))
    put(crate, "stdout", "".join(f"{line}\n" for line in [*reported, *counted]))
    put(crate, "status", "1\n")


if __name__ == "__main__":
    main()
