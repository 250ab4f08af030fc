"""Networks: built in Python or read from a file, written as TOML, and the values of rewards."""

import copy
import math
import numbers
from collections.abc import Sequence
from typing import TYPE_CHECKING, Any

from psi_tools.errors import PsiError, Refused
from psi_tools.io import toml
from psi_tools.io.files import Path, read_file

if TYPE_CHECKING:
    from fractions import Fraction

    from psi_tools import check_log
    from psi_tools.draw.program import Program

# A table of a network file.
Table = dict[str, Any]

# What a network may have at most, counted over servers, and what its rates may add up to.
MOST_EVENTS, MOST_TOTAL, MOST_RATE, MOST_REWARDS = 1_024, 16_777_216, 1_048_576, 64
# The kinds of events that stand for one event of each server of the queue that they serve.
OF_SERVERS = "service", "index", "negative", "fork"
ORDER = "name", "kind", "rate", "from", "to"


def whole(value: Any, where: str) -> int:
    """The whole number that a value is; raises PsiError, with the key, where it is none."""
    is_number = isinstance(value, numbers.Number) and not isinstance(value, bool)
    try:
        made = int(value) if is_number else None
    except (OverflowError, TypeError, ValueError):
        made = None
    if made is None or made != value:
        more = "; Network.scaled makes rates whole" if is_number and "rate" in where else ""
        raise PsiError(f"{where} is {shown(value)}, which isn't a whole number{more}")
    return made


def shown(value: object) -> str:
    """A value as a message has it, cut where it is long."""
    text = str(value) if isinstance(value, numbers.Number) else repr(value)
    return text if len(text) <= 60 else text[:58] + ".."


def escaped(char: str) -> str:
    """A character as it stands in a string of TOML."""
    if char in '"\\':
        return f"\\{char}"
    return char if char.isprintable() else f"\\U{ord(char):08X}" if ord(char) > 0xFFFF else f"\\u{ord(char):04X}"


def written(value: object, where: str = "the value") -> str:
    """A value in TOML; `where` names it in messages."""
    if isinstance(value, dict):
        items = (f"{key} = {written(item, f'{key} in {where}')}" for key, item in value.items())
        return "{ " + ", ".join(items) + " }"
    if isinstance(value, (list, tuple)):
        return "[" + ", ".join(written(item, f"a value of {where}") for item in value) + "]"
    if isinstance(value, str):
        return '"' + "".join(map(escaped, value)) + '"'
    return str(whole(value, where))


def fraction(value: Any, where: str) -> "Fraction":
    """A rate as a fraction: a float is taken for the decimal number that Python prints of it."""
    from fractions import Fraction

    if isinstance(value, bool) or not isinstance(value, numbers.Number):
        raise PsiError(f"{where} is {shown(value)}, which isn't a number")
    try:
        made = Fraction(value) if isinstance(value, numbers.Rational) else Fraction(str(value))
    except (ValueError, OverflowError):
        made = Fraction(0)
    if made <= 0:
        raise PsiError(f"{where} is {shown(value)}, which isn't a number above 0")
    return made


def plain(value: Any) -> Any:
    """A value without the lines that a reader keeps."""
    if isinstance(value, dict):
        return {key: plain(item) for key, item in value.items()}
    return [plain(item) for item in value] if isinstance(value, list) else value


class Network:
    """A network of queues and events, as the tables of its file have it; docs/FORMATS.md has all.

    Rates are whole numbers, in a unit of your choice; `scaled` makes others whole. The parts are
    given in the order of the file. Nothing is checked before psi reads it, but that numbers are
    whole. A network that was read from a file and not changed since is handed to psi as the file's
    own bytes.

    Parameters
    ----------
    limit : int, optional
        The longest past has 2^limit steps.
    split : int, optional
        From how many states on a region is a box.
    version : int, optional
        The version of the format; by default the least that has what stands in the network.

    Examples
    --------
    >>> net = psi.Network()
    >>> net.queue("desk", capacity=10)
    <Network: 1 queue, 0 events, 0 rewards>
    >>> net = net.event("come", "arrival", rate=4, to=["desk"])
    >>> net.event("serve", "service", rate=5, source="desk")
    <Network: 1 queue, 2 events, 0 rewards>
    >>> net.queues, net.capacities
    (['desk'], [10])
    """

    def __init__(self, *, limit: int | None = None, split: int | None = None, version: int | None = None) -> None:
        """An empty network; what is None is left to psi, and the version to what stands in it."""
        self.table: dict[str, list[Table]] = {"queue": [], "event": [], "reward": []}
        heads = {"version": version, "limit": limit, "split": split}
        self.heads = {key: value for key, value in heads.items() if value is not None}
        self.read_as: tuple[bytes, str] | None = None

    @classmethod
    def read(cls, path: Path) -> "Network":
        """Read the network of a file.

        Parameters
        ----------
        path : path
            The file.

        Returns
        -------
        Network
            What the file has; `psi.check` judges it.

        Raises
        ------
        PsiError
            The file cannot be read, or is no TOML.
        """
        return cls.parse(read_file(path), path)

    @classmethod
    def parse(cls, data: bytes | str, path: Path = "the network") -> "Network":
        """The network of a file's bytes, or of its text."""
        data = data.encode() if isinstance(data, str) else data
        try:
            table = plain(toml.read(data))
        except toml.TomlError as fault:
            raise PsiError(f"{path}: {fault}", 3) from None
        net = cls()
        for key in net.table:
            net.table[key] = table.pop(key, [])
            if not all(isinstance(each, dict) for each in net.table[key] or []):
                raise PsiError(f"{path}: {key} isn't an array of tables", 3)
        net.heads = table
        net.read_as = data, repr((net.heads, net.table))
        return net

    def queue(self, name: str, capacity: int, servers: int = 1) -> "Network":
        """Add a queue, and return the network.

        Parameters
        ----------
        name : str
            1 to 32 letters, digits, `_` and `-`.
        capacity : int
            The most customers that it holds, those in service included, 1 to 65,535.
        servers : int
            The number of its servers, 1 to 64 and at most the capacity.
        """
        more = {"servers": servers} if servers != 1 else {}
        self.table["queue"].append({"name": name, "capacity": capacity, **more})
        return self

    def event(
        self,
        name: str,
        kind: str,
        rate: Any,
        source: str | list[str] | None = None,
        to: str | list[str] | None = None,
        **keys: Any,
    ) -> "Network":
        """Add an event, and return the network.

        Parameters
        ----------
        name : str
            1 to 32 letters, digits, `_` and `-`.
        kind : str
            arrival, service, index, batch, negative, fork, join or guarded.
        rate : int
            The rate, of one server where there are several, 1 to 1,048,576; `scaled` makes others
            whole.
        source : str or list of str, optional
            The key `from` of the file: where customers come from.
        to : list of str, optional
            The queues that customers go to.
        **keys
            All other keys of the kind, by their names.
        """
        found = {"kind": kind, "name": name, "rate": rate}
        found |= {"from": source} if source is not None else {}
        found |= {"to": to} if to is not None else {}
        self.table["event"].append({**found, **keys})
        return self

    def reward(self, name: str, kind: str, queues: list[str], **keys: Any) -> "Network":
        """Add a reward, and return the network.

        Parameters
        ----------
        name : str
            1 to 32 letters, digits, `_` and `-`.
        kind : str
            linear with weights, table with a table, greatest, least, or above with a level.
        queues : list of str
            The queues whose customers it is of.
        **keys
            All other keys of the kind, by their names.
        """
        self.table["reward"].append({"kind": kind, "name": name, "queues": queues, **keys})
        return self

    def scaled(self) -> "Network":
        """Return the network with all rates multiplied by the least number that makes each of them whole.

        The stationary distribution is the same. Rates may be ints, Fractions, Decimals, and floats,
        which are taken for the decimal numbers that Python prints of them.

        Returns
        -------
        Network
            Another network; this one is unchanged.

        Raises
        ------
        PsiError
            A rate is no number above 0, or the format has no room for rates so great.

        Examples
        --------
        >>> net = psi.Network().queue("desk", capacity=10).event("come", "arrival", rate=0.8, to=["desk"])
        >>> net.event("serve", "service", rate=1, source="desk").scaled().table["event"][0]["rate"]
        4
        """
        made = self.copy()
        events = made.table["event"]
        rates = [fraction(event["rate"], f"the rate of {event['name']}") for event in events]
        factor = math.lcm(*(rate.denominator for rate in rates))
        for event, rate in zip(events, rates):
            event["rate"] = int(rate * factor)
        total = sum(event["rate"] * made.servers_of(event) for event in events)
        if total > MOST_TOTAL or max((event["rate"] for event in events), default=1) > MOST_RATE:
            raise PsiError(
                f"rates would have to be multiplied by {factor}: a rate is at most {MOST_RATE:,}, "
                f"and all are {MOST_TOTAL:,}, counted over servers"
            )
        return made

    def copy(self) -> "Network":
        """Return a network that can be changed by itself."""
        return copy.deepcopy(self)

    @property
    def queues(self) -> list[str]:
        """The names of the queues, in the order of states."""
        return [queue["name"] for queue in self.table["queue"]]

    @property
    def capacities(self) -> list[int]:
        """The most customers of each queue, in the order of states."""
        return [queue["capacity"] for queue in self.table["queue"]]

    @property
    def rewards(self) -> list[str]:
        """The names of the rewards, in the order of the file."""
        return [reward["name"] for reward in self.table["reward"]]

    def servers_of(self, event: Table) -> int:
        """How many events an event stands for: one of each server of the queue that it serves."""
        if event["kind"] in OF_SERVERS and isinstance(event.get("from"), str):
            source = next(queue for queue in self.table["queue"] if queue["name"] == event["from"])
            return int(source.get("servers", 1))
        return 1

    def followed(self) -> "check_log.Network":
        """The network as the plain checker of logs follows it."""
        from psi_tools import check_log

        return check_log.Network({"version": 2, **self.heads, **self.table})

    def version(self) -> int:
        """The version in the file, or else the least that allows what stands in it."""
        is_second = self.heads.get("limit", 0) > 20
        is_second |= any(event.get("kind") == "guarded" for event in self.table["event"])
        return int(self.heads.get("version", 2 if is_second else 1))

    def toml(self) -> str:
        """Return the text of the network's file."""
        heads = {"version": self.version(), **self.heads}
        lines = [f"{key} = {written(value, key)}\n" for key, value in heads.items()]
        for section, tables in self.table.items():
            for number, table in enumerate(tables, 1):
                keys = sorted(table, key=lambda key: (ORDER + (key,)).index(key))
                of = f"of {section} {shown(table.get('name', number))}"
                lines.append(f"[[{section}]]\n")
                lines += [f"{key} = {written(table[key], f'{key} {of}')}\n" for key in keys]
        return "".join(lines)

    def write(self, path: Path) -> None:
        """Write the network's file.

        Parameters
        ----------
        path : path
            The file that is written.
        """
        with open(path, "w", encoding="utf-8") as file:
            file.write(self.toml())

    def __repr__(self) -> str:
        counts = ((len(tables), section) for section, tables in self.table.items())
        return f"<Network: {', '.join(f'{count} {section}' + 's' * (count != 1) for count, section in counts)}>"

    def _repr_svg_(self) -> str | None:
        """The network's picture, which a notebook shows; none where it cannot be drawn."""
        try:
            from psi_tools.plot import style
            from psi_tools.plot.draw_network import draw_network
            from psi_tools.plot.network_scene import NetworkPicture

            return style.saved(draw_network(NetworkPicture(self, "")), "svg").decode()
        except (ArithmeticError, AttributeError, ImportError, LookupError, PsiError, TypeError, ValueError):
            return None

    @property
    def data(self) -> bytes:
        """The bytes of the network's file; of one that was read, and not changed since, its own."""
        if self.read_as and self.read_as[1] == repr((self.heads, self.table)):
            return self.read_as[0]
        return self.toml().encode()


# What a caller may hand in as a network.
Source = Network | Path


def network_of(net: Source) -> Network:
    """A network, of what a caller has: one itself, or the path of a file."""
    return net if isinstance(net, Network) else Network.read(net)


def data_of(net: Source) -> bytes:
    """The bytes of a network's file, as psi is to read them: those of a path are the file's own,
    whatever stands in it."""
    return net.data if isinstance(net, Network) else read_file(net)


def checked(psi: "Program", path: Path) -> Network:
    """The network of a file that psi takes; raises psi's own refusal where it does not."""
    data = read_file(path)
    try:
        psi.ask("check", data)
    except Refused as refused:
        hint = "; psi-where prints the line" if refused.status == 3 else ""
        raise Refused(f"{refused}{hint}", refused.status, refused.line) from None
    return Network.parse(data, path)


def value_of(reward: Table, numbers: Sequence[int]) -> int:
    """The value of a reward, by the guide's rules, of the numbers of customers in its queues."""
    kind = reward["kind"]
    if kind == "linear":
        return sum(weight * number for weight, number in zip(reward["weights"], numbers))
    if kind == "table":
        return sum(row[number] for row, number in zip(reward["table"], numbers))
    if kind == "above":
        return sum(number > reward["level"] for number in numbers)
    return max(numbers) if kind == "greatest" else min(numbers)


def values_of(net: Network, state: Sequence[int]) -> list[int]:
    """The values of all rewards of a network in a state, in the order of the file."""
    place = {name: number for name, number in zip(net.queues, state)}
    return [value_of(reward, [place[name] for name in reward["queues"]]) for reward in net.table["reward"]]


def header_of(net: Network) -> list[str]:
    """The names of the columns of a table of samples."""
    queues, rewards = (f"queue.{name}" for name in net.queues), (f"reward.{name}" for name in net.rewards)
    return ["stream", "horizon", *queues, *rewards]
