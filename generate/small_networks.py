"""python3 -m generate.small_networks COUNT [COMMAND] > FILE.cases

Writes a case of a command, `sample` where none is named, for each of that many small networks, which
are drawn by their number:

- of `sample`: up to three queues of up to four customers, and up to four events of all eight kinds;
- of `exact`: those of these networks in which the regions meet later than the states do, or not at
  all, and a tenth of the others;
- of `closed`: two to five queues of up to four customers, and services that move these around; one
  network in eight has an event that may do something else.

What is wanted is what the plain program answers (plain.py), which lists states and shares nothing
with the proved one. The seed is the number, and the stream its square.
"""

import sys
import tomllib
from collections.abc import Iterator, Mapping, Sequence
from typing import Any, TypeVar

from generate.case_files import case, write
from oracle import plain
from oracle.plain_network import Network

T = TypeVar("T")
# The keys of an event, or of another table of a network.
Entry = dict[str, Any]
SPLITS = (1, 1, 1, 2, 3, 5, 8, 64, 4096)
NAMES = "abcde"
KINDS = "arrival service service index batch negative fork join guarded".split()
ALL = (1 << 64) - 1


def written(value: object) -> str:
    """A value in TOML; names need no escapes."""
    if isinstance(value, dict):
        return "{" + ", ".join(f"{key} = {written(item)}" for key, item in value.items()) + "}"
    if isinstance(value, list):
        return "[" + ", ".join(map(written, value)) + "]"
    return f'"{value}"' if isinstance(value, str) else str(value)


def lists(tables: Mapping[str, Any]) -> str:
    """The file of a network, a line for each queue and event."""
    lines: list[str] = []
    for key, value in tables.items():
        if isinstance(value, list):
            lines += [f"{key} = [", *(f"    {written(item)}," for item in value), "]"]
        else:
            lines.append(f"{key} = {value}")
    return "\n".join([*lines, ""])


def table(header: str, keys: Mapping[str, Any]) -> str:
    """A table of an array, an item a line."""
    return f"[[{header}]]\n" + "".join(f"{key} = {written(item)}\n" for key, item in keys.items())


class Dice:
    """Numbers that look random, by a linear congruence (Knuth's MMIX)."""

    def __init__(self, number: int) -> None:
        self.seed = number
        self.below(1)
        self.below(1)

    def below(self, count: int) -> int:
        self.seed = (self.seed * 6364136223846793005 + 1442695040888963407) & ALL
        return (self.seed >> 32) % count

    def upto(self, greatest: int) -> int:
        return self.below(greatest) + 1

    def coin(self) -> bool:
        return self.below(2) == 0

    def pick(self, words: Sequence[T]) -> T:
        return words[self.below(len(words))]


def some(dice: Dice, queues: Sequence[str], without: str | None = None, least: int = 1) -> list[str]:
    """Some of the queues in some order, without this one: at least that many if there are others."""
    others = [queue for queue in queues if queue != without]
    start, step = dice.below(len(queues)), -1 if dice.coin() else 1
    others = (others[start:] + others[:start])[::step]
    kept = [queue for queue in others if dice.below(3) > 0]
    return kept if len(kept) >= least else others[:least]


def source(dice: Dice, queues: Sequence[str]) -> str | None:
    """A queue where there are others, or none."""
    return dice.pick(queues) if len(queues) > 1 and dice.coin() else None


def value(rule: int, place: int, number: int) -> int:
    """The value of a target's table: the first rule rises, the second falls, the others do both."""
    if rule == 0:
        return number * 3 + min(place, 2)
    if rule == 1:
        return 1_000_000_000 - number
    return (number * rule + place * 3) % 5


def index(dice: Dice, caps: dict[str, int]) -> Entry:
    origin = source(dice, list(caps))
    to = some(dice, list(caps), origin)
    rule = dice.below(8)
    size = {} if origin else {"size": dice.upto(min(caps[queue] for queue in to))}
    keys: Entry = {"from": origin} if origin else size
    rows = [[value(rule, place, n) for n in range(caps[queue])] for place, queue in enumerate(to)]
    return {"kind": "index", **keys, "to": to, "table": rows, "full": dice.pick(["lost", "stay"])}


def part(dice: Dice, queue: str, cap: int) -> Entry:
    """A part of a guarded event: a guard, a shift, and bounds."""
    keys: Entry = {"queue": queue, "shift": dice.below(7) - 3}
    if dice.coin():
        keys["least"] = dice.below(cap + 1)
        keys["most"] = min(keys["least"] + dice.below(cap), cap)
    if dice.below(3) == 0:
        keys["floor"] = dice.below(cap + 1)
        keys["ceiling"] = min(keys["floor"] + dice.below(cap), cap)
    return keys


def event(dice: Dice, caps: dict[str, int]) -> Entry:
    """The keys of an event of one of the eight kinds."""
    queues = list(caps)
    kind = dice.pick(KINDS)
    if kind == "arrival":
        return {"kind": kind, "to": some(dice, queues)}
    if kind == "service":
        origin = dice.pick(queues)
        to = some(dice, queues, origin, least=0)
        return {"kind": kind, "from": origin, "to": to, "full": dice.pick(["lost", "stay"])}
    if kind == "index":
        return index(dice, caps)
    if kind == "batch":
        to = some(dice, queues)
        return {"kind": kind, "to": to, "size": dice.upto(min(caps[queue] for queue in to))}
    if kind == "negative":
        chosen, on = source(dice, queues), dice.pick(queues)
        keys: Entry = {"from": chosen} if chosen not in (None, on) else {}
        return {"kind": kind, **keys, "on": on, "amount": dice.upto(3)}
    if kind == "fork":
        chosen = source(dice, queues)
        keys = {"from": chosen} if chosen else {}
        return {"kind": kind, **keys, "to": some(dice, queues, chosen)}
    if kind == "join":
        origins = some(dice, queues)
        rest = [queue for queue in queues if queue not in origins]
        keys = {"to": rest[0]} if rest and dice.coin() else {}
        return {"kind": kind, "from": origins, **keys}
    return {"kind": kind, "part": [part(dice, queue, caps[queue]) for queue in some(dice, queues)]}


def network(number: int) -> str:
    dice = Dice(number)
    caps = {name: dice.upto(4) for name in NAMES[: dice.upto(3)]}
    text = f"version = 2\nlimit = {dice.below(7)}\nsplit = {dice.pick(SPLITS)}\n"
    for name, cap in caps.items():
        text += table("queue", {"name": name, "capacity": cap, "servers": min(dice.upto(2), cap)})
    for place in range(dice.upto(4)):
        text += table("event", {"name": f"e{place}", "rate": dice.upto(8), **event(dice, caps)})
    return text


def closed_network(number: int) -> str:
    """The file of the closed network of a number, or of one that is nearly closed."""
    dice = Dice(number)
    queues = NAMES[: 1 + dice.upto(4)]
    caps = {name: dice.upto(4) for name in queues}
    text = f"version = 2\nlimit = {dice.below(10)}\n"
    for name, cap in caps.items():
        text += table("queue", {"name": name, "capacity": cap, "servers": min(dice.upto(3), cap)})
    for place in range(len(queues) + dice.below(3)):
        origin = queues[place % len(queues)]
        to = [dice.pick([queue for queue in queues if queue != origin])]
        keys = {"kind": "service", "from": origin, "to": to, "full": "stay"}
        if dice.below(8 * len(queues)) == 0:
            keys = event(dice, caps)
        text += table("event", {"name": f"e{place}", "rate": dice.upto(8), **keys})
    return text


def is_kept(command: str, number: int, answer: str) -> bool:
    """Whether the case of a number is written, of which this is wanted."""
    if command != "exact" or number % 10 == 0:
        return True
    *_, meeting, region = answer.splitlines()
    return meeting.startswith("constant") and meeting.split()[1] != region.split()[1]


def cases(count: int, command: str) -> Iterator[bytes]:
    """The cases of a command, of that many numbers."""
    for number in range(count):
        text = closed_network(number) if command == "closed" else network(number)
        net, numbers = Network(tomllib.loads(text)), [number, number * number]
        if command == "closed":
            numbers.append(Dice(number).below(2 + sum(net.caps)))
        if command == "exact":
            numbers.append(number % 7)
        status, answer = getattr(plain, command)(net, *numbers)
        if not is_kept(command, number, answer):
            continue
        name = f"small-{number:04}" if command == "sample" else f"small-{command}-{number:04}"
        texts = (answer.encode(), b"") if status <= 1 else (b"", answer.encode())
        words = [command, "net.toml", *map(str, numbers)]
        yield case(name, words, {"net.toml": text.encode()}, status, *texts)


if __name__ == "__main__":
    write(cases(int(sys.argv[1]), sys.argv[2] if len(sys.argv) > 2 else "sample"))
