"""Logs that the program writes, of the gallery's networks and of small generated ones, each changed in
one place or left as it is: by these the program's replay and check_log.py are compared (test_logs.py). The
changes are drawn by their number, so they are always the same.
"""

import copy
import itertools
import math
import re
import tempfile
import types
from collections.abc import Callable, Iterator, Sequence
from typing import Any, TypeVar

from generate.small_networks import Dice, network, table
from tests.support import EXAMPLES, answer, write

T = TypeVar("T")
# `box` or `set`, and its corners or its states.
Region = list[Any]


class NoPlace(Exception):
    """A log has no place for a change."""


class Log:
    """A log with its network's file: the header, the first region, the numbers of each step and the
    region after it, and the state. A region is whole here: `box` with its two corners, or `set`
    with its states. The dice choose among the places for a change.
    """

    def __init__(self, net: str, text: str) -> None:
        self.net, self.dice = net, Dice(0)
        *header, begin, rest = text.split("\n", 6)
        *steps, end, _ = rest.split("\n")
        self.header: list[list[Any]] = [[name, int(number)] for name, number in map(str.split, header)]
        self.regions = [region_of(begin.split(" ")[1:], None)]
        self.steps: list[list[int]] = []
        for line in steps:
            _, time, event, *words = line.split(" ")
            self.steps.append([int(time), int(event)])
            self.regions.append(region_of(words, self.regions[-1]))
        self.end = numbers_of(end.split(" ")[1])

    def is_second(self) -> bool:
        return bool(self.header[0][1] == 2)

    def lines(self) -> list[str]:
        lines = [f"{name} {number}" for name, number in self.header]
        lines.append(" ".join(["begin", *region_words(self.regions[0])]))
        for numbers, before, after in zip(self.steps, self.regions, self.regions[1:]):
            words = region_words(after)
            if self.is_second() and before[0] == after[0] == "box":
                words = move_words(before, after)
            lines.append(" ".join(["step", *map(str, numbers), *words]))
        return [*lines, f"end {state_word(self.end)}"]

    def text(self) -> str:
        return text_of(self.lines())

    def picked(self, places: Sequence[T]) -> T:
        """One of the places for a change."""
        if not places:
            raise NoPlace
        return self.dice.pick(places)

    def place(self, form: str, few: int = 1) -> int:
        """The place of a region of this form with at least that many states, or corners."""
        return self.picked([at for at, region in enumerate(self.regions) if region[0] == form and len(region) > few])

    def moves(self) -> list[int]:
        """The places of the boxes after a box."""
        forms = [region[0] for region in self.regions]
        return [at for at, both in enumerate(itertools.pairwise(forms), 1) if both == ("box", "box")]

    def with_words(self, place: int, words: list[str]) -> str:
        """The text with other words after the numbers of the line of a region."""
        lines = self.lines()
        lines[5 + place] = " ".join([*lines[5 + place].split(" ")[:3], *words])
        return text_of(lines)

    def with_other_move(self, words: Callable[[Region, Region], list[str]]) -> str:
        """The text with other words for a box after a box, which are made of both."""
        place = self.picked(self.moves())
        return self.with_words(place, words(*self.regions[place - 1 : place + 1]))


class ChangedLog(Log):
    """A log that is changed in one place, or left as it is, by one of these calls: it changes the parts of the log,
    or returns another text; it raises NoPlace where the log has no place for it. They are drawn in this order."""

    def as_it_is(self) -> None:
        pass

    def other_version(self) -> None:
        self.header[0][1] = 1 if self.is_second() else 2

    def other_words(self) -> None:
        self.header[2 + self.dice.below(2)][1] += 1

    def other_number_of_queues(self) -> None:
        """Every state gets a queue that the network doesn't have."""
        self.header[1][1] += 1
        for state in [self.end, *(state for region in self.regions for state in region[1:])]:
            state.append(0)

    def lower_limit(self) -> None:
        self.net = with_key(self.net, "limit", 1)

    def other_horizon(self) -> None:
        number = self.header[4][1]
        self.header[4][1] = self.dice.pick([number + 1, max(1, number - 1), 2 * number, 1 << 22, 0])

    def other_time(self) -> None:
        self.dice.pick(self.steps)[0] += self.dice.pick([1, -1])

    def other_event(self) -> None:
        step = self.dice.pick(self.steps)
        step[1] = max(0, step[1] + self.dice.pick([1, -1]))

    def exchanged_events(self) -> None:
        place = self.dice.below(len(self.steps) - 1)
        first, second = self.steps[place : place + 2]
        first[1], second[1] = second[1], first[1]

    def wider_box(self) -> None:
        """An end of a box goes one further out, past the capacity too."""
        _, low, high = self.regions[self.place("box")]
        queue = self.dice.below(len(low))
        if self.dice.coin() and low[queue]:
            low[queue] -= 1
        else:
            high[queue] += 1

    def narrower_box(self) -> None:
        """An end of a box goes one further in, past the other end too."""
        _, low, high = self.regions[self.place("box")]
        queue = self.dice.below(len(low))
        if self.dice.coin() or not high[queue]:
            low[queue] += 1
        else:
            high[queue] -= 1

    def moved_end(self) -> None:
        """Where a step moves an end of a box, this end stays, or another queue's end goes one further
        in: in most cases the box is too narrow then."""
        moves = [
            (place, side, queue)
            for place in self.moves()
            for side in (1, 2)
            for queue in range(len(self.end))
            if self.regions[place][side][queue] != self.regions[place - 1][side][queue]
        ]
        place, side, queue = self.picked(moves)
        before, after = self.regions[place - 1][side], self.regions[place][side]
        if self.dice.coin():
            after[queue] = before[queue]
        else:
            other = self.dice.below(len(after))
            after[other] = max(0, after[other] + (1 if side == 1 else -1))

    def larger_set(self) -> None:
        """A set gets a state more, which another set of the log has, or which is outside."""
        place, other = self.place("set"), self.place("set")
        state = list(self.dice.pick(self.regions[other][1:]))
        if self.dice.below(4) == 0:
            state[self.dice.below(len(state))] = 200
        self.regions[place] = set_of([state, *self.regions[place][1:]])

    def smaller_set(self) -> None:
        region = self.regions[self.place("set", 2)]
        region.pop(1 + self.dice.below(len(region) - 1))

    def set_out_of_order(self) -> None:
        """Two neighbours of a set change places, or one stands twice."""
        region = self.regions[self.place("set", 2)]
        at = 1 + self.dice.below(len(region) - 2)
        region[at : at + 2] = [region[at + 1], region[at + self.dice.below(2)]]

    def set_as_a_box(self) -> None:
        """A set becomes the box of its states, and with it, by chance, all after it."""
        first = self.place("set")
        for place in range(first, first + 1 if self.dice.coin() else len(self.regions)):
            columns = [*zip(*self.regions[place][1:])]
            self.regions[place] = ["box", [*map(min, columns)], [*map(max, columns)]]

    def box_as_a_set(self) -> None:
        """A box becomes the set of its states, or of its two corners where there are too many."""
        place = self.place("box")
        _, low, high = self.regions[place]
        sides = (range(a, b + 1) for a, b in zip(low, high))
        some = [*itertools.islice(itertools.product(*sides), 400)]
        self.regions[place] = set_of(some if len(some) < 400 else [low, high])

    def large_box_as_a_set(self) -> None:
        """What follows a box of more than 4,096 states is a set."""
        boxes = [(place, zip(*region[1:])) for place, region in enumerate(self.regions[:-1]) if region[0] == "box"]
        places = [place for place, ends in boxes if math.prod(b - a + 1 for a, b in ends) > 4096]
        self.regions[self.picked(places) + 1] = ["set", self.end]

    def last_region_wider(self) -> None:
        """The last region has another state too."""
        self.regions[-1] = set_of([self.end, self.dice.pick(self.regions)[1]])

    def other_state(self) -> None:
        queue = self.dice.below(len(self.end))
        self.end[queue] = max(0, self.end[queue] + self.dice.pick([1, -1]))

    def other_first_line(self) -> str:
        fronts = ["psi-log 3", "psi-log 2 ", "psi-log ", "psi-log", "Psi-log 2", "psi-log 2\r"]
        return text_of([self.dice.pick(fronts), *self.lines()[1:]])

    def line_left_out(self) -> str:
        lines = self.lines()
        lines.pop(self.dice.below(len(lines)))
        return text_of(lines)

    def line_twice(self) -> str:
        lines = self.lines()
        at = self.dice.below(len(lines))
        return text_of([*lines[:at], lines[at], *lines[at:]])

    def exchanged_lines(self) -> str:
        lines = self.lines()
        at = self.dice.below(len(lines) - 1)
        lines[at : at + 2] = lines[at + 1], lines[at]
        return text_of(lines)

    def front_alone(self) -> str:
        text = self.text()
        return text[: self.dice.below(len(text))]

    def text_behind(self) -> str:
        return self.text() + self.dice.pick(["\n", "x", "end 0\n", " "])

    def other_spaces(self) -> str:
        lines = self.lines()
        at = self.dice.below(len(lines))
        words = lines[at].split(" ")
        front = 1 + self.dice.below(len(words) - 1)
        joined = " ".join(words[:front]), " ".join(words[front:])
        lines[at] = self.dice.pick(["  ", "\t", "", " ,"]).join(joined) if self.dice.coin() else lines[at] + " "
        return text_of(lines)

    def other_numeral(self) -> str:
        """A number in another form, or out of its range."""
        lines = self.lines()
        at = 1 + self.dice.below(len(lines) - 1)
        found = self.dice.pick([*re.finditer(r"\d+", lines[at])])
        wrong = "0" + found[0], "+" + found[0], "", "x", "65536", "1" + "0" * 19, "9" * 30
        lines[at] = lines[at][: found.start()] + self.dice.pick(wrong) + lines[at][found.end() :]
        return text_of(lines)

    def other_length(self) -> str:
        """A state has a number more or less."""
        lines = self.lines()
        at = 5 + self.dice.below(len(lines) - 5)
        *words, last = lines[at].split(" ")
        lines[at] = " ".join([*words, last + ",0" if self.dice.coin() else last.rpartition(",")[0]])
        return text_of(lines)

    def other_word(self) -> str:
        lines = self.lines()
        at = 5 + self.dice.below(len(lines) - 5)
        lines[at] = lines[at].replace(*self.dice.pick([("step", "Step"), ("box", "set"), ("set", "box"), ("e", "E")]))
        return text_of(lines)

    def whole_box(self) -> str:
        """A box after a box is written whole."""
        return self.with_other_move(lambda before, after: region_words(after))

    def move_of_each_queue(self) -> str:
        """A box after a box is written with queues that didn't change too."""

        def words(before: Region, after: Region) -> list[str]:
            return ["move", *map(state_word, zip(itertools.count(), *after[1:]))]

        return self.with_other_move(words)

    def other_move(self) -> str:
        """A move of no queue, upside down, out of order, too long, or of another number of parts."""

        def words(before: Region, after: Region) -> list[str]:
            queues = len(after[1])
            moves = [f"{queue},{queue + 1},{queue + 7}" for queue in range(queues)]
            wrong = [[f"{queues},0,1"], ["0,7,6"], ["0,0"], ["0,0,0,0"], [""]]
            return ["move", *self.dice.pick([*wrong, moves, moves[-1:], moves[::-1], moves[:1] * 33])]

        return self.with_other_move(words)

    def move_without_a_box(self) -> str:
        """A set is written as a move."""
        places = [place for place, region in enumerate(self.regions) if place and region[0] == "set"]
        return self.with_words(self.picked(places), ["move"])

    def set_of_too_many(self) -> str:
        """A set of 4,097 states, or of none."""
        lines = self.lines()
        at = 5 + self.dice.below(len(lines) - 6)
        front = lines[at].split(" ")[: 1 if at == 5 else 3]
        rest = ",0" * (len(self.end) - 1)
        count = self.dice.pick([0, 4096, 4097])
        lines[at] = " ".join([*front, "set", *(f"{n}{rest}" for n in range(count))])
        return text_of(lines)

    def lines_of_another_system(self) -> str:
        return self.text().replace("\n", "\r\n", self.dice.pick([1, -1]))

    def other_byte(self) -> str:
        text = self.text()
        at = self.dice.below(len(text))
        return text[:at] + self.dice.pick("0 9,\nbsx") + text[at + 1 :]

    def too_long(self) -> str:
        text = self.text()
        return text + "0" * (33_554_432 + self.dice.below(2) - len(text))


def numbers_of(word: str) -> list[int]:
    return [*map(int, word.split(","))]


def state_word(state: Sequence[int]) -> str:
    return ",".join(map(str, state))


def region_of(words: list[str], before: Region | None) -> Region:
    form, pieces = words[0], [numbers_of(word) for word in words[1:]]
    if form != "move":
        return [form, *pieces]
    assert before
    _, low, high = copy.deepcopy(before)
    for queue, least, most in pieces:
        low[queue], high[queue] = least, most
    return ["box", low, high]


def region_words(region: Region) -> list[str]:
    return [region[0], *map(state_word, region[1:])]


def move_words(before: Region, after: Region) -> list[str]:
    changes = zip(itertools.count(), zip(*before[1:]), zip(*after[1:]))
    return ["move", *(state_word([queue, *new]) for queue, old, new in changes if old != new)]


def set_of(states: Sequence[Sequence[int]]) -> Region:
    """The set of some states, in ascending order."""
    return ["set", *([*state] for state in sorted({tuple(state) for state in states}))]


def text_of(lines: list[str]) -> str:
    return "".join(f"{line}\n" for line in lines)


def with_key(net: str, key: str, number: int) -> str:
    """The network's file with another number for a key of its top."""
    top, rest = net.split("[[", 1)
    top = re.sub(rf"^{key} *=.*\n", "", top, flags=re.M)
    return re.sub(r"^(version.*\n)", rf"\g<1>{key} = {number}\n", top, flags=re.M) + "[[" + rest


Change = Callable[[ChangedLog], str | None]
CHANGES: list[Change] = [each for each in vars(ChangedLog).values() if isinstance(each, types.FunctionType)]
TRIALS, ROUNDS = 6, 3
# A box that is too narrow tells most: only there it shows whether an end of a hull is reached.
OTHER_TRIALS: dict[Change, int] = {ChangedLog.moved_end: 120, ChangedLog.too_long: 2}
STREAMS, SMALL_NETWORKS = 20, 40
SHORTEST, LONGEST = 3, 130


def wide_network() -> str:
    """The file of a network whose 14,641 states are too many for a set, and which are soon one."""
    text = "version = 2\n" + "".join(table("queue", {"name": name, "capacity": 10}) for name in "abcd")
    for name in "abcd":
        text += table("event", {"name": f"in-{name}", "kind": "arrival", "rate": 1, "to": [name]})
        text += table("event", {"name": f"out-{name}", "kind": "service", "rate": 1, "from": name})
    parts = [{"queue": name, "ceiling": 0} for name in "abcd"]
    return text + table("event", {"name": "clear", "kind": "guarded", "rate": 1, "part": parts})


def networks() -> Iterator[str]:
    """The files of the networks: the gallery's with sets, and with boxes, and generated ones."""
    for file in sorted(EXAMPLES.glob("*.toml")):
        yield from (with_key(file.read_text(), "split", split) for split in (1, 5, 256))
    yield from map(network, range(SMALL_NETWORKS))
    yield from (with_key(wide_network(), "split", split) for split in (1, 4096))


def written(program: str, number: int, net: str) -> ChangedLog | None:
    """A log that the program writes for a network, neither short nor long; or none."""
    with tempfile.TemporaryDirectory() as room:
        write(room, {"net.toml": net.encode()})
        for stream in range(STREAMS):
            status, text, fault = answer([program, "sample", "net.toml", number, stream, "log"], room)
            assert status in (0, 1), f"the program writes no log: {fault!r}"
            if status == 0 and SHORTEST <= text.count(b"\n") - 7 <= LONGEST:
                return ChangedLog(net, text.decode())
    return None


def changed_logs(logs: list[ChangedLog]) -> Iterator[tuple[str, str, str]]:
    """The changed logs, each with the name of the change and its network."""
    for place, change in enumerate(CHANGES):
        found = 0
        for turn, log in enumerate((logs[7 * place :] + logs[: 7 * place]) * ROUNDS):
            changed = copy.deepcopy(log)
            changed.dice = Dice(1000 * place + turn)
            try:
                text = change(changed)
            except NoPlace:
                continue
            found += 1
            yield change.__name__, changed.net, changed.text() if text is None else text
            if found == OTHER_TRIALS.get(change, TRIALS):
                break
