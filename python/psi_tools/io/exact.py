"""Reads a text that `psi exact NET SEED STREAM H` prints."""

import dataclasses
import re

from psi_tools.errors import InputError, require

NUMBER = "[1-9][0-9]{0,4}"
STATES, IMAGE = re.compile(f"states ({NUMBER})"), re.compile(f"image ({NUMBER}) ({NUMBER})")
STATE = "(?:0|[1-9][0-9]{0,4})(?:,(?:0|[1-9][0-9]{0,4})){0,31}"
CONSTANT = re.compile(f"constant ({NUMBER}) ({STATE})|not constant within ({NUMBER})")
REGION = re.compile(f"region ({NUMBER}|none)")


@dataclasses.dataclass
class Shrinking:
    """How the image of all states shrinks with the length of the past.

    Attributes
    ----------
    states : int
        The number of states of the network.
    images : dict of int to int
        The number of states that are left, by the number of steps: 1, 2, 4, and so on.
    constant : int or None
        The least horizon, in steps, at which all states have coalesced; none where there is not one.
    state : str or None
        The state at which they coalesce, its numbers with commas between.
    region : int or None
        The least horizon at which the region run ends in one state.
    """

    states: int
    images: dict[int, int]
    constant: int | None
    state: str | None
    region: int | None

    def _repr_html_(self) -> str:
        rows = "".join(f"<tr><td>{steps:,}</td><td>{left:,}</td></tr>" for steps, left in self.images.items())
        return f"<table><tr><th>steps</th><th>states left of {self.states:,}</th></tr>{rows}</table>"

    def longest(self) -> int:
        """The longest past that was looked at."""
        return max(self.images)


def read_exact(data: bytes) -> Shrinking:
    """Reads the text in some bytes."""
    try:
        lines = data.decode("ascii").split("\n")
    except UnicodeDecodeError:
        raise InputError("not a text of exact: it has bytes beyond ASCII") from None
    place = 0

    def taken(form: re.Pattern[str], wanted: str) -> tuple[str, ...]:
        nonlocal place
        match = form.fullmatch(lines[place]) if place < len(lines) else None
        place += 1
        if match is None:
            raise InputError(f"{'not a text of exact: ' * (place == 1)}line {place} isn't {wanted}")
        return match.groups()

    (states,) = map(int, taken(STATES, "'states N'"))
    images: dict[int, int] = {}
    while not images or (place < len(lines) and lines[place].startswith("image ")):
        time, size = map(int, taken(IMAGE, f"'image {1 << len(images)} N'"))
        is_next = time == 1 << len(images) <= 1 << 12
        require(is_next, f"line {place} isn't the next power of two, to 2^12")
        is_less = size <= min([states, *images.values()])
        require(is_less, f"line {place} has more states than the line before")
        images[time] = size
    constant, state, within = taken(CONSTANT, "'constant T S' or 'not constant within N'")
    constant_line = place
    (region,) = taken(REGION, "'region T' or 'region none'")
    require(len(lines) > place, f"line {place} doesn't end")
    require(lines[place:] == [""], f"line {place + 1} is one too many")
    least = int(constant) if constant else None
    found = Shrinking(states, images, least, state, None if region == "none" else int(region))
    judge(found, int(within) if within else None, constant_line)
    return found


def judge(found: Shrinking, within: int | None, line: int) -> None:
    """Refuses lines that contradict one another."""
    longest, constant, region = found.longest(), found.constant, found.region
    require(2 <= found.states <= 65_536, "line 1 isn't a number of states from 2 to 65536")
    require(within in (None, longest), f"line {line} speaks of another horizon than the line before")
    require(constant is None or constant <= longest, f"line {line} is beyond the longest past")
    for time, size in found.images.items():
        is_one = constant is not None and constant <= time
        require((size == 1) == is_one, f"line {line} isn't what the images say of {time} steps")
    is_late = region is None or constant is not None and constant <= region <= longest
    require(is_late, f"line {line + 1} is below the constant, or beyond the longest past")
