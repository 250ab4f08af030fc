"""python3 -m oracle.log_regions LOG: the regions of a log, read plainly: each step's box or set of states."""

import math
import pathlib
import sys
from collections.abc import Iterator


# The least and the greatest number in each queue, how many states there are, and those of a set.
Region = tuple[list[int], list[int], int, list[tuple[int, ...]] | None]


def regions_of(text: str) -> Iterator[Region]:
    """The regions of a log, from the beginning to time zero."""
    low: list[int] = []
    high: list[int] = []
    for line in text.split("\n")[5:-2]:
        words = line.split(" ")
        form, *pieces = words[1:] if words[0] == "begin" else words[3:]
        rest = [tuple(map(int, piece.split(","))) for piece in pieces]
        if form == "set":
            columns = [*zip(*rest)]
            low, high = [min(column) for column in columns], [max(column) for column in columns]
            yield low, high, len(rest), rest
            continue
        if form == "box":
            low, high = [*rest[0]], [*rest[1]]
        for queue, *ends in rest if form == "move" else ():
            low, high = [*low], [*high]
            low[queue], high[queue] = ends
        yield low, high, math.prod(b - a + 1 for a, b in zip(low, high)), None


def main() -> None:
    """Prints how many states the log of a file begins with, how many steps before time zero one is left,
    and which."""
    regions = [*regions_of(pathlib.Path(sys.argv[1]).read_text())]
    closed = max(place for place, region in enumerate(regions) if region[2] > 1) + 1
    print(f"states {regions[0][2]}\nclosed {len(regions) - 1 - closed}")
    print(f"at {','.join(map(str, regions[closed][0]))}")


if __name__ == "__main__":
    main()
