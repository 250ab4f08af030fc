"""What the studies of intervals share: their arguments, and the tally of how often intervals hold what they are of."""

import argparse
import pathlib
import statistics
import sys
from fractions import Fraction

TOP = pathlib.Path(__file__).resolve().parent.parent


def words_of(psi: str | None = str(TOP / "crates/psi/out/psi"), **defaults: object) -> argparse.Namespace:
    """The arguments of a study: PSI, --repetitions, and options by their defaults. Python's path gets the package,
    or another version of it that --package names, and its tests."""
    reader = argparse.ArgumentParser()
    reader.add_argument("psi", nargs="?", default=psi)
    for name, default in {"repetitions": 400, "package": str(TOP / "python"), **defaults}.items():
        reader.add_argument(f"--{name}", type=type(default), default=default)
    words = reader.parse_args()
    sys.path[:0] = [words.package, str(TOP / "python/tests")]
    sys.dont_write_bytecode = True
    return words


class Tally:
    """How often the intervals of a row held what they are of, and how wide they are."""

    def __init__(self, name: str, wanted: float) -> None:
        self.name, self.wanted, self.held = name, wanted, 0
        self.widths: list[float] = []

    def take(self, low: float | Fraction, high: float | Fraction) -> None:
        """Counts an interval. What it is of is rounded, and so are its ends."""
        self.held += low - 1e-9 <= self.wanted <= high + 1e-9
        self.widths.append(float(high - low))

    def report(self) -> float:
        """Prints the line of the row, and returns how many of 100 intervals held."""
        of_all, width = 100 * self.held / len(self.widths), statistics.median(self.widths)
        print(f"{of_all:6.2f} of 100  width {width:10.4g}  {self.name}", flush=True)
        return of_all
