"""Times that are compared: a measure and a base run by turns, so that both find the machine alike.

What else a machine does changes its pace from one second to the next, so that no time is the same twice. Of
short runs that alternate both find nearly the same pace, and their ratio is steady where their times are not.
"""

import dataclasses
import math
import resource
import statistics
from collections.abc import Callable, Mapping
from typing import Generic, TypeVar

# A turn ends once both took so many seconds, and the measure ran so often or took so many more: two processes
# of the same kind differ, if only by where their memory is.
SHORTEST, RUNS, LONG = 0.3, 3, 1.2
# After so many turns none begins that would probably make more than so many seconds of all.
FEWEST, BUDGET = 3, 60.0
LIMITS = {"shortest": SHORTEST, "runs": RUNS, "long": LONG, "fewest": FEWEST, "budget": BUDGET}


@dataclasses.dataclass
class Taken:
    """The processor time in seconds of a start, and of the whole run that begins with it."""

    start: float
    measured: float

    @property
    def work(self) -> float:
        """The seconds of the run without its start."""
        return max(self.measured - self.start, 1e-9)


T = TypeVar("T", bound=Taken)


def seconds_of_programs() -> float:
    """The processor time of all programs that have ended so far."""
    used = resource.getrusage(resource.RUSAGE_CHILDREN)
    return used.ru_utime + used.ru_stime


def mean_of(runs: list[T]) -> T:
    """Runs of one kind as one, which takes the mean of their times."""
    start, measured = (statistics.fmean(times) for times in zip(*((run.start, run.measured) for run in runs)))
    return dataclasses.replace(runs[0], start=start, measured=measured)


def trimmed_mean(values: list[float]) -> float:
    """The mean of values without the least and the greatest (a trimmed mean); not a number where there is none."""
    return statistics.fmean(sorted(values)[1:-1] or values or [math.nan])


class Turns(Generic[T]):
    """The runs of some measures, the first of which is the base, with which the others are compared. In a turn
    the base and another measure run by turns. A measure that answers with none has no turn."""

    def __init__(
        self, measures: Mapping[str, Callable[[], T | None]], clock: Callable[[], float] = seconds_of_programs
    ) -> None:
        self.base, *self.others = measures
        self.measures, self.clock, self.spent, self.number = measures, clock, 0.0, 0
        # For each measure the means of its runs in each turn, and of those of the base beside them.
        self.pairs: dict[str, list[tuple[T, T]]] = {name: [] for name in measures}

    def run(self, name: str, runs: list[T]) -> float:
        """Runs a measure, unless it has no answer, and returns the seconds that it took."""
        began = self.clock()
        found = self.measures[name]()
        runs += [found] if found else []
        return self.clock() - began

    def turn(self, name: str) -> None:
        """Runs the base and another measure, always the one that took less time so far. The base is first and
        last."""
        base, own = list[T](), list[T]()
        of_base, of_own = self.run(self.base, base), 0.0
        while min(of_base, of_own) < SHORTEST or (len(own) < RUNS and of_own < LONG):
            if of_own < of_base:
                of_own += self.run(name, own)
                if not own:
                    return self.others.remove(name)
            else:
                of_base += self.run(self.base, base)
        self.run(self.base, base)
        self.pairs[self.base].append((mean_of(base), mean_of(base)))
        self.pairs[name].append((mean_of(own), mean_of(base)))

    def take(self) -> None:
        """Takes one more turn of each measure, unless the budget is spent."""
        if self.number >= FEWEST and self.spent * (self.number + 1) / self.number > BUDGET:
            return
        began = self.clock()
        for name in [*self.others] or [self.base]:
            self.turn(name)
        self.number += 1
        self.spent += self.clock() - began

    def trimmed_mean(self, name: str, of: Callable[[T], float]) -> float:
        """The trimmed mean of a figure over the turns of a measure; not a number where it has none."""
        return trimmed_mean([of(own) for own, _ in self.pairs[name]])

    def ratios(self, name: str, of: Callable[[T], float]) -> list[float]:
        """What each run of a measure has of a figure, relative to the base beside it."""
        return [of(own) / of(base) for own, base in self.pairs[name]]

    def ratio(self, name: str, of: Callable[[T], float]) -> float:
        """The trimmed mean of these ratios; not a number where there is none."""
        return trimmed_mean(self.ratios(name, of))

    def spreads(self, of: Callable[[T], float]) -> list[float]:
        """Half the interquartile range of these ratios, relative to the median, for each other measure."""
        all_ratios = [self.ratios(name, of) for name in self.others]
        quartiles = [statistics.quantiles(some, method="inclusive") for some in all_ratios if len(some) > 1]
        return [(high - low) / 2 / median for low, median, high in quartiles]
