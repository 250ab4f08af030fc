"""Which crate is proved next, with how many jobs, and how long the rest takes.

Seconds are those of seconds.txt, for one job and for four. The clock of this machine is compared
with them by `Pace`.
"""

from collections.abc import Callable, Collection, Iterable, Mapping

from tools.build.crates import Crates

# The crates under way: the jobs of each, and its seconds so far at full speed.
UnderWay = Mapping[str, tuple[int, float]]
MOST_JOBS = 4
# A crate that seconds.txt does not list: seconds a line of its sources, how much faster four jobs
# are, and MB of memory.
SECONDS_A_LINE, GAIN, MEMORY = 0.2, 1.5, 1_600
# How much more memory each job beside the first one takes, as a share.
JOB_SHARE = 0.5
# The part of a processor that each job beside the first one uses, and how many processors are idle
# where one more crate is started.
JOB_USE, LEAST_IDLE = 0.25, 0.2
# The part of its own time so far that a crate is taken to need still when its time is over.
OVERDUE = 0.15


class Costs:
    """What the proof of each crate takes: seconds with one job and with four, and MB of memory."""

    def __init__(self, text: str, lines: Callable[[str], int]) -> None:
        """`text` is that of seconds.txt, `lines` returns how many lines of code a crate has."""
        self.listed: dict[str, tuple[float, ...]] = {}
        self.lines = lines
        for line in text.splitlines():
            words = line.partition("#")[0].split()
            if words:
                self.listed[words[0]] = tuple(map(float, words[1:]))

    def of(self, name: str) -> tuple[float, ...]:
        """Returns seconds with one job, seconds with four, and MB."""
        if name not in self.listed:
            one = SECONDS_A_LINE * self.lines(name)
            self.listed[name] = one, one / GAIN, MEMORY
        return self.listed[name]

    def seconds(self, name: str, jobs: int) -> float:
        """Returns about how many seconds a crate takes with so many jobs."""
        one, four, _ = self.of(name)
        share = (1 - 1 / min(jobs, MOST_JOBS)) / (1 - 1 / MOST_JOBS)
        return one + (four - one) * share

    def memory(self, name: str, jobs: int) -> float:
        """Returns about how many MB a crate takes with so many jobs."""
        return self.of(name)[2] * (1 + JOB_SHARE * (jobs - 1))


class Schedule:
    """Starts crates on the longest chain first, each once those below it are proved.

    Crates are started until all processors are in use, with one job each. Several jobs take more
    processor time in all than one. So only the crate with which the longest chain begins gets
    several, since that chain decides when all is over, and a crate beside which nothing else can be
    started."""

    def __init__(self, crates: Crates, costs: Costs, processors: int, memory: float, most: int | None = None) -> None:
        """`processors` is how many may be used, `memory` how many MB, and `most` how many crates
        may be under way at a time, if that is bounded."""
        self.crates, self.costs, self.most = crates, costs, most or len(crates.names)
        self.processors, self.memory = processors, memory
        self.behind = dict.fromkeys(crates.names, 0.0)
        for name in reversed(crates.names):
            self.behind[name] += costs.seconds(name, 1)
            for below in crates.uses[name]:
                self.behind[below] = max(self.behind[below], self.behind[name])

    def used(self, running: Mapping[str, int]) -> float:
        """Returns how many processors some crates use on average; `running` has their jobs."""
        return sum(1 + JOB_USE * (jobs - 1) for jobs in running.values())

    def rate(self, running: Mapping[str, int]) -> float:
        """Returns the part of their speed that crates have which share the processors."""
        return min(1, self.processors / max(1, self.used(running)))

    def ready(self, waiting: Iterable[str], done: Collection[str]) -> list[str]:
        """Returns the crates that can be started, the longest chain first."""
        found = [name for name in waiting if {*done}.issuperset(self.crates.uses[name])]
        return sorted(found, key=lambda name: -self.behind[name])

    def jobs_of(self, name: str, idle: float) -> int:
        """Returns how many jobs a crate gets that may use so many processors."""
        most = min(MOST_JOBS, self.processors)
        while most > 1 and (self.used({name: most}) > idle or self.costs.memory(name, most) > self.memory / 3):
            most -= 1
        return most

    def next(
        self, waiting: Collection[str], done: Collection[str], running: Mapping[str, int]
    ) -> tuple[str, int] | None:
        """Returns the crate to start now and its jobs, or none. `running` has the jobs of those
        under way."""
        ready = self.ready(waiting, done)
        idle = self.processors - self.used(running)
        if not ready or len(running) >= self.most or running and idle < LEAST_IDLE:
            return None
        taken = sum(self.costs.memory(*it) for it in running.items())
        longest = max(self.behind[name] for name in (*ready, *running))
        for name in ready:
            decides = self.behind[name] == longest or len(ready) == 1
            jobs = self.jobs_of(name, idle) if decides else 1
            if taken + self.costs.memory(name, jobs) <= self.memory:
                return name, jobs
        return None if running else (ready[0], 1)

    def left(self, waiting: Collection[str], done: Collection[str], running: UnderWay, pace: "Pace") -> float:
        """Returns about how many seconds the rest takes, by playing it through. `running` has jobs
        and the seconds so far at full speed."""
        clock, waiting, done = 0.0, set(waiting), set(done)
        jobs = {name: it for name, (it, _) in running.items()}
        rest = {
            name: max(pace.seconds(name, it, running) - so_far, OVERDUE * so_far)
            for name, (it, so_far) in running.items()
        }
        while waiting or rest:
            while found := self.next(waiting, done, jobs):
                name, jobs[found[0]] = found
                waiting.discard(name)
                rest[name] = pace.seconds(*found, running)
            name, rate = min(rest, key=rest.__getitem__), self.rate(jobs)
            took = rest.pop(name)
            clock += took / rate
            rest = {other: it - took for other, it in rest.items()}
            del jobs[name]
            done.add(name)
        return clock


class Pace:
    """How many seconds of this machine a second of seconds.txt takes, where a crate has one job and
    where it has several: how much faster several jobs are is not the same everywhere."""

    # The seconds for which the list is believed before anything was proved here, and those for which
    # crates with several jobs are taken to be like those with one, and the other way round.
    PRIOR, SHARED = 20, 100
    # The part of its listed seconds below which a crate was proved earlier, and says nothing.
    LEAST = 0.1

    def __init__(self, costs: Costs) -> None:
        self.costs = costs
        # What crates took here and in the list, by whether they had several jobs.
        self.sums = {False: (0.0, 0.0), True: (0.0, 0.0)}

    def add(self, name: str, jobs: int, seconds: float) -> None:
        """Notes what a crate took at full speed."""
        listed = self.costs.seconds(name, jobs)
        if seconds >= self.LEAST * listed:
            took, so_far = self.sums[jobs > 1]
            self.sums[jobs > 1] = took + seconds, so_far + listed

    def value(self, has_several: bool, running: UnderWay) -> float:
        """Returns the pace of crates with several jobs, or with one; of the crates under way those
        count that are slower than it."""
        one, several = self.sums.values()
        all_took, all_listed = (self.PRIOR + it + other for it, other in zip(one, several))
        took, listed = self.sums[has_several]
        took, listed = took + self.SHARED * all_took / all_listed, listed + self.SHARED
        for name, (jobs, so_far) in running.items():
            own = self.costs.seconds(name, jobs)
            if (jobs > 1) == has_several and so_far * listed > took * own:
                took, listed = took + so_far, listed + own
        return took / listed

    def seconds(self, name: str, jobs: int, running: UnderWay) -> float:
        """Returns about how many seconds a crate takes here with so many jobs."""
        return self.value(jobs > 1, running) * self.costs.seconds(name, jobs)
