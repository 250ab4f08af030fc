"""What else finds a mean queue length: each method's estimate, and the time that the target takes.

The target is the mean length of the watched queue within 1 % of itself, at a confidence of 95 %.
What a run of moderate length comes to is scaled: the half-width of an interval falls with the
square root of the work. Times are processor times of whole processes, their start included.
"""

import csv
import dataclasses
import io
import math
import os
import pathlib
import shutil
import statistics
import subprocess
import sys

import solve
from events import events_of, text_of
from measure import Run, run, steps_of, sums_of
from networks import SQUARED, WATCHED, Case, one_queue
from turns import Taken

TARGET, SEED = 0.01, 1
# Student's t for 19 degrees of freedom, and the normal quantile, both for 95 %.
BATCHES, T_QUANTILE, Z_QUANTILE = 20, 2.093, 1.96
# How many paths there are, and Student's t for 29 degrees of freedom.
PATHS, PATHS_QUANTILE = 30, 2.045
HERE = pathlib.Path(__file__).resolve().parent
PYTHON = "/usr/bin/python3" if os.access("/usr/bin/python3", os.X_OK) else sys.executable


@dataclasses.dataclass
class Found(Taken):
    """A method's estimate of the mean, half of its 95 % interval (0 where it is exact), with the seconds of
    its start and of the whole run, how many times that run's work the target takes and, of a simulation,
    the steps of the run."""

    mean: float
    half: float
    times: float = 1.0
    steps: int | None = None

    @property
    def seconds(self) -> float:
        """The seconds until the target: the start, and the rest of the run scaled."""
        return self.start + self.work * self.times

    @property
    def step(self) -> float:
        """The nanoseconds a step; not a number where there are none."""
        return math.nan if self.steps is None else self.work / self.steps * 1e9

    def timed_by(self, part: "Found") -> "Found":
        """The same estimate, with the times of a run of fewer steps."""
        assert self.steps and part.steps
        return dataclasses.replace(part, mean=self.mean, half=self.half, times=self.times * self.steps / part.steps)


def times_of(mean: float, half: float) -> float:
    """How many times the work of an estimate the target takes."""
    return (half / (TARGET * mean)) ** 2


def by_psi(program: str, file: str, case: Case, samples: int) -> Found:
    """The mean over samples, which are independent."""
    if case.total is not None:
        return by_closed(program, file, case, samples)
    start = run([program, "check", file]).seconds
    done = run([program, "report", file, "0", "0", str(samples)])
    sums = sums_of(done.out)
    mean = sums["reward-sum", WATCHED] / samples
    squares = sums["reward-sum", SQUARED] / samples
    half = Z_QUANTILE * math.sqrt((squares - mean * mean) / (samples - 1))
    return Found(start, done.seconds, mean, half, times_of(mean, half), steps_of(done.out))


def by_closed(program: str, file: str, case: Case, samples: int) -> Found:
    """The same of a closed network: each sample is a process of its own."""
    place, values, steps, seconds = case.net.queues.index(case.watched), [], 0, 0.0
    for stream in range(samples):
        done = run([program, "closed", file, "0", str(stream), str(case.total)])
        _, horizon, _, state = done.out.split()
        values.append(int(state.split(",")[place]))
        steps += int(horizon)
        seconds += done.seconds
    mean = statistics.fmean(values)
    half = Z_QUANTILE * statistics.stdev(values) / math.sqrt(samples)
    return Found(0, seconds, mean, half, times_of(mean, half), steps)


def by_paths(program: str, file: str, case: Case, steps: int) -> Found:
    """The mean over paths that begin in samples, of that many steps in all. The samples are drawn for each
    precision; what is scaled is the rest."""
    closed = [] if case.total is None else ["closed", str(case.total)]
    each, call = max(1, steps // PATHS), [program, file, "0", "0", str(PATHS)]
    start = run([*call, "0", *closed]).seconds
    done = run([*call, str(each), *closed])
    rows = csv.DictReader(io.StringIO(done.out))
    means = [int(row[f"queue.{case.watched}"]) / (each + 1) for row in rows]
    mean = statistics.fmean(means)
    half = PATHS_QUANTILE * statistics.stdev(means) / math.sqrt(PATHS)
    return Found(start, done.seconds, mean, half, times_of(mean, half), PATHS * each)


def batch_means(done: Run) -> list[float]:
    """The means that the plain chain printed."""
    return [float(line) for line in done.out.splitlines()]


def by_chain(chain: str, file: str, steps: int) -> Found:
    """The mean over one long run of the plain chain, by batches, after a batch of warm-up."""
    batch = str(steps // BATCHES)
    start = run([chain, file, str(SEED), "1", "0", "1", "0"]).seconds
    done = run([chain, file, str(SEED), "1", batch, batch, str(BATCHES)])
    means = batch_means(done)
    mean = statistics.fmean(means)
    half = T_QUANTILE * statistics.stdev(means) / math.sqrt(BATCHES)
    return Found(start, done.seconds, mean, half, times_of(mean, half), (BATCHES + 1) * (steps // BATCHES))


def by_simpy(file: str, case: Case, time: float, needed: float) -> Found:
    """The mean over a run in SimPy of this model time. The target takes the model time that the
    plain chain needs for it, since both simulate the same process."""
    words = [PYTHON, str(HERE / "forward_simpy.py"), file, str(SEED)]
    more = ["--watched", case.watched]
    more += [] if case.total is None else ["--total", str(case.total)]
    start = run([*words, "0.001", "0", *more]).seconds
    done = run([*words, str(time), "0", *more])
    return Found(start, done.seconds, float(done.out.split()[0]), math.nan, needed / time)


def by_solving(file: str, case: Case) -> Found | None:
    """The mean by the stationary equations; none where there are too many states."""
    if solve.count_of(case.net.capacities, case.total) > solve.MOST_STATES:
        return None
    more = [] if case.total is None else ["--total", str(case.total)]
    done = run([PYTHON, str(HERE / "solve.py"), file, case.watched, *more])
    return Found(0.0, done.seconds, float(done.out.split()[0]), 0.0)


def by_product_form(case: Case) -> Found | None:
    """The mean by octave-queueing; none where the network has no product form, or Octave is not
    there."""
    octave = shutil.which("octave-cli") or shutil.which("octave")
    if not case.has_product_form or not octave:
        return None
    done = run([octave, "--no-gui", "--quiet", "--eval", octave_text(case)])
    return Found(0.0, done.seconds, float(done.out.split()[-1]), 0.0)


def octave_text(case: Case) -> str:
    """What Octave computes of a network with product form: M/M/1/K, or a closed one of single
    servers, by mean value analysis."""
    place = case.net.queues.index(case.watched) + 1
    shows = f'printf("%.12g\\n", q({place}));'
    if case.total is None:
        come, serve = (event["rate"] for event in case.net.table["event"])
        call = f"qsmm1k({come}, {serve}, {case.net.capacities[0]})"
        return f"pkg load queueing; [u r q] = {call}; {shows}"
    rows = rates_of(case)
    chances = "; ".join(" ".join(f"{rate}/{sum(row)}" for rate in row) for row in rows)
    services = " ".join(f"1/{sum(row)}" for row in rows)
    call = f"qncsmva({case.total}, [{services}], qncsvisits([{chances}]))"
    return f"pkg load queueing; [u r q] = {call}; {shows}"


def rates_of(case: Case) -> list[list[int]]:
    """The rates from each queue to each other of a closed network."""
    count = len(case.net.queues)
    rows = [[0] * count for _ in range(count)]
    for event in events_of(case.net):
        rows[event.takes[0]][event.targets[0]] += event.rate
    return rows


@dataclasses.dataclass
class Bias:
    """What replications of one length from the empty state come to, after a warm-up: the mean over
    all, half of its 95 % interval, and how far the mean is off."""

    warm: int
    mean: float
    half: float
    off: float


def biases(chain: str, folder: pathlib.Path, warms: tuple[int, ...], steps: int, runs: int) -> tuple[float, list[Bias]]:
    """The exact mean length of M/M/1/100 at a load of 0.95, and what replications of the plain
    chain come to that begin at an empty queue."""
    net = one_queue(100, 95, 100)
    file = folder / "bias.net"
    file.write_text(text_of(net, "desk", None))
    exact, found = solve.mean_of(net, "desk", None)[0], []
    for warm in warms:
        numbers = map(str, (SEED, runs, warm, steps, 1))
        means = batch_means(run([chain, str(file), *numbers]))
        mean = statistics.fmean(means)
        half = Z_QUANTILE * statistics.stdev(means) / math.sqrt(runs)
        found.append(Bias(warm, mean, half, mean / exact - 1))
    return exact, found


def built_chain(folder: pathlib.Path) -> str | None:
    """The plain chain, built by cargo in a folder; none where cargo is not there."""
    cargo = shutil.which("cargo")
    if not cargo:
        return None
    call = [cargo, "build", "--release", "--offline", "--quiet", "--target-dir", str(folder)]
    subprocess.run(call, cwd=HERE / "chain", check=True)
    return str(folder / "release/chain")
