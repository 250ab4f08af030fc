"""The prose of PERFORMANCE.md."""

CALLED = {
    "paths": "PSI by paths",
    "chain": "plain chain",
    "simpy": "SimPy",
    "scipy": "scipy.sparse",
    "octave": "octave-queueing",
}
# The headings of the tables that have ratios, and the columns in which these stand.
COMPARING, WALKING, GROWING = "PSI beside other methods", "Paths beside the plain chain", "How the time grows"
RATIO, STEPS_RATIO, EACH = "ratio", "ratio of steps", "time a sample"
RATIOS = {COMPARING: {*CALLED.values()}, WALKING: {RATIO, STEPS_RATIO}, GROWING: {EACH}}
HEAD = """
This page reports how fast PSI draws samples, how the time grows, and what other methods take for
the same answer. Read it before you choose a method. `bench/run` measures everything and writes the
page.

Compare ratios, not seconds. The machine may have been busy, as its load at the end of this page
shows, and its pace changes. So PSI and another method run by turns, always the one that took less time
so far, until each took {shortest} seconds and the method ran {runs} times or took {long} seconds. The method's
mean time is divided by that of PSI. There are {rounds} such turns, spread over the whole measurement, and
a ratio is their mean without the least and the greatest. A comparison ends after {fewest} turns or more,
once another turn would make more than {budget:.0f} seconds in all. All times are processor times of whole
processes; those in seconds are such means as well.

Instructions are counted by callgrind, and hardly depend on what else runs.
"""
COMPARED = """
Every method finds the mean length of one queue within 1 % of itself, at a confidence level of 95 %.
The entries are how many times PSI's time a method takes: below 1 the other method is faster. A dash
means that the method does not apply, or that it was not measured.

- PSI: independent samples, until the confidence interval is that narrow.
- PSI by paths: `psi_paths` lets the network run on from samples, and every step counts. The paths are
the values of the interval.
- Plain chain: `bench/chain`, a forward simulation of the uniformized chain in plain Rust. It is one
long run, whose interval comes from {batches} batches, after one batch of warm-up.
- SimPy: `bench/forward_simpy.py`, with a process for each event. It simulates the model time that
the plain chain needs, since both simulate the same process. Beside other work it slows down far more
than compiled programs do, so its ratios hold for a similar load only.
- scipy.sparse: `bench/solve.py` solves the stationary equations, up to {most:,} states.
- octave-queueing: where the network has product form.

PSI, paths, the plain chain and SimPy run for a part of the time, which is scaled: the width of a
confidence interval falls with the square root of the work. The estimates of PSI, paths and the plain
chain come from one run each, and their times from runs of a part of its steps. A closed network has no
report: each of its samples is a process of its own, so the start of the program is part of the time of
each.
"""
WALKS = """
A path begins in a sample, so it needs no warm-up, and its interval takes nothing for independent but
the streams. Here {paths} samples are drawn, and from each a path, until the mean of one queue is known
within 1 % at a confidence level of 95 %. The plain chain has a warm-up of a twentieth of its run, which
its user has to know. A step of a path is one random word, idle or not; the sums of all queues and all
counts of events are part of it. A step of the plain chain is an event, and sums one queue. Paths and the
plain chain run by turns.
"""
PSI = """
PSI is the tool where a chain is too large to be solved, has no product form, and nobody knows how
long a warm-up has to be. It is also the tool where samples have to be independent, have to be the
same again from a seed and a stream, or have to be certified by a log.

For a mean take paths: each step after a sample counts. Samples are for distributions, joint events and
certificates. PSI is not the tool for many figures of a mean, since its time grows with the square of the
precision, nor for the mean of a closed network with product form.
"""
ADVICE = {
    "paths": "It is the tool for means and rates of a chain whose warm-up nobody knows: there is none.",
    "chain": "It is the tool for long averages, where you know a warm-up that is long enough: all "
    "states of one run count, and a step costs little. Its intervals take batches for independent, "
    "and nothing in its output shows a warm-up that was too short.",
    "simpy": "It is the tool where service times are not exponential, or where the model has rules "
    "that PSI's events cannot express. It needs a warm-up as well.",
    "scipy": "It is the tool for small chains: its answer is exact up to rounding, and has the "
    "probability of every state. Its time includes the start of Python, which is most of it for "
    "the smallest networks. It grows with the number of states, which multiplies with each queue.",
    "octave": "It is the tool where the network has product form: its answer is exact, and most of its time is the "
    "start of Octave. Blocking, finite queues, forks and index routing have no product form in general.",
}
BIAS = """
A forward simulation begins at some state, and its user guesses when that is forgotten. Here
M/M/1/100 with a load of 0.95 begins empty. The means of {runs:,} runs of {steps:,} steps each are
averaged, as by a user who relies on replications. The true mean is {exact:.3f}.
"""
BIAS_END = """
More runs make the interval narrower and leave the error as it is. A sample of PSI has no such
error: it has the stationary distribution, and needs no warm-up.
"""
GROWTH = """
The time a sample takes is relative to the first row of its table, with which each other row runs by
turns. It is the product of two numbers:
how many steps a sample needs, which the network decides, and the time of a step.

- Queues: lines of queues of 20 places at a load of 0.8, with blocking.
- Capacity: one queue at a load of 0.8.
- Events: five queues of 20 places at a load of 0.8. Their arrivals and services are spread over
that many events, which leaves the chain as it is.
- Load: a line of three queues of 50 places, with blocking.
"""
SAMPLES = """
A step is one random event of the horizon at which a sample coalesced. The shorter horizons that
were tried first are part of the time. Time and instructions are those of `psi report`, and of
`psi closed` for closed networks, without the start of the program, which takes {start:.1f} ms. The
seed is 0 and the first stream 0, so the samples are the same on each machine. Memory is the
greatest that was seen resident.
"""
MEANS = """
These means were found in the time that was measured, with half of the 95 % confidence interval. A
mean without one is exact up to rounding. The runs in SimPy are too short for an estimate; on small
networks the tests of this repository compare it with the solved chain.
"""
