"""Samples of many streams, as arrays and as tables."""

from collections.abc import Callable, Iterable
from typing import Any, TypeVar

import numpy
import pandas

from psi.calls import ProgressBar, resolved, streams_of, warn_uncoupled
from psi.results import NotCoupled
from psi_tools.errors import whole_argument
from psi_tools.draw import paths as of_paths
from psi_tools.draw.states import MOST_TOTAL, Draw, any_drawing, drawing
from psi_tools.draw.program import Program, Streams, blocks_of, table_size
from psi_tools.io.columns import Array, Columns
from psi_tools.model.networks import Network, Source, header_of, network_of
from psi_tools.stats.spans import Spans

Value = TypeVar("Value")


def samples(
    net: Source, seed: int = 0, first: int = 0, count: int = 1000, keep: bool = False, *, program: Program | None = None
) -> numpy.ndarray[Any, Any]:
    """Draw independent samples from the stationary distribution of a network.

    Parameters
    ----------
    net : Network or path
        A network, or the path of its file.
    seed, first : int
        The seed and the first stream, 0 to 2^64 - 1. The sample of a network, a seed and a stream is always the same.
    count : int
        The number of streams, at least 1.
    keep : bool
        Whether a stream that is not coupled becomes a row of -1 instead of an exception. It may not
        be left out, since the others are biased.
    program : Program, optional
        The program that is run; the one that is built, or on the PATH, by default.

    Returns
    -------
    numpy.ndarray of int, shape (count, queues)
        A row for each stream, and a column for each queue in the order of the file: its number of
        customers, those in service included. The type is the narrowest signed one that holds all
        capacities, as int8, so use `astype(int)` before you add or multiply columns.

    Raises
    ------
    NotCoupled
        A stream is not coupled within the network's limit, and `keep` is false.
    Refused
        The network is refused; `line` is psi's own line.

    Examples
    --------
    >>> states = psi.samples(net, seed=0, first=0, count=100)
    >>> states.shape
    (100, 1)
    >>> bool((states >= 0).all() and (states <= 10).all())
    True
    """
    return _array(net, seed, first, count, keep, None, resolved(program))


def closed(
    net: Source,
    total: int,
    seed: int = 0,
    first: int = 0,
    count: int = 1000,
    keep: bool = False,
    *,
    program: Program | None = None,
) -> numpy.ndarray[Any, Any]:
    """Draw independent samples of a closed network.

    Parameters
    ----------
    net : Network or path
        A network whose customers neither come nor leave, or the path of its file.
    total : int
        The number of customers in all, 0 to 256.
    seed, first : int
        The seed and the first stream, 0 to 2^64 - 1.
    count : int
        The number of streams, at least 1.
    keep : bool
        Whether a stream that is not coupled becomes a row of -1 instead of an exception.
    program : Program, optional
        The program that is run; the one that is built, or on the PATH, by default.

    Returns
    -------
    numpy.ndarray of int, shape (count, queues)
        A row for each stream, and a column for each queue in the order of the file, in customers.
        Each row adds up to `total`. The type is as that of `samples`.

    Raises
    ------
    NotCoupled
        A stream is not coupled within the network's limit, and `keep` is false.
    Refused
        The network is refused, or is not closed.

    Examples
    --------
    >>> ring = psi.Network().queue("a", capacity=3).queue("b", capacity=3)
    >>> ring = ring.event("go", "service", rate=1, source="a", to=["b"], full="stay")
    >>> ring = ring.event("back", "service", rate=2, source="b", to=["a"], full="stay")
    >>> psi.closed(ring, total=3, count=50).sum(axis=1).tolist() == [3] * 50
    True
    """
    total = whole_argument("total", total, 0, MOST_TOTAL)
    return _array(net, seed, first, count, keep, total, resolved(program))


def states(
    net: Source,
    seed: int = 0,
    first: int = 0,
    count: int = 1_000,
    total: int | None = None,
    *,
    program: Program | None = None,
) -> pandas.DataFrame:
    """Draw independent samples with their horizons and rewards, as `psi_states` prints them.

    Parameters
    ----------
    net : Network or path
        A network, or the path of its file.
    seed, first : int
        The seed and the first stream, 0 to 2^64 - 1. The sample of a network, a seed and a stream is always the same.
    count : int
        The number of streams, at least 1.
    total : int, optional
        The number of customers in a closed network, 0 to 256; without it the network is an open one.
    program : Program, optional
        The program beside which psi_states is run; the one that is built, or on the PATH, by
        default.

    Returns
    -------
    pandas.DataFrame
        A row for each stream, in their order. The columns are stream; horizon, in steps; queue.NAME
        for each queue, in customers; and reward.NAME for each reward, in its unit. A stream that
        is not coupled has its row, whose other columns are missing. All columns but the first have
        pandas' nullable integers: those of a queue are the narrowest signed ones that hold its
        capacity, as Int8, so use `astype` before you multiply or add columns.

    Raises
    ------
    Refused
        The network is refused, or is not closed; `line` is the one that psi has for it.

    Warns
    -----
    Uncoupled
        Streams are not coupled. Means and counts pass over missing values, so they are biased.

    Examples
    --------
    >>> net = psi.Network().queue("desk", capacity=10).queue("till", capacity=5)
    >>> net = net.event("come", "arrival", rate=4, to=["desk"])
    >>> net = net.event("serve", "service", rate=5, source="desk", to=["till"], full="stay")
    >>> net = net.event("pay", "service", rate=6, source="till")
    >>> table = psi.states(net, seed=0, first=0, count=500)
    >>> list(table.columns)
    ['stream', 'horizon', 'queue.desk', 'queue.till']
    >>> bool((table["queue.desk"] <= 10).all())
    True
    >>> both = ((table["queue.desk"] > 5) & (table["queue.till"] > 2)).mean()
    >>> bool(0 < both < 1)
    True
    """
    if total is not None:
        total = whole_argument("total", total, 0, MOST_TOTAL)
    net, program = network_of(net), resolved(program)
    seed, first, count = streams_of(seed, first, count)
    draw, names = drawing(program, net, seed, total), header_of(net)
    is_met, numbers = _drawn(draw, program, net, first, count, names[1:])
    types: list[Any] = [numpy.int64, *map(_narrow, net.capacities), *(numpy.int64 for _ in net.rewards)]
    return _frame(first, is_met, zip(names[1:], types, numbers))


def paths(
    net: Source,
    seed: int = 0,
    first: int = 0,
    count: int = 100,
    steps: int = 10_000,
    total: int | None = None,
    *,
    program: Program | None = None,
) -> pandas.DataFrame:
    """Draw independent stationary paths, and sum queues and rewards along each, as `psi_paths` prints them.

    Parameters
    ----------
    net : Network or path
        A network, or the path of its file.
    seed, first : int
        The seed and the first stream, 0 to 2^64 - 1. The path of a network, a seed and a stream is always the same.
    count : int
        The number of streams, at least 1: one path each.
    steps : int
        The number of steps of a path after its sample, 0 to 4,290,772,992.
    total : int, optional
        The number of customers in a closed network, 0 to 256; without it the network is an open one.
    program : Program, optional
        The program beside which psi_paths is run; the one that is built, or on the PATH, by default.

    Returns
    -------
    pandas.DataFrame
        A row for each stream, in their order. The columns are stream; horizon and steps, in steps;
        queue.NAME and reward.NAME, the sums of the customers and of the value over the steps + 1
        states of the path; and for each event NAME and each server K from 1 on event.NAME.K and
        moved.NAME.K, how often the event was chosen, and how often it changed the state. A stream
        that is not coupled has its row, whose other columns are missing. All columns but the first
        are pandas' Int64; that of a reward whose sum may pass 64 bits has Python's own integers.

    Raises
    ------
    Refused
        The network is refused, or is not closed; `line` is the one that psi has for it.

    Warns
    -----
    Uncoupled
        Streams are not coupled. Means and counts pass over missing values, so they are biased.

    Notes
    -----
    A path begins in the sample of its stream, so it is stationary: the mean of a sum is steps + 1
    times the stationary mean. The states of one path depend on each other. For an interval take the
    paths for the values, which are independent.

    Examples
    --------
    >>> table = psi.paths(net, seed=0, first=0, count=20, steps=1_000)
    >>> list(table.columns[:5])
    ['stream', 'horizon', 'steps', 'queue.desk', 'event.come.1']
    >>> means = table["queue.desk"] / 1_001
    >>> bool(2 < means.mean() < 4)
    True
    >>> bool((table["moved.serve.1"] <= table["event.serve.1"]).all())
    True
    """
    if total is not None:
        total = whole_argument("total", total, 0, MOST_TOTAL)
    steps = whole_argument("steps", steps, 0, of_paths.MOST_STEPS)
    opened, own = network_of(net), resolved(program)
    seed, first, count = streams_of(seed, first, count)
    found = _under_bar(
        own, first, count, lambda blocks, done: of_paths.paths_of(own, opened, seed, blocks, steps, total, done)
    )
    is_met = numpy.array([row is not None for row in found])
    numbers = [row.split(",") for row in found if row is not None]
    # The sum of a reward along a path may pass 64 bits.
    spans = Spans(opened, {})
    ends = {f"reward.{name}": spans.of_reward(name).ends for name in opened.rewards}
    wide = {name for name, (least, most) in ends.items() if max(-least, most) * (steps + 1) >= 2**63}
    names = of_paths.header_of(opened)[1:]
    types: list[Any] = [object if name in wide else numpy.int64 for name in names]
    columns = ([int(row[place]) for row in numbers] for place in range(len(names)))
    return _frame(first, is_met, zip(names, types, columns))


def _frame(first: int, is_met: Array, columns: Iterable[tuple[str, Any, Any]]) -> pandas.DataFrame:
    """A table of streams from the first one on; each column has its name, the type of its whole numbers, and those of
    the streams that are coupled. It is missing for the others, which are warned of."""
    warn_uncoupled(int((~is_met).sum()), len(is_met), "means of the others are biased", stacklevel=4)
    frame: dict[str, Any] = {"stream": numpy.arange(len(is_met), dtype=numpy.uint64) + numpy.uint64(first)}
    for name, kind, numbers in columns:
        values = numpy.full(len(is_met), pandas.NA if kind is object else 0, kind)
        values[is_met] = numbers
        frame[name] = values if kind is object else pandas.arrays.IntegerArray(values, ~is_met)
    return pandas.DataFrame(frame)


def _narrow(capacity: int) -> "numpy.dtype[Any]":
    """The narrowest type of signed integers for -1 and the customers of a queue."""
    return numpy.min_scalar_type(-capacity - 1)


def _array(net: Source, seed: int, first: int, count: int, keep: bool, total: int | None, program: Program) -> Array:
    """The states of some streams, as rows."""
    net = network_of(net)
    seed, first, count = streams_of(seed, first, count)
    queues = header_of(net)[2 : 2 + len(net.queues)]
    is_met, numbers = _drawn(any_drawing(program, net, seed, total), program, net, first, count, queues)
    lost = numpy.flatnonzero(~is_met)
    if len(lost) and not keep:
        which = f"{len(lost):,} of {count:,} streams, first {first + int(lost[0])}"
        raise NotCoupled(f"not coupled: {which}; the others alone are biased", 1)
    rows = numpy.full((len(is_met), len(net.queues)), -1, _narrow(max(net.capacities)))
    for place, column in enumerate(numbers):
        rows[is_met, place] = column
    return rows


def _drawn(
    draw: Draw, program: Program, net: Network, first: int, count: int, names: list[str]
) -> tuple[Array, list[Array]]:
    """Which of some streams are coupled; and of these some columns."""
    header = header_of(net)

    def read(block: Streams) -> tuple[Array, list[Array]]:
        table = Columns(header, draw(block), *block)
        return table.is_met, [table.column(name) for name in names]

    found = _under_bar(program, first, count, lambda blocks, done: program.all(read, blocks, done))
    columns = zip(*(columns for _, columns in found))
    return numpy.concatenate([is_met for is_met, _ in found]), [numpy.concatenate(column) for column in columns]


def _under_bar(
    program: Program, first: int, count: int, draw: Callable[[list[Streams], Callable[[int], None]], Value]
) -> Value:
    """What is drawn of some streams, in blocks under a bar."""
    size = table_size(count, program.jobs)
    with ProgressBar(count) as bar:
        return draw(blocks_of(first, count, size), lambda done: bar.show(min(done * size, count)))
