"""Reports, means and distributions over many samples, as DataFrames."""

import functools
import warnings
from collections.abc import Sequence
from typing import Any

import pandas

from psi.calls import ProgressBar, drawn, resolved, streams_of, warn_uncoupled
from psi.results import FewSamples, Probability
from psi_tools.draw.blocks import digest_of
from psi_tools.draw.law import Samples
from psi_tools.draw.program import Program
from psi_tools.errors import ArgumentError, PsiError, level_argument
from psi_tools.io.reports import together
from psi_tools.model.networks import Source, data_of, network_of
from psi_tools.stats.batches import REWARD, batches_of, record
from psi_tools.stats.guaranteed import ASSUMED, Guarantee, GuaranteedLaw, Pilot, file_of, guaranteed_means
from psi_tools.stats.law import RECORD, SHARED, Law


def check(net: Source, *, program: Program | None = None) -> str:
    """Check a network, and describe its queues and events.

    Parameters
    ----------
    net : Network or path
        A network, or the path of its file.
    program : Program, optional
        The program that is run; the one that is built, or on the PATH, by default.

    Returns
    -------
    str
        What `psi check` prints: a line for each queue and each event, with the monotonicity check.

    Raises
    ------
    Refused
        The network is refused; `line` is psi's own line.

    Examples
    --------
    >>> psi.check(net).splitlines()[1]
    'queue desk 10 1'
    """
    return resolved(program).ask("check", data_of(net)).out


def report(
    net: Source, seed: int = 0, first: int = 0, count: int = 1_000, *, program: Program | None = None
) -> pandas.DataFrame:
    """Draw a report of samples, as `psi report` prints it.

    Parameters
    ----------
    net : Network or path
        A network, or the path of its file.
    seed, first : int
        The seed and the first stream, 0 to 2^64 - 1. The sample of a network, a seed and a stream is always the same.
    count : int
        The number of streams, at least 1; there may be more than 65,536.
    program : Program, optional
        The program that is run; the one that is built, or on the PATH, by default.

    Returns
    -------
    pandas.DataFrame
        A row for each record, with the columns item, name and value. Sums are in customers, or in
        the reward's unit; horizons are in steps. Values are whole, and Python's own integers where
        they have more than 64 bits.

    Raises
    ------
    Refused
        The network is refused.

    Warns
    -----
    Uncoupled
        Streams that are not coupled are left out, so the others are biased.

    Examples
    --------
    >>> table = psi.report(net, seed=0, first=0, count=200)
    >>> int(table.set_index("item").loc["samples", "value"])
    200
    """
    seed, first, count = streams_of(seed, first, count)
    whole = functools.reduce(together, drawn(resolved(program), data_of(net), seed, first, count))
    warn_uncoupled(whole.samples - whole.met, whole.samples)
    rows = [line.split(",") for line in whole.text().decode().splitlines()[1:]]
    table = pandas.DataFrame(rows, columns=["item", "name", "value"])
    values = [int(value) for value in table["value"]]
    is_small = all(-(2**63) <= value < 2**63 for value in values)
    table["value"] = pandas.Series(values, dtype="int64" if is_small else object)
    return table


def means(
    net: Source,
    seed: int = 0,
    first: int = 0,
    count: int = 10_000,
    level: float = 0.95,
    guaranteed: bool = False,
    *,
    program: Program | None = None,
) -> pandas.DataFrame:
    """Estimate the stationary means of all queues and rewards, with confidence intervals.

    Parameters
    ----------
    net : Network or path
        A network, or the path of its file.
    seed, first : int
        The seed and the first stream, 0 to 2^64 - 1.
    count : int
        The number of streams, at least 1. For intervals there are 20 or more.
    level : float
        The confidence level, 0.5 to 0.9999.
    guaranteed : bool
        Whether the coverage of each interval is a theorem, by the sums alone. `attrs` of the
        DataFrame then has the certificates, and what is assumed.
    program : Program, optional
        The program that is run; the one that is built, or on the PATH, by default.

    Returns
    -------
    pandas.DataFrame
        A row for each queue, in customers, and each reward, in its unit. The index has two levels,
        kind, which is 'queue' or 'reward', and name. The columns are mean; half, low and high of
        the interval; least and greatest of the samples. Where low and high are not symmetric they
        say more than half.

    Raises
    ------
    Refused
        The network is refused.

    Warns
    -----
    Uncoupled
        Streams are not coupled: the means are of the others, and the intervals are wider.
    FewSamples
        A few samples carry a mean.

    Notes
    -----
    The values of 20 batches or more have Student's t, and an end also allows for a large value that
    did not come. A row of two values has the interval of Clopper and Pearson.

    Examples
    --------
    >>> found = psi.means(net, seed=0, first=0, count=2_000)
    >>> list(found.columns)
    ['mean', 'half', 'low', 'high', 'least', 'greatest']
    >>> exact = sum(n * 0.8**n for n in range(11)) / sum(0.8**n for n in range(11))
    >>> bool(abs(found.loc[("queue", "desk"), "mean"] - exact) < 0.3)
    True
    """
    seed, first, count = streams_of(seed, first, count)
    level, data = level_argument(level), data_of(net)
    batches = batches_of(drawn(resolved(program), data, seed, first, count)).of_network(network_of(net))
    warn_uncoupled(batches.uncoupled, count, "the means are of the others, and biased; intervals are wider")
    columns = ["mean", "half", "low", "high", "least", "greatest"]
    names = [("reward" if row.kind == REWARD else "queue", row.name) for row in batches.rows]
    index = pandas.MultiIndex.from_tuples(names, names=["kind", "name"])
    if guaranteed:
        claims, records = guaranteed_means(batches, level)
        table = pandas.DataFrame(records, index=index, columns=columns)
        return _certified(table, claims, {"network": digest_of(data), "seed": seed, "first": first, "count": count})
    for line in batches.carried():
        warnings.warn(line, FewSamples, stacklevel=2)
    found = [record("", row.name, batches.mean(row, level), row.least, row.greatest) for row in batches.rows]
    return pandas.DataFrame(found, index=index, columns=columns)


def _certified(
    table: pandas.DataFrame, rows: Sequence[Guarantee], drawn: dict[str, Any], pilot: Pilot | None = None
) -> pandas.DataFrame:
    """A DataFrame with the certificates of its intervals, as tools/check_interval.py reads them."""
    drawn |= {"pilot": {"first": pilot.first, "count": pilot.count}} if pilot else {}
    table.attrs.update(certificates=file_of(rows, drawn), assumed=ASSUMED)
    return table


def law(
    net: Source,
    name: str | Sequence[str],
    seed: int = 0,
    first: int = 0,
    count: int = 10_000,
    reward: bool = False,
    guaranteed: bool = False,
    *,
    program: Program | None = None,
) -> pandas.DataFrame:
    """Estimate the stationary distribution of a queue's customers or of a reward, or a joint one.

    Parameters
    ----------
    net : Network or path
        A network, or the path of its file.
    name : str, or several of them
        The name of a queue or of a reward. With several, as a list, the joint distribution is
        estimated. `queue.NAME` and `reward.NAME` are understood, too.
    seed, first : int
        The seed and the first stream, 0 to 2^64 - 1.
    count : int
        The number of streams, at least 1.
    reward : bool
        Whether the names are those of rewards; without it a queue is meant where both have it.
    guaranteed : bool
        Whether the coverage of each interval is a theorem. `attrs` of the DataFrame then has the
        certificates, those of the mean and of quantiles too, and what is assumed. Of one name alone.
    program : Program, optional
        The program that is run; the one that is built, or on the PATH, by default.

    Returns
    -------
    pandas.DataFrame
        A row for each value that came, by the value. The columns are count, in samples;
        probability, low and high; at_most, the probability of no greater value, at_most_low and
        at_most_high. Each interval holds its probability in 95 % of all repetitions, or more often.
        With several names a row is for values that came together; the index has a level for each,
        queue.NAME or reward.NAME, and the columns are count, probability, low and high.

    Raises
    ------
    PsiError
        The network has no such queue or reward.
    Refused
        The network is refused.

    Warns
    -----
    Uncoupled
        Streams are not coupled, so the others are biased.

    Examples
    --------
    >>> net = psi.Network().queue("desk", capacity=10).queue("till", capacity=2)
    >>> net = net.event("come", "arrival", rate=4, to=["desk"])
    >>> net = net.event("serve", "service", rate=5, source="desk", to=["till"], full="stay")
    >>> net = net.event("pay", "service", rate=6, source="till")
    >>> found = psi.law(net, "desk", count=1_000)
    >>> int(found["count"].sum())
    1000
    >>> float(found["at_most"].iloc[-1])
    1.0
    >>> both = psi.law(net, ["desk", "till"], count=1_000)
    >>> both.index.names
    FrozenList(['queue.desk', 'queue.till'])
    >>> bool((both["count"].groupby("queue.desk").sum() == found["count"]).all())
    True
    """
    seed, first, count = streams_of(seed, first, count)
    program, net = resolved(program), network_of(net)
    program.ask("check", net.data)
    samples = Samples(program, net, seed, first, count, ProgressBar)
    if not isinstance(name, str):
        if guaranteed or not name:
            raise ArgumentError("guaranteed goes with one name" if guaranteed else "name is an empty list")
        joint = samples.joint_law([*name], reward)
        warn_uncoupled(joint.unknown, joint.many)
        return pandas.DataFrame(joint.records(), columns=[*joint.columns, *SHARED]).set_index(joint.columns)
    found: Law = samples.guaranteed_law(name, reward) if guaranteed else samples.law(name, reward)
    warn_uncoupled(found.unknown, found.many)
    table = pandas.DataFrame(found.records(), columns=RECORD).set_index("value")
    if not isinstance(found, GuaranteedLaw):
        return table
    drawn = {"network": digest_of(net.data), "seed": seed, "first": first, "count": count}
    return _certified(table, [found.row], drawn, found.pilot)


def probability(
    net: Source,
    where: str,
    seed: int = 0,
    first: int = 0,
    count: int = 10_000,
    level: float = 0.95,
    *,
    program: Program | None = None,
) -> Probability:
    """Estimate the stationary probability of a condition on queues and rewards.

    Parameters
    ----------
    net : Network or path
        A network, or the path of its file.
    where : str
        The condition: comparisons (== != < <= > >=) of sums, differences and products of queues,
        rewards and whole numbers, joined by `and`, `or` and `not`. A queue is meant where a reward
        has its name; names that have a hyphen, and 'reward.NAME', stand in quotes.
    seed, first : int
        The seed and the first stream, 0 to 2^64 - 1.
    count : int
        The number of streams, at least 1.
    level : float
        The confidence level, 0.5 to 0.9999.
    program : Program, optional
        The program that is run; the one that is built, or on the PATH, by default.

    Returns
    -------
    Probability
        How many samples meet the condition; the share that they are of all that are coupled; and
        the ends of the interval of Clopper and Pearson, which allows for those that are not.

    Raises
    ------
    PsiError
        The text is no condition, names what the network has not, or no stream is coupled.
    Refused
        The network is refused.

    Warns
    -----
    Uncoupled
        Streams are not coupled, so the others are biased.

    Examples
    --------
    >>> net = psi.Network().queue("desk", capacity=10).queue("till", capacity=2)
    >>> net = net.event("come", "arrival", rate=4, to=["desk"])
    >>> net = net.event("serve", "service", rate=5, source="desk", to=["till"], full="stay")
    >>> net = net.event("pay", "service", rate=6, source="till")
    >>> found = psi.probability(net, "desk == 0 and till <= 1", count=1_000)
    >>> found.low < found.count / 1_000 == found.probability < found.high
    True
    """
    seed, first, count = streams_of(seed, first, count)
    level, program, net = level_argument(level), resolved(program), network_of(net)
    program.ask("check", net.data)
    found = Samples(program, net, seed, first, count, ProgressBar).share_where(where)
    warn_uncoupled(found.unknown, found.many)
    if not found.known:
        raise PsiError(f"none of {found.many:,} streams is coupled", 1)
    return Probability(**found.records(level)[0])
