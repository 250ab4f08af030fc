"""Distributions of queues and rewards, alone or jointly, by the tables that psi_states draws."""

import collections
import dataclasses
from collections.abc import Sequence
from typing import TYPE_CHECKING

from psi_tools.draw.program import Program, Streams, blocks_of, table_size
from psi_tools.draw.states import any_drawing
from psi_tools.errors import PsiError, check_streams
from psi_tools.io.terminal import Bar, Meter
from psi_tools.model.conditions import Condition, column_of
from psi_tools.model.networks import Network, header_of
from psi_tools.stats.intervals import reading_ahead
from psi_tools.stats.law import Joint, Law, Share
from psi_tools.stats.spans import Range, Spans

if TYPE_CHECKING:
    from psi_tools.stats.guaranteed import GuaranteedLaw

COUNT = 10_000


@dataclasses.dataclass
class Tally:
    """What samples have in some columns of their table: `counts` has how many samples have which values, `ends` the
    least and the greatest of each queue that was asked for, where a sample is met; `unknown` streams aren't coupled."""

    counts: collections.Counter[tuple[int, ...]]
    ends: dict[str, Range]
    unknown: int


@dataclasses.dataclass(frozen=True)
class Samples:
    """The samples of a network that distributions are counted over: those of `count` streams of a seed, from the
    first one on, drawn by a program under a bar."""

    psi: Program
    net: Network
    seed: int = 0
    first: int = 0
    count: int = COUNT
    progress: Meter = Bar

    def law(self, name: str, is_reward: bool = False) -> Law:
        """The distribution of a queue's customers or of a reward's value."""
        column = column_of(self.net, name, is_reward)
        kind, _, own = column.partition(".")
        is_reward = kind == "reward"
        queues = self.net.table["reward"][self.net.rewards.index(own)]["queues"] if is_reward else [own]
        tally = self.tally([column], queues)
        spans = Spans(self.net, tally.ends)
        span = spans.of_reward(own) if is_reward else spans.of_queue(own)
        counts = sorted((value, many) for (value,), many in tally.counts.items())
        return Law(own, "value" if is_reward else "customers", counts, tally.unknown, span)

    def joint_law(self, names: Sequence[str], is_reward: bool = False) -> Joint:
        """The joint distribution of some queues and rewards."""
        columns = [column_of(self.net, name, is_reward) for name in names]
        twice = next((name for name, column in zip(names, columns) if columns.count(column) > 1), None)
        if twice is not None:
            raise PsiError(f"{twice} is given twice")
        tally = self.tally(columns)
        return Joint(columns, sorted(tally.counts.items()), tally.unknown)

    def share_where(self, text: str) -> Share:
        """How many samples meet a condition."""
        condition = Condition(self.net, text)
        tally = self.tally(condition.columns)
        counts = [(condition.holds(values), many) for values, many in tally.counts.items()]
        return Share(text, counts, tally.unknown)

    def guaranteed_law(self, name: str, is_reward: bool = False, pilots: int | None = None) -> "GuaranteedLaw":
        """As law, with intervals that carry a theorem. Where the mean is found by bets, the pilot streams
        follow those that are counted."""
        from psi_tools.stats.guaranteed import GuaranteedLaw, Pilot, pilots_of

        law = self.law(name, is_reward)
        if not law.known:
            raise PsiError(f"none of {law.many:,} streams is coupled; psi-why reports what may help", 1)
        pilots, begin = pilots_of(self.count) if pilots is None else pilots, self.first + self.count
        pilot = None
        if pilots and not law.span.two and law.span.ends[0] < law.span.ends[1]:
            check_streams(begin, pilots, are_pilots=True)
            seen = dataclasses.replace(self, first=begin, count=pilots).law(name, is_reward)
            pilot = Pilot(seen.counts, seen.unknown, begin, pilots)
        return GuaranteedLaw(law.name, law.what, law.counts, law.unknown, law.span, pilot)

    def tally(self, columns: Sequence[str], queues: Sequence[str] = ()) -> Tally:
        """What the samples have in some columns, and the ends of some queues."""
        draw, header = any_drawing(self.psi, self.net, self.seed), header_of(self.net)
        blocks = blocks_of(self.first, self.count, table_size(self.count, self.psi.jobs))
        with self.progress(len(blocks), "blocks") as bar, reading_ahead():
            drawn = self.psi.all(lambda block: tally_of(header, draw(block), block, columns, queues), blocks, bar.show)
        return added(drawn)


def tally_of(
    header: Sequence[str], text: str, block: Streams, columns: Sequence[str], queues: Sequence[str] = ()
) -> Tally:
    """What the samples of a block's table have in some columns, and the ends of some queues."""
    # numpy takes a while to be read: only where samples are drawn.
    import numpy

    from psi_tools.io.columns import Columns

    table = Columns(header, text, *block)
    first, *others = (table.column(name) for name in columns)
    counts: collections.Counter[tuple[int, ...]]
    if others:
        counts = collections.Counter(zip(*(column.tolist() for column in (first, *others))))
    else:
        values, times = numpy.unique(first, return_counts=True)
        counts = collections.Counter(dict(zip(zip(values.tolist()), times.tolist())))
    seen = {queue: table.column(f"queue.{queue}") for queue in queues if table.is_met.any()}
    ends = {queue: (int(numbers.min()), int(numbers.max())) for queue, numbers in seen.items()}
    return Tally(counts, ends, int((~table.is_met).sum()))


def added(tallies: Sequence[Tally]) -> Tally:
    """What the samples of several blocks have together."""
    whole = Tally(collections.Counter(), {}, 0)
    for tally in tallies:
        whole.counts.update(tally.counts)
        whole.unknown += tally.unknown
        for queue, (least, greatest) in tally.ends.items():
            before = whole.ends.get(queue, (least, greatest))
            whole.ends[queue] = min(before[0], least), max(before[1], greatest)
    return whole
