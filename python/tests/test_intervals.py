"""Intervals: values from tables, and how often they hold what they are of."""

import numpy
import pytest
from conftest import ends_of
from solving import means_of

from psi_tools.stats.batches import Batches, batches_of
from psi_tools.draw.reports import reports_of
from psi_tools.stats import intervals
from psi_tools.stats.intervals import ZERO_ONE, Mean, Span, Sums, mean_of_batches, mean_of_values, probability, student
from psi_tools.stats.spans import Row
from psi_tools.stats.text import figures, with_interval
from psi_tools.model.networks import Network
from psi_tools.draw.program import Program, blocks_of

REPEATED, LEAST, MOST = 200, 180, 199
# With this span no value is reckoned with that did not come: an interval is that of Student's t alone.
FREE = Span(None, None, 10**60, -(10**60))


def test_quantiles_and_probabilities_are_those_of_the_tables() -> None:
    assert round(student(19), 3) == 2.093
    assert round(student(9, 0.99), 3) == 3.250
    # Clopper and Pearson's own intervals.
    assert probability(5, 10) == pytest.approx((0.1871, 0.8129), abs=1e-4)
    assert probability(0, 100) == pytest.approx((0, 0.0362), abs=1e-4)
    assert probability(100, 100)[1] == 1
    # What is unknown widens.
    assert probability(5, 10, unknown=3) == (probability(5, 10)[0], probability(8, 10)[1])


def test_a_mean_of_batches_by_hand() -> None:
    # The means are 1 to 20 over 2 samples each: the variance of a mean is 35.
    found = mean_of_batches(Sums([2 * k for k in range(1, 21)], [2] * 20, FREE))
    assert found.mean == 10.5
    assert found.half == pytest.approx(2.0930 * (35 / 20) ** 0.5, rel=1e-4)


def test_batches_of_other_sizes_count_by_their_samples() -> None:
    # Two samples of 1 and one of 4: the mean is 2, and (2 * 1 + 1 * 4) / 1 the variance of a
    # sample.
    found = mean_of_batches(Sums([2, 4, 0], [2, 1, 0], FREE))
    assert found.mean == 2
    assert found.half == pytest.approx(student(1) * (6 / 3) ** 0.5)


def test_a_rare_share_has_an_interval_though_none_came() -> None:
    rows = [Row("", "full", [0] * 20, 0, 0), Row("", "jobs", [3] + [0] * 19, 0, 2)]
    batches = Batches([50] * 20, [50] * 20, [{}] * 20, rows)
    assert (batches.mean(rows[0]).low, batches.mean(rows[0]).mean) == (0, 0)
    assert batches.mean(rows[0]).high == pytest.approx(0.00368, abs=1e-5)
    # This one isn't a share: its interval is wider than that of three of a thousand.
    assert ends_of(batches.mean(rows[1]))[1] > 2 * probability(3, 1_000)[1]


def test_great_sums_lose_nothing() -> None:
    spread = intervals.spread_of([10**36 + k for k in range(20)], [1] * 20)
    assert spread is not None and spread.error == pytest.approx((35 / 20) ** 0.5)


def test_no_sample_and_one_batch() -> None:
    assert mean_of_batches(Sums([], [], FREE)).mean is None
    assert mean_of_batches(Sums([3], [2], FREE)).half is None


def test_a_difference_has_no_part_of_what_is_common() -> None:
    common = [round(each) for each in numpy.random.default_rng(1).normal(0, 10**9, 20)]
    one, other = (Sums(sums, [1] * 20, FREE) for sums in ([each + 1 for each in common], common))
    found = intervals.difference_of_batches(one, other)
    assert found.mean == pytest.approx(1)
    assert found.half is not None and found.half < 1e-9


def test_ranks_hold_so_often() -> None:
    for many, share in ((10, 0.5), (50, 0.9), (1000, 0.25)):
        low, high = intervals.ranks(share, many)
        draws = numpy.random.default_rng(many).binomial(many, share, 20_000)
        assert ((low <= draws) & (draws < high)).mean() > 0.945


def test_quantiles_of_a_small_law() -> None:
    found = [intervals.quantile([(0, 5), (1, 3), (2, 2)], share)[0] for share in (0.5, 0.51, 0.9)]
    assert found == [0, 1, 2]


def test_the_interval_by_values_of_a_share_is_that_of_clopper_and_pearson() -> None:
    for count, many in ((0, 50), (1, 1_000), (7, 300), (150, 300), (300, 300)):
        found = mean_of_values([(0, many - count), (1, count)], ZERO_ONE)
        low, high = probability(count, many)
        assert found.mean == count / many
        assert found.low == pytest.approx(low, rel=0.03, abs=1e-9)
        assert found.high == pytest.approx(high, rel=0.01)


def test_the_interval_by_values_is_that_of_random_weights() -> None:
    """The quantiles of the mean under weights of a Dirichlet law, drawn by numpy."""
    values, counts, far = numpy.array([0.0, 1, 4, 30]), numpy.array([200, 60, 12, 2]), 50
    draws = numpy.random.default_rng(5).dirichlet([*counts, 1], 400_000)
    found = mean_of_values([*zip(values, counts)], Span(0, far, 0, far))
    assert found.high == pytest.approx(numpy.quantile(draws @ [*values, far], 0.975), rel=0.01)
    assert found.low == pytest.approx(numpy.quantile(draws @ [*values, 0.0], 0.025), rel=0.01)


def test_students_t_and_what_did_not_come() -> None:
    """Against draws of the sum, and against Clopper and Pearson where one of a thousand came."""
    generator = numpy.random.default_rng(8)
    for ratio in (0.0, 0.05, 0.4, 1, 4, 30):
        sums = generator.standard_t(39, 400_000) + ratio * generator.exponential(size=400_000)
        wanted = numpy.quantile(sums, 0.975)
        assert intervals.student_and_unseen(39, ratio) == pytest.approx(wanted, rel=0.03)
    assert intervals.student_and_unseen(19, 0.0, 0.9) == pytest.approx(student(19, 0.9))


def test_none_of_many_is_told_as_a_share_is() -> None:
    none = mean_of_batches(Sums([0] * 40, [25] * 40, Span(0, 1_000, 0, 1_000)))
    assert (none.mean, none.low) == (0, 0)
    assert none.high == pytest.approx(1_000 * probability(0, 1_000)[1], rel=0.01)


def test_what_is_not_coupled_counts_as_the_least_and_as_the_greatest() -> None:
    span, sums, counts, lost = Span(0, 10, 0, 10), [30, 40] * 10, [10] * 20, [2] * 20
    found = mean_of_batches(Sums(sums, counts, span, lost))
    low = mean_of_batches(Sums(sums, [12] * 20, span))
    high = mean_of_batches(Sums([total + 20 for total in sums], [12] * 20, span))
    assert (found.mean, found.low, found.high) == (3.5, low.low, high.high)
    # Where the ends aren't known there is no interval.
    open_span = Span(None, None, 0, 10)
    assert mean_of_batches(Sums(sums, counts, open_span, lost)).half is None
    by_values = mean_of_values([(3, 100), (4, 100)], span, 40)
    low_end, high_end = ends_of(by_values)
    assert low_end < 3.5 * 200 / 240 and high_end > (3.5 * 200 + 400) / 240
    share = intervals.share_of(50, 100, 20)
    assert (share.mean, share.low) == (50 / 80, probability(50, 100)[0])
    assert share.high == probability(70, 100)[1]


def test_a_difference_of_pairs_by_hand() -> None:
    # Without a pair that differs, that of none of many on either side.
    none = intervals.difference_of_pairs(0, 0, 1_000)
    assert none.high == pytest.approx(probability(0, 1_000)[1], rel=0.01)
    low, high = ends_of(none)
    assert low == -high
    # Else by the quantiles under random weights, as of any values.
    found = intervals.difference_of_pairs(12, 2, 50)
    draws = numpy.random.default_rng(2).dirichlet([2, 36, 12, 1], 400_000)
    assert found.mean == pytest.approx(10 / 50)
    assert found.high == pytest.approx(numpy.quantile(draws @ [-1, 0, 1, 1], 0.975), rel=0.01)
    assert found.low == pytest.approx(numpy.quantile(draws @ [-1, 0, 1, -1], 0.025), rel=0.02)


def test_a_difference_of_shares_in_batches() -> None:
    one, other = (Sums(sums, [50] * 40, ZERO_ONE) for sums in ([3, 2] * 20, [2, 2] * 20))
    found = intervals.difference_of_batches(one, other)
    pairs = intervals.difference_of_pairs(20, 0, 2_000)
    assert found.mean == pytest.approx(20 / 2_000)
    (low, high), (least, most) = ends_of(found), ends_of(pairs)
    assert low <= least < most <= high
    same = intervals.difference_of_batches(one, one)
    assert same.mean == 0 and same.high == pytest.approx(probability(0, 2_000)[1], rel=0.01)
    wide = intervals.difference_of_batches(one, Sums(other.sums, [45] * 40, ZERO_ONE, [5] * 40))
    # The five of each batch that aren't coupled count as 1 below and as 0 above.
    assert wide.low == pytest.approx((100 - 80 - 200) / 2_000, abs=0.01)
    assert wide.high == pytest.approx((100 - 80) / 2_000, abs=0.01)


def test_samples_that_carry_a_mean() -> None:
    # Ten of ten thousand have the whole sum: an error of 1 / 10 ** 0.5 of the mean.
    assert intervals.carriers(1.0, 10**-0.5, 10_000, 0) == pytest.approx(10, rel=0.01)
    assert intervals.carriers(5.0, 0.0, 100, 0) == 100


def test_an_interval_is_shown_by_both_ends_where_it_is_not_even() -> None:
    """Figures have the places of their interval."""
    assert with_interval(Mean(1.0, 0.1)) == "1.00 ± 0.10"
    assert with_interval(Mean(1.0, 0.2, (0.9, 1.3))) == "1.00 (0.90 to 1.30)"
    assert with_interval(Mean(1.0, None)) == "1"
    assert figures(2.96543, 0.0123) == "2.965"
    assert figures(1234.5, 60.0) == "1234"
    assert figures(3, None) == "3"


@pytest.mark.slow
def test_intervals_hold_the_solved_mean(program: str) -> None:
    net = Network().queue("calls", 8, 3).reward("full", "above", ["calls"], level=7)
    net.event("ring", "arrival", 5, to=["calls"]).event("answer", "service", 2, source="calls")
    # One of a thousand samples: in a third of all reports none comes.
    net.queue("rare", 4).reward("rare-full", "above", ["rare"], level=3)
    net.event("seldom", "arrival", 2, to=["rare"]).event("gone", "service", 11, source="rare")
    queues, rewards = means_of(net)
    blocks = blocks_of(0, REPEATED * 20 * 50, 50)
    reports = reports_of(Program(program, 2), net.data, 7, blocks)
    held = {"calls": 0, "full": 0, "rare": 0, "rare-full": 0}
    wanted = {**queues, **rewards}
    for k in range(REPEATED):
        batches = batches_of(reports[20 * k : 20 * k + 20])
        for row in batches.rows:
            held[row.name] += batches.mean(row).holds(wanted[row.name])
    # The interval of a share holds it more often still where it is rare.
    assert LEAST <= held.pop("rare-full")
    assert all(LEAST <= count <= MOST for count in held.values()), held
