"""Properties that hold for all inputs, tried on many that hypothesis draws."""

import functools
import operator
import tomllib
from decimal import Decimal
from fractions import Fraction
from typing import Any

import pytest
from conftest import ends_of

pytest.importorskip("hypothesis")

from hypothesis import given, settings
from hypothesis import strategies as st
from psi_tools.draw.program import blocks_of, size_of
from psi_tools.io import reports, toml
from psi_tools.model.designs import aligned, common_events, designs_of, values_of
from psi_tools.model.networks import Network, plain
from psi_tools.stats.guaranteed import by_count, by_total, is_binomial, rounded_out
from psi_tools.stats.intervals import Span, Sums, mean_of_batches, mean_of_values, probability, quantile, share_of

# Samples, each a horizon's exponent with its values; and queues, rewards, and the samples of several reports.
Samples = list[tuple[int, tuple[int, ...]] | None]
Drawn = tuple[list[str], list[str], list[Samples]]
NAMES = st.from_regex(r"[A-Za-z0-9_-]{1,32}", fullmatch=True)
# The value of a pair of a value and how many samples have it.
VALUE = operator.itemgetter(0)
# The same inputs in each run, so that a gate does not fail by chance.
settings.register_profile("few", max_examples=60, deadline=None, derandomize=True, database=None)
settings.load_profile("few")


@st.composite
def reports_of_one_network(draw: st.DrawFn, least: int = 2, most: int = 4) -> Drawn:
    """Reports of samples of one network, each over streams of its own: texts, made from drawn states."""
    queues = draw(st.lists(NAMES, min_size=1, max_size=3, unique=True))
    rewards = draw(st.lists(NAMES, min_size=0, max_size=2, unique=True))
    values = st.tuples(*[st.integers(0, 65_535)] * len(queues), *[st.integers(-(10**9), 10**9)] * len(rewards))
    sample = st.one_of(st.none(), st.tuples(st.integers(0, 22), values))
    many = draw(st.integers(least, most))
    return queues, rewards, [draw(st.lists(sample, min_size=1, max_size=6)) for _ in range(many)]


def text_of(queues: list[str], rewards: list[str], samples: Samples) -> bytes:
    """The report of some samples, as the guide has it; a reward goes by the state, as all samples of one state."""
    known: dict[tuple[int, ...], tuple[int, ...]] = {}
    met = [(horizon, known.setdefault(values[: len(queues)], values)) for horizon, values in filter(None, samples)]
    rows: list[tuple[str, str | int, int]] = [
        ("samples", "-", len(samples)),
        ("met", "-", len(met)),
        ("uncoupled", "-", len(samples) - len(met)),
    ]
    horizons = [1 << horizon for horizon, _ in met]
    rows += [("horizon", horizon, horizons.count(horizon)) for horizon in sorted({*horizons})]
    for place, name in enumerate([*queues, *rewards]):
        front = "" if place < len(queues) else "reward-"
        column = [values[place] for _, values in met]
        rows.append((f"{front}sum", name, sum(column)))
        if column:
            rows += [(f"{front}least", name, min(column)), (f"{front}greatest", name, max(column))]
    return ("item,name,value\n" + "".join("%s,%s,%d\n" % row for row in rows)).encode()


@given(reports_of_one_network())
def test_reports_merge_as_lists_join(drawn: Drawn) -> None:
    queues, rewards, lists = drawn
    # One state has one value of each reward, in all lists.
    known: dict[tuple[int, ...], tuple[int, ...]] = {}
    lists = [
        [each and (each[0], known.setdefault(each[1][: len(queues)], each[1])) for each in samples] for samples in lists
    ]
    texts = [reports.read(text_of(queues, rewards, samples)) for samples in lists]
    joined = text_of(queues, rewards, [each for samples in lists for each in samples])
    assert reports.read(joined).text() == joined
    for order in (texts, texts[::-1]):
        assert functools.reduce(reports.together, order).text() == joined


@st.composite
def networks(draw: st.DrawFn) -> Network:
    """Networks of arrivals and services, with rates that leave room for designs."""
    net = Network()
    queues = draw(st.lists(NAMES, min_size=1, max_size=4, unique=True))
    for name in queues:
        capacity = draw(st.integers(1, 50))
        net.queue(name, capacity, draw(st.integers(1, min(3, capacity))))
    for number, name in enumerate(queues):
        net.event(f"in-{number}", "arrival", draw(st.integers(1, 500)), to=[name])
        net.event(f"out-{number}", "service", draw(st.integers(1, 500)), source=name)
    return net


def events_by_word(net: Network) -> list[str | None]:
    """The name of the event of each word below the modulus; idle events have none."""
    found = []
    for event in net.table["event"]:
        name = None if event["name"].startswith("idle-") else event["name"]
        found += [name] * (event["rate"] * net.servers_of(event))
    return found


@given(networks(), st.lists(st.integers(1, 500), min_size=2, max_size=3, unique=True), st.data())
def test_designs_keep_the_order_of_words(net: Network, rates: list[int], data: st.DataObject) -> None:
    """In aligned designs a word picks the same event in all of them, or none where a rate is less."""
    name = data.draw(st.sampled_from([event["name"] for event in net.table["event"]]))
    _, designs, scale, short = designs_of([f"{name}.rate={','.join(map(str, rates))}"], net)
    assert (scale, short) == (1, [])
    made, why = aligned(designs)
    assert why is None
    columns = [events_by_word(design.net) for design in made]
    assert len({len(column) for column in columns}) == 1
    for word in zip(*columns):
        assert len({name for name in word if name}) <= 1
    for design, column in zip(designs, columns):
        own = {event["name"]: event["rate"] * net.servers_of(event) for event in design.net.table["event"]}
        assert all(column.count(name) == count for name, count in own.items())


@given(st.lists(networks(), min_size=1, max_size=3))
def test_common_events_keep_the_order_of_each_network(nets: list[Network]) -> None:
    names = common_events(nets)
    assert len({*names}) == len(names)
    own = [event["name"] for event in nets[0].table["event"]]
    assert [name for name in names if name in own] == own


@given(st.integers(0, 100), st.integers(0, 100), st.integers(1, 7))
def test_a_range_of_values_is_python_s(first: int, more: int, step: int) -> None:
    assert values_of("a.rate=..", f"{first}..{first + more}..{step}") == [
        Decimal(value) for value in range(first, first + more + 1, step)
    ]


TEXTS = st.text(st.characters(blacklist_categories=("Cs",)), max_size=20)
VALUES = st.recursive(
    st.one_of(st.integers(-(2**63), 2**63 - 1), TEXTS),
    lambda inner: st.one_of(st.lists(inner, max_size=4), st.dictionaries(NAMES, inner, max_size=4)),
    max_leaves=12,
)


@given(st.dictionaries(NAMES, VALUES, max_size=6))
def test_toml_is_read_as_it_was_written(table: dict[str, Any]) -> None:
    from psi_tools.model.networks import written

    text = "".join(f"{key} = {written(value, key)}\n" for key, value in table.items())
    assert plain(toml.read(text.encode())) == table == tomllib.loads(text)


@given(networks())
def test_a_network_is_read_as_it_was_written(net: Network) -> None:
    again = Network.parse(net.toml())
    assert again.table == net.table and again.toml() == net.toml() and again.data == net.toml().encode()


@given(st.integers(1, 2_000), st.data())
def test_an_interval_of_a_share_holds_its_estimate(many: int, data: st.DataObject) -> None:
    count, unknown = data.draw(st.integers(0, many)), 0
    low, high = probability(count, many, unknown)
    assert 0 <= low <= count / many <= high <= 1
    wider = probability(count, many, unknown, 0.999)
    assert wider[0] <= low and high <= wider[1]
    # Ten times the samples with the same share, and the interval is narrower.
    more = probability(10 * count, 10 * many)
    assert more[1] - more[0] < high - low


@given(st.lists(st.tuples(st.integers(0, 20), st.integers(1, 200)), min_size=1, max_size=8, unique_by=VALUE))
def test_an_interval_of_a_mean_holds_it_and_shrinks(counts: list[tuple[int, int]]) -> None:
    span = Span(0, 20, 0, 20)
    found, more = mean_of_values(counts, span), mean_of_values([(value, 10 * n) for value, n in counts], span)
    assert found.mean is not None and more.mean is not None
    assert found.holds(found.mean) and more.holds(more.mean)
    assert more.mean == pytest.approx(found.mean)
    (low, high), (higher, lower) = ends_of(found), ends_of(more)
    assert lower - higher < high - low
    least, most = ends_of(mean_of_values(counts, span, 5))
    assert least <= low + 1e-9 and high <= most + 1e-9


@given(st.lists(st.tuples(st.integers(0, 10_000), st.integers(1, 1_000)), min_size=20, max_size=40))
def test_an_interval_of_batches_holds_the_mean(batches: list[tuple[int, int]]) -> None:
    counts = [count for _, count in batches]
    sums = [total % (20 * count + 1) for total, count in batches]
    found = mean_of_batches(Sums(sums, counts, Span(0, 20, 0, 20)))
    low, high = ends_of(found)
    assert found.mean is not None and found.holds(found.mean)
    assert found.mean == pytest.approx(sum(sums) / sum(counts))
    assert 0 <= low <= high <= 20


@given(st.lists(st.tuples(st.integers(-50, 50), st.integers(1, 40)), min_size=1, max_size=9, unique_by=VALUE))
def test_a_quantile_is_that_of_the_list(counts: list[tuple[int, int]]) -> None:
    counts.sort()
    values = [value for value, many in counts for _ in range(many)]
    middle, low, high = quantile(counts, 0.5)
    assert middle == values[max(1, -(-len(values) // 2)) - 1]
    assert low is None or low <= middle
    assert high is None or middle <= high


@given(st.integers(20, 400), st.data())
def test_guaranteed_claims_have_their_certificates(many: int, data: st.DataObject) -> None:
    ones = data.draw(st.integers(1, many))
    q, d = 10**6, 40
    claim = by_count(many, ones, q, d)
    assert claim is not None and is_binomial(many, ones, claim["r"], q, d)
    assert claim["r"] / q <= ones / many
    weaker = by_total(many, 1, ones, q, d)
    assert weaker is None or weaker["r"] <= claim["r"] + 1
    low, high = rounded_out(*(share for share in (Fraction(claim["r"], q), Fraction(ones, many))))
    assert low <= claim["r"] / q + 1e-12 and high >= ones / many - 1e-12


@given(st.integers(0, 2**63), st.integers(1, 10**6))
def test_blocks_are_all_streams_once(first: int, count: int) -> None:
    blocks = blocks_of(first, count, size_of(count))
    assert blocks[0][0] == first and sum(many for _, many in blocks) == count
    assert all(begin + many == other for (begin, many), (other, _) in zip(blocks, blocks[1:]))
    assert 1 <= len(blocks) <= max(41, count // 65_536 + 1) or len(blocks) < 80


@given(st.integers(1, 500), st.data())
def test_a_share_without_unknown_ones_is_probability(many: int, data: st.DataObject) -> None:
    count = data.draw(st.integers(0, many))
    unknown = data.draw(st.integers(0, many - count))
    found = share_of(count, many, unknown)
    if many > unknown:
        assert found.ends == probability(count, many, unknown)
