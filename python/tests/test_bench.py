"""The programs of bench/ that PSI is compared with: on small networks all agree with the solved
chain."""

import functools
import itertools
import math
import pathlib
import random
import re
import shutil
import statistics
import subprocess
import sys
from collections.abc import Callable

import pytest
from conftest import TOP, companion

sys.path.append(str(TOP / "bench"))

import events
import instructions
import measure
import networks
import page
import rivals
import solve
import solving
import turns
from psi_tools.model.networks import Network

HAS_SIMPY = subprocess.run([rivals.PYTHON, "-c", "import SimPy.Simulation"], capture_output=True).returncode == 0
HAS_OCTAVE = (
    shutil.which("octave-cli")
    and subprocess.run(["octave-cli", "--eval", "pkg load queueing"], capture_output=True).returncode == 0
)


def small() -> Network:
    """A network with each kind of event that the programs have."""
    net = Network().queue("a", 3, 2).queue("b", 2).queue("c", 3)
    net.event("come", "arrival", 3, to=["a", "b"])
    net.event("pair", "fork", 1, to=["b", "c"])
    net.event("join", "index", 2, to=["b", "c"], table=[[0, 1], [0, 1, 2]])
    net.event("move", "service", 2, source="a", to=["c"], full="stay")
    net.event("drop", "service", 3, source="b", to=["c"], full="lost")
    net.event("meet", "join", 2, source=["a", "b"], to="c")
    net.event("leave", "service", 4, source="c")
    return networks.watching(net, "c")


def case_of(net: Network, watched: str, total: int | None = None, has_product_form: bool = False) -> networks.Case:
    return networks.Case("small", "", net, watched, 100, 10, total, has_product_form)


CASES = {
    "open": case_of(small(), "c"),
    "single": case_of(networks.watching(networks.one_queue(10, 4, 5), "desk"), "desk", None, True),
    "closed": case_of(networks.central_server(6), "cpu", 6, True),
    "ring": case_of(networks.ring(3, 3), "q1", 5),
}


# The chain is built once where its tests run in one process.
OF_CHAIN = pytest.mark.xdist_group("chain")


@pytest.fixture(scope="module")
def chain(tmp_path_factory: pytest.TempPathFactory) -> str:
    """The plain chain, built by cargo."""
    built = rivals.built_chain(tmp_path_factory.mktemp("chain"))
    return built or pytest.skip("cargo is not there")


@pytest.fixture(params=CASES)
def case(request: pytest.FixtureRequest) -> networks.Case:
    return CASES[request.param]


def exact(case: networks.Case) -> float:
    """The mean of the watched queue, from the plain program's events."""
    return solving.means_of(case.net, case.total)[0][case.watched]


def written(case: networks.Case, folder: pathlib.Path) -> tuple[str, str]:
    """The network's file, and that of the plain chain."""
    file, plain = folder / "net.toml", folder / "chain.net"
    case.net.write(file)
    plain.write_text(events.text_of(case.net, case.watched, case.total))
    return str(file), str(plain)


def test_the_stationary_equations_have_the_mean(case: networks.Case) -> None:
    mean, states = solve.mean_of(case.net, case.watched, case.total)
    assert math.isclose(mean, exact(case), rel_tol=1e-9)
    assert states == len(solving.law_of(case.net, case.total)[0])
    assert states == solve.count_of(case.net.capacities, case.total)


def test_the_iteration_has_the_mean_that_is_solved_directly(monkeypatch: pytest.MonkeyPatch) -> None:
    net = networks.line(3, 8, 1, 4, 5, "stay")
    direct = solve.mean_of(net, "q2", None)[0]
    monkeypatch.setattr(solve, "DIRECT", 0)
    assert math.isclose(solve.mean_of(net, "q2", None)[0], direct, rel_tol=1e-6)


@OF_CHAIN
def test_the_plain_chain_has_the_mean(case: networks.Case, chain: str, tmp_path: pathlib.Path) -> None:
    found = rivals.by_chain(chain, written(case, tmp_path)[1], 2_000_000)
    # Three half-widths: such an interval misses the mean once in some 370 times.
    assert abs(found.mean - exact(case)) < 3 * found.half / rivals.T_QUANTILE * 1.5
    assert found.half < 0.02 * exact(case)


@OF_CHAIN
def test_the_plain_chain_refuses_other_texts(chain: str, tmp_path: pathlib.Path) -> None:
    file = tmp_path / "chain.net"
    for text in ("", "capacities 1\nstart 0\nwatched 1\nevent first 1 - 1 0 leave\n", "nonsense\n"):
        file.write_text(text)
        assert subprocess.run([chain, file, "1", "1", "0", "1", "1"]).returncode == 2


@pytest.mark.skipif(not HAS_SIMPY, reason="python3-simpy is not there")
def test_simpy_has_the_mean(case: networks.Case, tmp_path: pathlib.Path) -> None:
    file, _ = written(case, tmp_path)
    more = [] if case.total is None else ["--total", str(case.total)]
    means = []
    for seed in range(8):
        words = [rivals.PYTHON, str(TOP / "bench/forward_simpy.py"), file, str(seed), "200", "20"]
        done = measure.run([*words, "--watched", case.watched, *more])
        means.append(float(done.out.split()[0]))
    # Student's t for 7 degrees of freedom and 99.9 %.
    half = 5.41 * statistics.stdev(means) / math.sqrt(len(means))
    assert abs(statistics.fmean(means) - exact(case)) < half < 0.3 * exact(case)


@pytest.mark.skipif(not HAS_OCTAVE, reason="octave-queueing is not there")
def test_octave_has_the_mean_where_there_is_product_form(case: networks.Case) -> None:
    found = rivals.by_product_form(case)
    assert (found is not None) == case.has_product_form
    assert found is None or math.isclose(found.mean, exact(case), rel_tol=1e-9)


def test_psi_has_the_mean(case: networks.Case, program: str, tmp_path: pathlib.Path) -> None:
    samples = 4_000 if case.name == "small" and case.total is None else 200
    found = rivals.by_psi(program, written(case, tmp_path)[0], case, samples)
    assert abs(found.mean - exact(case)) < 1.7 * found.half < 0.5 * exact(case)


def test_the_events_of_other_kinds_are_refused() -> None:
    net = Network().queue("a", 2).event("clear", "negative", 1, on="a")
    with pytest.raises(ValueError, match="no event of the kind negative"):
        events.events_of(net)


def test_the_time_until_the_target_grows_with_the_square_of_the_width() -> None:
    for half, times in ((0.04, 4), (0.01, 0.25)):
        assert math.isclose(rivals.times_of(2.0, half), times)
        assert math.isclose(rivals.Found(0.5, 1.5, 2.0, half, rivals.times_of(2.0, half)).seconds, 0.5 + times)


def test_a_long_run_is_timed_by_a_part_of_it() -> None:
    whole, part = rivals.Found(0.5, 8.5, 2.0, 0.04, 4.0, 1_000), rivals.Found(0.25, 4.25, 3.0, 0.9, 99.0, 250)
    timed = whole.timed_by(part)
    assert (timed.mean, timed.half, timed.step) == (2.0, 0.04, 4 / 250 * 1e9)
    assert timed.seconds == 0.25 + 4 * 4.0 * 4.0


class Machine:
    """A machine with a clock of its own, which is half as fast from some moment on."""

    def __init__(self, moment: float = math.inf) -> None:
        self.now, self.moment = 0.0, moment
        self.runs: list[str] = []

    def take(self, works: dict[str, float], count: int) -> turns.Turns[turns.Taken]:
        """So many turns of programs that take these seconds before that moment, and no start."""
        measures = {name: functools.partial(self.run, name, work) for name, work in works.items()}
        found = turns.Turns(measures, lambda: self.now)
        for _ in range(count):
            found.take()
        return found

    def run(self, name: str, work: float) -> turns.Taken | None:
        """Runs a program, which has no answer where its time is 0."""
        self.runs.append(name)
        early = min(work, max(0.0, self.moment - self.now))
        self.now += (seconds := early + 2 * (work - early))
        return turns.Taken(0.0, seconds) if work else None


def work(one: turns.Taken) -> float:
    return one.work


def test_a_machine_that_slows_down_changes_no_ratio() -> None:
    works = {"base": 0.1, "short": 0.01, "like": 0.1, "long": 5.0}
    for moment in range(0, 600, 7):
        found = Machine(moment / 10).take(works, 5)
        for name, seconds in works.items():
            assert math.isclose(found.ratio(name, work), seconds / 0.1, rel_tol=0.03)


def test_a_measure_and_the_base_run_by_turns_until_both_took_long_enough() -> None:
    assert (turns.SHORTEST, turns.RUNS, turns.LONG) == (0.3, 3, 1.2)
    machine = Machine()
    found = machine.take({"base": 0.125, "none": 0.0, "twice": 0.25, "half": 0.0625, "long": 5.0}, 2)
    twice, half = "base twice base base twice base base twice base", "base half half base half half base half base"
    order = f"{twice} {half} base long base base base".split()
    assert machine.runs == ["base", "none", *order * 2]
    assert [found.trimmed_mean(name, work) for name in found.measures if name != "none"] == [0.125, 0.25, 0.0625, 5.0]
    assert (
        not found.pairs["none"]
        and math.isnan(found.ratio("none", work))
        and math.isnan(found.trimmed_mean("none", work))
    )


def test_a_ratio_is_that_of_the_means_of_a_turn() -> None:
    machine = Machine(0.125 + 0.25)
    found = machine.take({"base": 0.125, "twice": 0.25}, 1)
    # The first run of both takes half as long as each other one.
    assert machine.runs == "base twice base twice base base twice base".split()
    assert math.isclose(found.ratio("twice", work), 1.25 / 3 / (1.125 / 5))
    assert math.isclose(found.trimmed_mean("base", work), 1.125 / 5)


def test_a_base_alone_is_measured_as_well() -> None:
    found = Machine().take({"base": 0.125}, 3)
    assert found.trimmed_mean("base", work) == 0.125 and found.spreads(work) == []


def test_long_runs_have_fewer_turns() -> None:
    for share, count in (0.5, 3), (0.25, 4), (0.2, 5), (0.05, 7):
        machine = Machine()
        machine.take({"base": 0.5, "other": share * turns.BUDGET - 1}, 7)
        assert machine.runs.count("other") == count


def test_what_is_shown_is_the_trimmed_mean_of_the_turns() -> None:
    found = turns.Turns({"base": lambda: turns.Taken(0, 1), "other": lambda: None})
    base = turns.Taken(0.5, 1.0)
    found.pairs["other"] = [(turns.Taken(0.5, 0.5 + ratio / 2), base) for ratio in (9.0, 2.0, 4.0, 3.0, 0.1)]
    assert found.ratio("other", work) == 3.0 and found.trimmed_mean("other", work) == 1.5
    assert found.spreads(work) == [(4.0 - 2.0) / 2 / 3.0]


@OF_CHAIN
def test_a_wrong_warm_up_is_measured(chain: str, tmp_path: pathlib.Path) -> None:
    mean, (none, long) = rivals.biases(chain, tmp_path, (0, 50_000), 2_000, 400)
    # M/M/1/K by its textbook formula.
    law = solving.birth_and_death(0.95, [1] * 100)
    assert math.isclose(mean, sum(number * share for number, share in enumerate(law)))
    assert none.mean + 3 * none.half < mean and none.off < -0.2
    assert abs(long.mean - mean) < 2 * long.half


def test_the_ten_networks_are_as_they_are_said_to_be() -> None:
    cases = networks.cases()
    assert len(cases) == len({case.name for case in cases}) == 10
    sizes = [len(case.net.queues) for case in cases]
    assert min(sizes) == 1 and max(sizes) == 32
    for family in networks.growing().values():
        assert len({case.name for case in family.values()}) == len(family)
    counts = [
        sum(net.servers_of(event) for event in net.table["event"])
        for net in (case.net for case in networks.growing()["events"].values())
    ]
    assert counts == [10, 100, 1_000]


def test_each_network_has_a_name_of_its_own() -> None:
    grown = [case for family in networks.growing().values() for case in family.values()]
    names = [case.name for case in networks.cases() + grown + networks.walked()]
    assert len(set(names)) == len(names)


def test_verdicts_on_instructions() -> None:
    assert instructions.verdict(1_030, 1_000) == "" and instructions.verdict(970, 1_000) == ""
    assert instructions.verdict(1_031, 1_000) == "above its bound, +3.1 %"
    assert instructions.verdict(960, 1_000) == "below its bound, -4.0 %"
    assert instructions.verdict(1, None) == "no bound"


def test_a_run_above_its_bound_or_without_one_is_a_fault(capsys: pytest.CaptureFixture[str]) -> None:
    bounds = {("x86-64", "one"): 100, ("x86-64", "two"): 100}
    assert instructions.compare({"one": 100, "two": 104, "three": 1}, "x86-64", bounds) == 2
    assert capsys.readouterr().out.splitlines()[-1] == "1 runs within their bounds, 2 above"


def test_every_run_has_a_bound_for_its_kit_and_level() -> None:
    bounds = instructions.read_bounds()
    levels = {(kit, level) for kit, level, _ in bounds}
    assert levels and set(bounds) == {(*level, name) for level in levels for name in instructions.RUNS}


def test_bounds_of_the_same_kit_and_level_are_compared_alone() -> None:
    bounds = {("a", "x86-64", "one"): 1, ("a", "x86-64-v3", "one"): 2, ("b", "x86-64", "one"): 3}
    assert instructions.bounds_of("a", "x86-64-v3", bounds) == {("x86-64-v3", "one"): 2}
    assert instructions.bounds_of("c", "x86-64", bounds) == {}


def counting() -> Callable[[], float]:
    """A clock that is a second later each time."""
    clock = itertools.count()
    return lambda: next(clock)


def turns_of(**runs: tuple[float, float] | None) -> turns.Turns[rivals.Found]:
    """A turn of some methods, of which each takes these seconds and these nanoseconds a step, or has no answer."""

    def measure(run: tuple[float, float] | None) -> rivals.Found | None:
        return run and rivals.Found(0.0, run[0], 1.0, 0.01, 1.0, round(run[0] / run[1] * 1e9))

    found = turns.Turns({name: functools.partial(measure, run) for name, run in runs.items()}, counting())
    found.take()
    return found


def test_the_page_names_where_a_method_takes_less_time() -> None:
    made = turns_of(psi=(2, 1), paths=None, chain=(1, 1), simpy=(40, 1), scipy=None, octave=None)
    one = page.Comparison(CASES["open"], 48, made)
    printed = page.where_right([one])
    assert "**plain chain**: less time than PSI on small. " in printed
    assert "**SimPy**: more on small. " in printed and "**octave-queueing**: not measured" in printed
    assert page.time_table([one]).splitlines()[-1] == "| small | - | 0.500 | 20.0 | - | - | 2.00 |"
    assert page.mean_table([one]).splitlines()[-1] == "| small | 48 | 1.000 ± 0.010 | - | 1.000 ± 0.010 | - | - |"


def test_the_page_has_the_paths_beside_the_chain() -> None:
    one = page.Comparison(CASES["open"], 48, turns_of(paths=(3, 4), psi=(20, 1), chain=(2, 3.2)))
    assert page.walk_table([one]).splitlines()[-1] == "|  | 20.0 | 3.00 | 2.00 | 1.50 | 4.00 | 3.20 | 1.25 |"
    alone = page.Comparison(CASES["open"], 48, turns_of(paths=(3, 4), psi=(20, 1), chain=None))
    assert page.walk_table([alone]).splitlines()[-1] == "|  | 20.0 | 3.00 | - | - | 4.00 | - | - |"


def test_the_page_has_what_a_sample_takes_beside_that_of_the_first_network() -> None:
    cases = networks.growing()["load"]
    made = turns.Turns({"load-50": lambda: turns.Taken(1, 3), "load-99": lambda: turns.Taken(1, 13)}, counting())
    made.take()
    few, many = (page.Sampling(cases[name], count, 10**9, made, 7.0, 0) for name, count in (("0.50", 4), ("0.99", 2)))
    head, _, *rows = page.growth("load", {"0.50": few, "0.99": many}).splitlines()
    assert head == "| load | time a sample | steps a sample | ns a step | instructions a step |"
    assert rows == ["| 0.50 | 1.00 | 250,000,000 | 2.00 | 7.00 |", "| 0.99 | 12.0 | 500,000,000 | 12.0 | 7.00 |"]


def compared(first: str, second: str, folder: pathlib.Path, *more: str) -> tuple[int, list[str]]:
    """The status of bench/compare for two pages, and the lines that it prints."""
    files = folder / "first.md", folder / "second.md"
    for file, text in zip(files, (first, second)):
        file.write_text(text)
    done = subprocess.run([TOP / "bench/compare", *files, *more], capture_output=True, text=True)
    return done.returncode, done.stdout.splitlines()


def test_the_ratios_of_two_pages_are_compared(tmp_path: pathlib.Path) -> None:
    text = (TOP / "PERFORMANCE.md").read_text()
    status, (last,) = compared(text, text, tmp_path)
    assert status == 0 and re.fullmatch(r"6\d ratios, 0 of them more than 15 % apart; at most 0.0 %", last)
    one = "## PSI beside other methods\n\n| network | SimPy | PSI, seconds |\n| --- | ---: | ---: |\n| a | 1.00 | 7 |\n"
    rows = "## How the time grows\n\n| load | time a sample |\n| --- | ---: |\n| 0.5 | 1,000 |\n| 0.9 | - |\n"
    other = one.replace("1.00 | 7", "1.15 | 9") + rows
    assert compared(one + rows, other, tmp_path) == (0, ["2 ratios, 0 of them more than 15 % apart; at most 15.0 %"])
    lines = [
        "PSI beside other methods, a, SimPy: 1 and 1.15",
        "2 ratios, 1 of them more than 10 % apart; at most 15.0 %",
    ]
    assert compared(one + rows, other, tmp_path, "--within", "10") == (1, lines)
    assert compared(one, one + rows, tmp_path)[0] == compared(rows, one, tmp_path)[0] == 1
    assert compared(one, "", tmp_path) == compared("", one, tmp_path) == (2, [])
    assert compared(one, one, tmp_path, "nonsense")[0] == 2


def test_paths_have_the_mean(case: networks.Case, program: str, tmp_path: pathlib.Path) -> None:
    paths = companion(program, "psi_paths")
    found = rivals.by_paths(paths, written(case, tmp_path)[0], case, 300_000)
    assert abs(found.mean - exact(case)) < 3 * found.half / rivals.PATHS_QUANTILE * 1.5
    assert found.half < 0.05 * exact(case) and found.step is not None and found.step > 0


def test_the_networks_of_paths_are_those_that_the_chain_has() -> None:
    for case in networks.walked():
        assert events.text_of(case.net, case.watched, case.total)
        assert [reward["kind"] for reward in case.net.table["reward"]] == ["linear", "table"]


def test_numbers_are_shown_in_three_figures() -> None:
    shown = [page.shown(value) for value in (12_345, 123.4, 99.96, 45.67, 1.234, 0.1234, 0.00012345, 0, None)]
    assert shown == ["12,300", "123", "100", "45.7", "1.23", "0.123", "0.000123", "0", "-"]


def test_the_samples_of_a_seed_are_the_same(program: str, tmp_path: pathlib.Path) -> None:
    file, _ = written(CASES["open"], tmp_path)
    streams = random.Random(1).sample(range(1_000), 2)
    outs = [measure.run([program, "report", file, "0", str(streams[0]), "50"]).out for _ in "ab"]
    assert outs[0] == outs[1] and measure.steps_of(outs[0]) >= 50
