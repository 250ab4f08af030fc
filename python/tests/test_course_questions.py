"""docs/course: the numbers in the questions are those of the files that they name, and those of the sheet are those
of its formulas."""

import re
import statistics
from math import factorial
from typing import Any

import pytest
from conftest import TOP, match_in
from course import FOLDER, NOTEBOOK, WORDS, Answer, Course, cells_of_notebook, table
from oracle.plain_network import Network


def rates(file: dict[str, Any]) -> dict[str, int]:
    return {event["name"]: event["rate"] for event in file["event"]}


def test_the_modulus_is_a_power_of_two(course: Course) -> None:
    """The remainders of an event are as many as its rate, in every file that the exercises name."""
    course.asks(0, "What counts is its remainder modulo a power of two, the **modulus**,")
    names = {*re.findall(r"[\w/-]+\.toml", course.pages["exercises.md"])}
    assert names
    for name in names:
        net = Network(table(name))
        assert net.modulus.bit_count() == 1


def test_1_and_2_the_first_queue(course: Course) -> None:
    file = table("examples/first.toml")
    (queue,), net = file["queue"], Network(file)
    arrival, service = rates(file).values()
    places, states = queue["capacity"], WORDS[queue["capacity"] + 1]
    kinds = [event["kind"] for event in file["event"]]
    picked = [net.event_of(remainder) for remainder in range(net.modulus)]
    names = [kinds[net.events.index(event)] if event else "idle" for event in picked]
    assert names == ["arrival", "service", "service", "idle"]
    course.asks(
        1,
        f"is a queue with {WORDS[places]} places; customers arrive at rate {arrival} and are served at rate {service}.",
        f"The modulus is {net.modulus}: remainder 0 is an arrival, 1 and 2 are services, and 3 is idle.",
        f"Start all {states} states 1, 2 and 4 steps before time zero,",
    )
    course.asks(
        2,
        f"from all {states} states until they have coalesced.",
        f"Show that they coalesce at 0 or at {places}, and nowhere else.",
        "Two neighbouring states are left",
        f"of coalescing at {places} from the pair {places - 1} and {places}, and q that from the pair 0 and 1.",
    )


def test_3_and_4_the_tries(course: Course, answer: Answer) -> None:
    """The commands of exercise 3 print what it says that they print."""
    course.asks(
        3,
        "`./psi couple examples/single-server.toml 0 0` prints the least horizon",
        "`./psi sample examples/single-server.toml 0 0` prints the first power of two",
        "do the tries from 1, 2, 4, .. steps take together? How many would tries from 1, 2, 3, .. steps take?",
        "never takes more than four times the least horizon.",
    )
    assert answer("couple", "examples/single-server.toml", 0, 0).startswith("coupled ")
    horizon = int(answer("sample", "examples/single-server.toml", 0, 0).split()[1])
    assert horizon.bit_count() == 1
    course.asks(4, "each try of exercise 1 draws", "only the tries from 1 and from 2 steps are made.")


def test_5_and_6_the_longest_queue(course: Course) -> None:
    file, split = table("examples/longest-queue.toml"), table("examples/longest-queue-split.toml")
    caps = [queue["capacity"] for queue in file["queue"]]
    assert caps == [3, 3, 3] == [queue["capacity"] for queue in split["queue"]]
    (come,) = [event for event in file["event"] if event["name"] == "come"]
    course.asks(
        5,
        f"a job joins the longest of {WORDS[len(come['to'])]} queues that has a free place,",
        f"Each queue has {WORDS[caps[0]]} places. Find two ordered states,",
        "that `come` turns into two states that are not ordered.",
    )
    states = 1
    for cap in caps:
        states *= cap + 1
    course.asks(
        6,
        f"follows all {states} states one by one",
        f"What does `split = {split['split']}` in",
        "`./psi exact examples/longest-queue.toml 0 0 11`",
    )


def test_7_and_8_the_desks(course: Course) -> None:
    short, desk, fast = (
        table(name)
        for name in ("examples/short-past.toml", "examples/single-server.toml", "docs/course/faster-desk.toml")
    )
    course.asks(7, f"with a past of at most {2 ** short['limit']} steps. Of the streams 0 to 999 of seed 0,")
    assert short["queue"] == desk["queue"] and short["event"] == desk["event"]
    before, after = rates(desk), rates(fast)
    (changed,) = [name for name in before if before[name] != after[name]]
    course.asks(
        8,
        f"the same desk with a server of rate {after[changed]} instead of {before[changed]}.",
        "Draw streams 0 to 49 of both files with seed 0.",
    )
    for event in fast["event"]:
        event["rate"] = before[event["name"]]
    assert fast == desk


def test_9_the_formula(course: Course) -> None:
    (queue,) = table("examples/single-server.toml")["queue"]
    assert queue.get("servers", 1) == 1
    course.asks(9, "by the formula for M/M/1/K, the probability")


def test_10_the_closed_network(course: Course) -> None:
    file = table("examples/central-server.toml")
    course.asks(
        10,
        f"is a closed network of {WORDS[len(file['queue'])]} queues.",
        "when two programs run.",
        "`./psi closed examples/central-server.toml 0 0 2`:",
    )


def test_11_the_forged_log(course: Course, answer: Answer) -> None:
    """The lines that are to be changed are those of the log."""
    lines = answer("sample", "examples/tandem-blocking.toml", 0, 0, "log").splitlines()
    steps = int(lines[4].split()[1])
    assert (lines[2], lines[4], lines[6].split()[:2]) == ("seed 0", f"horizon {steps}", ["step", str(steps)])
    assert lines[-1].startswith("end ") and lines[-1] != "end 3,2,2"
    course.asks(
        11,
        "`./psi sample examples/tandem-blocking.toml 0 0 log >line.log`",
        "1. change the last line to `end 3,2,2`; 2. change the seed in the third line to 1; 3. leave out the last "
        "step, and lower the horizon in the fifth line and the number of each step by 1.",
        "prints for the first two, then try all three.",
    )


def test_12_the_switchboard(course: Course) -> None:
    file, text = table("docs/course/lines.toml"), (FOLDER / "lines.toml").read_text()
    (queue,), (ring, hang_up), (busy,) = file["queue"], file["event"], file["reward"]
    calls = ring["rate"] // hang_up["rate"]
    assert hang_up["rate"] == 1 and busy["level"] == queue["capacity"] - 1 == queue["servers"] - 1
    assert f"{calls} calls a minute, each of a minute in the mean, {queue['servers']} lines." in text
    course.asks(
        12,
        f"A switchboard gets {calls} calls a minute. A call lasts a minute on average,",
        "At most 1 % of the calls may be refused.",
        f"which has {queue['servers']} lines.",
        "a probability of 1 % within a tenth of its value, at 95 % confidence? And a probability of a millionth?",
    )


def test_the_sheet(course: Course) -> None:
    """The numbers of the sheet for students are those of its formulas."""
    z = statistics.NormalDist().inv_cdf(0.975)
    share, error = 0.01, 0.1
    count = z * z * (1 - share) / (share * error**2)
    assert z * (share * (1 - share) / count) ** 0.5 == pytest.approx(error * share)
    load, blocked = 8.0, 1.0
    for lines in range(1, 21):
        blocked = load * blocked / (lines + load * blocked)
        weights = [load**n / factorial(n) for n in range(lines + 1)]
        assert blocked == pytest.approx(weights[-1] / sum(weights))
    course.page_has(
        "sheet.md",
        "# Coupling from the past on two pages",
        "Propp and Wilson (1996).",
        "Gaujal and Vincent (2008).",
        "Begin 1, 2, 4, 8, .. steps before time zero",
        "The tries together take less than four times the least number of steps",
        "the 95 % **confidence interval**",
        f"mean ± {z:.2f} s / √n",
        "A probability p has s² = p (1 - p).",
        f"some {z * z:.2f} (1 - p) / (p r²) samples",
        "Var(X - Y) = Var X + Var Y - 2 Cov(X, Y).",
        "**M/M/1/K** with arrival rate a, service rate b and ρ = a / b: the probability of n customers is proportional "
        "to ρⁿ, for n from 0 to K.",
        "B(0) = 1 and B(c) = a B(c - 1) / (c + a B(c - 1)).",
        "x₁^n₁ x₂^n₂ .., where x is the work of a cycle at a queue.",
    )
    course.page_has("sheet.md", "One step applies one event", "Two designs with the", "At the end one state is left.")
    assert re.findall(r"^(\d)\. ", course.pages["sheet.md"], re.M) == ["1", "2", "3", "4"]


def test_the_notebook(course: Course) -> None:
    """The numbers in the prose of the notebook are those of its code, and of the files that it reads."""
    code = cells_of_notebook("code")
    places, arrival, service, limit, total = (
        int(match_in(pattern, code)[1])
        for pattern in (
            r'queue\("desk", capacity=(\d+)\)',
            r'"arrival", rate=(\d+)',
            r'"service", rate=(\d+)',
            r'heads\["limit"\] = (\d+)',
            r"total=(\d+)",
        )
    )
    machines = len(table("examples/tandem-blocking.toml")["queue"])
    assert "ten, eleven = (psi.samples(desk(places), count=2_000)[:, 0] for places in (10, 11))" in code
    course.page_has(
        NOTEBOOK.name,
        f"A desk with {WORDS[places]} places, M/M/1/K: customers arrive at rate {arrival} and are served at rate "
        f"{service}.",
        "computes means from it, with 95 % confidence intervals by batches. The last column has the values of the "
        "formula for M/M/1/K.",
        "as some 95 of 100 such intervals do.",
        f"a production line of {WORDS[machines]} machines",
        "## Two designs under",
        "The difference of the two means",
        f"with a past of at most {2**limit} steps:",
        f"{WORDS[total].capitalize()} programs circulate in a computer",
    )


def test_files_are_there(course: Course) -> None:
    """Each file that an exercise names is there."""
    names = re.findall(r"[\w/-]+\.toml", course.pages["exercises.md"])
    assert len(names) > 12
    for name in names:
        assert (TOP / name).exists(), name
