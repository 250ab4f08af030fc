"""docs/course: the results of the solutions are computed again, from the files and the program."""

import collections
import fractions
import itertools
import math
import re
from pathlib import Path

import pytest
from conftest import match_in
from course import FOLDER, WORDS, Answer, Course, table
from oracle.plain_network import Network
from solving import birth_and_death, erlang_b

from tests.documents import anchor_of
from tests.support import report_of

F = fractions.Fraction


def net_of(name: str) -> Network:
    return Network(table(f"examples/{name}.toml"))


def number_after(word: str, text: str) -> int:
    """The number that follows a word in what psi prints."""
    return int(match_in(rf"\b{word}[ ,](\d+)", text)[1])


def bands(steps: int) -> dict[tuple[int, int], F]:
    """How likely the least and the greatest state of first.toml are two numbers, after some steps from all states."""
    shares = {(0, 2): F(1)}
    for _ in range(steps):
        following: dict[tuple[int, int], F] = collections.defaultdict(F)
        for (low, high), share in shares.items():
            following[min(2, low + 1), min(2, high + 1)] += share / 4
            following[max(0, low - 1), max(0, high - 1)] += share / 2
            following[low, high] += share / 4
        shares = following
    return shares


def test_each_exercise_has_a_solution(course: Course) -> None:
    """Twelve exercises, each with a solution under the same heading, and each once in the table of subjects."""
    headings = [{number: title for number, (title, _) in each.items()} for each in (course.exercises, course.solutions)]
    assert headings[0] == headings[1] and [*headings[0]] == [*range(13)]
    course.asks(0, "Twelve exercises on perfect sampling;")
    course.page_has("README.md", "Twelve exercises for a lecture", "[A sheet of two pages](sheet.md)")
    listed = re.findall(r"\[(\d+)\]\(exercises\.md#", course.pages["README.md"])
    assert sorted(map(int, listed)) == [*range(1, 13)]


def test_the_sheet_has_two_pages(course: Course) -> None:
    """The sheet fits on two pages of 50 lines, with at most 120 letters in a line that is not of a table."""
    lines = course.pages["sheet.md"].splitlines()
    assert lines[0].endswith(" on two pages") and len(lines) <= 100
    assert max(len(line) for line in lines if line[:1] != "|") <= 120


def test_links_lead_somewhere(course: Course) -> None:
    """Each link of the course leads to a page and a heading; where it shows a number, the heading has it."""
    for name, page in course.pages.items():
        for shown, target in re.findall(r"\[([^\]]*)\]\(([^)\s]+)\)", page):
            path, _, anchor = target.partition("#")
            file = (FOLDER / path).resolve() if path else FOLDER / name
            assert file.exists(), target
            text = course.pages.get(file.name, "") if file.parent == FOLDER else file.read_text()
            headings = re.findall(r"^#+ (.*)$", text, re.M) if anchor else []
            assert not anchor or anchor in map(anchor_of, headings), target
            assert not shown.isdigit() or anchor.startswith(f"{shown}-"), target


def test_1_where_the_runs_coalesce(course: Course) -> None:
    net, words = net_of("first"), (2, 7, 4, 8)
    shown = "{}, {}, {} and {}"
    remainders = [word % net.modulus for word in words]
    events = [net.event_of(word) for word in words]
    assert [event and net.events.index(event) for event in events] == [1, None, 0, 0]
    course.asks(1, f"The random words of the last {WORDS[len(words)]} steps,", f"are {shown.format(*words)}.")
    course.solves(
        1,
        f"The remainders of {shown.format(*words)} are {shown.format(*remainders)}: a service, idle, an arrival and an "
        "arrival, the latest first.",
    )
    ends, middle = {}, None
    for steps in (1, 2, 4):
        states: list[tuple[int, ...]] = [(number,) for number in range(net.caps[0] + 1)]
        for word in reversed(words[:steps]):
            event = net.event_of(word)
            states = [event.after(state) if event else state for state in states]
            if steps == 4 and word == words[2]:
                ((middle,),) = {*states}
        ends[steps] = [number for number, in states]
    assert ends[1] == ends[2] and len({*ends[4]}) == 1 and net.event_of(words[1]) is None
    course.solves(
        1,
        f"From 1 step back the states 0, 1, {net.caps[0]} become {', '.join(map(str, ends[1]))}, and from 2 steps, "
        f"with an idle step first, they do as well: {len({*ends[2]})} states are left.",
        f"From 4 steps the two arrivals bring all of them to {middle}, the idle step keeps them there, and the service "
        f"leaves {ends[4][0]}. So the horizon is 4 and the sample is {ends[4][0]}.",
        f"The runs became one in state {middle}, {WORDS[2]} steps before time zero.",
    )


def test_2_forward_runs(course: Course) -> None:
    arrival, p, q = F(1, 3), F(3, 7), F(1, 7)
    assert p == arrival + (1 - arrival) * q and q == arrival * p
    full = arrival * p + (1 - arrival) * q
    weights = [F(1, 2) ** number for number in range(3)]
    shares = [weight / sum(weights) for weight in weights]
    net = net_of("first")
    come, serve = net.events
    assert [[*come.after((n,))] for n in range(3)] == [[1], [2], [2]]
    assert [[*serve.after((n,))] for n in range(3)] == [[0], [0], [1]]
    assert arrival == F(sum(net.event_of(n) is come for n in range(4)), sum(map(bool, map(net.event_of, range(4)))))
    course.solves(
        2,
        "Two neighbouring states become one only where one of them is stopped: at 2 by an arrival, at 0 by a service.",
        f"is an arrival with probability {arrival}. From the pair 1 and 2 an arrival ends at 2 and a service leads to "
        f"the pair 0 and 1, so p = {arrival} + {1 - arrival} q. From that pair a service ends at 0 and an arrival "
        f"leads back, so q = {arrival} p. Hence p = {p} and q = {q}.",
        f"the runs end at 2 with probability {full} and at 0 with probability {1 - full}.",
        f"The stationary distribution is {shares[0]}, {shares[1]} and {shares[2]}.",
        f"Forward runs never coalesce in state 1, which has {shares[1]} of it.",
    )


def test_3_doubling(course: Course, answer: Answer) -> None:
    least = number_after("coupled", answer("couple", "examples/single-server.toml", 0, 0))
    power = number_after("met", answer("sample", "examples/single-server.toml", 0, 0))
    course.solves(
        3,
        f"The least horizon is {least} and the first power of two is {power}.",
        f"The tries take 1 + 2 + 4 + .. + {power} = {2 * power - 1} steps together;",
        f"tries from each horizon up to {least} would take {least * (least + 1) // 2:,}.",
        "T the power of two at which doubling stops. Then T is less than 2 L, and the tries together take 2 T - 1 "
        "steps, which is less than 4 L.",
    )
    for each in range(1, 5_000):
        last = 1 << (each - 1).bit_length()
        assert last < 2 * each and 2 * last - 1 < 4 * each


def test_4_kept_words(course: Course) -> None:
    assert all(low < high for low, high in bands(1))
    two, left, found = bands(2), F(1), collections.defaultdict[int, F](F)
    empty, full = (float(100 * two[each] / (two[0, 0] + two[2, 2])) for each in ((0, 0), (2, 2)))
    assert [each for each in two if each[0] == each[1]] == [(2, 2), (0, 0)] and two[2, 2] == F(1, 4) ** 2
    course.solves(
        4,
        f"From 1 step nothing coalesces. From 2 steps two arrivals end in 2, with probability {two[2, 2]}, and two "
        f"services in 0, with probability {two[0, 0]};",
        f"of the samples from 2 steps {empty:.0f} % are empty and {full:.0f} % are full.",
    )
    for power in range(7):
        met = {low: share for (low, high), share in bands(1 << power).items() if low == high}
        for state, share in met.items():
            found[state] += left * share
        left *= 1 - sum(met.values())
    assert left < 1e-9
    zero, one, most = (f"{float(100 * found[state]):.1f} %" for state in range(3))
    course.solves(
        4,
        f"With any number of tries the distribution is {zero}, {one} and {most} for 0, 1 and 2,",
        f"has {400 / 7:.1f} %, {200 / 7:.1f} % and {100 / 7:.1f} %.",
    )


def test_5_monotone(course: Course, answer: Answer) -> None:
    net = net_of("longest-queue")
    low, high = (0, 1, 3), (1, 1, 3)
    first, second, lower, upper = (
        ",".join(map(str, each)) for each in (low, high, net.events[0].after(low), net.events[0].after(high))
    )
    assert net.caps == (3, 3, 3) and all(one <= two for one, two in zip(low, high))
    course.solves(
        5,
        f"Take {first} and {second}.",
        f"so `come` makes {lower}; in the second state {WORDS[high.count(1)]} queues hold one job,",
        f"which makes {upper}.",
        f"`upset {first} {second}`",
    )
    printed = answer("check", "examples/longest-queue.toml")
    assert re.search(rf"^event come \d+ \d+ upset {first} {second}$", printed, re.M)


def test_6_splitting(course: Course, answer: Answer) -> None:
    text = answer("exact", "examples/longest-queue.toml", 0, 0, 11)
    states, box = number_after("constant", text), number_after("region", text)
    split = table("examples/longest-queue-split.toml")["split"]
    assert number_after("states", text) == split
    one, many = (answer("sample", f"examples/longest-queue{end}.toml", 0, 0).split() for end in ("", "-split"))
    assert one[3] == many[3]
    course.solves(
        6,
        f"The states coalesce at {states} steps, the box at {box:,}, which is {box / states:.0f} times as far back.",
        f"The sample has the horizon {int(one[1]):,} with the box alone and {many[1]} with `split = {split}`. "
        f"Its state is {one[3]} in both:",
    )


def test_7_streams_left_out(course: Course, answer: Answer) -> None:
    report = report_of(answer("report", "examples/short-past.toml", 0, 0, 1000))
    exact = sum(number * share for number, share in enumerate(birth_and_death(4, [5] * 10)))
    met = report["met", "-"]
    course.solves(
        7,
        f"{met} of {report['samples', '-']:,} streams coalesce. Their mean is {report['sum', 'desk'] / met:.3f}, and "
        f"the exact mean is {exact:.3f}.",
    )


def test_8_common_random_numbers(course: Course, answer: Answer) -> None:
    files = "examples/single-server.toml", "docs/course/faster-desk.toml"
    slow, fast = ([int(answer("sample", file, 0, stream).split()[-1]) for stream in range(50)] for file in files)
    assert all(one >= two for one, two in zip(slow, fast))

    def variance(values: list[int]) -> float:
        mean = sum(values) / len(values)
        return sum((value - mean) ** 2 for value in values) / (len(values) - 1)

    apart, both = variance(slow) + variance(fast), variance([one - two for one, two in zip(slow, fast)])
    equal = sum(one == two for one, two in zip(slow, fast))
    course.solves(
        8,
        f"The samples are equal in {equal} of 50 streams. The means are {sum(slow) / 50:.2f} and {sum(fast) / 50:.2f}, "
        f"the variances {variance(slow):.2f} and {variance(fast):.2f}, and the difference has the variance {both:.2f}.",
        f"the sum of the variances, {apart:.2f}, and so need {apart / both:.1f} times as many streams",
    )


def test_9_little_and_pasta(course: Course) -> None:
    shares = birth_and_death(4, [5] * 10)
    mean, through = sum(number * share for number, share in enumerate(shares)), 4 * (1 - shares[-1])
    course.solves(
        9,
        f"The desk is full with probability {100 * shares[-1]:.3f} %.",
        f"The throughput is 4 times the rest, {through:.3f}.",
        f"{mean:.3f} / {through:.3f} = {mean / through:.3f}.",
    )


def test_10_a_closed_network(course: Course, answer: Answer) -> None:
    events = table("examples/central-server.toml")["event"]
    rates = {"read-disk": 2, "read-drum": 6, "disk-done": 3, "drum-done": 5}
    assert {event["name"]: event["rate"] for event in events} == rates
    loads = [F(1, 8), F(2, 8) * F(1, 3), F(6, 8) * F(1, 5)]
    assert [load * 120 for load in loads] == [15, 10, 18]
    states = [state for state in itertools.product(range(3), repeat=3) if sum(state) == 2]
    weights = [math.prod(each**number for each, number in zip((15, 10, 18), state)) for state in states]
    sums = [sum(state[queue] * weight for state, weight in zip(states, weights)) for queue in range(3)]
    pieces = [f"{number:,}/{sum(weights):,} = {number / sum(weights):.3f}" for number in sums]
    count = WORDS[len(states)]
    course.solves(
        10,
        "with probability 2/8 and for the drum with 6/8. Its work per cycle is 1/8 at the processor, 1/4 of 1/3 at the "
        "disk and 3/4 of 1/5 at the drum, in the ratio 15 to 10 to 18.",
        f"Each of the {count} states of two programs has a product of two of these as its weight, {sum(weights):,} in "
        "all.",
        f"The means are {pieces[0]}, {pieces[1]} and {pieces[2]}.",
        f"A single sample is one of {count} states,",
    )
    printed = answer("closed", "examples/central-server.toml", 0, 0, 2)
    assert tuple(map(int, printed.split()[-1].split(","))) in states


def test_11_a_forged_certificate(course: Course, answer: Answer, tmp_path: Path) -> None:
    net, log = "examples/tandem-blocking.toml", answer("sample", "examples/tandem-blocking.toml", 0, 0, "log")
    *head, last, end = log.splitlines()
    assert (head[2], head[4], last.split()[1], end) == ("seed 0", "horizon 64", "1", "end 3,2,1")
    steps = [line.split(" ", 2) for line in head[6:]]
    lowered = [f"step {int(time) - 1} {rest}" for _, time, rest in steps]
    forged = [
        [*head, last, "end 3,2,2"],
        [*head[:2], "seed 1", *head[3:], last, end],
        [*head[:4], "horizon 63", head[5], *lowered, end],
    ]
    stated = []
    for number, each in enumerate(forged):
        (tmp_path / f"line-{number}.log").write_text("\n".join(each) + "\n")
        stated.append(answer("replay", net, tmp_path / f"line-{number}.log"))
    shown = match_in(r"^```\n(.*?)^```\n", course.pages["solutions.md"], re.M | re.S)[1]
    assert shown == stated[0] + stated[1] and stated[2] == stated[1]
    course.solves(
        11, "are the lines for the first two.", "the one that seed 1 picks. The third one is rejected like the second:"
    )


def test_12_how_many_lines(course: Course, answer: Answer) -> None:
    net = table("docs/course/lines.toml")
    (queue,), (ring, hang_up), (busy,) = net["queue"], net["event"], net["reward"]
    load = ring["rate"] / hang_up["rate"]
    assert (queue["servers"], queue["capacity"], load, busy["level"]) == (14, 14, 8, 13)
    needed = [math.ceil(1.96**2 * (1 - share) / (share * 0.01) - 1e-6) for share in (0.01, 1e-6)]
    course.solves(
        12,
        f"Erlang's formula B gives {100 * erlang_b(14, 8):.3f} % for 14 lines and {100 * erlang_b(15, 8):.3f} % for "
        "15, so 15 lines are needed.",
        "the interval has the half width 1.96 sqrt(p (1 - p) / n).",
        f"It is p / 10 at n = {needed[0]:,} for 1 %, and at n = {needed[1]:,} for a millionth:",
    )
    assert erlang_b(15, 8) < 0.01 < erlang_b(14, 8)
    for share, count in zip((0.01, 1e-6), needed):
        assert 1.96 * math.sqrt(share * (1 - share) / count) == pytest.approx(share / 10, rel=1e-4)
    report = report_of(answer("report", "docs/course/lines.toml", 0, 0, 4000))
    share = report["reward-sum", "busy"] / 4000
    assert abs(share - erlang_b(14, 8)) < 3 * math.sqrt(erlang_b(14, 8) / 4000)
