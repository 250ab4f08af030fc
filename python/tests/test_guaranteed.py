"""Guaranteed intervals: their certificates, the checker, and what they hold."""

import copy
import fractions
import json
import math
import random
from collections.abc import Callable, Iterator, Sequence
from pathlib import Path
from typing import Any

import pytest
from conftest import TOP, Psi, Tool, checked, example, is_refused

from psi_tools import check_interval
from psi_tools.stats import guaranteed
from psi_tools.stats.guaranteed import Guarantee, Pilot
from psi_tools.stats.intervals import Span, probability

# A row, a claim or a file of certificates; the path of a number in one; and both ends of a claim.
Record = dict[str, Any]
Place = tuple[Any, ...]
Ends = tuple[fractions.Fraction | int | None, ...]
# Values with how many samples have each.
Scores = Sequence[tuple[fractions.Fraction | int, int]]
# Files of certificates by name, each with what its tool printed.
Files = dict[str, tuple[Path, str]]
CHANGED = 400


def tail(u: int, v: int, k: int, i: int) -> int:
    """Of k draws that are ones in u of u + v cases: the cases with i ones or more."""
    return sum(math.comb(k, n) * u**n * v ** (k - n) for n in range(i, k + 1))


def holds_binomial(k: int, i: int, r: int, q: int, d: int) -> bool:
    return 0 <= i and 0 <= r <= q and d * tail(r, q - r, k, i) <= q**k


def holds_chernoff(k: int, z: int, i: int, r: int, q: int, d: int, a: int, b: int) -> bool:
    if not 0 <= i <= k * z or not 1 <= a or not b <= a or not r <= q * z:
        return False
    left = d * (r * a**z + (q * z - r) * b**z) ** k
    return bool(left <= a**i * b ** (k * z - i) * (q * z) ** k)


def holds_bets(scores: Scores, r: int, q: int, d: int, t: int, stakes: list[int]) -> bool:
    won = sum(math.prod((t * q - s * r + s * q * v) ** c for v, c in scores) for s in stakes)
    begun = d * len(stakes) * (t * q) ** sum(c for _, c in scores)
    return bool(stakes) and t * q >= 1 and all(s * r <= t * q for s in stakes) and begun <= won


BOTH = pytest.mark.parametrize("way", ["tool", "checker"])
DECIDE = {
    "tool": (guaranteed.is_binomial, guaranteed.is_chernoff, guaranteed.is_won),
    "checker": (check_interval.is_binomial, check_interval.is_chernoff, check_interval.is_won),
}


@BOTH
def test_certificates_that_are_worked_by_hand(way: str) -> None:
    """The numbers are those of the proof, which its checker computes."""
    binomial, chernoff, won = DECIDE[way]
    assert [r for r in range(100) if binomial(10, 8, r, 100, 40)][-1] == 44
    assert [i for i in range(1, 11) if binomial(10, i, 1, 2, 40)] == [9, 10]
    assert chernoff(10, 1, 8, 38, 100, 40, 61, 10) and chernoff(10, 2, 18, 9, 10, 40, 2, 1)
    scores = [(1, 2), (2, 8)]
    assert won(scores, 11, 10, 40, 10, [7]) and not won(scores, 12, 10, 40, 10, [7])


@BOTH
def test_the_inequalities_are_those_in_whole_numbers(way: str) -> None:
    """Neither rounding nor a bound of the rest accepts more than the plain inequality, nor less."""
    binomial, chernoff, won = DECIDE[way]
    draw, accepted = random.Random(54), [0, 0, 0]
    for _ in range(400):
        k, z, d = draw.randint(1, 40), draw.randint(1, 5), draw.choice([2, 20, 40])
        q, i = draw.choice([7, 100]), draw.randint(0, k)
        r = draw.randint(1, max(1, i * q // k))
        assert binomial(k, i, r, q, d) == holds_binomial(k, i, r, q, d)
        accepted[0] += binomial(k, i, r, q, d)
        i, a = draw.randint(1, k * z), draw.randint(0, 60)
        b, r = draw.randint(0, a + 1), draw.randint(1, i * q // k + 2)
        assert chernoff(k, z, i, r, q, d, a, b) == holds_chernoff(k, z, i, r, q, d, a, b)
        accepted[1] += chernoff(k, z, i, r, q, d, a, b)
        scores = [(v, draw.randint(0, 9)) for v in range(z)] + [(z, draw.randint(1, 9))]
        t, stakes = draw.choice([10, 30]), [draw.randint(0, 9) for _ in range(draw.randint(1, 3))]
        mean = sum(v * c for v, c in scores) / sum(c for _, c in scores)
        r = draw.randint(1, max(1, int(mean * q)))
        assert won(scores, r, q, d, t, stakes) == holds_bets(scores, r, q, d, t, stakes)
        accepted[2] += won(scores, r, q, d, t, stakes)
    assert all(40 < count < 360 for count in accepted), accepted


def ends_in_whole_numbers(row: Record, claim: Record, d: int) -> Ends:
    """The ends of a claim by the plain inequalities; none for one that isn't proved."""
    k, lost, least, greatest = (row[key] for key in ("samples", "uncoupled", "least", "greatest"))
    values = [v for v, c in row.get("counts", []) for _ in range(c)]
    assert k == len(values) + lost or "counts" not in row
    assert all(least <= v <= greatest for v in values)
    if claim["of"] == "quantile":
        r, q, j, i = (claim[key] for key in ("r", "q", "low", "high"))
        low = sorted(values)[-j] if j <= len(values) else least
        high = sorted(values)[i - 1] if i <= len(values) else greatest
        return (low if holds_binomial(k, j, q - r, q, d) else None, high if holds_binomial(k, i, r, q, d) else None)
    q, unit = claim["q"], claim["unit"]
    if claim["of"] == "share":
        values = [int(claim["from"] <= v <= claim["to"]) for v in values]
        least, greatest, unit = 0, 1, 1
    ends: list[fractions.Fraction | None] = []
    z = fractions.Fraction(greatest - least, unit)
    assert z == int(z)
    for side, sign, base in (("low", 1, least), ("high", -1, greatest)):
        counted = [(fractions.Fraction(sign * (v - base), unit), 1) for v in values]
        scores: Scores = [(0, lost), *counted]
        total = fractions.Fraction(sum(v * c for v, c in scores))
        if "counts" not in row:
            total = fractions.Fraction(sign * (row["sum"] - base * (k - lost)), unit)
        proof = claim[side]
        ways: dict[str, Callable[[], bool]] = {
            "binomial": lambda: z == 1 and holds_binomial(k, int(total), proof["r"], q, d),
            "chernoff": lambda: holds_chernoff(k, int(z), int(total), proof["r"], q, d, proof["a"], proof["b"]),
            "bets": lambda: holds_bets(scores, proof["r"], q, d, proof["t"], proof["stakes"]),
        }
        proves = proof is None or ways[proof["by"]]()
        r = 0 if proof is None else proof["r"]
        ends.append(base + sign * unit * fractions.Fraction(r, q) if proves else None)
    return tuple(ends)


def small_file() -> Record:
    """A file of certificates whose numbers are small enough for the plain inequalities."""
    counts = [(-1, 9), (0, 14), (1, 8), (2, 4)]
    span, pilot = Span(-1, 3, -1, 3), Pilot([(-1, 3), (0, 5), (1, 4), (2, 1)], 1, 100, 14)
    by_bets = Guarantee("bets", 37, 2, span, 20, counts, pilot=pilot)
    by_range = Guarantee("range", 37, 2, span, 20, counts)
    by_sum = Guarantee("sum", 37, 2, span, 20, total=7)
    by_hits = Guarantee("hits", 37, 2, Span(0, 5, 0, 5, True), 20, total=60)
    rows = [by_bets, by_range, by_sum, by_hits]
    for row in rows:
        # In few parts, so that the numbers are small.
        row.q = 100
        row.mean()
    by_bets.share(-1, 0)
    by_bets.quantile(0.5)
    file: Record = json.loads(json.dumps(guaranteed.file_of(rows, {})))
    return file


def places_of(value: object, path: Place = ()) -> Iterator[Place]:
    """The paths of all whole numbers in a file."""
    if type(value) is int:
        yield path
    elif isinstance(value, (dict, list)):
        for key, item in value.items() if isinstance(value, dict) else enumerate(value):
            yield from places_of(item, (*path, key))


def proved(file: Record) -> list[tuple[Record, Record, Any]]:
    """The ends that the checker says of each claim."""
    return [
        (row, claim, check_interval.interval(row, claim, *check_interval.whole([file["d"]], 1)))
        for row in file["rows"]
        for claim in row["claims"]
    ]


@pytest.mark.slow
def test_changed_certificates_do_not_prove_more() -> None:
    file = small_file()
    assert all(None not in ends for *_, ends in proved(file))
    assert {
        claim[side]["by"]
        for row in file["rows"]
        for claim in row["claims"]
        for side in ("low", "high")
        if isinstance(claim[side], dict)
    } == {"bets", "binomial", "chernoff"}
    draw, places = random.Random(7), [*places_of(file)]
    outcomes: dict[str, int] = {}
    for _ in range(CHANGED):
        changed, path = copy.deepcopy(file), draw.choice(places)
        inner = changed
        for key in path[:-1]:
            inner = inner[key]
        old = inner[path[-1]]
        others = [old + 1, old - 1, old + draw.randint(2, 9), 2 * old, 0, -old]
        inner[path[-1]] = draw.choice(others)
        try:
            found = proved(changed)
        except ValueError:
            outcomes["refused"] = outcomes.get("refused", 0) + 1
            continue
        for row, claim, ends in found:
            wanted = ends_in_whole_numbers(row, claim, changed["d"])
            for end, other in zip(ends, wanted):
                assert end is None or end == other, (path, old, claim)
            kind = "proved" if None not in ends else "not proved"
            outcomes[kind] = outcomes.get(kind, 0) + 1
    assert min(outcomes[kind] for kind in ("refused", "proved", "not proved")) > 20, outcomes


def test_a_greater_claim_is_not_proved() -> None:
    """Each end is the greatest that its certificate proves, to some parts."""
    file = small_file()
    for row, claim, _ in proved(file):
        for side in ("low", "high"):
            entry = copy.deepcopy(claim)
            if claim["of"] == "quantile":
                entry[side] -= 1
            else:
                entry[side]["r"] += 4
            low, high = check_interval.interval(row, entry, file["d"])
            assert (low if side == "low" else high) is None


@pytest.mark.parametrize(
    "seen, greatest, q, proof, wrong, ends",
    [
        ({"counts": [[0, 2], [1, 8]]}, 1, 100, {"by": "binomial", "r": 44}, 45, "0.440000 to 1.000000"),
        ({"sum": 18}, 2, 10, {"by": "chernoff", "r": 9, "a": 2, "b": 1}, 19, "0.900000 to 2.000000"),
        (
            {"counts": [[1, 2], [2, 8]]},
            2,
            10,
            {"by": "bets", "r": 11, "t": 10, "stakes": [7]},
            12,
            "1.100000 to 2.000000",
        ),
    ],
)
def test_files_of_certificates_that_are_worked_by_hand(
    tmp_path: Path, seen: Record, greatest: int, q: int, proof: Record, wrong: int, ends: str
) -> None:
    """The certificates are those that the proof computes; a greater claim is not proved."""
    claim = {"of": "mean", "q": q, "unit": 1, "low": proof, "high": None}
    row = {"name": "row", "samples": 10, "uncoupled": 0, "least": 0, "greatest": greatest, **seen}
    path = tmp_path / "file.json"
    for r, status in ((proof["r"], 0), (wrong, 4)):
        proof["r"] = r
        path.write_text(json.dumps({"d": 40, "rows": [{**row, "claims": [claim]}]}))
        found, out, error = checked(path)
        shown = ends if status == 0 else f"not proved to {ends.split()[-1]}"
        assert (found, error) == (status, "")
        assert out.splitlines()[0] == f"row: mean: {shown}"


BETS: Record = {"by": "bets", "r": 11, "t": 10, "stakes": [7]}
SHARE: Record = {"of": "share", "q": 10, "unit": 1, "from": 2, "to": 2, "low": None, "high": None}
QUANTILE: Record = {"of": "quantile", "r": 1, "q": 2, "low": 9, "high": 9}


@pytest.mark.parametrize(
    "row, claim, low",
    [
        ({}, {}, fractions.Fraction(11, 10)),
        ({}, {"low": {**BETS, "stakes": []}}, None),
        ({}, {"low": {**BETS, "stakes": [7, 0]}}, None),
        ({}, {"low": {**BETS, "stakes": [-7]}}, ValueError),
        ({}, {"low": {**BETS, "stakes": [10]}}, None),
        ({}, {"low": {**BETS, "t": 0}}, None),
        ({}, {"low": {**BETS, "by": "binomial"}}, None),
        ({}, {"low": {**BETS, "by": "word"}}, None),
        ({}, {"low": {}}, KeyError),
        ({}, {"unit": 2}, ValueError),
        ({}, {"of": "word"}, ValueError),
        ({"samples": 9}, {}, ValueError),
        ({"samples": 11}, {}, ValueError),
        ({"samples": 11, "uncoupled": 1}, {}, None),
        ({"samples": 11, "uncoupled": 1}, {"low": {**BETS, "r": 9}}, fractions.Fraction(9, 10)),
        ({"samples": 40, "uncoupled": 30}, {}, None),
        ({"least": 2}, {}, ValueError),
        ({"greatest": 1}, {}, ValueError),
        ({"counts": [[1, 2], [2, -8]]}, {}, ValueError),
        ({"counts": [[1, 2], [2, 8.0]]}, {}, ValueError),
        ({"counts": [[1, True], [2, 9]]}, {}, ValueError),
        ({"counts": [], "sum": 18}, {}, None),
        ({"counts": [], "sum": 18}, SHARE, ValueError),
        ({"counts": [], "sum": 18}, QUANTILE, ValueError),
        ({"counts": [], "sum": 21}, {"low": None}, 0),
        ({"counts": [], "sum": 21}, {"low": {"by": "chernoff", "r": 9, "a": 2, "b": 1}}, None),
        ({"counts": [], "sum": -1}, {"low": {"by": "chernoff", "r": 9, "a": 2, "b": 1}}, None),
        ({}, SHARE, 0),
        ({}, {**SHARE, "low": {"by": "binomial", "r": 4}}, fractions.Fraction(4, 10)),
        ({}, {**SHARE, "low": {"by": "binomial", "r": 5}}, None),
        ({}, {**SHARE, "unit": 2}, ValueError),
        ({}, {**QUANTILE, "low": 10}, 1),
        ({}, {**QUANTILE, "low": 8}, None),
        ({}, {**QUANTILE, "low": 11}, None),
        ({}, {**QUANTILE, "r": 2}, None),
        ({"least": 0, "counts": [[1, 2], [2, 6]], "uncoupled": 2}, QUANTILE, 0),
    ],
)
def test_what_numbers_of_a_file_prove(row: Record, claim: Record, low: object) -> None:
    """Eight values of 2 and two of 1; bets prove 11 of 10, as the proof computes."""
    row = {"samples": 10, "uncoupled": 0, "least": 0, "greatest": 2, "counts": [[1, 2], [2, 8]], **row}
    claim = {"of": "mean", "q": 10, "unit": 1, "low": BETS, "high": None, **claim}
    if type(low) is type:
        with pytest.raises(low):
            check_interval.interval(row, claim, 40)
    else:
        assert check_interval.interval(row, claim, 40)[0] == low


@pytest.mark.parametrize("wrong", [{"d": 0}, {"d": 40.0}, {"d": True}, {"d": "40"}, {}, {"d": 40, "rows": [{}]}, [], 7])
def test_what_is_no_file_of_certificates(tmp_path: Path, wrong: object) -> None:
    path = tmp_path / "file.json"
    path.write_text(json.dumps(wrong))
    status, out, error = checked(path)
    assert (status, out) == (3, "")
    assert error.startswith(f"check_interval: {path} is no file of certificates: ")


def test_a_share_holds_for_each_probability() -> None:
    """Computed, and not drawn: the chance that the interval misses, over all counts."""
    k, d = 30, 20
    q = guaranteed.parts_of(k)
    claims = [(guaranteed.by_count(k, i, q, d) or {"r": 0})["r"] for i in range(k + 1)]
    for parts in range(1, 40):
        r = parts * q // 40 + parts
        missed = sum(
            math.comb(k, i) * r**i * (q - r) ** (k - i)
            for i in range(k + 1)
            if claims[i] > r or q - claims[k - i] < r
        )
        assert d * missed <= 2 * q**k
    # It is that of Clopper and Pearson, but for what is rounded.
    for i in range(1, k):
        low, high = probability(i, k, level=1 - 2 / d)
        assert low - 2 / q <= claims[i] / q <= low
        assert high <= 1 - claims[k - i] / q <= high + 2 / q


def test_bets_hold_for_a_list_of_values() -> None:
    """Computed, and not drawn: over all counts of three values of a distribution."""
    k, d, chances = 12, 4, (6, 3, 1)
    mean, missed = fractions.Fraction(3 * 1 + 1 * 2, 10), 0
    for ones in range(k + 1):
        for twos in range(k - ones + 1):
            counts = [(v, c) for v, c in enumerate((k - ones - twos, ones, twos)) if c]
            row = Guarantee("row", k, 0, Span(0, 2, 0, 2), d, counts)
            low, high = row.mean()
            cases = math.comb(k, ones) * math.comb(k - ones, twos)
            weight = math.prod(chance ** dict(counts).get(v, 0) for v, chance in enumerate(chances))
            missed += cases * weight * (not low <= mean <= high)
    assert 0 < d * missed <= 2 * 10**k


def test_what_is_not_coupled_widens_each_end() -> None:
    counts = [(0, 40), (1, 30), (2, 30)]
    whole, cut = (Guarantee("row", 100 + lost, lost, Span(0, 4, 0, 4), 40, counts) for lost in (0, 25))
    for low, high, other_low, other_high in ((*whole.mean(), *cut.mean()), (*whole.share(1, 2), *cut.share(1, 2))):
        assert other_low < low < high < other_high
    assert cut.mean()[1] > fractions.Fraction(90 + 4 * 25, 125)
    assert cut.mean()[0] < fractions.Fraction(90, 125)


def test_levels_and_parts() -> None:
    assert [guaranteed.one_in(level) for level in (0.9, 0.95, 0.99, 0.97, 0.5)] == [20, 40, 200, 67, 4]
    assert [guaranteed.pilots_of(count) for count in (1, 100, 10_000, 10**6)] == [1, 5, 500, 1_000]
    t, stakes = guaranteed.stakes_of_range(20_000, 10, 40)
    assert t == 10**7 and all(0 < stake <= 10**6 for stake in stakes) and len(stakes) == 5
    third = fractions.Fraction(1, 3)
    low, high = guaranteed.rounded_out(third, third)
    assert fractions.Fraction(low) < third < fractions.Fraction(high)
    assert math.nextafter(low, 1) == high
    assert [guaranteed.written_out(0.12345, 3, is_high) for is_high in (False, True)] == ["0.123", "0.124"]
    assert [guaranteed.written_out(-0.12345, 3, is_high) for is_high in (False, True)] == ["-0.124", "-0.123"]


def test_a_mean_alike_in_all_states_is_known() -> None:
    assert [*Guarantee("row", 10, 3, Span(4, 4, 4, 4), 40, [(4, 7)]).mean()] == [4, 4]


def test_twenty_thousand_streams_are_fast() -> None:
    """Counted by processor time, with ten times what an idle machine takes."""
    import time

    counts = [(v, 2_000 - 20 * v) for v in range(10)] + [(10, 900)]
    begun = time.process_time()
    row = Guarantee("row", 20_000, 0, Span(0, 10, 0, 10), 40, counts)
    row.mean()
    for value in range(11):
        row.share(value, value)
        row.share(0, value)
    assert time.process_time() - begun < 20


@pytest.fixture
def files(tool: Tool, tmp_path: Path) -> Files:
    """A file of certificates of each tool, with what the tool has printed."""
    net = example("short-past")
    tool("psi-many", net, 0, 0, 300, "--block", 15, "--folder", "short")
    calls = ("psi-law", net, "desk", "--count", 300), ("psi-means", "short")
    names = "law.json", "means.json"
    reported = {name: tool(*call, "--guaranteed", "--certificate", name) for name, call in zip(names, calls)}
    assert [status for status, *_ in reported.values()] == [0, 0], reported
    return {name: (tmp_path / name, out) for name, (_, out, _) in reported.items()}


def test_the_tools_write_what_the_checker_proves(files: Files) -> None:
    for path, out in files.values():
        assert out.startswith("NOT COUPLED: ")
        assert out.endswith("were drawn evenly and independently\n")
        status, proved, error = checked(path)
        assert (status, error) == (0, ""), proved
        assert "not proved" not in proved
        assert proved.endswith("each misses for at most 2 in 40 lists of the streams' random words\n")
    path, out = files["means.json"]
    means = out.splitlines()
    for line in checked(path)[1].splitlines()[:-1]:
        name, _, ends = line.partition(": mean: ")
        _, _, mean, low, high, *_ = next(line for line in means if " ".join(line.split()[:2]) == name).split()
        exact = [float(end) for end in ends.split(" to ")]
        assert float(low) <= exact[0] <= exact[1] <= float(high)


def test_the_means_that_the_guide_has(tool: Tool) -> None:
    call = ("psi-law", example("call-centre"), "calls", "--count", 20_000)
    guide = (TOP / "docs/TOOLS.md").read_text()
    for more in ((), ("--guaranteed",), ("--guaranteed", "--pilot", 0)):
        out = tool(*call, *more)[1].splitlines()
        assert f"`{next(line for line in out if line.startswith('mean '))}`" in guide


def test_forms_and_levels(tool: Tool, tmp_path: Path, files: Files) -> None:
    words = "psi-means", "short", "--guaranteed", "--format"
    reported, wide = (json.loads(tool(*words, "json", *more)[1]) for more in ((), ("--level", 99)))
    assert [row["item"] for row in reported["rows"]] == ["mean", "reward-mean"]
    assert any(note.startswith("assumed: ") for note in reported["notes"])
    for one, other in zip(reported["rows"], wide["rows"]):
        assert other["low"] < one["low"] < one["high"] < other["high"]
    status, out, error = tool(*words, "csv")
    assert status == 0 and "assumed: " in error
    assert [line.split(",")[0] for line in out.splitlines()] == ["item", "mean", "reward-mean"]
    call = ("psi-law", example("first"), "a", "--count", 100, "--guaranteed", "--pilot", 0)
    assert "stakes from the number of streams and the range" in tool(*call)[1]


def test_what_is_refused(tool: Tool, tmp_path: Path) -> None:
    net = example("first")
    for option, value in (("--certificate", "file"), ("--pilot", 5)):
        assert tool("psi-law", net, "a", option, value) == (2, "", f"psi-law: {option} goes with --guaranteed\n")
    last = ("--first", 2**64 - 100, "--count", 100, "--guaranteed")
    assert is_refused(tool("psi-law", net, "a", *last), "--pilot 0")
    assert tool("psi-law", net, "a", *last, "--pilot", 0)[0] == 0
    tool("psi-many", net, 0, 0, 200, "--block", 10, "--folder", "kept")
    blocks = sorted((tmp_path / "kept/blocks").iterdir())
    assert is_refused(tool("psi-means", blocks[0], "--guaranteed"), "--net NET")
    assert tool("psi-means", blocks[0], "--guaranteed", "--net", net)[0] == 0
    blocks[3].unlink()
    assert is_refused(tool("psi-means", "kept", "--guaranteed"), "fixed beforehand")


def test_in_python(psi: Psi, tmp_path: Path) -> None:
    net = example("call-classes")
    means = psi.means(net, seed=3, count=200, guaranteed=True)
    law = psi.law(net, "near", seed=3, count=200, guaranteed=True)
    plain = psi.law(net, "near", seed=3, count=200)
    assert (law["count"] == plain["count"]).all()
    assert (means["low"] < means["mean"]).all() and (means["mean"] < means["high"]).all()
    for table in (means, law):
        assert "evenly and independently" in table.attrs["assumed"]
        path = tmp_path / "file.json"
        path.write_text(json.dumps(table.attrs["certificates"]))
        end = checked(path)
        assert end[0] == 0, end


def test_a_reward_of_several_queues_goes_by_states(psi: Psi, tmp_path: Path) -> None:
    """Its value counts where the states have met, also where psi reward knows it before."""
    net = psi.Network.read(example("tandem-blocking"))
    net.heads["limit"] = 5
    states = psi.samples(net, count=60, keep=True)
    known = [sum(state) for state in states.tolist() if state[0] >= 0]
    assert 0 < len(known) < 60
    with pytest.warns(psi.Uncoupled):
        found = psi.law(net, "parts", count=60, guaranteed=True)
    assert dict(found["count"]) == {value: known.count(value) for value in sorted({*known})}
