"""docs/TOOLS.md and docs/MANY.md: what they show is what the tools print. docs/FORMATS.md: the performance figures are
those of the report and of the law of M/M/c/K, and the streams that somebody could choose give what is said."""

import csv
import math
import re
from collections.abc import Callable, Iterator
from pathlib import Path

import numpy
import pytest
import scipy.stats
from conftest import TOP, companion, ended, match_in, printed_by
from solving import birth_and_death

from tests.gallery import BLOCK


def shown() -> Iterator[tuple[dict[str, str], str, str | None]]:
    """The runs that docs/TOOLS.md shows: the files before it, the commands, and the text, or none
    where it shows none."""
    text = (TOP / "docs/TOOLS.md").read_text()
    blocks, files = [*BLOCK.finditer(text)], {}
    for block, following in zip(blocks, [*blocks[1:], None]):
        if block[1] == "toml":
            files = {"desk.toml": block[2]}
        elif block[2].startswith("tools/psi-"):
            between = text[block.end() : following.start()] if following else ""
            prints = re.match(r"\s*prints\b[^.]*$", between)
            yield dict(files), block[2], following[2] if following and prints else None


RUNS = [*shown()]


def test_there_are_runs() -> None:
    assert len([text for *_, text in RUNS if text is not None]) == 9
    assert all(text != "" for *_, text in RUNS)


@pytest.mark.parametrize("files, commands, text", RUNS, ids=[run[1].split()[0] for run in RUNS])
def test_a_run_of_the_document(
    program: str, environment: dict[str, str], tmp_path: Path, files: dict[str, str], commands: str, text: str | None
) -> None:
    if "--paths" in commands:
        companion(program, "psi_paths")
    for name in ("tools", "examples"):
        (tmp_path / name).symlink_to(TOP / name)
    for name, data in files.items():
        (tmp_path / name).write_text(data)
    status, out, error = ended(["sh", "-c", commands], cwd=tmp_path, env=environment)
    # As the page says, psi-where ends with 3 where a file is refused, and that of the page is.
    assert status == (3 if commands.startswith("tools/psi-where ") else 0), error
    assert text is None or out == text


def test_the_options_of_psi_many_are_those_that_it_has() -> None:
    from psi_tools.cli.completion import options_of
    from psi_tools.cli.many import parser

    table = set(re.findall(r"^\| `(--\w+)", (TOP / "docs/MANY.md").read_text(), re.M))
    known = {names[-1] for names, *_ in options_of(parser())}
    assert table == known - {"--help", "--version"}


GUIDE = (TOP / "docs/FORMATS.md").read_text()
PART = GUIDE.partition("\n## Performance figures\n")[2].partition("\n## ")[0]
FILE, CALL = TOP / "examples/service-level.toml", "report examples/service-level.toml 0 0 10000"
SERVERS, PLACES, COME, SERVED, WITHIN = 3, 10, 5, 2, 0.5
# The probability of each number of callers.
LAW = birth_and_death(COME, [SERVED * min(number, SERVERS) for number in range(1, PLACES + 1)])


def in_time(found: int) -> float:
    """The chance that who finds that many is answered in time."""
    if not SERVERS <= found < PLACES:
        return float(found < SERVERS)
    mean = SERVERS * SERVED * WITHIN
    many = found - SERVERS
    return 1 - sum(math.exp(-mean) * mean**i / math.factorial(i) for i in range(many + 1))


def means_of_law() -> dict[str, float]:
    """The mean of each row of the report, by the law."""
    rewards: dict[str, Callable[[int], float]] = {
        "calls": lambda n: n,
        "busy": lambda n: min(n, SERVERS),
        "waiting": lambda n: max(0, n - SERVERS),
        "lost": lambda n: n == PLACES,
        "all-busy": lambda n: n >= SERVERS,
        "soon": lambda n: 10**6 * in_time(n),
    }
    return {name: sum(share * reward(n) for n, share in enumerate(LAW)) for name, reward in rewards.items()}


def means_of_report(program: str) -> dict[str, float]:
    """The mean of each row of the report, over its samples."""
    text = ended([program, *CALL.split()], cwd=TOP)[1]
    assert f"./psi {CALL}\n" in PART and text in PART
    rows = [*csv.DictReader(text.splitlines())]
    return {row["name"]: int(row["value"]) / 10_000 for row in rows if "sum" in row["item"]}


def figures(mean: dict[str, float]) -> list[float]:
    """The figures of the table, in its order."""
    entering = COME * (1 - mean["lost"])
    soon = mean["soon"] / 10**6
    return [
        mean["busy"] / SERVERS,
        SERVED * mean["busy"],
        mean["lost"],
        (mean["all-busy"] - mean["lost"]) / (1 - mean["lost"]),
        mean["waiting"],
        mean["waiting"] / entering,
        mean["calls"] / entering,
        soon,
        soon / (1 - mean["lost"]),
    ]


def test_the_table_is_that_of_the_report_and_of_the_law(program: str) -> None:
    rows = [
        [cell.strip() for cell in line.split("|")[3:5]]
        for line in PART.splitlines()
        if line.startswith("| ") and not line.startswith("| Figure")
    ]
    here, wanted_figures = figures(means_of_report(program)), figures(means_of_law())
    assert len(rows) == len(here)
    for shown, value, wanted in zip(rows, here, wanted_figures):
        places = len(shown[0].partition(".")[2])
        assert shown == [f"{value:.{places}f}", f"{wanted:.{places}f}"]
        assert value == pytest.approx(wanted, rel=0.07)


def test_the_interval_of_a_quotient_holds_it() -> None:
    """The minutes of waiting, of 20 reports of 500 samples each that are drawn from the law."""
    repetitions, reports, samples = 400, 20, 500
    found = numpy.random.default_rng(1).choice(PLACES + 1, (repetitions, reports, samples), p=LAW)
    a = numpy.maximum(0, found - SERVERS).mean(axis=2)
    b = COME * (found < PLACES).mean(axis=2)
    r = a.mean(axis=1) / b.mean(axis=1)
    d = a - r[:, None] * b
    quantile = float(match_in(r"interval is r ± ([\d.]+) √\(v / 20\) / B", " ".join(GUIDE.split()))[1])
    assert quantile == round(scipy.stats.t.ppf(0.975, reports - 1), 3)
    half = quantile * numpy.sqrt((d**2).sum(axis=1) / 19 / 20) / b.mean(axis=1)
    truth = figures(means_of_law())[5]
    held = (abs(r - truth) <= half).mean()
    assert 0.92 <= held <= 0.98, held


def test_the_rates_and_rewards_are_those_of_the_file() -> None:
    import tomllib

    net = tomllib.loads(FILE.read_text())
    queue, rates = net["queue"][0], [event["rate"] for event in net["event"]]
    assert (queue["servers"], queue["capacity"], rates) == (SERVERS, PLACES, [COME, SERVED])
    tables = {reward["name"]: reward.get("table") for reward in net["reward"]}
    wanted = [round(10**6 * in_time(number)) for number in range(PLACES + 1)]
    assert tables["soon"] == [wanted]


def test_streams_that_could_be_chosen(program: str) -> None:
    stated = match_in(r"streams ([\d, and]+) of\s+`(\S+)` give ([\d, and]+) callers", GUIDE)
    streams, states = (re.findall(r"\d+", stated[place]) for place in (1, 3))
    assert len(streams) == len(states) == 3
    for stream, state in zip(streams, states):
        out = printed_by(program, "sample", TOP / stated[2], 0, stream)
        assert out.splitlines()[1] == f"state {state}"


def test_the_commitment_is_one(tmp_path: Path) -> None:
    stated = GUIDE.partition("**A commitment**")[2]
    block = match_in(r"^  ```\n((?:  [^\n]*\n)*?)  ```", stated, re.M)
    lines = "".join(line[2:] for line in block[1].splitlines(True))
    digest = ended(["sh", "-ec", lines], cwd=tmp_path)[1]
    kept = (tmp_path / "kept").read_text()
    assert re.fullmatch(r"\d{1,20} [0-9a-f]{32}\n", kept) and int(kept.split()[0]) < 2**64
    assert digest.split()[0] == ended(["sha256sum", "kept"], cwd=tmp_path)[1].split()[0]
