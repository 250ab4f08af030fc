"""psi-sweep: the same words choose the same events, and differences are told by few samples."""

import csv
import json
from pathlib import Path
from typing import Any

import pytest
from conftest import Tool, is_refused, out_of
from solving import birth_and_death, means_of

from psi_tools.model.designs import aligned, common_events, designs_of, check_bounds
from psi_tools.model.networks import Network
from psi_tools.errors import PsiError

CALLS = (
    Network()
    .queue("calls", 12, 3)
    .event("ring", "arrival", 5, to=["calls"])
    .event("answer", "service", 2, source="calls")
    .reward("full", "above", ["calls"], level=11)
    .toml()
)


@pytest.fixture
def net(tmp_path: Path) -> str:
    (tmp_path / "calls.toml").write_text(CALLS)
    return "calls.toml"


def times_of(folder: Path) -> dict[Path, int]:
    """When each block of a folder was written."""
    return {file: file.stat().st_mtime_ns for file in folder.rglob("*.csv")}


def rows_of(tool: Tool, net: str, *words: object) -> Any:
    """The rows of an answer in JSON."""
    return json.loads(out_of(tool("psi-sweep", net, *words, "--format", "json")))["rows"]


def test_events_have_the_same_numbers_in_all_designs() -> None:
    words = ["ring.rate=5,6", "calls.servers=2,3"]
    keys, designs, scale, short = designs_of(words, Network.parse(CALLS))
    assert (keys, scale, short) == ([("ring", "rate"), ("calls", "servers")], 1, [])
    designs, why = aligned(designs)
    assert why is None
    for design in designs:
        total = [event["rate"] * design.net.servers_of(event) for event in design.net.table["event"]]
        # Six numbers are of ring and what fills it, six of answer and what fills it.
        names = [event["name"] for event in design.net.table["event"]]
        place = names.index("answer")
        assert (sum(total[:place]), sum(total[place:])) == (6, 6)


def test_where_there_is_no_room_for_idle_events_it_says_why() -> None:
    net = Network.parse(CALLS)
    for number in range(15):
        net.event(f"more-{number}", "service", 2**20, source="calls")
    net.table["queue"][0]["servers"] = 1
    _, designs, _, _ = designs_of(["more-0.rate=1,1048576", "more-1.rate=1048576,1"], net)
    same, why = aligned(designs[:2])
    assert why is None and same is not designs
    net.event("another", "arrival", 2**20, to=["calls"])
    _, designs, _, _ = designs_of(["more-0.rate=1,1048576", "more-1.rate=1048576,1"], net)
    same, why = aligned(designs)
    assert same is designs
    assert why == "the rates of all designs together would add up to more than 16,777,216"


def test_rates_with_a_point_are_made_whole() -> None:
    _, designs, scale, _ = designs_of(["ring.rate=5,5.25"], Network.parse(CALLS))
    assert scale == 100
    rates = [[event["rate"] for event in design.net.table["event"]] for design in designs]
    assert rates == [[500, 200], [525, 200]]


def test_tables_are_cut_and_rewards_without_a_value_left_out() -> None:
    net = Network.parse(CALLS)
    net.reward("waiting", "table", ["calls"], table=[[max(0, n - 3) for n in range(13)]])
    words = ["calls.capacity=10,11", "full.level=9,10"]
    _, designs, _, short = designs_of(words, net, together=True)
    assert short == []
    assert [len(design.net.table["reward"][1]["table"][0]) for design in designs] == [11, 12]
    assert [design.net.table["reward"][0]["level"] for design in designs] == [9, 10]
    _, designs, _, short = designs_of(["calls.capacity=12,13"], net)
    assert short == ["waiting"]
    assert [design.net.rewards for design in designs] == [["full"]] * 2


def test_an_index_without_a_value_is_refused() -> None:
    net = Network().queue("a", 2).queue("b", 2)
    net.event("in", "index", 1, to=["a", "b"], table=[[0, 1], [0, 1]])
    assert designs_of(["a.capacity=1,2"], net)[1][0].net.table["event"][0]["table"] == [[0], [0, 1]]
    with pytest.raises(PsiError, match="in: its table has no index for that many customers in b"):
        designs_of(["b.capacity=2,3"], net)


@pytest.mark.parametrize(
    "word", "ring.rate ring.speed=1 bell.rate=2 calls.capacity=2.5 ring.rate=5..1 ring.rate=0 calls.servers=2,2".split()
)
def test_words_that_are_not_right(word: str) -> None:
    with pytest.raises(PsiError):
        designs_of([word], Network.parse(CALLS))


def test_means_are_those_of_each_design(tool: Tool, tmp_path: Path, net: str) -> None:
    rows = rows_of(tool, net, "calls.servers=2,3", "--count", "20000", "--anyway")
    for row in rows:
        solved = Network.parse(CALLS)
        solved.table["queue"][0]["servers"] = int(row["calls.servers"])
        queues, rewards = means_of(solved)
        wanted = {**queues, **rewards}[row["name"]]
        # Twice the interval: a fault is further off.
        assert abs(row["mean"] - wanted) < 2 * row["half"]


def test_a_tenth_of_the_samples_that_two_seeds_need(tool: Tool, net: str) -> None:
    words = ("ring.rate=5,5.1", "--of", "calls", "--count", "4000")
    first = rows_of(tool, net, *words)
    other = rows_of(tool, net, *words, "--seed", "1")
    together = first[1]["difference_half"]
    apart = (first[0]["half"] ** 2 + other[1]["half"] ** 2) ** 0.5
    # A half ten times shorter squared: as many samples as the interval's square goes with.
    assert (apart / together) ** 2 > 10


def test_it_goes_on_where_it_was_stopped(tool: Tool, tmp_path: Path, net: str) -> None:
    kept = ("--count", "400", "--folder", "kept", "--anyway")
    rows_of(tool, net, "calls.capacity=10,12", *kept)
    before = times_of(tmp_path / "kept")
    removed = sorted(before)[3]
    removed.unlink()
    rows = rows_of(tool, net, "calls.capacity=10,12,14", *kept)
    after = times_of(tmp_path / "kept")
    assert len(rows) == 6
    assert all(after[file] == time for file, time in before.items() if file != removed)
    assert len(after) == len(before) * 3 // 2


def test_a_picture(tool: Tool, tmp_path: Path, net: str) -> None:
    words = ("calls.servers=2,3,4", "--count", "400", "--picture", "sweep.png", "--anyway")
    assert tool("psi-sweep", net, *words)[0] == 0
    assert (tmp_path / "sweep.png").read_bytes().startswith(b"\x89PNG")


def test_more_streams_are_added(tool: Tool, tmp_path: Path, net: str) -> None:
    words = "calls.capacity=10,12", "--anyway", "--folder", "kept", "--count"
    rows_of(tool, net, *words, "400")
    before = times_of(tmp_path / "kept")
    rows = rows_of(tool, net, *words, "600")
    assert len(before) >= 40
    assert before.items() <= times_of(tmp_path / "kept").items()
    fresh = rows_of(tool, net, "calls.capacity=10,12", "--anyway", "--count", "600")
    assert [row["mean"] for row in rows] == [row["mean"] for row in fresh]
    assert {row["samples"] for row in rows} == {600}


ABANDONMENT = "--arrival 5 --service 2 --places 30 --patience 0.5".split()


def solved_abandonment(servers: int) -> dict[str, float]:
    """The mean number of calls and of those who wait, by the formula for birth and death."""
    law = birth_and_death(5, [2 * min(n, servers) + 0.5 * max(0, n - servers) for n in range(1, 31)])
    calls = sum(number * share for number, share in enumerate(law))
    return {"calls": calls, "waiting": sum(max(0, n - servers) * share for n, share in enumerate(law))}


def test_a_sweep_of_servers_is_refused_where_guards_go_by_them(tool: Tool, tmp_path: Path) -> None:
    for servers in (3, 4):
        words = ("abandonment", *ABANDONMENT, "--servers", servers, "-o", f"{servers}.toml")
        assert tool("psi-new", *words)[0] == 0
    refusal = "least = 4 of event give-up-1 goes by calls and would stay as it is while calls.servers differs: "
    assert is_refused(tool("psi-sweep", "3.toml", "calls.servers=3,4"), f"psi-sweep: {refusal}")
    assert tool("psi-sweep", "3.toml", "calls.servers=3,4", "--anyway", "--count", "100")[0] == 0
    # The files as they are have what the formula says.
    found = rows_of(tool, "3.toml", "4.toml", "--count", "20000")
    rows = {(row["network"], row["name"]): row for row in found}
    for servers in (3, 4):
        for name, wanted in solved_abandonment(servers).items():
            row = rows[f"{servers}.toml", name]
            assert abs(row["mean"] - wanted) < 1.5 * row["half"], (servers, name)
    gap = rows["4.toml", "calls"]
    wanted = solved_abandonment(4)["calls"] - solved_abandonment(3)["calls"]
    assert abs(gap["difference"] - wanted) < 1.5 * gap["difference_half"]
    # Common random numbers: the difference is known better than by samples drawn apart.
    apart = (rows["3.toml", "calls"]["half"] ** 2 + gap["half"] ** 2) ** 0.5
    assert gap["difference_half"] < apart / 2


GUARDED = (
    Network(version=2)
    .queue("a", 6, 2)
    .event("in", "arrival", 3, to=["a"])
    .event("out", "service", 2, source="a")
    .toml()
)
EVENT = '[[event]]\nkind = "guarded"\nname = "g"\nrate = 1\n'
PARTS = {
    "least": EVENT + 'part = [{ queue = "a", least = 3, shift = -1 }]\n',
    "most": EVENT + 'part = [{ queue = "a", most = 3, shift = 1 }]\n',
    "floor": EVENT + 'part = [{ queue = "a", floor = 1, shift = -1 }]\n',
    "ceiling": EVENT + 'part = [{ queue = "a", ceiling = 5, shift = 1 }]\n',
    "level": '[[reward]]\nkind = "above"\nname = "full"\nqueues = ["a"]\nlevel = 5\n',
    "the table": '[[reward]]\nkind = "table"\nname = "w"\nqueues = ["a"]\ntable = [[0, 0, 0, 1, 2, 3, 4]]\n',
}


@pytest.mark.parametrize("key", ["servers", "capacity"])
@pytest.mark.parametrize("part", PARTS)
def test_what_goes_by_a_queue_is_named(tool: Tool, tmp_path: Path, part: str, key: str) -> None:
    (tmp_path / "net.toml").write_text(GUARDED + PARTS[part])
    call = "psi-sweep", "net.toml", f"a.{key}={'2,3' if key == 'servers' else '5,6'}"
    end = tool(*call)
    assert is_refused(end, f"psi-sweep: {part} ") and f"while a.{key} differs" in end[2], end
    status, _, error = tool(*call, "--anyway", "--count", 40)
    assert status == 0, error
    # A rate may differ all the same.
    assert tool("psi-sweep", "net.toml", "in.rate=2,3", "--count", "40")[0] == 0


def test_what_is_swept_together_is_not_refused() -> None:
    net = Network.parse(GUARDED + PARTS["least"] + PARTS["level"])
    words = ["a.servers=2,3", "g.a.least=3,4", "full.level=4,5"]
    check_bounds(words, net, True, [])
    check_bounds(words[:2], net, True, ["a"])
    for some, together in ((words[:2], True), (words, False)):
        with pytest.raises(PsiError, match="--anyway"):
            check_bounds(some, net, together, [])
    _, designs, _, _ = designs_of(words, net, together=True)
    parts = [design.net.table["event"][2]["part"][0]["least"] for design in designs]
    assert parts == [3, 4]


def test_files_with_other_events_have_them_in_one_order() -> None:
    nets = [Network().queue("a", 3) for _ in range(3)]
    for net, names in zip(nets, (["x", "z"], ["x", "y", "z"], ["w", "x", "v", "z", "u"])):
        for name in names:
            net.event(name, "arrival", len(names), to=["a"])
    names = common_events(nets)
    assert sorted(names) == ["u", "v", "w", "x", "y", "z"]
    for net in nets:
        places = [names.index(event["name"]) for event in net.table["event"]]
        assert places == sorted(places)


def test_files_that_are_not_to_be_compared(tool: Tool, tmp_path: Path, net: str) -> None:
    (tmp_path / "same.toml").write_text("# the same\n" + CALLS)
    assert is_refused(tool("psi-sweep", net, "calls.capacity=10,12", "same.toml"), "files are compared as they are")
    (tmp_path / "copy.toml").write_text(CALLS)
    assert is_refused(tool("psi-sweep", net, "copy.toml"), "copy.toml is the same network as calls.toml")
    other = CALLS.replace('"calls"', '"lines"').replace('"full"', '"busy"')
    (tmp_path / "other.toml").write_text(other)
    rows = rows_of(tool, net, "other.toml", "--count", "400")
    lacking = [row for row in rows if (row["network"], row["name"]) == ("calls.toml", "lines")]
    assert [(row["mean"], row["low"], row["difference"]) for row in lacking] == [(None,) * 3]
    assert is_refused(tool("psi-sweep", net, "absent.toml"), "absent.toml isn't NAME.KEY=VALUES")


def test_a_folder_has_one_size_of_blocks(tool: Tool, tmp_path: Path, net: str) -> None:
    words = "--anyway", "--format", "csv", "--folder", "kept", "--count"
    assert tool("psi-sweep", net, "calls.capacity=10,12", *words, 40_000)[0] == 0
    before = times_of(tmp_path / "kept")
    # 40,960 streams would be blocks of 1,024, and 40,000 are blocks of 1,000.
    status, out, error = tool("psi-sweep", net, "calls.capacity=10,12,14", *words, 40_960)
    assert status == 0, error
    after = times_of(tmp_path / "kept")
    assert before.items() <= after.items()
    assert len(after) == 3 * 41
    fresh = tool("psi-sweep", net, "calls.capacity=10,12,14", *words[:4], "fresh", "--count", 40_960)[1]
    means = [[line.split(",")[3] for line in text.splitlines()] for text in (out, fresh)]
    assert means[0] == means[1]
    end = tool("psi-sweep", net, "calls.capacity=10,12", *words, 40_000, "--seed", 1)
    assert is_refused(end, "of another call: seed 0, not 1")


def test_both_ends_are_in_csv_and_text(tool: Tool, net: str) -> None:
    words = ("calls.capacity=11,12", "full.level=10,11", "--together", "--count", "400")
    for row in csv.DictReader(out_of(tool("psi-sweep", net, *words, "--format", "csv")).splitlines()):
        assert float(row["low"]) <= float(row["mean"]) <= float(row["high"])
        ends = float(row["difference_low"]), float(row["difference_high"])
        assert ends[0] <= float(row["difference"]) <= ends[1]
    text = tool("psi-sweep", net, *words)[1]
    assert " to " in text and " ± " in text


def test_rewards_that_are_not_told_may_go_by_the_queue(tool: Tool, net: str) -> None:
    for more, status in ((), 2), (("--of", "calls"), 0):
        assert tool("psi-sweep", net, "calls.capacity=11,12", "--count", "400", *more)[0] == status
