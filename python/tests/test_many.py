"""psi-many: what it tells on standard error, folders that are enlarged, disks without room, and closed networks."""

import json
import os
import re
from pathlib import Path

import pytest
from conftest import Psi, Tool, companion, example, is_refused, limited, lines_of, printed_by, scripted
from solving import means_of

from psi_tools.cli.many import MOST_COUNT
from psi_tools.draw.states import samples_of
from psi_tools.model.networks import Network

NET, SHORT = example("single-server"), example("short-past")
CALL = [NET, "0", "0", "400", "--block", "50"]


def report(program: str, net: Path, count: int) -> str:
    """What one process prints of the first streams of seed 0."""
    return printed_by(program, "report", net, 0, 0, count)


def program_in(folder: Path, psi: str, way: str) -> Path:
    """A program in place of psi, whose first reports of each block go another way."""
    first = '[ "$1" = report ] && mkdir "$KEPT/$4" 2>/dev/null'
    return scripted(folder / "psi", f"{first} && {{ {way}; }}", f'exec {psi} "$@"')


def test_uncoupled_streams_are_told(tool: Tool, program: str) -> None:
    status, out, error = tool("psi-many", SHORT, 0, 0, 100)
    assert (status, out) == (0, report(program, SHORT, 100))
    assert lines_of(error) == [
        "psi-many: NOT COUPLED: 59 of 100 streams; sums and extremes are of the others, and biased"
    ]
    assert lines_of(tool("psi-many", NET, 0, 0, 100)[2]) == []


AGAIN = "8 blocks were drawn again, first the streams 0 to 49"
# Where the status is 0, GNU parallel takes what comes.
FAILED = "8 blocks failed, first the streams 0 to 49: half of it; they are drawn again"


@pytest.mark.parametrize(
    "way, line", [("exit 8", AGAIN), ("kill -9 $$", AGAIN), ("echo half of it >&2; exit 0", FAILED)]
)
def test_a_block_that_fails_is_drawn_again_and_told(
    tool: Tool, program: str, tmp_path: Path, way: str, line: str
) -> None:
    other = program_in(tmp_path, program, way)
    status, out, error = tool("psi-many", *CALL, "--psi", other)
    assert (status, out) == (0, report(program, NET, 400))
    assert lines_of(error) == [f"psi-many: {line}"]


def test_a_file_that_is_removed_is_told(tool: Tool, tmp_path: Path) -> None:
    tool("psi-many", *CALL, "--folder", "kept")
    files = sorted((tmp_path / "kept/blocks").iterdir())
    files[0].write_bytes(files[0].read_bytes()[:-1])
    files[1].rename(files[1].with_name(files[1].name.replace("0000001", "0000009")))
    status, _, error = tool("psi-many", *CALL, "--folder", "kept")
    assert status == 0
    assert lines_of(error) == [
        "psi-many: the streams 0 to 49 are drawn again: the file of their block isn't as it was written",
        "psi-many: the file of the block 9, which this call hasn't, is removed",
    ]


@pytest.mark.parametrize("more", [[], ["--states"]], ids=["report", "states"])
def test_a_folder_is_enlarged(tool: Tool, program: str, tmp_path: Path, more: list[str]) -> None:
    one = [companion(program, "psi_states")] if more else [program, "report"]
    for count in (100, 110, 260):
        status, out, error = tool("psi-many", *CALL[:3], count, "--block", 50, "--folder", "kept", *more)
        assert (status, out) == (0, printed_by(*one, NET, 0, 0, count)), error
        if count == 100:
            first = {file: file.stat().st_ino for file in (tmp_path / "kept/blocks").iterdir()}
    assert len(first) == 2 and all(file.stat().st_ino == one for file, one in first.items())
    reported = lines_of(error)
    assert reported[0] == f"psi-many: {tmp_path}/kept has 110 streams, and gets 150 more"
    assert reported[1].startswith("psi-many: the streams 100 to 149 are drawn again")
    assert tool("psi-means", "kept")[0] == 2
    line = f"psi-many: the blocks in {tmp_path}/kept are of another call: count 260, not 110\n"
    assert tool("psi-many", *CALL[:3], 110, "--folder", "kept", *more) == (2, "", line)


def test_count_has_its_true_range(tool: Tool) -> None:
    assert f"1 to {MOST_COUNT:,}" in " ".join(tool("psi-many", "-h")[1].split())
    assert is_refused(tool("psi-many", NET, 0, 0, MOST_COUNT + 1), f"a number from 1 to {MOST_COUNT} is expected")
    assert is_refused(tool("psi-many", NET, 0, 0, MOST_COUNT, "--block", 65_535), "blocks of 65535 streams")


def test_a_hosts_file_that_is_not_there(tool: Tool, tmp_path: Path) -> None:
    line = "psi-many: absent can't be read: No such file or directory\n"
    assert tool("psi-many", *CALL, "--hosts", "absent") == (2, "", line)
    assert [*tmp_path.iterdir()] == []


@pytest.mark.parametrize("bytes_written", [0, 20, 150])
def test_a_file_that_cannot_be_written_is_named(tool: Tool, tmp_path: Path, bytes_written: int) -> None:
    status, out, error = tool("psi-many", *CALL, "--folder", "kept", **limited("FSIZE", bytes_written))
    assert (status, out) == (7, "")
    found = re.fullmatch(r"psi-many: (/\S+) can't be written: File too large\n", error)
    assert found and Path(found[1]).is_relative_to(tmp_path), error


def test_standard_error_that_cannot_be_written(tool: Tool, program: str) -> None:
    wanted = report(program, NET, 400)
    with open("/dev/full", "wb") as full:
        assert tool("psi-many", *CALL, "--folder", "kept", stderr=full)[:2] == (0, wanted)
    assert tool("psi-many", *CALL, "--folder", "kept", preexec_fn=lambda: os.close(2))[:2] == (0, wanted)


RING = (
    Network.read(example("central-server"))
    .reward("cpu-idle", "table", ["cpu"], table=[[1, 0, 0, 0, 0, 0, 0]])
    .reward("longest", "greatest", ["cpu", "disk", "drum"])
    .reward("at-disks", "linear", ["disk", "drum"], weights=[1, 1])
    .reward("above-one", "above", ["disk", "drum"], level=1)
    .reward("shortest", "least", ["cpu", "disk"])
)


@pytest.fixture
def ring(tmp_path: Path) -> str:
    RING.write(tmp_path / "ring.toml")
    return "ring.toml"


def test_means_are_those_that_are_solved(tool: Tool, ring: str) -> None:
    words = (ring, 0, 0, 4_000, "--closed", 6, "--folder", "kept")
    status, report, error = tool("psi-many", *words)
    assert status == 0, error
    assert report.startswith("item,name,value\nsamples,-,4000\nmet,-,4000\n")
    assert tool("psi-many", *words)[1] == report
    queues, rewards = means_of(RING, 6)
    wanted = {**queues, **rewards}
    reported = json.loads(tool("psi-means", "kept", "--format", "json", "--level", "99.99")[1])
    rows = [row for row in reported["rows"] if row["item"].endswith("mean")]
    assert [row["name"] for row in rows] == [*wanted]
    for row in rows:
        assert row["low"] <= wanted[row["name"]] <= row["high"], row


def test_it_is_the_report_of_the_states(tool: Tool, psi: Psi, ring: str) -> None:
    report = tool("psi-many", ring, 2**64 - 1, 2**64 - 30, 30, "--closed", 5)[1]
    states = psi.closed(RING, 5, 2**64 - 1, 2**64 - 30, 30)
    for place, name in enumerate(("cpu", "disk", "drum")):
        assert f"\nsum,{name},{states[:, place].sum()}\n" in report
    assert f"\nreward-sum,longest,{states.max(axis=1).sum()}\n" in report


def test_what_psi_refuses(tool: Tool, ring: str) -> None:
    for net, total, status, line in (
        (example("first"), 1, 11, "not closed event 0"),
        (ring, 19, 12, "no state with this total"),
    ):
        assert tool("psi-many", net, 0, 0, 20, "--closed", total) == (status, "", f"psi-many: {line}\n")


def test_a_folder_is_of_one_total(tool: Tool, ring: str) -> None:
    tool("psi-many", ring, 0, 0, 20, "--closed", 2, "--folder", "kept")
    end = tool("psi-many", ring, 0, 0, 20, "--closed", 3, "--folder", "kept")
    assert is_refused(end, "of another call: closed 2, not 3")


def test_streams_that_never_couple_are_counted(tool: Tool, tmp_path: Path) -> None:
    net = Network(limit=4).queue("a", 3).queue("b", 3).queue("c", 3)
    net.event("go", "service", 1, "a", ["b"], full="stay").write(tmp_path / "apart.toml")
    status, out, _ = tool("psi-many", "apart.toml", 0, 0, 20, "--closed", 3)
    assert status == 0 and "\nmet,-,0\nuncoupled,-,20\nsum,a,0\nsum,b,0\nsum,c,0\n" in out


def test_texts_that_are_not_whole() -> None:
    assert samples_of(b"met 4\nstate 1,2\nnot coupled within 8\n") == [(4, [1, 2]), None]
    assert samples_of(b"met 4\nstate 1,") is None
    assert samples_of(b"met 4\nstate 1,2\npsi: out of memory\n") is None
