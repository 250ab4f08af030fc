"""psi-means: means and intervals of reports, and what is refused."""

import json
from pathlib import Path
from typing import Any

import pytest
from conftest import Tool, example, is_refused, out_of

from tests.support import report_of

NET, SHORT = example("breakdowns"), example("short-past")


@pytest.fixture
def blocks(tool: Tool, tmp_path: Path) -> list[Path]:
    """The reports of a folder that psi-many keeps, of the name `kept`."""
    status, _, error = tool("psi-many", NET, 5, 100, 2_000, "--jobs", 2, "--folder", "kept")
    assert status == 0, error
    return sorted((tmp_path / "kept/blocks").iterdir())


def test_a_folder_of_psi_many(tool: Tool, blocks: list[Path]) -> None:
    assert len(blocks) >= 20
    by_folder = tool("psi-means", "kept", "--format", "csv")
    by_files = tool("psi-means", *blocks, "--net", NET, "--format", "csv")
    assert by_folder == by_files
    assert by_folder[0] == 0
    rows = report_of(tool("psi-many", NET, 5, 100, 2_000, "--folder", "kept")[1])
    for line in by_folder[1].splitlines()[1:]:
        item, name, mean, half, low, high, least, greatest = line.split(",")
        if item == "mean":
            assert float(mean) == rows["sum", name] / 2_000
            assert (int(least), int(greatest)) == (rows["least", name], rows["greatest", name])
        assert float(low) <= float(mean) <= float(high)
        assert float(high) - float(low) == pytest.approx(2 * float(half), abs=1e-12)
        if name == "jobs":
            assert float(low) == pytest.approx(float(mean) - float(half), abs=float(half) / 20)


def rows_of(tool: Tool, *words: object) -> Any:
    """The rows of an answer in JSON."""
    return json.loads(tool("psi-means", *words, "--format", "json")[1])["rows"]


def test_text_json_and_levels(tool: Tool, blocks: list[Path]) -> None:
    """A wider level is wider."""
    assert out_of(tool("psi-means", "kept")).startswith("2,000 samples in ")
    assert [row["name"] for row in rows_of(tool, "kept") if row["item"] == "mean"] == ["jobs", "broken"]
    for narrow, wide in zip(*(rows_of(tool, "kept", "--level", level) for level in (90, 99))):
        assert narrow["half"] <= wide["half"]


def test_a_report_that_is_given_twice_is_refused(tool: Tool, tmp_path: Path, blocks: list[Path]) -> None:
    assert is_refused(tool("psi-means", *[blocks[0]] * 20), "is the same file as")
    (tmp_path / "link.csv").symlink_to(blocks[2])
    assert is_refused(tool("psi-means", *blocks, "link.csv"), "is the same file as")
    copies = [tmp_path / f"copy-{place}.csv" for place in range(20)]
    for copy in copies:
        copy.write_bytes(blocks[0].read_bytes())
    line = "psi-means: all reports are the same text: each is to be one of other streams\n"
    assert tool("psi-means", *copies) == (2, "", line)


def test_a_network_tells_what_is_not_coupled(tool: Tool, tmp_path: Path) -> None:
    tool("psi-many", SHORT, 0, 0, 1_000, "--folder", "short")
    blocks = sorted((tmp_path / "short/blocks").iterdir())
    alone = json.loads(tool("psi-means", *blocks, "--format", "json")[1])
    assert "--net NET gives intervals" in alone["notes"][0]
    assert {row["low"] for row in alone["rows"] if row["item"].endswith("mean")} == {None}
    known = tool("psi-means", *blocks, "--net", SHORT, "--format", "json")
    assert known == tool("psi-means", "short", "--format", "json")
    assert out_of(tool("psi-means", "short")).startswith("NOT COUPLED: 585 of 1,000 streams; ")
    for row in json.loads(known[1])["rows"]:
        if row["item"].endswith("mean"):
            assert row["low"] < row["mean"] < row["high"]
    assert is_refused(tool("psi-means", *blocks, "--net", NET), "aren't of this network")


def test_too_few_batches(tool: Tool, blocks: list[Path]) -> None:
    assert is_refused(tool("psi-means", *blocks[:19]), "psi-means: there are 19 batches, and 20 are wanted")


def test_blocks_that_are_changed_or_of_another_network(tool: Tool, tmp_path: Path, blocks: list[Path]) -> None:
    other = tmp_path / "other.csv"
    other.write_text(blocks[0].read_text().replace("jobs", "jabs"))
    assert is_refused(tool("psi-means", *blocks, other), "different networks")
    blocks[3].write_text(blocks[3].read_text().replace("\n", "\r\n"))
    assert is_refused(tool("psi-means", "kept"), "isn't as it was written")
    blocks[3].unlink()
    status, out, _ = tool("psi-means", "kept")
    assert (status, out.split(":")[0]) == (0, "NOT WHOLE") or status == 2


def test_a_picture_with_intervals(tool: Tool, tmp_path: Path, blocks: list[Path]) -> None:
    assert tool("psi-plot", "report", "kept", "-o", "means.svg") == (0, "", "")
    assert 'id="interval-0-jobs"' in (tmp_path / "means.svg").read_text()


@pytest.mark.slow
def test_reports_that_a_spreadsheet_has_saved(tool: Tool, tmp_path: Path, blocks: list[Path]) -> None:
    saved = [tmp_path / f"{place}.csv" for place in range(len(blocks))]
    for block, path in zip(blocks, saved):
        path.write_bytes(block.read_bytes().replace(b"\n", b"\r\n"))
    assert tool("psi-means", *saved) == tool("psi-means", *blocks)
    pictures = [tmp_path / name for name in ("saved.png", "own.png")]
    (tmp_path / "own").mkdir()
    (tmp_path / "own/0.csv").write_bytes(blocks[0].read_bytes())
    for report, picture in zip(("0.csv", "own/0.csv"), pictures):
        assert tool("psi-plot", "report", report, "-o", picture)[0] == 0
    assert pictures[0].read_bytes() == pictures[1].read_bytes()
    assert tool("merge_reports.py", *saved[:2]) == (3, "", f"merge_reports: refused 1 Row line 2 {saved[0]}\n")
    saved[0].write_bytes(blocks[0].read_bytes().replace(b"\n", b"\r\n", 3))
    assert tool("psi-means", *saved) == (2, "", f"psi-means: {saved[0]} is no report: refused 1 Row line 2\n")
