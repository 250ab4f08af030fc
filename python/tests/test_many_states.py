"""psi-many --states: tables of samples in blocks, which are checked, kept, and drawn on from where they stopped."""

import os
import shutil
import signal
from collections.abc import Sequence
from pathlib import Path

import pytest
from conftest import Started, Tool, example, is_refused, limited, lines_of, printed_by, scripted, wait_for

from psi_tools.io.samples import is_table, uncoupled_in

NET, SHORT, RING = map(example, ("overflow", "short-past", "central-server"))
CALL = ["psi-many", str(NET), "5", "7", "400", "--block", "50", "--states"]


def beside(folder: Path, program: str, lines: Sequence[str]) -> Path:
    """A folder with psi, and a script in place of psi_states."""
    scripted(folder / "own/psi_states", *lines)
    return Path(shutil.copy(program, folder / "own/psi"))


def test_a_table_is_that_of_one_process(tool: Tool, states_program: str, tmp_path: Path) -> None:
    wanted = printed_by(states_program, NET, 5, 7, 400)
    assert tool(*CALL)[:2] == (0, wanted)
    assert (tmp_path / "overflow.toml.5.7.400.states.many").is_dir()
    status, out, error = tool(*CALL, "-o", "table.csv", "--folder", "own", "--jobs", 3)
    assert (status, out, lines_of(error)) == (0, "", [])
    assert (tmp_path / "table.csv").read_text() == wanted
    last = 2**64 - 41
    assert tool("psi-many", NET, 0, last, 41, "--states")[1] == printed_by(states_program, NET, 0, last, 41)
    wanted = printed_by(states_program, RING, 2, 4, 90, "closed", 6)
    assert tool("psi-many", RING, 2, 4, 90, "--closed", 6, "--states", "--block", 20)[:2] == (0, wanted)
    assert (tmp_path / "central-server.toml.2.4.90.6.states.many").is_dir()


def test_streams_that_are_not_coupled_have_their_rows(tool: Tool, states_program: str) -> None:
    wanted = printed_by(states_program, SHORT, 0, 0, 100)
    lost = sum(line.endswith(",,,") for line in wanted.splitlines())
    status, out, error = tool("psi-many", SHORT, 0, 0, 100, "--states", "--block", 30)
    assert (status, out) == (0, wanted)
    assert lines_of(error) == [
        f"psi-many: NOT COUPLED: {lost} of 100 streams; their rows are empty, and the others alone are biased"
    ]


def test_a_call_goes_on_where_it_was_ended(
    tool: Tool, started: Started, states_program: str, program: str, tmp_path: Path
) -> None:
    """A call that is ended keeps the blocks that were whole; the same call draws the others alone."""
    slow = beside(tmp_path, program, ['echo "$3" >>"$KEPT/drawn"', "sleep 0.3", f'exec {states_program} "$@"'])
    call = [*CALL, "--folder", "kept", "--psi", slow]
    run = started(*call, "--jobs", 1)
    assert wait_for(lambda: len([*(tmp_path / "kept").glob("blocks/0*.csv")]) >= 3)
    run.send_signal(signal.SIGTERM)
    out, _ = run.communicate()
    assert (run.returncode, out) == (128 + signal.SIGTERM, "")
    kept = {file.name: file.stat().st_ino for file in (tmp_path / "kept/blocks").glob("0*.csv")}
    assert 3 <= len(kept) < 8
    (tmp_path / "own/psi_states.kept/drawn").write_text("")
    assert tool(*call)[:2] == (0, printed_by(states_program, NET, 5, 7, 400))
    assert len((tmp_path / "own/psi_states.kept/drawn").read_text().split()) == 8 - len(kept)
    assert all((tmp_path / "kept/blocks" / name).stat().st_ino == number for name, number in kept.items())


@pytest.mark.parametrize(
    "change",
    [
        *("sed 5d", "sed '$d'", "sed '3s/^[0-9]*/7/'", "sed '1s/horizon/past/'", "sed 1d", "sed '4p'", "head -c -1"),
        *("sed '2s/,[0-9]*,/,x,/'", "sed '2s/,[0-9]*,/,,/'", "sed '2s/$/,1/'", "tac", "cat; exit 7", "true"),
    ],
)
def test_a_block_that_is_no_table_does_not_count(
    tool: Tool, states_program: str, program: str, tmp_path: Path, change: str
) -> None:
    """The first text of each block is another one, so each is drawn again."""
    lines = [
        f'mkdir "$KEPT/$3" 2>/dev/null && {{ {states_program} "$@" | {{ {change}; }}; exit; }}',
        f'exec {states_program} "$@"',
    ]
    other = beside(tmp_path, program, lines)
    status, out, error = tool(*CALL, "--psi", other)
    assert (status, out) == (0, printed_by(states_program, NET, 5, 7, 400))
    assert "8 blocks" in lines_of(error)[0]


def test_a_file_that_was_changed_is_drawn_again(tool: Tool, states_program: str, tmp_path: Path) -> None:
    wanted = printed_by(states_program, NET, 5, 7, 400)
    assert tool(*CALL, "--folder", "kept")[0] == 0
    first, second, *_ = sorted((tmp_path / "kept/blocks").iterdir())
    first.write_text(first.read_text().replace("\n7,", "\n8,"))
    second.unlink()
    status, out, error = tool(*CALL, "--folder", "kept")
    assert (status, out) == (0, wanted)
    again = "the streams 7 to 56 are drawn again: the file of their block isn't as it was written"
    assert lines_of(error) == [f"psi-many: {again}"]


def test_what_does_not_fit_is_refused(tool: Tool, states_program: str, program: str, tmp_path: Path) -> None:
    assert tool(*CALL, "--folder", "samples")[0] == 0
    assert tool(*CALL[:-1], "--folder", "report")[0] == 0
    for folder, words, reported, asked in (("samples", CALL[:-1], 1, None), ("report", CALL, None, 1)):
        message = f"the blocks in {tmp_path}/{folder} are of another call: states {reported}, not {asked}"
        assert tool(*words, "--folder", folder) == (2, "", f"psi-many: {message}\n")
    assert is_refused(tool("psi-means", "samples"), "is a folder of samples")
    more = "goes without --states: samples are drawn on this machine, and not merged"
    for option in (("--hosts", "hosts"), ("--slurm",), ("--merge", "psi_merge")):
        assert tool(*CALL, *option) == (2, "", f"psi-many: {option[0]} {more}\n")
    assert tool("psi-many", NET, 0, 0, 10, "--closed", 3, "--states") == (11, "", "psi-many: not closed event 0\n")


def test_files_and_streams_that_cannot_be_written(tool: Tool, states_program: str, tmp_path: Path) -> None:
    with open("/dev/full", "wb") as full:
        status, _, error = tool(*CALL, "--folder", "kept", stdout=full)
    assert status == 7
    assert lines_of(error) == ["psi-many: standard output can't be written: No space left on device"]
    (tmp_path / "table.csv").write_text("as it was")
    most = os.stat(next((tmp_path / "kept/blocks").iterdir())).st_size + 20
    status, out, error = tool(*CALL, "--folder", "kept", "-o", "table.csv", **limited("FSIZE", most))
    assert (status, out, lines_of(error)) == (7, "", ["psi-many: table.csv can't be written: File too large"])
    assert (tmp_path / "table.csv").read_text() == "as it was"
    assert not [*tmp_path.glob(".table*")]


def test_what_is_a_table() -> None:
    header = ["stream", "horizon", "queue.a", "reward.b"]
    head = b"stream,horizon,queue.a,reward.b\n"
    assert is_table(header, head + b"7,64,2,-10\n8,,,\n", 7, 2)
    for rows in (
        *(b"", b"7,64,2,0\n", b"7,64,2,0\n8,,,", b"8,,,\n7,64,2,0\n", b"7,64,2,0\n9,,,\n", b"7,64,2,0\n8,,\n"),
        *(b"7,64,2,0\n8,,,,\n", b"7,64,-2,0\n8,,,\n", b"7,64,2,0.5\n8,,,\n", b"7,,2,0\n8,,,\n", b"7,64,,\n8,,,\n"),
        *(b"7,64,2,0\n8,,,\n9,,,\n", b"7,64,2,--1\n8,,,\n", b"7, 64,2,0\n8,,,\n", b"7,64,2,0\r\n8,,,\n"),
        b"07,64,2,0\n8,,,\n",
        *("7,64,٢,0\n8,,,\n".encode(), b"7,64,2,0\n8,,,\xff\n"),
    ):
        assert not is_table(header, head + rows, 7, 2), rows
    assert not is_table(header, b"stream,horizon,queue.b,reward.b\n7,64,2,0\n8,,,\n", 7, 2)
    assert uncoupled_in(header, head + b"7,64,2,0\n8,,,\n9,,,\n") == 2
