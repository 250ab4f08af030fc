"""Files and processes that others have are left as they are, and what was begun goes on."""

import os
import pwd
import re
import shutil
import signal
import subprocess
from pathlib import Path

import pytest
from conftest import SECONDS, TOP, Started, Tool, ended, example, is_refused, limited, printed_by, scripted, wait_for

NET = example("single-server")
LAW = ["psi-law", str(NET), "desk", "--count", "40"]
MANY = ["psi-many", str(NET), "0", "0", "400", "--block", "10", "--folder", "kept"]
SWEEP = ["psi-sweep", str(NET), "desk.capacity=2,3", "--anyway"]


# Streams.


@pytest.mark.parametrize("name", ["/dev/stdout", "/dev/fd/1", "/proc/self/fd/1", "link"])
def test_standard_output_as_a_file_is_written_behind(tool: Tool, tmp_path: Path, name: str) -> None:
    (tmp_path / "link").symlink_to("/dev/stdout")
    (tmp_path / "log").write_text("before\n")
    wanted = tool(*LAW)[1]
    with open(tmp_path / "log", "a") as log:
        status, _, error = tool(*LAW, "-o", name, stdout=log)
        print("after", file=log)
    assert (status, error) == (0, "")
    assert (tmp_path / "log").read_text() == f"before\n{wanted}after\n"
    assert sorted(os.listdir(tmp_path)) == ["link", "log"]


def test_a_pipe_of_another_name_is_written(tool: Tool, tmp_path: Path) -> None:
    os.mkfifo(tmp_path / "pipe")
    with subprocess.Popen(["cat", "pipe"], cwd=tmp_path, stdout=subprocess.PIPE, text=True) as cat:
        assert tool(*LAW, "-o", "pipe") == (0, "", "")
        assert cat.communicate(timeout=SECONDS)[0].startswith("desk: 40 samples")


# Temporary files.


def test_a_planted_link_is_not_written_through(tool: Tool, tmp_path: Path) -> None:
    (tmp_path / "precious").write_text("mine\n")
    # What a tool with one of the next numbers would call its temporary file.
    for number in range(os.getpid(), os.getpid() + 400):
        (tmp_path / f".law.txt.{number}").symlink_to("precious")
    assert tool(*LAW, "-o", "law.txt") == (0, "", "")
    assert (tmp_path / "precious").read_text() == "mine\n"
    assert (tmp_path / "law.txt").read_text().startswith("desk: ")


@pytest.mark.parametrize("mode", [0o600, 0o664, 0o640])
def test_a_file_keeps_its_mode(tool: Tool, tmp_path: Path, mode: int) -> None:
    path = tmp_path / "law.txt"
    path.write_text("old")
    path.chmod(mode)
    assert tool(*LAW, "-o", "law.txt")[0] == 0
    assert path.stat().st_mode & 0o777 == mode
    old = os.umask(0o027)
    try:
        assert tool(*LAW, "-o", "new.txt")[0] == 0
    finally:
        os.umask(old)
    assert (tmp_path / "new.txt").stat().st_mode & 0o777 == 0o640


def test_no_temporary_file_can_be_read_by_others(tmp_path: Path, monkeypatch: pytest.MonkeyPatch) -> None:
    from psi_tools.io import files

    seen = []
    monkeypatch.setattr("psi_tools.io.files.os.fsync", lambda number: seen.append(os.fstat(number).st_mode))
    (tmp_path / "secret").write_text("old")
    (tmp_path / "secret").chmod(0o600)
    files.write_file(str(tmp_path / "secret"), [b"new"])
    assert [mode & 0o777 for mode in seen] == [0o600]
    assert (tmp_path / "secret").read_bytes() == b"new"


# Folders.


def kept_files(room: Path) -> dict[Path, bytes]:
    return {path: path.read_bytes() for path in room.rglob("*") if path.is_file()}


@pytest.mark.parametrize(
    "files", ["net.toml", "net.toml lock=", "blocks/mine.csv", "lock", "bound", "bound net.toml", "thesis"]
)
def test_a_folder_of_somebody_else_is_left_as_it_is(tool: Tool, tmp_path: Path, files: str) -> None:
    for file in files.split():
        name, is_empty, _ = file.partition("=")
        path = tmp_path / "kept" / name
        path.parent.mkdir(parents=True, exist_ok=True)
        path.write_text("" if is_empty else "mine")
    before = kept_files(tmp_path)
    for words in (MANY, [*SWEEP, "--folder", "kept"]):
        status, out, error = tool(*words)
        assert (status, out) == (2, "") and re.fullmatch(rf"{words[0]}: [^\n]*\n", error), error
        assert kept_files(tmp_path) == before


@pytest.mark.parametrize("name", ["lock", "net.toml", "blocks", "bound"])
def test_a_link_in_a_folder_is_refused(tool: Tool, tmp_path: Path, name: str) -> None:
    (tmp_path / "kept").mkdir()
    target = tmp_path / "target"
    target.mkdir() if name == "blocks" else target.write_text("mine\n")
    (tmp_path / "kept" / name).symlink_to(target)
    assert is_refused(tool(*MANY), "is a link")
    assert [*target.iterdir()] == [] if name == "blocks" else target.read_text() == "mine\n"


def test_a_link_that_is_planted_later_is_refused(tool: Tool, tmp_path: Path) -> None:
    assert tool(*MANY)[0] == 0
    (tmp_path / "mine").write_text("mine\n")
    (tmp_path / "kept/lock").unlink()
    (tmp_path / "kept/lock").symlink_to(tmp_path / "mine")
    assert is_refused(tool(*MANY), "is a link")
    assert (tmp_path / "mine").read_text() == "mine\n"


@pytest.mark.parametrize("room", [0, 5, 30, 150, 250])
def test_what_a_full_disk_has_left_does_not_matter(tool: Tool, tmp_path: Path, room: int) -> None:
    assert is_refused(tool(*MANY, **limited("FSIZE", room)), "can't be written: File too large", 7)
    if (tmp_path / "kept/blocks").exists():
        (tmp_path / "kept/part.elsewhere.17.net.toml").write_text("half")
    status, out, error = tool(*MANY)
    assert status == 0, error
    assert out == tool(*MANY[:5], "--folder", "other")[1]
    assert not [*(tmp_path / "kept").rglob("part.*")]


def test_a_disk_that_is_full(tool: Tool, program: str, tmp_path: Path) -> None:
    """A disk of its own, which wants root; the call goes on once there is room."""
    if os.geteuid() != 0 or not shutil.which("mount"):
        pytest.skip("a disk of its own wants root and mount")
    small = tmp_path / "small"
    small.mkdir()
    mount = ["mount", "-t", "tmpfs", "-o", "size=64k", "none", str(small)]
    if subprocess.run(mount, capture_output=True).returncode:
        pytest.skip("no disk can be mounted here")
    try:
        (small / "filler").write_bytes(bytes(44_000))
        words = [*MANY[:-1], "small/kept"]
        assert is_refused(tool(*words), "No space left on device", 7)
        (small / "filler").unlink()
        subprocess.run(["mount", "-o", "remount,size=4m", str(small)], check=True)
        status, out, error = tool(*words)
        assert status == 0, error
        assert out == printed_by(program, "report", NET, 0, 0, 400)
    finally:
        subprocess.run(["umount", str(small)], check=True)


@pytest.fixture(scope="module")
def drawn(environment: dict[str, str], tmp_path_factory: pytest.TempPathFactory) -> tuple[Path, str]:
    """The folder that psi-many keeps, and its report; they are made once."""
    room = tmp_path_factory.mktemp("drawn")
    status, out, error = ended([TOP / "tools" / MANY[0], *MANY[1:]], cwd=room, env=environment)
    assert status == 0, error
    return room / "kept", out


@pytest.mark.parametrize("line", ["network", "seed", "first", "count", "block", "digest"])
@pytest.mark.parametrize("own, left", [(r"(?s)^(%s .).*", r"\1"), (r"^(%s) .*", r"\1 7"), (r"^%s .*\n", "")])
def test_a_damaged_line_of_bound_costs_no_more_than_its_own_block(
    tool: Tool, drawn: tuple[Path, str], tmp_path: Path, line: str, own: str, left: str
) -> None:
    """The file is cut in the line, or the line is changed or removed."""
    folder, wanted = drawn
    shutil.copytree(folder, tmp_path / "kept")
    blocks = {path: path.stat().st_mtime_ns for path in (tmp_path / "kept/blocks").iterdir()}
    assert len(blocks) == 40
    bound = tmp_path / "kept/bound"
    text = bound.read_text()
    new, many = re.subn(own % line, left, text, flags=re.M)
    assert many == 1
    bound.write_text(new)
    status, out, error = tool(*MANY)
    assert (status, out) == (0, wanted), error
    now = {path: path.stat().st_mtime_ns for path in (tmp_path / "kept/blocks").iterdir()}
    assert sum(now.get(path) != time for path, time in blocks.items()) <= 1
    assert bound.read_text() == text and "bound was damaged" in error


def test_a_bound_that_is_no_text(tool: Tool, tmp_path: Path) -> None:
    assert tool(*MANY)[0] == 0
    for name in ("bound", "bound.copy"):
        (tmp_path / "kept" / name).write_bytes(b"\xff\xfe\n")
    for words in (MANY, ["psi-means", "kept"]):
        status, out, error = tool(*words)
        assert status == 2 and out == "" and re.fullmatch(r"psi-\w+: [^\n]*\n", error), error


def test_no_loop_of_links_is_a_fault_of_the_tool(tool: Tool, tmp_path: Path) -> None:
    (tmp_path / "loop").symlink_to("loop")
    (tmp_path / "kept").symlink_to("loop/kept")
    folder = ["--folder", "loop"]
    calls = MANY, [*LAW, "-o", "loop"], [*LAW, "-o", "loop/law.txt"], ["psi-means", "loop"]
    for words in (*calls, [*SWEEP, *folder], [*MANY[:5], *folder, "-o", "x"]):
        status, out, error = tool(*words)
        assert status in (2, 6, 7) and out == "", (words, error)
        assert re.fullmatch(r"psi-\w+: [^\n]*\n", error) and "fault of the tool" not in error, error


def test_another_user_can_not_be_made_to_lose_a_file(tool: Tool, tmp_path: Path) -> None:
    """As somebody else, in a folder with the sticky bit, as /tmp is."""
    if os.geteuid() != 0:
        pytest.skip("to be somebody else wants root")
    nobody = pwd.getpwnam("nobody")
    shared = tmp_path / "shared"
    shared.mkdir()
    shared.chmod(0o1777)
    for folder in (tmp_path, *tmp_path.parents):
        if not folder.stat().st_mode & 0o005 == 0o005:
            folder.chmod(folder.stat().st_mode | 0o005)
        if folder.parent == folder:
            break
    (tmp_path / "mine").write_text("mine\n")

    def plant() -> None:
        os.setgroups([])
        os.setgid(nobody.pw_gid)
        os.setuid(nobody.pw_uid)

    script = "mkdir shared/kept; ln -s ../../mine shared/kept/lock; ln -s ../mine shared/law.txt"
    subprocess.run(["sh", "-c", script], cwd=tmp_path, preexec_fn=plant, check=True)
    assert tool(*MANY[:-1], "shared/kept")[0] == 2
    assert (tmp_path / "mine").read_text() == "mine\n"


# Programs.


def test_psi_merge_is_looked_for_beside_psi_alone(tool: Tool, program: str, tmp_path: Path) -> None:
    (tmp_path / "psi/out").mkdir(parents=True)
    merger = scripted(tmp_path / "psi_merge/out/psi_merge", f"touch {tmp_path}/taken", "exit 1")
    shutil.copy(program, tmp_path / "psi/out/psi")
    words = [*MANY, "--psi", str(tmp_path / "psi/out/psi")]
    status, out, error = tool(*words)
    assert status == 0, error
    assert not (tmp_path / "taken").exists()
    shutil.copy(merger, tmp_path / "psi/out/psi_merge")
    assert tool(*words)[0] == 1
    assert (tmp_path / "taken").exists()


# Processes.


def slow_psi(room: Path, program: str) -> Path:
    """A program in place of psi that takes a long time to report, and one beside it in place of psi_states that
    takes as long; each says which process it is."""
    slow = f"echo $$ >>{room}/pids", "exec sleep 100"
    scripted(room / "psi_states", *slow)
    return scripted(room / "slow", f'[ "$1" = report ] || exec {program} "$@"', *slow)


def is_running(number: int | str) -> bool:
    try:
        stat = Path(f"/proc/{number}/stat").read_text()
    except OSError:
        return False
    return stat.rpartition(")")[2].split()[0] != "Z"


@pytest.mark.parametrize("number", [signal.SIGINT, signal.SIGTERM, signal.SIGHUP, signal.SIGKILL])
@pytest.mark.parametrize("name", ["psi-law", "psi-sweep", "psi-why"])
def test_what_a_tool_has_started_ends_with_it(
    started: Started, program: str, tmp_path: Path, number: signal.Signals, name: str
) -> None:
    call = {"psi-law": LAW[:3], "psi-sweep": SWEEP, "psi-why": [name, str(NET), "--seconds", "90"]}[name]
    tool = started(*call, "--psi", slow_psi(tmp_path, program))
    pids = tmp_path / "pids"
    assert wait_for(lambda: pids.exists() and pids.read_text().endswith("\n"))
    tool.send_signal(number)
    out, error = tool.communicate(timeout=SECONDS)
    assert wait_for(lambda: not any(map(is_running, pids.read_text().split())))
    assert out == ""
    if number == signal.SIGKILL:
        assert tool.returncode == -number
    else:
        assert (tool.returncode, error) == (128 + number, f"{name}: stopped\n")


@pytest.mark.parametrize("name", ["many", "plot", "means", "law", "sweep", "where", "why", "new"])
def test_no_traceback_while_a_tool_is_read(started: Started, tmp_path: Path, name: str) -> None:
    """The signal comes while a module of the package is read: one that waits stands for it."""
    package = tmp_path / "python"
    shutil.copytree(TOP / "python/psi_tools", package / "psi_tools", ignore=shutil.ignore_patterns("__pycache__"))
    for file in (f"psi-{name}", "packaged.py"):
        (tmp_path / "tools").mkdir(exist_ok=True)
        shutil.copy(TOP / "tools" / file, tmp_path / "tools" / file)
    module = package / "psi_tools/errors.py"
    module.write_text(
        f"open({str(tmp_path / 'begun')!r}, 'w').close()\nimport time\ntime.sleep(60)\n" + module.read_text()
    )
    tool = started(tmp_path / f"tools/psi-{name}", "--help")
    assert wait_for((tmp_path / "begun").exists)
    tool.send_signal(signal.SIGINT)
    out, error = tool.communicate(timeout=SECONDS)
    assert (tool.returncode, out, error) == (130, "", f"psi-{name}: stopped\n")


def test_few_files_may_be_open(tool: Tool) -> None:
    for words in (LAW, SWEEP, MANY):
        status, out, error = tool(*words, "--jobs", 16, **limited("NOFILE", 20))
        last = error.splitlines()[-1:]
        if status:
            assert out == "" and "Traceback" not in error and last, error
            assert "ulimit -n" in last[0] or "open files" in last[0], error


@pytest.mark.parametrize(
    "text",
    [None, b"\xff\xfe\x00", b"this is no host", b"-oProxyCommand=sh", b"0/node", b"# nothing", b"4/", b"http://node1/"]
    + [b"n" * 300, b"node;reboot"],
)
def test_hosts_that_are_no_hosts(tool: Tool, tmp_path: Path, text: bytes | None) -> None:
    """Where there is no text the name is that of a folder."""
    hosts = tmp_path / "hosts"
    hosts.mkdir() if text is None else hosts.write_bytes(text + b"\n")
    status, out, error = tool(*MANY, "--hosts", "hosts")
    assert (status, out) == (2, ""), error
    assert re.fullmatch(r"psi-many: [^\n]*hosts[^\n]*\n", error), error
