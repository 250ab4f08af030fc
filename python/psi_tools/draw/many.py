"""The blocks of a call of psi-many: drawn on this machine, on hosts behind ssh, or with Slurm until all are there, then
merged."""

import argparse
import collections
import os
import pathlib
import re
import shlex
import shutil
import subprocess
import sys
import time
from collections.abc import Iterable, Iterator

from psi_tools.draw.blocks import Block, Folder, digest_of, is_as_written, whole_report, write_whole
from psi_tools.draw.states import report_of_text
from psi_tools.errors import PsiError, printable, reason
from psi_tools.io.reports import ReportError, merged
from psi_tools.io.terminal import Pulse, clock, is_terminal, print_error, print_note

COMMAND = "psi-many"
MERGED_AT_ONCE = 1_000
# The number of removed blocks that are reported one by one.
MOST_TOLD = 5

# How many blocks a host draws at the same time, where that is given, and its name.
Host = tuple[int | None, str]

# The default numbers of blocks for each processor, and of tasks in Slurm.
SHARE, TASKS = 4, 100
# How often a failed block is tried in a round; after how many rounds that finish none the call ends; and the seconds
# of rest.
TRIES, ROUNDS, REST = 3, 3, 5
POLL, TELL = 1, 10
SSH = "ssh -o BatchMode=yes -o ConnectTimeout=10 -o ServerAliveInterval=5 -o ServerAliveCountMax=3"
# A host: how many blocks at once, a user, and a name, an address, or `:` for this machine.
HOST = re.compile(r"(?:([1-9][0-9]{0,3})/)?(:|(?:\w[\w.-]{0,63}@)?[\w\[][\w.:\]-]{0,254})", re.ASCII)
SET_UP = """set -e; cd; umask 077; mkdir -p .psi-many/{digest}; cd .psi-many
part=part.$(uname -n).$$; mkdir "$part"; tar -xf - -C "$part"
mv -f "$part/net.toml" "$part/psi" {digest}/; rmdir "$part"
{digest}/psi check {digest}/net.toml >/dev/null; nproc"""
# Notes that a block is begun, by its place among those of the round, so that it is known which are
# begun twice. On a host this is done before ssh, since there are none of these variables there.
BEGIN = 'echo "$PARALLEL_SEQ" >>"$PSI_MANY_BEGUN"; '
BEGIN_HERE = f'[ -z "$PSI_MANY_BEGUN" ] || {BEGIN}'


class Progress:
    """Shows on standard error the progress of a call, and the time that is left."""

    def __init__(self, folder: Folder, streams: int) -> None:
        self.folder, self.before, self.streams = folder, streams, streams
        self.begun = self.shown = time.monotonic()
        self.redraws = is_terminal()

    def show(self, streams: int, at_once: bool = False) -> None:
        self.streams = streams
        now, count = time.monotonic(), self.folder.count
        if not at_once and now - self.shown < (0.2 if self.redraws else TELL):
            return
        Pulse.end()
        self.shown, drawn = now, streams - self.before
        line = f"psi-many: {streams} of {count} samples, {clock(now - self.begun)} so far"
        if drawn and streams < count:
            line += f", {clock((now - self.begun) / drawn * (count - streams))} to go"
        end = "\n" if at_once or not self.redraws else ""
        print_error(f"\r{line}\x1b[K" if self.redraws else line, end=end)


def whole_texts(lines: Iterable[bytes]) -> Iterator[tuple[int, bytes]]:
    """Each text that stands whole between the lines of its block, after the number of that."""
    number: bytes | None = None
    text: list[bytes] = []
    for line in lines:
        if line.startswith(b"block "):
            number, text = line[6:], []
        elif line.startswith(b"whole ") and line[6:] == number:
            yield int(number), b"".join(text)
        else:
            text.append(line)


def keep(folder: Folder, number: int, text: bytes) -> bool:
    """Keeps what a block's sampler printed, if it is whole; of a closed network its report, if samples aren't kept."""
    if folder.total is None or folder.has_samples:
        return folder.accept(number, text)
    report = report_of_text(folder.network(), text, folder.block(number).count)
    return report is not None and folder.accept(number, report)


def step_of(folder: Folder, psi: str) -> str:
    """The command of one block, with psi, or psi_states, as it is called there: {1} is its number, {2} its first
    stream, and {3} how many there are, or the last one where samples of a closed network are drawn one by one."""
    if folder.has_samples:
        closed = "" if folder.total is None else f" closed {folder.total}"
        # It ends with 1 where some stream isn't coupled.
        drawing = f"{{ {psi} net.toml {folder.seed} {{2}} {{3}}{closed} || [ $? -eq 1 ]; }}"
    elif folder.total is None:
        drawing = f"{psi} report net.toml {folder.seed} {{2}} {{3}}"
    else:
        one = f"{psi} closed net.toml {folder.seed} $stream {folder.total} || [ $? -eq 1 ] || exit"
        drawing = f"for stream in $(seq {{2}} {{3}}); do {one}; done"
    return f"printf 'block %s\\n' {{1}} && {drawing} && printf 'whole %s\\n' {{1}}"


def run_parallel(
    folder: Folder, blocks: list[Block], progress: Progress, args: list[str], command: str, psi: str
) -> list[Block]:
    """Draws blocks by GNU parallel, and keeps those that come whole; gives those that were begun several times."""
    # Where this program is killed, the signal ends GNU parallel and what it runs.
    guard = ["setpriv", "--pdeathsig", "TERM"] if shutil.which("setpriv") else []
    call = [*guard, "parallel", "--plain", "--colsep", " ", "--retries", str(TRIES), *args, BEGIN_HERE + command]
    begun = folder.path / "begun"
    environment = {**os.environ, "PARALLEL_SHELL": "/bin/sh", "PSI_MANY_PSI": psi, "PSI_MANY_BEGUN": str(begun)}
    is_counted = folder.total is None or folder.has_samples
    lines = (f"{number} {first} {count if is_counted else first + count - 1}\n" for number, first, count in blocks)
    # Neither is read once this round is over, so a loss of power takes nothing with them.
    write_whole(folder.path / "jobs", "".join(lines).encode(), is_synced=False)
    write_whole(begun, b"", is_synced=False)
    with open(folder.path / "jobs", "rb") as jobs, open(folder.path / "said", "wb") as errors:
        with subprocess.Popen(
            call,
            stdin=jobs,
            stdout=subprocess.PIPE,
            stderr=errors,
            cwd=folder.path,
            env=environment,
            start_new_session=True,
        ) as run:
            try:
                assert run.stdout is not None
                for number, text in whole_texts(run.stdout):
                    if keep(folder, number, text):
                        progress.show(progress.streams + folder.block(number).count)
            except BaseException:
                run.terminate()
                raise
    times = collections.Counter(begun.read_text(errors="replace").split())
    return [block for place, block in enumerate(blocks, 1) if times[str(place)] > 1]


class Here:
    """Draws blocks on this machine."""

    def __init__(self, args: argparse.Namespace, psi: str, net: bytes) -> None:
        self.slots, self.psi = args.jobs or len(os.sched_getaffinity(0)), psi

    def draw(self, folder: Folder, blocks: list[Block], progress: Progress) -> list[Block]:
        command = step_of(folder, '"$PSI_MANY_PSI"')
        return run_parallel(folder, blocks, progress, ["--jobs", str(self.slots)], command, self.psi)


class Hosts:
    """Draws blocks on machines that ssh reaches."""

    def __init__(self, args: argparse.Namespace, psi: str, net: bytes) -> None:
        self.ssh, self.hosts, self.psi = args.ssh, read_hosts(args.hosts), psi
        program = pathlib.Path(psi).read_bytes()
        self.digest = digest_of(program + digest_of(net).encode())[:16]
        self.packed = packed({"psi": program, "net.toml": net})
        self.find()
        if not self.logins:
            raise PsiError("none of the hosts can be used", 1)
        self.slots = sum(slots for slots, _ in self.logins)
        self.is_fresh = True

    def find(self) -> None:
        """Puts the program and the network on each host, and finds those on which they run."""
        import concurrent.futures

        with concurrent.futures.ThreadPoolExecutor(64) as pool:
            self.logins = [login for login in pool.map(self.login, self.hosts) if login]

    def login(self, host: Host) -> tuple[int, str] | None:
        """How many blocks at once a host takes, and its name; none where it can't be used."""
        slots, name = host
        script = SET_UP.format(digest=self.digest)
        call = ["sh", "-c", script]
        if name != ":":
            call = [*shlex.split(self.ssh), name, f"exec sh -c {shlex.quote(script)}"]
        done = subprocess.run(call, input=self.packed, capture_output=True)
        answer = done.stdout.decode(errors="replace").split()
        if done.returncode or not answer or not answer[-1].isdigit():
            message = (done.stderr.decode(errors="replace").split("\n") + ["no answer"])[0]
            print_error(f"psi-many: host {name} is left out: {printable(message)}")
            return None
        return slots or int(answer[-1]), name

    def draw(self, folder: Folder, blocks: list[Block], progress: Progress) -> list[Block]:
        if not self.is_fresh:
            self.find()
        self.is_fresh = False
        if not self.logins:
            time.sleep(REST)
            return []
        lines = "".join(f"{slots}/{name}\n" for slots, name in self.logins)
        write_whole(folder.path / "hosts", lines.encode())
        args = ["--ssh", BEGIN + self.ssh, "--sshloginfile", str(folder.path / "hosts"), "--sshdelay", "0.02"]
        command = f'cd "$HOME/.psi-many/{self.digest}" && {step_of(folder, "./psi")}'
        return run_parallel(folder, blocks, progress, args, command, self.psi)


def read_hosts(path: str) -> list[Host]:
    """The hosts of a file, one a line: how many blocks at once, or none, and the name."""
    try:
        text = pathlib.Path(path).read_bytes().decode()
    except UnicodeDecodeError:
        raise PsiError(f"{path} is no text, and names no hosts") from None
    except (OSError, ValueError) as fault:
        raise PsiError(f"{path} can't be read: {reason(fault)}") from None
    lines = (line.partition("#")[0].strip() for line in text.split("\n"))
    found: list[Host] = []
    for line in filter(None, lines):
        host = HOST.fullmatch(line)
        if not host:
            raise PsiError(f"the hosts' file has no host on the line {line[:80]}")
        found.append((int(host[1]) if host[1] else None, host[2]))
    if not found:
        raise PsiError(f"{path} names no hosts")
    return found


def packed(files: dict[str, bytes]) -> bytes:
    """Files as a tar archive."""
    import io
    import tarfile

    room = io.BytesIO()
    with tarfile.open(fileobj=room, mode="w") as archive:
        for name, text in files.items():
            entry = tarfile.TarInfo(name)
            entry.size, entry.mode = len(text), 0o755
            archive.addfile(entry, io.BytesIO(text))
    return room.getvalue()


class Slurm:
    """Draws blocks as the tasks of a Slurm job array, on nodes that share the folder."""

    def __init__(self, args: argparse.Namespace, psi: str, net: bytes) -> None:
        self.slots, self.psi, self.options = args.jobs or TASKS, psi, shlex.split(args.sbatch)

    def draw(self, folder: Folder, blocks: list[Block], progress: Progress) -> list[Block]:
        self.name = "psi-many-" + digest_of(str(folder.path).encode())[:8]
        (folder.path / "slurm").mkdir(exist_ok=True)
        kept = folder.path / "slurm" / "job"
        job = kept.read_text().strip() if kept.exists() else ""
        if not (job and self.is_queued(job)):
            job = self.submit(folder, blocks)
            write_whole(kept, job.encode())
        print_error(f"psi-many: waiting for the Slurm job {job}")
        try:
            # Until all blocks are there, or no task of the job is left.
            while self.is_queued(job):
                time.sleep(POLL)
                numbers = [*folder.listed()]
                progress.show(sum(folder.block(number).count for number in numbers))
                if len(numbers) == len(folder.all_blocks()):
                    break
        except PsiError as error:
            raise PsiError(f"{error}; the Slurm job {job} goes on by itself", error.status) from None
        return []

    def submit(self, folder: Folder, blocks: list[Block]) -> str:
        """Submits tasks, each of which draws its share of the blocks."""
        tasks = min(self.slots, len(blocks))
        room = folder.path / "slurm"
        waiting, script = room / "waiting", room / "script"
        tool = os.path.realpath(sys.argv[0])
        args = [sys.executable, tool, "--task", str(folder.path), str(tasks)]
        write_whole(script, f"#!/bin/sh\nexec {shlex.join([*args, self.psi])}\n".encode())
        write_whole(waiting, "".join(f"{block.number}\n" for block in blocks).encode())
        call = ["sbatch", "--parsable", "--requeue", f"--array=0-{tasks - 1}"]
        call += [f"--job-name={self.name}", f"--chdir={folder.path}", f"--output={room}/%A_%a.log"]
        done = subprocess.run([*call, *self.options, str(script)], capture_output=True, text=True)
        if done.returncode:
            raise PsiError(f"sbatch takes no job: {done.stderr.strip()}", 1)
        return done.stdout.split(";")[0].strip()

    def is_queued(self, job: str) -> bool:
        """Whether tasks of the job still wait or run; true where Slurm has no answer."""
        call = ["squeue", "--noheader", f"--jobs={job}", f"--name={self.name}", "--format=%T"]
        done = subprocess.run(call, capture_output=True, text=True)
        if done.returncode:
            return "Invalid job id" not in done.stderr
        return bool(done.stdout.strip())


def run_task(path: str, tasks: str, psi: str) -> int:
    """A task of a Slurm job array: draws its share of the blocks that wait."""
    folder, status = Folder(path), 0
    folder.read_bound()
    waiting = (folder.path / "slurm" / "waiting").read_text().split()
    for number in map(int, waiting[int(os.environ["SLURM_ARRAY_TASK_ID"]) :: int(tasks)]):
        if number in folder.listed():
            continue
        failed, text = drawn(folder, folder.block(number), psi)
        if failed or not keep(folder, number, text):
            print(f"psi-many: the block {number} failed, with status {failed}", flush=True)
            status = 1
    return status


def drawn(folder: Folder, block: Block, psi: str) -> tuple[int, bytes]:
    """The status with which a block's sampler ended, and what it printed."""
    calls = [["report", folder.net, folder.seed, block.first, block.count]]
    if folder.total is not None:
        streams = range(block.first, block.first + block.count)
        calls = [["closed", folder.net, folder.seed, stream, folder.total] for stream in streams]
    texts = []
    for call in calls:
        done = subprocess.run([psi, *map(str, call)], stdout=subprocess.PIPE)
        texts.append(done.stdout)
        if done.returncode and not (folder.total is not None and done.returncode == 1):
            return done.returncode, b""
    return 0, b"".join(texts)


# A way to draw blocks: `slots` are drawn at once, and `draw` keeps those that come whole, and gives those that were
# begun several times.
Way = Here | Hosts | Slurm


def draw_all(folder: Folder, way: Way) -> list[pathlib.Path]:
    """Draws the blocks that aren't finished yet, those that failed again, and gives the files."""
    blocks, finished, vain = folder.all_blocks(), folder.finished(), 0
    report_removed(folder, blocks)
    progress = Progress(folder, sum(folder.block(number).count for number in finished))
    while missing := [block for block in blocks if block.number not in finished]:
        done = len(finished)
        again = way.draw(folder, missing, progress)
        finished = folder.finished()
        vain = 0 if len(finished) > done else vain + 1
        progress.show(sum(folder.block(number).count for number in finished), at_once=True)
        report_removed(folder, blocks)
        if again := [block for block in again if block.number in finished]:
            print_note(COMMAND, f"{len(again)} blocks were drawn again, first {streams_of(again[0])}")
        if failed := [block for block in missing if block.number not in finished]:
            first = f"{streams_of(failed[0])}{last_line(folder)}"
            line = f"{len(failed)} blocks failed, first {first}"
            if vain == ROUNDS:
                raise PsiError(line, 1)
            print_note(COMMAND, f"{line}; they are drawn again")
    return [*finished.values()]


def report_removed(folder: Folder, blocks: list[Block]) -> None:
    """Reports which files of blocks weren't as they should be, and are removed."""
    for number, why in [*folder.removed.items()][:MOST_TOLD]:
        if number < len(blocks):
            print_note(COMMAND, f"{streams_of(blocks[number])} are drawn again: the file of their block {why}")
        else:
            print_note(COMMAND, f"the file of the block {number}, which this call hasn't, is removed")
    if (more := len(folder.removed) - MOST_TOLD) > 0:
        print_note(COMMAND, f"{more} files of blocks more are removed")


def streams_of(block: Block) -> str:
    return f"the streams {block.first} to {block.first + block.count - 1}"


def last_line(folder: Folder) -> str:
    """The last line that a block that failed has printed."""
    logs = [*sorted(folder.path.glob("slurm/*.log"), key=os.path.getmtime), *folder.path.glob("said")]
    lines = [line for file in logs for line in file.read_text(errors="replace").split("\n")]
    return "".join([f": {line}" for line in lines if line][-1:])


def merged_once(files: list[pathlib.Path], program: str | None) -> bytes:
    """The report of some files: by a program that merges, or by the tool where none is given."""
    if program:
        done = subprocess.run([program, *map(str, files)], capture_output=True)
        if done.returncode:
            raise PsiError(f"the merge failed: {done.stderr.decode(errors='replace')}", 1)
        return done.stdout
    try:
        return merged(files).text()
    except ReportError as refused:
        raise PsiError(f"the merge failed: {refused}", 1) from None


def merge(folder: Folder, files: list[pathlib.Path], program: str | None) -> bytes:
    """The report of all blocks, which are merged step by step, a thousand at a time."""
    made: list[pathlib.Path] = []
    while len(files) > MERGED_AT_ONCE:
        parts = [files[at : at + MERGED_AT_ONCE] for at in range(0, len(files), MERGED_AT_ONCE)]
        files = [folder.path / f"merged.{place}" for place, _ in enumerate(parts, len(made))]
        for file, part in zip(files, parts):
            write_whole(file, merged_once(part, program))
        made += files
    text = merged_once(files, program)
    for file in made:
        file.unlink()
    if whole_report(text, folder.count) is None:
        raise PsiError("the merged text isn't the report of all streams", 1)
    return text


def joined(folder: Folder, files: list[pathlib.Path]) -> Iterator[bytes]:
    """The table of all blocks, a piece for each: the first header, and the rows of all. Each file is read
    again, and is as it was written."""
    for place, file in enumerate(files):
        try:
            text = file.read_bytes()
        except OSError as fault:
            raise PsiError(f"{file} can't be read: {reason(fault)}", 1) from None
        if not is_as_written(file, text):
            raise PsiError(f"{file} isn't as it was written; the same call draws it again", 1)
        yield text[text.index(b"\n") + 1 :] if place else text
