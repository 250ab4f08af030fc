"""psi-many, on this machine, on three hosts behind ssh, and on three nodes of Slurm. Processes, hosts and
nodes are killed in the middle, links are cut, texts are cut short and files are damaged; what psi-many
prints has to be byte by byte what one process prints, or what the reports of several come to where
one takes too few.

The hosts are network namespaces, each with an sshd and a home of its own; the nodes of Slurm are
three slurmd on this machine. Both need root, and of Debian's packages openssh-server, iproute2,
slurm-wlm and munge, none of which has to run.
"""

import csv
import functools
import os
import pathlib
import resource
import shutil
import signal
import subprocess
import time
from collections.abc import Callable, Mapping, Sequence
from typing import Any

import pytest

from tests import many_places as places
from tests.support import EXAMPLES, TOOLS, Expectations

MANY = str(TOOLS / "psi-many")
# 20,000 samples of the first network take some two seconds, a million of the second one four.
SLOW, QUICK = str(EXAMPLES / "longest-queue.toml"), str(EXAMPLES / "tandem-blocking.toml")
SECONDS = 300
pytestmark = pytest.mark.slow
# The status of a call, what it prints, and what it says on standard error.
Ended = tuple[int, bytes, str]


def summed(texts: Sequence[bytes]) -> bytes:
    """The report of all, where each text is a report: counts and sums are added, least and greatest
    are those of all. It shares nothing with the program that merges.
    """
    values: dict[tuple[str, str], list[int]] = {}
    for text in texts:
        for item, name, value in [*csv.reader(text.decode().splitlines())][1:]:
            values.setdefault((item, name), []).append(int(value))
    folds = {"least": min, "greatest": max}
    total = {key: folds.get(key[0].removeprefix("reward-"), sum)(each) for key, each in values.items()}
    heads = [key for key in total if key[1] == "-"]
    horizons = sorted((key for key in total if key[0] == "horizon"), key=lambda key: int(key[1]))
    keys = [*heads, *horizons, *(key for key in total if key not in {*heads, *horizons})]
    rows = [f"{item},{name},{total[item, name]}" for item, name in keys]
    return "\n".join(["item,name,value", *rows, ""]).encode()


class Place:
    """The program, a folder for a check, the words that say where blocks are drawn, and what is held."""

    def __init__(self, psi: str, expect: Expectations, folders: pytest.TempPathFactory, *words: str) -> None:
        self.psi, self.expect, self.room, self.words = psi, expect, folders.mktemp("many"), words
        self.environment: Mapping[str, str] = os.environ

    def check(self, name: str, fact: object, message: object = "") -> None:
        """Holds what a call has to do."""
        self.expect(fact, f"{name}: {message!s}")

    def same(self, name: str, ended: Ended, wanted: bytes) -> None:
        """Holds that a call has printed the report."""
        status, out, message = ended
        self.check(name, status == 0 and out == wanted, f"status {status}\n{out.decode()}\n{message}")

    def one_process(self, net: str, seed: int, first: int, count: int) -> bytes:
        """What `report` prints of that many streams, in as many calls as they need."""
        texts, last = [], first + count
        for begin in range(first, last, 65_536):
            words = self.psi, "report", net, seed, begin, min(65_536, last - begin)
            texts.append(subprocess.check_output([*map(str, words)]))
        return texts[0] if len(texts) == 1 else summed(texts)

    def start(self, *words: object, psi: str | None = None, **options: Any) -> "subprocess.Popen[bytes]":
        """Begins a call of psi-many."""
        call = [MANY, *map(str, words), *self.words, "--psi", psi or self.psi]
        pipes: dict[str, Any] = {"stdout": subprocess.PIPE, "stderr": subprocess.PIPE, **options}
        process: "subprocess.Popen[bytes]" = subprocess.Popen(call, cwd=self.room, env=self.environment, **pipes)
        return process

    def run(self, *words: object, **options: Any) -> Ended:
        """The status of a call, and both its texts."""
        return ended(self.start(*words, **options))

    def blocks(self) -> dict[pathlib.Path, int]:
        """The files of finished blocks, with the numbers by which the disk knows them."""
        return {file: file.stat().st_ino for file in self.room.glob("*.many/blocks/[0-9]*.csv")}

    def clear(self) -> None:
        """Removes what calls have kept."""
        for folder in self.room.glob("*.many"):
            shutil.rmtree(folder)

    def begun(self, *words: object) -> "subprocess.Popen[bytes]":
        """Begins a call from nothing, and waits until five blocks are finished."""
        self.clear()
        run = self.start(*words)
        places.wait_until(lambda: len(self.blocks()) >= 5, SECONDS)
        return run

    def program(self, name: str, script: str) -> str:
        """A program in place of PSI, which knows PSI, and a folder for what it wants to keep."""
        path = self.room / name
        (self.room / "kept").mkdir(exist_ok=True)
        path.write_text(f"#!/bin/sh\nPSI={self.psi}\nKEPT={self.room}/kept\n{script}")
        path.chmod(0o755)
        return str(path)


def ended(run: "subprocess.Popen[bytes]") -> Ended:
    """How a call ends, which is killed where it takes too long."""
    try:
        out, message = run.communicate(timeout=SECONDS)
    except subprocess.TimeoutExpired:
        places.kill([run.pid, *places.descendants(run.pid)])
        out, message = run.communicate()
    return run.returncode, out, message.decode(errors="replace")


Places = Callable[..., Place]


@pytest.fixture
def place(program: str, expect: Expectations, tmp_path_factory: pytest.TempPathFactory) -> Places:
    """What makes places, each with a folder of its own."""
    return functools.partial(Place, program, expect, tmp_path_factory)


@pytest.mark.release
def test_nothing_killed(place: Places) -> None:
    here = place()
    for count in (1, 3, 5_000):
        wanted = here.one_process(SLOW, 7, 40, count)
        here.same(f"the report of {count} streams", here.run(SLOW, 7, 40, count), wanted)
    wanted = here.one_process(QUICK, 0, 5, 300_000)
    here.same("more streams than one call takes", here.run(QUICK, 0, 5, 300_000), wanted)
    last = 2**64 - 70_000, 70_000
    wanted = here.one_process(QUICK, 2**64 - 1, *last)
    answer = here.run(QUICK, 2**64 - 1, *last, "--out", "report.csv")
    wrote = (here.room / "report.csv").read_bytes()
    here.same("the last streams, to a file", (answer[0], wrote, answer[2]), wanted)
    answer = here.run(QUICK, 0, 0, 3_000, "--block", 2)
    here.same("a merge in two steps", answer, here.one_process(QUICK, 0, 0, 3_000))


@pytest.mark.release
def test_processes_killed(place: Places) -> None:
    """Processes are killed while blocks are drawn."""
    call = SLOW, 1, 0, 20_000, "--block", 500
    here = place()
    wanted = here.one_process(*call[:4])
    run = here.start(*call)
    for _ in range(12):
        time.sleep(0.2)
        places.kill(places.descendants(run.pid, "psi")[:1])
    here.same("twelve samplers killed", ended(run), wanted)
    run = here.begun(*call)
    places.kill(places.descendants(run.pid, "parallel")[:1])
    here.same("GNU parallel killed", ended(run), wanted)
    endings = ("killed", "KILL", -9), ("ended", "TERM", 143), ("left", "INT", 130)
    for name, ending, status in endings:
        run = here.begun(*call)
        below = places.descendants(run.pid)
        run.send_signal(getattr(signal, "SIG" + ending))
        here.check(f"psi-many {name} has its status", ended(run)[0] == status)
        places.wait_until(lambda: not any(map(places.is_alive, below)), 10)
        here.check(f"psi-many {name} leaves nothing running", not any(map(places.is_alive, below)))
        before = here.blocks()
        here.same(f"psi-many {name}, and called again", here.run(*call), wanted)
        kept = before.items() <= here.blocks().items()
        here.check(f"psi-many {name} draws no finished block again", kept and 0 < len(before) < 40)


@pytest.mark.release
def test_texts_cut_short(place: Places) -> None:
    """Samplers print less than they should, or fail."""
    call = QUICK, 3, 0, 4_000, "--block", 100
    here = place()
    wanted = here.one_process(*call[:4])
    lines = wanted.count(b"\n")
    first = '[ "$1" = report ] && mkdir "$KEPT/$4" 2>/dev/null'
    ways = {
        "cut behind a line": f'"$PSI" "$@" | head -n $(($4 / 100 % {lines})); exit 0',
        "cut anywhere": f'"$PSI" "$@" | head -c $(($4 / 100 * {len(wanted) // 40})); exit 0',
        "failing behind its text": '"$PSI" "$@"; exit 8',
        "killed behind its text": '"$PSI" "$@"; kill -9 $$',
        "printing twice": '"$PSI" "$@"; "$PSI" "$@"; exit 0',
    }
    for name, way in ways.items():
        here = place()
        cut = here.program("psi", f'if {first}; then {way}; fi\nexec "$PSI" "$@"\n')
        here.same(f"each block first {name}", here.run(*call, psi=cut), wanted)
    here = place()
    failing = '[ "$1" = check ] || { echo psi: none >&2; exit 8; }; exec "$PSI" "$@"\n'
    status, out, message = here.run(*call, psi=here.program("psi", failing))
    reported = "psi-many: 40 blocks failed, first the streams 0 to 99: psi: none\n"
    here.check("blocks that fail each time", (status, out) == (1, b"") and message.endswith(reported), message)
    here.same("the same call by a program that works", here.run(*call), wanted)


def test_the_program_that_merges(place: Places) -> None:
    call = QUICK, 3, 0, 400, "--block", 100
    here = place()
    wanted = here.one_process(*call[:4])
    tool = "--merge", TOOLS / "merge_reports.py"
    here.same("a merge by the tool", here.run(*call, *tool), wanted)
    beside = here.program("psi", 'exec "$PSI" "$@"\n')
    merger = f'touch "$KEPT/merged"\nexec {TOOLS}/merge_reports.py "$@"\n'
    here.program("psi_merge", merger)
    here.same("a merge by psi_merge beside the program", here.run(*call, psi=beside), wanted)
    here.check("psi_merge is taken where it is there", (here.room / "kept/merged").exists())


def test_a_call_ended(place: Places) -> None:
    """A call is ended in the middle, and goes on."""
    call = SLOW, 1, 0, 6_000, "--block", 200
    here = place()
    wanted = here.one_process(*call[:4])
    run = here.begun(*call)
    places.kill(places.descendants(run.pid, "psi")[:1])
    run.terminate()
    here.check("psi-many ended after a sampler was killed", ended(run)[0] == 143)
    before = len(here.blocks())
    here.same("it goes on, called again", here.run(*call), wanted)
    here.check("some blocks were finished before", 0 < before < 30, before)


def test_files_damaged(place: Places) -> None:
    """Files of finished blocks are damaged."""
    call = QUICK, 3, 0, 4_000, "--block", 100
    here = place()
    wanted = here.one_process(*call[:4])
    here.run(*call)
    files = sorted(here.blocks())
    text = files[0].read_bytes()
    files[0].write_bytes(text[:-1])
    files[1].write_bytes(b"")
    files[2].write_bytes(files[2].read_bytes().replace(b"1", b"2", 1))
    files[3].unlink()
    files[4].write_bytes(text)
    files[5].with_name(files[5].name.replace("0000005", "0000006")).write_bytes(text)
    files[7].rename(files[7].with_name(files[7].name.replace("0000007", "0000099")))
    files[8].with_name("part." + files[8].name).write_bytes(text)
    before = {file: number for file, number in here.blocks().items() if file in files[9:]}
    here.same("damaged files", here.run(*call), wanted)
    kept = before.items() <= here.blocks().items()
    here.check("whole files stay", kept and len(here.blocks()) == 40)


def test_streams_added(place: Places) -> None:
    """Streams are added to a folder, whose last block is short, while samplers are killed."""
    here = place()
    words = "--folder", "kept.many"
    first = here.run(QUICK, 3, 0, 2_050, "--block", 100, *words)
    here.same("a folder of some streams", first, here.one_process(QUICK, 3, 0, 2_050))
    before = {file: number for file, number in here.blocks().items() if "0000020." not in file.name}
    fails = '[ "$4" = 3000 ] && mkdir "$KEPT/$4" 2>/dev/null && kill -9 $$; exec "$PSI" "$@"\n'
    answer = here.run(QUICK, 3, 0, 5_000, *words, psi=here.program("psi", fails))
    here.same("the folder of more streams", answer, here.one_process(QUICK, 3, 0, 5_000))
    kept = before.items() <= here.blocks().items()
    here.check("its whole blocks stay", kept and len(before) == 20 and len(here.blocks()) == 50)
    reported = "first the streams 3000 to 3099"
    here.check("a killed sampler's block is told", reported in answer[2], answer[2])


@pytest.mark.release
def test_what_is_refused(place: Places) -> None:
    call = [QUICK, 3, 0, 400]

    def refused(name: str, words: Sequence[object], status: int = 2, **options: Any) -> None:
        answer = here.run(*words, **options)
        is_told = answer[2].startswith(("psi-many: ", "usage: psi-many"))
        here.check(name, answer[:2] == (status, b"") and is_told, answer)

    here = place()
    here.run(*call, "--folder", "f")
    for name, words in {
        "another network": [SLOW, 3, 0, 400],
        "another seed": [QUICK, 4, 0, 400],
        "another first stream": [QUICK, 3, 1, 400],
        "fewer streams": [QUICK, 3, 0, 399],
        "other blocks": [*call, "--block", 9],
    }.items():
        refused(f"the folder of {name}", [*words, "--folder", "f"])
    (here.room / "g").mkdir()
    (here.room / "g" / "note").write_text("mine")
    refused("a folder with something else", [*call, "--folder", "g"])
    refused("a stream beyond the last", [QUICK, 3, 2**64 - 1, 2])
    refused("a number that begins with 0", [QUICK, "03", 0, 4])
    refused("no streams", [QUICK, 3, 0, 0])
    refused("a network that isn't there", ["absent", 3, 0, 4], 6)
    (here.room / "bad.toml").write_text("version = 3\n")
    refused("a network that PSI refuses", ["bad.toml", 3, 0, 4], 3)
    refused("a program that isn't there", call, psi="absent")
    refused("a merge that fails", [*call, "--merge", "false"], 1)
    refused("a merge that prints nothing", [*call, "--merge", "true"], 1)
    run = here.start(SLOW, 0, 0, 20_000, "--folder", "h")
    places.wait_until((here.room / "h" / "bound").exists, SECONDS)
    refused("a folder in which another is at work", [SLOW, 0, 0, 20_000, "--folder", "h"])
    run.terminate()
    ended(run)
    limit = {"preexec_fn": lambda: resource.setrlimit(resource.RLIMIT_FSIZE, (150, 150))}
    refused("no room for the blocks", [*call, "--folder", "i"], 7, **limit)
    with open("/dev/full", "wb") as full:
        status = here.run(*call, stdout=full)[0]
        here.check("no room for the report", status == 7, status)


@pytest.mark.release
@pytest.mark.root
@pytest.mark.cluster
@pytest.mark.needs("ip", "sshd", "ssh", "ssh-keygen", "unshare")
def test_hosts(place: Places) -> None:
    """Three hosts behind ssh, which are killed or cut off in the middle."""
    call = SLOW, 2, 0, 30_000, "--block", 1_000
    with places.hosts(3) as (ssh, file, hosts):
        here = place("--hosts", file, "--ssh", ssh)
        wanted = here.one_process(*call[:4])
        here.same("three hosts", here.run(*call), wanted)
        uses = [pathlib.Path(host.home, ".psi-many").exists() for host in hosts]
        here.check("the hosts got the program", all(uses))
        for name, fault, mend in (
            ("a host killed", places.Host.kill, places.Host.begin),
            ("a host cut off", places.Host.cut, places.Host.join),
        ):
            run = here.begun(*call)
            fault(hosts[1])
            answer = ended(run)
            here.same(f"{name} in the middle", answer, wanted)
            here.check(f"{name} in the middle is told", "drawn again" in answer[2], answer[2])
            here.clear()
            answer = here.run(*call)
            here.same(f"{name} before", answer, wanted)
            here.check(f"{name} before is told", f"host {hosts[1].address} is left out" in answer[2])
            mend(hosts[1])
        run = here.begun(*call)
        for host in hosts:
            host.kill()
        status, out, message = ended(run)
        here.check("all hosts killed", (status, out) == (1, b"") and "blocks failed" in message, message)
        for host in hosts:
            host.begin()
        before = len(here.blocks())
        here.same("all hosts back, and called again", here.run(*call), wanted)
        here.check("blocks of before count", 0 < before < 30)


@pytest.mark.release
@pytest.mark.root
@pytest.mark.cluster
@pytest.mark.needs("slurmctld", "slurmd", "sbatch", "munged")
def test_slurm(place: Places) -> None:
    """Three nodes of Slurm, one of which is killed in the middle."""
    call = SLOW, 2, 0, 30_000, "--block", 500, "--jobs", 12
    with places.slurm(3) as (environment, nodes):
        here = place("--slurm")
        here.environment = environment
        wanted = here.one_process(*call[:4])
        here.same("three nodes of Slurm", here.run(*call), wanted)
        run = here.begun(*call)
        nodes[1].kill()
        here.same("a node of Slurm killed in the middle", ended(run), wanted)
        nodes[1].begin()
        run = here.begun(*call)
        run.kill()
        ended(run)
        job = (next(here.room.glob("*.many")) / "slurm" / "job").read_text()
        answer = here.run(*call)
        here.same("psi-many killed while Slurm's job goes on", answer, wanted)
        here.check("the call again waits for the same job", f"Slurm job {job}\n" in answer[2], answer)
