"""python3 -m gate.more_edits [--jobs N] [--keep FOLDER] [NAME..]

Tries the edits of crates/NAME/more-edits/, each of which the prover must refuse; without a name those
of all crates. The gate tries those of must-fail/ alone, so this is run before a release, and by
whoever changes a crate.

It works on a clone of what is committed, in which the edits of more-edits/ stand instead of those
of must-fail/. First it proves there the crates that are named and those that they stand on, beginning
with what checks on this machine kept; of a crate that isn't proved the edits aren't tried, since each
would be refused whatever it says. Then `rt must-fail` tries them, side by side over crates, lowest
first.

--jobs N       that many crates side by side; without it one a processor, while there are 3 GB of memory
               for each
--keep FOLDER  the clone stands there and stays, so that the next run begins with what this one proved;
               a clone that is there already is brought to what is committed

A line tells each edit that isn't refused, with its file: NOT REFUSED, where the crate is still proved
with it; BAD EDIT, where it can't be applied or read; NOT TRIED, where nothing is known of it. The last
line is `N refused, M not refused, K bad, L not tried`. The exit status is 0 where all are refused, 1
where one isn't, and 2 where the words aren't right or there is no clone.
"""

import argparse
import os
import pathlib
import re
import shutil
import subprocess
import sys
import tempfile
import time
from concurrent.futures import ThreadPoolExecutor
from collections.abc import Iterable

from gate import TOP
from tools.build.crates import crates_below, needed

PROVED_CRATE = re.compile(r"^(\w+): ok$", re.M)
SAID = re.compile(r"(?:rt: )?must-fail (\w+)/(\S+\.edit): (.*)")
MISNAMED = re.compile(r"(?:rt: )?\S*/(\w+)/must-fail/(\S+): (BAD EDIT.*)")
# What a try of an edit comes to, by the words that rt says of it.
REFUSED, PROVED, BAD, UNTRIED = "refused", "NOT REFUSED", "BAD EDIT", "NOT TRIED"
COUNTED = {REFUSED: "refused", PROVED: "not refused", BAD: "bad", UNTRIED: "not tried"}


class Wrong(Exception):
    """Why nothing can be tried: words that aren't right, or no clone."""


def usual_jobs() -> int:
    """One a processor, while there are 3 GB of memory for each."""
    jobs = len(os.sched_getaffinity(0))
    for line in pathlib.Path("/proc/meminfo").read_text().splitlines():
        if line.startswith("MemAvailable:"):
            jobs = min(jobs, int(line.split()[1]) // 3_000_000)
    return max(jobs, 1)


def git(*words: object) -> None:
    done = subprocess.run(["git", *map(str, words)], capture_output=True, text=True)
    if done.returncode:
        raise Wrong(f"git {words[0]}: {done.stderr.strip()}")


def make_clone(clone: pathlib.Path) -> None:
    """Makes a clone of what is committed, or brings one that is there to it; what was proved stays."""
    if (clone / ".git").is_dir():
        git("-C", clone, "fetch", "-q", TOP, "HEAD")
        git("-C", clone, "reset", "-q", "--hard", "FETCH_HEAD")
        git("-C", clone, "clean", "-q", "-d", "-f")
    elif clone.exists() and any(clone.iterdir()):
        raise Wrong(f"{clone} is neither empty nor a clone")
    else:
        git("clone", "-q", TOP, clone)


def cut_to(clone: pathlib.Path, kept: list[str]) -> None:
    """Leaves in the clone these crates alone."""
    crates = crates_below(clone)
    (clone / "crates.txt").write_text("".join(f"{name}: {' '.join(crates[name])}\n" for name in kept))
    for name in set(crates) - set(kept):
        shutil.rmtree(clone / "crates" / name)


def put_edits(clone: pathlib.Path, names: Iterable[str]) -> dict[str, list[str]]:
    """Puts the edits of more-edits/ instead of those of must-fail/, and gives their files by
    the crates that have some."""
    edits = {}
    for name in names:
        crate = clone / "crates" / name
        shutil.rmtree(crate / "must-fail", ignore_errors=True)
        if (crate / "more-edits").is_dir():
            (crate / "more-edits").rename(crate / "must-fail")
            edits[name] = sorted(it.name for it in (crate / "must-fail").iterdir())
    return edits


def proved_of(clone: pathlib.Path, jobs: int) -> set[str]:
    """The crates of the clone that are proved; what rt says where one isn't is told."""
    words = ["rt", "all", "check", "--jobs", str(jobs)]
    done = subprocess.run(words, cwd=clone, stdin=subprocess.DEVNULL, capture_output=True, text=True)
    if done.returncode:
        print((done.stdout + done.stderr)[-3000:], file=sys.stderr)
    _, _, summary = done.stdout.rpartition("== summary\n")
    return set(PROVED_CRATE.findall(summary))


def kind_of(message: str) -> str:
    """What a try came to, by what rt said of it."""
    return next((kind for kind in (PROVED, BAD, UNTRIED) if message.startswith(kind)), REFUSED)


def report(crate: str, file: str, message: str) -> None:
    print(f"crates/{crate}/more-edits/{file}: {message}", flush=True)


def try_edits(clone: pathlib.Path, crate: str, files: list[str]) -> list[str]:
    """Tries the edits of a crate one by one, tells those that aren't refused, and gives what each
    came to."""
    begun = time.monotonic()
    call, one = ["rt", "must-fail", crate], {**os.environ, "RT_JOBS": "1"}
    done = subprocess.run(call, cwd=clone, env=one, stdin=subprocess.DEVNULL, capture_output=True, errors="replace")
    said, messages = done.stdout + done.stderr, {}
    for line in said.splitlines():
        found = SAID.fullmatch(line) or MISNAMED.fullmatch(line)
        if found and found[1] == crate:
            messages[found[2]] = found[3]
    for file in files:
        if not file.endswith(".md"):
            messages.setdefault(file, f"{UNTRIED}: rt says nothing of it (status {done.returncode})")
    if not messages or done.returncode not in (0, 1):
        print(said[-2000:], file=sys.stderr)
    for file, text in messages.items():
        if kind_of(text) != REFUSED:
            report(crate, file, text)
    seconds = round(time.monotonic() - begun)
    print(f"{crate}: {len(messages)} edits in {seconds} s", file=sys.stderr, flush=True)
    return [kind_of(text) for text in messages.values()]


def try_all(clone: pathlib.Path, names: Iterable[str], jobs: int) -> list[str]:
    """Tries the edits of these crates in the clone, and gives what each came to."""
    below = crates_below(clone)
    cut_to(clone, needed(names, below))
    edits = put_edits(clone, [name for name in below if name in names])
    print(f"proving the crates of {sum(map(len, edits.values()))} edits", file=sys.stderr, flush=True)
    proved = proved_of(clone, jobs)
    tried = []
    for crate, file in ((crate, file) for crate in edits if crate not in proved for file in edits[crate]):
        report(crate, file, f"{UNTRIED}: the crate isn't proved without it")
        tried.append(UNTRIED)
    with ThreadPoolExecutor(jobs) as pool:
        runs = [pool.submit(try_edits, clone, it, edits[it]) for it in edits if it in proved]
        return tried + [kind for it in runs for kind in it.result()]


def words_of() -> argparse.Namespace:
    """The words of the call."""
    form = argparse.RawDescriptionHelpFormatter
    parser = argparse.ArgumentParser("python3 -m gate.more_edits", description=__doc__, formatter_class=form)
    parser.add_argument("--jobs", type=int, default=usual_jobs())
    parser.add_argument("--keep", type=pathlib.Path)
    parser.add_argument("names", nargs="*", metavar="NAME")
    words = parser.parse_args()
    if words.jobs < 1:
        parser.error("--jobs takes a number above 0")
    if shutil.which("rt") is None:
        raise Wrong("the toolchain's command 'rt' isn't on the PATH")
    return words


def main() -> int:
    words = words_of()
    crates = crates_below(TOP)
    lacking = [name for name in words.names if name not in crates]
    if lacking:
        raise Wrong(f"{lacking[0]} is no crate of crates.txt")
    with tempfile.TemporaryDirectory(prefix="psi-edits-") as room:
        clone = words.keep.absolute() if words.keep else pathlib.Path(room, "psi")
        make_clone(clone)
        tried = try_all(clone, words.names or list(crates), words.jobs)
    print(", ".join(f"{tried.count(kind)} {what}" for kind, what in COUNTED.items()))
    return 0 if tried.count(REFUSED) == len(tried) else 1


if __name__ == "__main__":
    try:
        sys.exit(main())
    except Wrong as why:
        print(f"gate.more_edits: {why}", file=sys.stderr)
        sys.exit(2)
