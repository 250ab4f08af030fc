#!/usr/bin/env python3
"""instructions.py PSI [--write]

Counts by callgrind the instructions of six runs of the built program PSI, and compares them with
bounds.txt, which has a line `KIT LEVEL RUN INSTRUCTIONS` for each kit of the toolchain that builds
the program, each processor that it may be built for, and each run. The kit is the one of the `rt`
on the PATH; where it has no line for the program's processor, nothing is compared, and the last
line says so.

A run that takes more than 3 % above its bound is a failure; one that takes more than 3 % less is
reported, so that the bound can follow. The last line is `N runs within their bounds, M above`. The
exit status is 1 where a run is above its bound or has none, and 2 where valgrind or objdump is not
there.

With --write the bounds of this kit and of the program's own level become what was counted, and all
others stay: do that where a change is meant, and say in the commit what it was.
"""

import argparse
import pathlib
import shutil
import sys
import tempfile

import measure
import networks

BOUNDS, SLACK = pathlib.Path(__file__).resolve().parent / "bounds.txt", 0.03
# Each run: the network, and the command with its arguments, in which {net} and {log} are files.
RUNS = {
    "report-small-line": ("small-line", "report {net} 0 0 500"),
    "sample-wide-line": ("wide-line", "sample {net} 0 0"),
    "sample-shortest": ("shortest", "sample {net} 0 0"),
    "report-forks": ("forks", "report {net} 0 0 100"),
    "closed-ring": ("ring", "closed {net} 0 0 40"),
    "replay-forks": ("forks", "replay {net} {log}"),
}
HEAD = "# Instructions by callgrind, which `bench/instructions.py PSI --write` writes.\n"

# The bounds of one kit, by the processor level and the run; and those of all kits, by the kit's name first.
Bounds = dict[tuple[str, str], int]
AllBounds = dict[tuple[str, str, str], int]


def read_bounds() -> AllBounds:
    """The bounds, by kit, level and run."""
    lines = BOUNDS.read_text().splitlines() if BOUNDS.exists() else []
    rows = (line.split() for line in lines if not line.startswith("#"))
    return {(kit, level, name): int(count) for kit, level, name, count in rows}


def kit_here() -> str:
    """The name of the toolchain's kit, with which `rt version` begins; nothing where there is no `rt`."""
    if not shutil.which("rt"):
        return ""
    name, *_ = measure.run(["rt", "version"]).out.split()
    return name


def bounds_of(kit: str, level: str, bounds: AllBounds) -> Bounds:
    """The bounds of the programs that a kit makes for a processor level."""
    return {(lv, name): count for (other, lv, name), count in bounds.items() if (other, lv) == (kit, level)}


def write_bounds(bounds: AllBounds) -> None:
    """Writes the bounds, in the order of kits, levels and runs."""
    rows = sorted(bounds, key=lambda row: (row[0], row[1], [*RUNS].index(row[2])))
    BOUNDS.write_text(HEAD + "".join(f"{' '.join(row)} {bounds[row]}\n" for row in rows))


def calls_of(program: str, folder: pathlib.Path) -> dict[str, list[str]]:
    """The six runs, with their files written to a folder."""
    nets = {case.name: case.net for case in networks.cases()}
    calls = {}
    for name, (net, command) in RUNS.items():
        file, log = folder / f"{net}.toml", folder / f"{net}.log"
        nets[net].write(file)
        if "{log}" in command:
            log.write_text(measure.run([program, "sample", str(file), "0", "0", "log"]).out)
        calls[name] = [program, *command.format(net=file, log=log).split(" ")]
    return calls


def verdict(count: int, bound: int | None) -> str:
    """What is reported of a run: that it is above its bound, has none, or is well below it."""
    if bound is None:
        return "no bound"
    off = f"{100 * (count / bound - 1):+.1f} %"
    if count > bound * (1 + SLACK):
        return f"above its bound, {off}"
    return f"below its bound, {off}" if count < bound * (1 - SLACK) else ""


def compare(counts: dict[str, int], level: str, bounds: Bounds) -> int:
    """Prints each run with its verdict; returns how many are above their bounds or have none."""
    faults = 0
    for name, count in counts.items():
        found = verdict(count, bounds.get((level, name)))
        faults += found.startswith(("above", "no"))
        print(f"{level} {name} {count}" + (f": {found}" if found else ""))
    print(f"{len(counts) - faults} runs within their bounds, {faults} above")
    return faults


def main() -> int:
    parser = argparse.ArgumentParser(usage=__doc__)
    parser.add_argument("program")
    parser.add_argument("--write", action="store_true")
    given = parser.parse_args()
    if not shutil.which("valgrind") or not shutil.which("objdump"):
        print("instructions: valgrind or objdump is not there", file=sys.stderr)
        return 2
    program = str(pathlib.Path(given.program).resolve())
    kit, level, bounds = kit_here(), measure.level(program), read_bounds()
    own = bounds_of(kit, level, bounds)
    if not given.write and not own:
        print(f"there is no bound of {kit or 'a kit that is not here'} for {level}: nothing is compared")
        return 0
    with tempfile.TemporaryDirectory() as folder:
        counted = measure.all_instructions(calls_of(program, pathlib.Path(folder)))
    counts = {name: count for name, count in counted.items() if count is not None}
    if given.write:
        write_bounds(bounds | {(kit, level, name): count for name, count in counts.items()})
        return 0
    return 1 if compare(counts, level, own) else 0


if __name__ == "__main__":
    sys.exit(main())
