"""psi-many: the report of any number of streams, or their samples; docs/MANY.md has all of it.

The exit status is 0 where the report or the table is printed, 1 where blocks failed again and again, 2 where the
words, the folder or the hosts aren't right, 7 where something can't be written, that of `psi check`
where PSI doesn't take the network, and 128 and the signal's number where a signal stopped it. Each
but 0 has a line on standard error.
"""

import argparse
import pathlib
import shlex
import signal
from collections.abc import Iterator
from typing import NoReturn

from psi_tools.cli.options import STREAM, TOTAL, Parser, number
from psi_tools.draw import program
from psi_tools.draw.blocks import MOST_BLOCKS, Folder
from psi_tools.draw.many import COMMAND, SHARE, SSH, Here, Hosts, Slurm, Way, draw_all, joined, merge, run_task
from psi_tools.errors import PsiError, check_streams
from psi_tools.io.files import check_writable, read_file, write
from psi_tools.io.reports import read
from psi_tools.io.samples import uncoupled_in
from psi_tools.io.terminal import print_note
from psi_tools.model.networks import header_of

MOST_COUNT = MOST_BLOCKS * program.MOST_STREAMS
ABOUT = """Prints the report of any number of streams, as psi report would if it accepted that many. The
streams are cut in blocks, which are drawn side by side; finished blocks are kept in a folder, so
the same call goes on where it was stopped. psi-means prints the means of such a folder with their
intervals.

    psi-many desk.toml 0 0 1000000 --out desk.csv
    psi-many ring.toml 0 0 10000 --closed 6
    psi-many desk.toml 0 0 1000000 --states --out samples.csv"""


def parser() -> Parser:
    parser = Parser(COMMAND, ABOUT)
    parser.add("net", "NET", "a network file")
    parser.add("seed", "SEED", "the seed, 0 to 2^64 - 1", type=STREAM)
    parser.add("first", "FIRST", "the first stream, 0 to 2^64 - 1", type=STREAM)
    text = f"how many streams are drawn, 1 to {MOST_COUNT:,}: at most {MOST_BLOCKS:,} blocks"
    parser.add("count", "COUNT", text, type=number(1, MOST_COUNT))
    text = "where the report is written, under another name until it is whole; standard output by default"
    parser.add("-o --out", "FILE", text)
    text = "sample a closed network that holds TOTAL customers, by psi closed"
    parser.add("--closed", "TOTAL", text, type=TOTAL)
    text = "print the samples themselves, a row for each stream, by psi_states on this machine"
    parser.flag("--states", text)
    parser.add("--folder", "FOLDER", "where finished blocks are kept; NET.SEED.FIRST.COUNT.many by default")
    parser.add_psi(default=program.built_program())
    text = "the number of streams in a block; by default such that there are 20 blocks or more"
    parser.add("--block", "N", text, type=number(1, program.MOST_STREAMS))
    text = "the number of blocks that are drawn at the same time, or of tasks in Slurm"
    more = "by default that of the processors, or 100 tasks"
    parser.add("--jobs", "N", f"{text}; {more}", type=number(1, MOST_BLOCKS))
    ways = parser.add_mutually_exclusive_group()
    ways.add_argument("--hosts", metavar="FILE", help="draw on the machines of this file, by ssh")
    ways.add_argument("--slurm", action="store_true", help="draw as a Slurm job array")
    parser.add("--ssh", "COMMAND", "how machines are reached; by default ssh, without any question", default=SSH)
    parser.add("--sbatch", "OPTIONS", "more options of sbatch, as one argument", default="")
    text = "the program that merges reports; by default psi_merge where it is built, else merge_reports.py"
    parser.add("--merge", "PROGRAM", text)
    return parser


def parse(arguments: list[str]) -> argparse.Namespace:
    args = parser().parse_args(arguments)
    for option in (args.ssh, args.sbatch):
        try:
            shlex.split(option)
        except ValueError as fault:
            raise PsiError(f"{option} isn't a command with its arguments: {fault}") from None
    others = [option for option in ("hosts", "slurm", "merge") if args.states and getattr(args, option)]
    if others:
        raise PsiError(f"--{others[0]} goes without --states: samples are drawn on this machine, and not merged")
    check_streams(args.first, args.count)
    if args.block and args.count > MOST_BLOCKS * args.block:
        raise PsiError(f"there would be more than {MOST_BLOCKS} blocks of {args.block} streams")
    return args


def blocks_of(args: argparse.Namespace, psi: str) -> tuple[Folder, list[pathlib.Path]]:
    """The folder of the arguments, and the files of all its blocks, once they are drawn."""
    program.program_of("sbatch" if args.slurm else "parallel")
    # psi has to take the network, and with --closed its first stream.
    net, asked = read_file(args.net), program.Program(psi)
    asked.ask("check", net)
    if args.closed is not None:
        asked.ask("closed", net, args.seed, args.first, args.closed, statuses=(0, 1))
    engine: type[Hosts] | type[Slurm] | type[Here] = Hosts if args.hosts else Slurm if args.slurm else Here
    way: Way = engine(args, program.built_companion(psi, "psi_states") if args.states else psi, net)
    numbers = {"seed": args.seed, "first": args.first, "count": args.count}
    numbers |= {"closed": args.closed} if args.closed is not None else {}
    name = ".".join([pathlib.Path(args.net).name, *map(str, numbers.values()), *["states"] * args.states])
    numbers |= {"states": 1} if args.states else {}
    folder = Folder(args.folder or f"{name}.many")
    folder.lock()
    fitting = min(-(-args.count // (SHARE * way.slots)), args.count // program.LEAST_BATCHES)
    before = folder.bind(net, numbers, args.block, max(1, min(program.MOST_STREAMS, fitting)))
    if folder.is_restored:
        print_note(COMMAND, f"{folder.path / 'bound'} was damaged, and is made again from its copy")
    if before < args.count:
        print_note(COMMAND, f"{folder.path} has {before} streams, and gets {args.count - before} more")
    files = draw_all(folder, way)
    folder.tidy()
    return folder, files


def write_report(args: argparse.Namespace, psi: str) -> None:
    """Draws and writes the report that the arguments ask for. It is merged by the program that the call
    names; else by psi_merge, which is proved, where it stands beside PSI or is built; else by merge_reports.py."""
    merging = program.program_of(args.merge) if args.merge else program.companion_of(psi, "psi_merge")
    folder, files = blocks_of(args, psi)
    text = merge(folder, files, merging)
    write(text.decode(), args.out)
    report = read(text)
    report_uncoupled(report.samples - report.met, args, "sums and extremes are of the others, and biased")


def write_table(args: argparse.Namespace, psi: str) -> None:
    """Draws and writes the table of samples that the arguments ask for."""
    folder, files = blocks_of(args, psi)
    header, lost = header_of(folder.network()), 0

    def counted() -> Iterator[bytes]:
        """The pieces of the table; what isn't coupled in them is counted."""
        nonlocal lost
        for piece in joined(folder, files):
            lost += uncoupled_in(header, piece)
            yield piece

    write(counted(), args.out)
    report_uncoupled(lost, args, "their rows are empty, and the others alone are biased")


def report_uncoupled(lost: int, args: argparse.Namespace, more: str) -> None:
    """Reports streams that aren't coupled."""
    if lost:
        print_note(COMMAND, f"NOT COUPLED: {lost} of {args.count} streams; {more}")


def stop(number: int, frame: object) -> NoReturn:
    raise PsiError("stopped; the same call goes on from here", 128 + number)


def work(arguments: list[str]) -> int:
    if arguments[:1] == ["--task"]:
        return run_task(*arguments[1:])
    args = parse(arguments)
    for ending in (signal.SIGINT, signal.SIGTERM, signal.SIGHUP):
        signal.signal(ending, stop)
    check_writable(args.out)
    psi = program.program_of(args.psi)
    if args.states:
        write_table(args, psi)
    else:
        write_report(args, psi)
    return 0
