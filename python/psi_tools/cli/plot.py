"""psi-plot: draws what psi prints, and forward runs, as pictures for a lecture or a page."""

import argparse
import importlib
import os
import pathlib
from collections.abc import Callable
from typing import TYPE_CHECKING, Any, TypeVar

from psi_tools.cli.options import STEPS, Parser
from psi_tools.draw.program import LEAST_BATCHES, Program
from psi_tools.draw.reports import as_printed, read_folder, read_report
from psi_tools.errors import GREATEST, NUMBER, InputError, PsiError, reason, require
from psi_tools.io.files import check_writable, write
from psi_tools.model.networks import checked
from psi_tools.stats.batches import Summary, batches_of, summary_of

# Each kind of picture imports its own modules.
if TYPE_CHECKING:
    from psi_tools.io.exact import Shrinking
    from psi_tools.plot.forward import Forward
    from psi_tools.plot.network_scene import NetworkPicture
    from psi_tools.plot.past import Past, StationaryPath
    from psi_tools.plot.read_log import Coupling

Value = TypeVar("Value")

COMMAND = "psi-plot"
# The steps of a path, and the queues that are drawn of it at most, where the call names none.
USUAL_STEPS, MOST_QUEUES = 100, 16
# The most bytes that are read of a file: one more than a log may have.
LONGEST, MOST_REPORTS, FORMATS = 33_554_433, 8, ("svg", "png", "pdf")
ABOUT = """Draws what psi prints, and forward runs, as pictures for a lecture or a page.

psi-plot coupling LOG [NET] -o FILE    a log of `psi sample NET SEED STREAM log`: where all states
                                       may be, until one is left; NET is a network file, whose names
                                       the queues get
psi-plot report CSV.. -o FILE          reports of `psi report`, at most eight, side by side; of a
                                       folder of psi-many the 95 % intervals of the means, too
psi-plot exact TEXT -o FILE            what `psi exact` prints: how the image of all states shrinks
psi-plot forward NET [STEPS..] -o FILE a network of one queue: where forward runs of STEPS steps
                                       end, from each state, and where all of them meet, computed
                                       and beside the law of a sample; 8, 32 and 128 steps where
                                       they aren't given
psi-plot past NET SEED STREAM -o FILE  the runs of a sample from 1, 2, 4, .. steps before time zero
                                       until all states have coalesced, those that fail included
psi-plot path NET SEED STREAM [--steps N] -o FILE
                                       the path that begins in a sample, a row for each queue, beside
                                       the run that led to the sample
psi-plot network NET -o FILE           the network: queues, servers, and events as arrows

The exit status is 0 where the picture is drawn; 2 where an argument or an input isn't what it should
be, with one line on standard error; 7 where the picture can't be written; 1 where it can't be
drawn."""


def parser() -> Parser:
    parser = Parser(COMMAND, ABOUT)
    parser.add("-o --out", "FILE", "the picture: SVG, PNG or PDF, by the ending of its name", default="")
    parser.add("-t --title", "TITLE", "a title in place of the picture's own", default="")
    parser.add_psi(", of which forward, past, path and network ask")
    parser.flag("--legend", "of network: explain the arrows below the picture")
    parser.flag("--tables", "of network: print the tables of choices by an index")
    text = "of past and path: the queue that is drawn; if not given, of past all customers, and of path each queue"
    parser.add("--queue", "QUEUE", text)
    parser.add("--steps", "N", "of path: its steps; 100 if not given, 4,096 at most", type=STEPS)
    parser.flag("--new-words", "of past: new random words for each run, the wrong way")
    parser.add("what", "WHAT", "coupling, report, exact, forward, past, path or network", nargs="?")
    text = "what psi has printed; of forward NET and STEPS, of past and path NET SEED STREAM"
    parser.add("files", "FILE", text, nargs="*")
    return parser


def parse(arguments: list[str]) -> argparse.Namespace:
    args = parser().parse_intermixed_args(arguments)
    require(args.what in DRAWN, f"the first argument is one of {', '.join(DRAWN)}")
    require(args.files, f"{args.what} needs a file")
    require(args.out.rpartition(".")[2].lower() in FORMATS, "-o names no .svg, .png or .pdf")
    require(args.what == "network" or not (args.legend or args.tables), "--legend and --tables are network's")
    require(args.what == "past" or not args.new_words, "--new-words is past's")
    require(args.what in ("past", "path") or not args.queue, "--queue is past's and path's")
    require(args.what == "path" or args.steps is None, "--steps is path's")
    check_writable(args.out)
    return args


def read(reader_of: Callable[[bytes], Value], path: str) -> Value:
    """What is read of a file; a refusal names it."""
    try:
        with open(path, "rb") as file:
            return reader_of(file.read(LONGEST))
    except (OSError, ValueError) as fault:
        raise InputError(f"{path}: can't be read: {reason(fault)}") from None
    except InputError as why:
        raise InputError(f"{path}: {why}") from None


def coupling(args: argparse.Namespace, path: str, *net: str) -> "Coupling":
    """The log, named by the network file if there is one."""
    from psi_tools.plot.read_log import names_of, read_log

    require(len(net) <= 1, "coupling takes one LOG, and at most one NET")
    log = read(read_log, path)
    for file in net:
        log.names = read(lambda data: names_of(data, log), file)
    return log


def report(args: argparse.Namespace, *paths: str) -> list[tuple[str, Summary]]:
    """The reports, each with the name of its file."""
    require(len(paths) <= MOST_REPORTS, f"report takes at most {MOST_REPORTS} files")
    return [(path, report_at(path)) for path in paths]


def report_at(path: str) -> Summary:
    """The report of a file, or of all blocks of a folder of psi-many, with intervals where there
    are enough of them."""
    if not os.path.isdir(path):
        return read(lambda data: summary_of(batches_of([read_report(as_printed(data), path)])), path)
    batches, wanted = read_folder(path)
    require(len(batches.samples) == wanted, f"{path}: not all of its blocks are finished")
    return summary_of(batches, wanted >= LEAST_BATCHES)


def exact(args: argparse.Namespace, path: str, *others: str) -> "Shrinking":
    """The text of exact."""
    from psi_tools.io.exact import read_exact

    require(not others, "exact takes one file")
    return read(read_exact, path)


def forward(args: argparse.Namespace, path: str, *steps: str) -> "Forward":
    """The forward runs of a network."""
    from psi_tools.plot.forward import forward_of

    try:
        return forward_of(args.psi, path, steps)
    except InputError:
        raise
    except PsiError as error:
        raise InputError(f"{path}: {error}") from None


def network(args: argparse.Namespace, path: str, *others: str) -> "NetworkPicture":
    """The network of a file that psi accepts, and what is to stand below its picture."""
    from psi_tools.plot.network_scene import NetworkPicture

    require(not others, "network takes one file")
    try:
        net = checked(Program(args.psi), path)
    except PsiError as error:
        raise InputError(f"{path}: {error}") from None
    return NetworkPicture(net, pathlib.Path(path).stem, args.legend, args.tables)


def streams_of(what: str, streams: tuple[str, ...]) -> tuple[int, int]:
    """The seed and the stream of a sample."""
    require(len(streams) == 2, f"{what} is given NET SEED STREAM")
    are_numbers = all(NUMBER.fullmatch(word) and int(word) <= GREATEST for word in streams)
    require(are_numbers, "SEED and STREAM are numbers up to 2^64 - 1")
    seed, stream = map(int, streams)
    return seed, stream


def past(args: argparse.Namespace, path: str, *streams: str) -> "tuple[Past, int | None]":
    """The runs of a sample, and the queue that is drawn: none for all customers of several."""
    from psi_tools.plot.past import past_of

    found = past_of(args.psi, path, *streams_of("past", streams), args.new_words)
    require(args.queue is None or args.queue in found.queues, f"{path}: there is no queue {args.queue}")
    if args.queue is not None:
        return found, found.queues.index(args.queue)
    return found, 0 if len(found.queues) == 1 else None


def path(args: argparse.Namespace, path: str, *streams: str) -> "tuple[StationaryPath, list[int]]":
    """A path, and the queues that are drawn."""
    from psi_tools.plot.past import path_of

    found = path_of(args.psi, path, *streams_of("path", streams), USUAL_STEPS if args.steps is None else args.steps)
    queues = found.past.queues
    require(args.queue is None or args.queue in queues, f"{path}: there is no queue {args.queue}")
    require(args.queue is not None or len(queues) <= MOST_QUEUES, f"{path}: of more than 16 queues --queue names one")
    return found, [*range(len(queues))] if args.queue is None else [queues.index(args.queue)]


# What reads the files of each kind of picture, and what draws it: matplotlib is wanted only for that.
KINDS: tuple[Callable[..., Any], ...] = coupling, report, exact, forward, past, path, network
DRAWN = {kind.__name__: kind for kind in KINDS}


def draw(args: argparse.Namespace) -> bytes:
    """Draws the picture."""
    found = DRAWN[args.what](args, *args.files)
    from psi_tools.plot import style

    drawing = importlib.import_module(f"psi_tools.plot.draw_{args.what}")
    figure = getattr(drawing, f"draw_{args.what}")(found, args.title)
    return style.saved(figure, args.out.rpartition(".")[2].lower())


def work(arguments: list[str]) -> None:
    args = parse(arguments)
    write([draw(args)], args.out)
