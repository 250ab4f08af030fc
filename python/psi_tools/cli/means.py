"""psi-means: the means of reports with their intervals, by reports as batches."""

import argparse

from psi_tools.cli.options import PILOTS, STEPS, TOTAL, Parser, check_files
from psi_tools.draw.reports import read_any
from psi_tools.draw.program import LEAST_BATCHES
from psi_tools.errors import LEAST_LEVEL, MOST_LEVEL, PsiError, check_streams
from psi_tools.io import tables
from psi_tools.io.files import write
from psi_tools.io.terminal import print_note
from psi_tools.model.networks import Network
from psi_tools.stats.batches import KINDS, Batches, mean_of, notes_of, records_of, remarks, table_of
from psi_tools.stats.text import with_interval

COMMAND = "psi-means"
ABOUT = """Prints the mean of every row of a report with its interval. Each report is a batch: their
means are the values to which Student's t applies, so there are at least 20. Give 20 reports or more
of one network over different streams, or the folder of one call of psi-many. An end of an interval
also reckons with a large value that did not come. A row of two values is a share, with the interval
of Clopper and Pearson. With --guaranteed the coverage of each interval is a theorem, by the sum of
all reports, so one is enough.

    psi-many desk.toml 0 0 100000 --out desk.csv
    psi-means desk.toml.0.0.100000.many

With --paths a network is given instead of reports. From the sample of each stream the network runs
on for STEPS steps, and the paths' means are the values to which Student's t applies. They are
drawn by psi_paths. Each state of a path counts, so a mean takes less time than by samples alone. The
rates of events are printed, too: how often one changes the state, and how often it is chosen.

    psi-means desk.toml --paths 10000

Streams that aren't coupled are reported first: the means are of the others, and biased. The
intervals are as wide as the least and the greatest values make them that these streams may have; a
folder has these values, and for reports --net gives them."""
# The default number of paths.
PATHS = 100


def parse(arguments: list[str]) -> argparse.Namespace:
    args = parser().parse_args(arguments)
    if not LEAST_LEVEL <= args.level / 100 <= MOST_LEVEL:
        raise PsiError(f"--level is from {100 * LEAST_LEVEL:g} to {100 * MOST_LEVEL:g}")
    if args.paths is None:
        for option in ("seed", "first", "count", "total", "pilot", "psi", "jobs"):
            if getattr(args, option) is not None:
                raise PsiError(f"--{option} goes with --paths")
    elif len(args.reports) > 1 or args.net is not None:
        raise PsiError("--paths is of one network, which is given instead of reports")
    else:
        args.seed, args.first, args.count = args.seed or 0, args.first or 0, args.count or PATHS
        check_streams(args.first, args.count)
    check_files(args)
    return args


def parser() -> Parser:
    parser = Parser(COMMAND, ABOUT)
    text = "reports of psi report, at least 20, or one folder of psi-many; with --paths a network file"
    parser.add("reports", "REPORT", text, nargs="+")
    text = "the confidence level of the intervals, in per cent; 95 by default"
    parser.add("--level", "PERCENT", text, type=float, default=95.0)
    text = "the network file of the reports, which gives the range of each row; a folder of psi-many has it"
    parser.add("--net", "NET", text)
    parser.add_form()
    parser.add_guaranteed()
    text = "draw paths of this number of steps of the network NET, which is given instead of reports"
    parser.add("--paths", "STEPS", text, type=STEPS)
    parser.add_streams(PATHS)
    parser.set_defaults(seed=None, first=None, count=None)
    text = "with --paths, the number of customers in a closed network; an open one by default"
    parser.add("--total", "TOTAL", text, type=TOTAL)
    text = (
        "with --paths and --guaranteed, the number of further paths that choose the stakes of bets and aren't counted"
    )
    more = "a twentieth of --count by default; with 0 the stakes are those of the range"
    parser.add("--pilot", "N", f"{text}; {more}", type=PILOTS)
    parser.add_program()
    return parser


def head_of(batches: Batches, level: float, kind: str = "intervals") -> str:
    """The line with the number of samples, and with the kind and level of the intervals."""
    samples, count = sum(batches.samples), len(batches.samples)
    state = "all coupled" if not batches.uncoupled else f"{sum(batches.met):,} of them coupled"
    many = "1 batch" if count == 1 else f"{count} batches"
    return f"{samples:,} samples in {many}, {state}; {kind} of {level:g} %"


def lines_of(batches: Batches, records: list[tables.Record], level: float) -> list[str]:
    """The answer for people, line by line."""
    lines = [head_of(batches, level)]
    lines += table_of((each for each in records if each["item"] in KINDS), has_extremes=True)
    lines.append("share of the samples that are met at a horizon, or not coupled")
    shares = [("met at", each["name"], with_interval(mean_of(each))) for each in records if each["item"] == "horizon"]
    if batches.uncoupled:
        shares.append(("not coupled", "", with_interval(mean_of(records[0]))))
    return [*lines, *tables.aligned(shares, right=(1,)), *remarks(batches)]


def in_form(
    heads: tables.Record, records: list[tables.Record], args: argparse.Namespace, notes: list[str], lines: list[str]
) -> tuple[str, list[str]]:
    """The answer in the form that is asked for, for people in these lines, and what is noted beside it for programs."""
    if args.format == "text":
        return tables.ended(lines), []
    if args.format == "csv":
        return tables.as_csv(records), notes
    return tables.as_json({**heads, "level": args.level / 100, "notes": notes, "rows": records}), notes


def heads_of(batches: Batches) -> tables.Record:
    """How many samples there are, how many are coupled, and in how many batches."""
    return {"samples": sum(batches.samples), "met": sum(batches.met), "batches": len(batches.samples)}


def guaranteed_answer(args: argparse.Namespace, batches: Batches, wanted: int) -> tuple[str, list[str]]:
    """The text of the answer whose intervals carry a theorem, by the sums of all reports."""
    from psi_tools.stats.guaranteed import ASSUMED, file_of, guaranteed_means, misses

    if not batches.spans:
        raise PsiError("--guaranteed needs the range of each row over all states, which --net NET gives")
    if len(batches.samples) < wanted:
        raise PsiError(
            f"{len(batches.samples)} of {wanted} blocks are finished, and --guaranteed wants a "
            "number of streams that was fixed beforehand; the same call of psi-many goes on"
        )
    rows, records = guaranteed_means(batches, args.level / 100)
    if args.certificate:
        write(tables.as_json(file_of(rows, {"reports": args.reports})), args.certificate)
    notes, remarks = notes_of(batches, wanted), [misses(rows[0].d), ASSUMED]
    table = table_of(records, is_guaranteed=True, has_extremes=True)
    lines = [*notes, head_of(batches, args.level, "guaranteed intervals"), *table, *remarks]
    return in_form(heads_of(batches), records, args, [*notes, *remarks], lines)


def answer(args: argparse.Namespace) -> tuple[str, list[str]]:
    """The text of the answer, and what is noted beside it."""
    net = Network.read(args.net) if args.net else None
    batches, wanted = read_any(args.reports, net)
    if args.guaranteed:
        return guaranteed_answer(args, batches, wanted)
    count = len(batches.samples)
    if count < LEAST_BATCHES:
        raise PsiError(
            f"there are {count} batches, and {LEAST_BATCHES} are wanted: draw smaller ones, as by "
            f"psi-many .. --block N"
        )
    notes, records = notes_of(batches, wanted), [*records_of(batches, args.level / 100)]
    lines = [*notes, *lines_of(batches, records, args.level)]
    return in_form(heads_of(batches), records, args, [*notes, *batches.carried()], lines)


def work(arguments: list[str]) -> int:
    args = parse(arguments)
    if args.paths is None:
        text, notes = answer(args)
    else:
        from psi_tools.cli.path_means import answer as answer_of_paths

        text, notes = answer_of_paths(args)
    write(text, args.out)
    if notes:
        print_note(COMMAND, "; ".join(notes))
    return 0
