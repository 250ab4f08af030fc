"""psi-sweep: designs of one network, or networks of several files, side by side under the same
random words, and their differences."""

import argparse
import os
import pathlib

from psi_tools.cli.options import Parser, check_files, number
from psi_tools.draw.program import Program
from psi_tools.draw.sweep import Comparison, carried_in, draw_designs, notes_of, records_of
from psi_tools.errors import PsiError, check_streams
from psi_tools.io import tables
from psi_tools.io.files import write
from psi_tools.io.terminal import print_note
from psi_tools.model.designs import Design, aligned, check_bounds, designs_of
from psi_tools.model.networks import checked
from psi_tools.stats.intervals import Mean
from psi_tools.stats.text import figures, interval_shown

# A record of the answer, its mean, and the difference to the base.
RecordOfDesign = tuple[tables.Record, Mean, Mean]

COMMAND, COUNT = "psi-sweep", 10_000
ABOUT = """Draws the same network with other numbers, all under the same seed and streams, and
prints the mean of each queue and reward in each design with an interval of 95 %, and its difference
to the first design, with an interval of its own. That is narrower by far, since the same random words
choose the same events in all designs (common random numbers): each event has the same numbers in
all of them, and where a design needs fewer an idle event has the others.

    psi-sweep desk.toml come.rate=4,5 desk.capacity=10..30..10
    psi-sweep desk.toml desk.servers=2,3 --count 100000 --picture servers.svg
    psi-sweep three.toml four.toml

NAME.KEY is the rate, size or amount of an event, the capacity or servers of a queue, or the level
of a reward; EVENT.QUEUE.KEY is least, most, floor or ceiling of an event's part. VALUES are numbers
with commas between, or FIRST..LAST, or FIRST..LAST..STEP; a rate may have decimal places,
and all rates are multiplied then. The first design is that of the first values.

Where something else in the file goes by the servers or the capacity that differ, as a guard, a
table, or the level of a reward that is printed, it would stay as it is: that is refused, unless it is
swept as well, with --together, or --anyway is given. Several files are compared as they are.

What is drawn is kept in a folder, so the same call, or one with more values, goes on with it."""


def parser() -> Parser:
    parser = Parser(COMMAND, ABOUT)
    parser.add("net", "NET", "a network file")
    text = "what differs, and how; or other network files, which are compared as they are"
    parser.add("keys", "NAME.KEY=VALUES|NET", text, nargs="+")
    text = "the first values of all keys are a design, the second ones, and so on"
    parser.flag("--together", f"{text}; without it all combinations are")
    parser.flag("--anyway", "sweep servers or a capacity though a guard, a table or a level that goes by it stays")
    parser.add("--of", "NAME", "print this queue or reward alone; may be given again", action="append")
    text = "the design with which the others are compared; by default 1, the first"
    parser.add("--base", "N", text, type=number(1, 256), default=1)
    parser.add("--folder", "FOLDER", "where finished blocks are kept; NET.SEED.FIRST.COUNT.sweep by default")
    parser.add_streams(COUNT)
    parser.add_program()
    parser.add_form()
    parser.add_picture()
    return parser


def lines_of(args: argparse.Namespace, compared: Comparison, records: list[RecordOfDesign]) -> list[str]:
    """The lines of the answer for people."""
    last, many = args.first + args.count - 1, len(compared.labels)
    lines = [f"streams {args.first} to {last} of seed {args.seed} for each of {many} designs; intervals of 95 %"]
    if compared.scale > 1:
        lines.append(f"all rates are multiplied by {compared.scale:,}, so that they are whole")
    rows = [("", "", "mean", "", "difference", "")]
    for place, (record, mean, gap) in enumerate(records):
        design = place % many
        change = ("", "")
        if design != compared.base and gap.mean is not None:
            change = ("+" * (gap.mean > 0) + figures(gap.mean, gap.half), interval_shown(gap))
        name = "" if design else record["name"]
        shown = figures(mean.mean, mean.half), interval_shown(mean)
        rows.append((name, compared.labels[design], *shown, *change))
    return [*lines, *tables.aligned(rows, right=(2, 4))]


def answer_of(
    args: argparse.Namespace, compared: Comparison, records: list[RecordOfDesign], notes: list[str], below: list[str]
) -> str:
    """The answer in the form that is asked."""
    if args.format == "text":
        return tables.ended([*notes, *lines_of(args, compared, records), *below])
    plain = [record for record, _, _ in records]
    if args.format == "csv":
        return tables.as_csv(plain)
    return tables.as_json({"notes": [*notes, *below], "scale": compared.scale, "rows": plain})


def files_in(args: argparse.Namespace) -> list[str]:
    """The network files, where several are compared."""
    files = [word for word in args.keys if "=" not in word and os.path.lexists(word)]
    if files and len(files) < len(args.keys):
        raise PsiError("files are compared as they are: NAME.KEY=VALUES doesn't go with them")
    if len(files) > 255:
        raise PsiError("there are more than 256 files")
    return [args.net, *files] if files else []


def compared_files(psi: Program, args: argparse.Namespace, files: list[str]) -> Comparison:
    """The networks of some files, side by side as they are."""
    nets = [checked(psi, file) for file in files]
    for place, net in enumerate(nets):
        same = [net.data for net in nets].index(net.data)
        if same < place:
            raise PsiError(f"{files[place]} is the same network as {files[same]}")
    designs = [Design((file,), net) for file, net in zip(files, nets)]
    designs, why = aligned(designs)
    return Comparison(["network"], designs, files, args.base - 1, why)


def compared_designs(psi: Program, args: argparse.Namespace) -> Comparison:
    """The designs that the arguments name, each of which psi accepts."""
    net = checked(psi, args.net)
    if not args.anyway:
        check_bounds(args.keys, net, args.together, args.of or [])
    keys, designs, scale, short = designs_of(args.keys, net, args.together)
    columns = [f"{name}.{key}" for name, key in keys]
    labels = [" ".join(f"{column}={value}" for column, value in zip(columns, design.values)) for design in designs]
    designs, why = aligned(designs)
    return Comparison(columns, designs, labels, args.base - 1, why, scale, short)


def prepared(args: argparse.Namespace) -> tuple[Program, Comparison]:
    """The program, and what is compared; psi takes all of it."""
    check_streams(args.first, args.count)
    check_files(args)
    psi, files = Program(args.psi, args.jobs), files_in(args)
    compared = compared_files(psi, args, files) if files else compared_designs(psi, args)
    nets = [design.net for design in compared.designs]
    known = {name for net in nets for name in (*net.queues, *net.rewards)}
    absent = [name for name in args.of or () if name not in known]
    if absent:
        raise PsiError(f"the network has no queue and no reward {absent[0]}")
    if args.base > len(nets):
        raise PsiError(f"--base is from 1 to {len(nets)}")
    for label, net in zip(compared.labels, nets):
        answer = psi.call("check", net.data)
        if answer.status:
            message = answer.line.removeprefix("psi: ")
            raise PsiError(f"{label}: {message}; psi-where explains it", answer.status)
    return psi, compared


def work(arguments: list[str]) -> int:
    args = parser().parse_args(arguments)
    psi, compared = prepared(args)
    numbers = {"seed": args.seed, "first": args.first, "count": args.count}
    name = "{}.{seed}.{first}.{count}.sweep".format(pathlib.Path(args.net).name, **numbers)
    batches = draw_designs(psi, pathlib.Path(args.folder or name), compared.designs, numbers, COMMAND)
    records = records_of(compared, batches, args.of)
    notes, below = notes_of(compared, batches), carried_in(compared, batches, args.of)
    if args.picture:
        from psi_tools.plot.draw_sweep import draw_sweep
        from psi_tools.plot.style import saved

        plain = [record for record, _, _ in records]
        figure = draw_sweep(compared.columns, compared.labels, plain, compared.base, notes)
        write([saved(figure, args.picture.rpartition(".")[2].lower())], args.picture)
    write(answer_of(args, compared, records, notes, below), args.out)
    if args.format != "text" and (notes or below):
        print_note(COMMAND, "; ".join([*notes, *below]))
    return 0
