"""psi-means --paths: the means of queues and rewards along paths, and the rates of events, with intervals."""

import argparse

from psi_tools.cli.means import COMMAND, in_form
from psi_tools.draw.blocks import digest_of
from psi_tools.draw.paths import paths_of
from psi_tools.draw.program import LEAST_BATCHES, Program, blocks_of, table_size
from psi_tools.errors import PsiError, check_streams
from psi_tools.io import tables
from psi_tools.io.files import write
from psi_tools.io.terminal import Progress
from psi_tools.model.networks import Network, checked
from psi_tools.stats.intervals import reading_ahead
from psi_tools.stats.batches import table_of
from psi_tools.stats.paths import Paths, paths_of_rows, records_of
from psi_tools.stats.text import not_coupled

RATES = "rates of events, in the unit of the file: how often one changes the state, and how often it is chosen"


def drawn(psi: Program, net: Network, args: argparse.Namespace, first: int, count: int) -> Paths:
    """The paths of some streams, drawn in blocks."""
    blocks = blocks_of(first, count, table_size(count, psi.jobs))
    with Progress(COMMAND, len(blocks), "blocks") as bar:
        with reading_ahead():
            rows = paths_of(psi, net, args.seed, blocks, args.paths, args.total, bar.show)
        return paths_of_rows(net, args.paths, rows)


def notes_of(paths: Paths) -> list[str]:
    """What has to be known before a mean is read."""
    return not_coupled(paths.lost, paths.count, "means")


def head_of(paths: Paths, level: float, kind: str = "intervals") -> str:
    """The line with the number of paths, and with the kind and level of the intervals."""
    state = f"{paths.count - paths.lost:,} of them coupled" if paths.lost else "all coupled"
    return f"{paths.count:,} paths of {paths.steps:,} steps, {state}; {kind} of {level:g} %"


def lines_of(paths: Paths, records: list[tables.Record], level: float) -> list[str]:
    """The answer for people, line by line."""
    means, rates = ([each for each in records if each["item"].endswith("rate") == is_rate] for is_rate in (False, True))
    lines = [*notes_of(paths), head_of(paths, level), *table_of(means)]
    lines += [RATES, *table_of(rates, "rate")] if rates else []
    return [*lines, *paths.carried()]


def guaranteed_answer(psi: Program, net: Network, args: argparse.Namespace, paths: Paths) -> tuple[str, list[str]]:
    """The text of the answer whose intervals carry a theorem: of queues and rewards alone."""
    from psi_tools.stats.guaranteed import ASSUMED, file_of, guaranteed_paths, misses, pilots_of

    pilots = pilots_of(args.count) if args.pilot is None else args.pilot
    begin, pilot = args.first + args.count, None
    if pilots:
        check_streams(begin, pilots, are_pilots=True)
        pilot = drawn(psi, net, args, begin, pilots)
    rows, records = guaranteed_paths(paths, pilot, begin, args.level / 100)
    if args.certificate:
        streams = {"seed": args.seed, "first": args.first, "count": args.count, "steps": args.paths}
        of = {"network": digest_of(net.data), **streams, "total": args.total}
        more = {"pilot": pilot and {"first": begin, "count": pilots}}
        write(tables.as_json(file_of(rows, {**of, **more})), args.certificate)
    ways: list[str] = next((row.ways() for row in rows if row.ways()), [])
    remarks = [*ways, misses(rows[0].d), ASSUMED]
    head, table = head_of(paths, args.level, "guaranteed intervals"), table_of(records, is_guaranteed=True)
    lines = [*notes_of(paths), head, *table, *remarks]
    return in_form(heads_of(paths), records, args, [*notes_of(paths), *remarks], lines)


def heads_of(paths: Paths) -> tables.Record:
    """How many paths there are, how many are coupled, and of how many steps."""
    return {"paths": paths.count, "coupled": len(paths.horizons), "steps": paths.steps}


def answer(args: argparse.Namespace) -> tuple[str, list[str]]:
    """The text of the answer, and what is to be noted beside it."""
    if args.count < LEAST_BATCHES and not args.guaranteed:
        raise PsiError(f"{args.count} paths are drawn, and {LEAST_BATCHES} are wanted for an interval")
    psi = Program(args.psi, args.jobs)
    net = checked(psi, args.reports[0])
    paths = drawn(psi, net, args, args.first, args.count)
    if not paths.horizons:
        raise PsiError(f"none of {paths.count:,} streams is coupled; psi-why reports what may help", 1)
    if args.guaranteed:
        return guaranteed_answer(psi, net, args, paths)
    records = records_of(paths, args.level / 100)
    lines = lines_of(paths, records, args.level)
    return in_form(heads_of(paths), records, args, [*notes_of(paths), *paths.carried()], lines)
