"""psi-law: the distribution of queues and rewards over samples, or how often a condition holds."""

import argparse
import functools

from psi_tools.cli.options import PILOTS, Parser, check_files
from psi_tools.draw.law import COUNT, Samples
from psi_tools.draw.program import Program
from psi_tools.errors import PsiError, check_streams
from psi_tools.io import tables
from psi_tools.io.files import write
from psi_tools.io.terminal import Progress, print_note
from psi_tools.model.networks import Network, checked
from psi_tools.stats.law import RECORD, SHARED, Joint, Law, Share
from psi_tools.stats.text import not_coupled

COMMAND, BUILT_BY = "psi-law", "`rt run` in crates/psi_states builds it"
# Up to this number samples are drawn one by one without a note.
FEW = 1_000
# What is found of samples.
Found = Law | Joint | Share
ABOUT = """Prints the distribution of a number at time zero: how many customers a queue holds, or the value
of a reward. Each value that came has its probability and the ends of an interval that holds it in
95 % of all repetitions, or more often; then come the mean and some quantiles, with their intervals.

    psi-law desk.toml desk --count 100000 --picture desk.svg

Of several names it is the joint distribution, a row for the values that came together; with --where
the probability of a condition.

    psi-law shop.toml desk till
    psi-law shop.toml --where 'desk == 0 and till >= 3'

The samples are drawn by psi_states; where that isn't built, one by one by psi sample, which takes
longer. Streams that aren't coupled are reported first, and each interval is as wide as their possible
values make it. With --guaranteed the coverage of each interval is a theorem."""


def parser() -> Parser:
    parser = Parser(COMMAND, ABOUT)
    parser.add("net", "NET", "a network file")
    parser.add("names", "QUEUE|REWARD", "queues and rewards of the network; one, or several jointly", nargs="*")
    text = "the names are those of rewards; a queue is meant where both have it"
    parser.flag("--reward", f"{text}. queue.NAME and reward.NAME are understood, too")
    text = "print the probability of a condition: comparisons of queues, rewards and whole numbers, with and, or, not"
    parser.add("--where", "CONDITION", f"{text}, +, - and *; names with a hyphen stand in quotes")
    parser.add_streams(COUNT)
    parser.add_program()
    parser.add_form()
    parser.add_picture()
    parser.add_guaranteed()
    text = (
        "with --guaranteed, the number of further streams that choose the stakes of the mean's bets and aren't counted"
    )
    more = "by default a twentieth of --count, at most 1,000; with 0 the stakes are those of the range"
    parser.add("--pilot", "N", f"{text}; {more}", type=PILOTS)
    return parser


def notes_of(found: Found) -> list[str]:
    """What has to be known before a probability is read."""
    return not_coupled(found.unknown, found.many, "probabilities")


def head_of(found: Found, what: str, args: argparse.Namespace) -> list[str]:
    """The first lines of an answer for people."""
    last = args.first + args.count - 1
    head = f"{what}: {found.known:,} samples, streams {args.first} to {last}"
    kind = "guaranteed intervals" if args.guaranteed else "intervals"
    return [*notes_of(found), f"{head} of seed {args.seed}; {kind} of 95 %"]


def text_of(law: Law, args: argparse.Namespace) -> str:
    """The answer for people."""
    lines = head_of(law, law.name, args)
    rows: list[tuple[object, ...]] = [(law.what, "samples", "probability", "from", "to", "at most", "from", "to")]
    for each in law.records():
        shown = [law.shown(key, each[key]) for key in RECORD[2:]]
        rows.append((each["value"], each["count"], *shown))
    lines += tables.aligned(rows, right=range(8))
    lines.append(law.mean_line())
    lines += [] if args.guaranteed else law.remarks()
    rows = [("quantile", law.what, "from", "to")]
    for share, *ends in law.quantiles():
        rows.append((f"{share * 100:g} %", *("-" if end is None else end for end in ends)))
    lines += tables.aligned(rows, right=range(4))
    lines += law.remarks() if args.guaranteed else []
    return tables.ended(lines)


def counted_text_of(found: Joint | Share, args: argparse.Namespace) -> str:
    """The answer for people on several numbers, or on a condition."""
    columns = found.columns if isinstance(found, Joint) else []
    rows: list[tuple[object, ...]] = [(*columns, "samples", "probability", "from", "to")]
    for each in found.records():
        shown = [f"{each[key]:.5f}" for key in SHARED[1:]]
        rows.append((*(each[column] for column in columns), each["count"], *shown))
    head = head_of(found, ", ".join(found.columns) if isinstance(found, Joint) else found.condition, args)
    return tables.ended([*head, *tables.aligned(rows, right=range(len(rows[0])))])


def answer_of(found: Found, args: argparse.Namespace) -> str:
    """The answer in the form that is asked for."""
    if args.format == "text":
        return text_of(found, args) if isinstance(found, Law) else counted_text_of(found, args)
    records = found.records()
    if args.format == "csv":
        return tables.as_csv(records)
    drawn: tables.Record = {"samples": found.many, "unknown": found.unknown, "notes": notes_of(found)}
    if isinstance(found, Share):
        return tables.as_json({"where": found.condition, **drawn, **records[0]})
    if isinstance(found, Joint):
        return tables.as_json({"names": found.columns, **drawn, "values": records})
    mean, keys = found.mean(), ("share", "value", "low", "high")
    drawn["notes"] += found.remarks()
    ends = {"mean": mean.mean, "half": mean.half, "low": mean.low, "high": mean.high}
    quantiles = [dict(zip(keys, each)) for each in found.quantiles()]
    return tables.as_json({"name": found.name, **drawn, "mean": ends, "values": records, "quantiles": quantiles})


def check_args(args: argparse.Namespace) -> None:
    """Refuses options that don't fit together, and files that can't be written."""
    check_streams(args.first, args.count)
    if not args.names and args.where is None:
        raise PsiError("a queue or a reward is expected, or --where with a condition")
    if args.names and args.where is not None:
        raise PsiError("--where goes without a queue or a reward")
    for option in ("guaranteed", "picture"):
        if getattr(args, option) and len(args.names) != 1:
            raise PsiError(f"--{option} goes with one queue or reward")
    check_files(args)


def write_files(law: Law, net: Network, args: argparse.Namespace) -> None:
    """Writes the picture and the certificates of a distribution."""
    if args.picture:
        from psi_tools.plot.draw_law import draw_law
        from psi_tools.plot.style import saved

        write([saved(draw_law(law, ""), args.picture.rpartition(".")[2].lower())], args.picture)
    if args.certificate:
        from psi_tools.draw.blocks import digest_of
        from psi_tools.stats.guaranteed import GuaranteedLaw, file_of

        assert isinstance(law, GuaranteedLaw)
        pilot = law.pilot and {"first": law.pilot.first, "count": law.pilot.count}
        streams = {"seed": args.seed, "first": args.first, "count": args.count}
        of = {"network": digest_of(net.data), **streams, "pilot": pilot}
        write(tables.as_json(file_of([law.row], of)), args.certificate)


def work(arguments: list[str]) -> int:
    # Names may follow options, too.
    args = parser().parse_intermixed_args(arguments)
    check_args(args)
    psi = Program(args.psi, args.jobs)
    net = checked(psi, args.net)
    if args.count > FEW and not psi.has_states():
        print_note(COMMAND, "psi_states isn't built, so psi draws each sample, which takes longer; " + BUILT_BY)
    samples = Samples(psi, net, args.seed, args.first, args.count, functools.partial(Progress, COMMAND))
    found: Found
    if args.where is not None:
        found = samples.share_where(args.where)
    elif len(args.names) > 1:
        found = samples.joint_law(args.names, args.reward)
    elif args.guaranteed:
        found = samples.guaranteed_law(args.names[0], args.reward, args.pilot)
    else:
        found = samples.law(args.names[0], args.reward)
    if not found.known:
        raise PsiError(f"none of {found.many:,} streams is coupled; psi-why reports what may help", 1)
    if isinstance(found, Law):
        write_files(found, net, args)
    write(answer_of(found, args), args.out)
    if notes_of(found) and args.format != "text":
        print_note(COMMAND, notes_of(found)[0])
    if isinstance(found, Law) and args.guaranteed and args.format == "csv":
        print_note(COMMAND, found.remarks()[-1])
    return 0
