"""mean_values.py NET TOTAL [COUNT [PSI]]: the means of a closed network by mean value analysis.

Prints a line `NAME MEAN` for each queue. With COUNT the mean over that many samples stands after it,
with half its interval of some 95 %: those of the streams from 0 on and the seed 0.
"""

import math
from collections.abc import Sequence

from psi_tools.cli.options import TOTAL, Parser, number
from psi_tools.draw.states import samples_of
from psi_tools.draw.program import Program
from psi_tools.errors import PsiError
from psi_tools.io.files import write
from psi_tools.io.tables import ended
from psi_tools.model.networks import checked
from psi_tools.stats.mean_values import means_of, rates_of

COMMAND = "mean_values"
ABOUT = """Prints how many customers each queue of a closed network holds on average, by mean value
analysis, and beside that the mean over samples with half its interval of some 95 %."""


def states_of(psi: Program, net: bytes, total: int, count: int) -> list[list[int]]:
    """The states of samples of seed 0, as rows; all of them have to be coupled."""
    texts = psi.all(lambda stream: psi.ask("closed", net, 0, stream, total, statuses=(0, 1)).out, range(count))
    found = samples_of("".join(texts).encode()) or []
    if None in found:
        raise PsiError("psi closed ended with 1", 1)
    return [sample[1] for sample in found if sample]


def estimate(values: Sequence[int]) -> tuple[float, float]:
    """The mean of some values, and half of its interval of some 95 %."""
    mean = sum(values) / len(values)
    variance = sum((value - mean) ** 2 for value in values) / max(1, len(values) - 1)
    return mean, 1.96 * math.sqrt(variance / len(values))


def parser() -> Parser:
    parser = Parser(COMMAND, ABOUT)
    parser.add("net", "NET", "the file of a closed network")
    parser.add("total", "TOTAL", "the number of customers, 0 to 256", type=TOTAL)
    text = "the number of samples that are drawn; none by default"
    parser.add("count", "COUNT", text, type=number(0, 2**24), nargs="?", default=0)
    parser.add("psi", "PSI", "the built program", nargs="?")
    return parser


def work(arguments: list[str]) -> int:
    args = parser().parse_args(arguments)
    psi = Program(args.psi)
    net = checked(psi, args.net)
    means = means_of(rates_of(net.table, args.total), args.total)
    lines = [f"{name} {mean:.3f}" for name, mean in zip(net.queues, means)]
    if args.count:
        states = states_of(psi, net.data, args.total, args.count)
        for place, values in enumerate(zip(*states)):
            lines[place] += " {:.3f} ± {:.3f}".format(*estimate(values))
    write(ended(lines))
    return 0
