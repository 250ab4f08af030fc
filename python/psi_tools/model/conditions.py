"""Conditions on a sample, such as `desk == 0 and spare >= 3`.

A condition compares sums and products of queues, rewards and whole numbers, and joins comparisons by `and`,
`or` and `not`. It is parsed by Python's `ast`; every other form is refused, and nothing is handed to Python's
own evaluation.
"""

import ast
import operator
import warnings
from collections.abc import Callable, Sequence
from typing import NoReturn

from psi_tools.errors import PsiError, printable
from psi_tools.model.networks import Network

# The greatest length of a condition, how deep its parts may be nested, and the digits of its numbers.
MOST_CHARACTERS, MOST_DEPTH, MOST_DIGITS = 2_000, 100, 20

# The values of the columns that a condition names.
Values = Sequence[int]
Number = Callable[[Values], int]
Test = Callable[[Values], bool]

ARITHMETIC: dict[type[ast.operator], Callable[[int, int], int]] = {
    ast.Add: operator.add,
    ast.Sub: operator.sub,
    ast.Mult: operator.mul,
}
COMPARED: dict[type[ast.cmpop], Callable[[int, int], bool]] = {
    ast.Eq: operator.eq,
    ast.NotEq: operator.ne,
    ast.Lt: operator.lt,
    ast.LtE: operator.le,
    ast.Gt: operator.gt,
    ast.GtE: operator.ge,
}
FORM = "a condition compares queues, rewards and whole numbers, with and, or, not, +, - and *"


def column_of(net: Network, name: str, is_reward: bool = False) -> str:
    """The column of a quantity in a table of samples, `queue.NAME` or `reward.NAME`: by this name itself, or by NAME,
    which means a queue where both have it. Raises PsiError where there is none."""
    kind, dot, own = name.partition(".")
    names = {"queue": net.queues, "reward": net.rewards}
    if dot and own in names.get(kind, []):
        return name
    if name in net.queues and not is_reward:
        return f"queue.{name}"
    if name in net.rewards:
        return f"reward.{name}"
    raise PsiError(f"the network has no {'' if is_reward else 'queue and no '}reward {printable(name)}")


class Condition:
    """A condition on a sample of a network.

    `columns` has the columns of a table of samples that it names, each once; `holds` decides whether values of these
    columns, in this order, meet it. Raises PsiError where the text is no condition.
    """

    def __init__(self, net: Network, text: str) -> None:
        self.net, self.text = net, text
        self.columns: list[str] = []
        self.holds = self.test(parsed(text), 0)
        if not self.columns:
            raise PsiError("the condition names no queue and no reward")

    def test(self, node: ast.expr, depth: int) -> Test:
        """What a part of the condition that is true or false means."""
        check_depth(depth)
        if isinstance(node, ast.BoolOp):
            tests, join = [self.test(part, depth + 1) for part in node.values], any
            if isinstance(node.op, ast.And):
                join = all
            return lambda values: join(test(values) for test in tests)
        if isinstance(node, ast.UnaryOp) and isinstance(node.op, ast.Not):
            other = self.test(node.operand, depth + 1)
            return lambda values: not other(values)
        if isinstance(node, ast.Compare):
            return self.comparison(node, depth)
        refuse(node)

    def comparison(self, node: ast.Compare, depth: int) -> Test:
        """What a comparison means, or a chain of them, as `1 <= desk < 4`."""
        kinds = [COMPARED.get(type(each)) for each in node.ops]
        numbers = [self.number(each, depth + 1) for each in (node.left, *node.comparators)]
        pairs = [(kind, left, right) for kind, left, right in zip(kinds, numbers, numbers[1:]) if kind]
        if len(pairs) < len(kinds):
            refuse(node)
        return lambda values: all(kind(left(values), right(values)) for kind, left, right in pairs)

    def number(self, node: ast.expr, depth: int) -> Number:
        """What a part of the condition that is a number means."""
        check_depth(depth)
        if isinstance(node, ast.BinOp) and (joined := ARITHMETIC.get(type(node.op))):
            apply = joined
            left, right = self.number(node.left, depth + 1), self.number(node.right, depth + 1)
            return lambda values: apply(left(values), right(values))
        if isinstance(node, ast.UnaryOp) and isinstance(node.op, (ast.USub, ast.UAdd)):
            other, sign = self.number(node.operand, depth + 1), -1 if isinstance(node.op, ast.USub) else 1
            return lambda values: sign * other(values)
        if isinstance(node, ast.Constant) and type(node.value) is int and len(str(node.value)) <= MOST_DIGITS:
            value: int = node.value
            return lambda values: value
        return self.quantity(node)

    def quantity(self, node: ast.expr) -> Number:
        """What a name means; it is in quotes where it has a hyphen, for example."""
        if isinstance(node, ast.Name):
            name = node.id
        elif isinstance(node, ast.Constant) and type(node.value) is str:
            name = node.value
        else:
            refuse(node)
        column = column_of(self.net, name)
        if column not in self.columns:
            self.columns.append(column)
        place = self.columns.index(column)
        return lambda values: values[place]


def parsed(text: str) -> ast.expr:
    """The tree of a condition's text."""
    if len(text) > MOST_CHARACTERS:
        raise PsiError(f"the condition has more than {MOST_CHARACTERS:,} characters")
    # Other characters may stand for ASCII ones in Python's names.
    if not text.isascii() or not text.replace("\t", " ").isprintable():
        raise PsiError("the condition has characters that no name, number or operator has")
    try:
        with warnings.catch_warnings():
            warnings.simplefilter("ignore")
            return ast.parse(text.strip(), "condition", "eval").body
    except SyntaxError as fault:
        raise PsiError(f"the condition can't be read: {printable(fault.msg)}; {FORM}") from None
    except (ValueError, MemoryError, RecursionError):
        raise PsiError(f"the condition can't be read; {FORM}") from None


def check_depth(depth: int) -> None:
    """Refuses what is nested too deeply."""
    if depth > MOST_DEPTH:
        raise PsiError(f"the condition is nested more than {MOST_DEPTH} deep")


def refuse(node: ast.expr) -> NoReturn:
    """Refuses a part of another form; its text is cut where it is long."""
    try:
        text = ast.unparse(node)
    except (RecursionError, ValueError):
        text = type(node).__name__
    shown = printable(text if len(text) <= 60 else text[:60] + "..")
    raise PsiError(f"the condition has `{shown}` where it can't stand: {FORM}")
