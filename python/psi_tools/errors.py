"""What can go wrong: the exceptions of the module psi, each of which a command ends with; and arguments of functions
and commands that are checked: whole numbers of a range, streams, and confidence levels."""

import numbers
import operator
import re
from typing import Any

# The confidence levels that an interval may have.
LEAST_LEVEL, MOST_LEVEL = 0.5, 0.9999
GREATEST = 2**64 - 1
NUMBER = re.compile("0|[1-9][0-9]*")


class PsiError(Exception):
    """Something that psi, a tool or an argument is refused for.

    Attributes
    ----------
    message : str
        What is wrong, in one line.
    status : int
        The exit status of the command line: that of psi where psi refuses, and 2 where arguments
        are wrong.
    line : str or None
        The line that psi itself printed on standard error; none where the fault is not psi's.
    """

    def __init__(self, message: str, status: int = 2, line: str | None = None) -> None:
        super().__init__(message)
        self.message, self.status, self.line = message, status, line

    def __reduce__(self) -> tuple[type, tuple[str, int, str | None]]:
        return type(self), (self.message, self.status, self.line)


class ArgumentError(PsiError, ValueError):
    """An argument of the module is not what it should be."""


class InputError(PsiError):
    """An input is not what it should be, so that it cannot be drawn."""


class Refused(PsiError):
    """psi refuses its arguments or its files; `line` is psi's own line."""


def require(condition: object, message: str) -> None:
    """Raises InputError unless a condition holds."""
    if not condition:
        raise InputError(message)


def reason(fault: Exception) -> str:
    """Why the system refuses a file, in words."""
    return getattr(fault, "strerror", None) or str(fault)


def printable(text: object) -> str:
    """A text as one line of characters that can be printed."""
    return "".join(char if char.isprintable() else "?" for char in str(text))


def whole_argument(name: str, value: Any, least: int, most: int) -> int:
    """The whole number that an argument is, from `least` to `most`; numbers of numpy are taken."""
    try:
        number = None if isinstance(value, bool) else operator.index(value)
    except TypeError:
        number = None
    if number is None or not least <= number <= most:
        raise ArgumentError(f"{name} is {value!r}; a whole number from {least} to {most} is expected")
    return number


def check_streams(first: int, count: int, are_pilots: bool = False) -> None:
    """Refuses streams beyond the last one."""
    if first + count - 1 > GREATEST:
        what, more = ("pilot stream", "; --pilot 0 wants none") if are_pilots else ("stream", "")
        raise PsiError(f"the last {what} would be above {GREATEST}{more}")


def level_argument(value: Any) -> float:
    """The confidence level that an argument is, as a share."""
    is_number = isinstance(value, numbers.Real) and not isinstance(value, bool)
    if not is_number or not LEAST_LEVEL <= value <= MOST_LEVEL:
        raise ArgumentError(f"level is {value!r}; a share from {LEAST_LEVEL} to {MOST_LEVEL} is expected, as 0.95")
    return float(value)
