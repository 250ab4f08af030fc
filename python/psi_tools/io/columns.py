"""Tables of samples by their columns, whose numbers are read where they are wanted."""

from collections.abc import Sequence
from typing import Any

import numpy

from psi_tools.errors import PsiError
from psi_tools.io.samples import rows_of

Array = numpy.ndarray[Any, Any]

NEW_LINE, COMMA, MINUS, ZERO = b"\n,-0"
# A number of this many digits has at most 64 bits.
MOST_DIGITS = 18


class Columns:
    """The columns of a table of some streams, as psi_states prints it. `is_met` has which streams are coupled.

    Raises PsiError where the text is no such table.
    """

    def __init__(self, header: Sequence[str], text: str, first: int, count: int) -> None:
        self.header, head = [*header], ",".join(header) + "\n"
        self.data = numpy.frombuffer(text.encode(), numpy.uint8)[len(head) :]
        # Where each field ends.
        marks = numpy.flatnonzero((self.data == COMMA) | (self.data == NEW_LINE))
        is_table = text.startswith(head) and len(marks) == count * len(header) and first + count <= 10**MOST_DIGITS
        if is_table:
            self.ends = marks.reshape(count, len(header))
            is_table = self.has_rows() and self.has_streams(first)
        if not is_table:
            # It is read row by row, which finds what is wrong.
            rows_of(header, text, first, count)
            self.ends = marks.reshape(count, len(header))
        # Where a stream isn't coupled, all fields but its own are empty.
        self.is_met = self.ends[:, -1] - self.ends[:, 0] >= len(header)

    def has_rows(self) -> bool:
        """Whether each row ends with its last field, and nothing follows."""
        is_last = numpy.arange(len(self.header)) == len(self.header) - 1
        is_row = (self.data[self.ends] == NEW_LINE) == is_last
        return bool(is_row.all()) and int(self.ends[-1, -1]) == len(self.data) - 1

    def has_streams(self, first: int) -> bool:
        """Whether the rows are those of the streams from a first one on, in order, as psi_states writes numbers."""
        begins, stops = self.field(0)
        is_plain = (self.data[begins] > ZERO) | (stops - begins == 1)
        return bool(is_plain.all()) and bool((self.numbers(begins, stops) == first + numpy.arange(len(begins))).all())

    def field(self, place: int) -> tuple[Array, Array]:
        """Where the fields of a column begin and end."""
        before = self.ends[:, place - 1] if place else numpy.append(-1, self.ends[:-1, -1])
        return before + 1, self.ends[:, place]

    def column(self, name: str) -> Array:
        """The numbers of a column, of the streams that are coupled."""
        begins, stops = self.field(self.header.index(name))
        return self.numbers(begins[self.is_met], stops[self.is_met])

    def numbers(self, begins: Array, stops: Array) -> Array:
        """The numbers of some fields."""
        is_minus = self.data[begins] == MINUS
        widths = stops - begins - is_minus
        found, is_number = numpy.zeros(len(widths), numpy.int64), (0 < widths) & (widths <= MOST_DIGITS)
        for place in range(min(MOST_DIGITS, widths.max(initial=0)), 0, -1):
            digits = self.data[stops - place].astype(numpy.int64) - ZERO
            is_there = widths >= place
            is_number &= ~is_there | (0 <= digits) & (digits <= 9)
            found = numpy.where(is_there, 10 * found + digits, found)
        if not is_number.all():
            raise PsiError("psi_states printed no numbers")
        return numpy.where(is_minus, -found, found)
