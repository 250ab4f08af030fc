"""Tables as text for people, as CSV, and as JSON."""

import csv
import io
import json
from collections.abc import Container, Iterable, Mapping, Sequence
from typing import Any

# A row of an answer, by the names of its columns.
Record = dict[str, Any]


def aligned(rows: Iterable[Iterable[object]], right: Container[int] = ()) -> list[str]:
    """The lines of rows of texts in columns, two blanks apart; those in `right` are aligned at their ends."""
    texts = [[*map(str, row)] for row in rows]
    widths = [max(map(len, column)) for column in zip(*texts)]
    lines = []
    for row in texts:
        cells = [
            cell.rjust(width) if place in right else cell.ljust(width)
            for place, (cell, width) in enumerate(zip(row, widths))
        ]
        lines.append("  ".join(cells).rstrip())
    return lines


def ended(lines: Iterable[str]) -> str:
    """Lines as a text."""
    return "".join(f"{line}\n" for line in lines)


def as_csv(records: Sequence[Mapping[str, object]]) -> str:
    """Records of one form, each a dict, as CSV with a heading; none is empty."""
    room = io.StringIO()
    writer = csv.DictWriter(room, [*records[0]], lineterminator="\n")
    writer.writeheader()
    writer.writerows({key: "" if value is None else value for key, value in record.items()} for record in records)
    return room.getvalue()


def as_json(value: object) -> str:
    """A value as JSON."""
    return json.dumps(value, indent=1) + "\n"
