"""Where in a network file stands what psi refuses, with the guide's sentences and what was meant by a name or value."""

import re
from collections.abc import Callable, Iterable, Iterator
from typing import Any

from psi_tools.errors import PsiError, printable
from psi_tools.io import toml
from psi_tools.io.files import MOST_BYTES
from psi_tools.io.toml import Array, Table

# What psi refuses, by its code, name, section, number and key; and a line of a file with a remark.
Finding = dict[str, Any]
Place = tuple[int | None, str | None]

# The line of psi that refuses a network, and the longest text of a line of a file that is shown.
REFUSED = re.compile(r"psi: network refused (\d+) (\w+) (top|queue|event|reward) (\d+) (\S+)")
LONGEST = 160

# The guide's list, docs/FORMATS.md, 'What is wrong with my file?', word by word.
SENTENCES = {
    "TooLong": "The file has more than 1,048,576 bytes. Shorten it.",
    "NotToml": "It is no TOML document: a syntax error, a key twice, bytes that aren't UTF-8, an integer beyond 64 "
    "bits, or nesting too deep. Mend it; an editor that knows TOML shows the place.",
    "Version": "`version` is neither 1 nor 2. Write `version = 1`, or 2 for guarded events and longer runs.",
    "UnknownKey": "The table has a key that it can't have; the first in byte order is shown, or `-` where it isn't "
    "of the form of a name. Correct the spelling, or move it below its own header; look at the kind's keys above.",
    "MissingKey": "A key is absent that is required, or there is no queue. Add it.",
    "WrongType": 'A value is of another type, as `rate = "x"`, or a number has a point, as '
    "`rate = 0.8` or `4.0`. Write a whole number, a string or an array as the key asks; for rates "
    "of 0.8 and 1 write 4 and 5.",
    "OutOfRange": "A number is out of its range, a name isn't of the allowed form, `full` is "
    "neither `lost` nor `stay`, a list that needs a name is empty, `part` is empty, or `size` "
    "isn't 1 beside `from`. See the ranges above; `servers` is at most the capacity.",
    "TooMany": "More than 32 queues (key `queue`), 1,024 events (as listed, key `event`; counted "
    "over servers, `from`, or `kind` without a single source), 262,144 index values (`table`), "
    "64 rewards (`reward`), or 32 parts of one event (`part`). Make the network smaller.",
    "DuplicateName": "An earlier table of the section has this name. Rename one.",
    "UnknownQueue": "No queue has this name. Correct the name, or add the queue.",
    "UnknownKind": "There is no such kind; `guarded` is one in version 2 alone. See the kinds above.",
    "SelfTarget": "The queue that a customer leaves is among the queues that it goes to, is "
    '`on`, or is a join\'s `to`. Take it out; blocking is `full = "stay"`.',
    "RepeatedTarget": "A list names a queue twice, or two parts of an event do. Name it once.",
    "TableLength": "A table, a row or the weights are too long or too short. An index row has as "
    "many values as the queue's capacity, a reward's row one more.",
    "BatchTooLarge": "`size` is above the capacity of a target. Lower it.",
    "NoEvents": "There is no event. Add one.",
    "TotalTooLarge": "The rates, counted over servers, add up to more than 16,777,216 at this "
    "event. Divide all rates by a common factor.",
    "EmptyGuard": "A part has `least` above `most` (key `least`) or `floor` above `ceiling` (key "
    "`floor`). Exchange them.",
}
MOST = {"queue": 32, "event": 1_024, "reward": 64, "part": 32}
# What a part of a guarded event may have.
OF_PARTS = "queue", "least", "most", "shift", "floor", "ceiling"
NAME = re.compile("[a-zA-Z0-9_-]{1,32}")
KEYS = {
    "top": ("version", "limit", "split", "queue", "event", "reward"),
    "queue": ("name", "capacity", "servers"),
    "reward": ("kind", "name", "queues", "weights", "table", "level"),
    "event": ("kind", "name", "rate", "to", "from", "full", "table", "size", "on", "amount", "part"),
    "part": OF_PARTS,
}
KINDS = ("arrival", "service", "index", "batch", "negative", "fork", "join", "guarded")
REWARDS = ("linear", "table", "greatest", "least", "above")
# The ranges of whole numbers, of those that don't go by something else in the file.
RANGES = {
    "capacity": (1, 65_535),
    "servers": (1, 64),
    "rate": (1, 1_048_576),
    "size": (1, 65_535),
    "amount": (1, 65_535),
    "level": (0, 65_535),
    "split": (1, 4_096),
    "shift": (-65_535, 65_535),
}
# The least similarity, by difflib, of a word that may have been meant.
LIKE = 0.6


def item_at(document: Table, found: Finding) -> Any:
    """The value at the place of the table that is refused, which need not be a table; none where there is none."""
    tables, number = document.get(found["section"]), found["number"]
    return tables[number - 1] if type(tables) is Array and 1 <= number <= len(tables) else None


def place_of(document: Table, found: Finding) -> Place:
    """The line of what is refused in a document, and a remark on it, or none."""
    section, place, key, name = found["section"], found["number"] - 1, found["key"], found["name"]
    table = document if section == "top" else item_at(document, found)
    if table is None:
        return document.places.get(section), None
    if type(table) is not Table:
        return document[section].places[place], None
    if section == "event" and in_parts(table, name, key):
        return place_in_parts(document, table, name, key)
    if name == "UnknownKey" and key == "-":
        return place_of_odd_key(table), None
    if section == "top":
        return place_at_top(document, name, key)
    if name == "DuplicateName":
        own = table.get("name")
        first = next(each for each in document[section] if type(each) is Table and each.get("name") == own)
        return table.places.get("name", table.line), f"the first one is on line {first.places['name']}"
    if key not in table.places:
        return table.line, "its header; the key isn't there" if name == "MissingKey" else None
    return place_in_value(document, table, name, key)


def place_at_top(document: Table, name: str, key: str) -> Place:
    """The line of what is refused at the top."""
    if key in MOST and name == "TooMany" and type(document.get(key)) is Array:
        return document[key].places[MOST[key]], f"the table that is one too many, {MOST[key] + 1}"
    if key in document.places:
        return document.places[key], None
    return 1, "the first line; it isn't in the file" if name in ("MissingKey", "NoEvents") else None


def odd_keys(table: Table) -> list[str]:
    """The keys that aren't of the form of a name, in byte order."""
    return sorted((key for key in table if not NAME.fullmatch(key)), key=str.encode)


def place_of_odd_key(table: Table) -> int:
    """The line of the first key that isn't of the form of a name."""
    return next((table.places[key] for key in odd_keys(table)), table.line)


def in_parts(event: Table, name: str, key: str) -> bool:
    """Whether what is refused stands in a part of an event."""
    if event.get("kind") != "guarded" or type(event.get("part")) is not Array:
        return False
    if name == "UnknownKey" and (key in event or key == "-" and odd_keys(event)):
        return False
    return key in OF_PARTS or name == "UnknownKey" or key == "part" and name == "WrongType"


def offending(document: Table, parts: Array, name: str, key: str) -> int | None:
    """The place of the first part of an event that offends, or that is no table; none where there is none."""
    capacities: dict[str, int] = capacities_of(document)
    seen: set[Any] = set()
    for place, part in enumerate(parts):
        if type(part) is not Table or offends(part, name, key, capacities, seen):
            return place
        if type(part.get("queue")) is str:
            seen.add(part["queue"])
    return None


def place_in_parts(document: Table, event: Table, name: str, key: str) -> Place:
    """The line in the first part that offends."""
    place = offending(document, event["part"], name, key)
    if place is None:
        return event.places["part"], None
    part, line = event["part"][place], event["part"].places[place]
    if type(part) is not Table:
        return line, "this part is no table"
    odd = place_of_odd_key(part) if key == "-" else None
    return odd or part.places.get(key, part.line or line), f"part {place + 1}"


def offends(part: Table, name: str, key: str, capacities: dict[str, int], seen: set[Any]) -> bool:
    """Whether a part is the one that is refused, by its refusal."""
    value, capacity = part.get(key), capacities.get(part.get("queue", ""))
    if name == "UnknownKey":
        return bool(odd_keys(part)) if key == "-" else key in part and key not in OF_PARTS
    if name == "MissingKey":
        return key not in part
    if name == "WrongType":
        return key in part and type(value) is not (str if key == "queue" else int)
    if name == "UnknownQueue":
        return value not in capacities
    if name == "RepeatedTarget":
        return value in seen
    if name == "EmptyGuard":
        ends = ("least", "most") if key == "least" else ("floor", "ceiling")
        return bool(part.get(ends[0], 0) > part.get(ends[1], capacity or 0))
    if key == "shift":
        return type(value) is int and not -65_535 <= value <= 65_535
    return type(value) is int and capacity is not None and not 0 <= value <= capacity


def capacities_of(document: Table) -> dict[str, int]:
    """The capacity of each queue, by its name, as far as they are right."""
    return {
        queue["name"]: queue["capacity"]
        for queue in document.get("queue", ())
        if type(queue.get("name")) is str and type(queue.get("capacity")) is int
    }


def place_in_value(document: Table, table: Table, name: str, key: str) -> Place:
    """The line of what offends in a key's value: the item, where it is a list over lines."""
    value, line = table[key], table.places[key]
    if type(value) is not Array:
        return line, None
    types = (int, Array) if key in ("table", "weights") else (str,)
    wrong: dict[str, Callable[[Any], object]] = {
        "UnknownQueue": lambda item: item not in capacities_of(document),
        "SelfTarget": lambda item: item == table.get("from"),
        "WrongType": lambda item: type(item) not in types,
        "OutOfRange": lambda item: type(item) is int and not least_of(table) <= item <= 10**9,
    }
    if name in wrong:
        return next((place for item, place in items_of(value) if wrong[name](item)), line), None
    if name == "RepeatedTarget":
        return next(repeats(items_of(value)), line), None
    if name == "TableLength" and key == "table":
        return next((place for place, *_ in wrong_rows(document, table)), line), None
    return line, None


def items_of(value: Array) -> Iterator[tuple[Any, int]]:
    """All items of an array, and of arrays in it, each with its line."""
    for item, line in zip(value, value.places):
        if type(item) is Array:
            yield from items_of(item)
        else:
            yield item, line


def repeats(items: Iterable[tuple[Any, int]]) -> Iterator[int]:
    """The lines of the items that stood before."""
    seen = set()
    for item, line in items:
        if type(item) is str and item in seen:
            yield line
        seen.add(item if type(item) is str else None)


def least_of(table: Table) -> int:
    """The least value that a table or weights may have."""
    return -(10**9) if table.get("kind") in ("linear", "table") else 0


def wrong_rows(document: Table, table: Table) -> Iterator[tuple[int, str, int, int]]:
    """The rows that are too long or too short: the line of each, its queue, its length, and the one that is wanted."""
    names, known = table.get("queues", table.get("to", ())), capacities_of(document)
    for row, line, name in zip(table["table"], table["table"].places, names):
        wanted = known.get(name, 0) + ("queues" in table)
        if type(row) is Array and name in known and len(row) != wanted:
            yield line, name, len(row), wanted


def close_to(word: object, known: Iterable[str]) -> str | None:
    """The other word among those that are known that is most like one; none where none is."""
    import difflib

    others = [each for each in known if each != word]
    return next(iter(difflib.get_close_matches(word, others, 1, LIKE)), None) if isinstance(word, str) else None


def meant(word: object, known: Iterable[str]) -> str | None:
    """The question whether another word was meant; none where none is like it."""
    near = close_to(word, known)
    return f"did you mean {near}?" if near else None


def out_of(key: str, value: object, least: int, most: int) -> str | None:
    """The one bound of a range that a number passes."""
    if type(value) is not int or least <= value <= most:
        return None
    bound = f"at least {least}" if value < least else f"at most {most}"
    return f"{key} is {value}; {bound}"


def range_of(document: Table, table: Table, key: str) -> tuple[int, int] | None:
    """The range of a whole number of a table; none where it has none."""
    if key == "limit":
        return 0, 22 if document.get("version") == 2 else 20
    if key == "servers":
        capacity = table.get("capacity")
        return 1, min(64, capacity) if type(capacity) is int and capacity > 0 else 64
    if key in ("least", "most", "floor", "ceiling"):
        return 0, capacities_of(document).get(table.get("queue", ""), 65_535)
    return RANGES.get(key)


def table_at(document: Table, found: Finding) -> Table | None:
    """The table in which psi refuses something; of an event's parts the part that offends."""
    section, name, key = found["section"], found["name"], found["key"]
    table = document if section == "top" else item_at(document, found)
    if section == "event" and type(table) is Table and in_parts(table, name, key):
        place = offending(document, table["part"], name, key)
        table = None if place is None else table["part"][place]
    return table if type(table) is Table else None


def keys_known(table: Table, found: Finding) -> tuple[str, ...]:
    """The keys that the table may have."""
    is_part = found["section"] == "event" and "kind" not in table and "queue" in table
    return OF_PARTS if is_part else KEYS[found["section"]]


def misspelt(table: Table, key: str, found: Finding) -> str | None:
    """The key of a table that stands for one that is missing; none where there is none."""
    return close_to(key, (each for each in table if each not in keys_known(table, found)))


def on_name(name: object, what: str, known: Iterable[str]) -> str | None:
    """A name that isn't known, and the one that was meant."""
    return "; ".join(filter(None, [what.format(name), meant(name, known)])) if isinstance(name, str) else None


def on_range(document: Table, table: Table, key: str) -> str | None:
    """The value that is out of its range, and the bound that it passes."""
    value, ends = table.get(key), range_of(document, table, key)
    if type(value) is int and ends:
        if key == "size" and "from" in table and value != 1:
            return f"size is {value}; beside from it is 1"
        return out_of(key, value, *ends)
    if type(value) is Array and not value:
        return f"{key} is empty"
    if type(value) is Array:
        message = (out_of(f"a value of {key}", item, least_of(table), 10**9) for item, _ in items_of(value))
        return next(filter(None, message), None)
    if key == "full" and isinstance(value, str):
        return on_name(value, "full is {}", ("lost", "stay"))
    if isinstance(value, str) and not NAME.fullmatch(value):
        return f"{key} has {len(value)} characters; 1 to 32 letters, digits, _ and - make a name"
    return None


def on_length(document: Table, table: Table, key: str) -> str | None:
    """How long the table, row or list is that has another length, and how long it is to be."""
    value, names = table.get(key), table.get("queues", table.get("to", []))
    if type(value) is not Array or type(names) is not Array:
        return None
    if len(value) != len(names):
        return f"{key} has the length {len(value)}; {len(names)} is wanted"
    rows = wrong_rows(document, table) if key == "table" else ()
    texts = (f"the row of {name} has the length {long}; {wanted} is wanted" for _, name, long, wanted in rows)
    return next(texts, None)


def on_total(document: Table, number: int) -> str:
    """What the rates add up to, up to the event at which that is too much."""
    servers = {queue.get("name"): queue.get("servers", 1) for queue in document["queue"]}
    of_servers = "service", "index", "negative", "fork"
    total = sum(
        event["rate"] * (servers.get(event.get("from"), 1) if event["kind"] in of_servers else 1)
        for event in document["event"][:number]
    )
    return f"the rates up to this event are {total}; at most 16777216"


def remark_on(document: Table, table: Table, found: Finding) -> str | None:
    """What was meant by a name that is refused, or the bound that a number passes."""
    key = found["key"]
    match found["name"]:
        case "UnknownKey":
            return meant(key, [other for other in keys_known(table, found) if other not in table])
        case "MissingKey":
            near = misspelt(table, key, found)
            return f"{near} stands there; did you mean {key}?" if near else None
        case "UnknownKind" if table.get("kind") == "guarded":
            return "guarded is a kind of version 2"
        case "UnknownKind":
            return on_name(table.get("kind"), "kind is {}", KINDS if found["section"] == "event" else REWARDS)
        case "UnknownQueue":
            value, known = table.get(key), capacities_of(document)
            names = [item for item, _ in items_of(value)] if type(value) is Array else [value]
            return on_name(next((name for name in names if name not in known), None), "{} is no queue", known)
        case "Version":
            return f"version is {table['version']}" if type(table.get("version")) is int else None
        case "OutOfRange":
            return on_range(document, table, key)
        case "BatchTooLarge":
            size, known = table.get("size", 0), capacities_of(document)
            small = [name for name in table.get("to", []) if known.get(name, 0) < size]
            return f"size is {size}; {small[0]} has room for {known[small[0]]}" if small else None
        case "TableLength":
            return on_length(document, table, key)
        case "EmptyGuard":
            other = "most" if key == "least" else "ceiling"
            high = table.get(other, capacities_of(document).get(table.get("queue", "")))
            return f"{key} is {table.get(key, 0)}; at most {high}, as {other} is"
        case "TotalTooLarge":
            return on_total(document, found["number"])
    return None


def found_in(data: bytes, line: str) -> Finding:
    """What psi's line has on a file: the code, its name, the section, the number and the key of
    what is refused, and the line and a remark on it; the line is none where it isn't known."""
    message = REFUSED.fullmatch(line)
    if not message:
        raise PsiError(printable(line) or "psi printed nothing", 3)
    code, name, section, number, key = message.groups()
    found = {"code": int(code), "name": name, "section": section, "number": int(number), "key": key}
    found["line"], found["remark"] = line_of(data, found)
    return found


def line_of(data: bytes, found: Finding) -> Place:
    """The line of what is refused, and a remark beside the guide's sentence."""
    if found["name"] == "TooLong":
        return data.count(b"\n", 0, MOST_BYTES) + 1, "here the file has the most bytes that it may have"
    try:
        document = toml.read(data)
    except toml.TomlError as fault:
        return fault.line, fault.what
    if found["name"] == "NotToml":
        return None, "the line is not known"
    line, remark = place_of(document, found)
    table = table_at(document, found)
    own = None if table is None else remark_on(document, table, found)
    if found["name"] == "MissingKey" and table is not None:
        # A key that is misspelt is the line to look at, not the header of its table.
        near = misspelt(table, found["key"], found)
        line, remark = (table.places[near], None) if near else (line, remark)
    return line, "; ".join(filter(None, [remark, own])) or None


def text_of_line(data: bytes, line: int) -> str:
    """The text of a line, as it can be printed, and cut where it is long."""
    lines = data.split(b"\n", line)
    found = lines[line - 1] if line <= len(lines) else b""
    text = printable(found.decode("utf-8", "replace").strip())
    return text if len(text) <= LONGEST else text[:LONGEST] + ".."


def text_of(path: object, data: bytes, found: Finding) -> str:
    """The answer for people."""
    place = printable(path)
    if found["line"] is not None:
        place += f":{found['line']}: {text_of_line(data, found['line'])}"
    remark = f" ({printable(found['remark'])})" if found["remark"] else ""
    where = "the top" if found["section"] == "top" else f"{found['section']} {found['number']}"
    subject = where if found["key"] == "-" else f"the key {found['key']} of {where}"
    head = f"{found['code']} {found['name']}, {subject}{remark}"
    return f"{place}\n{head}\n{SENTENCES[found['name']]}\n"
