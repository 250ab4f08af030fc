"""python3 -m release.measure_limits PSI [--seconds N] [--only WORD]

Measures what the built program, whose path is PSI, takes by each command for files that ask as much
as they can of it: network files of the greatest length, refused and accepted, networks whose runs
cost most, and logs of the greatest length. For each run it tells the status, the processor time in
seconds, and its memory in MB of a million bytes: the least limit on the address space (`ulimit -v`,
which counts in 1,024 bytes) under which it ends so, to 1,000 of these. Where a run takes 2 seconds or
more, the limit isn't looked for: its memory is the greatest address space that was seen, as Linux
tells it some 200 times a second. A run that takes more than N seconds of processor time, 60 where N
isn't given, is ended, and its status is `killed`. --only keeps the files in whose name WORD stands.

What would take long isn't run to its end. Networks that never couple have a small limit L; with a
limit of 22 a run has 2 to the power 22 - L times as many steps, and `scaled` tells that many times
its time. Logs that are judged state by state have a sixteenth of the greatest length, and `scaled`
tells 16 times their time; those of the greatest length, and the closed network with most events,
are run for their memory alone, and ended after 3 seconds. Processor time is that of the run alone,
but grows with what else the machine does. It all takes some five minutes of it.

Nothing is judged: the figures are for docs/LIMITS.md.
"""

import argparse
import bisect
import os
import pathlib
import resource
import subprocess
import tempfile
import time
from collections.abc import Callable, Iterable, Iterator, Mapping, Sequence
from itertools import repeat
from typing import NamedTuple

from generate.small_networks import Entry, table

MOST_NETWORK = 1_048_576
MOST_LOG = 33_554_432
MOST_STEPS = 4_194_304
DEPTH = 79
NAMES = [f"q{place}" for place in range(32)]
COMMANDS = {
    "check": "check net.toml",
    "sample": "sample net.toml 0 0",
    "sample of stream 1": "sample net.toml 0 1",
    "report": "report net.toml 0 0 1",
    "couple": "couple net.toml 0 0",
    "reward": "reward net.toml 0 0 r0",
    "exact": "exact net.toml 0 0 12",
    "closed": "closed net.toml 0 0 256",
    "log": "sample net.toml 0 0 log",
    "replay": "replay net.toml log.txt",
}
NETWORK_COMMANDS = ("check", "sample", "report", "couple", "reward", "exact", "closed", "log")
# The greatest number, and those that took most of the first 1,950, which make every network that a
# trial can have.
TRIALS = (65_535, 1_403, 1_869, 1_143)
# To how many times 1,024 bytes the least limit is found.
STEP = 1_000
SHORT = 2
PART = 16


def filled(front: str, pieces: Iterable[str], back: str = "", most: int = MOST_NETWORK) -> str:
    """The front, as many pieces as there is room for, and the back."""
    kept, room = [front], most - len(front) - len(back)
    for piece in pieces:
        room -= len(piece)
        if room < 0:
            break
        kept.append(piece)
    return "".join([*kept, back])


def refused() -> Iterator[tuple[str, str]]:
    """Documents that are no network, by what they are full of."""
    down = ".a" * DEPTH
    yield "dotted keys", filled("", (f"{place:x}{down}=1\n" for place in range(1 << 20)))
    yield "headers", filled("", (f"[{place:x}{down}]\n" for place in range(1 << 20)))
    yield "a dotted key of two parts", filled("", (f"{place:x}.a=1\n" for place in range(1 << 20)))
    yield "keys", filled("", (f"{place:x}=1\n" for place in range(1 << 20)))
    yield "array headers", filled("", repeat("[[a]]\n"))
    yield "array headers and keys", filled("", repeat("[[a]]\na=1\n"))
    yield "tables in braces", filled("a=[", repeat("{a=1},"), "]")
    yield "dotted keys in braces", filled("a=[", repeat("{a" + ".a" * (DEPTH - 3) + "=1},"), "]")
    yield "braces in braces", filled("a=[", repeat(78 * "{a=" + "1" + 78 * "}" + ","), "]")
    yield "empty arrays", filled("a=[", repeat("[],"), "]")
    yield "arrays in arrays", filled("a=[", repeat(78 * "[" + 78 * "]" + ","), "]")
    yield "numbers", filled("a=[", repeat("1,"), "]")
    yield "strings", filled("a=[", repeat('"",'), "]")
    yield "escapes", filled('a="', repeat("\\t"), '"')
    yield "one name", filled("", repeat("a"))
    yield "a comment", filled("#", repeat("a"))


def with_fault(files: Iterable[tuple[str, str]]) -> Iterator[tuple[str, str]]:
    """The same files with a syntax fault at their end, which is reported before anything else."""
    for name, text in files:
        yield name + " and a fault", text[: MOST_NETWORK - 2].rsplit("\n", 1)[0] + "\n="


def network(
    top: Mapping[str, int], queues: Iterable[Entry], events: Iterable[Entry], rewards: Iterable[Entry] = ()
) -> str:
    """A network file, without spaces that nothing asks for."""
    text = "version = 2\n" + "".join(f"{key} = {value}\n" for key, value in top.items())
    for header, tables in (("queue", queues), ("event", events), ("reward", rewards)):
        text += "".join(table(header, keys) for keys in tables)
    text = text.replace(", ", ",").replace(" = ", "=")
    assert len(text) <= MOST_NETWORK, len(text)
    return text


def index_events(queue: str, count: int, capacity: int) -> Iterator[Entry]:
    for place in range(count):
        row = [(7 * place + 3 * value) % 10 for value in range(capacity)]
        yield {"name": f"i{place}", "kind": "index", "rate": 1, "to": [queue], "table": [row]}


def each(queues: int, capacity: int) -> list[Entry]:
    """The tables of the first queues."""
    return [{"name": name, "capacity": capacity} for name in NAMES[:queues]]


def guarded(count: int, parts: Callable[[int], list[Entry]]) -> list[Entry]:
    """That many guarded events, with the parts of each number."""
    return [{"name": f"g{place}", "kind": "guarded", "rate": 1, "part": parts(place)} for place in range(count)]


def moves(ways: Iterable[tuple[int, int]]) -> Iterator[Entry]:
    """A closed network's events: a service from one queue to another for each way."""
    for place, (start, end) in enumerate(ways):
        keys = {"name": f"m{place}", "kind": "service", "rate": 1, "from": NAMES[start]}
        yield {**keys, "to": [NAMES[end]], "full": "stay"}


def reward_tables(count: int, rows: list[list[int]]) -> Iterator[Entry]:
    queues = NAMES[: len(rows)]
    for place in range(count):
        yield {"name": f"r{place}", "kind": "table", "queues": queues, "table": rows}


def accepted() -> Iterator[tuple[str, str]]:
    """Networks at the limits of the format, by what is great."""
    far = {"limit": 22, "split": 4_096}
    wide = each(32, 65_535)
    leave = [{"name": f"s{place}", "kind": "service", "rate": 1, "from": NAMES[place % 32]} for place in range(1_000)]
    yield "events", network(far, wide, leave)
    one = each(1, 65_535)
    yield "index values", network(far, one, index_events("q0", 4, 65_535))
    values = [value % 10 for value in range(65_536)]
    arrival = [{"name": "come", "kind": "arrival", "rate": 1, "to": ["q0"]}]
    yield "reward values", network(far, one, arrival, reward_tables(7, [values]))
    rows = [*7 * [values], values[:65_000]]
    queues = [*wide[:7], {"name": "q7", "capacity": 64_999}]
    yield "values of one reward", network(far, queues, arrival, reward_tables(1, rows))
    both = [*index_events("q0", 4, 65_535)]
    yield "both values", network(far, one, both, reward_tables(3, [values]))
    parts = [{"queue": name, "shift": 1} for name in NAMES]
    yield "parts", network(far, wide, guarded(1_000, lambda place: parts))
    bare = [{"queue": name} for name in NAMES]
    yield "parts and index values", network(far, wide, [*both, *guarded(1_000, lambda place: bare)])
    lists = [{"name": f"a{place}", "kind": "arrival", "rate": 1, "to": NAMES} for place in range(1_000)]
    yield "lists", network(far, wide, lists)


def closed() -> str:
    """A closed network with room for 256 customers, with as many events, and reward values."""
    values = [value % 10 for value in range(65_536)]
    ways = [(place % 32, (5 * place + 1) % 32) for place in range(1_000)]
    rewards = reward_tables(6, [values])
    return network({"limit": 22}, each(32, 65_535), moves(ways), rewards)


def setting(queues: int, free: int) -> Callable[[int], list[Entry]]:
    """Parts that set all queues of one place but the last, that many, which stay as they are. One
    event in three does so in each state, the others only where the last queue is empty, so that
    they aren't monotone.
    """

    def part(place: int, queue: int) -> Entry:
        if queue < queues - free:
            return {"queue": NAMES[queue], "shift": 1 if place >> (queue % 10) & 1 else -1}
        last: Entry = {"most": 0} if queue == queues - 1 and place % 3 else {}
        return {"queue": NAMES[queue], **last}

    return lambda place: [part(place, queue) for queue in range(queues)]


def all_states() -> Iterator[tuple[str, str]]:
    """Networks of 65,536 states, with as many events as there may be, or as there is room for."""
    top = {"limit": 12, "split": 4_096}
    yield "16 queues of 1", network(top, each(16, 1), guarded(1_000, setting(16, 12)))

    def steps(place: int) -> list[Entry]:
        shifts = [(place >> turn) % 5 - 2 for turn in (0, 3, 6)]
        shifted: list[Entry] = [{"queue": NAMES[queue], "shift": by} for queue, by in enumerate(shifts)]
        return [*shifted, {"queue": NAMES[3], "least": place % 16}]

    yield "4 queues of 15", network(top, each(4, 15), guarded(1_024, steps))
    rows = [[(7 * queue + 3 * value) % 10 for value in range(255)] for queue in range(2)]
    index = [{"name": f"i{place}", "kind": "index", "rate": 1, "to": NAMES[:2], "table": rows} for place in range(514)]

    def two(place: int) -> list[Entry]:
        return [{"queue": NAMES[0], "shift": -place}, {"queue": NAMES[1], "least": place % 256}]

    rewards = reward_tables(64, 2 * [[value % 10 for value in range(256)]])
    yield "2 queues of 255", network(top, each(2, 255), [*index, *guarded(510, two)], rewards)


# For each of the first twelve queues two others, the last four of them one, each with the number
# that it is set to where the first is empty. By these numbers all 4,096 states that are left share
# a bucket of the hash table that psi_pool keeps them in; they were found by trying.
ONE_BUCKET = (
    (12, 46_077),
    (15, 14_893),
    (16, 50_166),
    (13, 4_310),
    (14, 37_806, 17, 23),
    (18, 42_967, 19, 1),
    (20, 39_415, 21, 4),
    (22, 32_104, 23, 2),
    (24, 26_237, 25, 12),
    (26, 45_141, 27, 1),
    (28, 31_099, 29, 2),
    (30, 46_491, 31, 1),
)


def one_bucket(limit: int) -> str:
    """A network whose runs follow 4,096 states in one bucket most of the time."""
    capacities = dict.fromkeys(range(12), 1)
    events = []
    for place, numbers in enumerate(ONE_BUCKET):
        pairs = list(zip(numbers[::2], numbers[1::2]))
        capacities.update(pairs)
        parts: list[Entry] = [{"queue": NAMES[place], "most": 0}]
        parts += [{"queue": NAMES[queue], "floor": number} for queue, number in pairs]
        events.append({"name": f"f{place}", "kind": "guarded", "rate": 1_360, "part": parts})
    clear = [{"queue": name, "ceiling": 0} for name in NAMES[12:]]
    events.insert(0, {"name": "clear", "kind": "guarded", "rate": 64, "part": clear})
    queues = [{"name": NAMES[queue], "capacity": capacities[queue]} for queue in range(32)]
    return network({"limit": limit, "split": 4_096}, queues, events)


def lasting() -> Iterator[tuple[str, int, str, list[str]]]:
    """Networks that never couple and whose steps cost much: what their runs follow, the exponent of
    their limit, which is small, the network, and the commands that are measured.
    """
    value = {"name": "r0", "kind": "linear", "queues": NAMES, "weights": list(range(1, 33))}
    sets = guarded(1_000, setting(32, 12))
    top = {"limit": 11, "split": 4_096}
    commands = ["sample", "report", "couple", "reward", "log"]
    yield "4,096 states", 11, network(top, each(32, 1), sets, [value]), commands
    yield "4,096 states of one bucket", 8, one_bucket(8), ["sample of stream 1"]
    far = network({"limit": 2}, each(32, 256), moves([(0, 31)]))
    yield "arcs of 32 queues", 2, far, ["closed"]


def one_event(queues: int, capacity: int, ceiling: int) -> str:
    """A network whose one event, that of each word, lowers all queues to the ceiling."""
    parts = [{"queue": name, "ceiling": ceiling} for name in NAMES[:queues]]
    event = {"name": "e", "kind": "guarded", "rate": 1, "part": parts}
    return network({"limit": 22}, each(queues, capacity), [event])


def state(queues: int, number: int) -> str:
    return ",".join([str(number)] * queues)


def digits(most: int) -> int:
    """How many digits the numbers from 1 to the greatest have together."""
    return sum(most + 1 - 10**place for place in range(8) if 10**place <= most)


def filled_log(
    queues: int, capacity: int, regions: Sequence[str], most: int = MOST_LOG, is_numbered: bool = True
) -> str:
    """The longest log of these regions in turn, each step with the number of the one event. Where the steps aren't
    numbered, each has the number 1, which is short."""
    front = f"psi-log 2\nqueues {queues}\nseed 0\nstream 0\nhorizon %d\n"
    front += f"begin box {state(queues, 0)} {state(queues, capacity)}\n"
    end = f"end {state(queues, 0)}\n"

    def length(steps: int) -> int:
        turns, more = divmod(steps, len(regions))
        texts = turns * len("".join(regions)) + len("".join(regions[:more]))
        apart = len(front % steps) + len(end)
        return apart + steps * len("step  0 \n") + (digits(steps) if is_numbered else steps) + texts

    steps = bisect.bisect_right(range(1, MOST_STEPS + 1), most, key=length)
    numbers = range(steps, 0, -1) if is_numbered else repeat(1, steps)
    lines = (f"step {number} 0 {regions[place % len(regions)]}\n" for place, number in enumerate(numbers))
    return "".join([front % steps, *lines, end])


def spaced_log(steps: int) -> str:
    """The log of that many short steps and a line of spaces, which has all the room that is left."""
    front = f"psi-log 2\nqueues 1\nseed 0\nstream 0\nhorizon {MOST_STEPS}\nbegin box 0 1\n"
    front += steps * "step 1 0 move\n"
    return front + (MOST_LOG - len(front) - 1) * " " + "\n"


def logs() -> Iterator[tuple[str, str, str]]:
    """Logs of the greatest length, each with a network, by what they are full of."""
    yield "moves of nothing", one_event(32, 1, 1), filled_log(32, 1, ["move"])
    there_and_back = ["move 0,0,0", "move 0,0,1"]
    yield "moves of a queue", one_event(32, 1, 0), filled_log(32, 1, there_and_back)
    great = dict(accepted())["parts and index values"]
    yield "moves of a queue of a great network", great, filled_log(32, 65_535, there_and_back)
    yield "short moves of nothing", one_event(32, 1, 1), filled_log(32, 1, ["move"], is_numbered=False)
    yield "short moves of a queue", one_event(32, 1, 0), filled_log(32, 1, there_and_back, is_numbered=False)
    yield "short moves of a queue of a great network", great, filled_log(32, 65_535, there_and_back, is_numbered=False)
    for steps in (0, 1_048_577, 2_097_153):
        yield f"spaces behind {steps} short steps", one_event(1, 1, 0), spaced_log(steps)
    yield "spaces, and a great network", great, spaced_log(0)
    yield "sets of a state", one_event(1, 1, 0), filled_log(1, 1, ["set 0"])
    yield "sets of a state of 12 queues", one_event(12, 1, 0), filled_log(12, 1, [f"set {state(12, 0)}"])
    for count in (10, 100, 1_000, 4_096):
        log = filled_log(1, count - 1, ["set " + " ".join(map(str, range(count)))])
        yield f"sets of {count} states", one_event(1, count - 1, count - 1), log


def slow_logs(part: int) -> Iterator[tuple[str, str, str]]:
    """Logs of a part of the greatest length that go from 4,096 states to a set and back."""
    for queues, capacity in ((1, 4_095), (12, 1)):
        turns = [f"set {state(queues, 0)}", f"box {state(queues, 0)} {state(queues, capacity)}"]
        log = filled_log(queues, capacity, turns, MOST_LOG // part)
        yield f"boxes of {queues} queues and sets in turn", one_event(queues, capacity, 0), log


class Files(NamedTuple):
    """What files are full of, the network and the log, and the commands by which they are measured:
    how many times as long the full run would take, and after how many seconds this one is ended.
    """

    name: str
    network: str
    log: str
    commands: Sequence[str]
    times: int = 1
    seconds: int | None = None


def space_of(process: int) -> int:
    """The greatest address space of a process so far, in 1,024 bytes; 0 once it has ended."""
    status = pathlib.Path(f"/proc/{process}/status").read_text()
    peaks = [line.split()[1] for line in status.split("\n") if line.startswith("VmPeak:")]
    return int(peaks[0]) if peaks else 0


def run(words: list[str], folder: str, seconds: int, space: int | None = None) -> tuple[int, float, int]:
    """The status of a run, its processor time in seconds, and the greatest address space seen."""

    def prepare() -> None:
        resource.setrlimit(resource.RLIMIT_CPU, (seconds, seconds))
        if space is not None:
            resource.setrlimit(resource.RLIMIT_AS, (space * 1_024, space * 1_024))

    nowhere = subprocess.DEVNULL
    running = subprocess.Popen(words, cwd=folder, preexec_fn=prepare, stdin=nowhere, stdout=nowhere, stderr=nowhere)
    seen = ended = 0
    while not ended:
        seen = max(seen, space_of(running.pid))
        ended, end, used = os.wait4(running.pid, os.WNOHANG)
        time.sleep(0 if ended else 0.005)
    running.returncode = os.waitstatus_to_exitcode(end)
    return running.returncode, used.ru_utime + used.ru_stime, seen


def least_space(words: list[str], folder: str, seconds: int, status: int, seen: int) -> int:
    """The least limit on the address space under which the run ends with this status, where it was
    seen to have so much of it."""
    low, high = seen, seen + STEP
    while run(words, folder, seconds, high)[0] != status:
        low, high = high, 2 * high - seen
    while high - low > STEP:
        middle = (low + high) // 2
        is_enough = run(words, folder, seconds, middle)[0] == status
        low, high = (low, middle) if is_enough else (middle, high)
    return high


def measure(what: str, program: str, command: str, folder: str, seconds: int, times: int = 1) -> None:
    """Measures a run and prints its line."""
    words = [program, *command.split(" ")]
    status, spent, space = run(words, folder, seconds)
    if status >= 0 and spent < SHORT:
        space = least_space(words, folder, seconds, status, space)
    ended = "killed" if status < 0 else str(status)
    memory = f"{space * 1_024 / 1e6:.0f}"
    scaled = f", scaled {spent * times:.0f} s" if times > 1 else ""
    print(f"{what}, {command}: {ended}, {spent:.2f} s, {memory} MB{scaled}", flush=True)


def files() -> Iterator[Files]:
    documents = [*refused()]
    yield from (Files(*named, "", ["check"]) for named in (*documents, *with_fault(documents)))
    yield from (Files(*named, "", NETWORK_COMMANDS) for named in accepted())
    ring = closed()
    yield Files("closed events", ring, "", [command for command in NETWORK_COMMANDS if command != "closed"])
    yield Files("closed events", ring, "", ["closed"], seconds=3)
    yield from (Files(*named, "", ["exact"]) for named in all_states())
    for name, limit, text, commands in lasting():
        yield Files(name, text, "", commands, times=1 << (22 - limit))
    yield from (Files(*named, ["replay"]) for named in logs())
    yield from (Files(*named, ["replay"], seconds=3) for named in slow_logs(1))
    yield from (Files(*named, ["replay"], times=PART) for named in slow_logs(PART))


def main() -> None:
    parser = argparse.ArgumentParser(usage=__doc__)
    parser.add_argument("program")
    parser.add_argument("--seconds", type=int, default=60)
    parser.add_argument("--only", default="")
    given = parser.parse_args()
    program = str(pathlib.Path(given.program).resolve())
    with tempfile.TemporaryDirectory() as folder:
        for number in TRIALS if given.only in "trial" else ():
            measure("a trial", program, f"trial {number}", folder, given.seconds)
        for case in files():
            pathlib.Path(folder, "net.toml").write_text(case.network)
            pathlib.Path(folder, "log.txt").write_text(case.log)
            seconds = case.seconds or given.seconds
            for command in case.commands if given.only in case.name else ():
                measure(case.name, program, COMMANDS[command], folder, seconds, case.times)


if __name__ == "__main__":
    main()
