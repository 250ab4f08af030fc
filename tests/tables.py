"""What the tests of psi_states and psi_paths share: programs that print a table with a row for each stream.

Such a program is run on networks with rewards of all kinds, on words that ask for no table, on files that
are no network, with growths of its memory that are refused, with writes that fail, and in little memory.
"""

import itertools
import pathlib
import resource
import signal
import subprocess
import tomllib
from collections.abc import Callable, Iterator, Sequence

import pytest

from generate.small_networks import Dice, closed_network, network, table
from oracle.plain_network import Network
from psi_tools.model.networks import Network as Made
from tests.refusing import Call, Refusing
from tests.support import Answer, Expectations, TextAnswer, answer_as_text, built

MOST_STREAM, HOUR = 2**64 - 1, 3_600
# A queue that is served as fast as it fills.
MADE = Made(limit=8).queue("a", 2).event("in", "arrival", 1, to=["a"]).event("out", "service", 1, source="a")
QUEUE = MADE.toml()


def rewards(number: int, net: Network) -> Iterator[str]:
    """Rewards of all kinds, as tables of a network file."""
    dice = Dice(number + 1)
    names = [queue["name"] for queue in net.queues]
    rows = [[dice.below(2001) - 1000 for _ in range(cap + 1)] for cap in net.caps]
    weights = [dice.below(2_000_000_001) - 1_000_000_000 for _ in names]
    yield table("reward", {"name": "a", "kind": "linear", "queues": names, "weights": weights})
    yield table("reward", {"name": "rows", "kind": "table", "queues": names, "table": rows})
    yield table("reward", {"name": "most", "kind": "greatest", "queues": names})
    yield table("reward", {"name": "least", "kind": "least", "queues": names[:1]})
    level = dice.below(max(net.caps))
    yield table("reward", {"name": "high-1", "kind": "above", "queues": names, "level": level})


def with_rewards(number: int, text: str) -> str:
    """A network file with rewards: of each five files one has none, and one has a linear one alone."""
    tables = rewards(number, Network(tomllib.loads(text)))
    return text + "".join(itertools.islice(tables, {0: 0, 1: 1}.get(number % 5)))


class RefusingTable(Refusing):
    """A program that prints tables, with growths of its memory that are refused."""

    def no_command(self, words: Sequence[str]) -> tuple[list[str], Answer]:
        """Words of the same lengths that ask for no table, and how a run of them ends."""
        usage = f"{self.name}: usage word {len(words)}\n".encode()
        return [*words[:-1], "-" * len(words[-1])], (2, b"", usage)


def limited(kind: int, most: int) -> Callable[[], None]:
    """What limits a process to so many bytes of a file that it writes, or of memory."""

    def limit() -> None:
        signal.signal(signal.SIGXFSZ, signal.SIG_IGN)
        resource.setrlimit(kind, (most, most))

    return limit


class TableTests:
    """The tests of a program that prints tables, which stands beside psi and is skipped where it isn't built."""

    # Its name, the header of its table of QUEUE, and the words after COUNT with which it is called here.
    name: str
    head: str
    more: tuple[object, ...] = ()
    # Arguments from COUNT on of a short table and of a long one, which allocate equally often; those of a short
    # table and of others that use no more memory.
    growths: tuple[list[str], list[str]]
    long: tuple[list[object], ...]

    @pytest.fixture(autouse=True)
    def place(self, program: str, tmp_path: pathlib.Path, expect: Expectations) -> None:
        """The programs, a folder for files, and what is held."""
        self.psi, self.program, self.room, self.expect = program, built(program, self.name), tmp_path, expect

    def try_table(
        self, what: str, number: int, net: Network, seed: int, streams: range, total: int | None = None
    ) -> None:
        """The table of some streams of a network with a number, which is closed where a total is given."""
        raise NotImplementedError

    @pytest.mark.slow
    def test_tables(self, numbers: range) -> None:
        """Of each number an open network, and one that is closed, or nearly so."""
        for number in numbers:
            self.try_table(f"network {number}", number, *self.open_network(number))
            if closed := self.closed_network(number):
                self.try_table(f"closed {number}", number, *closed)

    def is_same(self, what: str, given: object, wanted: object) -> None:
        """Holds that something is what is wanted."""
        self.expect(given == wanted, f"{what}: {given!r:.300} instead of {wanted!r:.300}")

    def run(self, program: str, *words: object) -> TextAnswer:
        """The status of a run, and both its texts."""
        return answer_as_text([program, *words], self.room, HOUR)

    def file(self, text: str, name: str = "net.toml") -> None:
        """Writes a file."""
        (self.room / name).write_text(text)

    def line_of(self, err: str) -> str:
        """The line of psi, under the name of the program."""
        return err.replace("psi:", f"{self.name}:")

    def open_network(self, number: int) -> tuple[Network, int, range]:
        """Writes an open network; a seed and streams for it, for some numbers the last ones that there are."""
        text = with_rewards(number, network(number))
        self.file(text)
        count = 1 + number % 7
        first = number if number % 11 else MOST_STREAM - count + 1
        return Network(tomllib.loads(text)), number * number, range(first, first + count)

    def closed_network(self, number: int) -> tuple[Network, int, range, int] | None:
        """Writes a closed network, or one that is nearly closed; a seed, streams and a total for it. None where psi
        refuses it, which the program has to do as well."""
        text = with_rewards(number, closed_network(number))
        self.file(text)
        net, seed, first = Network(tomllib.loads(text)), number, number + 1
        count, total = 1 + number % 5, Dice(number).below(2 + sum(net.caps))
        status, out, err = self.run(self.psi, "closed", "net.toml", seed, first, total)
        if status <= 1:
            return net, seed, range(first, first + count), total
        given = self.run(self.program, "net.toml", seed, first, count, *self.more, "closed", total)
        self.is_same(f"closed {number}", given, (status, out, self.line_of(err)))
        return None

    def test_words(self) -> None:
        """Words that ask for no table, each with the place that offends, and the last stream."""
        self.file(QUEUE)
        net, more = "net.toml", self.more
        right, last = [net, 0, 0, 1, *more], 5 + len(more)
        wrong: tuple[tuple[int, list[object]], ...] = (
            *((place, [net, 0, 0][: place - 1]) for place in range(1, 5)),
            (2, [net, "-1", 0, 1, *more]),
            (2, [net, "00", 0, 1, *more]),
            (2, [net, 2**64, 0, 1, *more]),
            (3, [net, 0, 2**64, 1, *more]),
            (3, [net, 0, "+1", 1, *more]),
            (4, [net, 0, 0, 0, *more]),
            (4, [net, 0, 0, 2**32, *more]),
            (4, [net, 0, MOST_STREAM, 2, *more]),
            (4, [net, 0, 1, "1e3", *more]),
            (last, [*right, "open"]),
            (last, [*right, 7]),
            (last + 1, [*right, "closed"]),
            (last + 1, [*right, "closed", 257]),
            (last + 1, [*right, "closed", ""]),
            (last + 2, [*right, "closed", 0, 0]),
        )
        for place, words in wrong:
            self.try_usage(place, words)
        front = f"{self.head}{MOST_STREAM},"
        status, out, err = self.run(self.program, net, MOST_STREAM, MOST_STREAM, 1, *more)
        self.is_same("the last stream", (status, out[: len(front)], err), (0, front, ""))

    def try_usage(self, place: int, words: Sequence[object]) -> None:
        """Words of which the one at a place offends."""
        wanted = 2, "", f"{self.name}: usage word {place}\n"
        self.is_same(f"words {words}", self.run(self.program, *words), wanted)

    def test_refusals(self) -> None:
        """Files that are no network, as psi says of them."""
        for name, text in (
            ("no-version", "limit = 3\n"),
            ("unknown-key", QUEUE + "colour = 3\n"),
            ("no-toml", "version = \n"),
            ("too-long", "#" * 1_048_577),
            ("as-long-as-it-may-be", QUEUE + "#" * (1_048_576 - len(QUEUE))),
        ):
            self.file(text)
            status, out, err = self.run(self.psi, "check", "net.toml")
            given = self.run(self.program, "net.toml", 0, 0, 1, *self.more)
            if status == 0:
                self.is_same(name, (given[0], given[2]), (0, ""))
            else:
                self.is_same(name, given, (status, "", self.line_of(err)))
        wanted = 6, "", f"{self.name}: cannot read network\n"
        self.is_same("no file", self.run(self.program, "none.toml", 0, 0, 1, *self.more), wanted)
        self.is_same("a folder", self.run(self.program, ".", 0, 0, 1, *self.more), wanted)
        self.file(QUEUE)
        wanted = 11, "", f"{self.name}: not closed event 0\n"
        self.is_same("open", self.run(self.program, "net.toml", 0, 0, 1, *self.more, "closed", 1), wanted)

    @pytest.mark.slow
    def test_memory_refused(self, library: str) -> None:
        """Growths that are refused, of an open and a closed network: a long table has as many as a short one."""
        few, many = self.growths
        refusing = RefusingTable(self.name, self.program, library)
        closed = next(text for text in map(closed_network, range(100)) if "limit = 5" in text)
        tables: tuple[tuple[str, list[str]], ...] = ((with_rewards(3, network(3)), []), (closed, ["closed", "1"]))
        for text, last in tables:
            files = {"net.toml": text.encode()}
            calls = [Call(refusing, ["net.toml", "3", "0", *words, *last], files).perform() for words in (few, many)]
            for call in calls:
                self.is_same(f"{call.shown()}: growths that are refused", call.failures, [])
                is_table = call.ample is not None and call.ample[0] in (0, 1) and call.ample[2] == b""
                self.expect(is_table, f"{call.shown()}: ample memory")
            less, more = (call.growths for call in calls)
            self.expect(2 < less == more, f"{few} has {less} growths of memory, and {many} {more}")

    @pytest.mark.slow
    def test_writes_that_fail(self) -> None:
        """Writes that fail at a place: what is written is a prefix of the table."""
        self.file(QUEUE)
        head, more = len(self.head), [str(word) for word in self.more]
        words = [self.program, "net.toml", "5", "0", "30000", *more]
        whole = subprocess.run(words, cwd=self.room, capture_output=True).stdout
        self.is_same("more than three blocks", len(whole) > 3 * 65536, True)
        self.is_same("the header", whole.index(b"\n") + 1, head)
        places = [0, 1, head - 1, head, head + 1, 65_535, 65_536, 65_537, 65_560, 131_072, 131_200, len(whole) - 1]
        for most in places:
            target = self.room / "table.csv"
            with open(target, "wb") as out:
                limit = limited(resource.RLIMIT_FSIZE, most)
                done = subprocess.run(words, cwd=self.room, stdout=out, stderr=subprocess.PIPE, preexec_fn=limit)
            given = done.returncode, target.read_bytes() == whole[:most], done.stderr
            self.is_same(f"a file of {most} bytes", given, (7, True, b""))
        with open("/dev/full", "wb") as full:
            done = subprocess.run(words, cwd=self.room, stdout=full, stderr=subprocess.PIPE)
        self.is_same("a full disk", (done.returncode, done.stderr), (7, b""))
        with open("/dev/full", "wb") as full:
            done = subprocess.run([self.program], cwd=self.room, stdout=subprocess.PIPE, stderr=full)
        self.is_same("err is full", (done.returncode, done.stdout), (7, b""))
        endless = [*words[:4], str(2**32 - 1), *more]
        with subprocess.Popen(endless, cwd=self.room, stdout=subprocess.PIPE) as run:
            assert run.stdout
            front = run.stdout.read(1000)
            run.stdout.close()
            status = run.wait(20)
        self.is_same("a closed pipe", (status, front), (7, whole[:1000]))

    def fits(self, pieces: int, *words: object) -> bool:
        """Whether a table of the words from COUNT on is made within that many times 64 KiB of memory."""
        call, limit = [self.program, "net.toml", 5, 0, *words], limited(resource.RLIMIT_AS, pieces * 65_536)
        nowhere = subprocess.DEVNULL
        done = subprocess.run([*map(str, call)], cwd=self.room, preexec_fn=limit, stdout=nowhere, stderr=nowhere)
        return done.returncode == 0

    @pytest.mark.slow
    @pytest.mark.release
    def test_memory_of_a_long_table(self) -> None:
        """The least memory for a short table, and no more than 64 KiB above it for the others."""
        few, *others = self.long
        self.file(QUEUE)
        low, high = 1, 16_384
        while high - low > 1:
            middle = (low + high) // 2
            low, high = (low, middle) if self.fits(middle, *few) else (middle, high)
        for many in others:
            self.expect(self.fits(high + 1, *many), f"{few} fits into {high * 64} KiB, and {many} does not")
