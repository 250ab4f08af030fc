"""The blocks of streams that are drawn, and the folder in which finished ones are kept."""

import contextlib
import fcntl
import hashlib
import os
import pathlib
import re
from collections.abc import Iterable, Iterator
from typing import NamedTuple

from psi_tools.errors import PsiError, reason
from psi_tools.io import files
from psi_tools.io.reports import Report, ReportError, read
from psi_tools.io.samples import is_table
from psi_tools.model.networks import Network, header_of

# What stands in the file `lock` of a folder that is psi-many's own, and what is a number of those
# lines that a folder is bound to.
MARK, NUMBERS = b"a folder of psi-many\n", ("seed", "first", "count", "block", "closed", "states")
# What a folder may have at its top where a call was stopped before it was bound.
BEGUN = {"lock", "blocks", "net.toml"}
MOST_BLOCKS = 1_048_576
FILE = re.compile(r"([0-9]{7,})\.[0-9a-f]{16}\.csv")
# The names of the queues and rewards of a block's text, in their order.
Names = tuple[object, ...]


class Block(NamedTuple):
    """A block: its number, its first stream, and how many streams it has."""

    number: int
    first: int
    count: int  # type: ignore[assignment]


def digest_of(text: bytes) -> str:
    return hashlib.sha256(text).hexdigest()


def is_as_written(file: pathlib.Path, text: bytes) -> bool:
    """Whether the name of a block's file has the digest of its text."""
    return file.name.endswith(f".{digest_of(text)[:16]}.csv")


@contextlib.contextmanager
def writing(path: pathlib.Path) -> Iterator[None]:
    """Refuses a path below which something can't be written."""
    try:
        yield
    except OSError as fault:
        raise PsiError(f"{fault.filename or path} can't be written: {reason(fault)}", files.UNWRITTEN) from None


def whole_report(text: bytes, count: int) -> Report | None:
    """The whole report of this number of samples that a text is; none where it is anything else."""
    try:
        report = read(text)
    except ReportError:
        return None
    return report if report.samples == count else None


def write_whole(path: pathlib.Path, text: bytes, is_synced: bool = True) -> None:
    """Replaces a file in one step, so that it is never cut short; unless it is synced, a loss of power may cut it."""
    front = f"part.{os.uname().nodename}.{os.getpid()}."
    try:
        files.replace(str(path), [text], front, f".{path.name}", is_synced)
    except OSError as fault:
        # Folder.tidy removes what a kill leaves of it.
        raise PsiError(f"{path} can't be written: {reason(fault)}", files.UNWRITTEN) from None


def resolved(path: str | os.PathLike[str]) -> pathlib.Path:
    """The path of a folder, without links."""
    try:
        return pathlib.Path(path).resolve()
    except (OSError, RuntimeError, ValueError) as fault:
        raise PsiError(f"{path} is no folder: {reason(fault)}") from None


def is_left(name: str) -> bool:
    """Whether a file's name is that of what a call on this machine, which is gone, has begun to write."""
    front = f"part.{os.uname().nodename}."
    number = name.removeprefix(front).partition(".")[0]
    if not name.startswith(front) or not number.isdigit():
        return False
    return int(number) == os.getpid() or not os.path.exists(f"/proc/{number}")


def sealed(lines: str) -> str:
    """What a folder is bound to, with a last line that shows whether it is as it was written."""
    return f"{lines}digest {digest_of(lines.encode())[:16]}\n"


def read_sealed(path: pathlib.Path) -> dict[str, str] | None:
    """What a file binds a folder to; none where it isn't as it was written. Earlier versions have no line `digest`."""
    try:
        text = path.read_bytes().decode()
    except (OSError, UnicodeDecodeError):
        return None
    lines, mark, _ = text.rpartition("digest ")
    pairs = [line.partition(" ")[::2] for line in text.splitlines()]
    bound = dict(pairs)
    if mark and sealed(lines) != text or not text.endswith("\n") or len(bound) < len(pairs):
        return None
    return bound if all(bound[key].isdigit() for key in NUMBERS if key in bound) else None


def refuse_links(entries: Iterable[os.DirEntry[str]], command: str) -> None:
    """Refuses a folder with a link, which none that a command writes has."""
    links = [entry.path for entry in entries if entry.is_symlink()]
    if links:
        raise PsiError(f"{links[0]} is a link, which a folder of {command} has none of")


def bound_in(folder: pathlib.Path) -> tuple[dict[str, str] | None, bool]:
    """What a folder is bound to, none where that can't be read, and whether the copy has it as its file is damaged."""
    own, copy = (read_sealed(folder / name) for name in ("bound", "bound.copy"))
    is_damaged = copy is not None and (own is None or "digest" not in own)
    found = copy if is_damaged else own
    wanted = {"network", "seed", "first", "count", "block"}
    if found is None or not wanted <= {*found} or not int(found["block"]):
        return None, is_damaged
    return {key: value for key, value in found.items() if key != "digest"}, is_damaged


class Folder:
    """The folder of a call: what it is bound to, a copy of the network, and the finished blocks."""

    def __init__(self, path: str | os.PathLike[str]) -> None:
        self.is_damaged = self.is_restored = False
        self.read: Network | None = None
        self.path = resolved(path)
        self.net, self.blocks = self.path / "net.toml", self.path / "blocks"

    def lock(self) -> None:
        """Makes the folder, and keeps other calls from it while this one runs; refuses one that isn't psi-many's."""
        self.look()
        path = self.path / "lock"
        with writing(path):
            self.path.mkdir(parents=True, exist_ok=True)
            flags = os.O_RDWR | os.O_CREAT | os.O_NOFOLLOW | os.O_CLOEXEC
            self.locked = open(os.open(path, flags, 0o666), "r+b", buffering=0)
        try:
            fcntl.flock(self.locked, fcntl.LOCK_EX | fcntl.LOCK_NB)
        except BlockingIOError:
            raise PsiError(f"another psi-many is at work in {self.path}") from None
        except OSError as fault:
            raise PsiError(f"{path} can't be locked: {reason(fault)}", files.UNWRITTEN) from None
        with writing(path):
            # The mark comes first. An empty file is one that a full disk or a kill has left, or of an earlier version.
            rest = MARK if os.fstat(self.locked.fileno()).st_size < len(MARK) else b""
            while rest:
                rest = rest[os.pwrite(self.locked.fileno(), rest, len(MARK) - len(rest)) :]
            self.blocks.mkdir(exist_ok=True)
        # What a full disk or a kill has left is removed, but for what tasks elsewhere may write.
        left = (file for file in self.blocks.glob("part.*") if is_left(file.name))
        for file in (*self.path.glob("part.*"), *left):
            file.unlink(missing_ok=True)

    def look(self) -> None:
        """Refuses a folder that isn't psi-many's to write in."""
        try:
            entries = [*os.scandir(self.path)]
            if self.blocks.is_dir() and not self.blocks.is_symlink():
                entries += os.scandir(self.blocks)
        except FileNotFoundError:
            return
        except OSError as fault:
            raise PsiError(f"{self.path} is no folder: {reason(fault)}") from None
        refuse_links(entries, "psi-many")
        names = {entry.name for entry in entries if os.path.dirname(entry.path) == str(self.path)}
        if names and not self.is_own(names):
            raise PsiError(f"{self.path} isn't a folder of psi-many, and isn't empty")

    def is_own(self, names: set[str]) -> bool:
        """Whether a folder with some files is psi-many's: it is bound, or begins to be."""
        if bound_in(self.path)[0]:
            return True
        lock = self.path / "lock"
        try:
            mark = lock.read_bytes() if lock.is_file() else None
        except OSError:
            return False
        if mark == MARK:
            return all(name in BEGUN or name.startswith("part.") for name in names)
        return mark is not None and MARK.startswith(mark) and names == {"lock"}

    def is_bound(self) -> bool:
        """Whether a file has what the folder is bound to."""
        return any((self.path / name).exists() for name in ("bound", "bound.copy"))

    def bind(self, net: bytes, wanted: dict[str, int], size: int | None, fitting: int) -> int:
        """Binds a new folder to a call, whose blocks have `size` streams, or as many as are fitting where that isn't
        given; adds streams to a call of fewer, and refuses any other. Gives how many it was bound to before."""
        asked = {"network": digest_of(net), **{key: str(number) for key, number in wanted.items()}}
        if not self.is_bound():
            write_whole(self.net, net)
            self.write_bound({**asked, "block": str(size or fitting)})
        self.read_bound()
        if self.is_damaged:
            self.write_bound(self.bound)
            self.is_restored = True
        before, count = self.count, wanted["count"]
        if size:
            asked["block"] = str(size)
        for key in dict.fromkeys([*asked, "closed", "states"]):
            own, value = self.bound.get(key), asked.get(key)
            if own != value and (key != "count" or before > count):
                raise PsiError(f"the blocks in {self.path} are of another call: {key} {own}, not {value}")
        if count > MOST_BLOCKS * self.size:
            raise PsiError(f"there would be more than {MOST_BLOCKS} blocks of {self.size} streams")
        if self.net.read_bytes() != net:
            write_whole(self.net, net)
        if before < count:
            self.write_bound({**self.bound, "count": str(count)})
            self.read_bound()
        return before

    def write_bound(self, bound: dict[str, str]) -> None:
        """Writes what the folder is bound to, and a copy for the case that the file is damaged."""
        lines = sealed("".join(f"{key} {value}\n" for key, value in bound.items()))
        write_whole(self.path / "bound", lines.encode())
        write_whole(self.path / "bound.copy", lines.encode(), is_synced=False)

    def read_bound(self) -> None:
        """Reads what the folder is bound to; where the file is damaged, the copy has it."""
        bound, self.is_damaged = bound_in(self.path)
        if bound is None:
            raise PsiError(f"{self.path / 'bound'} isn't as psi-many wrote it")
        self.bound = bound
        keys = ("seed", "first", "count", "block")
        self.seed, self.first, self.count, self.size = (int(bound[key]) for key in keys)
        self.total = int(bound["closed"]) if "closed" in bound else None
        self.has_samples = "states" in bound

    def network(self) -> Network:
        """The network, read from its copy once."""
        self.read = self.read or Network.read(self.net)
        return self.read

    def bound_network(self) -> Network | None:
        """The network, where its copy is the one that the folder is bound to."""
        try:
            data = self.net.read_bytes()
        except OSError:
            return None
        is_own = digest_of(data) == self.bound.get("network")
        return Network.parse(data, self.net) if is_own else None

    def all_blocks(self) -> list[Block]:
        return [self.block(number) for number in range(-(-self.count // self.size))]

    def block(self, number: int) -> Block:
        begin = number * self.size
        return Block(number, self.first + begin, min(self.size, self.count - begin))

    def names_in(self, number: int, text: bytes, reports: dict[int, Report] | None = None) -> Names | None:
        """The queues and rewards of a block's text: of its report, which is put into `reports` where those are
        wanted, or of the table of its samples; none where it isn't whole."""
        _, first, count = self.block(number)
        if self.has_samples:
            header = header_of(self.network())
            return (",".join(header).encode(),) if is_table(header, text, first, count) else None
        report = whole_report(text, count)
        if report and reports is not None:
            reports[number] = report
        return (*report.sums(),) if report else None

    def accept(self, number: int, text: bytes) -> bool:
        """Keeps the text of a block where it is whole."""
        whole = self.names_in(number, text) is not None
        if whole:
            write_whole(self.blocks / f"{number:07}.{digest_of(text)[:16]}.csv", text)
        return whole

    def listed(self) -> dict[int, list[pathlib.Path]]:
        """The files that have the name of a block, by their numbers."""
        found: dict[int, list[pathlib.Path]] = {}
        for file in self.blocks.iterdir():
            if named := FILE.fullmatch(file.name):
                found.setdefault(int(named[1]), []).append(file)
        return found

    def tidy(self) -> None:
        """Removes what calls that were killed have begun to write."""
        for file in (*self.blocks.glob("part.*"), *self.path.glob("part.*"), *self.path.glob("merged.*")):
            file.unlink(missing_ok=True)

    def finished(self, reports: dict[int, Report] | None = None) -> dict[int, pathlib.Path]:
        """The files of the blocks that are whole and of one network, by number. Others are removed, as are all of a
        block that has several, and `removed` has what was wrong with them. `reports` gets the reports that were read.
        """
        listed = dict(sorted(self.listed().items()))
        names: dict[int, Names] = {}
        self.removed: dict[int, str] = {}
        for number, (file, *others) in listed.items():
            text = file.read_bytes()
            names[number] = self.names_in(number, text, reports) or ()
            if others:
                self.removed[number] = "has several files"
            elif not is_as_written(file, text):
                self.removed[number] = "isn't as it was written"
            elif not names[number]:
                self.removed[number] = f"isn't of {max(0, self.block(number).count)} samples"
        most = max((names[n] for n in names if n not in self.removed), key=len, default=())
        for number, those in names.items():
            if number not in self.removed and those != most:
                self.removed[number] = "has fewer queues and rewards than others"
        for number in self.removed:
            for file in listed.pop(number):
                file.unlink()
        return {number: file for number, (file,) in listed.items()}
