"""Files that are written whole or not at all, and files that are streams.

A plain file is written under a temporary name beside it and renamed. The temporary file is made by
`O_EXCL` and `O_NOFOLLOW`, so a link that somebody has planted is never written through, and it has
the mode of the file that it takes the place of. What is no plain file, as a pipe, a device, or
`/dev/stdout`, is written as the stream that it is.
"""

import contextlib
import errno
import os
import re
import sys
from collections.abc import Iterable

from psi_tools.errors import PsiError, reason

Path = str | os.PathLike[str]

# A chain of links is followed so far, as the kernel does it.
MOST_LINKS = 40
# A descriptor of a process, as the proc file system names it.
DESCRIPTOR = re.compile(r"/proc/(\d+)(?:/task/\d+)?/fd")


def descriptor_of(path: str) -> tuple[int, int] | None:
    """The process and the number of the descriptor that a path stands for, as /dev/stdout and
    /dev/fd/3 do; none where it is a file of its own."""
    for _ in range(MOST_LINKS):
        folder, name = os.path.split(os.path.abspath(path))
        found = DESCRIPTOR.fullmatch(os.path.realpath(folder))
        if found and name.isdigit():
            return int(found[1]), int(name)
        try:
            path = os.path.join(folder, os.readlink(os.path.join(folder, name)))
        except OSError:
            return None
    return None


def is_stream(path: str) -> bool:
    """Whether a path is written as a stream: it is there, and no plain file; a folder is none."""
    is_file = not os.path.exists(path) or os.path.isfile(path) or os.path.isdir(path)
    return descriptor_of(path) is not None or not is_file


def write_stream(path: str, pieces: Iterable[bytes]) -> None:
    """Writes pieces to a stream, after what was written there; nothing is truncated."""
    own = descriptor_of(path)
    if own and own[0] == os.getpid():
        file = os.fdopen(os.dup(own[1]), "wb")
    else:
        file = open(os.open(path, os.O_WRONLY | os.O_APPEND), "wb")
    with file:
        file.writelines(pieces)


def replace(target: str, pieces: Iterable[bytes], front: str, ending: str = "", is_synced: bool = True) -> None:
    """Writes a plain file piece by piece under a temporary name, flushes it, to the disk where it is synced, and
    gives it its own name. Where that fails the temporary file is removed, and the old one is as it was."""
    flags = os.O_WRONLY | os.O_CREAT | os.O_EXCL | os.O_NOFOLLOW | os.O_CLOEXEC
    mode = os.stat(target).st_mode & 0o777 if os.path.exists(target) else None
    part = os.path.join(os.path.dirname(target) or ".", f"{front}{os.urandom(12).hex()}{ending}")
    number = os.open(part, flags, 0o666 if mode is None else 0o600)
    try:
        with open(number, "wb") as file:
            if mode is not None:
                os.fchmod(file.fileno(), mode)
            file.writelines(pieces)
            file.flush()
            if is_synced:
                os.fsync(file.fileno())
        os.replace(part, target)
    except BaseException:
        with contextlib.suppress(OSError):
            os.remove(part)
        raise


def write_file(path: str, pieces: Iterable[bytes]) -> None:
    """Writes a file whole or not at all under its name, or a stream, piece by piece."""
    if is_stream(path):
        write_stream(path, pieces)
        return
    target = os.path.realpath(path)
    if os.path.islink(target):
        raise OSError(errno.ELOOP, os.strerror(errno.ELOOP))
    # A long name is cut, so that the temporary one isn't too long.
    replace(target, pieces, f".{os.path.basename(target)[:200]}.")


def try_to_write(path: str) -> None:
    """Fails as a write to the file would: opens it, or makes one without a name in its folder."""
    if not path or path.endswith("/"):
        raise OSError(0, os.strerror(errno.EISDIR if path else errno.ENOENT))
    if descriptor_of(path) is None:
        with contextlib.suppress(FileNotFoundError):
            os.stat(path)
    target = os.path.realpath(path)
    if is_stream(path):
        # To open a pipe and to close it again would end its reader.
        if not os.access(path, os.W_OK):
            raise OSError(0, os.strerror(errno.EACCES))
    elif os.path.isfile(target) or os.path.isdir(target):
        open(target, "ab").close()
    else:
        # Only a new file wants this module, which takes a while to be read.
        import tempfile

        tempfile.TemporaryFile(dir=os.path.dirname(target)).close()


# One more byte than a network file may have is read of it.
MOST_BYTES = 2**20
UNREAD = 6


def read_file(path: Path, most: int = MOST_BYTES) -> bytes:
    """The bytes of a file, one more at most than it may have; `most` is that of a network file by default."""
    try:
        with open(path, "rb") as file:
            return file.read(most + 1)
    except (OSError, ValueError) as fault:
        raise PsiError(f"{path} can't be read: {reason(fault)}", UNREAD) from None


UNWRITTEN = 7


def check_writable(path: str | None, option: str = "-o") -> None:
    """Refuses a file that can't be written, before any work.

    It is left as it is, and where there is none none is made: another call may write it meanwhile.
    """
    if path is None:
        return
    try:
        try_to_write(path)
    except (OSError, ValueError) as fault:
        raise PsiError(f"{option} {path} can't be written: {reason(fault)}", UNWRITTEN) from None


def write(answer: str | Iterable[bytes], path: str | None = None) -> None:
    """Writes an answer, or its pieces, to standard output, or to a file: whole or not at all under its name, or to a
    stream such as /dev/stdout."""
    pieces = [answer.encode()] if isinstance(answer, str) else answer
    try:
        if path is not None:
            write_file(path, pieces)
            return
        if sys.stdout is None:
            raise OSError(0, "it is closed")
        sys.stdout.buffer.writelines(pieces)
        sys.stdout.buffer.flush()
    except (OSError, ValueError) as fault:
        where = "standard output" if path is None else path
        raise PsiError(f"{where} can't be written: {reason(fault)}", UNWRITTEN) from None
