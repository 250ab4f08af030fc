"""How a command runs: its signals, its exit status, and one line for whatever ends it.

Each command ends with 0 where all is done, 2 where an argument or an input isn't what it should be, 7
where an answer can't be written, 8 where memory lacks, and 130 where it was stopped by Ctrl-C; each
but 0 has one line on standard error. The status of psi itself is handed on where psi refuses.
"""

import errno
import os
import signal
import sys
import threading
from collections.abc import Callable

from psi_tools.errors import PsiError, reason
from psi_tools.io.files import UNWRITTEN
from psi_tools.io.terminal import Pulse, print_note, silence

NO_MEMORY, STOPPED = 8, 130


def stopped_by(number: int, frame: object) -> None:
    """Ends a command by a signal, with one line, and what it has started with it."""
    raise PsiError("stopped", 128 + number)


def take_signals() -> None:
    """Has the signals that end a process end the command in order. Where a signal is ignored, as by
    nohup, it stays so; in a thread other than the main one none is taken."""
    if threading.current_thread() is not threading.main_thread():
        return
    for number in (signal.SIGTERM, signal.SIGHUP):
        if signal.getsignal(number) == signal.SIG_DFL:
            signal.signal(number, stopped_by)
    if signal.getsignal(signal.SIGINT) == signal.SIG_DFL:
        signal.signal(signal.SIGINT, signal.default_int_handler)


def run(command: str, work: Callable[[list[str]], int | None], arguments: list[str]) -> int:
    """The exit status of a command's work, whatever ends it: no fault is a traceback."""
    fill_closed()
    try:
        try:
            take_signals()
            Pulse.begin(command)
            status = work(arguments) or 0
        except SystemExit as ended:
            status = int(ended.code or 0)
        finally:
            Pulse.end()
        if sys.stdout is not None:
            sys.stdout.flush()
        return status
    except (Exception, KeyboardInterrupt) as fault:
        status, why = ending_of(fault)
        print_note(command, why)
    silence(sys.stdout)
    return status


def ending_of(fault: BaseException) -> tuple[int, object]:
    """The status with which a command ends by a fault, and its line on standard error."""
    match fault:
        case PsiError():
            return fault.status, fault
        case KeyboardInterrupt():
            return STOPPED, "stopped"
        case MemoryError():
            return NO_MEMORY, "there isn't enough memory"
        case ModuleNotFoundError():
            return 1, f"{fault}; tools/setup installs what it needs for /usr/bin/python3"
        case OSError(errno=errno.EMFILE | errno.ENFILE):
            return 1, "too many files would be open at once; `ulimit -n` says how many may be"
        case OSError():
            return UNWRITTEN, f"{fault.filename or 'what was written'}: {reason(fault)}"
    # What nobody thought of is one line, too; the variable is for whoever mends it.
    if "PSI_TRACEBACK" in os.environ:
        raise fault
    return 1, f"a fault of the tool: {type(fault).__name__}: {fault}"


def fill_closed() -> None:
    """Where standard input, output or error is closed, no file that is opened gets its number, so
    that nothing of what processes say there comes into one."""
    while (file := os.open(os.devnull, os.O_RDWR)) <= 2:
        os.set_inheritable(file, True)
    os.close(file)
