"""psi in Python: networks, exact samples, reports and certificates, for notebooks and programs.

    import psi

    net = psi.Network()
    net.queue("desk", capacity=10)
    net.event("come", "arrival", rate=4, to=["desk"])
    net.event("serve", "service", rate=5, source="desk")
    psi.means(net, seed=0, first=0, count=10_000)

The examples of the calls assume all of these lines but the last.

Everything comes from the built program: crates/psi/out/psi, or psi on the PATH, or the `Program` that
a call is handed. A network is a `Network`, or the path of its file. Seeds and streams are 0 to
2^64 - 1; the sample of a network, a seed and a stream is always the same. What goes wrong is a
`PsiError`, with `status`, `line` and `message`; an argument out of its range is an `ArgumentError`.
"""

import os
import warnings

from psi.calls import set_default
from psi.estimates import check, law, means, probability, report
from psi.results import Coalescence, FewSamples, NotCoupled, Probability, RewardValue, Uncoupled
from psi.sampling import couple, draw_log, exact, log, replay, reward
from psi.tables import closed, paths, samples, states
from psi_tools import __version__
from psi_tools.draw.program import Program
from psi_tools.errors import ArgumentError, InputError, PsiError, Refused, whole_argument
from psi_tools.io.exact import Shrinking
from psi_tools.model.networks import Network

# Networks and the program, results, what can go wrong, and calls.
__all__ = ["Network", "Program", "__version__", "Coalescence", "Probability", "RewardValue", "Shrinking"]
__all__ += ["ArgumentError", "FewSamples", "InputError", "NotCoupled", "PsiError", "Refused", "Uncoupled"]
__all__ += ["check", "closed", "couple", "draw_log", "exact", "law", "log", "means", "paths", "probability"]
__all__ += ["replay", "report", "reward", "samples", "states"]

# Names of the release before, which stay for one more.
_RENAMED: dict[str, type] = {"Psi": Program, "Told": PsiError, "WrongArgument": ArgumentError}


def __getattr__(name: str) -> type:
    if name in _RENAMED:
        new = _RENAMED[name]
        warnings.warn(f"psi.{name} is psi.{new.__name__} now", DeprecationWarning, stacklevel=2)
        return new
    raise AttributeError(f"module 'psi' has no attribute {name!r}")


def use(path: str | os.PathLike[str] | None = None, jobs: int | None = None) -> None:
    """Set the program of all calls. Deprecated: hand `psi.Program(path, jobs)` to a call.

    Parameters
    ----------
    path : path, optional
        The program; the one that is built, or on the PATH, by default.
    jobs : int, optional
        The number of processes that draw at once; that of the processors by default.
    """
    warnings.warn("psi.use is gone in the next release; hand a psi.Program to calls", DeprecationWarning, stacklevel=2)
    jobs = None if jobs is None else whole_argument("jobs", jobs, 1, 1_024)
    set_default(None if path is None and jobs is None else Program(path, jobs))
