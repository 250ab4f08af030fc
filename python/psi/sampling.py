"""Horizons, rewards and certificates of single streams."""

import os
import tempfile
from typing import TYPE_CHECKING

from psi.calls import resolved, stream_of
from psi.results import Coalescence, NotCoupled, RewardValue
from psi_tools.draw.program import Answer, Program
from psi_tools.io.exact import Shrinking, read_exact
from psi_tools.model.networks import Source, data_of, network_of

if TYPE_CHECKING:
    from matplotlib.figure import Figure


def _answer(program: Program | None, command: str, net: Source, *arguments: object) -> Answer:
    """The answer of a command of one stream, which has to be coupled."""
    answer = resolved(program).ask(command, data_of(net), *arguments, statuses=(0, 1))
    if answer.status:
        raise NotCoupled(answer.out.strip(), 1)
    return answer


def _coalescence(text: str) -> Coalescence:
    """Where all states have coalesced, by what psi prints."""
    _, horizon, _, state = text.split()
    return Coalescence(int(horizon), tuple(map(int, state.split(","))))


def couple(net: Source, seed: int, stream: int, *, program: Program | None = None) -> Coalescence:
    """Find the least horizon of any length at which a stream couples.

    Parameters
    ----------
    net : Network or path
        A network, or the path of its file.
    seed, stream : int
        The seed and the stream, 0 to 2^64 - 1.
    program : Program, optional
        The program that is run; the one that is built, or on the PATH, by default.

    Returns
    -------
    Coalescence
        The horizon, in steps, and the state at time zero, in customers of each queue.

    Raises
    ------
    NotCoupled
        The stream is not coupled within the network's limit.
    Refused
        The network is refused.

    Examples
    --------
    >>> horizon, state = psi.couple(net, seed=0, stream=0)
    >>> horizon >= 10 and state == tuple(psi.samples(net, count=1)[0])
    True
    """
    seed, stream = stream_of(seed, stream)
    return _coalescence(_answer(program, "couple", net, seed, stream).out)


def reward(net: Source, seed: int, stream: int, name: str, *, program: Program | None = None) -> RewardValue:
    """Find the value of a reward in the sample of a stream, without all of its state.

    Parameters
    ----------
    net : Network or path
        A network, or the path of its file.
    seed, stream : int
        The seed and the stream, 0 to 2^64 - 1.
    name : str
        The name of the reward.
    program : Program, optional
        The program that is run; the one that is built, or on the PATH, by default.

    Returns
    -------
    RewardValue
        The least of the horizons 1, 2, 4, .. steps at which all runs have one value of the reward
        at time zero, and this value, in the reward's unit.

    Raises
    ------
    NotCoupled
        The value is not known within the network's limit.
    Refused
        The network is refused, or has no such reward.

    Examples
    --------
    >>> busy = net.copy().reward("busy", "above", ["desk"], level=0)
    >>> psi.reward(busy, seed=0, stream=0, name="busy").value == int(psi.samples(net, count=1)[0, 0] > 0)
    True
    """
    seed, stream = stream_of(seed, stream)
    _, horizon, _, value = _answer(program, "reward", net, seed, stream, name).out.split()
    return RewardValue(int(horizon), int(value))


def exact(net: Source, seed: int, stream: int, exponent: int, *, program: Program | None = None) -> Shrinking:
    """Follow all states of a small network through the last steps before time zero.

    Parameters
    ----------
    net : Network or path
        A network of at most 65,536 states, or the path of its file.
    seed, stream : int
        The seed and the stream, 0 to 2^64 - 1.
    exponent : int
        The longest past has 2^exponent steps; 0 to 12.
    program : Program, optional
        The program that is run; the one that is built, or on the PATH, by default.

    Returns
    -------
    Shrinking
        `images` has the number of states that are left, by the number of steps; `constant` is the
        least horizon at which all have coalesced, in `state`; `region` is that of the region run.

    Raises
    ------
    Refused
        The network is refused, or too large.

    Examples
    --------
    >>> found = psi.exact(net, seed=0, stream=0, exponent=4)
    >>> found.states, len(found.images)
    (11, 5)
    """
    seed, stream = stream_of(seed, stream)
    answer = resolved(program).ask("exact", data_of(net), seed, stream, exponent, statuses=(0, 1))
    return read_exact(answer.out.encode())


def log(net: Source, seed: int, stream: int, *, program: Program | None = None) -> str:
    """Write the certificate of a sample.

    Parameters
    ----------
    net : Network or path
        A network, or the path of its file.
    seed, stream : int
        The seed and the stream, 0 to 2^64 - 1.
    program : Program, optional
        The program that is run; the one that is built, or on the PATH, by default.

    Returns
    -------
    str
        The log, which `replay` checks, whoever wrote it.

    Raises
    ------
    NotCoupled
        The stream is not coupled within the network's limit.
    Refused
        The network is refused.

    Examples
    --------
    >>> psi.log(net, seed=0, stream=0).splitlines()[0]
    'psi-log 2'
    """
    seed, stream = stream_of(seed, stream)
    return _answer(program, "sample", net, seed, stream, "log").out


def replay(net: Source, log: str, *, program: Program | None = None) -> Coalescence:
    """Check a certificate.

    Parameters
    ----------
    net : Network or path
        A network, or the path of its file.
    log : str
        A log of this network, whoever wrote it.
    program : Program, optional
        The program that is run; the one that is built, or on the PATH, by default.

    Returns
    -------
    Coalescence
        What the log certifies: every state that starts at the horizon or earlier is this one at
        time zero.

    Raises
    ------
    Refused
        The log is not accepted; `line` names the first of its lines that breaks a rule.

    Examples
    --------
    >>> psi.replay(net, psi.log(net, seed=0, stream=0)).state == tuple(psi.samples(net, count=1)[0])
    True
    """
    with tempfile.TemporaryDirectory() as folder:
        path = os.path.join(folder, "log")
        with open(path, "w", encoding="utf-8", newline="") as file:
            file.write(log)
        return _coalescence(resolved(program).ask("replay", data_of(net), path).out)


def draw_log(log: str, net: Source | None = None, title: str = "") -> "Figure":
    """Draw a log: where all states may be, until one is left.

    Parameters
    ----------
    log : str
        A log, as `log` writes it.
    net : Network or path, optional
        Its network, whose names the queues get.
    title : str
        A title instead of the picture's own.

    Returns
    -------
    matplotlib.figure.Figure
        The picture. What matplotlib is set to stays as it was.

    Raises
    ------
    InputError
        The text is no log.

    Examples
    --------
    >>> len(psi.draw_log(psi.log(net, seed=0, stream=0), net).axes) > 0
    True
    """
    from psi_tools.plot.draw_coupling import draw_coupling
    from psi_tools.plot.read_log import read_log
    from psi_tools.plot.style import laid_out

    found = read_log(log.encode())
    if net is not None:
        found.names = network_of(net).queues
    return laid_out(draw_coupling(found, title))
