"""Results, exceptions and warnings of the module."""

import html
from typing import NamedTuple

from psi_tools.errors import PsiError


class NotCoupled(PsiError):
    """A stream is not coupled within the network's limit, so it has no sample."""


class Uncoupled(UserWarning):
    """Some streams were not coupled: what is reported of the others is biased."""


class FewSamples(UserWarning):
    """Few samples carry a mean, so that its interval is wide, and more streams help."""


def as_html(title: str, rows: dict[str, object]) -> str:
    """A small table for notebooks."""
    lines = (f"<tr><th>{html.escape(key)}</th><td>{html.escape(str(value))}</td></tr>" for key, value in rows.items())
    return f"<table><caption>{html.escape(title)}</caption>{''.join(lines)}</table>"


class Coalescence(NamedTuple):
    """Where all states have coalesced.

    Attributes
    ----------
    horizon : int
        The number of steps before time zero from which all states lead to one.
    state : tuple of int
        This state at time zero: the customers in each queue, in the order of the file.
    """

    horizon: int
    state: tuple[int, ...]

    def _repr_html_(self) -> str:
        return as_html("Coalescence", {"horizon, in steps": self.horizon, "state": ",".join(map(str, self.state))})


class RewardValue(NamedTuple):
    """The value of a reward in a sample.

    Attributes
    ----------
    horizon : int
        The number of steps before time zero from which all states lead to one value.
    value : int
        This value at time zero, in the reward's unit.
    """

    horizon: int
    value: int

    def _repr_html_(self) -> str:
        return as_html("Reward", {"horizon, in steps": self.horizon, "value": self.value})


class Probability(NamedTuple):
    """The probability of a condition, over samples.

    Attributes
    ----------
    count : int
        How many samples meet it.
    probability : float
        The share that they are of all samples that are coupled.
    low : float
        The lower end of its confidence interval (Clopper and Pearson 1934).
    high : float
        The upper end.
    """

    # It hides a tuple's own method.
    count: int  # type: ignore[assignment]
    probability: float
    low: float
    high: float

    def _repr_html_(self) -> str:
        return as_html("Probability", {**self._asdict()})
