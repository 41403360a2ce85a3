"""What a run gave."""

from __future__ import annotations

from typing import Any, Iterable, List, Optional

from . import given
from .dense import DenseOutput

SHOWN = 6  # entries of a long list in what repr gives


class Result(dict):
    """What a run gave; its fields are attributes too, as those of scipy's OptimizeResult.

    Attributes
    ----------
    t : numpy.ndarray or list
        The start and the ends of the accepted steps, or `t_eval` as far as the run came. The last step may go beyond
        the interval's end by a rounding.
    y : numpy.ndarray or list of lists
        The poses there: y[i][k] is state i at t[k].
    sol : DenseOutput or None
        The solution between them, where `dense_output` asked for it.
    t_events, y_events : list or None
        For each event the times and the poses where it was zero.
    status : int
        0: the end was reached; 1: a terminal event stopped the run; -1: the run ended early, by the name in `end`;
        -2: a pose that was handed out has a NaN or an infinity.
    success : bool
        Whether status is 0 or 1.
    message : str
        The end in words, with advice where there is some.
    nonfinite_at : float or None
        The first time whose pose has a NaN or an infinity.
    end, number : str, int
        The library's name of the end, and its number (110 to 115).
    nfev, njev, nlu : int
        Derivatives, Jacobians and factorings.
    accepted, rejected, steps_total : int
        Steps, as the library counts them.
    h : float
        The size at which the next step would have been tried.
    counts : list of int
        Derivatives requested in each accepted step; empty with `t_eval`.
    largest_count : int
        The largest of them, with `t_eval` too.
    cap, jacobian_cap : int
        Derivatives that no step can exceed, and Jacobians that none can.
    runs, cut, error : int, float, float or None
        With tolerances="answer" alone: how many runs were made; the last had its tolerances divided by `cut`; the
        largest difference between the last two, in the tolerances asked, at most 1 where `success` is true.
        nfev, njev and nlu are then those of all the runs.

    Examples
    --------
    >>> from raimsklo import solve_ivp
    >>> result = solve_ivp(lambda t, y: [-y[0]], (0, 1), [1.0], t_eval=[0.5, 1.0])
    >>> result.success, result.end, result["status"], len(result.t)
    (True, 'success', 0, 2)
    >>> result.largest_count <= result.cap
    True
    """

    t: Any
    y: Any
    sol: Optional[DenseOutput]
    t_events: Optional[List[Any]]
    y_events: Optional[List[Any]]
    status: int
    success: bool
    message: str
    nonfinite_at: Optional[float]
    end: str
    number: Optional[int]
    nfev: int
    njev: int
    nlu: int
    accepted: int
    rejected: int
    steps_total: int
    h: float
    counts: List[int]
    largest_count: int
    cap: int
    jacobian_cap: int
    runs: int
    cut: float
    error: Optional[float]

    def __getattr__(self, name: str) -> Any:
        try:
            return self[name]
        except KeyError:
            raise AttributeError(f"a result has no field {name!r}") from None

    def __setattr__(self, name: str, value: Any) -> None:
        self[name] = value

    def __delattr__(self, name: str) -> None:
        try:
            del self[name]
        except KeyError:
            raise AttributeError(f"a result has no field {name!r}") from None

    def __dir__(self) -> Iterable[str]:
        return sorted({*super().__dir__(), *self})

    def __copy__(self) -> Result:
        return type(self)(self)

    def __repr__(self) -> str:
        width = max(map(len, self), default=0)
        between = "\n" + " " * (width + 2)
        lines = [f"{name:>{width}}: " + _short(value).replace("\n", between) for name, value in self.items()]
        return "\n".join(lines) if lines else type(self).__name__ + "()"


def _short(value: Any) -> str:
    """A value on few lines: long lists have their middle left out."""
    if given.numpy is not None and isinstance(value, given.numpy.ndarray):
        return given.numpy.array2string(value, threshold=SHOWN, edgeitems=SHOWN // 2, precision=6)
    if isinstance(value, list):
        if any(isinstance(entry, list) or hasattr(entry, "shape") for entry in value):
            return "[" + "\n ".join(_short(entry) for entry in value) + "]"
        half = SHOWN // 2
        shown = value if len(value) <= SHOWN else value[:half] + ["..."] + value[-half:]
        return "[" + " ".join(f"{entry:.6g}" if isinstance(entry, float) else str(entry) for entry in shown) + "]"
    return str(value)
