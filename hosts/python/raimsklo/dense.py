"""The solution at and between its accepted steps."""

from __future__ import annotations

import bisect
from array import array
from typing import Any

from . import given
from .refused import Refused
from .run import DOUBLE, interpolate_into, pointer, size, time_of


class DenseOutput:
    """The solution at and between its accepted steps, by the method's own interpolation.

    Call it with a time, and it gives the pose there; with several, and it gives y[i][k], state i at the k-th time.
    A time outside t_min to t_max raises ValueError: beyond the last accepted step there is no pose.

    Attributes
    ----------
    n : int
        The number of states.
    t_min, t_max : float
        Between them there are poses.
    ts : numpy.ndarray or list
        The start and the ends of the accepted steps.

    Examples
    --------
    >>> from raimsklo import solve_ivp
    >>> sol = solve_ivp(lambda t, y: [-y[0]], (0, 2), [1.0], rtol=1e-8, atol=1e-8, dense_output=True).sol
    >>> round(float(sol(1.0)[0]), 4), [round(float(y), 4) for y in sol([0.5, 2.0])[0]]
    (0.3679, [0.6065, 0.1353])
    >>> sol.t_min, sol.t_max
    (0.0, 2.0)
    """

    def __init__(self, n: int, t0: float, y0: Any, sign: float = 1.0) -> None:
        self.n, self.start = n, t0
        self._y0, self._sign = array("d", y0), sign
        self._ends = array("d")  # times the sign, so that they ascend
        self._snapshots, self._places = array("d"), array("q")

    def __repr__(self) -> str:
        return f"<DenseOutput of {self.n} states from {self.start!r} to {self._last!r} in {len(self._ends)} steps>"

    def _add(self, time: float, snapshot: Any) -> None:
        self._places.append(len(self._snapshots))
        self._snapshots.frombytes(snapshot)
        self._ends.append(self._sign * time)

    def _cut(self, time: float) -> None:
        """The last step counts up to this time alone."""
        self._ends[-1] = self._sign * time

    @property
    def _last(self) -> float:
        return self._sign * self._ends[-1] if self._ends else self.start

    @property
    def t_min(self) -> float:
        return min(self.start, self._last)

    @property
    def t_max(self) -> float:
        return max(self.start, self._last)

    @property
    def ts(self) -> Any:
        return given.handed_out(array("d", [self.start, *(self._sign * end for end in self._ends)]))

    def _at(self, times: Any) -> array:
        """The poses at these times, one after the other; they may lie beyond the ends by a rounding."""
        n, ends, last = self.n, self._ends, len(self._ends)
        if last == 0 or n == 0:
            return self._y0 * len(times)
        poses, length = array("d", bytes(DOUBLE * n * len(times))), size(n)
        for k, t in enumerate(times):
            if t == self.start:  # its pose itself: the first step's columns are rounded, and may be of another order
                poses[n * k : n * (k + 1)] = self._y0
                continue
            place = min(bisect.bisect_left(ends, self._sign * t), last - 1)
            begin = self._places[place]
            end = self._places[place + 1] if place + 1 < last else len(self._snapshots)
            pose, snapshot = pointer(poses, n * k), pointer(self._snapshots, begin)
            number = interpolate_into(time_of(t), pose, length, snapshot, size(end - begin))
            if number:
                raise Refused(number)
        return poses

    def __call__(self, t: Any) -> Any:
        times = given.vector(t, "`t`", "{} must be a float or a 1-D array.")
        low, high = self.t_min, self.t_max
        for time in times:
            if not low <= time <= high:
                raise ValueError(f"no pose at {time!r}: the accepted steps are from {low!r} to {high!r}")
        poses = self._at(times)
        return given.handed_out(poses) if given.scalar(t) else given.rows_of_states(poses, self.n, len(times))
