"""Events in the sense of scipy.integrate.solve_ivp: the times at which functions of time and pose pass through 0.

An event is a function event(t, y, *args) that gives one number. Its signs at the two ends of each accepted step are
compared, and where they differ the time between is found by Brent's method on the step's interpolation. Two attributes
of the function are read, both optional:

terminal    True: the run stops at the first occurrence; a whole number k: at the k-th; absent, None, False, 0: never
direction   above 0: only passages from below 0 to above count; below 0: only those from above to below; absent, 0: both

As with scipy's, several passages within one step may cancel out unseen, and a value that is exactly 0 at the end of a
step counts in that step and, if the next one leads on or back from there, in the next one too.
"""

from __future__ import annotations

from math import inf
from typing import Any, Callable, List, Optional, Tuple

from . import given
from .given import numpy

_TOLERANCE = 4 * 2.0**-52  # absolute and relative, as scipy takes them for events
_ITERATIONS = 100  # as many as scipy's, which then gives up


def brent(f: Callable[[float], float], a: float, b: float, fa: float, fb: float) -> float:
    """A zero of f between a and b, where it is fa and fb: of unlike signs, or 0 (then that end is the zero).

    Brent's method (Algorithms for Minimization without Derivatives, 1973, chapter 4). `a` may be above b. The zero is
    within 4*2^-52*(1 + |zero|), or f jumps over 0 there. Where f is so flat that its steps do not shrink, bisection
    ends the search.
    """
    if fa == 0.0:
        return a
    if fb == 0.0:
        return b
    if not (fa < 0.0 < fb or fb < 0.0 < fa):
        raise ValueError(f"no change of sign: {fa!r} at {a!r}, {fb!r} at {b!r}")
    # b is the best guess so far, a the one before it, and the zero lies between b and c
    c, fc = a, fa
    step = before = b - a
    for _ in range(_ITERATIONS):
        if abs(fc) < abs(fb):
            a, b, c = b, c, b
            fa, fb, fc = fb, fc, fb
        near = 0.5 * _TOLERANCE * (1.0 + abs(b))
        half = 0.5 * (c - b)
        if fb == 0.0 or abs(half) < near:
            return b
        bisected = True
        if abs(before) >= near and abs(fa) > abs(fb):
            # the next guess is b + p/q, by a line through two points or by inverse interpolation through three
            s = fb / fa
            if a == c:
                p, q = 2.0 * half * s, 1.0 - s
            else:
                u, v = fa / fc, fb / fc
                p = s * (2.0 * half * u * (u - v) - (b - a) * (v - 1.0))
                q = (u - 1.0) * (v - 1.0) * (s - 1.0)
            if p > 0.0:
                q = -q
            else:
                p = -p
            # not where it leaves the bracket, nor where steps no longer halve; a NaN bisects
            if 2.0 * p < min(3.0 * half * q - abs(near * q), abs(before * q)):
                before, step, bisected = step, p / q, False
        if bisected:
            before = step = half
        a, fa = b, fb
        if abs(step) > near:
            b += step
        else:
            b += near if half > 0.0 else -near
        fb = f(b)
        if (fb > 0.0) == (fc > 0.0):
            c, fc = a, fa
            step = before = b - a
    while abs(c - b) >= _TOLERANCE * (1.0 + abs(b)):
        middle = b + 0.5 * (c - b)
        value = f(middle)
        if value == 0.0:
            return middle
        if (value > 0.0) == (fc > 0.0):
            c, fc = middle, value
        else:
            b = middle
    return b


def _copy(pose: Any) -> Any:
    """The pose as its receiver may keep it or write to it."""
    return list(pose) if numpy is None else numpy.array(pose, dtype=float)


def _number(value: Any, name: str) -> float:
    """The number that the event of this name gave, also as an array or a list of one."""
    if isinstance(value, (list, tuple)) and len(value) == 1:
        value = value[0]
    try:
        return given.number(value, f"what {name} gave")
    except TypeError:
        raise ValueError(f"{name} gave {value!r}, and one number is wanted") from None


class _Event:
    """One event: its function and attributes, its value at the end of the last step, and its occurrences."""

    def __init__(self, function: Callable[..., Any], name: str) -> None:
        if not callable(function):
            raise TypeError(f"{name} is not callable: {function!r}")
        self.function, self.name = function, name
        self.limit = self._limit(getattr(function, "terminal", None))
        self.direction = self._direction(getattr(function, "direction", 0))
        self.value = 0.0
        self.times: List[float] = []
        self.poses: List[Any] = []

    def _limit(self, terminal: Any) -> float:
        """The occurrence at which the run stops."""
        if terminal is None:
            return inf
        try:
            whole = int(terminal)
        except (TypeError, ValueError, OverflowError):
            whole = -1
        if whole < 0 or whole != terminal:
            raise ValueError(f"`terminal` of {self.name} must be a boolean or a positive integer, not {terminal!r}")
        return whole or inf

    def _direction(self, direction: Any) -> float:
        try:
            direction = given.number(direction, "`direction`")
        except (TypeError, ValueError):
            direction = float("nan")
        if direction != direction:
            raise ValueError(f"`direction` of {self.name} must be a number: above 0, below 0 or 0")
        return direction

    def passes(self, before: float, after: float) -> bool:
        """Whether a step from the value `before` to `after` has an occurrence; a NaN has no sign."""
        up, down = before <= 0.0 <= after, before >= 0.0 >= after
        return up and self.direction >= 0.0 or down and self.direction <= 0.0


class Events:
    """The events of one run, told of each accepted step.

    `events` is a function or a list or tuple of them, `args` are appended to each call. Each event is evaluated at the
    start's pose here, and at each step's end; each call gets a pose of its own.
    """

    def __init__(self, events: Any, args: Any, t0: float, y0: Any) -> None:
        if callable(events):
            events = (events,)
        self._events = [_Event(function, f"events[{place}]") for place, function in enumerate(events)]
        self._args = tuple(args)
        self.found: List[Tuple[float, Any]] = []
        for event in self._events:
            event.value = self._value(event, t0, y0)

    def _value(self, event: _Event, t: float, y: Any) -> float:
        return _number(event.function(t, _copy(y), *self._args), event.name)

    def after_step(
        self, previous: float, t: float, y: Any, pose_at: Callable[[float], Any]
    ) -> Optional[Tuple[float, Any]]:
        """Takes note of what occurred in an accepted step from `previous` to `t`, with the pose y at t.

        pose_at(time) gives the pose at a time within the step. Answers None, or (time, pose) where a terminal event
        stops the run; what occurred later in the step is dropped then. `found` has times and poses of the step.
        """
        self.found, passed = [], []
        for event in self._events:
            before, event.value = event.value, self._value(event, t, y)
            if event.passes(before, event.value):
                passed.append((event, before))
        occurred = [(self._root(event, previous, t, before, pose_at), event) for event, before in passed]
        occurred.sort(key=lambda found: found[0], reverse=t < previous)
        for time, event in occurred:
            pose = pose_at(time)
            event.times.append(time)
            event.poses.append(_copy(pose))
            self.found.append((time, event.poses[-1]))
            if len(event.times) >= event.limit:
                return time, _copy(pose)
        return None

    def _root(
        self, event: _Event, previous: float, t: float, before: float, pose_at: Callable[[float], Any]
    ) -> float:
        """The time of the occurrence.

        The values at the step's ends are those of the accepted poses, so that the signs differ: the interpolation
        may come to another pose at the step's beginning, by a rounding or where the order has changed.
        """

        def value(time: float) -> float:
            found = self._value(event, time, pose_at(time))
            if found != found:
                raise ValueError(f"{event.name} gave NaN at {time!r}, where its passage through 0 is sought")
            return found

        return brent(value, previous, t, before, event.value)

    @property
    def t_events(self) -> List[Any]:
        """The times of each event's occurrences."""
        return [_array(event.times) for event in self._events]

    @property
    def y_events(self) -> List[Any]:
        """The poses at them."""
        return [_array(event.poses) for event in self._events]


def _array(numbers: List[Any]) -> Any:
    return list(numbers) if numpy is None else numpy.array(numbers, dtype=float)
