"""Tolerances asked of the answer.

A tolerance that the method is given bounds the error of one step, and over a run errors add up. Here a run is made
again and again, each time with tighter tolerances, until it repeats the one before it within the tolerances asked, at
every time that is handed out. Like the error of a step, this is an estimate: two runs that are wrong alike are not told
apart.
"""

from __future__ import annotations

from typing import Any, Callable, Sequence

from . import given
from .result import Result

CUT = 10.0  # how much tighter each run is than the one before it
RUNS = 16  # at most: what is not met by a cut of 1e15 is not met in doubles


def _entry(tolerances: Sequence[float], i: int) -> float:
    return tolerances[i if len(tolerances) > 1 else 0]


def _apart(result: Result, before: Result, rtol: Sequence[float], atol: Sequence[float]) -> float:
    """The largest difference between two runs at the times of the second, in the tolerances asked."""
    largest, n = 0.0, len(result.y)
    times = [float(t) for t in result.t]
    sol: Any = before.sol
    poses = sol._at(times)  # the ends of two runs may differ by a rounding
    for i in range(n):
        absolute, relative = _entry(atol, i), _entry(rtol, i)
        for y, earlier in zip(map(float, result.y[i]), poses[i::n]):
            difference, allowed = abs(y - earlier), absolute + relative * abs(y)
            if allowed > 0.0:
                difference /= allowed
            elif difference > 0.0:
                difference = float("inf")
            if difference != difference:  # what is not a number is not within any tolerance
                return difference
            largest = max(largest, difference)
    return largest


def within(solve: Callable[[Any, Any], Result], rtol: Sequence[float], atol: Sequence[float]) -> Result:
    """The first run that repeats the one before it within the tolerances, with what all the runs cost.

    Parameters
    ----------
    solve : callable
        ``solve(rtol, atol)`` makes one run with its dense output.
    rtol, atol : sequence of float
        The tolerances asked.

    Returns
    -------
    Result
        With the fields `runs`, `cut` and `error`. Where no run repeats the one before it, or one ends early by name, no
        pose is handed out, since none was seen to be within the tolerances. A run with a pose that is not finite
        repeats none: tighter tolerances may do better.
    """
    before, error, met, nfev, njev, nlu = None, None, False, 0, 0, 0
    for runs in range(1, RUNS + 1):
        cut = CUT ** (runs - 1)
        result = solve([r / cut for r in rtol], [a / cut for a in atol])
        nfev, njev, nlu = nfev + result.nfev, njev + result.njev, nlu + result.nlu
        if result.status == -1:
            break
        if before is not None:
            error = _apart(result, before, rtol, atol)
            met = result.success and error <= 1.0
            if met:
                break
        before = result
    else:
        result.update(number=None, end="tolerances not met", message="tolerances not met", status=-1)
    if not met:
        none = given.array("d")
        rows = given.rows_of_states(none, len(result.y), 0)
        result.update(t=given.handed_out(none), y=rows, sol=None, counts=[], success=False)
    result.update(runs=runs, cut=cut, error=error, nfev=nfev, njev=njev, nlu=nlu)
    return result
