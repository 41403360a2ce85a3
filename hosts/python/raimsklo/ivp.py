"""`solve_ivp`, so that a script written for scipy's LSODA changes one line."""

from __future__ import annotations

import math
import sys
from array import array
from typing import Any, Callable, List, Optional, Sequence, SupportsFloat, SupportsInt, Union

from . import answer, given, settings
from .dense import DenseOutput
from .library import Options
from .refused import DERIVATIVE_WANTED, ENDS, FIRST_REPORT, JACOBIAN_WANTED, REPORT, SUCCESS, message
from .result import Result
from .run import CONTINUE, INTERRUPT, Buffers, Run, reply

__all__ = ["DenseOutput", "Result", "solve_ivp"]


def solve_ivp(
    fun: Callable[..., Any],
    t_span: Any,
    y0: Any,
    method: Union[str, type] = "LSODA",
    t_eval: Any = None,
    dense_output: bool = False,
    events: Union[Callable[..., Any], Sequence[Callable[..., Any]], None] = None,
    vectorized: bool = False,
    args: Any = None,
    *,
    rtol: Any = 1e-3,
    atol: Any = 1e-6,
    jac: Any = None,
    max_step: Optional[SupportsFloat] = None,
    min_step: Optional[SupportsFloat] = None,
    first_step: Optional[SupportsFloat] = None,
    lband: Optional[int] = None,
    uband: Optional[int] = None,
    max_steps: SupportsInt = 100000,
    mxordn: SupportsInt = 12,
    mxords: SupportsInt = 5,
    maxcor: SupportsInt = 3,
    msbp: SupportsInt = 20,
    mxncf: SupportsInt = 10,
    report: Optional[Callable[[float, float, Any, int], Any]] = None,
    tolerances: str = "step",
) -> Result:
    """Solves y' = fun(t, y) over t_span, in the manner of scipy.integrate.solve_ivp(method="LSODA").

    Parameters
    ----------
    fun : callable
        ``fun(t, y, *args)`` gives the derivative, one number for each state, as an array or a list. `y` is a fresh
        array (without numpy a list) at each call.
    t_span : (float, float)
        Start and end, in either direction. Where they are equal, the result is a success without a step. The end may be
        infinite, for a run that an event or `report` stops.
    y0 : array_like
        The start's pose, at most 64 states.
    method : "LSODA" or raimsklo.LSODA
        There is one method.
    t_eval : array_like, optional
        The times to hand out, sorted in the direction of the run; otherwise those of the accepted steps.
    dense_output : bool
        Whether the result's `sol` gives poses at any time.
    events : callable or list of callables, optional
        ``event(t, y, *args)``; where one passes through zero, time and pose are found, as scipy does it: the attribute
        `terminal` stops the run there, `direction` says which passages count.
    vectorized : bool
        Whether `fun` takes and gives columns: it is called with an array of shape (n, 1).
    args : tuple, optional
        Further arguments for `fun`, `jac` and the events. What cannot be unpacked is one argument.
    rtol, atol : float or array_like
        Tolerances, one or as many as there are states. They bound the error of each step, as scipy's do; over a run
        errors add up.
    jac : callable, array_like, sparse matrix or None
        ``jac(t, y, *args)`` gives the Jacobian, jac[i][j] = df_i/dy_j; a matrix stands for one that is constant;
        without it the Jacobian is taken by differences.
    max_step, min_step, first_step : float, optional
        Sizes of steps, above 0 in either direction of time (`min_step` may be 0), the latter two at most as long as
        the interval.
    lband, uband : None
        Refused (8) where given: banded storage is not supported.
    max_steps : int
        The largest number of accepted steps.
    mxordn, mxords, maxcor, msbp, mxncf : int
        Largest orders of the Adams and the BDF family, corrector iterations, steps between Jacobian checks, and
        convergence failures that end a step.
    report : callable, optional
        ``report(previous, t, y, count)`` is called after each accepted step; anything true interrupts the run, whose
        end is then "interrupted", with status -1.
    tolerances : "step" or "answer"
        With "answer" the tolerances are asked of the poses handed out: the run is made again with tighter ones until it
        repeats itself within those asked. There are no events and no report then.

    Returns
    -------
    Result
        Its `success` is false where the run ended early, and where a pose has a NaN or an infinity.

    Raises
    ------
    Refused
        A ValueError, with the library's number, where the library refuses the problem, or where `fun` or `jac` gave
        other than the numbers wanted.
    ValueError, TypeError
        Where an argument is none that scipy's would take, or complex. What a callback raises ends the run.

    Examples
    --------
    The oscillator y'' = -y:

    >>> from raimsklo import solve_ivp
    >>> result = solve_ivp(lambda t, y: [y[1], -y[0]], (0, 10), [1, 0], rtol=1e-8, atol=1e-8)
    >>> result.success, result.message, round(float(result.y[0][-1]), 3)
    (True, 'success', -0.839)

    Frames of a film, with a parameter, the tolerances asked of the poses:

    >>> frames = [k / 24 for k in range(5)]
    >>> fall = solve_ivp(lambda t, y, g: [y[1], -g], (0, 1), [2, 0], t_eval=frames, args=(9.81,),
    ...                  rtol=1e-6, atol=1e-6, tolerances="answer")
    >>> [round(float(y), 3) for y in fall.y[0]]
    [2.0, 1.991, 1.966, 1.923, 1.864]

    A run that comes to no end says why:

    >>> early = solve_ivp(lambda t, y: [-y[0]], (0, 10), [1.0], max_steps=3)
    >>> early.success, early.end, early.message[:33]
    (False, 'needs more steps', 'needs more steps: raise max_steps')
    """
    if method != "LSODA" and not (isinstance(method, type) and method is _solver_class()):
        raise ValueError("`method` must be 'LSODA' or raimsklo.LSODA: this library has one method")
    if tolerances not in ("step", "answer"):
        raise ValueError('tolerances are those of a "step" or of the "answer"')
    if tolerances == "answer" and report is not None:
        raise ValueError("a report goes with the tolerances of a step: those of the answer take several runs")
    if tolerances == "answer" and events is not None:
        raise ValueError("events go with the tolerances of a step: those of the answer take several runs")

    t0, tend = t_span
    t0, tend = settings.interval(t0, tend, ("t_span", "t_span"))
    y0 = given.vector(y0, "`y0`")
    n, args = len(y0), given.arguments(args)
    times = None if t_eval is None else _times(t_eval, t0, tend)
    options = settings.options(
        dict(max_steps=max_steps, mxordn=mxordn, mxords=mxords, maxcor=maxcor, msbp=msbp, mxncf=mxncf),
        dict(max_step=max_step, min_step=min_step, first_step=first_step),
        t0,
        tend,
        jac is not None,
        lband is not None or uband is not None,
    )
    rtol, atol = settings.tolerances(rtol, "rtol"), settings.tolerances(atol, "atol")
    fun, jac = settings.right_side(fun, args, vectorized), settings.jacobian(jac, args, n)

    def solve(rtol: Sequence[float], atol: Sequence[float], dense: bool) -> Result:
        run = Run(t0, tend, y0, rtol, atol, options)
        found = None
        if events is not None:
            from .events import Events

            found = Events(events, args, t0, given.handed_out(array("d", y0)))
        kept = _Kept(run, t0, tend, y0, times, dense, found, report)
        kept.drive(fun, jac)
        return kept.result(options)

    if tolerances == "step":
        return solve(rtol, atol, bool(dense_output))
    result = answer.within(lambda r, a: solve(r, a, True), rtol, atol)
    if not dense_output:
        result.sol = None
    return result


def _solver_class() -> Optional[type]:
    """raimsklo.LSODA, if anybody has asked for it: it takes scipy."""
    module = sys.modules.get(__package__ + ".scipy_solver")
    return None if module is None else module.LSODA


def _times(t_eval: Any, t0: float, tend: float) -> array:
    if given.scalar(t_eval):
        raise ValueError("`t_eval` must be 1-dimensional.")
    times = given.vector(t_eval, "`t_eval`")
    low, high = min(t0, tend), max(t0, tend)
    if not all(low <= t <= high for t in times):
        raise ValueError("Values in `t_eval` are not within `t_span`.")
    rising = times if tend > t0 else times[::-1]
    if t0 != tend and any(b <= a for a, b in zip(rising, rising[1:])):
        raise ValueError("Values in `t_eval` are not properly sorted.")
    return times


class _Kept:
    """What is kept of a run while it goes on: the poses to hand out, and nothing else that is not asked for."""

    def __init__(
        self,
        run: Run,
        t0: float,
        tend: float,
        y0: array,
        t_eval: Optional[array],
        dense: bool,
        events: Any,
        report: Optional[Callable[..., Any]],
    ) -> None:
        self.run, self.buffers = run, Buffers(run)
        self.t0, self.tend, self.y0, self.t_eval = t0, tend, y0, t_eval
        self.events, self.report = events, report
        self.sign = -1.0 if tend < t0 else 1.0
        self.sol = DenseOutput(run.n, t0, y0, self.sign) if dense else None
        self.times, self.poses = array("d"), array("d")
        self.counts: List[int] = []
        self.largest_count, self.order, self.stopped = 0, 0, False
        self.began = (t0, y0)  # time and pose at the beginning of the step under way, where there are events
        self.nonfinite_at = None if all(map(math.isfinite, y0)) else t0  # the first time of a pose that is not finite
        here = 1 if t_eval is None else t_eval.count(t0)  # the start's pose itself, not one of the first step's
        self.times.extend([t0] * here)
        self.poses.extend(y0 * here)

    def drive(self, fun: Callable[[float, Any], Any], jac: Any) -> None:
        """Answers the library's questions until the run has ended."""
        run, buffers = self.run, self.buffers
        state, put, derivative = buffers.state, buffers.put, buffers.derivative
        asked = run.answer
        while True:
            number = asked.number
            if number == DERIVATIVE_WANTED:
                put(fun(asked.time, state()))
                asked = reply(*derivative)
            elif number == REPORT:
                asked = buffers.reported(INTERRUPT if self.step(asked) else CONTINUE, asked.time)
            elif number == JACOBIAN_WANTED:
                buffers.put_jacobian(jac(asked.time, state()))
                asked = reply(*buffers.jacobian)
            elif number == FIRST_REPORT:
                asked = buffers.reported(CONTINUE, asked.time)
            else:
                run._take(asked)  # a refusal raises
                break
        if run.n == 0:
            self.without_states()

    def step(self, asked: Any) -> bool:
        """Keeps what is wanted of an accepted step; whether the run is to be interrupted after it."""
        buffers, t, count = self.buffers, asked.time, asked.count
        self.order = asked.order
        if count > self.largest_count:
            self.largest_count = count
        if self.sol is not None:
            self.sol._add(t, buffers.snapshot(self.order))
        end = None
        if self.events is not None:
            end = self.occurred(asked.previous, t, buffers.state(), self.pose_at)
            self.began = (t, array("d", bytes(buffers.y)))
        if self.t_eval is not None:
            self.between(t if end is None else end[0])
        else:
            self.counts.append(count)
        if end is not None:
            self.stop(*end)
        else:
            if self.nonfinite_at is None:
                self.look(t, buffers.finite())
            if self.t_eval is None:
                self.times.append(t)
                self.poses.frombytes(buffers.y)
        interrupted = self.report is not None and self.report(asked.previous, t, buffers.state(), count)
        return bool(interrupted) or self.stopped

    def look(self, t: float, finite: bool) -> None:
        """At a pose that is handed out, in whatever order the poses of a step are."""
        if not finite and (self.nonfinite_at is None or self.sign * t < self.sign * self.nonfinite_at):
            self.nonfinite_at = t

    def occurred(self, previous: float, t: float, y: Any, pose_at: Callable[[float], Any]) -> Any:
        """What the events say of a step: None, or time and pose of the one that stops the run."""
        end = self.events.after_step(previous, t, y, pose_at)
        for time, pose in self.events.found:
            self.look(time, all(map(math.isfinite, pose)))
        return end

    def pose_at(self, t: float) -> Any:
        """The pose at a time within the step that was reported last; at its ends the accepted poses themselves."""
        t, (began, pose) = given.number(t, "`t`"), self.began
        if t == began:
            return given.copied(memoryview(pose).cast("B"))
        return given.copied(self.buffers.interpolate(t, self.order))

    def stop(self, time: float, pose: Any) -> None:
        """A terminal event ends the run here; this pose is the last that is handed out."""
        time, pose = float(time), given.vector(pose, "the pose of an event")
        self.stopped = True
        if self.sol is not None:
            self.sol._cut(time)
        if self.t_eval is None:
            self.times.append(time)
            self.poses.extend(pose)

    def between(self, end: float) -> None:
        """Keeps the poses at the times of t_eval up to `end`, from the step that was reported last."""
        t_eval, sign, buffers = self.t_eval or (), self.sign, self.buffers
        while len(self.times) < len(t_eval) and sign * t_eval[len(self.times)] <= sign * end:
            t = t_eval[len(self.times)]
            self.poses.frombytes(buffers.interpolate(t, self.order))
            self.times.append(t)
            self.look(t, buffers.finite_between())

    def without_states(self) -> None:
        """What no step brings: the times of a run without states."""
        end, nothing = self.tend, lambda t: given.handed_out(array("d"))
        if end != self.t0:
            if self.sol is not None:
                self.sol._add(end, b"")
            stop = None if self.events is None else self.occurred(self.t0, end, nothing(end), nothing)
            if stop is not None:
                end = stop[0]
                self.stop(*stop)
            elif self.t_eval is None:
                self.times.append(end)
        if self.t_eval is not None:
            self.times.extend(t for t in self.t_eval[len(self.times) :] if self.sign * t <= self.sign * end)

    def result(self, options: Options) -> Result:
        ended, n = self.run.answer, self.run.n
        reached = ended.number == SUCCESS or self.stopped
        if not reached:
            status = -1
        elif self.nonfinite_at is not None:
            status = -2
        else:
            status = 1 if self.stopped else 0
        told = "A termination event occurred." if self.stopped else message(ended.number)
        if self.nonfinite_at is not None:
            bad = f"the pose at {self.nonfinite_at!r} has a NaN or an infinity"
            told = bad if reached else f"{told}; {bad}"
        events = self.events
        return Result(
            message=told,
            success=status >= 0,
            status=status,
            t=given.handed_out(self.times),
            y=given.rows_of_states(self.poses, n, len(self.times)),
            sol=self.sol,
            t_events=None if events is None else events.t_events,
            y_events=None if events is None else events.y_events,
            nfev=ended.nfe,
            njev=ended.nje,
            nlu=ended.nlu,
            nonfinite_at=self.nonfinite_at,
            number=ended.number,
            end=ENDS[ended.number],
            accepted=ended.accepted,
            rejected=ended.rejected,
            steps_total=ended.total,
            h=ended.h,
            counts=self.counts,
            largest_count=self.largest_count,
            cap=settings.cap(options, n),
            jacobian_cap=settings.jacobian_cap(options),
        )
