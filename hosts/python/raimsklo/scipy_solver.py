"""The library as a method of scipy.integrate.solve_ivp, with scipy's own events, t_eval and dense output.

    solve_ivp(fun, (0, 10), y0, method=LSODA)
"""

from __future__ import annotations

import warnings
from typing import Any, Callable

try:
    import numpy
    from scipy.integrate import DenseOutput, OdeSolver  # type: ignore[import]
except ImportError as missing:
    raise ImportError("raimsklo.scipy_solver needs scipy (and numpy), which is not there") from missing

from . import dense, given, settings
from . import run as calls
from .refused import ENDS, SUCCESS, message


class StepOutput(DenseOutput):
    """The poses within one accepted step, by the library's interpolation; at its ends the accepted poses themselves.

    A time outside the step raises ValueError: no pose comes from anything but an accepted step. Inside its span
    scipy's OdeSolution never asks for one.
    """

    def __init__(self, t_old: float, t: float, y_old: numpy.ndarray, snapshot: bytes) -> None:
        super().__init__(t_old, t)
        self._step = dense.DenseOutput(len(y_old), t_old, y_old, -1.0 if t < t_old else 1.0)
        self._step._add(t, snapshot)

    def _call_impl(self, t: numpy.ndarray) -> numpy.ndarray:
        return self._step(t)


class LSODA(OdeSolver):
    """Adams/BDF method with automatic switching, by the machine-checked library, as a solver of scipy.

    Give it to scipy.integrate.solve_ivp as `method`, or call `step` while `status` is 'running'. Its steps are those
    of `raimsklo.solve_ivp`, bit for bit.

    Know before use: in whole runs the order never exceeds 2, so at the same tolerances, 1e-6 to 1e-8, it asks for 2 to
    11 times the derivatives of ODEPACK's LSODA and its error is 3 to 20 times as large, more on smooth problems
    (docs/SPEED.md), from three states on the linear solve may answer another system, and Robertson's problem to 4e10
    ends in wrong numbers: all of it the published Rust's, kept bit for bit (docs/DIFFERENCES.md). In return every run
    ends, by name or by a numbered refusal, its work is capped beforehand, its bits are the same everywhere, and a pose
    comes only from an accepted step.

    Parameters
    ----------
    fun : callable
        Right side of the system, ``fun(t, y)``. Each call gets an array of its own. A complex derivative or one of
        another length than y is refused. It is first called in the first step, not in the constructor.
    t0 : float
        Initial time.
    y0 : array_like, shape (n,)
        Initial state, n at most 64. One that is not finite is refused.
    t_bound : float
        The end of the interval, which also gives the direction; it may be infinite for a run that is stepped.
    first_step : float or None, optional
        Size of the first step, at most that of the interval. None: the library chooses.
    min_step : float, optional
        Smallest size of a step, at most that of the interval; 0 (default): none.
    max_step : float, optional
        Largest size of a step; infinity (default): that of the interval.
    rtol, atol : float or array_like, optional
        Tolerances of a step, ``rtol*|y| + atol``, taken as given, an rtol of 0 too. Default 1e-3 and 1e-6.
    jac : None, callable, array_like or sparse matrix, optional
        The Jacobian, df_i/dy_j at (i, j): ``jac(t, y)`` or one that is constant. None: by differences.
    lband, uband : None
        Refused where given: banded storage is not supported.
    vectorized : bool, optional
        Whether `fun` takes arrays of shape (n, k). It brings nothing here, since one state is asked at a time.
    max_steps : int, optional
        Largest number of accepted steps.
    mxordn, mxords : int, optional
        Largest order of the Adams and of the BDF family.
    maxcor, msbp, mxncf : int, optional
        Corrector iterations of a pass, steps between Jacobian checks, convergence failures that end a step.

    Attributes
    ----------
    n, status, t_bound, direction, t, y, t_old, step_size
        Those of every OdeSolver. `y` is a new array after each step.
    nfev : int
        Calls of `fun`, those for Jacobians by differences included, as scipy's own LSODA counts.
    njev, nlu : int
        Jacobians begun, by differences too, and factorings.
    number, end : int and str, or None
        The library's end of the run: 110 "success", 112 "needs more steps", and so on. None before it has ended.
    nonfinite_at : float or None
        The time of a step whose pose was not finite. The run fails there; `t` and `y` stay the step's before.
    count : int
        Derivatives asked for in the last step.
    cap, jacobian_cap : int
        Derivatives and Jacobians that no step exceeds.
    accepted, rejected : int
        Steps accepted, and attempts rejected.

    Raises
    ------
    Refused
        A ValueError: bad arguments, by the library's number. All of them come from the constructor but those that
        need a derivative (11 of a first step that the library chose, 12), which come from the first step; 12 may
        come from later ones. A step that `fun` or `jac` left by an exception can be asked for again.

    Notes
    -----
    Other than scipy's solvers, the dense output raises ValueError outside the steps, where theirs extrapolates.

    Examples
    --------
    >>> from scipy.integrate import solve_ivp
    >>> from raimsklo.scipy_solver import LSODA
    >>> def ground(t, y):
    ...     return y[0]
    >>> ground.terminal, ground.direction = True, -1
    >>> fall = solve_ivp(lambda t, y: [y[1], -9.81], (0, 10), [5, 0], method=LSODA, events=ground, rtol=1e-8)
    >>> fall.status, round(float(fall.t[-1]), 4)
    (1, 1.0096)
    """

    t: float
    y: numpy.ndarray
    direction: float
    status: str

    def __init__(
        self,
        fun: Callable,
        t0: float,
        y0: Any,
        t_bound: float,
        first_step: float | None = None,
        min_step: float = 0.0,
        max_step: float = numpy.inf,
        rtol: Any = 1e-3,
        atol: Any = 1e-6,
        jac: Any = None,
        lband: int | None = None,
        uband: int | None = None,
        vectorized: bool = False,
        max_steps: int = 100000,
        mxordn: int = 12,
        mxords: int = 5,
        maxcor: int = 3,
        msbp: int = 20,
        mxncf: int = 10,
        **extraneous: Any,
    ) -> None:
        if extraneous:
            names = ", ".join(f"`{name}`" for name in extraneous)
            warnings.warn(f"The following arguments have no effect for a chosen solver: {names}.", stacklevel=2)
        t0, t_bound = settings.interval(t0, t_bound, ("t0", "t_bound"))
        super().__init__(fun, t0, given.handed_out(given.vector(y0, "`y0`")), t_bound, vectorized)
        self.direction = float(self.direction)
        if not numpy.isfinite(self.y).all():
            raise ValueError(f"`y0`, the pose at {t0!r}, is not finite")
        options = settings.options(
            dict(max_steps=max_steps, mxordn=mxordn, mxords=mxords, maxcor=maxcor, msbp=msbp, mxncf=mxncf),
            dict(max_step=max_step, min_step=min_step, first_step=first_step),
            t0,
            t_bound,
            jac is not None,
            lband is not None or uband is not None,
        )
        rtol, atol = settings.tolerances(rtol, "rtol"), settings.tolerances(atol, "atol")
        self._run = calls.Run(t0, t_bound, self.y, rtol, atol, options)
        self._buffers = calls.Buffers(self._run)
        self._right_side = settings.right_side(fun, (), vectorized)
        self._jacobian: Any = settings.jacobian(jac, (), self.n)
        self._pose = self.y.copy()  # of the last accepted step; that before and the snapshot serve the dense output
        self.y = self._pose.copy()
        self._pose_old, self._snapshot = self._pose, b""
        self.count, self.nonfinite_at = 0, None
        self.cap, self.jacobian_cap = settings.cap(options, self.n), settings.jacobian_cap(options)

    def _count(name: str, told: str) -> property:  # type: ignore[misc]
        """A count of the library's; OdeSolver's own beginning of it is passed over."""
        return property(lambda self: getattr(self._run.counts, name), lambda self, value: None, None, told)

    njev = _count("nje", "Jacobians begun.")
    nlu = _count("nlu", "Factorings.")
    accepted = _count("accepted", "Steps accepted.")
    rejected = _count("rejected", "Attempts rejected.")
    del _count

    @property
    def number(self) -> int | None:
        """The library's number of the end of the run."""
        number = self._run.answer.number
        if number >= SUCCESS:
            return number
        return SUCCESS if self.status == "finished" else None  # scipy sees for itself that the end is reached

    @property
    def end(self) -> str | None:
        """Its name."""
        number = self.number
        return None if number is None else ENDS[number]

    def _step_impl(self) -> tuple[bool, str | None]:
        run, buffers, fun = self._run, self._buffers, self._right_side
        state, put, derivative, reply = buffers.state, buffers.put, buffers.derivative, calls.reply
        wanted, asked = calls.DERIVATIVE_WANTED, run.answer
        try:
            if asked.number == calls.REPORT:
                asked = buffers.reported(calls.CONTINUE, asked.time)
            while True:
                number = asked.number
                if number == wanted:
                    self.nfev += 1
                    put(fun(asked.time, state()))
                    asked = reply(*derivative)
                    continue
                if number < wanted:  # refused: 11 or 12, which end the run
                    self.status = "failed"
                run._take(asked)
                if number == calls.REPORT:
                    return self._take_report(asked)
                elif number == calls.JACOBIAN_WANTED:
                    buffers.put_jacobian(self._jacobian(asked.time, state()))
                    asked = reply(*buffers.jacobian)
                elif number == calls.FIRST_REPORT:
                    asked = buffers.reported(calls.CONTINUE, asked.time)
                else:
                    return False, message(number)
        except BaseException:  # of `fun`, of what it gave or of who interrupts: the question stands
            if asked.number >= wanted:
                run.answer = asked
            raise

    def _take_report(self, asked: Any) -> tuple[bool, str | None]:
        buffers, time = self._buffers, asked.time
        self.count = asked.count
        if not buffers.finite():
            self.nonfinite_at = time
            return False, f"the pose at {time!r} has a NaN or an infinity"
        self._pose_old, self._pose, self._snapshot = self._pose, buffers.state(), bytes(buffers.snapshot(asked.order))
        self.t, self.y = time, buffers.state()
        return True, None

    def _dense_output_impl(self) -> StepOutput:
        return StepOutput(self.t_old, self.t, self._pose_old, self._snapshot)
