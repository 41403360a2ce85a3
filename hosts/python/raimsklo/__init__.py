"""LSODA, the automatic Adams/BDF solver for ordinary differential equations, as a machine-checked library.

`solve_ivp` in the manner of scipy's, over the proved code. numpy is used where it is there, and is not needed.

>>> from raimsklo import solve_ivp
>>> result = solve_ivp(lambda t, y: [y[1], -y[0]], (0, 10), [1, 0], rtol=1e-6, atol=1e-9)
>>> result.success, float(result.t[-1])
(True, 10.0)

Know before use: in whole runs the order never exceeds 2, so at the same tolerances, 1e-6 to 1e-8, it asks for 2 to 11
times the derivatives of ODEPACK's LSODA and its error is 3 to 20 times as large, more on smooth problems
(docs/SPEED.md), from three states on the linear solve may answer another system, and Robertson's problem to 4e10 ends
in wrong numbers: all of it the published Rust's, kept bit for bit (docs/DIFFERENCES.md). In return every run ends, by
name or by a numbered refusal, its work is capped beforehand, its bits are the same everywhere, and a pose comes only
from an accepted step.

What scipy's has and this has not: complex states, lband and uband.
What this has and scipy's has not: a named end, the counts with their caps, a report after each step, the first time
whose pose is not finite (`nonfinite_at`, never a success), tolerances asked of the answer, and `Run`, the library a
question at a time, for callers that keep control.
`raimsklo.LSODA` is the solver class for scipy.integrate.solve_ivp, where scipy is there.
"""

from __future__ import annotations

from typing import TYPE_CHECKING, Any

from .dense import DenseOutput
from .ivp import solve_ivp
from .library import Answer, Options, defaults
from .refused import ADVICE, DERIVATIVE_WANTED, ENDS, FIRST_REPORT, JACOBIAN_WANTED, REPORT, SUCCESS, Refused, message
from .result import Result
from .run import CONTINUE, DERIVATIVE, INTERRUPT, JACOBIAN, MODIFIED, Run, interpolate, root

if TYPE_CHECKING:  # at run time it is imported when it is asked for, since it takes scipy
    from .scipy_solver import LSODA as LSODA

__version__ = "0.2.0"

__all__ = [
    "ADVICE",
    "Answer",
    "CONTINUE",
    "DERIVATIVE",
    "DERIVATIVE_WANTED",
    "DenseOutput",
    "ENDS",
    "FIRST_REPORT",
    "INTERRUPT",
    "JACOBIAN",
    "JACOBIAN_WANTED",
    "MODIFIED",
    "Options",
    "REPORT",
    "Refused",
    "Result",
    "Run",
    "SUCCESS",
    "defaults",
    "interpolate",
    "message",
    "root",
    "solve_ivp",
]


def __getattr__(name: str) -> Any:
    if name == "LSODA":
        try:
            from .scipy_solver import LSODA as solver
        except ImportError as missing:
            raise AttributeError(f"raimsklo.LSODA needs scipy: {missing}") from missing
        globals()[name] = solver
        return solver
    raise AttributeError(f"module {__name__!r} has no attribute {name!r}")
