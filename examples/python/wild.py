"""Right sides that go wrong: a pole, infinities, NaN, jumps. Each run ends by name, within a cap known beforehand.

    python3 examples/python/wild.py                     beside scipy's LSODA, where there is a scipy
    python3 examples/python/wild.py --no-scipy          ours alone
    python3 examples/python/wild.py --limit 60          seconds that scipy gets for each (5)

scipy's solve_ivp has no limit of steps, so each of its runs has a process of its own, which is stopped at the limit.
Its outcome is printed as it is, good or bad.
"""

import argparse
import json
import math
import os
import subprocess
import sys
import time
from collections import namedtuple

import repository  # noqa: F401; before raimsklo: it says which one
from progress import Progress

RTOL, ATOL, MAX_STEPS = 1e-6, 1e-9, 20000


def square(t, y):
    return [y[0] * y[0]]


def exponential(t, y):
    return [math.exp(y[0]) if y[0] < 709.0 else math.inf]


def infinite(t, y):
    return [-y[0] if t < 1.0 else math.inf]


def undefined(t, y):
    return [-y[0] if t < 1.0 else math.nan]


def leak(t, y):
    return [-math.sqrt(y[0]) if y[0] >= 0.0 else math.nan]


def sign(x):
    return (x > 0.0) - (x < 0.0)


def friction(t, y):
    return [y[1], 3.0 * math.sin(t) - y[0] - 20.0 * sign(y[1])]


def bang_bang(t, y):
    return [y[1], -sign(y[0] + y[1])]


def fast(t, y):
    return [1e6 * math.cos(1e6 * t)]


Case = namedtuple("Case", "formula fun start end")
CASES = [
    Case("y' = y^2, y(0) = 1: a pole at 1", square, [1.0], 2.0),
    Case("y' = e^y, y(0) = 0: runs to infinity at 1", exponential, [0.0], 2.0),
    Case("y' = -y, infinity from 1 on", infinite, [1.0], 2.0),
    Case("y' = -y, NaN from 1 on", undefined, [1.0], 2.0),
    Case("y' = -sqrt(y), y(0) = 1: empty at 2, NaN below", leak, [1.0], 4.0),
    Case("y'' = 3 sin t - y - 20 sign y': dry friction that sticks", friction, [0.0, 1.0], 10.0),
    Case("y'' = -sign(y + y'): a control that switches ever faster", bang_bang, [1.0, 0.0], 10.0),
    Case("y' = 1e6 cos(1e6 t): a fast oscillation", fast, [0.0], 3e-4),
]

# end: by name. reached: the last time handed out. nonfinite: the first time at which a pose handed out is not finite.
# most: derivatives in a step. What is not known is None.
Row = namedtuple("Row", "solver end reached nonfinite requests most cap seconds")


def ours(case):
    from raimsklo import solve_ivp  # not above: scipy's process may have no raimsklo

    began = time.monotonic()
    result = solve_ivp(
        lambda t, y: case.fun(t, [float(v) for v in y]),
        (0.0, case.end),
        case.start,
        rtol=RTOL,
        atol=ATOL,
        max_steps=MAX_STEPS,
    )
    bad = result.nonfinite_at
    end = result.end if bad is None else "no success: not finite"
    most = max(result.counts, default=0)
    return Row("raimsklo", end, float(result.t[-1]), bad, result.nfev, most, result.cap, time.monotonic() - began)


def in_scipy(case):
    """The child process: one run of scipy's LSODA, told as JSON. What the Fortran code prints is not shown."""
    import warnings

    from scipy.integrate import solve_ivp as scipy_solve_ivp

    told = os.fdopen(os.dup(1), "w")
    os.dup2(os.open(os.devnull, os.O_WRONLY), 1)
    warnings.simplefilter("ignore")
    requests = 0

    def fun(t, y):
        nonlocal requests
        requests += 1
        return case.fun(t, [float(v) for v in y])

    began = time.monotonic()
    result = scipy_solve_ivp(fun, (0.0, case.end), case.start, method="LSODA", rtol=RTOL, atol=ATOL)
    seconds = time.monotonic() - began
    poses = zip(result.t, result.y.T)
    bad = next((float(t) for t, pose in poses if not all(map(math.isfinite, pose))), None)
    end = "success" if result.success else "failed: " + result.message
    json.dump([end, float(result.t[-1]), bad, requests, None, None, seconds], told)
    told.close()


def scipys(python, case, limit):
    command = [python, os.path.abspath(__file__), "--in-scipy", str(CASES.index(case))]
    try:
        said = subprocess.run(command, capture_output=True, timeout=limit, check=True).stdout
        return Row("scipy", *json.loads(said))
    except subprocess.TimeoutExpired:
        return Row("scipy", "still running, stopped", *[None] * 5, limit)
    except subprocess.CalledProcessError as error:
        last = error.stderr.decode(errors="replace").strip().splitlines()[-1:]
        return Row("scipy", " ".join(["failed:", *last]), *[None] * 6)


def python_with_scipy():
    for python in (sys.executable, "/usr/bin/python3"):  # the second is Debian's, which has its package python3-scipy
        try:
            subprocess.run([python, "-c", "import scipy"], capture_output=True, check=True)
            return python
        except (OSError, subprocess.CalledProcessError):
            pass
    return None


HEAD = ("solver", "end", "last time", "not finite at", "requests", "most in a step", "cap", "seconds")
FORM = "  {:9}{:38}{:>10}{:>15}{:>10}{:>16}{:>6}{:>9}"


def line(row):
    """A row of the table; what is not known is a dash."""
    forms = ("{}", "{}", "{:.6g}", "{:.6g}", "{:,}", "{}", "{}", "{:.1f}")
    return FORM.format(*("-" if value is None else form.format(value) for form, value in zip(forms, row)))


def main():
    parser = argparse.ArgumentParser(description="Runs right sides that go wrong, beside scipy's LSODA.")
    parser.add_argument("--no-scipy", action="store_true", help="ours alone")
    parser.add_argument("--limit", type=float, default=5.0, help="seconds that scipy gets for each run (5)")
    parser.add_argument("--in-scipy", type=int, help=argparse.SUPPRESS)
    given = parser.parse_args()
    if given.in_scipy is not None:
        return in_scipy(CASES[given.in_scipy])

    python = None if given.no_scipy else python_with_scipy()
    print(f"rtol 1e-6, atol 1e-9; ours with max_steps {MAX_STEPS:,}, so at most 1 + {MAX_STEPS:,} * cap requests")
    if python:
        print(f"scipy of {python}, stopped after {given.limit:g} s")
    elif not given.no_scipy:
        print("no scipy here: ours alone")
    print("\n" + FORM.format(*HEAD))
    case_number = Progress("wild", "case", len(CASES))
    for k, case in enumerate(CASES):
        case_number.at(k + 1)
        rows = [ours(case)] + ([scipys(python, case, given.limit)] if python else [])
        case_number.done()
        print("\n".join([f"{case.formula}, to {case.end:g}", *map(line, rows)]), flush=True)
    return 0


if __name__ == "__main__":
    sys.exit(main())
