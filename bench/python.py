"""The Python package beside scipy.integrate.solve_ivp(method="LSODA"): time for a call of fun, memory for a step.

Ours are raimsklo.solve_ivp, and raimsklo.LSODA as a method of scipy's solve_ivp.

    bash hosts/python/build && /usr/bin/python3 bench/python.py [ROUNDS]

It takes numpy and scipy: /usr/bin/python3 is Debian's, with its packages python3-numpy and python3-scipy. All of them
get the same right side and tolerances, in alternating rounds of one process; of each the least time counts. A call's
time is the processor's for the whole run, right side included, by that solver's own number of calls. Memory is what
tracemalloc sees (Python's and numpy's, all that grows with a run) at its peak, less that before the run. Where numpy is
missing, it times the package alone.
"""

import argparse
import gc
import math
import os
import sys
import time
import tracemalloc

sys.path.insert(0, os.path.join(os.path.dirname(os.path.abspath(__file__)), "../hosts/python"))

import raimsklo  # noqa: E402

try:
    import numpy
    from scipy.integrate import solve_ivp as scipy_ivp
except ImportError:
    numpy = scipy_ivp = None

STEPS = (2000, 20000)


def listed(n):
    """The oscillators once more, by a right side that gives a list."""
    half = n // 2

    def fun(t, y):
        y = list(y)
        return y[half:] + [-v for v in y[:half]]

    return fun


def oscillators(n):
    """Half the states are places, half velocities: y'' = -y. Adams throughout."""
    half = n // 2
    if numpy is None:
        return listed(n)

    def fun(t, y):
        f = numpy.empty(n)
        f[:half] = y[half:]
        numpy.negative(y[:half], out=f[half:])
        return f

    return fun


def drawn(n):
    """Each state is drawn to cos t, stiffly: BDF but for the beginning."""
    if numpy is None:
        return lambda t, y: [1e5 * (math.cos(t) - v) for v in y]

    def fun(t, y):
        f = math.cos(t) - y
        f *= 1e5
        return f

    return fun


def ours(fun, span, y0, **more):
    return raimsklo.solve_ivp(fun, span, y0, max_steps=1000000, **more)


def within(fun, span, y0, **more):
    """Ours as a method of scipy's solve_ivp."""
    return scipy_ivp(fun, span, y0, method=raimsklo.LSODA, max_steps=1000000, **more)


def theirs(fun, span, y0, **more):
    return scipy_ivp(fun, span, y0, method="LSODA", **more)


def called(solver, fun, span, y0, **more):
    """How often fun is called."""
    calls = [0]

    def counted(t, y):
        calls[0] += 1
        return fun(t, y)

    result = solver(counted, span, y0, **more)
    assert result.success, result.message
    return calls[0]


def timed(solver, *given, **more):
    """Seconds of a run."""
    gc.collect()
    start = time.process_time()
    solver(*given, **more)
    return time.process_time() - start


def times(rounds):
    solvers = (ours, within, theirs) if scipy_ivp else (ours,)
    print(f"{'microseconds a call of fun':34}{'solve_ivp':>10}{'LSODA':>10}{'scipy':>10}{'ratios':>16}")
    for n in (2, 64):
        pose = [1.0] * (n // 2) + [0.0] * (n // 2)
        for family, fun, span in (
            ("Adams", oscillators(n), (0.0, 20.0)),
            ("Adams, a list", listed(n), (0.0, 20.0)),
            ("BDF", drawn(n), (0.0, 4.0)),
        ):
            more = dict(rtol=1e-5, atol=1e-8)
            made = [[timed(solver, fun, span, pose, **more) for solver in solvers] for _ in range(rounds)]
            least = [min(took) / called(s, fun, span, pose, **more) for s, took in zip(solvers, zip(*made))]
            ratios = "".join(f"{took / least[-1]:8.2f}" for took in least[:-1])
            print(f"{f'n = {n}, {family}':34}" + "".join(f"{1e6 * took:10.2f}" for took in least) + ratios)


def grown(solver, fun, span, y0, **more):
    """Bytes at the peak of a run above those before it."""
    gc.collect()
    tracemalloc.start()
    before = tracemalloc.get_traced_memory()[0]
    result = solver(fun, span, y0, **more)
    peak = tracemalloc.get_traced_memory()[1] - before
    tracemalloc.stop()
    assert result.success, result.message
    return peak


def memory():
    n, fun = 64, oscillators(64)
    pose = [1.0] * (n // 2) + [0.0] * (n // 2)
    print(f"\n{'n = 64, peak of memory in MB':34}{'raimsklo':>10}{'scipy':>10}{'ratio':>8}")
    for told, t_eval in (("every step", None), ("t_eval of 11 times", 11)):
        peaks = {}
        for steps in STEPS:
            h = 1e-3  # both solvers take the largest step they may
            more = dict(rtol=1e-3, atol=1e-6, max_step=h, first_step=h)
            span = (0.0, steps * h)
            if t_eval:
                more["t_eval"] = [span[1] * k / (t_eval - 1) for k in range(t_eval)]
            peaks[steps] = [grown(solver, fun, span, pose, **more) for solver in (ours, theirs)]
            a, b = peaks[steps]
            print(f"{f'{told}, {steps:,} steps':34}{a / 1e6:10.2f}{b / 1e6:10.2f}{a / b:8.2f}")
        few, many = (peaks[steps] for steps in STEPS)
        a, b = ((last - first) / (STEPS[1] - STEPS[0]) for first, last in zip(few, many))
        print(f"{f'{told}, bytes more a step':34}{a:10.0f}{b:10.0f}")


def smooth():
    """Derivatives, and the error at the end against the exact solution, where ODEPACK's order rises and ours cannot."""
    problems = {
        "y'' = -y to 10": (lambda t, y: [y[1], -y[0]], [1.0, 0.0], [math.cos(10.0), -math.sin(10.0)]),
        "y' = -y to 10": (lambda t, y: [-y[0]], [1.0], [math.exp(-10.0)]),
    }
    print(f"\n{'derivatives, error at the end':34}{'raimsklo':>18}{'scipy':>18}{'ratios':>16}")
    for told, (fun, y0, exact) in problems.items():
        for rtol in (1e-4, 1e-6, 1e-8, 1e-10):
            made = []
            for solver in (ours, theirs):
                result = solver(fun, (0.0, 10.0), y0, rtol=rtol, atol=rtol / 1000)
                assert result.success, result.message
                made.append((result.nfev, max(abs(y[-1] - z) / abs(z) for y, z in zip(result.y, exact))))
            (f, error), (their_f, their_error) = made
            cells = "".join(f"{calls:9,}{wrong:9.1e}" for calls, wrong in made)
            print(f"{f'{told}, rtol {rtol:.0e}':34}{cells}{f / their_f:8.1f}{error / their_error:8.0f}")


if __name__ == "__main__":
    parser = argparse.ArgumentParser(description="The Python package beside scipy's LSODA: time a call, memory a step.")
    parser.add_argument("rounds", nargs="?", type=int, default=40, help="in turn, for each solver (40)")
    given = parser.parse_args()
    print(f"Python {sys.version.split()[0]}, numpy {numpy and numpy.__version__}, rounds: {given.rounds}")
    times(given.rounds)
    if scipy_ivp is not None:
        memory()
        smooth()
