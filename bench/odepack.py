"""Requests and steps of ODEPACK's LSODA, as scipy has it, on the problems of `bench counts`; tight runs to judge by.

A line for each run: solver, problem, tolerance, derivatives, Jacobians, steps, rejected (- where unknown), and the end.
"""

import os
import sys

from scipy.integrate import solve_ivp

sys.path.insert(0, os.path.join(os.path.dirname(os.path.abspath(__file__)), "../examples/python"))

from rigs import tail  # noqa: E402


def vdp(t, y):
    return [y[1], 1000.0 * ((1.0 - y[0] * y[0]) * y[1] - y[0])]


def robertson(t, y):
    a, b, c = 0.04 * y[0], 1e4 * y[1] * y[2], 3e7 * y[1] * y[1]
    return [b - a, a - b - c, c]


PROBLEMS = {
    "tail": (tail, [0.0] * 24, 4.0, [1e-3]),
    "vdp": (vdp, [2.0, 0.0], 2.0, [1e-3]),
    "robertson": (robertson, [1.0, 0.0, 0.0], 4e4, [1e-2, 1e-6, 1e-2]),
}


def main():
    for name, (fun, y0, end, atol) in PROBLEMS.items():
        for rtol in [1e-12, 1e-4, 1e-6, 1e-8]:
            asked = [0]

            def counted(t, y):
                asked[0] += 1
                return fun(t, y)

            scaled = [a * rtol for a in atol] if len(atol) > 1 else atol[0] * rtol
            r = solve_ivp(counted, (0.0, end), y0, method="LSODA", rtol=rtol, atol=scaled)
            assert r.success, r.message
            solver = "tight" if rtol == 1e-12 else "odepack"
            end = [repr(float(x)) for x in r.y[:, -1]]
            print(solver, name, f"{rtol:.0e}", asked[0], r.njev, len(r.t) - 1, "-", *end)


main()
