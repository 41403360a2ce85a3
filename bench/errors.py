"""Reads the lines of `bench counts`, odepack.py and cvode.c; prints a table with the errors against the tight runs.

The error is the largest over the states of |y - tight| / |tight|, at the end.
"""

import sys

runs, tight = {}, {}
for line in sys.stdin:
    solver, problem, rtol, nfe, nje, steps, rejected, *y = line.split()
    y = [float(x) for x in y]
    if solver == "tight":
        tight[problem] = y
    else:
        runs.setdefault((problem, float(rtol)), []).append((solver, nfe, nje, steps, rejected, y))

print(f"{'problem':10} {'rtol':>6}  {'solver':9}{'derivatives':>12}{'Jacobians':>10}{'steps':>7}{'rejected':>9}  error")
for (problem, rtol), lines in runs.items():
    for solver, nfe, nje, steps, rejected, y in lines:
        error = max(abs(a - b) / abs(b) for a, b in zip(y, tight[problem]))
        print(f"{problem:10} {rtol:6.0e}  {solver:9}{nfe:>12}{nje:>10}{steps:>7}{rejected:>9}  {error:.1e}")
