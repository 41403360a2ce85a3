"""What a run of a rig costs and how far off it is, from which rig.py has its tolerances and decimals.

    python3 examples/python/errors.py

The error is the largest difference in an angle, over all frames, beside a run of our own with tolerances so tight
that its own error is far below: beside scipy's DOP853 at 1e-12 it is 2e-8 rad for the tail, 4e-7 rad for the hand.
As many decimals are shown as leave the error at most half a unit of the last one.
"""

from math import floor, log10

import repository  # noqa: F401; before raimsklo: it says which one
import poses
from progress import Progress
from raimsklo import solve_ivp
from rigs import HAND, TAIL

TIGHT, TRIED = (1e-9, 1e-11), [(1e-4, 1e-6), (1e-5, 1e-7), (1e-6, 1e-8)]


def solved(rig, rtol, atol):
    result = solve_ivp(
        rig.fun, (0.0, rig.seconds), rig.start, rtol=rtol, atol=atol, max_steps=1000000, dense_output=True
    )
    assert result.success, result.message
    return result, [angle for pose in poses.frames(rig, result) for angle in pose.angles]


def main():
    print(f"{'rig':6}{'rtol':>8}{'atol':>8}{'requests':>10}{'error (rad)':>13}{'decimals':>10}")
    for rig in (TAIL, HAND):
        progress = Progress(rig.name, "run", len(TRIED) + 1)
        progress.at(1)
        _, right = solved(rig, *TIGHT)
        rows = []
        for k, (rtol, atol) in enumerate(TRIED):
            progress.at(k + 2)
            result, angles = solved(rig, rtol, atol)
            error = max(abs(a - b) for a, b in zip(angles, right))
            decimals = floor(-log10(2.0 * error))
            rows.append(f"{rig.name:6}{rtol:8.0e}{atol:8.0e}{result.nfev:10,}{error:13.1e}{decimals:10}")
        progress.done()
        print("\n".join(rows))


if __name__ == "__main__":
    main()
