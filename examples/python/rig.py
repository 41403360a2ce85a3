"""The main job: a tail of twelve links and a hanging hand, solved by the proved library.

    bash run [FOLDER]                               builds the library and runs this
    python3 examples/python/rig.py [FOLDER]         where the library is built
    python3 examples/python/rig.py --readme         makes docs/pictures/tail.png, which README.md shows

Prints poses by frame and the counts with their caps, and writes for each rig to FOLDER:
    NAME.csv            every frame: time, angles, and where each link ends
    NAME.svg, NAME.png  the poses, and over time the angles, the step size and the requests per step
Without matplotlib there is a plainer SVG and no PNG.
"""

import argparse
import os
import sys
from collections import namedtuple

import repository  # noqa: F401; before raimsklo: it says which one
import panels
import poses
from progress import Progress
from raimsklo import solve_ivp
from rigs import HAND, TAIL

try:
    import plot
except ImportError:
    plot = None
    import picture

PICTURES = os.path.join(os.path.dirname(os.path.abspath(__file__)), "../../docs/pictures")

# At rtol 1e-4 the method takes the tail for stiff, and asks for eight times as many derivatives as here (errors.py).
RTOL, ATOL, MAX_STEPS = 1e-5, 1e-7, 100000

# decimals: as many as the error allows, that is at most half a unit of the last one. errors.py measures it beside a
# tight run: 8.8e-6 rad for the tail, 2.0e-4 rad for the hand; in metres it is less, since no rig is a metre long.
# links: whose angles are shown. skins: each a picture of poses, from one frame to another, every so many.
Show = namedtuple("Show", "rig decimals links skins")
SHOWS = [
    Show(TAIL, 4, [0, 3, 7, 11], [(0, 96, 4)]),
    Show(HAND, 3, [0, 1, 2, 3], [(0, 24, 2), (24, 96, 3)]),
]
PRINTED = 6  # every sixth frame


def solve(rig):
    frame = Progress(rig.name, "frame", poses.number_at(rig.seconds) + 1)
    result = solve_ivp(
        rig.fun,
        (0.0, rig.seconds),
        rig.start,
        rtol=RTOL,
        atol=ATOL,
        max_steps=MAX_STEPS,
        dense_output=True,
        report=lambda previous, t, y, count: frame.at(poses.number_at(t) + 1),
    )
    frame.done()
    return result


def print_poses(show, found):
    names = [show.rig.links[i] for i in show.links]
    print("  frame  time (s)" + "".join(f"{name + ' (rad)':>15}" for name in names))
    for pose in found[::PRINTED]:
        angles = [poses.shown(pose.angles[i], show.decimals) for i in show.links]
        print(f"  {pose.frame:5}  {pose.time:8.3f}" + "".join(f"{angle:>15}" for angle in angles))


def print_counts(result):
    """All caps are known beforehand: those of a step are proved, the number of steps is a setting."""
    print(f"  {'count':24}{'seen':>10}{'at most':>14}")
    for what, seen, cap in (
        ("steps", result.accepted, MAX_STEPS),
        ("derivatives in a step", max(result.counts, default=0), result.cap),
        ("derivatives", result.nfev, 1 + MAX_STEPS * result.cap),
        ("Jacobians", result.njev, MAX_STEPS * result.jacobian_cap),
    ):
        print(f"  {what:24}{seen:10,}{cap:14,}")


def figure(show, result, found):
    """All that is known of a run, or None where it ended before there were two poses to draw."""
    parts = [(found[first : last + 1], every) for first, last, every in show.skins]
    skins = [panels.onion(show.rig, part, every) for part, every in parts if len(part) > every]
    if not skins:
        return None
    note = (
        f"{result.end}: {result.nfev:,} requests in {result.accepted:,} accepted steps and {result.rejected:,} "
        f"rejected tries, rtol {RTOL:.0e}, atol {ATOL:.0e}".replace("e-0", "e-")
    )
    over_time = [
        panels.angles(show.rig, result, found[-1].time, show.links),
        panels.step_sizes(result),
        panels.requests(result),
    ]
    return panels.Figure(show.rig.title, note if result.success else result.message, skins, over_time)


def run(show, folder):
    result = solve(show.rig)
    found = poses.frames(show.rig, result)
    print(f"{show.rig.title}: {result.message}")
    print_poses(show, found)
    print_counts(result)
    stem = os.path.join(folder, show.rig.name)
    written = [poses.write_csv(stem + ".csv", show.rig, found, show.decimals)]
    drawn = figure(show, result, found)
    if drawn:
        written += (plot or picture).write(drawn, stem)
    print("  written: " + ", ".join(written) + "\n")
    return result.success


def readme():
    """The tail as README.md shows it: fewer panels, and letters to be read at 800 pixels."""
    show = SHOWS[0]
    result = solve(show.rig)
    drawn = figure(show, result, poses.frames(show.rig, result))
    drawn.over_time = drawn.over_time[1:]
    os.makedirs(PICTURES, exist_ok=True)
    stem = os.path.join(PICTURES, show.rig.name)
    print(os.path.relpath(plot.write(drawn, stem, ["png"], width=9.6, height=5.2, dpi=150)[0]))


def main():
    parser = argparse.ArgumentParser(description="Solves a tail and a hanging hand; prints and draws their poses.")
    parser.add_argument("folder", nargs="?", default="pictures", help="where the files go; made if missing (pictures)")
    parser.add_argument("--readme", action="store_true", help="make docs/pictures/tail.png alone (needs matplotlib)")
    given = parser.parse_args()
    if given.readme:
        if plot is None:
            parser.error("the picture of README.md needs matplotlib")
        readme()
        return 0
    os.makedirs(given.folder, exist_ok=True)
    good = [run(show, given.folder) for show in SHOWS]
    return 0 if all(good) else 1


if __name__ == "__main__":
    sys.exit(main())
