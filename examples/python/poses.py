"""Poses of a rig: where its joints stand, the frames of a run, and the table of them as CSV."""

import csv
import math
from collections import namedtuple

RATE = 24  # frames a second

# angles: of the links (rad). ends: where each link ends, (x, y) in m; the fixed point is (0, 0), and y points up.
Pose = namedtuple("Pose", "frame time angles ends")


def ends(rig, angles):
    """Where each link ends: it goes from its joint along (sin a, -cos a)."""
    places = []
    for angle, length, above in zip(angles, rig.lengths, rig.hangs_from):
        x, y = (0.0, 0.0) if above is None else places[above]
        places.append((x + length * math.sin(angle), y - length * math.cos(angle)))
    return places


def strokes(rig, places):
    """Each link as a line from its joint to its end."""
    return [[(0.0, 0.0) if above is None else places[above], end] for above, end in zip(rig.hangs_from, places)]


def number_at(t):
    """The number of the last frame up to time t; the first is 0, at time 0."""
    return math.floor(t * RATE)


def frames(rig, result):
    """The pose of each frame. A run that ended early has none after its last accepted step, nor from a NaN on."""
    found, end = [], result.sol.t_max
    for k in range(number_at(rig.seconds) + 1):
        if k / RATE > end + 1e-9:
            break
        t = min(k / RATE, end)  # the last step's end may differ from the one asked for by a rounding
        state = [float(v) for v in result.sol(t)]
        if not all(map(math.isfinite, state)):
            break
        angles = state[: len(rig.links)]
        found.append(Pose(k, t, angles, ends(rig, angles)))
    return found


def shown(value, decimals):
    """The value with that many decimals, and no minus before a zero."""
    return f"{round(value, decimals) + 0.0:.{decimals}f}"


def write_csv(path, rig, poses, decimals):
    """Writes a line for each frame: number, time, the angle of each link, x and y of its end; gives the path."""
    names = [name.replace(" ", "_") for name in rig.links]
    with open(path, "w", newline="") as file:
        table = csv.writer(file, lineterminator="\n")
        ends_named = [f"{name}_end_{axis}_m" for name in names for axis in "xy"]
        table.writerow(["frame", "time_s", *(f"{name}_rad" for name in names), *ends_named])
        for pose in poses:
            numbers = [*pose.angles, *(v for end in pose.ends for v in end)]
            table.writerow([pose.frame, f"{pose.time:.6f}", *(shown(v, decimals) for v in numbers)])
    return path
