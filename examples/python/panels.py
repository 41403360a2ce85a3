"""What the pictures show, as data: panels of lines on axes. picture.py and plot.py draw them."""

from dataclasses import dataclass, field
from math import floor

import poses

# Colours that people who are blind to some colours tell apart: those of Okabe and Ito for what has a name, and for time
# a part of viridis, which also darkens evenly.
BLUE, VERMILION, GREEN, PURPLE = "#0072B2", "#D55E00", "#009E73", "#CC79A7"
NAMED = [BLUE, VERMILION, GREEN, PURPLE]
TIME = ["#b5de2b", "#6ece58", "#35b779", "#1f9e89", "#26828e", "#31688e", "#3e4989", "#482878", "#440154"]


@dataclass
class Line:
    xs: list
    ys: list
    colour: str
    name: str = ""  # in the legend, where it has one
    width: float = 1.6


@dataclass
class Level:
    """A horizontal line across the panel, with its name on it."""

    y: float
    name: str


@dataclass
class Scale:
    """What the colours of the lines mean: `low` to `high` run through `colours`."""

    name: str
    low: float
    high: float
    colours: list


@dataclass
class Panel:
    title: str
    across: str
    up: str
    lines: list
    levels: list = field(default_factory=list)
    log: bool = False  # the axis that points up
    equal: bool = False  # a metre is as long across as up
    scale: Scale = None

    def limits(self):
        """The ranges of both axes, with some room around what is drawn."""
        xs = [x for line in self.lines for x in line.xs]
        ys = [y for line in self.lines for y in line.ys] + [level.y for level in self.levels]
        (left, right), (low, high) = (min(xs), max(xs)), (min(ys), max(ys))
        room = 0.05 * (high - low) or 1.0
        aside = room if self.equal else 0.01 * (right - left)
        up = (low / 1.7, high * 1.7) if self.log else (low - room, high + room)
        return (left - aside, right + aside), up


@dataclass
class Figure:
    """Panels of poses, one under the other, and beside them panels over time."""

    title: str
    note: str
    poses: list
    over_time: list


def between(colours, share):
    """The colour at a share, 0 to 1, of the way through the list."""
    place = share * (len(colours) - 1)
    k = min(floor(place), len(colours) - 2)
    ends = [[int(c[i : i + 2], 16) for i in (1, 3, 5)] for c in colours[k : k + 2]]
    return "#" + "".join(f"{round(a + (place - k) * (b - a)):02x}" for a, b in zip(*ends))


def onion(rig, found, every):
    """The rig itself in every so many of the frames, each pose in the colour of its time, the last on top."""
    begin, end = found[0].time, found[-1].time
    thick = max(rig.lengths)
    lines = []
    for pose in found[::every]:
        colour = between(TIME, (pose.time - begin) / ((end - begin) or 1.0))
        for length, ((x0, y0), (x1, y1)) in zip(rig.lengths, poses.strokes(rig, pose.ends)):
            lines.append(Line([x0, x1], [y0, y1], colour, width=0.9 + 2.0 * length / thick))
    title = f"Poses from {begin:.3g} to {end:.3g} s, {poses.RATE / every:g} a second"
    return Panel(title, "x (m)", "y (m)", lines, equal=True, scale=Scale("time (s)", begin, end, TIME))


def angles(rig, result, end, links, points=600):
    """The angles of some links up to a time, at and between the accepted steps."""
    times = [end * k / points for k in range(points + 1)]
    states = [result.sol(t) for t in times]
    lines = [Line(times, [float(y[i]) for y in states], colour, rig.links[i]) for i, colour in zip(links, NAMED)]
    return Panel("Angles", "time (s)", "angle (rad)", lines)


def step_sizes(result):
    """The size of each accepted step, from where it begins to where it ends."""
    xs, ys = [], []
    for begin, end in zip(result.t, result.t[1:]):
        if end > begin:  # a step can be too small to move the time, and a log axis has no 0
            xs += [float(begin), float(end)]
            ys += [1000.0 * float(end - begin)] * 2
    title = f"Step size, {result.accepted:,} accepted steps"
    return Panel(title, "time (s)", "step (ms)", [Line(xs, ys, BLUE, width=1.0)], log=True)


def requests(result):
    """Derivatives that a step asks for: the largest number and the mean of the steps that begin in each frame."""
    by_frame = {}
    for begin, asked in zip(result.t, result.counts):
        by_frame.setdefault(poses.number_at(begin), []).append(asked)
    xs, largest, mean = [], [], []
    for frame, asked in sorted(by_frame.items()):
        xs += [frame / poses.RATE, (frame + 1) / poses.RATE]
        largest += [max(asked)] * 2
        mean += [sum(asked) / len(asked)] * 2
    lines = [Line(xs, largest, VERMILION, "most in a frame"), Line(xs, mean, BLUE, "mean")]
    cap = Level(result.cap, f"cap, proved: {result.cap}")
    return Panel("Requests per step", "time (s)", "derivatives", lines, [cap], log=True)
