"""Draws a figure of panels.py with matplotlib."""

import matplotlib

matplotlib.use("Agg")  # no window

from matplotlib import pyplot  # noqa: E402
from matplotlib.cm import ScalarMappable  # noqa: E402
from matplotlib.colors import LinearSegmentedColormap, Normalize  # noqa: E402
from matplotlib.ticker import FuncFormatter, LogLocator, MaxNLocator, NullFormatter  # noqa: E402
from PIL import Image  # noqa: E402; matplotlib needs it itself

LOOK = {
    "font.size": 11,
    "axes.titlesize": 12,
    "axes.titleweight": "bold",
    "axes.titlelocation": "left",
    "axes.titlepad": 8,
    "axes.spines.top": False,
    "axes.spines.right": False,
    "axes.grid": True,
    "axes.axisbelow": True,
    "grid.color": "#e6e6e6",
    "lines.solid_capstyle": "round",
    "svg.fonttype": "none",  # text stays text
    "svg.hashsalt": "raimsklo",  # the same figure gives the same file
}


def _draw(axes, panel):
    across, up = panel.limits()
    for line in panel.lines:
        axes.plot(line.xs, line.ys, color=line.colour, linewidth=line.width, label=line.name or "_")
    for level in panel.levels:
        axes.axhline(level.y, color="black", linewidth=1.2, linestyle=(0, (5, 3)))
        place = dict(xycoords=axes.get_yaxis_transform(), textcoords="offset points", ha="right", va="top")
        axes.annotate(level.name, (1, level.y), (-2, -4), **place)
    axes.set(title=panel.title, xlabel=panel.across, ylabel=panel.up, xlim=across)
    if panel.log:
        axes.set_yscale("log")
        axes.yaxis.set_major_locator(LogLocator(numticks=7))
        axes.yaxis.set_major_formatter(FuncFormatter(lambda value, _: f"{value:g}"))
        axes.yaxis.set_minor_formatter(NullFormatter())
    axes.set_ylim(up)
    if panel.equal:
        axes.set_aspect("equal", adjustable="datalim")
        axes.xaxis.set_major_locator(MaxNLocator(6, steps=[1, 2, 5, 10]))
        axes.yaxis.set_major_locator(MaxNLocator(8, steps=[1, 2, 5, 10]))
    named = sum(bool(line.name) for line in panel.lines)
    if named:
        place = dict(loc="lower right", bbox_to_anchor=(1, 1), borderaxespad=0.4, borderpad=0.2)
        room = dict(handlelength=1.5, handletextpad=0.5, columnspacing=1.2)
        axes.legend(**place, **room, ncol=named, frameon=False, fontsize=10)


def write(figure, stem, kinds=("png", "svg"), width=12.0, height=7.2, dpi=130):
    """Writes the figure, `width` by `height` inches, to a file of each kind; gives their paths."""
    paths = [f"{stem}.{kind}" for kind in kinds]
    with pyplot.rc_context(LOOK):
        drawn = pyplot.figure(figsize=(width, height), constrained_layout=True)
        drawn.set_constrained_layout_pads(w_pad=0.1, h_pad=0.08)
        # the title leaves room for the note under it
        drawn.suptitle(f"{figure.title}\n", x=0.01, ha="left", fontsize=16, fontweight="bold")
        drawn.text(0.01, 1 - 0.46 / height, figure.note, color="#444444")
        left, right = drawn.subfigures(1, 2, width_ratios=[1, 1.15])
        for part, panels in ((left, figure.poses), (right, figure.over_time)):
            part.subplots(len(panels), 1)
            for axes, panel in zip(part.axes, panels):
                _draw(axes, panel)
        for axes, panel in zip(list(left.axes), figure.poses):
            colours = LinearSegmentedColormap.from_list("scale", panel.scale.colours)
            meaning = ScalarMappable(Normalize(panel.scale.low, panel.scale.high), colours)
            left.colorbar(meaning, ax=axes, label=panel.scale.name, aspect=30, pad=0.03)
        # laid out once: each saving would widen the equal axes anew, and the files would differ
        drawn.canvas.draw()
        drawn.set_layout_engine("none")
        for path, kind in zip(paths, kinds):
            drawn.savefig(path, dpi=dpi, metadata={"Date": None} if kind == "svg" else None)
            if kind == "png":  # a third of the size
                Image.open(path).convert("RGB").quantize(256).save(path, optimize=True)
        pyplot.close(drawn)
    return paths
