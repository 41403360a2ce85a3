"""Draws a figure of panels.py as a plain SVG, with nothing but Python itself."""

from html import escape
from math import ceil, floor, log10

WIDTH, HEIGHT = 1200, 760
TOP, COLUMNS = 100, ((80, 410), (670, 505))  # where the panels begin; left edge and width of both columns
BELOW, GAP = 52, 40  # under a panel for its axis, and between that and the next one
POINT = 1.35  # a width of a panel's line, in pixels
GRID, INK = "#e6e6e6", "#222222"


def _ticks(low, high, wanted):
    rough = (high - low) / wanted
    power = 10.0 ** floor(log10(rough))
    step = next(s * power for s in (1, 2, 5, 10) if s * power >= rough)
    first, last = ceil(low / step), floor(high / step)
    return [k * step for k in range(first, last + 1)]


def _number(value):
    return f"{value:.6g}".replace("-", "\u2212")


def _text(x, y, words, more=""):
    return f'<text x="{x:.1f}" y="{y:.1f}" {more}>{escape(words)}</text>'


def _path(points, colour, width, more=""):
    drawn = "M" + "L".join(f"{x:.1f} {y:.1f}" for x, y in points)
    return f'<path d="{drawn}" fill="none" stroke="{colour}" stroke-width="{width:.1f}" {more}/>'


class _Axes:
    """A panel's box, and where a number stands in it."""

    def __init__(self, panel, left, top, width, height):
        self.panel, self.left, self.top, self.right, self.bottom = panel, left, top, left + width, top + height
        self.across, self.up = panel.limits()
        if panel.log:
            self.up = tuple(map(log10, self.up))
        if panel.equal:  # the range that is too short for the box is widened to both sides
            spans = [b - a for a, b in (self.across, self.up)]
            unit = max(spans[0] / width, spans[1] / height)
            self.across, self.up = (
                ((a + b - unit * size) / 2, (a + b + unit * size) / 2)
                for (a, b), size in ((self.across, width), (self.up, height))
            )

    def x(self, value):
        return self.left + (value - self.across[0]) / (self.across[1] - self.across[0]) * (self.right - self.left)

    def y(self, value):
        value = log10(value) if self.panel.log else value
        return self.bottom - (value - self.up[0]) / (self.up[1] - self.up[0]) * (self.bottom - self.top)

    def draw(self):
        panel, left, right, top, bottom = self.panel, self.left, self.right, self.top, self.bottom
        out = [_text(left, top - 12, panel.title, 'font-weight="bold" font-size="15"')]
        if panel.log:
            ups = [10.0**k for k in range(ceil(self.up[0]), floor(self.up[1]) + 1)]
        else:
            ups = _ticks(*self.up, (bottom - top) / 45)
        for v in ups:
            out.append(_path([(left, self.y(v)), (right, self.y(v))], GRID, 1))
            out.append(_text(left - 8, self.y(v) + 5, _number(v), 'text-anchor="end"'))
        for v in _ticks(*self.across, (right - left) / 60):
            out.append(_path([(self.x(v), top), (self.x(v), bottom)], GRID, 1))
            out.append(_text(self.x(v), bottom + 18, _number(v), 'text-anchor="middle"'))
        out.append(_path([(left, top), (left, bottom), (right, bottom)], INK, 1))
        out.append(_text((left + right) / 2, bottom + 38, panel.across, 'text-anchor="middle"'))
        x, y = left - 58, (top + bottom) / 2
        out.append(_text(x, y, panel.up, f'text-anchor="middle" transform="rotate(-90 {x:.1f} {y:.1f})"'))
        for line in panel.lines:
            points = [(self.x(a), self.y(b)) for a, b in zip(line.xs, line.ys)]
            out.append(_path(points, line.colour, POINT * line.width, 'stroke-linecap="round" stroke-linejoin="round"'))
        for level in panel.levels:
            y = self.y(level.y)
            out.append(_path([(left, y), (right, y)], INK, 1.2, 'stroke-dasharray="6 4"'))
            out.append(_text(right - 2, y + 17, level.name, 'text-anchor="end"'))
        return out + self._legend() + self._scale()

    def _legend(self):
        out, x = [], self.right
        for line in reversed([line for line in self.panel.lines if line.name]):
            x -= 8 * len(line.name) + 4  # a little more than its width
            out.append(_text(x, self.top - 12, line.name))
            out.append(_path([(x - 30, self.top - 17), (x - 8, self.top - 17)], line.colour, 2.5))
            x -= 48
        return out

    def _scale(self):
        scale = self.panel.scale
        if scale is None:
            return []
        left, height = self.right + 22, self.bottom - self.top
        name = f"scale{self.top:.0f}"
        share = 1.0 / (len(scale.colours) - 1)
        stops = [f'<stop offset="{k * share:.3f}" stop-color="{c}"/>' for k, c in enumerate(scale.colours)]
        out = [f'<linearGradient id="{name}" x1="0" y1="1" x2="0" y2="0">', *stops, "</linearGradient>"]
        out.append(f'<rect x="{left}" y="{self.top}" width="14" height="{height}" fill="url(#{name})"/>')
        for v in _ticks(scale.low, scale.high, height / 60):
            y = self.bottom - (v - scale.low) / (scale.high - scale.low) * height
            out.append(_text(left + 20, y + 5, _number(v)))
        x, y = left + 58, (self.top + self.bottom) / 2
        out.append(_text(x, y, scale.name, f'text-anchor="middle" transform="rotate(-90 {x} {y})"'))
        return out


def write(figure, stem):
    """Writes the figure to a file; gives the paths, of which there is one."""
    path = f"{stem}.svg"
    out = [
        f'<svg xmlns="http://www.w3.org/2000/svg" viewBox="0 0 {WIDTH} {HEIGHT}" width="{WIDTH}" height="{HEIGHT}"',
        f'    font-family="DejaVu Sans, Verdana, Helvetica, Arial, sans-serif" font-size="13" fill="{INK}">',
        f'<rect width="{WIDTH}" height="{HEIGHT}" fill="white"/>',
        _text(16, 30, figure.title, 'font-size="20" font-weight="bold"'),
        _text(16, 54, figure.note, 'fill="#444444"'),
    ]
    for panels, (left, width) in zip((figure.poses, figure.over_time), COLUMNS):
        pitch = (HEIGHT - TOP + GAP) / len(panels)
        for row, panel in enumerate(panels):
            out += _Axes(panel, left, TOP + row * pitch, width, pitch - BELOW - GAP).draw()
    with open(path, "w", encoding="utf-8") as file:
        file.write("\n".join([*out, "</svg>", ""]))
    return [path]
